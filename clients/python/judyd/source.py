"""The journal that `judy ship` reads while a server writes it: its snapshot, the whole commits of its segments, and
where a copy goes on. It locks the journal's files only while it opens them, as other readers do.
"""

import os
from typing import Dict, List, NamedTuple, Optional, Tuple

from .errors import Error
from .journalfiles import (
    PIECE, Damage, Manifest, begins_segment, first_line, front_digest, last_sum, read_manifest, read_place, reading, segment_name, snapshot_name,
    whole_end,
)  # fmt: skip

TRIES = 10
"""How often a comparison begins again because a compaction removed a file."""


class Parted(Error):
    """The copy is not a front of this journal."""


class Fileless(Error):
    """The journal has no such file any more: a compaction has removed it."""


class Told(NamedTuple):
    """What a receiver has: the id of the journal of which it is a copy, and its files, each with its size and its
    SHA-256."""

    origin: str
    files: Dict[str, Tuple[int, str]]

    def numbers(self, is_segment: bool) -> List[int]:
        """The numbers of its segments, or of its snapshots."""
        places = [read_place(name) for name in self.files]
        return sorted(place[0] for place in places if place is not None and place[1] == is_segment)


class Snapshot:
    """A snapshot that is read from its front on. It can be read also once its file is removed."""

    def __init__(self, number: int, file: int) -> None:
        self.number = number
        self.name = snapshot_name(number)
        self._file = file
        self.at = 0
        self.size = os.fstat(file).st_size

    def next_piece(self) -> bytes:
        """The next bytes. None are left at the end."""
        piece = os.pread(self._file, min(PIECE, self.size - self.at), self.at)
        self.at += len(piece)
        return piece

    def close(self) -> None:
        """Closes the file."""
        os.close(self._file)


class Segment:
    """A segment that is read from a place on, commit by commit."""

    def __init__(self, folder: str, number: int, file: int, at: int) -> None:
        self.number = number
        self.name = segment_name(number)
        self.path = os.path.join(folder, self.name)
        self._file = file
        self.at = at
        digest = front_digest(file, at)
        if digest is None:
            raise Parted("%s: it has less than %d bytes, which the copy has" % (self.path, at))
        self._digest = digest
        self._before = b""  # the checksum from which it must continue, if that is known

    def continues(self, before: "Segment") -> None:
        """Notes that it comes after a segment that was read to its end."""
        self._before = last_sum(before._file, before.at)

    def next_piece(self) -> Tuple[bytes, bool]:
        """The next whole commits, and whether the file has no byte after them but of a commit that is not whole yet.
        Zeros were written ahead; so a byte before the first zero is as it stays."""
        text = os.pread(self._file, PIECE, self.at)
        is_all = len(text) < PIECE
        zero = text.find(b"\0")
        if zero >= 0:
            text, is_all = text[:zero], True
        end = whole_end(text)
        if not end and self.at == 0 and begins_segment(self.number, text):
            end = text.index(b"\n") + 1
        if not end and not is_all:
            raise Damage("%s: byte %d: there is no end of a commit" % (self.path, self.at))
        if end and self.at == 0 and self._before and not text.startswith(first_line(self.number, self._before)):
            raise Damage("%s: it does not continue from the segment before" % self.path)
        self.at += end
        self._digest.update(text[:end])
        return text[:end], is_all

    def renew(self) -> None:
        """Opens the file anew if another one has its name: a server that starts writes its last segment anew, with
        the same whole commits. Raises Fileless if there is none."""
        now, before = stat_of(self.path), os.fstat(self._file)
        if now is None:
            raise Fileless("%s: missing" % self.path)
        if (now.st_ino, now.st_dev) == (before.st_ino, before.st_dev):
            return
        file = open_file(self.path)
        digest = front_digest(file, self.at)
        if digest is None or digest.digest() != self._digest.digest():
            os.close(file)
            raise Parted("%s: it was written anew, and its first %d bytes are not those that were sent" % (self.path, self.at))
        os.close(self._file)
        self._file = file

    def check_end(self) -> None:
        """Raises Damage if a segment before the last one has more than whole commits."""
        if os.fstat(self._file).st_size != self.at:
            raise Damage("%s: byte %d: no whole commit follows, and there is a further segment" % (self.path, self.at))

    def left(self) -> int:
        """How many bytes of commits follow. Zeros behind them do not count."""
        low, high = self.at, os.fstat(self._file).st_size
        while low < high:
            middle = (low + high) // 2
            if os.pread(self._file, 1, middle) in (b"", b"\0"):
                high = middle
            else:
                low = middle + 1
        return low - self.at

    def close(self) -> None:
        """Closes the file."""
        os.close(self._file)


def stat_of(path: str) -> Optional[os.stat_result]:
    """What the system says of a file. None if it is not there."""
    try:
        return os.stat(path)
    except FileNotFoundError:
        return None


def open_file(path: str) -> int:
    """Opens a file for reading. Raises Fileless if it is not there."""
    try:
        return os.open(path, os.O_RDONLY | os.O_CLOEXEC)
    except FileNotFoundError:
        raise Fileless("%s: missing" % path) from None


class Journal:
    """The directory of a journal."""

    def __init__(self, folder: str) -> None:
        self.folder = folder
        self._seen: Tuple[int, int] = (0, 0)
        self._manifest = Manifest(0, 0)

    def path(self, name: str) -> str:
        """The path of a file."""
        return os.path.join(self.folder, name)

    def manifest(self) -> Manifest:
        """The manifest. It is read again once it was replaced."""
        found = stat_of(self.path("manifest"))
        if found is None:
            raise Damage("%s: missing" % self.path("manifest"))
        seen = (found.st_ino, found.st_mtime_ns)
        if seen != self._seen:
            self._manifest, self._seen = read_manifest(self.folder) or self._manifest, seen
        return self._manifest

    def has_segment(self, number: int) -> bool:
        """Whether there is a segment with this number."""
        return stat_of(self.path(segment_name(number))) is not None

    def open_snapshot(self) -> Optional[Snapshot]:
        """The snapshot that the manifest names now."""
        with reading(self.folder):
            number = (read_manifest(self.folder) or Manifest(0, 0)).snapshot
            return Snapshot(number, open_file(self.path(snapshot_name(number)))) if number else None

    def open_segment(self, number: int, at: int) -> Segment:
        """A segment, to be read from a place on. Raises Fileless if it is not there."""
        return Segment(self.folder, number, open_file(self.path(segment_name(number))), at)

    def open_next(self, before: Segment) -> Segment:
        """The segment after one that was read to its end. Raises Fileless if it is not there."""
        segment = self.open_segment(before.number + 1, 0)
        segment.continues(before)
        return segment

    def size_after(self, number: int) -> int:
        """How many bytes the segments after this one have, without the zeros behind the last one."""
        size, number = 0, number + 1
        while True:
            try:
                segment = self.open_segment(number, 0)
            except Fileless:
                return size
            try:
                size += segment.left()
            finally:
                segment.close()
            number += 1

    def is_behind(self, origin: str, told: Told) -> bool:
        """Whether a copy needs the snapshot before it goes on with its last segment. Raises Parted, with the first
        file that differs, if its files are no fronts of those of this journal."""
        for left in reversed(range(TRIES)):
            try:
                return self._is_behind(origin, told)
            except Fileless:
                if not left:
                    raise
        raise AssertionError

    def _is_behind(self, origin: str, told: Told) -> bool:
        """The same. Raises Fileless if a compaction has removed a file meanwhile."""
        with reading(self.folder):
            manifest = read_manifest(self.folder)
        if manifest is None:
            raise Damage("%s: missing" % self.path("manifest"))
        snapshots, segments = told.numbers(False), told.numbers(True)
        snapshot = max(snapshots, default=0)
        if snapshot > manifest.snapshot:
            raise Parted("%s: the copy has it, and this journal has no snapshot of so many segments" % snapshot_name(snapshot))
        shared = [snapshot_name(snapshot)] if 0 < snapshot == manifest.snapshot else []
        shared += [segment_name(number) for number in segments if number > manifest.snapshot]
        for name in shared:
            self._compare(name, told, name == segment_name(segments[-1]) if segments else False)
        if told.files and told.origin != origin and not any(told.files[name][0] for name in shared):
            raise Parted("%s: this journal has no such file, and the directory is no copy of it" % next(iter(told.files)))
        return manifest.snapshot > snapshot and (not segments or segments[-1] <= manifest.snapshot)

    def _compare(self, name: str, told: Told, is_last: bool) -> None:
        """Raises Parted if a file of a copy is no front of the file here, or another file if it is not the last."""
        (size, wanted), path = told.files[name], self.path(name)
        number, is_segment = read_place(name) or (0, False)
        if is_segment and not self._has_from(number):
            raise Parted("%s: the copy has it with %d bytes, and this journal does not" % (name, size))
        file = open_file(path)
        try:
            digest = front_digest(file, size)
            is_same = digest is not None and digest.hexdigest() == wanted
            is_whole = os.fstat(file).st_size == size if not is_last else size == 0 or os.pread(file, 1, size - 1) == b"\n"
        finally:
            os.close(file)
        if not is_same:
            raise Parted("%s: the copy has %d bytes of it, and they are not the first of this journal's" % (name, size))
        if not is_whole:
            raise Parted("%s: the copy has %d bytes of it, and they are not all lines of this journal's" % (name, size))

    def _has_from(self, number: int) -> bool:
        """Whether the journal has a segment with this number or a later one, or a snapshot that stands for it."""
        with reading(self.folder):
            places = [read_place(name) for name in os.listdir(self.folder)]
        return any(place is not None and place[0] >= number for place in places)
