"""The directory of a copy, which `judy receive` writes. At each moment, also after a loss of power, it is a journal
from which judyd starts, with all that was settled before. So no file that judyd reads is ever written to: a file
is written and synced under another name, and then renamed (twins.py has how a segment grows). The manifest comes
after the files that it names, and files go once the manifest does not need them.
"""

import os
import re
from contextlib import suppress
from typing import Iterator, List, NamedTuple, Optional

from .dumpfile import write_all
from .journalfiles import (
    FIRST_SUM, Damage, Manifest, first_line, found_in, front_digest, last_sum, no_readers, read_manifest, remove_if_there, segment_name,
    snapshot_name, try_lock,
)  # fmt: skip
from .twins import NEW, Disk, Twin, is_id, make_directory

ORIGIN = ".receive"
"""The file that has the id of the journal of which the directory is a copy."""

_LEFT = re.compile(r"(?:[0-9]{12}\.(?:journal|snapshot)|manifest|%s)(?:\.old)?\.new" % re.escape(ORIGIN))


class Place(NamedTuple):
    """Where a copy ends: a segment, and how many bytes it has."""

    segment: int
    byte: int

    def __str__(self) -> str:
        return "%d:%d" % self


class Front(NamedTuple):
    """A file of a copy: its size, and the SHA-256 of its bytes."""

    name: str
    size: int
    digest: str


class Mirror:
    """The directory of a copy, which is locked as a server and a compaction lock theirs."""

    def __init__(self, folder: str) -> None:
        self.folder = folder
        self._disk = Disk(folder)
        self._locks: List[int] = []
        self._twin: Optional[Twin] = None
        self._snapshot = -1  # the file of the snapshot that comes
        self._coming = self._snapshot_size = 0
        self._has_begun = self._is_stale = False
        make_directory(folder)
        try:
            self._take()
        except BaseException:
            self.close()
            raise

    def _take(self) -> None:
        """Takes the directory, and looks which files it has."""
        self._locks.append(try_lock(self.folder, "compact.lock", "a compaction, a repair or another judy receive"))
        start = try_lock(self.folder, "start.lock", "a server that starts")
        try:
            self._locks.append(try_lock(self.folder, "lock", "a server"))
        finally:
            os.close(start)
        self._manifest = read_manifest(self.folder)
        found = found_in(self.folder)
        self.snapshot, self.last = found.snapshot, found.last
        self._is_stale = bool(found.old)
        if self._manifest is not None:
            self._check(self._manifest)
        self.origin = self._read_origin()

    def _check(self, manifest: Manifest) -> None:
        """Raises Damage if the files are not those of the manifest, as judyd refuses them."""
        if self.snapshot < manifest.snapshot:
            raise Damage("%s: missing" % self._disk.path(snapshot_name(manifest.snapshot)))
        last = self.last if self.last > self.snapshot else 0
        if last < manifest.last or (self.snapshot and not last):
            raise Damage("%s: missing" % self._disk.path(segment_name(max(last, self.snapshot) + 1)))
        if last > manifest.last + 1:
            raise Damage("%s/manifest: it names segment %d as the last, and %d is there" % (self.folder, manifest.last, last))

    def _read_origin(self) -> str:
        """The id of the journal of which this is a copy, or a hyphen."""
        with suppress(FileNotFoundError), open(self._disk.path(ORIGIN), encoding="ascii", errors="replace") as file:
            text = file.read(100).strip()
            if is_id(text):
                return text
        return "-"

    def place(self) -> Place:
        """Where the copy ends, by what is settled."""
        if self._twin is not None and self._twin.number == self.last:
            return Place(self.last, self._twin.size)
        return Place(self.last, self._disk.size(segment_name(self.last)) if self.last > self.snapshot else 0)

    def fronts(self) -> Iterator[Front]:
        """The files that a start reads."""
        names = [snapshot_name(self.snapshot)] if self.snapshot else []
        for name in [*names, *map(segment_name, range(self.snapshot + 1, self.last + 1))]:
            file = self._disk.open(name)
            try:
                size = os.fstat(file).st_size
                digest = front_digest(file, size)
            finally:
                os.close(file)
            if digest is not None:
                yield Front(name, size, digest.hexdigest())

    def begin(self, origin: str) -> None:
        """Begins to write: removes files that are not finished, and notes of which journal this is a copy."""
        self._has_begun = True
        self._remove_left()
        if origin != self.origin:
            self._disk.put(ORIGIN, origin.encode() + b"\n")
            self.origin = origin

    def _remove_left(self) -> None:
        """Removes files that are not finished."""
        for name in os.listdir(self.folder):
            if _LEFT.fullmatch(name):
                remove_if_there(self._disk.path(name))

    def size(self, number: int, is_segment: bool) -> Optional[int]:
        """How many bytes the segment or the snapshot that comes has so far. None if another one is wanted."""
        if not is_segment:
            is_wanted = number > self.snapshot and self._coming in (0, number)
            return (self._snapshot_size if self._coming else 0) if is_wanted else None
        if self._twin is not None and self._twin.number == number:
            return self._twin.end
        is_settled = self._twin is None or self._twin.end == self._twin.size
        if number == self.last > self.snapshot:
            return self._disk.size(segment_name(number))
        is_next = number == self.last + 1 and (self._twin is None or self._twin.number == self.last)
        return 0 if is_next and is_settled else None

    def add(self, number: int, data: bytes) -> None:
        """Appends whole commits to a segment. They count once they are settled."""
        if self._twin is None or self._twin.number != number:
            self._drop_twin()
            self._twin = Twin(self._disk, number, number == self.last)
        self._twin.add(data)

    def add_snapshot(self, number: int, data: bytes) -> None:
        """Appends to the snapshot that comes. It counts once it is installed."""
        if not self._coming:
            self._snapshot, self._coming, self._snapshot_size = self._disk.make(snapshot_name(number) + NEW), number, 0
        write_all(self._snapshot, data)
        self._snapshot_size += len(data)

    def _drop_twin(self) -> None:
        """Ends with the segment that grew."""
        twin, self._twin = self._twin, None
        if twin is not None:
            twin.close()

    def settle(self) -> Place:
        """Makes all that was added to a segment a part of the copy, for good."""
        twin = self._twin
        if twin is not None and twin.end > twin.size:
            twin.settle()
            if twin.number > self.last:
                self.last = twin.number
        if self._manifest is None or self._manifest.last < self.last:
            self._note()
        if self._is_stale:
            self._remove_stale()
        return self.place()

    def _note(self) -> None:
        """Has the manifest name the snapshot and the last segment. A snapshot has a segment after it."""
        if self.snapshot and self.last == self.snapshot:
            self._put_segment(self.last + 1, b"")
        manifest = Manifest(self.snapshot, self.last)
        self._disk.put("manifest", manifest.text())
        self._manifest = manifest

    def _put_segment(self, number: int, text: bytes) -> None:
        """Gives a segment this text, and makes it the last one."""
        self._disk.put(segment_name(number), text)
        self.last = number

    def install(self) -> Place:
        """Makes the snapshot that came a part of the copy, for good. Then removes the files for which it stands."""
        self.settle()
        number = self._coming
        os.fsync(self._snapshot)
        if self._manifest is not None:  # without one judyd does not start yet
            self._bridge(number)
        self._disk.rename(snapshot_name(number) + NEW, snapshot_name(number))
        self._disk.sync()
        os.close(self._snapshot)
        self._snapshot, self._coming, self.snapshot = -1, 0, number
        if self.last < number:
            self.last = number
        if self._twin is not None and self._twin.number <= number:
            self._drop_twin()
        self._note()
        self._remove_stale()
        return self.place()

    def _bridge(self, upto: int) -> None:
        """Makes an empty segment after the one up to which a snapshot stands, if there is none. judyd wants it
        beside the snapshot, and all segments before it while the snapshot has no name. So those get a first
        line, which continues from where the copy ends. They go once the snapshot is there."""
        if self.last > upto:
            return
        self._drop_twin()
        checksum = self._end_sum()
        if self.last and self._disk.size(segment_name(self.last)) == 0:
            self._put_segment(self.last, first_line(self.last, checksum))
        for number in range(self.last + 1, upto + 1):
            self._put_segment(number, first_line(number, checksum))
            self._note()
        self._put_segment(upto + 1, b"")
        self._note()

    def _end_sum(self) -> bytes:
        """The checksum with which the copy ends: that of the last line of the last segment. If that is empty, the
        first line of the snapshot has it."""
        size = self._disk.size(segment_name(self.last)) if self.last else 0
        if not size and not self.snapshot:
            return FIRST_SUM
        file = self._disk.open(segment_name(self.last) if size else snapshot_name(self.snapshot))
        try:
            return last_sum(file, size) if size else os.pread(file, 200, 0).partition(b"\n")[0][-16:]
        finally:
            os.close(file)

    def _remove_stale(self) -> None:
        """Removes the files for which the snapshot stands, unless somebody reads the journal; then another time."""
        self._is_stale = True
        with no_readers(self.folder) as is_alone:
            if is_alone:
                for name in found_in(self.folder).old:
                    remove_if_there(self._disk.path(name))
                self._is_stale = False

    def close(self) -> None:
        """Removes what was not settled, and gives the directory up."""
        with suppress(OSError):
            self._drop_twin()
            if self._has_begun:
                self._remove_left()
        for file in (*self._locks, self._snapshot):
            if file >= 0:
                os.close(file)
        self._locks, self._snapshot = [], -1
