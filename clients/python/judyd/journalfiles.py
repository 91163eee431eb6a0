"""The files of a journal, as docs/FORMAT.md describes them: their names, the manifest, the locks, and where
whole commits end. `judy ship` reads them, and `judy receive` writes a copy of them."""

import fcntl
import hashlib
import os
import re
from contextlib import contextmanager, suppress
from typing import Iterator, List, NamedTuple, Optional, Tuple

from .errors import Error

PIECE = 1 << 20
"""The most bytes that are read, sent and written at once. A commit with its mark is much smaller."""

FIRST_SUM = b"0" * 16
"""The checksum from which segment 1 continues."""

NAME = re.compile(r"([0-9]{12})\.(journal|snapshot)")
_TORN = re.compile(r"([0-9]{12})\.torn")
_PASSED = re.compile(r"(?:compact\.|read\.|start\.|manifest\.)?lock|manifest|lost\+found|\..*|.*\.new|.*\.torn")
_MANIFEST = re.compile(rb"judyd manifest 1 ([0-9]{1,20}) ([0-9]{1,20}) [0-9a-f]{16}\n")
_MARK = re.compile(rb"# [0-9]{1,20} [0-9a-f]{16}\n")
_FACTOR = 1099511628211


class Damage(Error):
    """A journal or a copy is not as docs/FORMAT.md says."""


class InUse(Error):
    """Another program has the directory."""


class Manifest(NamedTuple):
    """The numbers that a manifest has: the snapshot and the last segment, 0 for none."""

    snapshot: int
    last: int

    def text(self) -> bytes:
        """The text of the file."""
        front, number = b"judyd manifest 1 %d %d " % self, 0
        for byte in front:
            number = (number * _FACTOR + byte) % 2**64
        return front + b"%016x\n" % number


class Found(NamedTuple):
    """The files of a directory that a start reads: the snapshot, or 0, and the segments after it up to the last;
    that is the snapshot's number if there is none. `old` are the names of the files that are not read."""

    snapshot: int
    last: int
    old: List[str]


def segment_name(number: int) -> str:
    """The name of a segment."""
    return "%012d.journal" % number


def snapshot_name(number: int) -> str:
    """The name of a snapshot."""
    return "%012d.snapshot" % number


def first_line(number: int, checksum: bytes) -> bytes:
    """The first line of a segment that continues from a checksum."""
    return b"judyd journal 1 %d %s\n" % (number, checksum)


def read_manifest(folder: str) -> Optional[Manifest]:
    """The manifest of a directory. None if there is none."""
    path = os.path.join(folder, "manifest")
    try:
        with open(path, "rb") as file:
            text = file.read(200)
    except FileNotFoundError:
        return None
    found = _MANIFEST.fullmatch(text)
    if found:
        manifest = Manifest(int(found[1]), int(found[2]))
        if manifest.text() == text:
            return manifest
    raise Damage("%s: damaged" % path)


def found_in(folder: str) -> Found:
    """The files of a directory. One with another name, or a missing segment, raises Damage, as judyd refuses it."""
    snapshots: List[int] = []
    segments: List[int] = []
    torn: List[str] = []
    for name in sorted(os.listdir(folder)):
        found, set_aside = NAME.fullmatch(name), _TORN.fullmatch(name)
        if found and int(found[1]):
            (segments if found[2] == "journal" else snapshots).append(int(found[1]))
        elif set_aside:
            torn.append(name)
        elif not _PASSED.fullmatch(name):
            raise Damage("%s/%s: no name of a journal's file" % (folder, name))
    snapshot = max(snapshots, default=0)
    read = [number for number in segments if number > snapshot]
    for wanted, number in enumerate(read, snapshot + 1):
        if number != wanted:
            raise Damage("%s/%s: missing" % (folder, segment_name(wanted)))
    old = [snapshot_name(number) for number in snapshots if number < snapshot]
    old += [segment_name(number) for number in segments if number <= snapshot]
    return Found(snapshot, max(read, default=snapshot), old + [name for name in torn if int(name[:12]) <= snapshot])


def own(folder: str, file: int) -> None:
    """Gives a file that root made to the owner of its directory, as judyd does."""
    if os.geteuid() == 0:
        found = os.stat(folder)
        os.fchown(file, found.st_uid, found.st_gid)


def open_lock(folder: str, name: str) -> int:
    """The file of a lock, which is made if it is not there."""
    file = os.open(os.path.join(folder, name), os.O_RDWR | os.O_CREAT | os.O_CLOEXEC, 0o600)
    own(folder, file)
    return file


def try_lock(folder: str, name: str, who: str) -> int:
    """Locks a file of a directory alone, until the file is closed. Raises InUse if another program has it."""
    file = open_lock(folder, name)
    try:
        fcntl.flock(file, fcntl.LOCK_EX | fcntl.LOCK_NB)
    except BlockingIOError:
        os.close(file)
        raise InUse("%s: in use by %s" % (folder, who)) from None
    return file


@contextmanager
def reading(folder: str) -> Iterator[None]:
    """Lets no program remove files of a journal while the block runs."""
    file = open_lock(folder, "read.lock")
    try:
        fcntl.flock(file, fcntl.LOCK_SH)
        yield
    finally:
        os.close(file)


@contextmanager
def no_readers(folder: str) -> Iterator[bool]:
    """Whether nobody reads a journal while the block runs. It does not wait for readers."""
    file = open_lock(folder, "read.lock")
    try:
        try:
            fcntl.flock(file, fcntl.LOCK_EX | fcntl.LOCK_NB)
        except BlockingIOError:
            yield False
            return
        yield True
    finally:
        os.close(file)


def front_digest(file: int, size: int) -> "Optional[hashlib._Hash]":
    """The SHA-256 of the first bytes of a file. None if it has fewer."""
    digest, at = hashlib.sha256(), 0
    while at < size:
        piece = os.pread(file, min(PIECE, size - at), at)
        if not piece:
            return None
        digest.update(piece)
        at += len(piece)
    return digest


def last_sum(file: int, size: int) -> bytes:
    """The checksum at the end of the last line of a file's front: that of a mark, or of a first line."""
    return os.pread(file, 17, max(0, size - 17))[:16]


def whole_end(text: bytes) -> int:
    """Where the last line of a text ends that is whole and begins as a mark does; 0 if there is none."""
    text = b"\n" + text
    end = len(text)
    while True:
        at = text.rfind(b"\n# ", 0, end)
        if at < 0:
            return 0
        stop = text.find(b"\n", at + 1)
        if stop >= 0:
            return stop
        end = at + 2


def begins_segment(number: int, text: bytes) -> bool:
    """Whether a text begins as the segment with this number does."""
    return re.match(rb"judyd journal 1 %d [0-9a-f]{16}\n" % number, text) is not None


def begins_snapshot(number: int, text: bytes) -> bool:
    """Whether a text begins as the snapshot with this number does."""
    return re.match(rb"judyd snapshot 1 %d [0-9a-f]{16}\n" % number, text) is not None


def ends_commit(text: bytes) -> bool:
    """Whether a text ends with a mark, and has no zero."""
    at = text.rfind(b"\n", 0, len(text) - 1) + 1
    return b"\0" not in text and _MARK.fullmatch(text, at) is not None


def read_place(name: str) -> Optional[Tuple[int, bool]]:
    """The number in the name of a segment or a snapshot, and whether it is a segment. None for another name."""
    found = NAME.fullmatch(name)
    return (int(found[1]), found[2] == "journal") if found and int(found[1]) else None


def remove_if_there(path: str) -> None:
    """Removes a file, if it is there."""
    with suppress(FileNotFoundError):
        os.unlink(path)
