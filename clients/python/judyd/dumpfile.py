"""The format of a dump, and how one is written and read.

    # judy-dump 1 2026-11-25T14:42:35Z J1:ids JL:hits
    J1S ids 5
    JLI hits 20261125 3
    # end 2 sha256 5f0c..

The first line has the version of the format, the date, and the kind and name of each array. Each
entry has a line: the request that inserts it. The last line has the number of entries and the SHA-256
of all bytes before that line. Nothing follows it. So a dump that is torn, cut, changed or joined to
another one is detected.
"""

import hashlib
import os
import re
import stat
import tempfile
import time
from contextlib import contextmanager
from typing import Callable, Iterable, Iterator, List, Optional, Tuple

VERSION = 1
PIECE = 1 << 20
"""How many bytes are read at once."""

_FIRST = re.compile(rb"# judy-dump ([0-9]{1,9}) (\S+)((?: (?:J1|JL|JSL|JHS):[A-Za-z0-9_.-]{1,32})*)\Z")
_WORD, _KEY = rb"[0-9]{1,20}", rb"x(?:[0-9a-f]{2}){0,1000}"
_ENTRIES = {
    b"J1": b"J1S %%b %b" % _WORD,
    b"JL": b"JLI %%b %b %b" % (_WORD, _WORD),
    b"JSL": b"JSLI %%b %b %b" % (_KEY, _WORD),
    b"JHS": b"JHSI %%b %b %b" % (_KEY, _WORD),
}
Write = Callable[[bytes], None]


class NoDump(ValueError):
    """A file is not a whole dump. The text names the file and the line."""


def first_line(arrays: Iterable[object]) -> bytes:
    """The first line of a dump of these arrays."""
    date = time.strftime("%Y-%m-%dT%H:%M:%SZ", time.gmtime())
    return " ".join(["# judy-dump %d %s" % (VERSION, date), *map(str, arrays)]).encode() + b"\n"


def last_line(count: int, digest: str) -> bytes:
    """The last line of a dump of this many entries."""
    return b"# end %d sha256 %s\n" % (count, digest.encode())


class Writer:
    """Writes a dump to a function that takes bytes."""

    def __init__(self, write: Write, arrays: Iterable[object]) -> None:
        self._write = write
        self._sum = hashlib.sha256()
        self.count = 0
        self._put(first_line(arrays))

    def _put(self, data: bytes) -> None:
        self._sum.update(data)
        self._write(data)

    def entries(self, lines: bytes, count: int) -> None:
        """Writes the lines of this many entries."""
        self._put(lines)
        self.count += count

    def end(self) -> None:
        """Writes the last line. A dump without it is not whole."""
        self._write(last_line(self.count, self._sum.hexdigest()))


class Reader:
    """Reads a dump from a file descriptor. `name` is what its faults call the file."""

    def __init__(self, file: int, name: str) -> None:
        self._file = file
        self._name = name
        self._sum = hashlib.sha256()
        self.arrays: List[str] = []
        self.count = 0  # entries so far

    def blocks(self) -> Iterator[Tuple[int, bytes]]:
        """The lines of the entries in blocks, each with the number of its first line. Raises NoDump
        in place of the first block that can't be right, or at the end if the dump is not whole."""
        pieces = whole_lines(self._file)
        block = self._begin(next(pieces, b""))
        while True:
            at = block.find(b"#")
            entries = block if at < 0 else block[:at]
            if entries:
                yield from self._entries(entries)
            if at >= 0:
                self._end(block[at:] + next(pieces, b""))
                return
            block = next(pieces, b"")
            if not block:
                raise self._fault(self.count + 2, "the dump is cut: its last line (# end ..) is missing")

    def _entries(self, entries: bytes) -> Iterator[Tuple[int, bytes]]:
        """A block of entries, if it consists of whole lines."""
        if not entries.endswith(b"\n"):
            raise self._fault(self.count + 2 + entries.count(b"\n"), "the dump is cut or changed here")
        number = self.count + 2
        self._sum.update(entries)
        self.count += entries.count(b"\n")
        yield number, entries

    def _begin(self, block: bytes) -> bytes:
        """Reads the first line, and returns what follows it."""
        line, lf, rest = block.partition(b"\n")
        found = _FIRST.match(line)
        if not found or not lf:
            raise self._fault(1, "this is not the first line of a dump (# judy-dump ..); judy load --unchecked sends lines that have none")
        if int(found[1]) != VERSION:
            raise self._fault(1, "a dump of version %d, and this judy reads version %d" % (int(found[1]), VERSION))
        self.arrays = found[3].decode().split()
        self._sum.update(line + lf)
        return rest

    def _end(self, rest: bytes) -> None:
        """Checks the rest of the file, from its last line on."""
        line, lf, more = rest.partition(b"\n")
        number, wanted = self.count + 2, last_line(self.count, self._sum.hexdigest())
        if line + lf == wanted:
            if not more:
                return
            raise self._fault(number + 1, "text after the end of the dump; two dumps are loaded one by one")
        found = re.match(rb"# end ([0-9]{1,20}) sha256 [0-9a-f]{64}\n\Z", line + lf)
        if not found:
            raise self._fault(number, "the dump is cut or changed here")
        if int(found[1]) != self.count:
            raise self._fault(number, "the dump had %d entries, and %d are here" % (int(found[1]), self.count))
        raise self._fault(number, "a line above was changed: the SHA-256 differs")

    def _fault(self, number: int, text: str) -> NoDump:
        return NoDump("%s, line %d: %s" % (self._name, number, text))


def whole_lines(file: int) -> Iterator[bytes]:
    """What a file descriptor has, in pieces of whole lines, as soon as they come. A last line without
    LF is a piece of its own."""
    held: List[bytes] = []
    while piece := os.read(file, PIECE):
        whole, lf, rest = piece.rpartition(b"\n")
        if lf:
            yield b"".join([*held, whole, lf])
            held = []
        held.append(rest)
    if any(held):
        yield b"".join(held)


def verify(file: int, name: str) -> Reader:
    """Reads a regular file to its end, and goes back to its front. Returns the reader, which has the
    number of entries. Raises NoDump with the first line that can't be right."""
    reader = Reader(file, name)
    try:
        for _ in reader.blocks():
            pass
    except NoDump as e:
        os.lseek(file, 0, os.SEEK_SET)
        wrong = wrong_line(file, reader.arrays) if reader.arrays else 0
        if 0 < wrong <= reader.count + 1:
            raise NoDump("%s, line %d: the line was changed: no entry of a dump" % (name, wrong)) from e
        raise
    os.lseek(file, 0, os.SEEK_SET)
    return reader


def wrong_line(file: int, arrays: List[str]) -> int:
    """The number of the first line after the first one that is no entry of these arrays, or 0."""
    forms = [_ENTRIES[kind] % re.escape(name) for kind, name in (array.encode().split(b":") for array in arrays)]
    entry = re.compile(rb"(?:%b)\n" % b"|".join(forms))
    number = 0
    for piece in whole_lines(file):
        for line in piece.splitlines(keepends=True):
            number += 1
            if number > 1 and not entry.fullmatch(line):
                return number
    return 0


def is_regular(file: int) -> bool:
    """Whether a file descriptor can be read twice."""
    return stat.S_ISREG(os.fstat(file).st_mode)


def write_all(file: int, data: bytes) -> None:
    """Writes all of these bytes."""
    left = memoryview(data)
    while left:
        left = left[os.write(file, left) :]


@contextmanager
def replaced(path: str, before: Optional[str] = None) -> Iterator[int]:
    """A new file beside a path, open for writing. When the block ends it is synced and takes the place of the
    path; if the block raises an exception it is removed, and the path stays as it was. A new path gets a file
    that only this user may read; if root makes it, it belongs to the folder's owner. With `before` the old file
    moves to that path. At each moment both paths that had a file have a whole one."""
    place = os.path.realpath(path)
    old = os.stat(place) if os.path.exists(place) else None
    if old is not None and not stat.S_ISREG(old.st_mode):
        raise ValueError("%s is no regular file" % path)
    folder, name = os.path.split(place)
    file, beside = tempfile.mkstemp(prefix=".%s." % name, suffix=".part", dir=folder)
    try:
        try:
            yield file
            if old is not None:
                os.fchmod(file, stat.S_IMODE(old.st_mode))
            _own(file, old or os.stat(folder))
            os.fsync(file)
        finally:
            os.close(file)
        if before is not None and old is not None:
            _link(place, before)
        os.rename(beside, place)
    except BaseException:
        os.unlink(beside)
        raise
    sync_folder(folder)


def _link(place: str, other: str) -> None:
    """Gives a file a second path, in place of the file that is there."""
    folder, name = os.path.split(other)
    beside = os.path.join(folder, ".%s.link.part" % name)
    if os.path.lexists(beside):
        os.unlink(beside)
    os.link(place, beside)
    os.rename(beside, other)
    if os.path.lexists(beside):
        os.unlink(beside)  # both paths had the same file, and then nothing is renamed


def _own(file: int, old: os.stat_result) -> None:
    """Gives a file the owner of another one, or of a folder, where that is allowed."""
    new = os.fstat(file)
    if (new.st_uid, new.st_gid) == (old.st_uid, old.st_gid):
        return
    try:
        os.fchown(file, old.st_uid, old.st_gid)
    except PermissionError:
        pass


def sync_folder(folder: str) -> None:
    """Makes a rename in a folder durable."""
    file = os.open(folder, os.O_RDONLY | os.O_DIRECTORY)
    try:
        os.fsync(file)
    finally:
        os.close(file)
