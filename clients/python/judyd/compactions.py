"""`judy compact`: runs `judyd compact`, once a journal has grown enough since its last snapshot.

A server may run meanwhile: `judyd compact` leaves it the last segment. So only the bytes of the closed
segments count here, those that the snapshot does not cover.
"""

import os
import re
import subprocess
from contextlib import suppress
from typing import Dict, List, NamedTuple, Optional

from .session import complain
from .tablefaults import program

_FILE = re.compile(r"([0-9]{12})\.(journal|snapshot)")
_GROWTH = re.compile(r"([0-9]{1,12})([%KMGT]?)")
PIECE = 1 << 20
ROOM_BESIDE = 1 << 16  # for the manifest, locks, and a segment that is begun
_FACTORS = {"": 1, "K": 1 << 10, "M": 1 << 20, "G": 1 << 30, "T": 1 << 40}


class Sizes(NamedTuple):
    """The last segment that a journal's snapshot covers, or 0, the bytes of the snapshot, and how many
    closed segments come after it, with how many bytes."""

    covered: int
    snapshot: int
    segments: int
    closed: int

    def __str__(self) -> str:
        closed = "%s closed segment%s" % (self.segments or "no", "s" if self.segments > 1 else "")
        return "a snapshot of %d bytes, and %s%s" % (self.snapshot, closed, " of %d bytes" % self.closed if self.segments else "")


class Growth(NamedTuple):
    """How much the closed segments must have: bytes, or hundredths of the snapshot's bytes."""

    text: str
    number: int
    is_percent: bool

    def is_reached(self, sizes: Sizes) -> bool:
        """Whether closed segments have that much. Without any there is nothing to compact."""
        most = sizes.snapshot * self.number if self.is_percent else self.number * 100
        return sizes.segments > 0 and sizes.closed * 100 >= most


def growth(text: str) -> Growth:
    """The growth that a word spells, as 100% or 1G. Raises ValueError if it spells none."""
    found = _GROWTH.fullmatch(text)
    if not found:
        raise ValueError("a growth is a number with %, K, M, G or T, as 100% or 1G, or a number of bytes")
    return Growth(text, int(found[1]) * _FACTORS.get(found[2], 1), found[2] == "%")


def sizes_in(folder: str) -> Sizes:
    """The sizes of the files of a journal."""
    sizes: Dict[str, Dict[int, int]] = {"journal": {}, "snapshot": {}}
    for name in os.listdir(folder):
        found = _FILE.fullmatch(name)
        if found:
            with suppress(FileNotFoundError):  # a compaction removes files
                sizes[found[2]][int(found[1])] = os.stat(os.path.join(folder, name)).st_size
    covered = max(sizes["snapshot"], default=0)
    closed = [size for number, size in sorted(sizes["journal"].items()) if number > covered][:-1]
    return Sizes(covered, sizes["snapshot"].get(covered, 0), len(closed), sum(closed))


def files_read(folder: str, covered: int) -> List[str]:
    """The files that a compaction reads: the snapshot, the segments after it except the last, and also that one
    if no server writes it. Behind the end of one that is written are zeros."""
    numbers = sorted(int(name[:12]) for name in os.listdir(folder) if re.fullmatch(r"[0-9]{12}\.journal", name))
    paths = [os.path.join(folder, "%012d.journal" % number) for number in numbers if number > covered]
    if covered:
        paths.insert(0, os.path.join(folder, "%012d.snapshot" % covered))
    if numbers and numbers[-1] > covered and last_byte(paths[-1]) == b"\0":
        paths.pop()
    return paths


def last_byte(path: str) -> bytes:
    """The last byte of a file, if it has one. A compaction beside this one removes files."""
    with suppress(FileNotFoundError), open(path, "rb") as file:
        file.seek(max(0, file.seek(0, os.SEEK_END) - 1))
        return file.read(1)
    return b""


def most_of(path: str) -> int:
    """The most bytes that the contents of a file can take in a snapshot. A line there may be longer by a value,
    which is 0 if a line names none, and by 18 bytes for each -1, which stands for the greatest word."""
    most = 0
    with suppress(FileNotFoundError), open(path, "rb", buffering=0) as file:
        for piece in iter(lambda: file.read(PIECE), b""):
            most += len(piece) + 2 * piece.count(b"\n") + 18 * piece.count(b"-")
    return most + most // 400  # the ends of commits, which may be shorter


def most_room(folder: str, sizes: Sizes) -> int:
    """The most bytes that a compaction takes before it removes a file."""
    return sum(most_of(path) for path in files_read(folder, sizes.covered)) + ROOM_BESIDE


def lacks_room(folder: str, sizes: Sizes) -> bool:
    """Whether there may be too little room for a compaction. If so, a line reports it."""
    found = os.statvfs(folder)
    most, free = most_room(folder, sizes), found.f_bavail * found.f_frsize
    if most <= free:
        return False
    complain("%s: not compacted: it may take %d bytes, and the file system has %d: judyd compact %s tries it" % (folder, most, free, folder))
    return True


def compact(folder: str, least: Optional[Growth]) -> int:
    """Compacts a journal, if it has grown enough, and reports in one line what was done. Returns the status."""
    before = sizes_in(folder)
    if least is not None and not least.is_reached(before):
        print("%s: nothing done below %s: %s" % (folder, least.text, before))
        return 0
    if lacks_room(folder, before):
        return 1
    status = subprocess.run([program(), "compact", folder], stdin=subprocess.DEVNULL, check=False).returncode
    if status:
        complain("%s: judyd compact %s" % (folder, "ended with status %d" % status if status > 0 else "was ended by signal %d" % -status))
        return 1
    after = sizes_in(folder)
    if after.covered == before.covered:
        print("%s: nothing to do: %s" % (folder, before))
    else:
        print("%s: compacted: before, %s; now, %s" % (folder, before, after))
    return 0
