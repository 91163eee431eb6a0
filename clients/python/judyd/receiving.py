"""`judy receive`: writes the copy of a journal that `judy ship` sends on standard input, and answers on standard
output.

The receiver first tells what it has: a line `judy receive 1 ID`, with the id of the journal of which it is a copy or
a hyphen, a line `HAS NAME SIZE SHA256` for each file that a start would read, and `READY`. Then it reads:

- `judy ship 1 ID`, once: the id of the journal that is sent.
- `DATA NAME OFFSET LENGTH SHA256`, and LENGTH bytes, which come after the first OFFSET bytes of a file. Those of a
  segment are whole commits.
- `SYNC`: what came for the segment becomes a part of the copy, for good.
- `WHOLE NAME SIZE`: a snapshot has come to its end, and takes the place of the files for which it stands.

The answer to SYNC and WHOLE is `AT SEGMENT:BYTE`, where the copy ends.
"""

import hashlib
import re
import signal
import sys
from typing import BinaryIO, Callable, List, Optional, Tuple

from .errors import Error
from .journalfiles import PIECE, begins_segment, begins_snapshot, ends_commit, read_place, whole_end
from .mirror import Mirror
from .session import reason
from .twins import is_id

LONGEST = 200
"""The most bytes of a header."""

_NUMBER = re.compile(r"[0-9]{1,15}")


class BadStream(Error):
    """What came on standard input is not what `judy ship` sends."""


class Receiver:
    """Reads a stream, and writes a copy."""

    def __init__(self, mirror: Mirror, stream: BinaryIO, say: Callable[[str], None]) -> None:
        self._mirror = mirror
        self._stream = stream
        self._say = say

    def greet(self) -> None:
        """Tells what the copy has."""
        self._say("judy receive 1 %s" % self._mirror.origin)
        for front in self._mirror.fronts():
            self._say("HAS %s %d %s" % front)
        self._say("READY")

    def run(self) -> None:
        """Reads the stream to its end."""
        first = self._header()
        if first is None:
            return
        if first[:2] == ["judy", "ship"] and first[2:3] != ["1"]:
            raise BadStream("version %s of judy ship: this judy receive knows version 1" % " ".join(first[2:3]))
        if first[:3] != ["judy", "ship", "1"] or len(first) != 4 or not is_id(first[3]):
            raise BadStream("it does not begin as that of judy ship does")
        self._mirror.begin(first[3])
        while True:
            words = self._header()
            if words is None:
                return
            if words[0] == "DATA" and len(words) == 5:
                self._data(words[1], words[2], words[3], words[4])
            elif words[0] == "WHOLE" and len(words) == 3:
                self._whole(words[1], words[2])
                self._say("AT %s" % (self._mirror.install(),))
            elif words == ["SYNC"]:
                self._say("AT %s" % (self._mirror.settle(),))
            else:
                raise BadStream("no such header: %s" % " ".join(words))

    def _header(self) -> Optional[List[str]]:
        """The words of the next header. None at the end of the stream."""
        line = self._stream.readline(LONGEST + 1)
        if not line:
            return None
        if not line.endswith(b"\n"):
            raise BadStream("a header of more than %d bytes" % LONGEST if len(line) > LONGEST else "it ends in the middle of a header")
        try:
            return line[:-1].decode("ascii").split(" ")
        except UnicodeDecodeError:
            raise BadStream("a header that is not ASCII") from None

    def _data(self, name: str, offset: str, length: str, digest: str) -> None:
        """Takes a piece of a file."""
        number, is_segment = read_name(name)
        size = self._mirror.size(number, is_segment)
        if size is None:
            raise BadStream("%s does not come next: the copy ends at %s" % (name, self._mirror.place()))
        if read_number(offset) != size:
            raise BadStream("%s: a piece for byte %s, and it has %d bytes" % (name, offset, size))
        count = read_number(length)
        if not 0 < count <= PIECE:
            raise BadStream("%s: a piece of %s bytes: it may have 1 to %d" % (name, length, PIECE))
        data = self._stream.read(count)
        if len(data) < count:
            raise BadStream("it ends in the middle of a piece of %s" % name)
        if hashlib.sha256(data).hexdigest() != digest:
            raise BadStream("%s: a piece for byte %d does not have its SHA-256" % (name, size))
        self._put(name, number, is_segment, size, data)

    def _put(self, name: str, number: int, is_segment: bool, size: int, data: bytes) -> None:
        """Writes a piece of a file, if it is one."""
        if size == 0 and not (begins_segment if is_segment else begins_snapshot)(number, data):
            raise BadStream("%s: its first line is another" % name)
        if not is_segment:
            self._mirror.add_snapshot(number, data)
            return
        if not ends_commit(data) and (size or whole_end(data) or data.count(b"\n") != 1 or not data.endswith(b"\n")):
            raise BadStream("%s: a piece for byte %d does not end with a commit" % (name, size))
        self._mirror.add(number, data)

    def _whole(self, name: str, size: str) -> None:
        """Checks that a snapshot is whole."""
        number, is_segment = read_name(name)
        has = None if is_segment else self._mirror.size(number, False)
        if not has or read_number(size) != has:
            raise BadStream("%s is whole with %s bytes, and has %d" % (name, size, has or 0))


def read_name(name: str) -> Tuple[int, bool]:
    """The number in the name of a segment or a snapshot, and whether it is a segment."""
    place = read_place(name)
    if place is None:
        raise BadStream("a file with the name %r" % name)
    return place


def read_number(text: str) -> int:
    """The number that a text spells."""
    if not _NUMBER.fullmatch(text):
        raise BadStream("no number: %r" % text)
    return int(text)


def tell(line: str) -> None:
    """Writes a line to standard output."""
    sys.stdout.write(line + "\n")
    sys.stdout.flush()


def receive(folder: str) -> int:
    """Writes the copy that comes on standard input to a directory. Returns the status."""
    for number in (signal.SIGTERM, signal.SIGHUP):
        signal.signal(number, lambda number, _: sys.exit(128 + number))  # so that no file is left beside
    mirror = Mirror(folder)
    try:
        receiver = Receiver(mirror, sys.stdin.buffer, tell)
        receiver.greet()
        receiver.run()
    except BadStream as e:
        raise BadStream("bad stream: %s; the copy ends at %s" % (e, mirror.place())) from None
    except BrokenPipeError:
        raise Error("judy ship is gone: standard output is closed; the copy ends at %s" % (mirror.place(),)) from None
    except OSError as e:
        raise Error("%s: %s; the copy ends at %s" % (folder, reason(e), mirror.place())) from None
    finally:
        mirror.close()
    return 0
