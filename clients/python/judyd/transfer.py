"""`judy dump` and `judy load`: a dump goes to a file or comes from one, over one connection."""

import sys
from itertools import groupby
from typing import Iterable, Iterator, List, Optional, Tuple

from .copies import SHOWN, ArrayName, Progress
from .dumpfile import NoDump, Reader, Write, Writer, is_regular, replaced, verify, whole_lines, write_all
from .errors import Closed, Error
from .session import complain, reason
from .sweep import Block, ByteSweep, RankedSweep, StringSweep
from .wire import Wire
from .wording import advice, coded, is_refused, request_of


def blocks_of(wire: Wire, array: ArrayName) -> Iterator[Block]:
    """The entries of an array, in blocks of lines."""
    if array.kind == "JSL":
        return StringSweep(wire, array.name).blocks()
    if array.kind == "JHS":
        return ByteSweep(wire, array.name).blocks()
    return RankedSweep(wire, array.kind, array.name).blocks()


def dump_all(wire: Wire, arrays: List[ArrayName], may_be_empty: bool, write: Write) -> Tuple[List[ArrayName], int]:
    """Writes a dump, and returns the arrays that have no entries, and how many entries there are. It lacks its
    last line if there are such arrays and none may be empty."""
    dump, empty = Writer(write, arrays), []
    for array in arrays:
        progress = Progress(str(array))
        for lines, count in blocks_of(wire, array):
            dump.entries(lines, count)
            progress.add(count)
        progress.end()
        if progress.count == 0:
            empty.append(array)
    if may_be_empty or not empty:
        dump.end()
    return empty, dump.count


class NothingThere(Error):
    """An array to dump has no entries."""


def dump(wire: Wire, arrays: List[ArrayName], path: Optional[str], may_be_empty: bool) -> int:
    """Dumps arrays to a file, or to standard output, and returns the status. If anything fails the
    file stays as it was, and standard output lacks the last line of a dump."""
    try:
        if path is None:
            _dump_to(sys.stdout.fileno(), wire, arrays, may_be_empty)
        else:
            with replaced(path) as file:
                _dump_to(file, wire, arrays, may_be_empty)
        return 0
    except BrokenPipeError:
        raise
    except (Closed, OSError) as e:
        complain("%s: the dump is not whole%s" % (reason(e), "; %s stays as it was" % path if path else ""))
    except NothingThere:
        complain("%s; --empty dumps arrays without entries too" % (path + " stays as it was" if path else "the dump is not whole"))
    return 1


def _dump_to(file: int, wire: Wire, arrays: List[ArrayName], may_be_empty: bool) -> None:
    """Writes a dump to a file. Names the arrays without entries, and raises NothingThere, if none may be empty."""
    empty, _ = dump_all(wire, arrays, may_be_empty, lambda data: write_all(file, data))
    if empty and not may_be_empty:
        for array in empty:
            complain("nothing under %s" % array)
        raise NothingThere


class Load:
    """A load over a connection. `of` is how many entries the dump has, if that is known."""

    def __init__(self, wire: Wire, of: Optional[int]) -> None:
        self._wire = wire
        self._of = of
        self._before = wire.answered
        self._refused = 0
        self._progress = Progress("lines")

    def send(self, number: int, lines: bytes) -> bool:
        """Sends a block, whose first line has this number. Returns whether none was refused."""
        count = lines.count(b"\n")
        replies = self._wire.ask(lines, count)
        self._progress.add(count)
        before = self._refused
        if b"E" not in replies and b"F" not in replies:
            return True
        for at, (line, reply) in enumerate(zip(lines.splitlines(), replies.decode("ascii", "replace").splitlines())):
            if is_refused(reply):
                self._refused += 1
                if self._refused <= SHOWN:
                    complain(": ".join(word for word in ("line %d" % (number + at), reply, advice(line.decode("utf-8", "replace"), reply)) if word))
        return self._refused == before

    def end(self) -> None:
        """Leaves the last count on the terminal."""
        self._progress.end()

    def told(self) -> str:
        """How many entries were loaded."""
        loaded = self._wire.answered - self._before - self._refused
        return "%d of %d loaded" % (loaded, self._of) if self._of is not None else "%d loaded" % loaded


def load(wire: Wire, file: int, name: str, is_checked: bool) -> int:
    """Loads a dump, and returns the status. A regular file is first read to its end."""
    count = verify(file, name).count if is_checked and is_regular(file) else None
    return load_blocks(wire, Reader(file, name).blocks() if is_checked else unchecked(file, name), count)


def load_blocks(wire: Wire, blocks: Iterable[Tuple[int, bytes]], count: Optional[int]) -> int:
    """Loads the lines of blocks, each with the number of its first line, and returns the status. `count` is
    how many entries there are, if that is known."""
    going = Load(wire, count)
    try:
        for number, lines in blocks:
            if not going.send(number, lines):
                complain("refused: %s; what follows was not sent" % going.told())
                return 1
    except Closed as e:
        complain("%s: %s, and perhaps some lines more" % (e, going.told()))
        return 1
    except NoDump as e:
        complain("%s: %s before that" % (e, going.told()))
        return 1
    going.end()
    return 0


def unchecked(file: int, name: str) -> Iterator[Tuple[int, bytes]]:
    """The lines of any file as requests, in blocks, each with the number of its first line. Empty lines
    and lines that begin with # are left out. A last line without its LF may be cut, and is not sent."""
    number = 1
    for piece in whole_lines(file):
        if not piece.endswith(b"\n"):
            raise NoDump("%s, line %d: the line has no end, and was not sent" % (name, number))
        lines = [(at, request_of(line.decode("utf-8", "surrogateescape"))) for at, line in enumerate(piece.split(b"\n")[:-1], number)]
        for is_request, some in groupby(lines, key=lambda line: line[1].strip() != "" and not line[1].lstrip().startswith("#")):
            block = list(some)
            if is_request:
                yield block[0][0], b"".join(coded(request) + b"\n" for _, request in block)
        number += len(lines)
