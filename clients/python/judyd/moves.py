"""`judy move`: arrays of a tenant go from one server to another, over one connection to each."""

from itertools import zip_longest
from typing import Iterable, Iterator, List, Tuple

from .copies import ArrayName, Progress
from .errors import Closed, Error, checked
from .fields import Used, count_of, used_of
from .session import complain
from .sweep import Block
from .transfer import blocks_of
from .wire import Wire
from .wording import advice, is_refused


class Move:
    """A move. `source` and `target` are logged in as the tenant."""

    def __init__(self, source: Wire, target: Wire, arrays: List[ArrayName]) -> None:
        self._source = source
        self._target = target
        self._arrays = arrays
        self.copied = 0
        self.is_done = False

    def check_before(self, may_be_empty: bool) -> None:
        """Raises Error if an array has no entries in the source, or has some in the target. Nothing was
        changed then."""
        nothing = [str(array) for array in self._arrays if not may_be_empty and not _has_any(self._source, array)]
        if nothing:
            raise Error("nothing under %s; nothing was moved" % ", ".join(nothing))
        if _used(self._target).used == 0:
            return
        taken = [str(array) for array in self._arrays if _has_any(self._target, array)]
        if taken:
            frees = "; ".join("%sFA %s" % tuple(it.split(":")) for it in taken)
            raise Error("the second server already has entries under %s; nothing was moved. To free them there: %s" % (", ".join(taken), frees))

    def copy(self) -> Iterator[Tuple[ArrayName, int]]:
        """Copies each array, and gives it with its number of entries."""
        before = _used(self._target).used
        for array in self._arrays:
            progress = Progress(str(array))
            for lines, count in blocks_of(self._source, array):
                self._put(array, lines, count)
                progress.add(count)
            progress.end()
            self.copied += progress.count
            yield array, progress.count
        there = _used(self._target).used - before
        if there != self.copied:
            raise Error("%d entries were copied, and the second server has %d more: does somebody write there?" % (self.copied, there))

    def _put(self, array: ArrayName, lines: bytes, count: int) -> None:
        """Sends the lines of entries to the target. Raises Error with the first that is refused."""
        if count == 0:
            return
        replies = self._target.ask(lines, count)
        if b"E" not in replies and b"F" not in replies:
            return
        for line, reply in zip(lines.decode().splitlines(), replies.decode("ascii", "replace").splitlines()):
            if is_refused(reply):
                told = ": ".join(word for word in (line[:80], reply, advice(line, reply)) if word)
                raise Error("the second server refused an entry of %s: %s" % (array, told))

    def check_whole(self) -> None:
        """Raises Error if the source has entries that were not copied."""
        left = _used(self._source).used - self.copied
        if left:
            raise Error("%d entries of the tenant are not in these arrays: name the others too, or move a part with --part; or does somebody write?" % left)

    def compare(self) -> None:
        """Raises Error at the first entry that differs between the two servers."""
        for array in self._arrays:
            for here, there in zip_longest(_lines(blocks_of(self._source, array)), _lines(blocks_of(self._target, array))):
                if here != there:
                    entry = (here or there or b"").decode()[:80]
                    raise Error("%s is not alike in both servers from %s on: does somebody write?" % (array, entry))
        self.is_done = True

    def free(self, counts: List[int]) -> None:
        """Frees the arrays in the source. `counts` has how many entries of each were copied."""
        for array, count in zip(self._arrays, counts):
            reply = self._source.ask(b"%bFA %b\n" % (array.kind.encode(), array.name.encode()), 1)[:-1]
            freed = count_of(checked(reply))
            if freed != count:
                raise Error("%s had %d entries when it was freed, and %d were moved: somebody wrote" % (array, freed, count))


def _lines(blocks: Iterable[Block]) -> Iterator[bytes]:
    for lines, _ in blocks:
        yield from lines.splitlines()


def _used(wire: Wire) -> Used:
    """The tenant's entries and pieces, and its quotas."""
    return used_of(wire.ask(b"USED\n", 1)[:-1])


def _has_any(wire: Wire, array: ArrayName) -> bool:
    """Whether an array has entries."""
    field = {"JSL": b"x", "JHS": b"1"}.get(array.kind, b"0")
    first = b"%bF %b %b\n" % (array.kind.encode(), array.name.encode(), field)
    return checked(wire.ask(first, 1)[:-1]) not in (b"0", b"NULL", b"E 0")


def move(source: Wire, target: Wire, arrays: List[ArrayName], is_all: bool, is_part: bool, is_freed: bool) -> int:
    """Moves arrays, prints how many entries each has, and returns the status."""
    if not arrays:
        print("the tenant has no arrays")
        return 0
    going = Move(source, target, arrays)
    counts = []
    try:
        going.check_before(is_all)
        for array, count in going.copy():
            counts.append(count)
            print("%s: %d entries" % (array, count), flush=True)
        if not is_part:
            going.check_whole()
        going.compare()
        if is_freed:
            going.free(counts)
    except Closed as e:
        complain("%s: %s" % (e, "the arrays were copied, and not all of them were freed" if going.is_done else "the arrays stay where they were, and the second server may have a part of them"))
        return 1
    except Error as e:
        complain(str(e))
        return 1
    return 0
