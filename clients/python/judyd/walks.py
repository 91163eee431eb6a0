"""Walks of an array in order, by lines whose replies have many entries each.

Each line goes on behind the last key that the walk returned, or where an intersection stopped to
look. So entries may be inserted and removed meanwhile, by this client or by others. A walk returns
each entry that is there all the time exactly once, and keys in order; an entry that comes or goes
meanwhile may be returned or not. The same holds for the indexes that two sets share: each that is in
both all the time is returned.

The steps of a walk are a generator, which asks for the replies to lines and gives entries. So a
client and an asyncio client share it.
"""

import operator
from itertools import takewhile
from typing import Any, Callable, Generator, Generic, Iterator, List, Optional, Tuple, TypeVar, Union

from .connection import SameServer
from .errors import JudyError, Restarted, checked
from .fields import MOST, shared_of, stop_of, word_of

T = TypeVar("T")

FEW, MANY = 16, MOST
"""How many entries the first line of a walk asks for, and each other one: as many as fit into a reply."""

ROOM = 4088
"""The most bytes of the entries in a reply."""


class Ask(List[bytes]):
    """Lines. The walk needs their replies."""


Steps = Generator[Union[Ask, List[T]], List[bytes], None]
"""A walk: it gives lists of entries, and lines to ask."""


def walked(steps: Steps[T], asker: Any) -> Iterator[T]:
    """The entries of a walk over a client."""
    replies: List[bytes] = []
    same = SameServer(asker._server)
    try:
        while True:
            step = steps.send(replies) if replies else next(steps)
            if isinstance(step, Ask):
                replies = asker._replies(step)
                same.check()
            else:
                replies = []
                asker._pause()
                yield from step
    except StopIteration:
        return
    except Restarted:
        asker._pause()
        raise


def indexes_of(replies: List[bytes]) -> List[Optional[int]]:
    """The indexes in a set's replies; None where there was none."""
    return [int(reply[2:]) if reply[:2] == b"1 " else _nothing(reply, b"0") for reply in replies]


def items_of(replies: List[bytes]) -> List[Optional[Tuple[int, int]]]:
    """The entries in a JudyL's replies; None where there was none."""
    items: List[Optional[Tuple[int, int]]] = []
    for reply in replies:
        if reply[:2] == b"V ":
            _, value, index = reply.split(b" ")
            items.append((int(index), int(value)))
        else:
            items.append(_nothing(reply, b"NULL"))
    return items


def index_of_item(entry: Tuple[int, int]) -> int:
    """The index of an entry of a JudyL."""
    return entry[0]


def _nothing(reply: bytes, nothing: bytes) -> Optional[Any]:
    """None, for the reply that there is nothing."""
    if reply != nothing:
        raise JudyError("no such answer: %r" % checked(reply))
    return None


def entries_of(reply: bytes) -> List[bytes]:
    """The fields of the entries in a reply to a walk."""
    if reply[:2] != b"E ":
        raise JudyError("no such answer: %r" % checked(reply))
    return reply.split(b" ")[2:]


def indexes_in(reply: bytes) -> List[int]:
    """The indexes in a reply to a walk over a set."""
    return list(map(int, entries_of(reply)))


def items_in(reply: bytes) -> List[Tuple[int, int]]:
    """The entries in a reply to a walk over a JudyL."""
    numbers = indexes_in(reply)
    return list(zip(numbers[1::2], numbers[::2]))


class Walk(Generic[T]):
    """A walk: it reads as many entries as fit into a reply, and goes on behind the last of them."""

    longest = 0  # the most bytes of an entry in a reply

    def __init__(self, array: Any, is_back: bool) -> None:
        first, following = (b"L", b"P") if is_back else (b"F", b"N")
        self._first, self._following = array._line(first), array._line(following)

    def _entries(self, reply: bytes) -> List[T]:
        """The entries in a reply."""
        raise NotImplementedError

    def _field(self, entry: T) -> bytes:
        """The field of an entry's key."""
        raise NotImplementedError

    def _has(self, entry: T) -> bool:
        """Whether the walk has this entry, and does not end before it."""
        raise NotImplementedError

    def _from(self, field: bytes) -> Steps[T]:
        """The entries from a key on."""
        return self._steps(b"%b %b" % (self._first, field))

    def _behind(self, field: bytes) -> bytes:
        """The line of a call that goes on behind a key, without how many entries it asks for."""
        return b"%b %b" % (self._following, field)

    def _steps(self, line: bytes) -> Steps[T]:
        """The entries that the call of a line finds, which asks for as many as there are."""
        most = FEW
        while True:
            (reply,) = yield Ask([b"%b %d" % (line, most)])
            entries = self._entries(reply)
            kept = entries if entries and self._has(entries[-1]) else list(takewhile(self._has, entries))
            if kept:
                yield kept
            # A reply with fewer entries and with room for another one is the last.
            if len(kept) < len(entries) or not entries or (len(entries) < most and len(reply) + self.longest < ROOM):
                return
            line, most = self._behind(self._field(entries[-1])), MANY


class WordWalk(Walk[T]):
    """A walk of a Judy1 or a JudyL, up to the index `stop`, which is left out."""

    longest = 42

    def __init__(self, array: Any, read: Callable[[bytes], List[T]], index_of: Callable[[T], int], is_back: bool, stop: int) -> None:
        super().__init__(array, is_back)
        self._read = read
        self._index_of = index_of
        self._is_before = operator.gt if is_back else operator.lt
        self._stop = stop  # the first index that is left out; -1 or MAX + 1 without one

    def _entries(self, reply: bytes) -> List[T]:
        return self._read(reply)

    def _field(self, entry: T) -> bytes:
        return b"%d" % self._index_of(entry)

    def _has(self, entry: T) -> bool:
        return bool(self._is_before(self._index_of(entry), self._stop))

    def steps(self, bound: int) -> Steps[T]:
        """The entries from the index `bound` on, in a walk back from `bound` down."""
        return self._from(b"%d" % bound)


def intersected(line: bytes, start: int, stop: Optional[int]) -> Steps[int]:
    """The indexes that two sets share from `start` on, up to the index `stop`, which is left out. The line has the
    call with the names of both."""
    return _intersected(line, word_of(start), stop_of(stop, False))


def _intersected(line: bytes, start: int, stop: int) -> Steps[int]:
    at: Optional[int] = start
    most = FEW
    while at is not None and at < stop:
        (reply,) = yield Ask([b"%b %d %d" % (line, at, most)])
        indexes, following = shared_of(checked(reply))
        if following is not None and following <= at:
            raise JudyError("no such answer: %r" % reply)
        yield [index for index in indexes if index < stop]
        at, most = following, MANY
