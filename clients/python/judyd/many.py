"""What arrays have in Python besides the manual's calls: many calls at once, and ranks."""

import operator
from itertools import islice
from typing import Any, Callable, Generic, Iterable, Iterator, List, Optional, Sequence, Tuple, TypeVar, Union, overload

from .calls import given
from .connection import SameServer
from .errors import all_checked
from .fields import MAX, stop_of, word_of
from .lines import Lines, joined
from .walks import WordWalk, walked

T = TypeVar("T")

WINDOW = 1000
"""How many lines are in flight at once."""

ABSENT = b"NULL"
"""What stands for the reply if a thing has no call, since it can't be in the array."""


def windows(things: Iterable[T], size: int = WINDOW) -> Iterator[List[T]]:
    """The things in lists of at most `size`."""
    left = iter(things)
    while len(window := list(islice(left, size))) == size:
        yield window
    if window:
        yield window


AT_HAND: Tuple[type, ...] = (list, tuple, range, dict, set, frozenset, type({}.keys()), type({}.items()), type({}.values()))
"""Types that have all their things, so that it does not matter when these are read."""


class Ahead(Generic[T]):
    """Windows of things, each with its lines, or with None where `lines_of` makes none. The next window of
    things that are at hand is made once the lines of one are sent: while the server works on them."""

    def __init__(self, things: Iterable[T], lines_of: Callable[[List[T]], Optional[Lines]], is_ahead: bool) -> None:
        self._windows = windows(things)
        self._lines_of = lines_of
        self._is_ahead = is_ahead and type(things) in AT_HAND
        self._made: List[Tuple[List[T], Optional[Lines]]] = []  # at most one
        self._raised: Optional[Exception] = None

    def __iter__(self) -> Iterator[Tuple[List[T], Optional[Lines]]]:
        while True:
            if self._raised is not None:
                raise self._raised
            window, lines = self._made.pop() if self._made else self._next()
            if not window:
                return
            if lines is not None and self._is_ahead:
                lines.meanwhile = self._make
            yield window, lines

    def _next(self) -> Tuple[List[T], Optional[Lines]]:
        window: List[T] = next(self._windows, [])
        return window, self._lines_of(window) if window else None

    def _make(self) -> None:
        """Makes the next window, or keeps the exception, which counts only after the window before."""
        if self._made or self._raised is not None:
            return
        try:
            window, lines = self._next()
            self._made.append((window, None if lines is None else lines.whole()))
        except Exception as e:
            self._raised = e


def pairs_of(entries: Any) -> Iterable[Tuple[Any, int]]:
    """The pairs of a mapping, or pairs that are given as such."""
    pairs: Iterable[Tuple[Any, int]] = entries.items() if hasattr(entries, "items") else entries
    return pairs


def insert_entry(calls: Any, entry: Tuple[Any, int]) -> Any:
    """Stores an entry with the calls of a map."""
    key, value = entry
    return calls.insert(key, given(value))


def add_step(calls: Any, step: Tuple[Any, int]) -> Any:
    """Adds to the value of a key with the calls of a map."""
    key, n = step
    return calls.add(key, n)


def get_key(calls: Any, key: Any) -> Any:
    """The later value of a key, with the calls of a pipeline; None for a key out of range."""
    try:
        return calls.get(key)
    except ValueError:
        return None


class Many:
    """Calls of an array for many things, with many lines in flight at once."""

    _asker: Any

    def _many(
        self, things: Iterable[T], lines_of: Callable[[List[T]], Optional[Lines]], call: Callable[[Any, T], Any],
        is_quiet: bool = False, is_ahead: bool = True,
    ) -> Iterator[Tuple[List[T], bytes]]:  # fmt: skip
        """These things in windows, each with the replies to its calls. A refusal is raised after the
        window that has it. The calls are quiet if their results are not used. A window is made ahead
        unless the caller acts between two windows.

        `lines_of` makes the lines of a window at once. If it makes none, `call` makes the call of each thing."""
        same = SameServer(self._asker._server)
        for window, lines in Ahead(things, lines_of, is_ahead):
            if lines is None:
                replies = self._piped(window, call, is_quiet)
            else:
                replies = all_checked(self._asker._exchange(lines, is_quiet))
            self._asker._pause()
            same.check()
            yield window, replies

    def _piped(self, window: List[T], call: Callable[[Any, T], Any], is_quiet: bool) -> bytes:
        """The replies to the calls of these things. If one of them raises an exception, nothing is sent."""
        with self._asker.pipeline(None, is_quiet=is_quiet) as pipe:
            calls = self._in(pipe)
            late = [call(calls, thing) for thing in window]
        return joined([ABSENT if it is None else it._reply for it in late])

    def _in(self, pipe: Any) -> Any:
        """The calls of this array in a pipeline."""
        raise NotImplementedError


class Ranks(Sequence[T]):
    """The entries of an array as a sequence, in order. An int gives one entry, a slice a list. `for`
    and `reversed` walk.

    A slice asks for each rank by itself, and so does a negative rank for the length before. So beside
    other writers they are not exact: if an entry comes or goes below meanwhile, all ranks above it
    shift, and a slice may leave out an entry that is there all the time, or have it twice. The walk
    `walk(start, stop)` of the array is exact."""

    def __init__(self, array: "Ranked[T]") -> None:
        self._array = array

    def __len__(self) -> int:
        return len(self._array)

    def __iter__(self) -> Iterator[T]:
        return self._array._walk(is_back=False)

    def __reversed__(self) -> Iterator[T]:
        return self._array._walk(is_back=True)

    @overload
    def __getitem__(self, rank: int) -> T: ...

    @overload
    def __getitem__(self, rank: slice) -> List[T]: ...

    def __getitem__(self, rank: Union[int, slice]) -> Union[T, List[T]]:
        if isinstance(rank, slice):
            return self._array._nths(range(*rank.indices(len(self))))
        try:
            at = operator.index(rank)
        except TypeError:
            raise TypeError("a rank is an int or a slice, and not %r" % (rank,)) from None
        at += len(self) if at < 0 else 0
        found = self._array._nths([at]) if 0 <= at < MAX else []
        if not found:
            raise IndexError("no entry has rank %d" % operator.index(rank))
        return found[0]

    def __contains__(self, entry: object) -> bool:
        return self._array._rank_of(entry) is not None

    def count(self, entry: object) -> int:
        """1 if the entry is there, else 0."""
        return int(entry in self)

    def index(self, entry: object, start: int = 0, stop: Optional[int] = None) -> int:
        """The rank of an entry."""
        rank = self._array._rank_of(entry)
        if rank is None or rank not in range(*slice(start, stop).indices(rank + 1)):
            raise ValueError("%r is not in the array" % (entry,))
        return rank


class Ranked(Generic[T]):
    """What Judy1 and JudyL arrays have in Python besides the manual's calls."""

    count: Callable[..., int]
    first: Callable[..., Optional[T]]
    _free: Callable[..., int]
    _asker: Any
    _line: Callable[..., bytes]

    @staticmethod
    def _read(replies: List[bytes]) -> List[Optional[T]]:
        raise NotImplementedError

    @staticmethod
    def _entries_in(reply: bytes) -> List[T]:
        raise NotImplementedError

    @staticmethod
    def _index_of(entry: T) -> int:
        raise NotImplementedError

    def _rank_of(self, entry: object) -> Optional[int]:
        raise NotImplementedError

    def __len__(self) -> int:
        """How many entries there are (Count)."""
        return self.count()

    def __bool__(self) -> bool:
        return self.first() is not None

    @property
    def ranks(self) -> Ranks[T]:
        """The entries in order (ByCount): `ranks[0]` is the least, `ranks[-1]` the greatest, and
        `ranks[2:5]` is a list. A slice is not exact beside other writers, and `walk(start, stop)` is."""
        return Ranks(self)

    def _nths(self, ranks: Iterable[int]) -> List[T]:
        line = self._line(b"BC") + b" %d"
        found: List[T] = []
        same = SameServer(self._asker._server)
        for window in windows(ranks):
            found += [entry for entry in self._read(self._asker._replies([line % (rank + 1) for rank in window])) if entry is not None]
            same.check()
        return found

    def _walk(self, start: Optional[int] = None, stop: Optional[int] = None, is_back: bool = False) -> Iterator[T]:
        bound = word_of((MAX if is_back else 0) if start is None else start)
        return walked(WordWalk(self, self._entries_in, self._index_of, is_back, stop_of(stop, is_back)).steps(bound), self._asker)

    def clear(self) -> None:
        """Empties the array (FreeArray)."""
        self._free(is_quiet=True)
