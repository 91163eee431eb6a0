"""Judy1 as a set of Python, over a client."""

from functools import partial
from itertools import compress
from typing import Any, Iterable, Iterator, List, MutableSet, Optional, Set

from .calls import Judy1Calls
from .fields import MAX, Shared, flag, flags_of, is_word, name_field, word_field
from .many import Many, Ranked
from .walks import indexes_in, indexes_of, intersected, walked


class Judy1(Ranked[int], Many, Judy1Calls[bool, int, Optional[int], Shared], MutableSet[int]):
    """A set of words. Besides the manual's calls it is a Python set: `5 in s`, `s.add(5)`, `s |=
    ids`, `for i in s` (in order)."""

    @staticmethod
    def _read(replies: List[bytes]) -> List[Optional[int]]:
        return indexes_of(replies)

    @staticmethod
    def _entries_in(reply: bytes) -> List[int]:
        return indexes_in(reply)

    @staticmethod
    def _index_of(entry: int) -> int:
        return entry

    def _rank_of(self, entry: object) -> Optional[int]:
        return self.count(0, entry) - 1 if entry in self else None

    @classmethod
    def _from_iterable(cls, indexes: Iterable[Any]) -> Set[Any]:
        return set(indexes)

    def __contains__(self, index: object) -> bool:
        return is_word(index) and self.test(index)  # type: ignore[arg-type]

    def __iter__(self) -> Iterator[int]:
        return self.walk()

    def __reversed__(self) -> Iterator[int]:
        return self.walk_back()

    def walk(self, start: int = 0, stop: Optional[int] = None) -> Iterator[int]:
        """The indexes in order from `start` on, up to `stop`, which is left out, read many at a
        time."""
        return self._walk(start, stop)

    def walk_back(self, start: int = MAX, stop: Optional[int] = None) -> Iterator[int]:
        """The indexes from `start` down to `stop`, which is left out, read many at a time."""
        return self._walk(start, stop, is_back=True)

    def intersection(self, other: str, start: int = 0, stop: Optional[int] = None) -> Iterator[int]:
        """The indexes that this set shares with the tenant's set of another name, in order from `start` on,
        up to `stop`, which is left out, read many at a time. Beside writers each index that is in both sets
        all the time comes exactly once."""
        return walked(intersected(self._line(b"I", name_field(other)), start, stop), self._asker)

    def add(self, index: int) -> None:
        """Inserts an index."""
        self._ask(b"S", flag, word_field(index), is_quiet=True)

    def discard(self, index: int) -> None:
        """Removes an index, if it is present. One that is out of range never is."""
        try:
            field = word_field(index)
        except ValueError:
            return
        self._ask(b"U", flag, field, is_quiet=True)

    def remove(self, index: int) -> None:
        """Removes an index. Raises KeyError if it is absent."""
        try:
            is_removed = self.unset(index)
        except ValueError:
            is_removed = False
        if not is_removed:
            raise KeyError(index)

    def pop(self) -> int:
        """Removes the least index, and returns it. It is one line: if several clients pop, each gets an
        index of its own. Raises KeyError if the set is empty."""
        index = self.pop_first()
        if index is None:
            raise KeyError("the set is empty")
        return index

    def take(self, first: int = 0) -> Optional[int]:
        """Inserts the least absent index from `first` on, and returns it; None if there is none. It is
        `add_absent`, by its older name: if several clients take, each gets an index of its own."""
        return self.add_absent(first)

    def update(self, indexes: Iterable[int]) -> None:
        """Inserts all of these indexes, with many lines in flight at once. A refusal is raised
        after the window that has it."""
        for _ in self._many(indexes, partial(self._lines, b"S"), lambda calls, index: calls.set(index), is_quiet=True):
            pass

    def difference_update(self, indexes: Iterable[int]) -> None:
        """Removes all of these indexes, with many lines in flight at once."""
        for _ in self._many(filter(is_word, indexes), partial(self._lines, b"U"), lambda calls, index: calls.unset(index), is_quiet=True):
            pass

    def among(self, indexes: Iterable[int]) -> Iterator[int]:
        """Those of these indexes that are in the set, in the order given, with many lines in flight
        at once."""
        for window, replies in self._many(filter(is_word, indexes), partial(self._lines, b"T"), lambda calls, index: calls.test(index), is_ahead=False):
            yield from compress(window, flags_of(replies))

    def _in(self, pipe: Any) -> Any:
        return pipe.judy1(self.name)

    def __ior__(self, indexes: Iterable[int]) -> "Judy1":  # type: ignore[override,misc]
        self.update(indexes)
        return self

    def __isub__(self, indexes: Iterable[int]) -> "Judy1":  # type: ignore[misc]
        if indexes is self:
            self.clear()
        else:
            self.difference_update(indexes)
        return self

    def __iand__(self, indexes: Iterable[int]) -> "Judy1":
        kept = set(indexes)
        self.difference_update([index for index in self if index not in kept])
        return self

    def __and__(self, indexes: Iterable[int]) -> Set[int]:
        if isinstance(indexes, Judy1) and indexes._asker is self._asker:
            return set(self.intersection(indexes.name))
        return set(self.among(indexes)) if isinstance(indexes, Iterable) else NotImplemented

    __rand__ = __and__
