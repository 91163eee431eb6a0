"""Walks of a JudySL and of a JudyHS."""

from typing import Any, Generic, Iterator, List, Optional, Tuple, TypeVar

from .errors import checked
from .fields import KEY_LIMIT, bytes_items_of, key_field
from .walks import Steps, Walk

T = TypeVar("T")
Item = Tuple[bytes, int]


class Listing(Generic[T]):
    """What is listed of a walk: keys, values or entries. Python's `list` asks for the length first,
    and neither a JudySL nor a JudyHS has a Count. So `counted` reads all items, which are then returned without a
    second read."""

    def __init__(self, things: Iterator[T]) -> None:
        self._things = things
        self.is_fresh = True

    def __iter__(self) -> "Listing[T]":
        return self

    def __next__(self) -> T:
        self.is_fresh = False
        return next(self._things)

    def counted(self) -> int:
        """The number of items of a listing that has not begun."""
        things = list(self._things)
        self._things = iter(things)
        return len(things)


class KeyWalk(Walk[Item]):
    """A walk over keys that are bytes."""

    longest = 2 * KEY_LIMIT + 23

    def _entries(self, reply: bytes) -> List[Item]:
        return bytes_items_of(checked(reply))

    def _field(self, entry: Item) -> bytes:
        return key_field(entry[0])


class ByteWalk(KeyWalk):
    """A walk of a JudyHS, in the server's order."""

    def __init__(self, array: Any) -> None:
        super().__init__(array, is_back=False)

    def _has(self, entry: Item) -> bool:
        return True

    def steps(self, behind: Optional[bytes]) -> Steps[Item]:
        """The entries behind a key, which may be absent; without one, all entries."""
        return self._steps(self._first if behind is None else self._behind(key_field(behind)))


class StringWalk(KeyWalk):
    """A walk of a JudySL over the keys with a prefix, up to the string `stop`, which is left out, if there
    is one."""

    def __init__(self, array: Any, is_back: bool, stop: Optional[bytes] = None) -> None:
        super().__init__(array, is_back)
        self._is_back = is_back
        self._stop = stop
        self._prefix = b""

    def _has(self, entry: Item) -> bool:
        if not entry[0].startswith(self._prefix):
            return False
        return self._stop is None or (entry[0] > self._stop if self._is_back else entry[0] < self._stop)

    def steps(self, start: Optional[bytes], prefix: bytes = b"") -> Steps[Item]:
        """The entries from a key on, while keys begin with a prefix; in a walk back from the key down."""
        self._prefix = prefix
        if start is None:
            start = b"\xff" * KEY_LIMIT if self._is_back else b""
        return self._from(key_field(start))
