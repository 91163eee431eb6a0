"""JudyL, JudySL and JudyHS as mappings of Python, over a client."""

from functools import partial
from threading import get_ident
from typing import (
    Any, Callable, Dict, Generic, ItemsView, Iterable, Iterator, KeysView, List, Mapping, MutableMapping, Optional, Tuple, TypeVar,
    Union, ValuesView, overload,
)  # fmt: skip
from weakref import ReferenceType, ref

from .calls import JudyHSCalls, JudyLCalls, JudySLCalls, MapCalls, given
from .fields import MAX, flags_of, numbers_of, values_of
from .many import Many, Ranked, add_step, get_key, insert_entry, pairs_of
from .strings import ByteWalk, Item, Listing, StringWalk
from .walks import Steps, items_in, items_of, walked

K = TypeVar("K")
V = TypeVar("V")
M = TypeVar("M", bound="MapBase[Any]")

_NOTHING: Any = object()


class Keys(KeysView[K]):
    """The keys of a map, from one walk."""

    _mapping: Any

    def __iter__(self) -> Iterator[K]:
        return iter(self._mapping)


class Items(ItemsView[K, int]):
    """The entries of a map, from one walk."""

    _mapping: Any

    def __iter__(self) -> Iterator[Tuple[K, int]]:
        entries: Iterator[Tuple[K, int]] = self._mapping._listed(self._mapping.walk())
        return entries


class Values(ValuesView[int]):
    """The values of a map, from one walk."""

    _mapping: Any

    def __iter__(self) -> Iterator[int]:
        values: Iterator[int] = self._mapping._listed(value for _, value in self._mapping.walk())
        return values

    def __contains__(self, value: object) -> bool:
        return any(value == other for other in self)


class MapBase(Many, MapCalls[K, bool, int, Optional[int]], Generic[K]):
    """What all maps have in Python: reads and writes by key."""

    def _may_have(self, key: Any) -> bool:
        """Whether the array may have such a key: it has the type of the keys, and is in their range."""
        try:
            self._key(key)
        except (TypeError, ValueError):
            return False
        return True

    def __contains__(self, key: object) -> bool:
        return self._may_have(key) and self.get(key) is not None  # type: ignore[arg-type]

    def __getitem__(self, key: K) -> int:
        value = self.get(key)
        if value is None:
            raise KeyError(key)
        return value

    def __setitem__(self, key: K, value: int) -> None:
        self._insert(key, given(value), is_quiet=True)

    def __delitem__(self, key: K) -> None:
        if not self._removed(key):
            raise KeyError(key)

    def _removed(self, key: K) -> bool:
        """Whether a key was present, which is no longer there. One that is out of range never is."""
        return self._is_in_range(key) and self.delete(key)

    def _is_in_range(self, key: K) -> bool:
        """Whether a key of this type may be in the array."""
        try:
            self._key(key)
        except ValueError:
            return False
        return True

    def _entries(self) -> Dict[K, int]:
        """All entries."""
        raise NotImplementedError

    def __eq__(self, other: object) -> bool:
        """Whether a mapping has the same entries. It reads all of them."""
        if self is other:
            return True
        if not isinstance(other, Mapping):
            return NotImplemented
        is_same: bool = self._entries() == dict(other.items())
        return is_same

    def __or__(self, other: Mapping[K, int]) -> Dict[K, int]:
        """A dict with the entries of both. Those of the other count where both have a key."""
        return {**self._entries(), **dict(other.items())} if isinstance(other, Mapping) else NotImplemented

    def __ror__(self, other: Mapping[K, int]) -> Dict[K, int]:
        return {**dict(other.items()), **self._entries()} if isinstance(other, Mapping) else NotImplemented

    def __ior__(self: M, entries: Union[Mapping[Any, int], Iterable[Tuple[Any, int]]]) -> M:  # type: ignore[misc]  # as dict's
        self.update(entries)
        return self

    @overload
    def get(self, key: K) -> Optional[int]: ...

    @overload
    def get(self, key: K, default: Union[int, V]) -> Union[int, V]: ...

    def get(self, key: K, default: Any = None) -> Any:
        """Get: the value of a key, or the default. A key that is out of range is absent."""
        try:
            self._key(key)
        except ValueError:
            return default
        value = super().get(key)
        return default if value is None else value

    @overload
    def pop(self, key: K) -> int: ...

    @overload
    def pop(self, key: K, default: Union[int, V]) -> Union[int, V]: ...

    def pop(self, key: K, default: Any = _NOTHING) -> Any:
        """Removes a key, and returns its value; the default if it is absent, and KeyError without one.
        It is one line: if several clients pop a key, one of them gets its value."""
        value = self.take(key) if self._is_in_range(key) else None
        if value is None and default is _NOTHING:
            raise KeyError(key)
        return default if value is None else value

    def setdefault(self, key: K, default: int) -> int:
        """The value of a key. If it is absent, stores the default, and returns it. It is one line: if
        several clients do this, all get the value that one of them stored."""
        value = self.keep(key, default)
        return default if value is None else value

    def get_many(self, keys: Iterable[K]) -> Iterator[Tuple[K, Optional[int]]]:
        """Each of these keys with its value, or with None, with many lines in flight at once. A key
        that is out of range is absent."""
        for window, replies in self._many(keys, partial(self._lines, b"G"), get_key, is_ahead=False):
            yield from zip(window, values_of(replies))

    def clear(self) -> None:
        """Empties the array (FreeArray)."""
        self._free(is_quiet=True)

    def update(self, entries: Union[Mapping[K, int], Iterable[Tuple[K, int]]] = (), /, **more: int) -> None:
        """Stores all of these entries, with many lines in flight at once. A refusal is raised after
        the window that has it: all other entries of that window and of those before are stored."""
        pairs = pairs_of(entries)
        for _ in self._many((*pairs, *more.items()) if more else pairs, self._insert_lines, insert_entry, is_quiet=True):
            pass

    def add_many(self, steps: Union[Mapping[K, int], Iterable[Tuple[K, int]]]) -> List[int]:
        """Adds to the values of many keys, pairs of a key and what is added to it, with many lines in
        flight at once. Returns the new values, in the order given. A refusal is raised after the window
        that has it: all other additions of that window and of those before are made."""
        values: List[int] = []
        for _, replies in self._many(pairs_of(steps), self._add_lines, add_step):
            values += numbers_of(replies)
        return values

    def delete_many(self, keys: Iterable[K]) -> int:
        """Removes all of these keys, with many lines in flight at once, and returns how many were
        present."""
        found = self._many(keys, partial(self._lines, b"D"), lambda calls, key: calls.delete(key))
        return sum(sum(flags_of(replies)) for _, replies in found)


class WalkedMap(MapBase[K], MutableMapping[K, int]):  # type: ignore[misc]
    """A map that is walked in its order."""

    walk: Callable[..., Iterator[Tuple[K, int]]]

    def _popped(self) -> Optional[Tuple[K, int]]:
        """The first key and its value, which are removed, or None."""
        raise NotImplementedError

    def popitem(self) -> Tuple[K, int]:
        """Removes the first key, and returns it with its value. If several clients pop, each gets a key of
        its own. Raises KeyError if the map is empty."""
        item = self._popped()
        if item is None:
            raise KeyError("the map is empty")
        return item

    def _entries(self) -> Dict[K, int]:
        return dict(self.items())

    def __iter__(self) -> Iterator[K]:
        return self._listed(key for key, _ in self.walk())

    def _listed(self, things: Iterator[V]) -> Iterator[V]:
        """The items of a walk, for a caller that lists them."""
        return things

    def keys(self) -> Keys[K]:
        """The keys, in order."""
        return Keys(self)

    def items(self) -> Items[K]:
        """The entries, in order."""
        return Items(self)

    def values(self) -> Values:
        """The values, in the order of their keys."""
        return Values(self)


class SortedMap(WalkedMap[K]):
    """A map in the order of its keys, which is walked back too."""

    walk_back: Callable[..., Iterator[Tuple[K, int]]]

    def __reversed__(self) -> Iterator[K]:
        return (key for key, _ in self.walk_back())


class KeyMap(WalkedMap[K]):
    """A map whose keys are bytes or text. It has no Count, so `len` walks all entries."""

    _shown: Callable[[bytes], K]
    _listing: Optional[Tuple[int, "ReferenceType[Listing[Any]]"]] = None

    def __len__(self) -> int:
        thread, listed = self._listing or (0, lambda: None)
        listing = listed() if thread == get_ident() else None
        if listing is not None and listing.is_fresh:
            return listing.counted()
        return sum(1 for _ in self.walk())

    def _listed(self, things: Iterator[V]) -> Iterator[V]:
        listing = Listing(things)
        self._listing = (get_ident(), ref(listing))
        return listing

    def _walk(self, steps: Steps[Item]) -> Iterator[Tuple[K, int]]:
        return ((self._shown(key), value) for key, value in walked(steps, self._asker))


class JudyL(Ranked[Tuple[int, int]], SortedMap[int], JudyLCalls[bool, int, Optional[int], Optional[Tuple[int, int]]]):  # type: ignore[misc]
    """A map from words to words. Besides the manual's calls it is a Python mapping: `m[5] = 7`, `5
    in m`, `del m[5]`, `len(m)`, `for i in m`."""

    @staticmethod
    def _read(replies: List[bytes]) -> List[Optional[Tuple[int, int]]]:
        return items_of(replies)

    @staticmethod
    def _entries_in(reply: bytes) -> List[Tuple[int, int]]:
        return items_in(reply)

    @staticmethod
    def _index_of(entry: Tuple[int, int]) -> int:
        return entry[0]

    def _popped(self) -> Optional[Tuple[int, int]]:
        return self.pop_first()

    def _rank_of(self, entry: object) -> Optional[int]:
        if not isinstance(entry, tuple) or len(entry) != 2 or entry[0] not in self or self.get(entry[0]) != entry[1]:
            return None
        return self.count(0, entry[0]) - 1

    def walk(self, start: int = 0, stop: Optional[int] = None) -> Iterator[Tuple[int, int]]:
        """The entries in order from `start` on, up to `stop`, which is left out, as pairs of index and
        value, read many at a time."""
        return self._walk(start, stop)

    def walk_back(self, start: int = MAX, stop: Optional[int] = None) -> Iterator[Tuple[int, int]]:
        """The entries from `start` down to `stop`, which is left out, as pairs of index and value, read
        many at a time."""
        return self._walk(start, stop, is_back=True)

    def _in(self, pipe: Any) -> Any:
        return pipe.judyl(self.name)


class JudySL(KeyMap[K], SortedMap[K], JudySLCalls[K, bool, int, Optional[int], Optional[Tuple[K, int]]]):  # type: ignore[misc]
    """A map from strings to words, in the order of their bytes. Besides the manual's calls it is a
    Python mapping."""

    def __bool__(self) -> bool:
        return self.first() is not None

    def _popped(self) -> Optional[Tuple[K, int]]:
        return self.pop_first()

    def walk(self, start: Optional[K] = None, stop: Optional[K] = None) -> Iterator[Tuple[K, int]]:
        """The entries in order from `start` on, up to `stop`, which is left out, as pairs of key and
        value, read many at a time."""
        return self._walk(StringWalk(self, False, self._bound(stop)).steps(self._bound(start)))

    def walk_back(self, start: Optional[K] = None, stop: Optional[K] = None) -> Iterator[Tuple[K, int]]:
        """The entries from `start` down to `stop`, which is left out, as pairs of key and value."""
        return self._walk(StringWalk(self, True, self._bound(stop)).steps(self._bound(start)))

    def with_prefix(self, prefix: K) -> Iterator[Tuple[K, int]]:
        """The entries whose keys begin with these bytes or this text, in order."""
        plain = self._plain(prefix)
        return self._walk(StringWalk(self, False).steps(plain, plain))

    def _in(self, pipe: Any) -> Any:
        return pipe.judysl(self.name, self.encoding)


class JudyHS(KeyMap[K], JudyHSCalls[K, bool, int, Optional[int], List[Tuple[K, int]]]):  # type: ignore[misc]
    """A map from byte keys to words, in an order of the server's: by the first 8 bytes of a key's SHA-256,
    then by its bytes. Besides the manual's calls it is a Python mapping, but it is not walked back."""

    def __bool__(self) -> bool:
        return bool(self.first(1))

    def _popped(self) -> Optional[Tuple[K, int]]:
        while found := self.first(1):
            if self.delete_if(*found[0]):
                return found[0]
        return None

    def walk(self, behind: Optional[K] = None) -> Iterator[Tuple[K, int]]:
        """The entries in the server's order, those behind a key if one is given, as pairs of key and value,
        read many at a time. The key may be absent. Beside writers each entry that is there all the time comes
        exactly once."""
        return self._walk(ByteWalk(self).steps(self._bound(behind)))

    def _in(self, pipe: Any) -> Any:
        return pipe.judyhs(self.name, self.encoding)
