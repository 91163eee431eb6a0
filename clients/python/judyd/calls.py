"""The calls of the four kinds of array, by the manual's names in lower case.

What a call returns depends on who is asked: a client returns the result itself, a pipeline a
`Later` of it, and an asyncio client an awaitable of it. So the result types are parameters: `Yes`
stands for a bool, `Number` for an int, `Found` for an int or None, `Item` for a pair of key and
value or None, `Both` for a `Shared`, and `Listed` for a list of pairs of key and value. `K` is the type
of keys: int, bytes, or str.
"""

# mypy: no-warn-return-any

import re
from binascii import hexlify
from itertools import chain
from typing import Any, Callable, Generic, List, Optional, Sequence, Tuple, TypeVar

from .bound import Bound
from .fields import (
    KEY_LIMIT, MAX, MOST, bytes_item_of, bytes_items_of, bytes_of, count_of, flag, index_of, item_of, key_field, most_field, name_field, no_zeros, plain_keys,
    plain_steps, plain_words, shared_of, step_field, value_of, value_or_none, word_field,
)  # fmt: skip
from .lines import FormedLines, Lines
from .words import COMMANDS

K = TypeVar("K")
Yes = TypeVar("Yes", covariant=True)
Number = TypeVar("Number", covariant=True)
Found = TypeVar("Found", covariant=True)
Item = TypeVar("Item", covariant=True)
Both = TypeVar("Both", covariant=True)
Listed = TypeVar("Listed", covariant=True)

Plain = Callable[[Sequence[Any]], Optional[Sequence[int]]]
"""Checks many numbers at once."""

_LOOKS = "|".join(word for word, command in COMMANDS.items() if command.does == "looks")
_DO_MORE = ("Add", "Fill", "Pop", "Cut")  # operations that run twice change what they did not change before
_SAME_TWICE = "|".join(word for word, command in COMMANDS.items() if command.does != "looks" and command.operation not in _DO_MORE)
_QUERY = re.compile(("(?:%s|NAMES) |(?:USED|PING|HELLO)$|AUTH " % _LOOKS).encode())
_CHANGE = re.compile(("(?:%s) " % _SAME_TWICE).encode())


def is_query(line: bytes) -> bool:
    """Whether a line changes no array, so that a client may send it twice."""
    return _QUERY.match(line) is not None


def is_same_twice(line: bytes) -> bool:
    """Whether a line that runs twice in a row leaves the arrays as it leaves them once. The second
    reply may differ."""
    return is_query(line) or _CHANGE.match(line) is not None


def given(value: Optional[int]) -> int:
    """A value to store. `None` is not a value."""
    if value is None:
        raise TypeError("a value is a word, and not None")
    return value


class Calls(Bound, Generic[Number]):
    """The calls of one array, over an asker: a client or a pipeline."""

    _prefix = b""
    _form = b"%d"  # how a line has a key

    def __init__(self, asker: Any, name: str) -> None:
        self._field = name_field(name)
        self._asker = asker
        self.name = name

    def __repr__(self) -> str:
        return "<%s %s of %r>" % (type(self).__name__, self.name, self._asker)

    def _line(self, letters: bytes, *fields: bytes) -> bytes:
        return b" ".join((self._prefix + letters, self._field, *fields))

    def _formed(self, keys: Sequence[Any]) -> Optional[Sequence[Any]]:
        """Many keys, as `_form` takes them; None if one of them must be checked by itself."""
        return plain_words(keys)

    def _lines(self, letters: bytes, keys: Sequence[Any]) -> Optional[Lines]:
        """The lines of a call for many keys, made at once; None if a key must be checked by itself."""
        formed = self._formed(keys)
        return None if formed is None else FormedLines(self._line(letters, self._form), formed, len(keys))

    def _ask(self, letters: bytes, read: Callable[[bytes], object], *fields: bytes, is_quiet: bool = False) -> Any:
        """The result of a call. It is quiet if its result is not used."""
        return self._asker._ask(self._line(letters, *fields), read, is_quiet)

    def free_array(self) -> Number:
        """FreeArray: empties the array and returns how many entries it had."""
        return self._free()

    def _free(self, is_quiet: bool = False) -> Any:
        return self._ask(b"FA", count_of, is_quiet=is_quiet)


class Empties(Calls[Number], Generic[Number, Found]):
    """Count, the removal of a range, and the searches for absent indexes, which Judy1 and JudyL share."""

    _range = b""  # the letters of the removal of a range

    def count(self, low: int = 0, high: int = MAX) -> Number:
        """Count: how many indexes are present from `low` to `high`, both included."""
        return self._ask(b"C", count_of, word_field(low), word_field(high))

    def remove_range(self, low: int, high: int, most: int = MOST) -> Number:
        """RemoveRange: removes the indexes from `low` to `high`, both included, the least first and at most
        `most` of them, and returns how many it removed. While that is `most`, there may be more."""
        return self._ask(self._range, count_of, word_field(low), word_field(high), most_field(most))

    def first_empty(self, index: int = 0) -> Found:
        """FirstEmpty: the least absent index from `index` on, or None."""
        return self._ask(b"FE", index_of, word_field(index))

    def next_empty(self, index: int) -> Found:
        """NextEmpty: the least absent index above `index`, or None."""
        return self._ask(b"NE", index_of, word_field(index))

    def last_empty(self, index: int = MAX) -> Found:
        """LastEmpty: the greatest absent index up to `index`, or None."""
        return self._ask(b"LE", index_of, word_field(index))

    def prev_empty(self, index: int) -> Found:
        """PrevEmpty: the greatest absent index below `index`, or None."""
        return self._ask(b"PE", index_of, word_field(index))


class Judy1Calls(Empties[Number, Found], Generic[Yes, Number, Found, Both]):
    """The calls of Judy1."""

    _prefix = b"J1"
    _range = b"UR"

    def set(self, index: int) -> Yes:
        """Set: inserts an index, and returns whether it was absent."""
        return self._ask(b"S", flag, word_field(index))

    def unset(self, index: int) -> Yes:
        """Unset: removes an index, and returns whether it was present."""
        return self._ask(b"U", flag, word_field(index))

    def add_absent(self, start: int = 0) -> Found:
        """AddAbsent: inserts the least absent index from `start` on, and returns it; None if there is none."""
        return self._ask(b"SE", index_of, word_field(start))

    def pop_first(self, low: int = 0, high: int = MAX) -> Found:
        """PopFirst: removes the least index from `low` to `high`, both included, and returns it; None if
        there is none."""
        return self._ask(b"UF", index_of, word_field(low), word_field(high))

    def test(self, index: int) -> Yes:
        """Test: whether an index is present."""
        return self._ask(b"T", flag, word_field(index))

    def by_count(self, nth: int) -> Found:
        """ByCount: the n-th index, counted from 1, or None."""
        return self._ask(b"BC", index_of, word_field(nth))

    def first(self, index: int = 0) -> Found:
        """First: the least index from `index` on, or None."""
        return self._ask(b"F", index_of, word_field(index))

    def next(self, index: int) -> Found:
        """Next: the least index above `index`, or None."""
        return self._ask(b"N", index_of, word_field(index))

    def last(self, index: int = MAX) -> Found:
        """Last: the greatest index up to `index`, or None."""
        return self._ask(b"L", index_of, word_field(index))

    def prev(self, index: int) -> Found:
        """Prev: the greatest index below `index`, or None."""
        return self._ask(b"P", index_of, word_field(index))

    def intersect(self, other: str, start: int = 0, most: int = MOST) -> Both:
        """Intersect: the indexes that this set shares with the tenant's set of another name, from `start` on and
        at most `most` of them, as a `Shared`. One call looks for a limited time and gives what fits into a
        reply: go on at the `next` of the result until that is None."""
        return self._ask(b"I", shared_of, name_field(other), word_field(start), most_field(most))


class MapCalls(Calls[Number], Generic[K, Yes, Number, Found]):
    """Insert, Delete, Get, and the calls that decide by a value, which the three kinds of map share."""

    def _key(self, key: K) -> bytes:
        raise NotImplementedError

    def insert(self, key: K, value: Optional[int] = None) -> Number:
        """Insert: returns the value before, 0 for a new key. Stores the given value; without one, a
        new key gets 0 and a present key keeps its value."""
        return self._insert(key, value)

    def _insert(self, key: K, value: Optional[int], is_quiet: bool = False) -> Any:
        more = () if value is None else (word_field(value),)
        return self._ask(b"I", value_of, self._key(key), *more, is_quiet=is_quiet)

    def add(self, key: K, n: int = 1) -> Number:
        """Adds `n` to the value of a key, modulo 2^64, and returns the new value. An absent key counts
        as 0, and becomes present. `n` may be negative."""
        return self._add(key, n)

    def _insert_lines(self, entries: Sequence[Any]) -> Optional[Lines]:
        """The lines that store many entries, made at once; None if an entry must be checked by itself."""
        return self._pair_lines(b"I", plain_words, entries)

    def _add_lines(self, steps: Sequence[Any]) -> Optional[Lines]:
        """The lines that add to many keys, made at once; None if a pair must be checked by itself."""
        return self._pair_lines(b"A", plain_steps, steps)

    def _pair_lines(self, letters: bytes, plain: Plain, pairs: Sequence[Any]) -> Optional[Lines]:
        """The lines of a call for many pairs of a key and a number."""
        if not set(map(type, pairs)) <= {tuple, list} or set(map(len, pairs)) != {2}:
            return None
        fields = self._pair_fields(list(chain.from_iterable(pairs)), plain)
        return None if fields is None else FormedLines(self._line(letters, self._form, b"%d"), fields, len(pairs))

    def _pair_fields(self, fields: List[Any], plain: Plain) -> Optional[Sequence[Any]]:
        """Keys and numbers in turns, as lines have them; None if one of them must be checked by itself."""
        keys, numbers = self._formed(fields[::2]), plain(fields[1::2])
        if keys is None or numbers is None:
            return None
        fields[::2], fields[1::2] = keys, numbers
        return fields

    def _add(self, key: K, n: int) -> Any:
        return self._ask(b"A", value_of, self._key(key), step_field(n))

    def keep(self, key: K, value: int) -> Found:
        """Stores a value if the key is absent, and returns None. A present key keeps its value, which is
        returned."""
        return self._ask(b"K", value_or_none, self._key(key), word_field(given(value)))

    def exchange(self, key: K, old: int, new: int) -> Found:
        """Stores `new` if the value of a key is `old`. Returns the value before, which is `old` exactly if
        `new` is stored; None if the key is absent, and then nothing is stored."""
        return self._ask(b"X", value_or_none, self._key(key), word_field(given(old)), word_field(given(new)))

    def delete(self, key: K) -> Yes:
        """Delete: removes a key, and returns whether it was present."""
        return self._ask(b"D", flag, self._key(key))

    def delete_if(self, key: K, value: int) -> Yes:
        """Delete with a value: removes a key if it has this value, and returns whether it had."""
        return self._ask(b"D", flag, self._key(key), word_field(given(value)))

    def take(self, key: K) -> Found:
        """Removes a key, and returns the value it had; None if it was absent."""
        return self._ask(b"T", value_or_none, self._key(key))

    def get(self, key: K) -> Found:
        """Get: the value of a key, or None."""
        return self._ask(b"G", value_or_none, self._key(key))


class JudyLCalls(MapCalls[int, Yes, Number, Found], Empties[Number, Found], Generic[Yes, Number, Found, Item]):
    """The calls of JudyL."""

    _prefix = b"JL"
    _range = b"DR"

    def _key(self, key: int) -> bytes:
        return word_field(key)

    def _pair_fields(self, fields: List[Any], plain: Plain) -> Optional[Sequence[Any]]:
        words = plain_words(fields)
        return super()._pair_fields(fields, plain) if words is None else words

    def insert_absent(self, start: int, value: int) -> Found:
        """InsertAbsent: inserts the least absent index from `start` on with a value, and returns the index;
        None if there is none."""
        return self._ask(b"IE", index_of, word_field(start), word_field(given(value)))

    def pop_first(self, low: int = 0, high: int = MAX) -> Item:
        """PopFirst: removes the least index from `low` to `high`, both included, and returns it with its
        value; None if there is none."""
        return self._ask(b"DF", item_of, word_field(low), word_field(high))

    def by_count(self, nth: int) -> Item:
        """ByCount: the n-th index, counted from 1, and its value; or None."""
        return self._ask(b"BC", item_of, word_field(nth))

    def first(self, index: int = 0) -> Item:
        """First: the least index from `index` on, and its value; or None."""
        return self._ask(b"F", item_of, word_field(index))

    def next(self, index: int) -> Item:
        """Next: the least index above `index`, and its value; or None."""
        return self._ask(b"N", item_of, word_field(index))

    def last(self, index: int = MAX) -> Item:
        """Last: the greatest index up to `index`, and its value; or None."""
        return self._ask(b"L", item_of, word_field(index))

    def prev(self, index: int) -> Item:
        """Prev: the greatest index below `index`, and its value; or None."""
        return self._ask(b"P", item_of, word_field(index))


class KeyCalls(MapCalls[K, Yes, Number, Found], Generic[K, Yes, Number, Found]):
    """Keys that are bytes, or text in an encoding."""

    _form = b"x%b"

    def __init__(self, asker: Any, name: str, encoding: Optional[str] = None) -> None:
        super().__init__(asker, name)
        self.encoding = encoding

    def _plain(self, key: K) -> bytes:
        """The bytes of a key."""
        return bytes_of(key, self.encoding)

    def _plain_many(self, keys: Sequence[Any]) -> Optional[List[bytes]]:
        """The bytes of many keys; None if one of them must be checked by itself."""
        return plain_keys(keys, self.encoding)

    def _formed(self, keys: Sequence[Any]) -> Optional[List[Any]]:
        plain = self._plain_many(keys)
        return None if plain is None else list(map(hexlify, plain))

    def _bound(self, key: Optional[K]) -> Optional[bytes]:
        """The bytes of a key where a walk begins or stops, if there is one."""
        return None if key is None else self._plain(key)

    def _shown(self, plain: bytes) -> Any:
        """A key as the caller sees it: bytes, or text in the encoding."""
        return plain if self.encoding is None else plain.decode(self.encoding)

    def _key(self, key: K) -> bytes:
        return key_field(self._plain(key))

    def _item(self, reply: bytes) -> Optional[Tuple[Any, int]]:
        """A key and its value, or None."""
        found = bytes_item_of(reply)
        return None if found is None else (self._shown(found[0]), found[1])


class JudySLCalls(KeyCalls[K, Yes, Number, Found], Generic[K, Yes, Number, Found, Item]):
    """The calls of JudySL."""

    _prefix = b"JSL"

    def _plain(self, key: K) -> bytes:
        return no_zeros(super()._plain(key))

    def _plain_many(self, keys: Sequence[Any]) -> Optional[List[bytes]]:
        plain = super()._plain_many(keys)
        return None if plain is None or b"\0" in b"".join(plain) else plain

    def pop_first(self, key: Optional[K] = None) -> Item:
        """PopFirst: removes the least string from `key` on (without a key: of all), and returns it with its
        value; None if there is none."""
        return self._ask(b"DF", self._item, b"x" if key is None else self._key(key))

    def first(self, key: Optional[K] = None) -> Item:
        """First: the least string from `key` on (without a key: of all), and its value; or None."""
        return self._ask(b"F", self._item, b"x" if key is None else self._key(key))

    def next(self, key: K) -> Item:
        """Next: the least string above `key`, and its value; or None."""
        return self._ask(b"N", self._item, self._key(key))

    def last(self, key: Optional[K] = None) -> Item:
        """Last: the greatest string up to `key` (without a key: of all), and its value; or None."""
        return self._ask(b"L", self._item, GREATEST_STRING if key is None else self._key(key))

    def prev(self, key: K) -> Item:
        """Prev: the greatest string below `key`, and its value; or None."""
        return self._ask(b"P", self._item, self._key(key))


class JudyHSCalls(KeyCalls[K, Yes, Number, Found], Generic[K, Yes, Number, Found, Listed]):
    """The calls of JudyHS."""

    _prefix = b"JHS"

    def _items(self, reply: bytes) -> List[Tuple[Any, int]]:
        """Keys and their values."""
        return [(self._shown(key), value) for key, value in bytes_items_of(reply)]

    def first(self, most: int = MOST) -> Listed:
        """First: the first entries in the server's order, at most `most` of them and as many as fit into a
        reply, as pairs of key and value. Go on by `next` from the last of them until it finds none."""
        return self._ask(b"F", self._items, most_field(most))

    def next(self, key: K, most: int = MOST) -> Listed:
        """Next: the entries behind a key, which may be absent, at most `most` of them and as many as fit into
        a reply, as pairs of key and value."""
        return self._ask(b"N", self._items, self._key(key), most_field(most))


GREATEST_STRING = b"x" + b"ff" * KEY_LIMIT
"""No string is above it."""
