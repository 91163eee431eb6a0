"""The arrays that a command line names, their entries, and how `judy check` compares a dump with a
server's arrays."""

import errno
import hashlib
import os
import sys
import time
from dataclasses import dataclass
from itertools import groupby
from typing import Any, Callable, Dict, Iterable, Iterator, List, NamedTuple, Optional, Tuple

from .client import Arrays
from .fields import name_field
from .names import KINDS, listing
from .walks import Ask, walked
from .wire import Wire

_PUTS = {"J1S": "J1", "JLI": "JL", "JSLI": "JSL", "JHSI": "JHS"}
SHOWN = 20
"""How many differences are printed one by one."""

Item = Tuple[Any, int]
"""A key and its value, which is 0 in a set."""


@dataclass(frozen=True)
class ArrayName:
    """An array: its kind and name."""

    kind: str
    name: str

    def __str__(self) -> str:
        return "%s:%s" % (self.kind, self.name)

    def within(self, arrays: Arrays) -> Any:
        """The array, of a client or a visitor."""
        makers: Dict[str, Callable[[str], Any]] = {"J1": arrays.judy1, "JL": arrays.judyl, "JSL": arrays.judysl, "JHS": arrays.judyhs}
        return makers[self.kind](self.name)


def read_name(text: str) -> ArrayName:
    """The array that a word of a command line names, as `J1:ids`."""
    kind, _, name = text.partition(":")
    if kind not in KINDS or not name:
        raise ValueError("an array is J1:NAME, JL:NAME, JSL:NAME or JHS:NAME, and not %s" % text)
    name_field(name)
    return ArrayName(kind, name)


def items_in(arrays: Arrays, array: ArrayName) -> Iterator[Item]:
    """The entries of an array, in its order."""
    entries: Iterator[Any] = array.within(arrays).walk()
    return ((index, 0) for index in entries) if array.kind == "J1" else entries


def put_in(arrays: Arrays, array: ArrayName, items: Iterable[Item]) -> None:
    """Writes entries to an array."""
    array.within(arrays).update((index for index, _ in items) if array.kind == "J1" else items)


class _Asker:
    """What a walk asks, over a wire, which is one connection to one server."""

    def __init__(self, wire: Wire) -> None:
        self._wire = wire

    def _replies(self, lines: Ask) -> List[bytes]:
        return [self._wire.ask(line + b"\n", 1)[:-1] for line in lines]

    def _server(self) -> object:
        return self._wire

    def _pause(self) -> None:
        """The connection stays."""


def all_arrays(wire: Wire) -> List[ArrayName]:
    """The arrays of a tenant that have entries."""
    return [ArrayName(it.kind, it.name) for it in walked(listing(), _Asker(wire))]


class Progress:
    """A count on standard error, if that is a terminal."""

    def __init__(self, what: str) -> None:
        self._what = what
        self._is_shown = sys.stderr.isatty()
        self._next = 0.0
        self.count = 0

    def of(self, items: Iterable[Any]) -> Iterator[Any]:
        """The same items, counted."""
        for item in items:
            yield item
            self.add(1)

    def add(self, count: int) -> None:
        """Counts more."""
        self.count += count
        if self._is_shown and time.monotonic() > self._next:
            print("\r%s: %s" % (self._what, format(self.count, ",d")), end="", file=sys.stderr, flush=True)
            self._next = time.monotonic() + 0.2

    def end(self) -> None:
        """Leaves the last count on the terminal."""
        if self._is_shown:
            print("\r%s: %s" % (self._what, format(self.count, ",d")), file=sys.stderr, flush=True)


def dumped(blocks: Iterable[Tuple[int, bytes]]) -> Iterator[Tuple[ArrayName, Any, int]]:
    """The entries of a dump, from blocks of lines with the numbers of their first lines."""
    for number, block in blocks:
        for at, line in enumerate(block.splitlines(), number):
            try:
                yield _entry_of(line.decode("ascii").split())
            except ValueError:
                raise ValueError("line %d is no line of a dump: %s" % (at, line[:80].decode("ascii", "replace"))) from None


def _entry_of(fields: List[str]) -> Tuple[ArrayName, Any, int]:
    """The entry that a line inserts."""
    kind = _PUTS.get(fields[0])
    if kind is None or len(fields) != (3 if kind == "J1" else 4):
        raise ValueError
    key = int(fields[2]) if kind in ("J1", "JL") else bytes.fromhex(fields[2].removeprefix("x"))
    return ArrayName(kind, fields[1]), key, 0 if kind == "J1" else int(fields[3])


def differences(array: ArrayName, here: Iterator[Item], there: Iterator[Item]) -> Iterator[str]:
    """The differences between the entries of a dump and those of a server, both in the order of
    their keys."""
    mine, theirs, last = next(here, None), next(there, None), None
    while mine is not None or theirs is not None:
        if mine is not None and last is not None and mine[0] <= last:
            raise ValueError("the keys of %s are not in order: this is no dump" % array)
        if theirs is None or (mine is not None and mine[0] < theirs[0]):
            assert mine is not None
            yield "%s %s: in the dump alone" % (array, _shown(mine[0]))
            last, mine = mine[0], next(here, None)
        elif mine is None or theirs[0] < mine[0]:
            yield "%s %s: on the server alone" % (array, _shown(theirs[0]))
            theirs = next(there, None)
        else:
            if mine[1] != theirs[1]:
                yield "%s %s: %d in the dump, %d on the server" % (array, _shown(mine[0]), mine[1], theirs[1])
            last, mine, theirs = mine[0], next(here, None), next(there, None)


class Hashed(NamedTuple):
    """A key of a JudyHS. Such keys compare as the server has them."""

    place: bytes
    key: bytes


def hashed(items: Iterable[Item]) -> Iterator[Item]:
    """The entries of a JudyHS, under keys that compare as the server has them."""
    return ((Hashed(hashlib.sha256(key).digest()[:8], key), value) for key, value in items)


def _shown(key: Any) -> str:
    if isinstance(key, Hashed):
        key = key.key
    return "x" + key.hex() if isinstance(key, bytes) else str(key)


def _array_of(entry: Tuple[ArrayName, Any, int]) -> ArrayName:
    return entry[0]


def check(arrays: Arrays, blocks: Iterable[Tuple[int, bytes]]) -> int:
    """Compares the lines of a dump with the arrays, prints the first differences, and returns how many
    there are."""
    count, progress = 0, Progress("entries")
    for array, group in groupby(progress.of(dumped(blocks)), key=_array_of):
        here: Iterator[Item] = ((key, value) for _, key, value in group)
        there = items_in(arrays, array)
        if array.kind == "JHS":  # dumps of older versions have its keys in any order, perhaps twice
            here, there = iter(sorted(hashed(dict(here).items()))), hashed(there)
        for difference in differences(array, here, there):
            count += 1
            if count <= SHOWN:
                print(difference)
    progress.end()
    print("%d entries, %s" % (progress.count, "alike" if count == 0 else "%d differences" % count))
    return count


def open_input(path: Optional[str]) -> int:
    """The file descriptor of a file, or of standard input."""
    if path in (None, "-"):
        return sys.stdin.fileno()
    if os.path.isdir(str(path)):
        raise IsADirectoryError(errno.EISDIR, os.strerror(errno.EISDIR), path)
    return os.open(str(path), os.O_RDONLY)
