"""The entries of an array, as the lines that insert them, in large blocks: for `judy dump`.

A sweep is exact while other clients write: an entry that stays comes exactly once, and the keys are in order.
An entry that is inserted, changed or removed meanwhile comes as it is when it is read, or not at all.

But for a JudyHS, many cursors read at once, each by Next. A cursor that reaches the place where the next one began has
read everything in between. Keys and values stay as the bytes of the replies.
"""

from bisect import bisect_left
from itertools import accumulate, chain, islice
from typing import Iterator, List, Optional, Tuple

from .errors import Error, checked
from .fields import KEY_LIMIT, MOST, count_of
from .wire import Wire

WIDTH = 2000
"""The most cursors of a Judy1 or a JudyL that read at once."""

DEPTH = 32
"""How many entries each of them reads in a window."""

STRETCHES = 2000
"""How many stretches of a JudySL are read at once."""

STEPS = 32
"""How many entries of a stretch are read between two guesses."""

GUESSES = 8
"""The most guesses at once for places to cut a stretch."""

AHEAD = 4096
"""How many entries of a stretch are held until their turn comes."""

Block = Tuple[bytes, int]
"""Lines, and how many."""

_ABOVE = b"y"
"""Above all fields of keys, which begin with x."""

_GREATEST = b"x" + b"ff" * KEY_LIMIT


def _asked(wire: Wire, prefix: bytes, fields: List[bytes]) -> bytes:
    """The replies to requests that begin alike."""
    if not fields:
        return b""
    return wire.ask(prefix + (b"\n" + prefix).join(fields) + b"\n", len(fields))


def _columns(replies: bytes, width: int) -> List[List[bytes]]:
    """The fields of found entries, each with this many fields, in columns. A reply that finds nothing
    gives an empty field in each column."""
    fields = replies.split()
    letter = b"V" if width == 3 else b"1"
    if fields[::width].count(letter) == len(fields) // width == replies.count(b"\n"):
        return [fields[at::width] for at in range(width)]
    rows = [line.split() for line in replies.splitlines()]
    for line, row in zip(replies.splitlines(), rows):
        if row not in ([b"0"], [b"NULL"]) and (len(row) != width or row[0] != letter):
            checked(line)
            raise Error("no such reply: %r" % line)
    return [[row[at] if len(row) == width else b"" for row in rows] for at in range(width)]


Columns = List[List[bytes]]
"""Fields of entries, in columns. The last column has the keys."""


class RankedSweep:
    """The entries of a Judy1 or a JudyL. Ranks give the cursors of a window their places."""

    def __init__(self, wire: Wire, kind: str, name: str) -> None:
        self._wire = wire
        self._width = 2 if kind == "J1" else 3
        self._calls = [b"%b%b %b " % (kind.encode(), letters, name.encode()) for letters in (b"F", b"C", b"BC", b"N")]
        self._insert = b"%b %b " % (b"J1S" if kind == "J1" else b"JLI", name.encode())

    def blocks(self) -> Iterator[Block]:
        """The entries in order, in blocks of lines."""
        first, _, _, step = self._calls
        start = self._found(_asked(self._wire, first, [b"0"]))
        while start[-1]:
            rows = [self._places(start)]
            for _ in range(DEPTH):
                rows.append(self._found(_asked(self._wire, step, rows[-1][-1])))
            *columns, keys = self._entries(rows)
            yield _joined(self._insert, list(map(b" ".join, zip(keys, *columns))) if columns else keys)
            start = [column[-1:] if len(rows[-1][-1]) == len(rows[0][-1]) else [] for column in rows[-1]]

    def _found(self, replies: bytes) -> Columns:
        """The columns of replies, up to the first that found nothing."""
        columns = _columns(replies, self._width)[1:]
        end = columns[-1].index(b"") if b"" in columns[-1] else len(columns[-1])
        return [column[:end] for column in columns]

    def _places(self, start: Columns) -> Columns:
        """The entries where the cursors of a window begin. The first is given."""
        _, count, nth, _ = self._calls
        counts = _asked(self._wire, count, [b"0 " + start[-1][0], start[-1][0] + b" -1"]).splitlines()
        rank, left = map(count_of, counts)
        places = [b"%d" % (rank + DEPTH * at) for at in range(1, min(WIDTH, left // DEPTH + 1))]
        others = self._found(_asked(self._wire, nth, places))
        rows = list(zip(*(begun + more for begun, more in zip(start, others))))
        rising: List[int] = list(accumulate((int(row[-1]) for row in rows), max))
        kept = [row for at, row in enumerate(rows) if at == 0 or rising[at] > rising[at - 1]]
        return [list(column) for column in zip(*kept)]

    def _entries(self, rows: List[Columns]) -> Columns:
        """The entries of a window. A cursor that did not come to where the next one began, since somebody
        wrote meanwhile, is taken there, or back. The first cursor that reached the end of the array is
        the last one."""
        starts, ends = rows[0][-1], rows[-1][-1]
        whole = len(ends)
        last = [[row[at][whole] for row in rows if len(row[-1]) > whole] for at in range(len(rows[0]))]
        apart = {at for at, (end, start) in enumerate(zip(ends, starts[1:])) if end != start}
        if not apart:
            return [list(chain.from_iterable(zip(*(row[at][:whole] for row in rows[:-1])))) + last[at] for at in range(len(rows[0]))]
        stretches = [[[row[column][at] for row in rows] for column in range(len(rows[0]))] for at in range(whole)]
        for at, stretch in enumerate(stretches):
            if at in apart:
                self._take_to(stretch, int(starts[at + 1]))
            else:
                stretch[:] = [column[:-1] for column in stretch]
        return [[field for stretch in (*stretches, last) for field in stretch[at]] for at in range(len(rows[0]))]

    def _take_to(self, stretch: Columns, end: int) -> None:
        """Goes on with the entries of a cursor up to a key, which is excluded, or cuts them there."""
        keys = stretch[-1]
        while int(keys[-1]) < end:
            more = self._found(_asked(self._wire, self._calls[3], keys[-1:]))
            if not more[-1]:
                return
            for column, fields in zip(stretch, more):
                column += fields
        count = bisect_left(list(map(int, keys)), end)
        for column in stretch:
            del column[count:]


def _joined(prefix: bytes, entries: List[bytes]) -> Block:
    """Lines that begin alike."""
    return prefix + (b"\n" + prefix).join(entries) + b"\n" if entries else b"", len(entries)


def middle(low: bytes, high: bytes) -> Optional[bytes]:
    """A string without a byte 0, about halfway between two strings; or None if there is none
    nearby."""
    at = next((at for at, (a, b) in enumerate(zip(low, high)) if a != b), len(low))
    if at >= len(high):
        return None
    below = low[at] if at < len(low) else 0
    if high[at] - below > 1:
        return high[:at] + bytes([(below + high[at]) // 2])
    if at >= len(low):
        return None
    for place in range(at + 1, KEY_LIMIT):
        digit = low[place] if place < len(low) else 0
        if digit < 254:
            return low[:place] + bytes([(digit + 256) // 2])
    return None


class Stretch:
    """The entries of a JudySL from one key up to another, which is excluded: the lines of those that
    were read and not yet given, and the key where the stretch goes on."""

    def __init__(self, insert: bytes, key: bytes, value: bytes, end: bytes, bound: bytes) -> None:
        self._insert = insert
        self.lines, self.count = [b"%b%b %b\n" % (insert, key, value)], 1
        self.last, self.end, self.bound = key, end, bound
        self.is_done = False

    def take(self, keys: Tuple[bytes, ...], values: Tuple[bytes, ...]) -> None:
        """Takes the replies to several Nexts."""
        count = len(keys) if keys[-1] < self.end else bisect_left(keys, self.end)
        self.is_done = count < len(keys)
        if count:
            lines, _ = _joined(self._insert, list(map(b" ".join, zip(keys[:count], values))))
            self.lines.append(lines)
            self.count += count
            self.last = keys[count - 1]

    def given(self) -> Block:
        """The lines that were read and not yet given."""
        block = b"".join(self.lines), self.count
        self.lines, self.count = [], 0
        return block

    def guesses(self, most: int) -> List[bytes]:
        """Keys in the rest, if there is some: about halfway through it, and so on towards its front."""
        found: List[bytes] = []
        low, high = _plain(self.last), _plain(self.bound)
        while not self.is_done and len(found) < most:
            between = middle(low, high)
            if between is None:
                break
            found.append(b"x" + between.hex().encode())
            high = between
        return found

    def parts(self, guesses: List[bytes], found: List[Tuple[bytes, bytes]]) -> List["Stretch"]:
        """Takes the replies to First from these guesses on, keys with values. Returns the later parts as
        stretches of their own."""
        self.bound = min([self.bound, *(guess for guess, (key, _) in zip(guesses, found) if key >= self.end)])
        starts = sorted({(key, value) for key, value in found if self.last < key < self.end})
        ends = [key for key, _ in starts[1:]] + [self.end]
        later = [Stretch(self._insert, key, value, end, min(end, self.bound)) for (key, value), end in zip(starts, ends)]
        if later:
            self.end = self.bound = starts[0][0]
        return later


def _plain(field: bytes) -> bytes:
    return bytes.fromhex(field[1:].decode())


class StringSweep:
    """The entries of a JudySL."""

    def __init__(self, wire: Wire, name: str) -> None:
        self._wire = wire
        self._calls = [b"JSL%b %b " % (letter, name.encode()) for letter in (b"F", b"L", b"N")]
        self._insert = b"JSLI %b " % name.encode()
        self._stretches: List[Stretch] = []

    def blocks(self) -> Iterator[Block]:
        """The entries in order, in blocks of lines."""
        first, last, _ = self._calls
        (value,), (key,) = self._found(_asked(self._wire, first, [b"x"]))
        (_,), (bound,) = self._found(_asked(self._wire, last, [_GREATEST]))
        if key == _ABOVE:
            return
        self._stretches = [Stretch(self._insert, key, value, _ABOVE, bound)]
        while self._stretches:
            yield from self._ready()
            self._advance()

    def _found(self, replies: bytes) -> List[List[bytes]]:
        """The values and the keys in replies. Where nothing was found the key is above all others."""
        _, values, keys = _columns(replies, 3)
        return [values, [key or _ABOVE for key in keys] if b"" in keys else keys]

    def _ready(self) -> Iterator[Block]:
        """The entries that may be given: those of the first stretches, up to one that goes on."""
        while self._stretches:
            yield self._stretches[0].given()
            if not self._stretches[0].is_done:
                return
            self._stretches.pop(0)

    def _advance(self) -> None:
        """Some steps of each stretch that may go on, and then guesses, if there are few of these."""
        going = list(islice((stretch for at, stretch in enumerate(self._stretches) if not stretch.is_done and (at == 0 or stretch.count < AHEAD)), STRETCHES))
        fields, rows = [stretch.last for stretch in going], []
        for _ in range(STEPS if going else 0):
            rows.append(self._found(_asked(self._wire, self._calls[2], fields)))
            fields = rows[-1][1] if _ABOVE not in rows[-1][1] else [_GREATEST if key == _ABOVE else key for key in rows[-1][1]]
        for stretch, keys, values in zip(going, zip(*(row[1] for row in rows)), zip(*(row[0] for row in rows))):
            stretch.take(keys, values)
        if 0 < len(going) < STRETCHES:
            self._split(going[: STRETCHES - len(going)], min(GUESSES, STRETCHES // len(going)))

    def _split(self, stretches: List[Stretch], most: int) -> None:
        """Cuts stretches, where guesses find later parts."""
        guesses = [stretch.guesses(most) for stretch in stretches]
        values, keys = self._found(_asked(self._wire, self._calls[0], [guess for some in guesses for guess in some]))
        found = iter(zip(keys, values))
        later = {id(stretch): stretch.parts(some, list(islice(found, len(some)))) for stretch, some in zip(stretches, guesses)}
        self._stretches = [part for stretch in self._stretches for part in (stretch, *later.get(id(stretch), ()))]


class ByteSweep:
    """The entries of a JudyHS. One cursor reads as many at once as fit into a reply."""

    def __init__(self, wire: Wire, name: str) -> None:
        self._wire = wire
        self._name = name.encode()

    def blocks(self) -> Iterator[Block]:
        """The entries in the server's order, in blocks of lines."""
        line = b"JHSF %b %d\n" % (self._name, MOST)
        while True:
            reply = checked(self._wire.ask(line, 1)[:-1])
            fields = reply.split(b" ")
            values, keys = fields[2::2], fields[3::2]
            if fields[0] != b"E" or len(keys) != len(values):
                raise Error("no such reply: %r" % reply)
            if not keys:
                return
            yield _joined(b"JHSI %b " % self._name, list(map(b" ".join, zip(keys, values))))
            line = b"JHSN %b %b %d\n" % (self._name, keys[-1], MOST)
