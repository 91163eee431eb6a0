"""The fields of requests and of replies. docs/PROTOCOL.md has the protocol."""

import operator
import re
from array import array
from binascii import unhexlify
from typing import Any, Iterable, List, NamedTuple, Optional, Sequence, SupportsIndex, Tuple

from .errors import JudyError, KeyTooLong
from .lines import cut

MAX = 2**64 - 1
"""The greatest word."""

KEY_LIMIT = 1000
LINE_LIMIT = 4096
MOST = 65535
"""The most entries of a search, of an intersection, or of the removal of a range."""

_NAME = re.compile(r"[A-Za-z0-9_.-]{1,32}\Z")
_TOKEN = re.compile(r"[!-~]{1,128}\Z")
_FLAGS = bytes.maketrans(b"01", b"\0\1")
_HELLO = re.compile(rb"JUDYD (\d+) line (\d+) reply (\d+) name (\d+) token (\d+) key (\d+)(?: .*)?\Z")


class Used(NamedTuple):
    """A tenant's numbers of entries and pieces, each with its quota."""

    used: int
    quota: int
    pieces: int
    most: int


class Shared(NamedTuple):
    """Indexes that two sets share, and the index where the next `intersect` goes on: None if the sets share no
    more."""

    indexes: List[int]
    next: Optional[int]


class Hello(NamedTuple):
    """What a server reports about its protocol: the version, and the most bytes of a line, of a reply, of a
    name, of a token and of a key."""

    version: int
    line: int
    reply: int
    name: int
    token: int
    key: int


# What requests are made of.


def name_field(name: str) -> bytes:
    """A name, of a tenant or of an array."""
    if not isinstance(name, str):
        raise TypeError("a name is a str, and not %r" % (name,))
    if not _NAME.match(name):
        raise ValueError("a name is 1 to 32 of A-Z a-z 0-9 _ - . and not %r" % (name,))
    return name.encode()


def token_field(token: str) -> bytes:
    """A token."""
    if not isinstance(token, str):
        raise TypeError("a token is a str, and not a %s" % type(token).__name__)
    if not _TOKEN.match(token):
        raise ValueError("a token is 1 to 128 characters from ! to ~")
    return token.encode()


def _number(what: str, number: SupportsIndex, low: int, high: int) -> int:
    """An int from `low` to `high`. Whatever has `__index__` is an int."""
    try:
        plain = operator.index(number)
    except TypeError:
        raise TypeError("%s is an int from %d to %d, and not %r" % (what, low, high, number)) from None
    if not low <= plain <= high:
        raise ValueError("%s is an int from %d to %d, and not %r" % (what, low, high, number))
    return plain


def word_of(word: SupportsIndex) -> int:
    """A word."""
    return _number("a word", word, 0, MAX)


def word_field(word: SupportsIndex) -> bytes:
    """A word, in decimal digits."""
    if type(word) is int and 0 <= word <= MAX:
        return b"%d" % word
    return b"%d" % word_of(word)


def is_word(thing: Any) -> bool:
    """Whether a thing is a word. A set has nothing else."""
    if type(thing) is int:
        return 0 <= thing <= MAX
    try:
        word_of(thing)
    except (TypeError, ValueError):
        return False
    return True


def plain_words(things: Sequence[Any]) -> Optional[Sequence[int]]:
    """Many words, checked at once; None if one of the things is not a word."""
    if not set(map(type, things)) <= {int}:
        return _plain_numbers(things, 0)
    try:
        array("Q", things)  # which takes only words
    except OverflowError:
        return None
    return things


def plain_steps(things: Sequence[Any]) -> Optional[Sequence[int]]:
    """What many additions add, modulo 2^64, checked at once; None if one of the things is not a step."""
    steps = _plain_numbers(things, -MAX)
    return steps if steps is None or min(steps, default=0) >= 0 else [step % (MAX + 1) for step in steps]


def _plain_numbers(things: Sequence[Any], low: int) -> Optional[List[int]]:
    """Many ints from `low` to MAX, checked at once; None if one of the things is not such an int."""
    try:
        numbers = list(map(operator.index, things))
    except Exception:  # `_number` raises the error
        return None
    return numbers if min(numbers, default=0) >= low and max(numbers, default=0) <= MAX else None


def step_field(step: SupportsIndex) -> bytes:
    """What an addition adds: a word, or a negative number, modulo 2^64."""
    return b"%d" % (_number("what is added", step, -MAX, MAX) % (MAX + 1))


def most_field(most: SupportsIndex) -> bytes:
    """How many entries a call may find or remove."""
    return b"%d" % _number("how many there are at most", most, 1, MOST)


def stop_of(stop: Optional[SupportsIndex], is_back: bool) -> int:
    """The index where a walk stops, which it leaves out. With None it walks to the end."""
    if stop is None:
        return -1 if is_back else MAX + 1
    return _number("where a walk stops", stop, -1, MAX + 1)


def bytes_of(key: object, encoding: Optional[str]) -> bytes:
    """The bytes of a key. A number or a list of numbers is not a key, although `bytes` takes both."""
    if isinstance(key, str):
        if encoding is None:
            raise TypeError("a key is bytes, unless the array was made with an encoding: %r" % (key,))
        plain = key.encode(encoding)
    elif encoding is not None:
        raise TypeError("a key of this array is a str, since it was made with the encoding %s: %r" % (encoding, key))
    elif isinstance(key, (bytes, bytearray, memoryview)):
        plain = bytes(key)
    else:
        raise TypeError("a key is bytes, bytearray, memoryview or, with an encoding, str, and not %r" % (key,))
    if len(plain) > KEY_LIMIT:
        raise KeyTooLong("a key has at most %d bytes, and this one has %d: shorten it, or use a digest of it" % (KEY_LIMIT, len(plain)))
    return plain


def plain_keys(keys: Sequence[Any], encoding: Optional[str]) -> Optional[List[bytes]]:
    """The bytes of many keys, checked at once; None if one of them is neither bytes nor, with an encoding,
    str, or is not a key."""
    if any(kind is not (bytes if encoding is None else str) for kind in set(map(type, keys))):
        return None
    try:
        plain = list(keys) if encoding is None else [key.encode(encoding) for key in keys]
    except (LookupError, UnicodeError):
        return None
    return plain if max(map(len, plain), default=0) <= KEY_LIMIT else None


def key_field(plain: bytes) -> bytes:
    """A key as a line has it."""
    return b"x" + plain.hex().encode()


def no_zeros(plain: bytes) -> bytes:
    """The bytes of a string, which has no byte 0."""
    if b"\0" in plain:
        raise ValueError("a string has no byte 0: %r" % (plain,))
    return plain


def plain_lines(lines: Iterable[bytes]) -> List[bytes]:
    """Lines that are sent as they are."""
    is_one_line = isinstance(lines, (str, bytes, bytearray, memoryview))
    given = [] if is_one_line else list(lines)
    if is_one_line or not all(issubclass(kind, (bytes, bytearray, memoryview)) for kind in set(map(type, given))):
        raise TypeError("lines are a list, and each line is bytes")
    plain = list(map(bytes, given))
    if b"\n" in b"".join(plain):
        raise ValueError("a line has no LF in it")
    return plain


# What replies mean. A refusal has been raised before.


def flag(reply: bytes) -> bool:
    """Yes or no: `1` or `0`."""
    if reply not in (b"0", b"1"):
        raise JudyError("no such answer: %r" % reply)
    return reply == b"1"


def _numbers(reply: bytes, letter: bytes, count: int) -> Tuple[int, ...]:
    """The numbers after the letter of a reply."""
    fields = reply.split(b" ")
    if fields[0] != letter or len(fields) != count + 1 or not all(field.isdigit() for field in fields[1:]):
        raise JudyError("no such answer: %r" % reply)
    return tuple(map(int, fields[1:]))


def count_of(reply: bytes) -> int:
    """The number of a count."""
    return _numbers(reply, b"N", 1)[0]


def value_of(reply: bytes) -> int:
    """A value."""
    digits = reply[2:]
    if reply[:2] != b"V " or not digits.isdigit():
        raise JudyError("no such answer: %r" % reply)
    return int(digits)


def value_or_none(reply: bytes) -> Optional[int]:
    """A value, or None."""
    return None if reply == b"NULL" else value_of(reply)


def shared_of(reply: bytes) -> Shared:
    """What an intersection found."""
    fields = reply.split(b" ")
    if fields[0] != b"I" or len(fields) < 3 or not all(field.isdigit() for field in fields[1:]):
        raise JudyError("no such answer: %r" % reply)
    following, count, *indexes = map(int, fields[1:])
    if len(indexes) != count:
        raise JudyError("no such answer: %r" % reply)
    return Shared(indexes, following or None)


def flags_of(replies: bytes) -> Iterable[int]:
    """Yes or no, 1 or 0, of each of these replies."""
    digits = replies[::2]
    if replies[1::2] == b"\n" * len(digits) and not digits.strip(b"01"):
        return digits.translate(_FLAGS)
    return map(flag, cut(replies))


def numbers_of(replies: bytes) -> List[int]:
    """The value of each of these replies, all of which have one."""
    values = list(values_of(replies))
    if None in values:
        raise JudyError("no such answer: %r" % b"NULL")
    return values  # type: ignore[return-value]  # no item is None


def values_of(replies: bytes) -> Iterable[Optional[int]]:
    """The value of each of these replies, or None."""
    digits = replies.replace(b"NULL\n", b"V -\n")[2:-1].split(b"\nV ")
    is_plain = replies[:2] in (b"V ", b"NU") and b"-" not in replies and not b"".join(digits).strip(b"-0123456789")
    if not is_plain or b"" in digits:
        return map(value_or_none, cut(replies))
    return [None if it == b"-" else int(it) for it in digits] if b"NULL" in replies else list(map(int, digits))


def index_of(reply: bytes) -> Optional[int]:
    """An index, or None."""
    return None if reply == b"0" else _numbers(reply, b"1", 1)[0]


def item_of(reply: bytes) -> Optional[Tuple[int, int]]:
    """An index and its value, or None."""
    if reply == b"NULL":
        return None
    value, index = _numbers(reply, b"V", 2)
    return index, value


def bytes_item_of(reply: bytes) -> Optional[Tuple[bytes, int]]:
    """The bytes of a key and its value, or None."""
    if reply == b"NULL":
        return None
    fields = reply.split(b" ")
    if len(fields) != 3 or fields[0] != b"V" or not fields[1].isdigit() or fields[2][:1] != b"x":
        raise JudyError("no such answer: %r" % reply)
    return bytes.fromhex(fields[2][1:].decode()), int(fields[1])


def bytes_items_of(reply: bytes) -> List[Tuple[bytes, int]]:
    """The bytes of listed keys, each with its value."""
    fields = reply.split(b" ")
    try:
        items = list(zip((unhexlify(key[1:]) for key in fields[3::2]), map(int, fields[2::2])))
        is_whole = fields[0] == b"E" and len(fields) == 2 + 2 * int(fields[1])
    except (IndexError, ValueError):
        is_whole = False
    if not is_whole:
        raise JudyError("no such answer: %r" % reply)
    return items


def used_of(reply: bytes) -> Used:
    """The entries and pieces in use, with their quotas."""
    return Used(*_numbers(reply, b"Q", 4))


def nothing_of(reply: bytes) -> None:
    """Nothing, after `OK`."""
    if reply != b"OK":
        raise JudyError("no such answer: %r" % reply)


def hello_of(reply: bytes) -> Hello:
    """The version and the limits of the protocol. A later version may have more of them at the end."""
    found = _HELLO.match(reply)
    if found is None:
        raise JudyError("no such answer: %r" % reply)
    return Hello(*map(int, found.groups()))
