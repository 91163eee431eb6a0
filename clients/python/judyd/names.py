"""The names of a tenant's arrays: one line asks for many, and a walk for all.

Each line of a walk goes on behind the last array that it got. So arrays may come and go meanwhile: one that has
entries all the time comes exactly once, another may come or not. The order is that of the kinds J1, JL, JSL and JHS,
and then of the bytes of the names.
"""

import re
from typing import List, NamedTuple, Optional, SupportsIndex, Tuple, Union

from .errors import JudyError, Syntax, checked
from .fields import MOST, most_field, name_field
from .walks import Ask, Steps

KINDS = ("J1", "JL", "JSL", "JHS")
"""The kinds of array, in their order."""

OLDER = "ERR SYNTAX: this server is older than NAMES and does not list the arrays of a tenant: name them"

_ITEM = re.compile(r" (J1|JL|JSL|JHS) ([A-Za-z0-9_.-]{1,32}) ([0-9]{1,20})(?![^ ])")


class NamedArray(NamedTuple):
    """An array that has entries: its kind (`J1`, `JL`, `JSL` or `JHS`), its name, and how many entries it has."""

    kind: str
    name: str
    entries: int


Behind = Union[Tuple[str, str], NamedArray, None]
"""The kind and name of the array behind which a list begins."""


def names_line(behind: Behind, most: SupportsIndex) -> bytes:
    """The line that asks for the names of at most `most` arrays."""
    if behind is None:
        return b"NAMES " + most_field(most)
    kind, name = behind[:2]
    if kind not in KINDS:
        raise ValueError("a kind is J1, JL, JSL or JHS, and not %r" % (kind,))
    return b"NAMES %b %b %b" % (kind.encode(), name_field(name), most_field(most))


def names_of(reply: bytes) -> List[NamedArray]:
    """The arrays in a reply."""
    text = reply.decode("ascii", "replace")
    found = [NamedArray(kind, name, int(entries)) for kind, name, entries in _ITEM.findall(text)]
    if text != " ".join(["E %d" % len(found), *("%s %s %d" % it for it in found)]):
        raise JudyError("no such answer: %r" % reply)
    return found


def listing() -> Steps[NamedArray]:
    """A walk of all arrays."""
    last: Optional[NamedArray] = None
    while True:
        (reply,) = yield Ask([names_line(last, MOST)])
        if reply == b"ERR SYNTAX":
            raise Syntax(OLDER)
        found = names_of(checked(reply))
        places = [_place_of(it) for it in ([] if last is None else [last]) + found]
        if any(here >= there for here, there in zip(places, places[1:])):
            raise JudyError("no such answer: %r is not in order" % reply)
        if not found:
            return
        last = found[-1]
        yield found


def _place_of(array: NamedArray) -> Tuple[int, str]:
    """Where an array is in the order."""
    return KINDS.index(array.kind), array.name
