"""The lines that a user of `judy` writes: what they mean in the protocol, what is wrong with them,
and what the replies mean."""

import re
from difflib import get_close_matches
from typing import Dict, List, Match, NamedTuple, Optional, Tuple

from .fields import KEY_LIMIT, LINE_LIMIT, MAX, MOST
from .names import KINDS
from .words import COMMANDS as COMMANDS_OF_ARRAYS
from .words import Command

_QUOTED = re.compile(r'(?<!\S)"((?:[^"\\]|\\.)*)"(?!\S)')
_ESCAPE = re.compile(rb"\\(x[0-9A-Fa-f]{2}|.)", re.DOTALL)
_NAME = re.compile(r"[A-Za-z0-9_.-]{1,32}\Z")
_TOKEN = re.compile(r"[!-~]{1,128}\Z")
_KEY = re.compile(r"x([0-9A-Fa-f]{2})*\Z")


class Call(NamedTuple):
    """A request of the protocol: its word, its name in the manual, its fields, how many of them are
    required, what it does, and how many of the first fields may be left out, all of them or none."""

    word: str
    name: str
    fields: Tuple[str, ...]
    least: int
    what: str
    ahead: int = 0

    def usage(self) -> str:
        """Its form."""
        first, must, may = self.fields[: self.ahead], self.fields[self.ahead : self.least], self.fields[self.least :]
        return " ".join([self.word, *(["[%s]" % " ".join(first)] if first else []), *must, *("[%s]" % field for field in may)])

    def fields_of(self, count: int) -> Optional[Tuple[str, ...]]:
        """The fields that so many are; None if it has no such form."""
        if self.ahead and count == len(self.fields) - self.ahead:
            return self.fields[self.ahead :]
        return self.fields[:count] if self.least <= count <= len(self.fields) else None


_EMPTY = "1 i, or 0 if there is none"
_OF_SETS = {
    "Insert": ("Set", "inserts an index: 1 if it was absent, 0 if present; FULL if the quota has no room"),
    "Remove": ("Unset", "removes an index: 1 if it was present, 0 if not"),
    "Look": ("Test", "1 if the index is present, 0 if not"),
    "Fill": ("AddAbsent", "inserts the least absent index from this one on: 1 i, or 0 if there is none; FULL if the quota has no room"),
}
_LISTED = ": E, how many, and each with its value before it"
_OF_BYTES = {
    "First": ("First", "the first n keys, in the order of the first 8 bytes of their SHA-256, then of their bytes" + _LISTED),
    "Next": ("Next", "the first n keys behind this one, which may be absent" + _LISTED),
}
_OPERATIONS = {
    "Insert": ("Ins", "inserts a {thing} and stores v, if given: V and the value before, 0 for a new {thing}; FULL if the quota has no room"),
    "Keep": ("Keep", "inserts a {thing} with the value v if it is absent: NULL; a present one keeps its value: V and this value; FULL if the quota has no room"),
    "Exchange": ("Exchange", "stores new if the value is old: V and the value before, which is old exactly if new is stored, or NULL if the {thing} is absent"),
    "Remove": ("Del", "removes a {thing}, with v only if it has the value v: 1 if it was removed, 0 if not"),
    "Take": ("Take", "removes a {thing}: V and the value it had, or NULL if it was absent"),
    "Pop": ("PopFirst", "removes the least {thing} from this one on{limit}: {found}"),
    "Fill": ("InsertAbsent", "inserts the least absent index from this one on, with the value v: 1 i, or 0 if there is none; FULL if the quota has no room"),
    "Cut": ("RemoveRange", "removes the least {plural} from the first to the second, both included, at most n of them: N and how many it removed"),
    "Look": ("Get", "V and the value, or NULL if the {thing} is absent"),
    "Add": ("Add", "adds n to the value, modulo 2^64: V and the value afterwards; an absent {thing} counts as 0 and becomes new; FULL if the quota has no room"),
    "Count": ("Count", "N and the number of {plural} from the first to the second, both included"),
    "Nth": ("ByCount", "the n-th {thing}, counted from 1: {found}"),
    "First": ("First", "the least {thing} from this one on: {found}; with n as many in this direction: E, how many, and each"),
    "Next": ("Next", "the least {thing} above this one: {found}; with n as many in this direction: E, how many, and each"),
    "Last": ("Last", "the greatest {thing} up to this one: {found}; with n as many in this direction: E, how many, and each"),
    "Prev": ("Prev", "the greatest {thing} below this one: {found}; with n as many in this direction: E, how many, and each"),
    "FirstEmpty": ("FirstEmpty", "the least absent {thing} from this one on: " + _EMPTY + "; with n as many in this direction: E, how many, and each"),
    "NextEmpty": ("NextEmpty", "the least absent {thing} above this one: " + _EMPTY + "; with n as many in this direction: E, how many, and each"),
    "LastEmpty": ("LastEmpty", "the greatest absent {thing} up to this one: " + _EMPTY + "; with n as many in this direction: E, how many, and each"),
    "PrevEmpty": ("PrevEmpty", "the greatest absent {thing} below this one: " + _EMPTY + "; with n as many in this direction: E, how many, and each"),
    "Intersect": ("Intersect", "the {plural} that two sets share, from i on, at most n of them: I, the index where the next one goes on, 0 if there are no more, how many, and each"),
    "Free": ("FreeArray", "empties the array: N and the number of entries it had"),
}
_TOLD = {
    "Ins": "before", "Add": "now", "Keep": "kept", "Exchange": "before", "Take": "taken", "PopFirst": "removed", "AddAbsent": "new", "InsertAbsent": "new",
}  # fmt: skip
_THINGS = {"Judy1": ("index", "indexes", "i"), "JudyL": ("index", "indexes", "i"), "JudySL": ("string", "strings", "key"), "JudyHS": ("key", "keys", "key")}


def said_of(kind: str, operation: str) -> Tuple[str, str]:
    """The name of an operation of a kind in the manual, without the kind, and what it does."""
    return {**_OPERATIONS, **{"Judy1": _OF_SETS, "JudyHS": _OF_BYTES}.get(kind, {})}[operation]


def _call_of(word: str, command: Command) -> Call:
    """The call of a command."""
    name, what = said_of(command.kind, command.operation)
    thing, plural, field = _THINGS[command.kind]
    found = _EMPTY if command.kind == "Judy1" else "V v %s, or NULL if there is none" % field
    fields = ("name", *command.fields.split())
    limit = " up to k, both included" if "k" in fields else ""
    least = sum(not it.startswith("[") for it in fields)
    what = what.format(thing=thing, plural=plural, found=found, limit=limit)
    return Call(word, command.kind + name, tuple(it.strip("[]") for it in fields), least, what)


def _help_of_kind(kind: str) -> str:
    """The letters of the calls of a kind, by their fields."""
    prefix = re.sub("udy", "", kind)
    by_fields: Dict[str, List[str]] = {}
    for word, command in COMMANDS_OF_ARRAYS.items():
        if command.kind == kind:
            by_fields.setdefault(command.fields, []).append(word[len(prefix) :])
    return "%-4s" % prefix + "  ".join("%s (%s)" % (" ".join(letters), ("name " + fields).rstrip()) for fields, letters in by_fields.items())


OTHERS = [
    Call("AUTH", "", ("tenant", "token"), 2, "logs in: OK, or ERR AUTH or ERR CLIENTS, after which nobody is logged in"),
    Call("USED", "", (), 0, "Q used quota pieces most: entries and pieces, each with its quota"),
    Call("NAMES", "", ("kind", "name", "n"), 3, "the first n arrays that have entries, or those behind a kind (J1, JL, JSL, JHS) and a name: E, how many, and each as its kind, its name and its number of entries", 2),
    Call("QUIT", "", (), 0, "BYE, and the connection ends"),
    Call("PING", "", (), 0, "OK, without a log-in too"),
    Call("HELLO", "", (), 0, "JUDYD, the version of the protocol, and the most bytes of a line, a reply, a name, a token and a key"),
]
CALLS: Dict[str, Call] = {word: _call_of(word, command) for word, command in COMMANDS_OF_ARRAYS.items()}
WORDS: Dict[str, Call] = {**CALLS, **{call.word: call for call in OTHERS}}
LONG_NAMES = {call.name: call.word for call in CALLS.values()}
COMMANDS = sorted([*LONG_NAMES, *WORDS])
HELP = """Lines of the protocol, one reply each; help and a word describes one, as help J1S:
%s
  USED   NAMES [kind name] n   AUTH tenant token   QUIT   PING   HELLO
A word is a decimal number up to 18446744073709551615, or -1 for that number. A key is x and hexadecimal digits, or a "text".
The manual's names work too, as Judy1Set for J1S. At a terminal Tab completes, and help, ?, exit and quit work.""" % "\n".join("  " + _help_of_kind(kind) for kind in _THINGS)


def help_of(word: str) -> str:
    """What a request does, by its word or the manual's name; without one, all requests."""
    if not word:
        return HELP
    call = WORDS.get(LONG_NAMES.get(word, word.upper()))
    if call is None:
        return "no such request: %s%s" % (word, _near(word))
    return "%s   %s%s" % (call.usage(), call.name + " " if call.name else "", call.what)


def is_request(word: str) -> bool:
    """Whether a word is that of a request, in letters of either case, or the manual's name."""
    return LONG_NAMES.get(word, word.upper()) in WORDS


def _near(word: str) -> str:
    """The request that is meant, by a manual's name if the word looks like one, otherwise by its word in
    the protocol: the longest that it begins with, or one that is close, of the same kind of array if there is one."""
    if word.lower().startswith("judy"):
        close = get_close_matches(word, list(LONG_NAMES), 1, 0.5) or get_close_matches(word.upper(), list(LONG_NAMES), 1, 0.5)
    else:
        upper = word.upper()
        alike = [it for it in WORDS if _letters(it) == _letters(upper)]
        begun = sorted((it for it in WORDS if upper.startswith(it)), key=len)
        close = begun[-1:] or get_close_matches(upper, alike, 1, 0.5) or get_close_matches(upper, list(WORDS), 1, 0.5)
    return "; is it %s?" % close[0] if close else ""


def _letters(word: str) -> str:
    """The letters of a word that tell the kind of array."""
    found = re.match("J1|JSL|JHS|JL|", word)
    return found[0] if found else ""


def hexed(match: Match[str]) -> str:
    """The key, in hexadecimal digits, of text between quotes. A backslash may precede a quote, a
    backslash, or x and two digits."""

    def escaped(found: Match[bytes]) -> bytes:
        return bytes.fromhex(found[1][1:].decode()) if len(found[1]) == 3 else found[1]

    return "x" + _ESCAPE.sub(escaped, match[1].encode("utf-8", "surrogateescape")).hex()


def request_of(line: str) -> str:
    """The line of the protocol for a line of the user."""
    fields = _QUOTED.sub(hexed, line.rstrip("\r\n")).split(" ")
    at = next((i for i, field in enumerate(fields) if field), 0)
    fields[at] = LONG_NAMES.get(fields[at], fields[at])
    return " ".join(fields)


def coded(request: str) -> bytes:
    """A request as bytes. Bytes outside UTF-8 are as they were read."""
    return request.encode("utf-8", "surrogateescape")


def is_refused(reply: str) -> bool:
    """Whether a reply is a refusal."""
    return reply == "FULL" or reply.startswith("ERR ")


def is_quit(request: str) -> bool:
    """Whether a request ends the connection."""
    return request.split() == ["QUIT"]


def advice(request: str, reply: str) -> str:
    """What a refusal means, and a remedy. Empty if there is nothing to add."""
    known = {
        "ERR LONG": "the line has %d bytes, and at most %d are read" % (len(coded(request)), LINE_LIMIT),
        "ERR AUTH": "nobody is logged in: judy -u TENANT, or a line AUTH first",
        "ERR CLIENTS": "the tenant has as many connections as it may have: end one of them",
        "ERR READONLY": "the log-in is read-only",
        "ERR FROZEN": "the tenant is frozen while its arrays are restored: try again later",
        "ERR JOURNAL": "the journal takes no records of the tenant now: try again later",
        "FULL": "the quota has no room: USED shows it",
        "ERR MEMORY": "the server is out of memory for a new entry",
    }
    if request.split()[:1] == ["AUTH"] and reply == "ERR AUTH":
        return "the tenant or the token is wrong"
    return wrong_in(request) if reply == "ERR SYNTAX" else known.get(reply, "")


def wrong_in(request: str) -> str:
    """What is wrong with a request that is refused for its syntax."""
    word, *fields = request.split(" ") if request else [""]
    fields = [field for field in fields if field]
    call = WORDS.get(word)
    if call is None:
        return "no such request: %s%s" % (word, _near(word))
    kinds = call.fields_of(len(fields))
    if kinds is None:
        return "it is written %s" % call.usage()
    for what, field in zip(kinds, fields):
        wrong = _wrong_field(what, field, call.word.startswith("JSL"))
        if wrong:
            return wrong
    if _ends_with_entries(call, fields) and (fields[-1] == "-1" or not 1 <= int(fields[-1]) <= MOST):
        return "a number of entries is 1 to %d, and not %s" % (MOST, fields[-1])
    return ""


def _ends_with_entries(call: Call, fields: List[str]) -> bool:
    """Whether the last of these fields is a number of entries: that of a search, of an intersection, of the removal
    of a range, or of arrays. That of an addition and of ByCount is not."""
    command = COMMANDS_OF_ARRAYS.get(call.word)
    may_have = call.fields[-1:] == ("n",) and (command is None or command.operation not in ("Add", "Nth"))
    return may_have and call.fields_of(len(fields)) in (call.fields, ("n",))


def _wrong_field(what: str, field: str, is_string: bool) -> Optional[str]:
    """What is wrong with a field."""
    if what in ("name", "other", "tenant"):
        return None if _NAME.match(field) else "a name is 1 to 32 of A-Z a-z 0-9 _ - . and not %s" % field
    if what == "kind":
        return None if field in KINDS else "a kind is J1, JL, JSL or JHS, and not %s" % field
    if what == "token":
        return None if _TOKEN.match(field) else "a token is 1 to 128 characters from ! to ~"
    if what == "key":
        if not _KEY.match(field):
            return 'a key is x and hexadecimal digits, two a byte, or a text between double quotes, and not %s' % field
        if len(field) > 1 + 2 * KEY_LIMIT:
            return "a key has at most %d bytes" % KEY_LIMIT
        return "a string has no byte 0" if is_string and 0 in bytes.fromhex(field[1:]) else None
    if field == "-1" or (field.isascii() and field.isdigit() and len(field) <= 20 and int(field) <= MAX):
        return None
    return "a number is 1 to 20 digits, at most %d, or -1 for that one, and not %s" % (MAX, field)


def shown_key(field: str) -> str:
    """A key of a reply as text, if it is printable."""
    if not field.startswith("x"):
        return field
    text = bytes.fromhex(field[1:]).decode("utf-8", "replace")
    return '"%s"' % text if text.isprintable() and "\ufffd" not in text else field


def told(request: str, reply: str) -> Tuple[str, str, str]:
    """What a reply says: an answer in words, a key or index, and a value."""
    fields = reply.split(" ")
    call = CALLS.get((request.split() or [""])[0])
    if is_refused(reply) or call is None:
        if fields[0] == "E":
            return "%s found" % fields[1], " ".join("%s:%s %s" % it for it in zip(fields[2::3], fields[3::3], fields[4::3])), ""
        if fields[0] == "Q" and len(fields) == 5:
            return "%s of %s entries, %s of %s pieces" % tuple(fields[1:]), "", ""
        return reply.lower() if is_refused(reply) else reply, "", ""
    name = re.sub("Judy(1|L|SL|HS)", "", call.name)
    if name in ("Set", "Unset", "Test", "Del"):
        words = {"Set": ("was there", "new"), "Unset": ("was absent", "removed"), "Del": ("was absent", "removed"), "Test": ("absent", "present")}
        if name == "Del" and len(request.split()) > 3:
            return "removed" if reply == "1" else "not removed", "", ""
        return words[name][reply == "1"], "", ""
    if fields[0] == "E":
        return "%s found" % fields[1], " ".join(map(shown_key, fields[2:])), ""
    if fields[0] == "I":
        return "%s found" % fields[2] + (", go on at %s" % fields[1] if fields[1] != "0" else ""), " ".join(fields[3:]), ""
    if fields[0] == "N":
        return "%s %s" % (fields[1], {"FreeArray": "freed", "RemoveRange": "removed"}.get(name, "counted")), "", ""
    if reply in ("0", "NULL"):
        return "new" if name == "Keep" else "none", "", ""
    if fields[0] == "V":
        return _TOLD.get(name, "found"), "".join(map(shown_key, fields[2:])), fields[1]
    return _TOLD.get(name, "found"), fields[1] if len(fields) > 1 else "", ""
