"""The replies that the line protocol requires, computed by a plain program over sorted lists and
dictionaries.

It was written only from docs/PROTOCOL.md, and shares no code with the server or the client. If two
such programs agree on a million lines, they do not have the same fault. Which word does what to which
kind of array is read from the table of commands, which tests/pages compares with docs/PROTOCOL.md. It is
never out of memory, so it never replies `ERR MEMORY`.

    store = Store([Tenant("alice", "abc", quota=4)])
    connection = store.connect()
    connection.answer(b"AUTH alice abc")        # b"OK"
    connection.answer(b"J1S ids 5")             # b"1"
"""

import hashlib
import re
from bisect import bisect_left, bisect_right, insort
from typing import Callable, NamedTuple

import commands

GREATEST = 2**64 - 1
LINE_LIMIT = 4096
KEY_LIMIT = 1000
LIST_LIMIT = 4088  # the most bytes of the entries in a reply
SHARED_LIMIT = 4067  # the most bytes of the indexes in the reply of an intersection
SHARED_STEPS = 2048  # the most steps of an intersection
MOST_ENTRIES = 65535  # the most entries that a walk, an intersection or the removal of a range may ask for
KINDS = {b"J1": "One", b"JL": "Long", b"JSL": "Str", b"JHS": "Bytes"}  # the word of NAMES for each kind, in its order
NAME = re.compile(rb"[A-Za-z0-9_.-]{1,32}\Z")
TOKEN = re.compile(rb"[!-~]{1,128}\Z")
DIGITS = re.compile(rb"[0-9]{1,20}\Z")
KEY = re.compile(rb"x(?:[0-9A-Fa-f]{2}){0,1000}\Z")


class Syntax(Exception):
    """The line spells no request."""


class Full(Exception):
    """The quota has no room for a new entry."""


class Tenant:
    """A tenant of the table: its name and tokens, and how many entries and pieces it may have."""

    def __init__(self, name, token, quota, pieces=None, read_token=None, old_token=None, old_read_token=None):
        self.name = name
        self.token = token
        self.quota = quota
        self.most = 126 * quota if pieces is None else pieces
        self.read_token = read_token
        self.old_token = old_token
        self.old_read_token = old_read_token

    def toml(self):
        """The tenant's table, as a line for each key."""
        lines = ['["%s"]' % self.name, 'sha256 = "%s"' % digest(self.token), "quota = %d" % self.quota]
        if self.most != 126 * self.quota:
            lines.append("pieces = %d" % self.most)
        others = (("read_sha256", self.read_token), ("old_sha256", self.old_token), ("old_read_sha256", self.old_read_token))
        lines += ['%s = "%s"' % (key, digest(token)) for key, token in others if token is not None]
        return "\n".join(lines) + "\n"


def digest(token):
    """The SHA-256 of a token, in hexadecimal digits."""
    return hashlib.sha256(token.encode()).hexdigest()


class ByteKey(NamedTuple):
    """A key of a JudyHS: the first 8 bytes of its SHA-256, and its bytes. So keys compare as a walk has them."""

    place: bytes
    key: bytes


class Entries:
    """The entries of one array: its keys in increasing order, and the value of each. A set's values
    are 0."""

    def __init__(self):
        self.keys = []
        self.values = {}

    def nth(self, n):
        """The n-th key, counted from 1, or None."""
        return self.keys[n - 1] if 1 <= n <= len(self.keys) else None

    def count(self, low, high):
        """The number of keys from `low` to `high`, both included."""
        return bisect_right(self.keys, high) - bisect_left(self.keys, low) if low <= high else 0

    def first(self, key):
        """The least key from `key` on, or None."""
        return self.nth(bisect_left(self.keys, key) + 1)

    def next(self, key):
        """The least key above `key`, or None."""
        return self.nth(bisect_right(self.keys, key) + 1)

    def last(self, key):
        """The greatest key up to `key`, or None."""
        return self.nth(bisect_right(self.keys, key))

    def prev(self, key):
        """The greatest key below `key`, or None."""
        return self.nth(bisect_left(self.keys, key))

    def first_empty(self, word):
        """The least absent word from `word` on, or None."""
        at = bisect_left(self.keys, word)
        low, high = 0, len(self.keys) - at
        while low < high:  # the run of present words from `word` on is at least `low` and at most `high` long
            middle = (low + high + 1) // 2
            if self.keys[at + middle - 1] == word + middle - 1:
                low = middle
            else:
                high = middle - 1
        return word + low if word + low <= GREATEST else None

    def last_empty(self, word):
        """The greatest absent word up to `word`, or None."""
        at = bisect_right(self.keys, word)
        low, high = 0, at
        while low < high:
            middle = (low + high + 1) // 2
            if self.keys[at - middle] == word - middle + 1:
                low = middle
            else:
                high = middle - 1
        return word - low if word >= low else None

    def next_empty(self, word):
        """The least absent word above `word`, or None."""
        return self.first_empty(word + 1) if word < GREATEST else None

    def prev_empty(self, word):
        """The greatest absent word below `word`, or None."""
        return self.last_empty(word - 1) if word > 0 else None


class Store:
    """The arrays of all tenants. Each tenant has its own, by kind and name."""

    def __init__(self, tenants):
        self.owners = {tenant.name.encode(): Owner(tenant) for tenant in tenants}

    def connect(self):
        """A new connection, on which nobody is logged in."""
        return Connection(self)

    def login(self, name, token):
        """The tenant of this name and token, and whether it may change arrays; or None."""
        owner = self.owners.get(name)
        if owner is None:
            return None
        given = token.decode()
        if given in (owner.tenant.token, owner.tenant.old_token):
            return owner, True
        if given in (owner.tenant.read_token, owner.tenant.old_read_token):
            return owner, False
        return None


class Owner:
    """A tenant with its arrays."""

    def __init__(self, tenant):
        self.tenant = tenant
        self.arrays = {}
        self.used = 0
        self.pieces = 0

    def array(self, kind, name):
        """The entries under a name. An array that was never written has none."""
        return self.arrays.get((kind, name)) or Entries()

    def names(self, behind, most):
        """The arrays that have entries, by kind and then by name: all of them, or those behind a kind and a name. Each
        as its kind, its name and its number of entries; at most `most` of them, and as many as fit into a reply."""
        places = {kind: at for at, kind in enumerate(KINDS.values())}
        found = sorted((places[kind], name, len(array.keys)) for (kind, name), array in self.arrays.items() if array.keys)
        if behind is not None:
            found = [it for it in found if it[:2] > (places[behind[0]], behind[1])]
        words = list(KINDS)
        return listed(b"%s %s %d" % (words[place], name, count) for place, name, count in found[:most])

    def add(self, kind, name, key):
        """Inserts a new entry with value 0 under a name, or raises Full."""
        pieces = pieces_of(key)
        if self.used >= self.tenant.quota or self.pieces + pieces > self.tenant.most:
            raise Full
        array = self.arrays.setdefault((kind, name), Entries())
        insort(array.keys, key)
        array.values[key] = 0
        self.used += 1
        self.pieces += pieces

    def remove(self, kind, name, key):
        """Removes the entry of a key, and returns whether there was one."""
        array = self.array(kind, name)
        if key not in array.values:
            return False
        del array.values[key]
        array.keys.pop(bisect_left(array.keys, key))
        self.used -= 1
        self.pieces -= pieces_of(key)
        if not array.keys:
            del self.arrays[kind, name]
        return True

    def free(self, kind, name):
        """Empties an array, and returns how many entries it had."""
        keys = self.array(kind, name).keys
        self.arrays.pop((kind, name), None)
        self.used -= len(keys)
        self.pieces -= sum(map(pieces_of, keys))
        return len(keys)


def pieces_of(key):
    """The number of pieces of an entry with this key."""
    return 1 if isinstance(key, int) else len(bytes_of(key)) // 8 + 1


def bytes_of(key):
    """The bytes of a key of a JudySL or a JudyHS."""
    return key.key if isinstance(key, ByteKey) else key


def read_name(field):
    """A tenant's or an array's name."""
    if not NAME.match(field):
        raise Syntax
    return field


def read_token(field):
    """A token."""
    if not TOKEN.match(field):
        raise Syntax
    return field


def read_word(field):
    """A word: decimal digits, or -1 for the greatest."""
    if field == b"-1":
        return GREATEST
    if not DIGITS.match(field) or int(field) > GREATEST:
        raise Syntax
    return int(field)


def read_most(field):
    """The number of entries that a walk, an intersection or the removal of a range asks for."""
    most = read_word(field)
    if not 1 <= most <= MOST_ENTRIES:
        raise Syntax
    return most


def read_key(field):
    """The bytes of a key."""
    if not KEY.match(field):
        raise Syntax
    return bytes.fromhex(field[1:].decode())


def read_bytes(field):
    """A key of a JudyHS."""
    key = read_key(field)
    return ByteKey(hashlib.sha256(key).digest()[:8], key)


def read_string(field):
    """A key of a JudySL: no byte of it is 0."""
    key = read_key(field)
    if 0 in key:
        raise Syntax
    return key


def read_names(fields):
    """The fields of NAMES: the kind and the name that it begins behind, or None, and how many arrays it asks for."""
    if len(fields) == 1:
        return None, read_most(fields[0])
    if len(fields) != 3 or fields[0] not in KINDS:
        raise Syntax
    return (KINDS[fields[0]], read_name(fields[1])), read_most(fields[2])


# ---- what the operations do ----

SET = "One"  # the kind of array whose entries have no value
# What an operation may do to the entries.
INSERTS, EXCHANGES, REMOVES, FREES, LOOKS = "inserts", "exchanges", "removes", "frees", "looks"


def insert(owner, kind, name, key, value=None):
    """An insertion. Of a set: whether the index is new. Otherwise the value before, 0 for a new key; then
    the given value is stored."""
    is_new = key not in owner.array(kind, name).values
    if is_new:
        owner.add(kind, name, key)
    if kind == SET:
        return b"%d" % is_new
    values = owner.array(kind, name).values
    before = values[key]
    if value is not None:
        values[key] = value
    return b"V %d" % before


def add(owner, kind, name, key, number):
    """An addition: the new value, modulo 2^64. A new key counts as 0."""
    if key not in owner.array(kind, name).values:
        owner.add(kind, name, key)
    values = owner.array(kind, name).values
    values[key] = values[key] + number & GREATEST
    return b"V %d" % values[key]


def keep(owner, kind, name, key, value):
    """An insertion of an absent key: NULL. A present key keeps its value, which is the reply."""
    values = owner.array(kind, name).values
    if key in values:
        return b"V %d" % values[key]
    insert(owner, kind, name, key, value)
    return b"NULL"


def exchange(owner, kind, name, key, old, new):
    """The value of a key, or NULL. If it is the old one, the new one is stored."""
    values = owner.array(kind, name).values
    before = look(owner, kind, name, key)
    if values.get(key) == old:
        values[key] = new
    return before


def remove(owner, kind, name, key, value=None):
    """A removal of a key, with a value only if the key has it: whether the key was removed."""
    if value is not None and owner.array(kind, name).values.get(key) != value:
        return b"0"
    return b"1" if owner.remove(kind, name, key) else b"0"


def pop(owner, kind, name, key, most=None):
    """The removal of the least key from this one on, up to another index: the reply of the search for it."""
    array = owner.array(kind, name)
    found = array.first(key)
    if found is None or (most is not None and found > most):
        return b"0" if kind == SET else b"NULL"
    reply = index(found) if kind == SET else b"V " + entry_text(kind, array, found)
    owner.remove(kind, name, found)
    return reply


def fill(owner, kind, name, key, value=None):
    """The insertion of the least absent index from this one on, with a value: this index, or that there is none."""
    found = owner.array(kind, name).first_empty(key)
    if found is not None:
        insert(owner, kind, name, found, value)
    return index(found)


def cut(owner, kind, name, low, high, most):
    """The removal of the indexes from `low` to `high`, the least first, at most `most` of them: how many were removed."""
    keys = owner.array(kind, name).keys
    found = keys[bisect_left(keys, low) : bisect_right(keys, high)][:most]
    for key in found:
        owner.remove(kind, name, key)
    return b"N %d" % len(found)


def take(owner, kind, name, key):
    """The removal of a key: its value, or NULL."""
    before = look(owner, kind, name, key)
    owner.remove(kind, name, key)
    return before


def free(owner, kind, name):
    """The removal of all keys: how many there were."""
    return b"N %d" % owner.free(kind, name)


def look(owner, kind, name, key):
    """Whether an index is in a set; the value of a key of another array."""
    values = owner.array(kind, name).values
    if kind == SET:
        return b"1" if key in values else b"0"
    return b"V %d" % values[key] if key in values else b"NULL"


def count(owner, kind, name, low, high):
    """How many keys there are from `low` to `high`."""
    return b"N %d" % owner.array(kind, name).count(low, high)


def finds(search, on=None):
    """A search for a key that is present: the key of a set, otherwise the value and the key. With a number of
    entries it is made again by the other search, each time behind the entry before."""

    def step(owner, kind, name, field, most=None):
        array = owner.array(kind, name)
        if most is not None:
            return listed(entry_text(kind, array, key) for key in walked(array, search, on, field, most))
        key = search(array, field)
        if kind == SET:
            return index(key)
        return b"NULL" if key is None else b"V " + entry_text(kind, array, key)

    return step


def first_keys(owner, kind, name, most):
    """The first entries of a JudyHS, at most `most` of them."""
    return finds(Entries.first, Entries.next)(owner, kind, name, ByteKey(b"", b""), most)


def entry_text(kind, array, key):
    """An entry: the key of a set, otherwise the value and the key."""
    return text_of(key) if kind == SET else b"%d %s" % (array.values[key], text_of(key))


def misses(search, on):
    """A search for an absent index, or with a number for several."""

    def step(owner, kind, name, field, most=None):
        array = owner.array(kind, name)
        if most is not None:
            return listed(map(text_of, walked(array, search, on, field, most)))
        return index(search(array, field))

    return step


def walked(array, search, on, field, most):
    """What a search finds, and each time what the other search finds behind that: at most `most` of them."""
    found = search(array, field)
    for _ in range(most):
        if found is None:
            return
        yield found
        found = on(array, found)


def listed(texts):
    """The reply that lists as many of these texts as fit."""
    kept, size = [], 0
    for text in texts:
        size += 1 + len(text)
        if size > LIST_LIMIT:
            break
        kept.append(text)
    return b" ".join([b"E %d" % len(kept), *kept])


def intersect(owner, kind, name, other, word, most):
    """The indexes from a word on that two sets share, at most so many: the word where the next intersection goes on,
    how many indexes there are, and each of them."""
    one, two = owner.array(kind, name), owner.array(kind, other)
    found, size, going_on = [], 0, word
    for _ in range(SHARED_STEPS):
        if going_on is None or len(found) == most:
            break
        least = one.first(going_on)
        going_on = None if least is None else two.first(least)
        if going_on is None or going_on != least:
            continue
        size += 1 + len(text_of(least))
        if size > SHARED_LIMIT:
            break
        found.append(least)
        going_on = least + 1 if least < GREATEST else None
    return b" ".join([b"I %d %d" % (going_on or 0, len(found)), *map(text_of, found)])


def index(found):
    """The reply of an index that a search found, or of none."""
    return b"0" if found is None else b"1 %d" % found


class Operation(NamedTuple):
    """An operation: its step; its fields after the name, k for a key of the kind, w for a word, n for a number of
    entries, o for the name of another array and v for a value, which no set has; those that may follow; what it does
    to the entries; and the fields that follow an index, but no key."""

    step: Callable
    must: str
    may: str = ""
    does: str = LOOKS
    of_words: str = ""


OPERATIONS = {
    "Insert": Operation(insert, "k", "v", INSERTS),
    "Add": Operation(add, "kw", "", INSERTS),
    "Keep": Operation(keep, "kv", "", INSERTS),
    "Fill": Operation(fill, "kv", "", INSERTS),
    "Exchange": Operation(exchange, "kvv", "", EXCHANGES),
    "Remove": Operation(remove, "k", "v", REMOVES),
    "Take": Operation(take, "k", "", REMOVES),
    "Pop": Operation(pop, "k", "", REMOVES, "w"),
    "Cut": Operation(cut, "k", "", REMOVES, "wn"),
    "Look": Operation(look, "k"),
    "Count": Operation(count, "kk"),
    "Nth": Operation(finds(Entries.nth), "w"),
    "First": Operation(finds(Entries.first, Entries.next), "k", "n"),
    "Next": Operation(finds(Entries.next, Entries.next), "k", "n"),
    "Last": Operation(finds(Entries.last, Entries.prev), "k", "n"),
    "Prev": Operation(finds(Entries.prev, Entries.prev), "k", "n"),
    "FirstEmpty": Operation(misses(Entries.first_empty, Entries.next_empty), "k", "n"),
    "NextEmpty": Operation(misses(Entries.next_empty, Entries.next_empty), "k", "n"),
    "LastEmpty": Operation(misses(Entries.last_empty, Entries.prev_empty), "k", "n"),
    "PrevEmpty": Operation(misses(Entries.prev_empty, Entries.prev_empty), "k", "n"),
    "Intersect": Operation(intersect, "okn"),
    "Free": Operation(free, "", "", FREES),
}


OF_BYTES = {
    "First": Operation(first_keys, "n"),
    "Next": Operation(finds(Entries.next, Entries.next), "kn"),
}
"""The operations of a JudyHS that have other fields."""


class Command(NamedTuple):
    """What a word stands for: the kind of the array, the operation, and the readers of the fields after the
    name: the required ones, and the optional ones."""

    kind: str
    operation: Operation
    must: tuple
    may: tuple


def command_of(word, kind, name):
    """The command of a word."""
    if name not in OPERATIONS:
        raise ValueError("tests/oracle.py has no step of the operation %s, which %s makes" % (name, word))
    operation = OF_BYTES[name] if kind == "Bytes" and name in OF_BYTES else OPERATIONS[name]
    readers = {"k": {"Str": read_string, "Bytes": read_bytes}.get(kind, read_word), "w": read_word, "n": read_most, "v": read_word, "o": read_name}
    must, may = operation.must + (operation.of_words if kind in ("One", "Long") else ""), operation.may
    if kind == SET:
        must, may = must.replace("v", ""), may.replace("v", "")
    return Command(kind, operation, tuple(map(readers.get, must)), tuple(map(readers.get, may)))


COMMANDS = {word.encode(): command_of(word, *it) for word, it in commands.COMMANDS.items()}


# ---- lines ----


def read_line(line):
    """The request of a line: its command word, and the values of its fields."""
    fields = [field for field in line.split(b" ") if field]
    if len(fields) == 1 and fields[0] in (b"QUIT", b"USED", b"PING", b"HELLO"):
        return fields[0], ()
    if len(fields) == 3 and fields[0] == b"AUTH":
        return b"AUTH", (read_name(fields[1]), read_token(fields[2]))
    if fields[:1] == [b"NAMES"]:
        return b"NAMES", read_names(fields[1:])
    if len(fields) < 2 or fields[0] not in COMMANDS:
        raise Syntax
    command, given = COMMANDS[fields[0]], fields[2:]
    readers = command.must + command.may
    if not len(command.must) <= len(given) <= len(readers):
        raise Syntax
    return fields[0], (read_name(fields[1]), *(read(field) for read, field in zip(readers, given)))


def names_of(word, fields):
    """The names of the arrays that a call of an array asks for, from its word and the values of its fields."""
    return [fields[0], *(field for read, field in zip(COMMANDS[word].must, fields[1:]) if read is read_name)]


def text_of(key):
    """The text of a key in a reply."""
    return b"%d" % key if isinstance(key, int) else b"x" + bytes_of(key).hex().encode()


class Connection:
    """One connection: who is logged in, and whether it is still open."""

    def __init__(self, store):
        self.store = store
        self.speaker = None
        self.is_open = True

    def answer(self, line):
        """The reply to a line, both without their LF."""
        if len(line) > LINE_LIMIT:
            return b"ERR LONG"
        try:
            command, fields = read_line(line[:-1] if line.endswith(b"\r") else line)
        except Syntax:
            return b"ERR SYNTAX"
        if command == b"QUIT":
            self.is_open = False
            return b"BYE"
        if command == b"PING":
            return b"OK"
        if command == b"HELLO":
            return b"JUDYD 1 line 4096 reply 4096 name 32 token 128 key 1000"
        if command == b"AUTH":
            self.speaker = self.store.login(*fields)
            return b"OK" if self.speaker else b"ERR AUTH"
        if self.speaker is None:
            return b"ERR AUTH"
        owner, may_change = self.speaker
        if command == b"USED":
            return b"Q %d %d %d %d" % (owner.used, owner.tenant.quota, owner.pieces, owner.tenant.most)
        if command == b"NAMES":
            return owner.names(*fields)
        kind, operation, _, _ = COMMANDS[command]
        if operation.does != LOOKS and not may_change:
            return b"ERR READONLY"
        try:
            return operation.step(owner, kind, *fields)
        except Full:
            return b"FULL"

    def replies(self, stream):
        """The replies to a stream of bytes. A rest without an LF gets no reply, nor does anything
        after QUIT."""
        written = []
        for line in stream.split(b"\n")[:-1]:
            if not self.is_open:
                break
            written.append(self.answer(line) + b"\n")
        return b"".join(written)
