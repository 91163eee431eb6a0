"""Lines of requests from a seed: long walks of well-formed calls, and hostile lines."""

from oracle import COMMANDS, EXCHANGES, FREES, GREATEST, INSERTS, KINDS, LOOKS, OPERATIONS, REMOVES, SHARED_STEPS, Tenant
from oracle import read_bytes, read_most, read_name, read_string, read_word

TENANTS = [
    Tenant("alice", "abc", 40000, read_token="look"),
    Tenant("bob", "hello", 5000, pieces=9000),
    Tenant("carol.x-1", "!~" * 64, 64),
    Tenant("Dave_" + "d" * 27, "abc", 7, pieces=7),
    Tenant("e", "e", 16777216, read_token="e"),
]
TABLE = "".join(tenant.toml() for tenant in TENANTS).encode()
NAMES = [b"a", b"b", b"a.b-c_D9", b"n" * 32]
EDGES = sorted({(1 << k) + d & GREATEST for k in range(65) for d in (-2, -1, 0, 1)})
MARCHES = [b"J1S %s %d"] * 2 + [b"JLI %s %d"] * 2 + [b"J1U %s %d", b"JLD %s %d", b"J1N %s %d", b"JLF %s %d", b"JLLE %s %d", b"J1SE %s %d", b"J1UF %s %d -1"]
FILL, POP, CUT, INTERSECT = OPERATIONS["Fill"], OPERATIONS["Pop"], OPERATIONS["Cut"], OPERATIONS["Intersect"]
SHARES = {POP: 0.2, CUT: 0.1, INTERSECT: 2}  # of operations that would otherwise empty the arrays, or come seldom


class Keys:
    """Keys that recur: dense words, words in clusters, at the edges and anywhere; strings and byte
    keys that share prefixes."""

    def __init__(self, random):
        self.random = random
        self.bases = [random.getrandbits(64) >> random.choice((0, 8, 24, 40, 56)) for _ in range(24)]
        self.anywhere = [random.getrandbits(64) for _ in range(4000)]
        self.roots = [random.randbytes(random.choice((0, 1, 7, 8, 9, 16, 23, 40))) for _ in range(12)]

    def word(self):
        """A word."""
        draw = self.random.random()
        if draw < 0.35:
            return self.random.choice(self.bases[:3]) + self.random.randrange(1500) & GREATEST
        if draw < 0.6:
            return self.random.choice(self.bases) + (self.random.randrange(300) << 8 * self.random.randrange(8)) & GREATEST
        if draw < 0.9:
            return self.random.choice(self.anywhere)
        return self.random.choice(EDGES)

    def bytes(self):
        """A key of 0 to 1,000 bytes, of any value."""
        draw = self.random.random()
        root = self.random.choice(self.roots)
        if draw < 0.5:  # shares all but one byte with another key
            at = self.random.randrange(len(root) + 1)
            return root[:at] + bytes([self.random.randrange(256)]) + root[at + 1 :]
        if draw < 0.8:
            return root[: self.random.randrange(len(root) + 1)] + bytes([self.random.randrange(3)]) * self.random.randrange(20)
        if draw < 0.998:
            return b"key %d" % self.random.randrange(3000)
        return (root + b"z" * 1000)[: self.random.choice((990, 999, 1000))]

    def string(self):
        """A key without a byte 0."""
        return self.bytes().replace(b"\0", self.random.choice((b"", b"\x01", b"\xff")))

    def field(self, read):
        """The field of a request that is read by `read`."""
        if read is read_word:
            return b"%d" % self.word()
        if read is read_string:
            return b"x" + self.string().hex().encode()
        assert read is read_bytes
        return b"x" + self.bytes().hex().encode()


class Walk:
    """A walk of well-formed calls by all tenants. The arrays grow for a time, then shrink for a
    time."""

    def __init__(self, random, wanders=0.02):
        self.random = random
        self.keys = Keys(random)
        self.wanders = wanders
        self.run = []
        self.frees = sorted(word for word, command in COMMANDS.items() if command.operation.does == FREES)
        self.commands = sorted(set(COMMANDS) - set(self.frees))
        self.enter_a_time()

    def enter_a_time(self):
        """Draws for how many lines the arrays grow or shrink, and how fast."""
        self.left = self.random.choice((500, 5000, 20000))
        grows = self.random.random() < 0.6
        weights = {INSERTS: 8 if grows else 2, EXCHANGES: 2, REMOVES: 1 if grows else 6, LOOKS: 0.5}
        operations = [COMMANDS[word].operation for word in self.commands]
        self.weights = [weights[it.does] * SHARES.get(it, 1) for it in operations]

    def log_in(self):
        """A line that logs a tenant in with one of its tokens."""
        (tenant,) = self.random.choices(TENANTS, (5, 3, 1, 1, 5))
        token = tenant.token
        if tenant.read_token and self.random.random() < 0.15:
            token = tenant.read_token
        return b"AUTH %s %s" % (tenant.name.encode(), token.encode())

    def call(self):
        """A line that calls an array."""
        (word,) = self.random.choices(self.commands, self.weights)
        if self.random.random() < 0.0002:
            word = self.random.choice(self.frees)
        command = COMMANDS[word]
        fields = [word, self.random.choice(NAMES), *self.fields(command)]
        if command.may and self.random.random() < (0.7 if command.operation.does == INSERTS else 0.4):
            fields += [self.most() if read is read_most else self.value() for read in command.may]
        return b" ".join(fields)

    def fields(self, command):
        """The fields that a command must have."""
        must, operation = command.must, command.operation
        if operation in (POP, CUT) and must[0] is read_word:
            return [*self.range(), *(self.most() for _ in must[2:])]
        if operation is INTERSECT:
            return [self.random.choice(NAMES), self.random.choice((b"0", b"%d" % self.keys.word())), self.most()]
        keys = [self.most() if read is read_most else self.keys.field(read) for read in (must if operation.does == LOOKS else must[:1])]
        if operation is FILL and self.random.random() < 0.1:  # where few words are absent
            keys[0] = b"%d" % (GREATEST - self.random.randrange(3))
        return keys + [self.value() for _ in must[len(keys) :]]

    def range(self):
        """The fields of two words, from the one to the other. The second is less now and then."""
        low = self.keys.word()
        high = self.random.choice((low, low + self.random.randrange(2000), self.keys.word(), GREATEST))
        low = self.random.choice((low, low, 0))
        return [b"%d" % low, b"%d" % min(high, GREATEST)]

    def value(self):
        """The field of a value. Few values recur often, so that many entries have a value that a line names."""
        return b"%d" % self.random.getrandbits(self.random.choice((1, 1, 4, 64)))

    def most(self):
        """The field of a number of entries."""
        return b"%d" % self.random.choice((1, 2, 3, self.random.randrange(4, 300), 65535))

    def march(self):
        """Lines of one call on consecutive words, or on words as far apart as the children of a
        branch, upwards or downwards."""
        line = self.random.choice(MARCHES)
        name, base = self.random.choice(NAMES), self.random.choice(self.keys.bases) & ~255
        step = 1 << self.random.choice((0, 0, 0, 8, 16, 48, 56))
        words = [base + step * i & GREATEST for i in range(self.random.choice((40, 140, 256, 300)))]
        return [line % (name, word) for word in self.random.choice((words, words[::-1]))]

    def weave(self):
        """Lines that put words in turn into two sets, so that an intersection makes all steps that it may make and
        finds few; then intersections of the two, and of one with itself, which fills its reply. The last line is the first of the list."""
        one, other = self.random.sample(NAMES, 2)
        low = self.random.getrandbits(63) & ~65535  # where there are no other words
        words = range(low, low + 2 * SHARED_STEPS + self.random.randrange(9, 200))
        lines = [b"J1S %s %d" % (name, it) for it in words for name in ((one, other) if it % 99 == 0 else (one,) if it % 2 else (other,))]
        lines += [b"J1I %s %s %d %s" % (*self.random.sample((one, other), 2), low + at, self.most()) for at in (0, 1, 2, 9)]
        lines += [b"J1I %s %s %d 65535" % (one, it, low) for it in (other, one)]
        return [b"AUTH e e", *lines][::-1]

    def crowd(self):
        """Lines that make more arrays than a reply of NAMES has room for; then lines of NAMES that begin everywhere among
        them; then the arrays go, some by their last entry and some as a whole. The last line is the first of the list."""
        puts = ((b"J1S %s 1", b"J1U %s 1", b"J1FA %s"), (b"JLI %s 1", b"JLD %s 1", b"JLFA %s"), (b"JSLI %s x61", b"JSLD %s x61", b"JSLFA %s"), (b"JHSI %s x61", b"JHSD %s x61", b"JHSFA %s"))
        made = [(self.random.randrange(4), (b"%d." % self.random.getrandbits(50)) + b"n" * self.random.choice((0, 1, 9, 14, 14))) for _ in range(self.random.randrange(300, 500))]
        made += [(kind, name + b"-"[: self.random.randrange(2)]) for kind, name in made[:20]]
        lines = [puts[kind][0] % name for kind, name in made]
        lines += [self.names([name for _, name in made]) for _ in range(40)]
        lines += [puts[kind][self.random.choice((1, 2))] % name for kind, name in made]
        return [b"AUTH e e", *lines, b"NAMES 65535"][::-1]

    def names(self, names=None):
        """A line that asks for names of arrays: for the first ones, or for those behind a kind and a name."""
        if self.random.random() < 0.3:
            return b"NAMES %s" % self.most()
        name = self.random.choice(names or NAMES)
        name = self.random.choice((name, name, name, name[: self.random.randrange(len(name)) + 1], (name + b"-")[:32], b"-", b"z"))
        return b"NAMES %s %s %s" % (self.random.choice(list(KINDS)), name, self.most())

    def line(self):
        """The next line."""
        if self.run:
            return self.run.pop()
        draw = self.random.random()
        if draw < 0.0005:
            self.run = self.march()
        elif draw < 0.00051:
            self.run = self.weave()
        elif draw < 0.00053:
            self.run = self.crowd()
        self.left -= 1
        if self.left <= 0:
            self.enter_a_time()
        draw = self.random.random()
        if draw < self.wanders:
            return self.log_in()
        if draw < self.wanders + 0.007:
            return b"USED" if draw < self.wanders + 0.005 else self.random.choice((b"PING", b"HELLO"))
        if draw < self.wanders + 0.017:
            return self.names()
        return self.call()


class Hostile:
    """Lines of a walk, most of them changed: in a field, between fields, or as a whole."""

    def __init__(self, random):
        self.random = random
        self.walk = Walk(random, wanders=0.03)

    def line(self):
        """The next line, without an LF."""
        fields = self.walk.line().split(b" ")
        draw = self.random.random()
        if draw < 0.35:
            return b" ".join(fields)
        if draw < 0.55:
            return self.spaced(fields)
        if draw < 0.85:
            at = self.random.randrange(len(fields))
            fields[at] = self.bent(fields, at)
            return self.spaced(fields) if self.random.random() < 0.2 else b" ".join(fields)
        if draw < 0.92:
            return b" ".join(self.miscounted(fields))
        if draw < 0.97:
            return self.scribbled(b" ".join(fields))
        return self.long(b" ".join(fields))

    def spaced(self, fields):
        """The fields, with other bytes between, before and after them."""
        spaces = [b" "] * 12 + [b"  ", b" " * 40, b"\t", b"\r", b"\0", b"\x0b", b"\xa0", b""]
        line = self.random.choice((b"", b" ", b"   ")) + fields[0]
        for field in fields[1:]:
            line += self.random.choice(spaces) + field
        return line + self.random.choice((b"", b" ", b"\r", b" \r", b"\r\r", b"\r "))

    def bent(self, fields, at):
        """Another field in place of one: a command, a name, a word or a key, valid or not."""
        field = fields[at]
        if at == 0:
            others = [field.lower(), field + b"E", field[:-1], field + field, b"QUITE", b"AUTH", b"USED", b"NAMES", b"PING", b"HELLO", b"\xff" + field]
            return self.random.choice(others + sorted(COMMANDS))
        if fields[0] == b"NAMES" and at == len(fields) - 1:
            return self.bent_word(field)
        if fields[0] == b"NAMES" and at == 1:
            return self.random.choice((*KINDS, *KINDS, field.lower(), field + b"S", field[:-1] or b"J", b"J2", b"J", b"JS", b"J1S", b"AUTH", b"JHS\r"))
        if at == 1 or (at == 2 and (fields[0] == b"NAMES" or (fields[0] in COMMANDS and COMMANDS[fields[0]].must[:1] == (read_name,)))):
            return self.bent_name(field)
        if field.startswith(b"x") or (fields[0][:2] in (b"JS", b"JH") and self.random.random() < 0.5):
            return self.bent_key(field)
        if fields[0] == b"AUTH":
            return self.random.choice((b"wrong", b"look", b"abc", b"a" * 128, b"a" * 129, b"tok\x7fen", b"\x1f", field + b"~", field[:-1] or b"?"))
        return self.bent_word(field)

    def bent_name(self, field):
        """A text that may or may not be a name."""
        length = self.random.choice((1, 31, 32, 33, 64))
        return self.random.choice((field * 33, b"n" * length, field + b"/", b"\xc3\xa4", b"a\0b", b"a.B_-9", b"nobody", field.upper()))

    def bent_word(self, field):
        """A text that may or may not be a word."""
        others = [b"-1", b"-2", b"-0", b"+1", b"00", b"-", b"1x", b"0x10", b"1.0", b"1e3", b"\xd9\xa1", field + b"\0", b"1_000"]
        others += [b"0" * (20 - len(field)) + field, b"0" * (21 - len(field)) + field, b"0" * 300 + field]
        others += [b"%d" % (2**64 + d) for d in (-2, -1, 0, 1)] + [b"9" * 19, b"9" * 20, b"9" * 21, b"18446744073709551615"]
        others += [b"0", b"65535", b"65536"]  # a number of entries, or none
        return self.random.choice(others)

    def bent_key(self, field):
        """A text that may or may not be a key."""
        others = [b"x", b"X", field[1:] or b"61", field.upper(), b"x" + field[1:].upper(), field + b"0", field + b"00", field + b"g1"]
        others += [b"x00", b"x" + b"61" * self.random.choice((999, 1000, 1001)), b"x" + b"fF" * 1000, b"x 61", b"xx61", field + b"\0"]
        others += [b"x" + b"ab" * 999 + b"%02x" % self.random.randrange(256), b"x" + b"%02x" % self.random.randrange(256) + b"ab" * 999]
        return self.random.choice(others)

    def miscounted(self, fields):
        """One field too many or too few, or the fields in another order."""
        draw = self.random.randrange(4)
        if draw == 0:
            return fields[:-1]
        if draw == 1:
            return fields + [self.random.choice((b"1", b"x", b"-1", fields[-1]))]
        if draw == 2:
            return []
        return self.random.sample(fields, len(fields))

    def scribbled(self, line):
        """The line with some bytes replaced by bytes of any value, or only such bytes. None is an
        LF."""
        if self.random.random() < 0.3:
            line = self.random.randbytes(self.random.randrange(60))
        scribbled = bytearray(line)
        for _ in range(self.random.randrange(3)):
            scribbled[self.random.randrange(len(scribbled) + 1) : 0] = bytes([self.random.randrange(256)])
            if scribbled:
                scribbled[self.random.randrange(len(scribbled))] = self.random.randrange(256)
        return bytes(scribbled).replace(b"\n", b"\r")

    def long(self, line):
        """The line, made as long as a line may be, or longer, with spaces or letters."""
        length = self.random.choice((4094, 4095, 4096, 4097, 4098, 8191, 8192, 8193, 20000))
        end = self.random.choice((b"", b"\r"))
        room = max(0, length - len(line) - len(end))
        draw = self.random.randrange(3)
        if draw == 0:
            return b" " * room + line + end
        if draw == 1:
            return line + b" " * room + end
        return line + b"0" * room + end
