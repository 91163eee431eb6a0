"""Odd tables of tenants from a seed, and what judyd says of a table."""

import subprocess

DIGEST = "ba7816bf8f01cfea414140de5dae2223b00361a396177a9cb410ff61f20015ad"
NAMES = ["alice", "bob", "a.b", '"a.b"', "a-_1", "1", "-", '""', '"a b"', '"\\u00e4"', "'x'", "a" * 32, "a" * 33, "alice.x", '"\\n"', "ä", "Z", '"a\\t"']
DIGESTS = ['"%s"' % DIGEST] * 9 + ['"%s"' % DIGEST.upper(), "'%s'" % DIGEST, '"""%s"""' % DIGEST, '"""\n%s"""' % DIGEST, '"abc"', '""', '"%s0"' % DIGEST, '"g%s"' % DIGEST[1:], "5", "true", '["a"]']
NUMBERS = ["0", "1", "4", "1000", "16777216", "1_000", "0x10", "0o17", "0b11", "+7"] * 2 + [
    "16777217", "2113929216", "2113929217", "-1", "-0", "+0", "007", "1.0", "1e3", "inf", "nan", "-inf", "true", '"4"', "1979-05-27", "07:32:00",
    "1979-05-27T07:32:00Z", "9223372036854775807", "9223372036854775808", "-9223372036854775808", "-9223372036854775809", "99999999999999999999999",
    "0x7fffffffffffffff", "0xffffffffffffffff", "[1]", "{a = 1}", "1__0", "_1", "1_", "0x", "0xG", "1 2", "", "=", "'", "1979-02-30", "{}", "[]", "[1, 2,]", "{a = 1,}",
]  # fmt: skip
KEYS = ["sha256", "quota", "pieces", "journal", "read_sha256", "old_sha256", "old_read_sha256", "more", "Quota", '"quota"', "'quota'", "quota.x", "quota .  x", "sha256 ", "read-sha256", "", '"qu\\u006fta"']
ENDS = ["\n"] * 120 + ["\r\n", "\r\n", " # a word\n", "\t\n", "\r", "\n\n", " ", "\x0c\n", "# \x01\n", "\n\u00a0\n", ",\n", "#\x7f\n", "# ä\n"]


def value_for(draw, key):
    """A value, mostly of the type for a key."""
    is_digest = "sha" in key
    return draw.choice(DIGESTS if is_digest == (draw.random() < 0.97) else NUMBERS)


def statements(draw, count):
    """Keys with their values."""
    keys = ["sha256", "quota"] + [key for key in ("pieces", "journal", "read_sha256", "old_sha256", "old_read_sha256") if draw.random() < 0.25]
    if draw.random() < 0.1:
        keys.append(draw.choice(KEYS))
    if draw.random() < 0.06:
        keys.remove(draw.choice(keys))
    draw.shuffle(keys)
    for key in keys[:count]:
        plain = '"%s"' % DIGEST if key.endswith("sha256") else "4"
        yield "%s%s%s" % (key, draw.choice([" = "] * 60 + ["=", "\t=\t", " =", " : "]), plain if draw.random() < 0.7 else value_for(draw, key))


def tenant(draw, name):
    """A tenant's table, in one of TOML's forms."""
    form = draw.random()
    if form < 0.1:
        return "%s = {%s}%s" % (name, draw.choice([", "] * 15 + [",", ",\n", " , "]).join(statements(draw, 9)), draw.choice(ENDS))
    if form < 0.2:
        return "".join("%s.%s%s" % (name, line, draw.choice(ENDS)) for line in statements(draw, 9))
    head = draw.choice(["[%s]"] * 60 + ["[ %s ]", "[[%s]]", "[%s", "%s]", "  [%s]", "[%s.]", "%s = 4", "[%s.quota]"]) % name
    return head + draw.choice(ENDS) + "".join(line + draw.choice(ENDS) for line in statements(draw, 9))


def one(draw):
    """A table."""
    count = draw.choice([1] * 16 + [2] * 8 + [3] * 4 + [0, 63, 64, 65, 66])
    names = ["t%d" % at for at in range(count)] if count > 3 else [draw.choice(NAMES[:2] + ["carol"] if draw.random() < 0.8 else NAMES) for _ in range(count)]
    text = draw.choice([""] * 50 + ["\ufeff", "\n", "# a table\n", "x = 1\n", "\ufeff\ufeff", "quota = 4\n", "a.b = 1\n"])
    if count > 3:
        text += "".join('[%s]\nsha256 = "%s"\nquota = 4\n' % (name, DIGEST) for name in names)
    text += "".join(tenant(draw, name) for name in names[: 3 if count <= 3 else 0])
    if draw.random() < 0.04:
        text += "#" * draw.choice([65536 - len(text.encode()), 65537 - len(text.encode()), 65535 - len(text.encode()), 10]) if len(text.encode()) < 65000 else ""
    data = bytearray(text.encode())
    for _ in range(draw.choice([0] * 30 + [1, 1, 2])):
        if data:
            at = draw.randrange(len(data))
            data[at : at + draw.choice([0, 1])] = draw.choice([b"\xff", b"\0", b"\xc3", b'"', b"'", b"\\", b"[", b"]", b"=", b".", b"\n", b"\r", b"#", b"{", b"}", b","])
    return bytes(data)


def made(draw, count):
    """This many tables."""
    return [one(draw) for _ in range(count)]


def told_by_judyd(program, path, data):
    """The first fault of a table that `judyd serve --check` reports, or nothing if the table is
    valid."""
    with open(path, "wb") as file:
        file.write(data)
    words = [program, "serve", "--config", path, "--socket", path + ".socket", "--check"]
    ran = subprocess.run(words, stdin=subprocess.DEVNULL, stdout=subprocess.PIPE, stderr=subprocess.PIPE, check=False)
    said = ran.stderr.decode().strip()
    if (ran.returncode, said) == (0, ""):
        return ""
    if ran.returncode != 3 or not said.startswith("judyd: table: "):
        raise AssertionError("%r: status %d, %r" % (data, ran.returncode, said))
    return said[len("judyd: table: ") :].partition(":")[0]


def by_hand():
    """Tables that try the edges of TOML."""
    deep = [79, 80, 81, 200]
    texts = ["x = " + "[" * n + "]" * n for n in deep] + ["x = " + "{a = " * n + "1" + "}" * n for n in deep] + [".".join(["b"] * n) + " = 1" for n in deep]
    texts += ["[" + ".".join(["b"] * n) + "]" for n in deep] + ["[[" + ".".join(["b"] * n) + "]]" for n in deep] + ["x = " + "[" * 20000]
    texts += [
        r'x = "\e\x41"', r'x = "\ud800"', r'x = "\U00110000"', r'x = "\q"', 'x = """a\\   \n  b"""', r'x = """a\ b"""', 'x = """\r"""', 'x = """\r\n"""',
        "x='''a''''", "x='''a'''''", "x='''a''''''", 'x="""a""""', 'x="""a"""""', 'x="""a""""""', "x = \"\t\"", "x = '\x7f'", "x = '\x80'", '"""k""" = 1', "\x00",
        "x=07:32", "x=1979-05-27 07:32", "x=1979-05-27T07:32:60Z", "x=24:00:00", "x=1979-13-01", "x=0000-01-01", "x=1900-02-29", "x=1979-05-27T07:32:00+24:00",
        "x=07:32:00.", "x=07:32:00.123456789123", "x=1979-05-27t07:32:00z", "x=1979-05-27 ", "x=1979-05-27 #c", "x= 1979-05-27 07:32:00 +01:00",
        "x=-nan", "x=1.e3", "x=.5", "x=5.", "x=1e1_0", "x=1E+05", "x=1e400", "x=-1e400", "x=1e-400", "x=1.8e308", "x=+0x10", "x=-0x1", "x=0b",
        "x=[1,\n#c\n2]", "x={a=1,\n#c\n}", "x={,}", "x=[,]", "x={a.b=1,a.c=2}", "x={a={b=1},a.c=2}", "[ b . c ]", "[\"b\".'c']", "[[ b ]]", "[ [b] ]", "[[b] ]",
        "[[b]]\n[b.c]\n[[b]]\n[b.c]", "[[b.c]]\n[b]", "[b]\nc=[]\n[[b.c]]", "[b.c]\n[b]\nc.d=1", "[b.c.d]\n[b]\nc.z=1", "[b.c.d]\n[b]\nc.z=1\n[b.c]",
        "[b.c.d]\n[b]\nc.z=1\n[b.c.e]", "[b.c.d]\n[b]\nc.d.z=1", "[b]\nc.d=1\n[b.c]", "[b]\nc.d=1\n[b.c.e]", "[b]\nc.d.e=1\n[b.c.d]", "[[a]]", "[a.b]\n[a.b.c]\n[a.b]",
        "b.c.d=1\nb.c=2", "[b.c]\n[b]\nx=1\n[b]", "[b]\n[b.c.d]\n[b]",
    ]  # fmt: skip
    whole = '[a]\nsha256 = "%s"\nquota = 4\n' % DIGEST
    others = ["", whole, whole.replace(DIGEST, "abc"), whole.replace("4\n", "16777217\n"), whole + "pieces = -1\n", whole.replace("[a]", '[""]'), whole + "#" * 65536]
    return [(whole + text + "\n").encode() for text in texts] + [text.encode() for text in others]
