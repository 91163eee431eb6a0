"""Tests of the type hints, of the page, and of the list of calls."""

import inspect
import os
import re
import shutil
import subprocess
import sys
import tempfile
import typing
import unittest

HERE = os.path.dirname(os.path.abspath(__file__))
TOP = os.path.join(HERE, "..", "..")
sys.path[:0] = [HERE, os.path.join(TOP, "tests")]

import commands  # noqa: E402
import harness  # noqa: E402
import judyd  # noqa: E402
from judyd import Client, Pool, Shared, Visitor, aio  # noqa: E402
from judyd.calls import Judy1Calls, JudyHSCalls, JudyLCalls, JudySLCalls, is_query, is_same_twice  # noqa: E402
from oracle import Store, Tenant  # noqa: E402


class Hints(unittest.TestCase):
    """The type hints of the package."""

    def test_each_method_has_hints(self):
        for thing in (Client, Visitor, Pool, judyd.Judy1, judyd.JudyL, judyd.JudySL, judyd.JudyHS, *(getattr(aio, name) for name in aio.__all__)):
            for name, method in inspect.getmembers(thing, inspect.isfunction):
                if not name.startswith("_") and method.__module__.startswith("judyd"):
                    hints = typing.get_type_hints(method)
                    missing = [word for word in inspect.signature(method).parameters if word != "self" and word not in hints]
                    self.assertEqual((thing.__name__, name, missing, "return" in hints), (thing.__name__, name, [], True))
        self.assertTrue(os.path.exists(os.path.join(os.path.dirname(judyd.__file__), "py.typed")))

    def test_the_page_has_every_method(self):
        with open(os.path.join(HERE, "README.md"), encoding="utf-8") as file:
            page = file.read()
        part = page.split("\n## Every method\n")[1].split("\n## ")[0]
        rows = [[cell.strip() for cell in re.split(r"(?<!\\)\|", line)[2:-1]] for line in part.split("\n") if line.startswith("|")]
        for at, thing in enumerate((judyd.Judy1, judyd.JudyL, judyd.JudySL, judyd.JudyHS)):
            self.assertEqual(rows[0][at], thing.__name__)
            cells = ["%s %s" % (row[at - 1], row[at]) if row[at].startswith("the same") else row[at] for row in rows]
            self.has_all(thing, " ".join(cells))
            for word in re.findall(r"`(\w+)[`(]", " ".join(row[at] for row in rows)):
                self.assertTrue(hasattr(thing, word) or word in ("in", "len", "for", "reversed", "del"), "%s has no %s" % (thing.__name__, word))
        head = part.split("\n|")[0]
        self.has_all(Client, head.split("`Visitor(")[0])
        self.has_all(Visitor, head)  # it has those of Client that make arrays, as the page says
        self.has_all(Pool, head)
        self.has_all(aio.Client, head)
        self.has_all(aio.Pool, head)
        self.has_all(aio.Pipeline, part)
        self.has_all(judyd.Pipeline, part)
        self.has_all(judyd.Later, part)
        words = set(re.findall(r"\w+", page))
        self.assertEqual(set(judyd.__all__) - words - {"TIMEOUT", "Used", "Pipeline", "Error"}, set())

    def has_all(self, thing, text):
        """Checks that a text has each public name of a class, as code."""
        words = set(re.findall(r"\w+", " ".join(re.findall(r"`[^`]*`", text))))
        names = {name for name, _ in inspect.getmembers(thing) if not name.startswith("_")}
        self.assertEqual((thing.__name__, names - words - {"name", "encoding"}), (thing.__name__, set()))


class Checked(unittest.TestCase):
    """What mypy says."""

    def test_the_library_is_right_and_wrong_uses_are_refused(self):
        if shutil.which("mypy") is None:
            harness.skip("test_hints", "mypy is not installed here")
            self.skipTest("mypy is not installed here")
        with tempfile.TemporaryDirectory(prefix="judyd-mypy-") as cache:
            words = ["mypy", "--strict", "--cache-dir", cache, "-p", "judyd", "-m", "served", "-m", "wrong_uses"]
            ran = subprocess.run(words, cwd=HERE, stdout=subprocess.PIPE, stderr=subprocess.STDOUT, encoding="utf-8", check=False)
        faults = re.findall(r"^(.*?):(\d+): error: ", ran.stdout, re.M)
        self.assertEqual([fault for fault in faults if fault[0] != "wrong_uses.py"], [], ran.stdout)
        with open(os.path.join(HERE, "wrong_uses.py"), encoding="utf-8") as file:
            marked = {number for number, line in enumerate(file, 1) if line.endswith("  # wrong\n")}
        self.assertEqual({int(number) for _, number in faults}, marked)
        self.assertGreater(len(marked), 60)


class Recorder:
    """Keeps the lines of calls."""

    def __init__(self):
        self.lines = []

    def _ask(self, line, read, is_quiet=False):
        self.lines.append(line)


class Answerer(Recorder):
    """Answers each call as tests/oracle.py does, of arrays with a few entries, and keeps the lines, the replies and
    what the client reads in them."""

    ENTRIES = (b"J1S a 3", b"J1S a 7", b"J1S b 7", b"JLI a 3 9", b"JLI a 7 0", b"JSLI a x6b 9", b"JSLI a x6b6b 0", b"JHSI a x6b 9", b"JHSI a x 0")

    def __init__(self):
        super().__init__()
        self.read = []

    def _ask(self, line, read, is_quiet=False):
        connection = Store([Tenant("alice", "abc", 100)]).connect()
        *_, reply = (connection.answer(it) for it in (b"AUTH alice abc", *self.ENTRIES, line))
        self.lines.append(line)
        self.read.append((reply, read(reply)))


def meant(reply):
    """What a reply means, as a method may return it. `1` and `0` are a truth, but `0` of a search is nothing."""
    if reply.startswith(b"I "):
        _, following, _, *indexes = reply.split(b" ")
        return (Shared(list(map(int, indexes)), int(following) or None),)
    if reply.startswith(b"E "):
        _, _, *fields = reply.split(b" ")
        return (list(zip((bytes.fromhex(it[1:].decode()) for it in fields[1::2]), map(int, fields[::2]))),)
    fields = [bytes.fromhex(it[1:].decode()) if it.startswith(b"x") else it if it.isalpha() else int(it) for it in reply.split(b" ")]
    if fields[0] == b"NULL":
        return (None,)
    if fields[0] in (b"V", b"N"):
        return ((fields[2], fields[1]) if len(fields) == 3 else fields[1],)
    return (fields[1],) if len(fields) == 2 else (True,) if fields == [1] else (False, None)


class Commands(unittest.TestCase):
    """The calls that the client makes, and those of the protocol."""

    def made(self, asker, number=1, key=b"k"):
        """The lines of each method, once more for each parameter that may be left out."""
        for kind in (Judy1Calls, JudyLCalls, JudySLCalls, JudyHSCalls):
            array = kind(asker, "a")
            given = {"key": key if kind in (JudySLCalls, JudyHSCalls) else number, "most": 9, "other": "b"}
            for name, method in inspect.getmembers(array, inspect.ismethod):
                if not name.startswith("_"):
                    known = inspect.signature(method).parameters.values()
                    fields = [given.get(it.name, number) for it in known]
                    for count in range(sum(it.default is it.empty for it in known), len(fields) + 1):
                        method(*fields[:count])
        return asker.lines

    def test_each_call_of_the_protocol_has_a_method(self):
        self.assertEqual({line.split()[0].decode() for line in self.made(Recorder())}, set(commands.COMMANDS))

    def test_each_method_reads_its_reply(self):
        asker = Answerer()
        for number, key in ((0, b""), (3, b"k"), (5, b"kj"), (7, b"kk"), (2**64 - 1, b"z")):
            self.made(asker, number, key)
        for line, (reply, result) in zip(asker.lines, asker.read):
            wanted = [(type(it), it) for it in meant(reply)]
            self.assertIn((type(result), result), wanted, (line, reply))
        forms = {(line.split()[0].decode(), re.sub(rb"\d", b"", reply)[:2], reply[:1]) for line, (reply, _) in zip(asker.lines, asker.read)}
        self.assertGreater(len(forms), 1.5 * len(commands.COMMANDS), "most words get each of their replies")

    def test_what_may_be_sent_twice(self):
        for line in self.made(Recorder()):
            operation = commands.COMMANDS[line.split()[0].decode()].operation
            changes = ("Insert", "Add", "Keep", "Fill", "Exchange", "Remove", "Take", "Pop", "Cut", "Free")
            self.assertEqual((line, is_query(line)), (line, operation not in changes))
            self.assertEqual((line, is_same_twice(line)), (line, operation not in ("Add", "Fill", "Pop", "Cut")))
        for line in (b"USED", b"PING", b"HELLO", b"NAMES 5", b"NAMES J1 a 5", b"AUTH alice abc"):
            self.assertTrue(is_query(line), line)
        for line in (b"QUIT", b"", b"PING 1", b"HELLOS", b"J1X a 1", b"J1TT a 1", b"j1t a 1", b"AUTHX a b", b"USED 1", b"NAMES", b"NAMESX 5", b"names 5"):
            self.assertFalse(is_query(line) or is_same_twice(line), line)


if __name__ == "__main__":
    unittest.main()
