"""Tests of `judy dump`, `judy load` and `judy check` against a real `judyd serve`."""

import hashlib
import os
import subprocess
import sys
import time
import unittest
from unittest import mock

sys.path.insert(0, os.path.dirname(os.path.abspath(__file__)))

from judy_runs import JudyTest, alice, judy_here, run_judy, start_judy  # noqa: E402
from judyd import command  # noqa: E402
from judyd.copies import all_arrays  # noqa: E402
from served import PROGRAM, table  # noqa: E402
from test_restarts import scripted  # noqa: E402


class Copies(JudyTest):
    """Arrays as lines."""

    ARRAYS = ["J1:ids", "JL:hits", "JSL:words", "JHS:keys"]
    ENTRIES = 25002

    def setUp(self):
        self.keys = [b"key %d" % at for at in range(3000)] + [b"", b"\0"]
        with alice() as client:
            client.judy1("ids").update(range(0, 30000, 3))
            client.judyl("hits").update((i * i, i) for i in range(9000))
            client.judysl("words").update((b"word %d" % i, i) for i in range(3000))
            client.judyhs("keys").update((key, at) for at, key in enumerate(self.keys))

    def tearDown(self):
        super().tearDown()
        with alice() as client:
            for kind, name in client.arrays():
                {"J1": client.judy1, "JL": client.judyl, "JSL": client.judysl, "JHS": client.judyhs}[kind](name).free_array()
            self.assertEqual(client.used().used, 0)

    def empty(self):
        """Empties the arrays, as a restart does."""
        with alice() as client:
            for free in (client.judy1("ids"), client.judyl("hits"), client.judysl("words"), client.judyhs("keys")):
                free.free_array()

    def dump(self, *words):
        """A dump."""
        status, dump, wrong = run_judy(b"", "dump", "-u", "alice", *(words or self.ARRAYS))
        self.assertEqual((status, wrong), (0, ""))
        return dump.encode()

    def test_there_and_back(self):
        dump = self.dump()
        first, *entries, last = dump.splitlines(keepends=True)
        self.assertRegex(first.decode(), r"# judy-dump 1 20..-..-..T..:..:..Z J1:ids JL:hits JSL:words JHS:keys\n\Z")
        self.assertEqual(entries[0] + entries[10001] + entries[19000], b"J1S ids 0\nJLI hits 1 1\nJSLI words x776f72642030 0\n")
        self.assertEqual(last.decode(), "# end 25002 sha256 %s\n" % hashlib.sha256(first + b"".join(entries)).hexdigest())
        self.assertEqual(run_judy(dump, "-u", "alice", "check"), (0, "25002 entries, alike\n", ""))
        self.empty()
        status, said, _ = run_judy(dump, "-u", "alice", "check")
        self.assertEqual((status, said.splitlines()[0], said.splitlines()[-1]), (1, "J1:ids 0: in the dump alone", "25002 entries, 25002 differences"))
        for words, given in ((("load",), dump), (("load", self.file("dump", dump)), b""), (("load", "--unchecked"), dump)):
            self.empty()
            self.assertEqual(run_judy(given, "-u", "alice", *words), (0, "", ""))
            self.assertEqual(run_judy(b"", "-u", "alice", "check", self.file("dump", dump))[0], 0)
        self.assertEqual(self.dump().splitlines()[1:-1], dump.splitlines()[1:-1])
        given = table().encode() + b"---\nAUTH alice abc\n" + dump + b"USED\n"
        ran = subprocess.run([PROGRAM, "run"], input=given, stdout=subprocess.PIPE, check=True)
        self.assertEqual(ran.stdout.splitlines()[-1].split()[1], b"25002")

    def test_a_token_for_looking_is_enough(self):
        dump = run_judy(b"", "dump", "-u", "alice", *self.ARRAYS, token="look")[1]
        self.assertEqual(run_judy(dump.encode(), "-u", "alice", "check", token="look")[0], 0)
        self.assertIn("line 2: ERR READONLY", run_judy(dump.encode(), "-u", "alice", "load", token="look")[2])

    def told_at_a_terminal(self, last, *words):
        """The progress that judy shows, up to a last line."""
        ours, theirs = os.openpty()
        self.addCleanup(os.close, ours)
        judy = start_judy("-u", "alice", *words, stdout=subprocess.DEVNULL, stderr=theirs)
        os.close(theirs)
        said = self.told_until(ours, last)
        self.assertEqual(judy.wait(timeout=60), 0)
        return said

    def test_progress_at_a_terminal(self):
        path = self.file("dump", self.dump())
        self.assertIn(b"J1:ids: 10,000\r\n", self.told_at_a_terminal(b"JSL:words: 3,000\r\n", "dump", "J1:ids", "JSL:words"))
        self.told_at_a_terminal(b"lines: 25,002\r\n", "load", path)
        self.told_at_a_terminal(b"entries: 25,002\r\n", "check", path)

    def test_what_differs(self):
        dump = self.dump()
        with alice() as client:
            client.judy1("ids").set(1)
            client.judyl("hits").delete(4)
            client.judyl("hits").insert(9, 99)
            client.judysl("words").insert(b"zoo", 1)
            client.judyhs("keys").insert(b"key 7", 1)
            client.judyhs("keys").delete(b"")
            client.judyhs("keys").insert(b"\1", 1)
            wanted = {b"key 7": "7 in the dump, 1 on the server", b"": "in the dump alone", b"\1": "on the server alone"}
            order = [key for key in client.judyhs("keys") if key in wanted]
        order.insert(sum(hashlib.sha256(key).digest() < hashlib.sha256(b"").digest() for key in order), b"")
        status, said, _ = run_judy(dump, "-u", "alice", "check")
        self.assertEqual(status, 1)
        self.assertEqual(
            said.splitlines(),
            ["J1:ids 1: on the server alone", "JL:hits 4: in the dump alone", "JL:hits 9: 3 in the dump, 99 on the server",
             "JSL:words x7a6f6f: on the server alone", *("JHS:keys x%s: %s" % (key.hex(), wanted[key]) for key in order), "25002 entries, 7 differences"],
        )  # fmt: skip

    def test_byte_keys_in_another_order(self):
        """A dump of an older judy, which had the order of a file of keys, in which a key could come twice."""
        lines = [b"JHSI keys x%b %d\n" % (key.hex().encode(), at) for at, key in enumerate(self.keys)]
        lines = b"".join([b"# judy-dump 1 2026-11-25T14:42:35Z JHS:keys\n", *lines, lines[5]])
        dump = lines + b"# end 3003 sha256 %s\n" % hashlib.sha256(lines).hexdigest().encode()
        self.assertEqual(run_judy(dump, "-u", "alice", "check"), (0, "3003 entries, alike\n", ""))
        before = self.dump()
        with alice() as client:
            self.assertEqual(client.judyhs("keys").free_array(), 3002)
        self.assertEqual(run_judy(dump, "-u", "alice", "load"), (0, "", ""))
        self.assertEqual(self.dump().splitlines()[1:-1], before.splitlines()[1:-1])

    def test_nothing_there(self):
        status, said, wrong = run_judy(b"", "-u", "alice", "dump", "J1:typo")
        self.assertEqual((status, len(said.splitlines()), said.split()[:3]), (1, 1, ["#", "judy-dump", "1"]))
        self.assertEqual(wrong, "judy: nothing under J1:typo\njudy: the dump is not whole; --empty dumps arrays without entries too\n")
        status, said, _ = run_judy(b"", "-u", "alice", "dump", "--empty", "J1:typo")
        self.assertEqual((status, said.splitlines()[1].split()[:3]), (0, ["#", "end", "0"]))
        path = self.file("kept", b"the last good one")
        status, _, wrong = run_judy(b"", "-u", "alice", "dump", "-o", path, "J1:typo", "J1:ids")
        self.assertEqual((status, "%s stays as it was" % path in wrong), (1, True))
        with open(path, "rb") as file:
            self.assertEqual(file.read(), b"the last good one")
        self.assertEqual(run_judy(b"", "-u", "alice", "dump", "--empty", "-o", path, "J1:typo", "J1:ids"), (0, "", ""))
        self.assertEqual(run_judy(b"", "-u", "alice", "load", path), (0, "", ""))
        self.assertIn("an array is J1:NAME", run_judy(b"", "-u", "alice", "dump", "ids")[2])
        self.assertIn("a name is 1 to 32 of", run_judy(b"", "-u", "alice", "dump", "JHS:keys=FILE")[2])

    def test_a_load_that_is_refused(self):
        status, said, wrong = run_judy(b"".join(b"J1S a %d\n" % i for i in range(5000)), "-u", "bob", "load", "--unchecked", token="hello")
        self.assertEqual((status, said), (1, ""))
        self.assertEqual(wrong.splitlines()[0], "judy: line 4: FULL: the quota has no room: USED shows it")
        self.assertEqual(wrong.splitlines()[-1], "judy: refused: 3 loaded; what follows was not sent")
        self.assertEqual(run_judy(b"", "-u", "bob", "J1FA", "a", token="hello")[1], "N 3\n")
        status, _, wrong = run_judy(b"", "-u", "bob", "load", self.file("dump", self.dump()), token="hello")
        self.assertEqual((status, wrong.splitlines()[-1]), (1, "judy: refused: 3 of 25002 loaded; what follows was not sent"))
        self.assertEqual(run_judy(b"", "-u", "bob", "J1FA", "ids", token="hello")[1], "N 3\n")

    def test_all_arrays(self):
        with alice() as client:
            client.judysl(".arrays").insert(b"J1:gone", 1)
            client.judy1("a").update(range(9))
        dump = self.dump("--all")
        first, *entries, _ = dump.splitlines()
        self.assertEqual((first.split()[4:], len(entries)), ([b"J1:a", b"J1:ids", b"JL:hits", b"JSL:.arrays", b"JSL:words", b"JHS:keys"], self.ENTRIES + 10))
        self.assertEqual(self.dump("--all", "--empty").splitlines()[1:-1], dump.splitlines()[1:-1])
        self.empty()
        self.assertEqual(self.dump("--all").splitlines()[0].split()[4:], [b"J1:a", b"JSL:.arrays"])
        self.assertEqual(run_judy(dump, "-u", "alice", "load"), (0, "", ""))
        self.assertEqual(self.dump("--all").splitlines()[1:-1], dump.splitlines()[1:-1])
        self.assertEqual(run_judy(b"", "dump", "-u", "alice", "--all", token="look")[1].splitlines()[1:-1], dump.decode().splitlines()[1:-1])

    def test_all_arrays_of_a_tenant_without_any(self):
        self.empty()
        dump = self.dump("--all")
        self.assertRegex(dump.decode(), r"\A# judy-dump 1 \S+Z\n# end 0 sha256 [0-9a-f]{64}\n\Z")
        path = self.file("all", b"the one before")
        self.assertEqual(run_judy(b"", "dump", "-u", "alice", "--all", "-o", path), (0, "", ""))
        for words in (("check", path), ("load", path), ("check", "--whole", path)):
            self.assertEqual(run_judy(b"", "-u", "alice", *words)[::2], (0, ""))

    def test_all_arrays_of_an_older_server(self):
        path = self.file("kept", b"the last good one")
        with scripted([b"OK", b"ERR SYNTAX"]) as (older, got):
            status, said, wrong = run_judy(b"", "-u", "alice", "dump", "--all", "-o", path, path=older)
        self.assertEqual((status, said, got), (1, "", ["AUTH alice abc", "NAMES 65535"]))
        self.assertEqual(wrong, "judy: refused: ERR SYNTAX: this server is older than NAMES and does not list the arrays of a tenant: name them\n")
        with open(path, "rb") as file:
            self.assertEqual(file.read(), b"the last good one")

    def test_all_arrays_while_they_come_and_go(self):
        """An array that went after it was listed is dumped without entries, and one that came then is not dumped."""
        path = self.file("dump", b"")

        def listed(wire):
            names = all_arrays(wire)
            with alice() as other:
                other.judy1("ids").free_array()
                other.judysl("later").insert(b"k", 1)
            return names

        with mock.patch.object(command, "all_arrays", listed):
            self.assertEqual(judy_here("-s", self.path(), "-u", "alice", "dump", "--all", "-o", path), 0)
        with open(path, "rb") as file:
            first, *entries, _ = file.read().splitlines()
        self.assertEqual((first.decode().split()[4:], len(entries), {it[:5] for it in entries}), (self.ARRAYS, 15002, {b"JLI h", b"JSLI ", b"JHSI "}))

    def test_others_are_served_between(self):
        judy = start_judy("-u", "alice", "dump", *["JL:hits"] * 20)
        self.assertTrue(os.read(judy.stdout.fileno(), 10))
        with alice() as other:
            self.assertEqual(other.used().used, self.ENTRIES)
            self.assertIsNone(judy.poll())
        judy.communicate(timeout=60)

    def test_others_are_served_while_a_dump_is_read(self):
        dump = self.dump()
        half = dump.index(b"\n", len(dump) // 2) + 1
        for word, said in (("load", b""), ("check", b"25002 entries, alike\n")):
            judy = start_judy("-u", "alice", word)
            judy.stdin.write(dump[:half])
            judy.stdin.flush()
            for _ in range(3):
                with alice() as other:
                    self.assertEqual(other.used().used, self.ENTRIES)
                time.sleep(0.2)
            self.assertIsNone(judy.poll())
            self.assertEqual((judy.communicate(dump[half:], timeout=60), judy.returncode), ((said, b""), 0))


if __name__ == "__main__":
    unittest.main()
