"""Tests of `judy backup` against a real `judyd serve`."""

import io
import os
import resource
import signal
import sys
import time
import unittest
from contextlib import redirect_stdout
from unittest import mock

sys.path.insert(0, os.path.dirname(os.path.abspath(__file__)))

from judy_runs import JudyTest, alice, judy_here, run_judy, start_judy  # noqa: E402
from judyd import Client, backups  # noqa: E402
from judyd.copies import all_arrays  # noqa: E402
from served import Served, table  # noqa: E402
from test_restarts import scripted  # noqa: E402

BOTH = "# two tenants\n\nalice look J1:ids JL:hits\nbob hello J1:few\n"


class Backups(JudyTest):
    """Each test has a server of its own, with a folder for the dumps."""

    def setUp(self):
        self.own = Served(table(), clients=64)
        self.addCleanup(self.own.end)
        self.dumps = os.path.join(self.own.folder.name, "dumps")
        os.mkdir(self.dumps)
        self.fill(3000)

    def fill(self, count):
        """Entries of alice and bob."""
        with alice(self.own.path) as client:
            client.judy1("ids").update(range(count))
            client.judyl("hits").update((i, i) for i in range(100))
        with Client(self.own.path, timeout=60).auth("bob", "hello") as client:
            client.judy1("few").update(range(3))

    def words(self, rows):
        """The words of a backup with this list."""
        path = os.path.join(self.own.folder.name, "list")
        with open(path, "w", encoding="ascii") as file:
            file.write(rows)
        return ["backup", "--folder", self.dumps, path]

    def backup(self, rows=BOTH, **how):
        """The status of a backup, and its output."""
        return run_judy(b"", *self.words(rows), path=self.own.path, **how)

    def there(self):
        """The files in the folder, each with its first and last entries."""
        found = {}
        for name in sorted(os.listdir(self.dumps)):
            with open(os.path.join(self.dumps, name), "rb") as file:
                found[name] = file.read()
        return found

    def check(self, name, tenant="alice", token="abc"):
        """Whether a dump is whole, and like the tenant's arrays."""
        return run_judy(b"", "-u", tenant, "check", os.path.join(self.dumps, name), token=token, path=self.own.path)[0] == 0

    def test_the_last_two_are_kept(self):
        said = "alice: 3100 entries of 3100\nbob: 3 entries of 3\n"
        self.assertEqual(self.backup(), (0, said, ""))
        first = self.there()
        self.assertEqual((list(first), self.check("alice.dump"), self.check("bob.dump", "bob", "hello")), (["alice.dump", "bob.dump"], True, True))
        self.assertEqual(os.stat(os.path.join(self.dumps, "alice.dump")).st_mode & 0o777, 0o600)
        self.fill(4000)
        self.assertEqual(self.backup()[:2], (0, said.replace("3100", "4100")))
        second = self.there()
        self.assertEqual(list(second), ["alice.dump", "alice.dump.1", "bob.dump", "bob.dump.1"])
        self.assertEqual((second["alice.dump.1"], second["bob.dump.1"], self.check("alice.dump")), (first["alice.dump"], first["bob.dump"], True))
        self.fill(5000)
        self.assertEqual(self.backup()[0], 0)
        third = self.there()
        self.assertEqual((list(third), third["alice.dump.1"], self.check("alice.dump")), (list(second), second["alice.dump"], True))

    def test_a_tenant_fails_and_the_others_are_dumped(self):
        self.backup()
        before = self.there()
        for row, why in (
            ("alice wrong J1:ids", "the server does not know this tenant and token"), ("alice look J1:typo J1:ids", "nothing under J1:typo"),
            ("alice wrong --all", "the server does not know this tenant and token"), ("alice look JHS:none J1:ids", "nothing under JHS:none"),
        ):  # fmt: skip
            status, said, wrong = self.backup("%s\nbob hello J1:few\n" % row)
            self.assertEqual((status, said), (1, "bob: 3 entries of 3\n"))
            self.assertRegex(wrong, r"\Ajudy: alice: .*; .*/alice.dump stays as it was\njudy: 1 of 2 rows failed: alice\n\Z")
            self.assertIn(why, wrong)
            self.assertEqual((self.there()["alice.dump"], "alice.dump.1" in self.there()), (before["alice.dump"], False))
        self.assertIn("zoe: the server does not know this tenant and token; it has no dump\n", self.backup("zoe look J1:ids\n")[2])

    def test_faulty_lists(self):
        for row, said in (
            ("alice", "line 2: a row is TENANT TOKEN ARRAY.., or --all"), ("alice look", "line 2: a row is TENANT"), ("a/b look J1:ids", "line 2: a name is 1 to 32"),
            ("alice secret ids", "line 2: an array is J1:NAME"), ("alice secret JHS:keys=FILE", "line 2: a name is 1 to 32"), ("alice secret --al", "line 2: --al: arrays as J1:ids, or --all"), ("alice secret --all J1:ids", "line 2: alice: arrays as"),
            ("bob hello J1:few", "line 2: bob is there twice"), ("../x secret J1:ids", "line 2: a name is"), ("\x01\x02 secret J1:ids", "line 2: a name is"),
        ):  # fmt: skip
            status, out, wrong = self.backup("bob hello J1:few\n%s\n" % row)
            self.assertEqual((status, out, said in wrong, "secret" in wrong), (1, "bob: 3 entries of 3\n", True, False), wrong)
            self.assertTrue(wrong.endswith("judy: 1 of 2 rows failed\n"), wrong)
        self.assertEqual((self.backup("# none\n")[0], "names no tenant" in self.backup("")[2]), (1, True))
        words = self.words(BOTH)
        for faulty, said in ((words[:3] + ["/nowhere"], "No such file"), (["backup", "--folder", "/nowhere", words[3]], "No such file"), (["backup", "--folder", words[3], words[3]], "Not a directory")):
            status, _, wrong = run_judy(b"", *faulty, path=self.own.path)
            self.assertEqual((status, said in wrong, wrong.count("\n")), (1, True, 1), wrong)
        self.assertEqual(run_judy(b"", "backup", words[3])[0], 2)

    def test_after_a_restart_the_last_good_ones_stay(self):
        self.backup()
        before = self.there()
        self.own.restart()
        for rows in (BOTH, BOTH.replace("look", "look --empty").replace("hello", "hello --empty")):
            status, said, wrong = self.backup(rows)
            self.assertEqual((status, said, wrong.count("stays as it was"), self.there()), (1, "", 2, before))
            self.assertIn("judy: 2 of 2 rows failed: alice, bob", wrong)
        self.assertIn("it has no entries", wrong)
        self.own.kill()
        status, said, wrong = self.backup()
        self.assertEqual((status, wrong.count("no connection to"), self.there()), (1, 2, before), wrong)

    def test_one_array_may_be_empty(self):
        self.assertEqual(self.backup("alice look J1:ids JL:none\n")[0], 1)
        self.assertEqual(self.backup("alice look --empty J1:ids JL:none\n")[:2], (0, "alice: 3000 entries of 3100\n"))

    def test_all_arrays(self):
        with alice(self.own.path) as client:
            client.judyhs("keys").update((b"key %d" % at, at) for at in range(50))
            client.judysl(".arrays").insert(b"J1:gone", 1)
        self.assertEqual(self.backup("alice look --all\nbob hello --empty --all\n"), (0, "alice: 3151 entries of 3151\nbob: 3 entries of 3\n", ""))
        dump = self.there()["alice.dump"]
        self.assertEqual(dump.splitlines()[0].split()[4:], [b"J1:ids", b"JL:hits", b"JSL:.arrays", b"JHS:keys"])
        self.assertEqual((dump.count(b"JHSI keys"), dump.count(b"J1S ids"), self.check("alice.dump"), self.check("bob.dump", "bob", "hello")), (50, 3000, True, True))

    def test_all_arrays_of_a_tenant_without_any(self):
        """The last good dump stays, as after a restart without a journal."""
        rows = "alice look --all\nbob hello --empty --all\n"
        self.assertEqual(self.backup(rows)[0], 0)
        before = self.there()
        self.own.restart()
        for _ in range(2):
            status, said, wrong = self.backup(rows)
            self.assertEqual((status, said, wrong.count("it has no entries; "), wrong.count("stays as it was"), self.there()), (1, "", 2, 2, before))

    def test_all_arrays_of_an_older_server(self):
        self.assertEqual(self.backup("alice look --all\n")[0], 0)
        before = self.there()
        with scripted([b"OK", b"ERR SYNTAX"], [b"OK", b"E 1 3", b"1 3"]) as (path, got):
            status, said, wrong = run_judy(b"", *self.words("alice look --all\n"), path=path)
        self.assertEqual((status, said, got, self.there()), (1, "", ["AUTH alice look", "NAMES 65535"], before))
        self.assertIn("judy: alice: ERR SYNTAX: this server is older than NAMES and does not list the arrays of a tenant: name them; ", wrong)

    def test_all_arrays_while_they_come_and_go(self):
        def listed(wire):
            names = all_arrays(wire)
            with alice(self.own.path) as other:
                other.judyl("hits").free_array()
                other.judy1("later").update(range(7))
            return names

        with mock.patch.object(backups, "all_arrays", listed), redirect_stdout(io.StringIO()) as said:
            self.assertEqual(judy_here("-s", self.own.path, *self.words("alice look --all\n")), 0)
        self.assertEqual(said.getvalue(), "alice: 3000 entries of 3007\n")
        self.assertEqual(self.there()["alice.dump"].splitlines()[0].split()[4:], [b"J1:ids", b"JL:hits"])

    def test_a_full_disk(self):
        self.backup()
        before = self.there()
        self.fill(4000)

        def limit():
            resource.setrlimit(resource.RLIMIT_FSIZE, (20000, 20000))

        status, said, wrong = self.backup(preexec_fn=limit)
        self.assertEqual((status, said), (1, "bob: 3 entries of 3\n"))
        self.assertRegex(wrong, r"\Ajudy: alice: .*File too large; .*/alice.dump stays as it was\njudy: 1 of 2 rows failed: alice\n\Z")
        after = self.there()
        self.assertEqual((after["alice.dump"], list(after)), (before["alice.dump"], ["alice.dump", "bob.dump", "bob.dump.1"]))

    def killed(self, number):
        """Ends a backup in the middle of a dump by a signal."""
        self.own.freeze()
        judy = start_judy(*self.words(BOTH), path=self.own.path)
        time.sleep(0.5)  # it waits for the first reply, or has not yet begun
        self.own.process.send_signal(signal.SIGCONT)
        until = time.monotonic() + 60
        while not any(name.endswith(".part") for name in os.listdir(self.dumps)):
            self.assertTrue(time.monotonic() < until and judy.poll() is None)
        self.own.freeze()
        judy.send_signal(number)
        if number == signal.SIGTERM:
            self.own.process.send_signal(signal.SIGCONT)
        status = judy.wait(timeout=60)
        self.own.process.send_signal(signal.SIGCONT)
        return status

    def test_a_run_that_is_killed(self):
        self.backup()
        before = self.there()
        self.fill(400000)
        self.assertEqual((self.killed(signal.SIGTERM), self.there()), (143, before))
        self.assertEqual(self.killed(signal.SIGKILL), -signal.SIGKILL)
        left = self.there()
        self.assertEqual(({name: left[name] for name in before}, len(left)), (before, len(before) + 1))
        self.assertEqual(self.backup()[0], 0)
        self.assertEqual((sorted(self.there()), self.there()["alice.dump.1"], self.check("alice.dump")), (["alice.dump", "alice.dump.1", "bob.dump", "bob.dump.1"], before["alice.dump"], True))

    def is_locked(self):
        """Whether a process has locked the folder, by the kernel's list."""
        with open("/proc/locks", encoding="ascii") as file:
            return any(line.split()[1] == "FLOCK" and line.split()[5].endswith(":%d" % os.stat(self.dumps).st_ino) for line in file)

    def test_two_at_once(self):
        self.own.freeze()
        first = start_judy(*self.words(BOTH), path=self.own.path)
        until = time.monotonic() + 60
        while not self.is_locked():
            self.assertTrue(time.monotonic() < until and first.poll() is None)
            time.sleep(0.01)
        status, _, wrong = self.backup()
        self.assertEqual((status, wrong), (1, "judy: another judy backup runs in %s\n" % self.dumps))
        self.own.process.send_signal(signal.SIGCONT)
        self.assertEqual(first.wait(timeout=60), 0)

    def test_a_closed_pipe(self):
        ours, theirs = os.pipe()
        judy = start_judy(*self.words(BOTH), path=self.own.path, stdout=theirs)
        os.close(theirs)
        os.close(ours)
        self.assertEqual((judy.wait(timeout=60), list(self.there()), self.check("alice.dump")), (4, ["alice.dump", "bob.dump"], True))


if __name__ == "__main__":
    unittest.main()
