"""Tests of `judy restore` and `judy thaw` against a real `judyd serve`."""

import glob
import os
import shutil
import signal
import sys
import tempfile
import threading
import unittest

sys.path.insert(0, os.path.dirname(os.path.abspath(__file__)))

from judy_runs import JudyTest, alice, run_judy, start_judy  # noqa: E402
from judyd import Client, Closed, Frozen  # noqa: E402
from served import Served, table  # noqa: E402
from status_server import StatusServer  # noqa: E402
from test_restarts import scripted  # noqa: E402

ARRAYS = ["J1:ids", "JL:hits", "JSL:words"]
FREED = "J1:ids: 3000 entries freed\nJL:hits: 100 entries freed\nJSL:words: 500 entries freed\n"


class Writer(threading.Thread):
    """A client of alice that writes to `ids` all the time, and connects again when it has to."""

    def __init__(self, path):
        super().__init__()
        self._path, self._ends = path, threading.Event()
        self.written, self.frozen, self.lost = 0, 0, 0

    def run(self):
        client = alice(self._path)
        while not self._ends.is_set():
            try:
                client.judy1("ids").set(10**9 + self.written % 50)
                self.written += 1
            except Frozen:
                self.frozen += 1
            except Closed:
                self.lost += 1
                client = alice(self._path)
        client.close()

    def end(self):
        self._ends.set()
        self.join()


class RestoreTest(JudyTest):
    """Each test has a server of its own, and a dump of alice."""

    more = ()

    def setUp(self):
        self.own = Served(table(), clients=64, control=True, more=self.more)
        self.addCleanup(self.own.end)
        self.fill()
        self.dump = self.dumped("alice.dump", *ARRAYS)

    def fill(self):
        """Entries of alice."""
        with alice(self.own.path) as client:
            client.judy1("ids").update(range(3000))
            client.judyl("hits").update((i * i, i) for i in range(100))
            client.judysl("words").update((b"word %d" % i, i) for i in range(500))

    def path(self, name):
        """The path of a file of this test."""
        return os.path.join(self.own.folder.name, name)

    def dumped(self, name, *words):
        """The path of a new dump of alice."""
        self.assertEqual(run_judy(b"", "-u", "alice", "dump", "-o", self.path(name), *words, path=self.own.path), (0, "", ""))
        return self.path(name)

    def entries(self, *words):
        """The lines of alice's arrays."""
        with open(self.dumped("now", *(words or ARRAYS)), "rb") as file:
            return file.read().splitlines()[1:-1]

    def words(self, *words, tenant="alice"):
        """The words of a restore."""
        return "restore", "--control", self.own.control, tenant, *(words or [self.dump])

    def restore(self, *words, **how):
        """The status of a restore, and its output."""
        return run_judy(b"", *self.words(*words, **how), path=self.own.path)

    def spoil(self):
        """Changes the arrays in each way."""
        with alice(self.own.path) as client:
            client.judy1("ids").update(range(2990, 3100))
            client.judyl("hits").insert(4, 99)
            client.judyl("hits").delete(9)
            client.judysl("words").free_array()
            client.judyhs("keys").insert(b"stays", 1)

    def may_write(self):
        """Whether alice may write, as a new client and as one that is there."""
        with alice(self.own.path) as client:
            return client.judy1("probe").set(1) and client.judy1("probe").free_array() == 1


class Restores(RestoreTest):
    """Restores that are done, and others."""

    def test_the_arrays_are_as_they_were(self):
        before = self.entries()
        self.spoil()
        status, said, wrong = self.restore()
        self.assertEqual((status, wrong), (0, ""))
        self.assertEqual(said, "J1:ids: 3100 entries freed\nJL:hits: 99 entries freed\nJSL:words: 0 entries freed\n3600 entries, alike\n")
        self.assertEqual(self.entries(), before)
        with alice(self.own.path) as client:
            self.assertEqual((client.judyhs("keys").get(b"stays"), client.judyhs("keys").free_array(), client.used().used), (1, 1, 3600))
        self.assertTrue(self.may_write())

    def test_two_dumps(self):
        before = self.entries()
        parts = self.dumped("1", "J1:ids"), self.dumped("2", "JSL:words", "JL:hits")
        self.spoil()
        self.assertEqual(self.restore(*parts)[::2], (0, ""))
        self.assertEqual(self.entries(), before)
        status, said, wrong = self.restore(self.dump, parts[0])
        self.assertEqual((status, said, wrong), (1, "", "judy: two of the dumps have J1:ids: restore one of them\n"))

    def test_writers_are_kept_out(self):
        before = self.entries()
        writer = Writer(self.own.path)
        with Client(self.own.path, timeout=60).auth("alice", "look") as reader:
            writer.start()
            self.addCleanup(writer.end)
            for _ in range(5):
                status, said, wrong = self.restore()
                self.assertEqual((status, wrong, said.endswith("3600 entries, alike\n")), (0, "", True), wrong)
            writer.end()
            self.assertGreaterEqual(reader.used().used, 3600)  # the same connection all the time
        self.assertTrue(writer.written and writer.lost)
        self.spoil()
        self.assertEqual((self.restore()[0], self.entries()), (0, before))

    def test_all_arrays(self):
        self.own.restart()
        with alice(self.own.path) as client:
            client.judy1("ids").update(range(10))
            client.judyhs("keys").update((b"key %d" % i, i) for i in range(50))
        dump, before = self.dumped("all", "--all"), self.entries("--all")
        with alice(self.own.path) as client:
            client.judyl("later").update((i, i) for i in range(7))
            client.judysl(".arrays").insert(b"J1:ids", 1)
            client.judyhs("keys").insert(b"another", 1)
        status, said, wrong = self.restore("--all", dump)
        freed = "J1:ids: 10 entries freed\nJHS:keys: 51 entries freed\nJL:later: 7 entries freed\nJSL:.arrays: 1 entries freed\n"
        self.assertEqual((status, wrong, said), (0, "", freed + "60 entries, alike\n"))
        self.assertEqual(self.entries("--all"), before)
        with alice(self.own.path) as client:
            self.assertEqual(client.arrays(), [("J1", "ids"), ("JHS", "keys")])

    def test_all_arrays_of_a_tenant_without_any(self):
        self.own.restart()
        none = self.dumped("none", "--all")
        self.assertEqual(self.restore("--all", none), (0, "0 entries, alike\n", ""))
        before = "J1:ids: 0 entries freed\nJL:hits: 0 entries freed\nJSL:words: 0 entries freed\n"
        self.assertEqual(self.restore("--all", self.dump), (0, before + "3600 entries, alike\n", ""))
        freed = "J1:ids: 3000 entries freed\nJL:hits: 100 entries freed\nJSL:words: 500 entries freed\n"
        self.assertEqual(self.restore("--all", none), (0, freed + "0 entries, alike\n", ""))

    def test_all_arrays_of_an_older_server(self):
        before = self.entries()
        with scripted([b"OK", b"Q 3600 1000000 3600 126000000", b"ERR SYNTAX"]) as (path, got):
            status, said, wrong = run_judy(b"", *self.words("--all", self.dump), path=path)
        self.assertEqual((status, said, got[1:]), (1, "", ["USED", "NAMES 65535"]))
        self.assertEqual(wrong, "judy: refused: ERR SYNTAX: this server is older than NAMES and does not list the arrays of a tenant: name them\n")
        self.assertEqual((self.entries(), self.may_write()), (before, True))

    def test_nothing_is_done(self):
        before = self.entries()
        with open(self.dump, "rb") as file:
            whole = file.read()
        cut, changed = self.path("cut"), self.path("changed")
        for path, data in ((cut, whole[:-30]), (changed, whole.replace(b"J1S ids 7\n", b"J1S ids 8\n"))):
            with open(path, "wb") as file:
                file.write(data)
        for words, wanted in (
            ([cut], "line 3602: the dump"), ([changed], "the SHA-256 differs"), (["/dev/null"], "no regular file"),
            (["/nowhere"], "No such file"), (["--all", "/nowhere"], "No such file"),
        ):  # fmt: skip
            status, said, wrong = self.restore(*words)
            self.assertEqual((status, said, wanted in wrong, wrong.count("\n")), (1, "", True, 1), wrong)
        self.assertEqual(self.restore(tenant="zoe"), (1, "", "judy: the server has no tenant zoe\n"))
        self.assertEqual(self.restore(tenant="a/b")[:2], (1, ""))
        status, _, wrong = run_judy(b"", "restore", "--control", self.path("none"), "alice", self.dump, path=self.own.path)
        self.assertEqual((status, "no server has made that socket" in wrong, "frozen" in wrong), (4, True, False), wrong)
        status, _, wrong = run_judy(b"", "restore", "--control", "/nowhere/control", "alice", self.dump, path=self.own.path)
        self.assertEqual((status, "no server has made that socket" in wrong), (4, True), wrong)
        status, _, wrong = run_judy(b"", *self.words(), path=self.path("none"))
        self.assertEqual((status, self.path("none") in wrong, "begin again" in wrong), (4, True, False), wrong)
        self.assertEqual((self.entries(), self.may_write()), (before, True))

    def test_a_quota(self):
        with Client(self.own.path, timeout=60).auth("bob", "hello") as client:
            client.judy1("few").update(range(2))
        with alice(self.own.path) as client:
            client.judy1("some").update(range(2))
        small = self.dumped("small", "J1:some")
        self.assertEqual(self.restore(tenant="bob"), (1, "", "judy: 3600 entries to load, and the quota is 3\n"))
        status, said, wrong = self.restore(small, tenant="bob")
        self.assertEqual((status, said), (1, "J1:some: 0 entries freed\n"))
        self.assertEqual(wrong, "judy: line 3: FULL: the quota has no room: USED shows it\njudy: refused: 1 of 2 loaded; what follows was not sent\njudy: bob: its arrays are not as the dump has them; begin again\n")
        with Client(self.own.path, timeout=60).auth("bob", "hello") as client:
            self.assertEqual((client.judy1("few").free_array(), client.judy1("some").free_array()), (2, 1))

    def test_a_control_socket_of_another_server(self):
        other = StatusServer()
        self.addCleanup(other.end)
        for answer, wanted in ((b"OK\n", "does not know the token of this restore"), (b"ERR\n", "its server cannot freeze a tenant"), (b"ERR TENANT\n", "no tenant alice"), (b"BYE\n", "it is not the socket of --control")):
            other.fixed, other.asked = answer, []
            status, said, wrong = run_judy(b"", "restore", "--control", other.path, "alice", self.dump, path=self.own.path)
            self.assertEqual((status, said, wanted in wrong, wrong.count("\n")), (1, "", True, 1), wrong)
            first, *more = other.asked
            self.assertRegex(first, rb"\AFREEZE alice [0-9a-f]{64}\n\Z")
            self.assertEqual(more, [b"THAW alice\n"] if answer == b"OK\n" else [])
        self.assertTrue(self.may_write())

    def begun(self, count=50000):
        """A restore of a large dump that has freed the first array. It is stopped there."""
        with alice(self.own.path) as client:
            client.judy1("ids").update(range(count))
        large = self.dumped("large", "J1:ids")
        judy = start_judy(*self.words(large), path=self.own.path)
        self.told_until(judy.stdout.fileno(), b"entries freed\n")
        judy.send_signal(signal.SIGSTOP)
        return judy

    def test_two_at_once(self):
        judy = self.begun()
        self.assertEqual(self.restore(), (1, "", "judy: another judy restore runs at %s\n" % self.own.control))
        judy.send_signal(signal.SIGCONT)
        said, wrong = judy.communicate(timeout=60)
        self.assertEqual((judy.returncode, said.endswith(b"alike\n"), wrong), (0, True, b""))

    def test_signals(self):
        for number, wanted in ((signal.SIGINT, 130), (signal.SIGTERM, 143), (signal.SIGHUP, 129)):
            judy = self.begun()
            judy.send_signal(number)
            judy.send_signal(signal.SIGCONT)
            _, wrong = judy.communicate(timeout=60)
            self.assertEqual((judy.returncode, wrong), (wanted, b"judy: alice: its arrays are not as the dump has them; begin again\n"))
            self.assertTrue(self.may_write())

    def test_one_that_is_killed(self):
        judy = self.begun()
        judy.kill()
        judy.communicate(timeout=60)
        with alice(self.own.path) as client:
            self.assertRaises(Frozen, client.judy1("ids").set, 5)
            self.assertRaises(Frozen, client.judy1("ids").free_array)
            self.assertGreaterEqual(client.judy1("ids").count(), 0)
            with self.assertRaisesRegex(Frozen, "ERR FROZEN: the tenant is frozen while its arrays are restored"):
                client.judyl("hits").update([(5, 5)])
        status, said, wrong = run_judy(b"", "-u", "alice", "J1S", "ids", "5", path=self.own.path)
        self.assertEqual((status, said, wrong), (1, "ERR FROZEN\n", "judy: ERR FROZEN: the tenant is frozen while its arrays are restored: try again later\n"))
        self.assertEqual(run_judy(b"", "-u", "alice", "J1S", "ids", "5", token="look", path=self.own.path)[1], "ERR READONLY\n")
        self.assertEqual(run_judy(b"", "thaw", self.own.control, "zoe"), (1, "", "judy: the server has no tenant zoe\n"))
        for _ in range(2):
            self.assertEqual((run_judy(b"", "thaw", self.own.control, "alice"), self.may_write()), ((0, "", ""), True))
        self.assertEqual(self.restore()[0], 0)

    def test_a_server_that_ends(self):
        judy = self.begun()
        self.own.kill()
        judy.send_signal(signal.SIGCONT)
        _, wrong = judy.communicate(timeout=60)
        self.assertEqual(judy.returncode, 1, wrong)
        for line in (b"the connection was lost", b"alice is still frozen, if the server runs: judy thaw", b"alice: its arrays are not as the dump has them; begin again"):
            self.assertIn(line, wrong)
        self.own.start()
        self.assertEqual((self.restore()[0], self.may_write()), (0, True))


class OnePlace(RestoreTest):
    """The tenant may have one connection."""

    more = ("--tenant-clients", "1")

    def test_one_connection_is_enough(self):
        before = self.entries()
        self.spoil()
        self.assertEqual((self.restore()[0], self.entries()), (0, before))
        holder = alice(self.own.path)
        self.assertEqual((self.restore()[0], self.entries()), (0, before))
        self.assertRaises(Closed, holder.used)


class LostMachines(RestoreTest):
    """A machine is lost, and another one takes its place, as docs/OPERATE.md, "Take over by hand", has it."""

    def setUp(self):
        self.journal = self.folder_of_its_own()
        self.more = ("--journal", self.journal, "--new-journal", "--sync", "round")
        super().setUp()

    def folder_of_its_own(self):
        """The path of a folder of this test."""
        made = tempfile.TemporaryDirectory(prefix="judyd-lost-")
        self.addCleanup(made.cleanup)
        return made.name

    def copied(self, journal):
        """A copy of the files of a journal, as the page makes it."""
        folder = self.folder_of_its_own()
        for path in [os.path.join(journal, "manifest"), *sorted(glob.glob(os.path.join(journal, "[0-9]*")))]:
            shutil.copy2(path, folder)
        return folder

    def go_to_another(self, *words):
        """Another machine, with a journal by these words."""
        self.own = Served(table(), clients=64, control=True, more=("--journal", *words))
        self.addCleanup(self.own.end)

    def test_what_another_machine_has(self):
        backup, copy = self.entries(), self.copied(self.journal)
        with alice(self.own.path) as client:
            client.judy1("ids").update(range(3000, 3500))
        last = self.entries()
        self.own.kill()
        for journal, wanted in ((self.journal, last), (copy, backup)):
            self.go_to_another(self.copied(journal))
            self.assertEqual(self.entries(), wanted)
        self.go_to_another(self.folder_of_its_own(), "--new-journal")
        with alice(self.own.path) as client:
            self.assertEqual(client.used().used, 0)
        self.assertEqual(self.restore()[::2], (0, ""))
        self.assertEqual((self.entries(), len(last) - len(backup)), (backup, 500))


if __name__ == "__main__":
    unittest.main()
