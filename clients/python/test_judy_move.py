"""Tests of `judy move` between two real servers."""

import contextlib
import io
import os
import socket
import sys
import unittest
from unittest import mock

sys.path.insert(0, os.path.dirname(os.path.abspath(__file__)))

from judy_runs import JudyTest, alice, judy_here, run_judy, start_judy  # noqa: E402
from judyd import command  # noqa: E402
from judyd.copies import all_arrays, read_name  # noqa: E402
from judyd.errors import Error  # noqa: E402
from judyd.moves import Move, move  # noqa: E402
from judyd.wire import Wire  # noqa: E402
from served import Served, table  # noqa: E402
from test_restarts import scripted  # noqa: E402

FREES = b"".join(b"%bFA %b\n" % pair for pair in ((b"J1", b"ids"), (b"JL", b"hits"), (b"JSL", b"words"), (b"JHS", b"keys"), (b"JSL", b".arrays")))


def wire_to(path):
    """A connection of alice."""
    wire = Wire(path, 60)
    wire.log_in(b"AUTH alice abc")
    return wire


class Moves(JudyTest):
    """Moves to a second server, whose table gives alice more room, and bob less."""

    @classmethod
    def setUpClass(cls):
        super().setUpClass()
        cls.there = Served(table().replace("quota = 1000000", "quota = 2000000").replace("quota = 3\n", "quota = 2\n"), 64)
        cls.addClassCleanup(cls.there.end)

    def setUp(self):
        self.keys = [b"key %d" % at for at in range(3000)] + [b"", b"\0"]
        self.named = ["J1:ids", "JL:hits", "JSL:words", "JHS:keys"]
        self.fill()

    def tearDown(self):
        super().tearDown()
        for path in (self.path(), self.there.path):
            with wire_to(path) as wire:
                wire.ask(FREES, 5)
                self.assertTrue(wire.ask(b"USED\n", 1).startswith(b"Q 0 "))

    def fill(self, **how):
        """Fills alice's arrays in the first server."""
        with alice(**how) as client:
            client.judy1("ids").update(range(0, 30000, 3))
            client.judyl("hits").update((i * i, i) for i in range(9000))
            client.judysl("words").update((b"word %d" % i, i) for i in range(3000))
            client.judyhs("keys").update((key, at) for at, key in enumerate(self.keys))

    def used(self):
        """How many entries alice has in each server."""
        with alice() as here, alice(self.there.path) as there:
            return here.used().used, there.used().used

    def move(self, *words, **how):
        """The status of a move, and its output."""
        return run_judy(b"", "-u", how.pop("user", "alice"), "move", "--to", self.there.path, *words, **how)

    def refused(self, said, *words, **how):
        """Tries a move that is refused with these words, and moves nothing."""
        before = self.used()
        status, out, wrong = self.move(*words, **how)
        self.assertEqual((status, out, said in wrong, wrong.count("\n"), self.used()), (1, "", True, 1, before), wrong)

    def test_all_kinds(self):
        dump = run_judy(b"", "-u", "alice", "dump", *self.named)[1].encode()
        status, said, wrong = self.move(*self.named)
        self.assertEqual((status, wrong, self.used()), (0, "", (25002, 25002)))
        self.assertEqual(said, "J1:ids: 10000 entries\nJL:hits: 9000 entries\nJSL:words: 3000 entries\nJHS:keys: 3002 entries\n")
        self.assertEqual(run_judy(dump, "-u", "alice", "check", path=self.there.path), (0, "25002 entries, alike\n", ""))

    def test_the_old_ones_are_freed(self):
        self.assertEqual((self.move("--free", *self.named)[0], self.used()), (0, (0, 25002)))
        status, said, wrong = run_judy(b"", "-u", "alice", "move", "--to", self.path(), "--free", *self.named, path=self.there.path)  # and back
        self.assertEqual((status, said.count("\n"), wrong, self.used()), (0, 4, "", (25002, 0)))

    def test_all_arrays(self):
        with alice() as client:
            client.judysl(".arrays").insert(b"J1:gone", 1)
        status, said, wrong = self.move("--all", "--free")
        self.assertEqual((status, wrong, self.used()), (0, "", (0, 25003)))
        self.assertEqual(said, "J1:ids: 10000 entries\nJL:hits: 9000 entries\nJSL:.arrays: 1 entries\nJSL:words: 3000 entries\nJHS:keys: 3002 entries\n")
        with alice(self.there.path) as client:
            self.assertEqual((client.array_counts()["JHS", "keys"], len(client.arrays())), (3002, 5))

    def test_all_arrays_of_a_tenant_without_any(self):
        with wire_to(self.path()) as wire:
            wire.ask(FREES, 5)
        for words in (("--all",), ("--all", "--free")):
            self.assertEqual((self.move(*words), self.used()), ((0, "the tenant has no arrays\n", ""), (0, 0)))
        with alice(self.there.path) as client:  # what is there stays
            client.judy1("ids").add(5)
            self.assertEqual((self.move("--all", "--free"), self.used()), ((0, "the tenant has no arrays\n", ""), (0, 1)))

    def test_all_arrays_of_an_older_server(self):
        with scripted([b"OK", b"ERR SYNTAX"]) as (path, got):
            status, said, wrong = run_judy(b"", "-u", "alice", "move", "--to", self.there.path, "--all", "--free", path=path)
        self.assertEqual((status, said, got, self.used()), (1, "", ["AUTH alice abc", "NAMES 65535"], (25002, 0)))
        self.assertEqual(wrong, "judy: refused: ERR SYNTAX: this server is older than NAMES and does not list the arrays of a tenant: name them\n")

    def test_an_array_comes_after_the_list(self):
        """Nothing is freed then."""

        def listed(wire):
            names = all_arrays(wire)
            with alice() as other:
                other.judyl("later").insert(1, 2)
            return names

        with mock.patch.object(command, "all_arrays", listed), contextlib.redirect_stderr(io.StringIO()) as wrong, contextlib.redirect_stdout(io.StringIO()):
            self.assertEqual(judy_here("-s", self.path(), "-u", "alice", "move", "--to", self.there.path, "--all", "--free"), 1)
        self.assertIn("1 entries of the tenant are not in these arrays", wrong.getvalue())
        with alice() as client:
            self.assertEqual((client.judyl("later").free_array(), self.used()), (1, (25002, 25002)))

    def test_what_is_refused_before_anything_changes(self):
        self.refused("nothing under J1:typo; nothing was moved", "J1:typo", *self.named)
        self.refused("J1:ids is named twice", "J1:ids", "J1:ids")
        self.refused("move what? J1:ids and so on, or --all")
        self.refused("an array is J1:NAME", "ids")
        self.refused("the server does not know this tenant and token", *self.named, token="abd")
        self.refused("the second server does not know this tenant and token", *self.named, more={"JUDY_NEW_TOKEN": "abd"})
        with alice(self.there.path) as client:
            client.judy1("ids").add(5)
            client.judyhs("keys").insert(b"key 7", 1)
            self.refused("already has entries under J1:ids, JHS:keys; nothing was moved. To free them there: J1FA ids; JHSFA keys", *self.named)
        status, _, wrong = run_judy(b"", "-u", "alice", "move", "--to", self.path(), "--free", *self.named)
        self.assertEqual((status, "already has entries" in wrong, self.used()), (1, True, (25002, 2)))
        status, _, wrong = run_judy(b"", "-u", "alice", "move", "--to", self.path() + "x", *self.named)
        self.assertEqual((status, "the second server: no connection" in wrong and "nothing was moved" in wrong), (1, True))
        self.assertEqual(run_judy(b"", "-u", "alice", "move", *self.named)[0], 2)

    def test_a_part(self):
        status, _, wrong = self.move("--free", "J1:ids", "JL:hits")
        self.assertEqual((status, "6002 entries of the tenant are not in these arrays" in wrong, self.used()), (1, True, (25002, 19000)))
        with wire_to(self.there.path) as wire:
            wire.ask(FREES, 5)
        self.assertEqual((self.move("--free", "--part", "J1:ids", "JL:hits")[0], self.used()), (0, (6002, 19000)))
        self.assertEqual((self.move("--free", "JSL:words", self.named[3])[0], self.used()), (0, (0, 25002)))

    def test_no_room(self):
        self.assertEqual(run_judy(b"J1S a 1\nJ1S a 2\nJ1S a 3\n", "-u", "bob", token="hello"), (0, "1\n1\n1\n", ""))
        status, said, wrong = self.move("--free", "J1:a", user="bob", token="hello")
        self.assertEqual((status, said, wrong), (1, "", "judy: the second server refused an entry of J1:a: J1S a 3: FULL: the quota has no room: USED shows it\n"))
        for path, freed in ((self.path(), "N 3\n"), (self.there.path, "N 2\n")):
            self.assertEqual(run_judy(b"", "-u", "bob", "J1FA", "a", token="hello", path=path)[1], freed)

    def test_a_token_for_looking_copies_and_does_not_free(self):
        status, _, wrong = self.move("--free", *self.named, token="look", more={"JUDY_NEW_TOKEN": "abc"})
        self.assertEqual((status, "ERR READONLY" in wrong, self.used()), (1, True, (25002, 25002)))

    def test_tokens_from_files(self):
        files = [self.file("old", b"look\n"), self.file("new", b"abc\n")]
        self.assertEqual(self.move("--token-file", files[0], "--new-token-file", files[1], *self.named, token="")[0], 0)

    def test_somebody_writes(self):
        names = [read_name(text) for text in self.named]
        for change, said in (
            (lambda client: client.judy1("ids").add(3), "J1:ids is not alike in both servers from J1S ids 3 on"),
            (lambda client: client.judysl("words").insert(b"word 2999", 1), "JSL:words is not alike in both servers from JSLI words"),
            (lambda client: client.judyhs("keys").insert(b"key 5", 1), "JHS:keys is not alike"),
        ):
            with wire_to(self.path()) as source, wire_to(self.there.path) as target, alice() as writer:
                writer.judy1("ids").remove(3) if "J1S" in said else None
                going = Move(source, target, names)
                self.assertEqual(sum(count for _, count in going.copy()), 25002 - ("J1S" in said))
                change(writer)
                with self.assertRaises(Error) as caught:
                    going.compare()
                self.assertIn(said, str(caught.exception))
                target.ask(FREES, 5)

    def test_somebody_writes_there_or_before_it_is_freed(self):
        names = [read_name("J1:ids")]
        with wire_to(self.path()) as source, wire_to(self.there.path) as target, alice(self.there.path) as writer, alice() as other:
            going = Move(source, target, names)
            copying = going.copy()
            self.assertEqual(next(copying), (names[0], 10000))
            writer.judy1("ids").add(1)
            with self.assertRaises(Error) as caught:
                next(copying)
            self.assertIn("10000 entries were copied, and the second server has 10001 more", str(caught.exception))
            other.judy1("ids").add(1)
            with self.assertRaises(Error) as caught:
                going.free([10000])
            self.assertIn("J1:ids had 10001 entries when it was freed, and 10000 were moved", str(caught.exception))

    def test_a_server_that_goes(self):
        for which in (0, 1):
            second = Served(clients=64)
            self.addCleanup(second.end)
            wires = [wire_to(self.path()), wire_to(second.path)]
            with wires[0] as source, wires[1] as target:
                lost = [wires[which].ask]

                def ask(lines, count, lost=lost, second=second, which=which, wires=wires):
                    if count > 100:
                        (second.kill() if which else wires[0]._sock.shutdown(socket.SHUT_RDWR))
                    return lost[0](lines, count)

                wires[which].ask = ask
                with contextlib.redirect_stderr(io.StringIO()) as said, contextlib.redirect_stdout(io.StringIO()):
                    status = move(source, target, [read_name("J1:ids")], False, True, True)
            self.assertEqual((status, self.used()[0]), (1, 25002))
            self.assertIn("the arrays stay where they were, and the second server may have a part of them", said.getvalue())

    def test_a_closed_pipe(self):
        ours, theirs = os.pipe()
        judy = start_judy("-u", "alice", "move", "--to", self.there.path, *self.named, stdout=theirs)
        os.close(theirs)
        os.close(ours)
        self.assertEqual((judy.wait(timeout=60), self.used()[0]), (4, 25002))


if __name__ == "__main__":
    unittest.main()
