"""Tests of the lists of a tenant's arrays, with a real `judyd serve`, and with servers that answer something else."""

import asyncio
import os
import sys
import unittest

sys.path.insert(0, os.path.dirname(os.path.abspath(__file__)))

from judyd import MAX, Client, JudyError, NamedArray, NotAuthorized, Restarted, Syntax, Visitor, aio  # noqa: E402
from judyd.names import listing  # noqa: E402
from judyd.walks import Ask, walked  # noqa: E402
from served import WithServer, odd_server, table  # noqa: E402
from test_restarts import scripted  # noqa: E402

FEW = {("J1", "a"): 3, ("J1", "a-"): 1, ("J1", "ab"): 1, ("JL", "a"): 2, ("JSL", ".arrays"): 1, ("JSL", "a"): 2, ("JHS", "Z"): 1, ("JHS", "a"): 1}
LISTED = [NamedArray(*it, count) for it, count in FEW.items()]
"""Arrays in their order."""


def array(client, kind, name):
    """An array of a client."""
    return {"J1": client.judy1, "JL": client.judyl, "JSL": client.judysl, "JHS": client.judyhs}[kind](name)


def fill(client, counts):
    """Makes arrays with so many entries each."""
    for (kind, name), count in counts.items():
        keys = range(count) if kind in ("J1", "JL") else [b"key %d" % at for at in range(count)]
        array(client, kind, name).update(keys if kind == "J1" else [(key, 7) for key in keys])


class Names(WithServer):
    """Arrays of a real server. They are gone after each test."""

    def setUp(self):
        self.client = self.alice()

    def tearDown(self):
        for kind, name in self.client.arrays():
            array(self.client, kind, name).free_array()
        self.assertEqual(self.client.used().used, 0)

    def of_tasks(self, job):
        """The result of a job with an asyncio client of alice."""

        async def all_of_it():
            async with aio.Client(self.served.path) as client:
                return await job(await client.auth("alice", "abc"))

        return asyncio.run(all_of_it())

    def test_arrays_and_their_counts(self):
        self.assertEqual((self.client.arrays(), self.client.array_counts(), self.client.names()), ([], {}, []))
        fill(self.client, dict(reversed(FEW.items())))
        with Client(self.served.path) as reader:
            for asker in (self.client, Visitor(self.alice), reader.auth("alice", "look")):
                self.assertEqual((asker.arrays(), list(asker.array_counts().items()), asker.names()), (list(FEW), list(FEW.items()), LISTED))
        self.assertEqual(self.of_tasks(lambda client: client.arrays()), list(FEW))
        self.assertEqual(list(self.of_tasks(lambda client: client.array_counts()).items()), list(FEW.items()))
        self.assertEqual(self.of_tasks(lambda client: client.names()), LISTED)
        self.assertEqual(sum(self.client.array_counts().values()), self.client.used().used)

    def test_one_line(self):
        fill(self.client, FEW)
        for behind, most, wanted in (
            (None, 1, LISTED[:1]), (None, 3, LISTED[:3]), (LISTED[0], 2, LISTED[1:3]), (("J1", "a"), 9, LISTED[1:]), (("J1", "b"), 9, LISTED[3:]), (("JL", "A"), 1, LISTED[3:4]),
            (("JSL", "-"), 1, LISTED[4:5]), (("JHS", "Y"), 65535, LISTED[6:]), (LISTED[-1], 5, []), (("JHS", "zz"), 5, []),
        ):  # fmt: skip
            self.assertEqual(self.client.names(behind, most), wanted)
            self.assertEqual(self.of_tasks(lambda client, given=(behind, most): client.names(*given)), wanted)
            with self.client.pipeline() as pipe:
                late = pipe.names(behind, most)
            self.assertEqual(late.result(), wanted)

    def test_a_pipeline_of_tasks(self):
        fill(self.client, FEW)

        async def job(client):
            async with client.pipeline() as pipe:
                late = [pipe.judy1("z").set(5), pipe.names(("J1", "ab"), 2), pipe.judy1("z").free_array(), pipe.names()]
            return [it.result() for it in late]

        self.assertEqual(self.of_tasks(job), [True, [NamedArray("J1", "z", 1), LISTED[3]], 1, LISTED])

    def test_what_is_no_array(self):
        for behind, most, error in (
            (("J2", "a"), 1, ValueError), (("j1", "a"), 1, ValueError), (("J1", "a/"), 1, ValueError), (("J1", ""), 1, ValueError), (("J1", "n" * 33), 1, ValueError), (("J1",), 1, ValueError),
            (("J1", b"a"), 1, TypeError), (("J1", 5), 1, TypeError), (None, 0, ValueError), (None, 65536, ValueError), (None, -1, ValueError), (("J1", "a"), MAX, ValueError), (None, "5", TypeError), (5, 1, TypeError),
        ):  # fmt: skip
            with self.client.pipeline() as pipe:
                self.assertRaises(error, pipe.names, behind, most)
            self.assertRaises(error, self.client.names, behind, most)
            self.assertRaises(error, self.of_tasks, lambda client, given=(behind, most): client.names(*given))

    def test_nobody_is_logged_in(self):
        with Client(self.served.path) as client:
            for call in (client.names, client.arrays, client.array_counts):
                self.assertRaises(NotAuthorized, call)

    def test_many_replies(self):
        many = {(kind, "%s%031d" % (letter, at)): 1 + at % 2 for kind in ("J1", "JL", "JSL", "JHS") for letter in "Zz" for at in range(60)}
        fill(self.client, many)
        sent = []
        ask = self.client._replies
        self.client._replies = lambda lines: sent.append(lines) or ask(lines)
        self.assertEqual(list(self.client.array_counts().items()), list(many.items()))
        self.assertEqual(self.client.arrays(), list(many))
        self.assertGreater(len(sent), 2 * 4, "replies")
        self.assertEqual(Visitor(self.alice).arrays(), list(many))
        self.assertEqual(list(self.of_tasks(lambda client: client.array_counts()).items()), list(many.items()))

    def test_what_comes_and_goes_between_replies(self):
        many = {("JL", "m%031d" % at): 1 for at in range(0, 500, 2)}
        fill(self.client, many)
        walk = walked(listing(), self.client)
        first = [next(walk) for _ in range(50)]
        gone, new, behind = [("JL", "m%031d" % at) for at in (2, 40, 300, 498)], {("JL", "m%031d" % at): 2 for at in (3, 301, 499)}, {("J1", "a"): 1, ("JHS", "a"): 1}
        for kind, name in gone:
            array(self.client, kind, name).free_array()
        fill(self.client, {**new, **behind, ("JL", "m%031d" % 310): 9})
        got = [(it.kind, it.name) for it in [*first, *walk]]
        self.assertEqual(len(got), len(set(got)))
        wanted = {**many, **new, **behind}
        seen = set(got)
        self.assertEqual(seen, set(wanted) - {gone[2], gone[3], ("JL", "m%031d" % 3), ("J1", "a")})
        self.assertEqual(got[-1], ("JHS", "a"))


class Pages(unittest.TestCase):
    """Walks over replies that are given."""

    def walk(self, *replies):
        """The lines that a walk sends, and what it finds."""
        steps, lines, found = listing(), [], []
        given = iter(replies)
        step = next(steps)
        while True:
            try:
                if isinstance(step, Ask):
                    lines += step
                    step = steps.send([next(given)])
                else:
                    found += step
                    step = next(steps)
            except StopIteration:
                return lines, found

    def test_a_walk_ends_with_nothing(self):
        self.assertEqual(self.walk(b"E 0"), ([b"NAMES 65535"], []))
        got = self.walk(b"E 2 J1 a 1 J1 b 2", b"E 1 JHS a 3", b"E 0")
        self.assertEqual(got, ([b"NAMES 65535", b"NAMES J1 b 65535", b"NAMES JHS a 65535"], [NamedArray("J1", "a", 1), NamedArray("J1", "b", 2), NamedArray("JHS", "a", 3)]))

    def test_replies_that_no_server_gives(self):
        for reply in (
            b"", b"E", b"E 0 ", b"E 1", b"E 1 J1 a", b"E 1 J1 a 01", b"E 1 J1 a 1 ", b"E 1  J1 a 1", b"E 2 J1 a 1", b"E 1 J1 a 1 J1 b 1", b"E 1 J2 a 1", b"E 1 J1 a/ 1", b"E 1 J1 a -1", b"E 1 J1 a 1x",
            b"E 1 J1 %b 1" % (b"n" * 33), b"E 1 JL 5 6 7", b"E 01 J1 a 1", b"N 1", b"I 0 0", b"V 5", b"E 1 J1 \xff 1", b"E 1\tJ1 a 1", b"e 0",
        ):  # fmt: skip
            for replies in ((reply,), (b"E 1 J1 A 1", reply)):
                self.assertRaisesRegex(JudyError, "no such answer", self.walk, *replies)

    def test_arrays_that_are_not_in_order(self):
        for replies in (
            (b"E 2 J1 a 1 J1 a 1",), (b"E 2 J1 b 1 J1 a 1",), (b"E 2 JL a 1 J1 b 1",), (b"E 2 JHS a 1 JSL b 1",), (b"E 2 JSL a 1 JL b 1",), (b"E 2 J1 ab 1 J1 a- 1",), (b"E 2 J1 a 1 J1 B 1",), (b"E 2 J1 ab 1 J1 a 1",),
            (b"E 1 J1 a 1", b"E 1 J1 a 1"), (b"E 2 J1 a 1 J1 b 1", b"E 1 J1 b 1"), (b"E 1 JSL a 1", b"E 2 JL b 1 JHS a 1"),
        ):  # fmt: skip
            self.assertRaisesRegex(JudyError, "not in order", self.walk, *replies)

    def test_an_older_server(self):
        self.assertRaisesRegex(Syntax, "ERR SYNTAX: this server is older than NAMES", self.walk, b"ERR SYNTAX")
        with odd_server(b"ERR SYNTAX\n") as path, Client(path, 10) as client, self.assertRaises(Syntax) as caught:
            client.arrays()
        self.assertEqual(caught.exception.reply, "ERR SYNTAX")

        async def job():
            with odd_server(b"ERR SYNTAX\n") as path:
                async with aio.Client(path, 10) as client:
                    await client.array_counts()

        self.assertRaisesRegex(Syntax, "older than NAMES", asyncio.run, job())

    def test_a_lost_connection(self):
        with scripted([b"OK", b"E 1 J1 a 1", None], [b"OK", b"E 1 J1 b 1"]) as (path, got), Client(path, 10, reconnect=True) as client:
            client.auth("alice", "abc")
            self.assertEqual(client.names(), [NamedArray("J1", "a", 1)])
            self.assertEqual(client.names(("J1", "a"), 5), [NamedArray("J1", "b", 1)])  # it is asked again
            self.assertEqual(got[1:], ["NAMES 65535", "NAMES J1 a 5", "AUTH alice abc", "NAMES J1 a 5"])


class Restarts(WithServer):
    """A server that starts again in the middle of a walk."""

    def test_a_restart_between_replies(self):
        client = self.alice(reconnect=True)
        fill(client, {("J1", "m%031d" % at): 1 for at in range(200)})
        walk = walked(listing(), client)
        next(walk)
        self.served.restart()
        self.assertRaises(Restarted, list, walk)
        self.assertEqual(client.arrays(), [])


class Alone(WithServer):
    """Tenants."""

    def test_another_tenant_has_its_own(self):
        with Client(self.served.path).auth("bob", "hello") as bob:
            alice = self.alice()
            fill(alice, FEW)
            self.assertEqual((bob.arrays(), bob.names(("J1", "a"))), ([], []))
            bob.judyl("mine").insert(1, 2)
            self.assertEqual((bob.array_counts(), alice.arrays()), ({("JL", "mine"): 1}, list(FEW)))
            bob.judyl("mine").free_array()
            for kind, name in FEW:
                array(alice, kind, name).free_array()
            self.assertEqual((alice.arrays(), bob.arrays()), ([], []))
        self.assertIn("bob", table())


if __name__ == "__main__":
    unittest.main()
