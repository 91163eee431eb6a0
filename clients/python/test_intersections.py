"""Tests of the indexes that two sets share: one call, the iterator, the operator, and what another client changes meanwhile."""

import asyncio
import os
import random
import sys
import unittest

sys.path.insert(0, os.path.dirname(os.path.abspath(__file__)))

from judyd import MAX, Client, JudyError, Shared, aio  # noqa: E402
from judyd.walks import FEW  # noqa: E402
from judyd.wording import advice, help_of, told  # noqa: E402
from served import WithClient, WithServer  # noqa: E402
from test_restarts import scripted  # noqa: E402

STEPS = 2048  # that a line makes at most
ODD = (b"I 0 1", b"I 0 1 5 6", b"I 0", b"I", b"I 0 0 ", b"I 0  1 5", b"I x 0", b"I 0 1 -5", b"E 1 5", b"1 5", b"0", b"NULL", b"N 5")


class Sets(WithClient):
    """Two sets of a client, `a` and `b`."""

    def setUp(self):
        super().setUp()
        self.a, self.b = self.client.judy1("a"), self.client.judy1("b")
        self.sent = []
        exchange = self.client._exchange

        def kept(lines, is_quiet=False):
            self.sent += [line.decode() for line in lines.each()]
            return exchange(lines, is_quiet)

        self.client._exchange = kept

    def tearDown(self):
        self.a.clear()
        self.b.clear()
        super().tearDown()

    def filled(self, one, other):
        """The sets with these indexes and no others."""
        for array, indexes in ((self.a, one), (self.b, other)):
            array.clear()
            array.update(indexes)
        self.sent.clear()


class Results(Sets):
    """What calls return."""

    def test_one_call(self):
        a, b = self.a, self.b
        self.assertEqual([a.intersect("b"), a.intersect("a", MAX, 1)], [Shared([], None)] * 2)
        self.filled({1, 2, 3, 5}, {2, 3, 4, 5})
        self.assertEqual([a.intersect("b", 0, 2), a.intersect("b", 4, 9), b.intersect("a", start=4), a.intersect("b", most=3)], [([2, 3], 4), ([5], None), ([5], None), ([2, 3, 5], 6)])
        self.assertEqual([a.intersect("a", 1, 4), a.intersect("none"), a.intersect("b", 6)], [([1, 2, 3, 5], 6), ([], None), ([], None)])
        self.assertEqual(self.sent[:4], ["J1I a b 0 2", "J1I a b 4 9", "J1I b a 4 65535", "J1I a b 0 3"])
        found = a.intersect("b", 3)
        self.assertEqual((type(found), found.indexes, found.next), (Shared, [3, 5], None))
        a.add(MAX), b.add(MAX)
        self.assertEqual([a.intersect("b", 5, 2), a.intersect("b", 5, 1), a.intersect("b", MAX, 1)], [([5, MAX], None), ([5], 6), ([MAX], None)])

    def test_what_is_refused_here(self):
        self.sent.clear()
        for call in (self.a.intersect, self.a.intersection):
            for other, error in ((5, TypeError), (b"b", TypeError), (self.b, TypeError), (None, TypeError), ("", ValueError), ("b b", ValueError), ("b" * 33, ValueError)):
                self.assertRaisesRegex(error, "a name is", call, other)
            for start, error in ((-1, ValueError), (MAX + 1, ValueError), ("5", TypeError), (None, TypeError)):
                self.assertRaisesRegex(error, "a word is", call, "b", start)
        for most, error in ((0, ValueError), (65536, ValueError), (-1, ValueError), (None, TypeError)):
            self.assertRaisesRegex(error, "how many there are at most is an int from 1 to 65535", self.a.intersect, "b", 0, most)
        self.assertRaises(TypeError, self.a.intersection, "b", 0, "9")
        self.assertEqual(self.sent, [])

    def test_the_iterator(self):
        draw, high = random.Random(14), MAX - 3000
        both = [range(high, MAX + 1, step) for step in (1, 3)]
        for one, other in (
            ([], []), ([5], []), ([], [5]), ([5], [5]), ([MAX], [0, MAX]), (range(0, 9000, 2), range(1, 9000, 2)), (range(5000), range(4000, 9000)), both,
            *([draw.sample(range(base, base + 3000), draw.randrange(3000)) for _ in range(2)] for base in (0, 10**6, high) for _ in range(3)),
        ):  # fmt: skip
            self.filled(one, other)
            wanted = sorted(set(one) & set(other))
            self.assertEqual((list(self.a.intersection("b")), list(self.b.intersection("a")), list(self.a.intersection("a"))), (wanted, wanted, sorted(one)))
            for start, stop in ((0, 0), (0, 1), (7, 4500), (5, 5), (9, 5), (MAX, None), (0, MAX), (high + 5, high + 1000), (10**6 + 9, 10**6 + 2000)):
                inside = [it for it in wanted if it >= start and (stop is None or it < stop)]
                self.assertEqual(list(self.a.intersection("b", start, stop)), inside, (start, stop))

    def test_how_many_lines(self):
        n = 20000
        self.filled(range(0, 3 * n, 3), range(0, 2 * n, 2))
        self.assertEqual(list(self.a.intersection("b")), list(range(0, 2 * n, 6)))
        self.assertEqual((self.sent[0], self.sent[1]), ("J1I a b 0 %d" % FEW, "J1I a b %d 65535" % (6 * FEW - 5)))
        self.assertLessEqual(len(self.sent), n // 3 // (4067 // 6) + 3)
        self.filled(range(0, 4 * n, 2), range(1, 4 * n, 2))
        self.assertEqual(list(self.a.intersection("b")), [])
        self.assertLessEqual(len(self.sent), 2 * n // STEPS + 2)
        self.filled(range(n), range(n))
        first = next(self.a.intersection("b", 7))
        self.assertEqual((first, len(self.sent)), (7, 1))
        self.assertEqual((list(self.a.intersection("b", 7, 10)), len(self.sent)), ([7, 8, 9], 2))
        self.assertEqual((list(self.a.intersection("b", 7, 7)), len(self.sent)), ([], 2))

    def test_the_operator(self):
        self.filled({1, 2, 3, MAX}, {0, 2, 3, 4, MAX})
        self.assertEqual((self.a & self.b, self.b & self.a, self.a & self.a), ({2, 3, MAX}, {2, 3, MAX}, {1, 2, 3, MAX}))
        self.assertEqual(self.sent, ["J1I a b 0 16", "J1I b a 0 16", "J1I a a 0 16"])
        bob = Client(self.served.path).auth("bob", "hello")
        self.addCleanup(bob.close)
        theirs = bob.judy1("b")  # another tenant's, of the same name
        theirs.update({1, 2})
        self.assertEqual((self.a & theirs, theirs & self.a, self.a & {3, "x"}, {3, 7} & self.a, self.a & [MAX]), ({1, 2}, {1, 2}, {3}, {3}, {MAX}))
        theirs.clear()
        self.a &= self.b
        self.assertEqual(self.a, {2, 3, MAX})

    def test_a_pipeline(self):
        self.filled({1, 2, 3}, {2, 3})
        with self.client.pipeline() as pipe:
            late = [pipe.judy1("a").intersect("b"), pipe.judy1("b").unset(2), pipe.judy1("a").intersect("b", 0, 1), pipe.judy1("a").set(2)]
        self.assertEqual([it.result() for it in late], [Shared([2, 3], None), True, Shared([3], 4), False])

    def test_the_words_of_judy(self):
        self.assertEqual([told("J1I a b 0 2", "I 4 2 2 3"), told("J1I a b 0 9", "I 0 1 5"), told("J1I a b 0 9", "I 0 0"), told("J1I a b 0 9", "I 77 0")],
                         [("2 found, go on at 4", "2 3", ""), ("1 found", "5", ""), ("0 found", "", ""), ("0 found, go on at 77", "", "")])  # fmt: skip
        for line in ("J1I a b 0 0", "J1I a b 0 65536", "J1I a b 0 -1"):
            self.assertIn("a number of entries is 1 to 65535", advice(line, "ERR SYNTAX"))
        self.assertIn("a name is 1 to 32 of", advice("J1I a b/ 0 9", "ERR SYNTAX"))
        self.assertIn("it is written J1I name other i n", advice("J1I a b 0", "ERR SYNTAX"))
        self.assertIn("J1I name other i n   Judy1Intersect the indexes that two sets share", help_of("J1I"))


class Refusals(WithServer):
    """Who may look."""

    def test_a_read_only_token_suffices(self):
        alice = self.alice().judy1("a")
        alice.update({1, 2})
        with Client(self.served.path).auth("alice", "look") as looks:
            a = looks.judy1("a")
            self.assertEqual((a.intersect("a", 0, 1), list(a.intersection("a")), a & looks.judy1("b")), (([1], 2), [1, 2], set()))
        alice.clear()


class Beside(Sets):
    """Another client writes between the lines of an intersection."""

    def between(self, change):
        """Another client makes a change before each line but the first."""
        other, exchange, lines = self.alice(), self.client._exchange, []

        def beside(asked, is_quiet=False):
            if lines:
                change(other.judy1("a"), other.judy1("b"))
            lines.append(asked)
            return exchange(asked, is_quiet)

        self.client._exchange = beside
        return exchange, lines

    def test_what_stays_comes_once(self):
        draw, high = random.Random(15), 24000
        for every, step in ((3, 2), (700, 5)):  # many shared indexes, and few
            stays = set(range(0, high, every))
            self.filled(stays | set(range(0, high, step)), stays | set(range(1, high, step)))

            def change(one, other):
                low = draw.randrange(high)
                some = [it for it in range(low, low + 900) if it % every]
                for array in draw.sample((one, other), draw.choice((1, 2))):
                    draw.choice((array.update, array.difference_update))(some)

            exchange, lines = self.between(change)
            for _ in range(8):
                seen = list(self.a.intersection("b"))
                self.assertEqual(seen, sorted(set(seen)))
                self.assertEqual([it for it in seen if it % every == 0 and it < high], sorted(stays))
            self.assertGreater(len(lines), 24, "it takes several lines")
            self.client._exchange = exchange

    def test_a_set_that_changes_in_its_intersection(self):
        self.filled(range(3000), range(3000))
        for index in self.a.intersection("b"):
            self.b.discard(index)
        self.assertEqual((len(self.a), len(self.b)), (3000, 0))
        self.b.update(range(0, 3000, 2))
        seen = []
        for index in self.a.intersection("b"):
            seen.append(index)
            if index < 1000:
                self.b.add(index + 2001)  # behind the indexes that were read, so it comes
        self.assertEqual(seen, sorted({*range(0, 3000, 2), *range(2001, 3000, 2)}))


class Tasks(WithServer):
    """With asyncio."""

    def test_of_tasks(self):
        async def job():
            async with aio.Client(self.served.path) as client:
                await client.auth("alice", "abc")
                a, b = client.judy1("a"), client.judy1("b")
                await a.update(range(0, 9000, 2))
                await b.update([*range(0, 9000, 3), MAX])
                wanted = list(range(0, 9000, 6))
                self.assertEqual([i async for i in a.intersection("b")], wanted)
                self.assertEqual([i async for i in a.intersection("b", 7, 600)], [it for it in wanted if 7 <= it < 600])
                self.assertEqual([i async for i in b.intersection("b", MAX)], [MAX])
                self.assertEqual(await asyncio.gather(a.intersect("b", 5, 2), a.intersect("none")), [Shared([6, 12], 13), Shared([], None)])
                async with client.pipeline() as pipe:
                    late = pipe.judy1("a").intersect("b", 0, 1)
                self.assertEqual((late.result(), await a.free_array(), await b.free_array()), (Shared([0], 1), 4500, 3001))
                for call in (a.intersect, a.intersection):
                    self.assertRaises(TypeError, call, a)

        asyncio.run(job())


class Odd(unittest.TestCase):
    """Replies that are none to an intersection."""

    def test_replies(self):
        for reply in ODD:
            for call in (lambda a: a.intersect("b"), lambda a: list(a.intersection("b"))):
                with scripted([reply]) as (path, got), Client(path, 10) as client:
                    with self.assertRaises(JudyError, msg=reply):
                        call(client.judy1("a"))
                    self.assertEqual(len(got), 1)

    def test_a_server_that_stands_still(self):
        for replies in ([b"I 5 0"], [b"I 4 0"], [b"I 7 1 6", b"I 7 0"]):
            with scripted(replies) as (path, got), Client(path, 10) as client:
                with self.assertRaisesRegex(JudyError, "no such answer", msg=replies):
                    list(client.judy1("a").intersection("b", 5))
                self.assertEqual(len(got), len(replies))

    def test_a_lost_line_is_asked_again(self):
        with scripted([b"I 7 1 6", None], [b"I 9 0", b"I 0 1 11"]) as (path, got), Client(path, 10, reconnect=True) as client:
            self.assertEqual(client.judy1("a").intersect("b", 5), Shared([6], 7))
            self.assertEqual(list(client.judy1("a").intersection("b", 8)), [11])
        self.assertEqual(got, ["J1I a b 5 65535", "J1I a b 8 16", "J1I a b 8 16", "J1I a b 9 65535"])


if __name__ == "__main__":
    unittest.main()
