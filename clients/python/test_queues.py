"""Tests of the calls that remove the first entry of a range, that insert the least absent word, and that remove a range."""

import asyncio
import os
import sys
import unittest
from concurrent.futures import ThreadPoolExecutor

sys.path.insert(0, os.path.dirname(os.path.abspath(__file__)))

from judyd import IDEMPOTENT, MAX, QUERIES, Client, ConnectionLost, Full, ReadOnly, aio  # noqa: E402
from judyd.wording import advice, told  # noqa: E402
from served import WithClient, WithServer  # noqa: E402
from test_leases import lose_reply  # noqa: E402
from test_restarts import scripted  # noqa: E402

CALLS = (
    lambda client: client.judy1("ids").pop_first(),
    lambda client: client.judy1("ids").add_absent(),
    lambda client: client.judy1("ids").remove_range(0, 5),
    lambda client: client.judyl("m").pop_first(),
    lambda client: client.judyl("m").insert_absent(0, 1),
    lambda client: client.judyl("m").remove_range(0, 5),
    lambda client: client.judysl("s").pop_first(),
)
OF_CLIENTS = (  # made of them, and not in a pipeline
    lambda client: client.judy1("ids").pop(),
    lambda client: client.judy1("ids").take(),
    lambda client: client.judyl("m").popitem(),
    lambda client: client.judysl("s").popitem(),
)


class Results(WithClient):
    """What each call returns."""

    def test_of_a_set(self):
        ids = self.client.judy1("ids")
        self.assertEqual([ids.add_absent(), ids.add_absent(), ids.add_absent(5), ids.add_absent(start=MAX)], [0, 1, 5, MAX])
        self.assertEqual([ids.add_absent(MAX), ids.add_absent(MAX - 1), ids.add_absent(MAX - 1), ids.add_absent(1)], [None, MAX - 1, None, 2])
        self.assertEqual([ids.pop_first(3, 4), ids.pop_first(6, 5), ids.pop_first(high=0), ids.pop_first(), ids.pop_first(5, 5)], [None, None, 0, 1, 5])
        self.assertEqual([ids.pop_first(low=3), ids.pop_first(MAX, MAX), ids.pop(), ids.pop_first()], [MAX - 1, MAX, 2, None])
        self.assertRaisesRegex(KeyError, "the set is empty", ids.pop)
        self.assertEqual([ids.take(), ids.take(0), ids.take(MAX), ids.take(MAX), ids.free_array()], [0, 1, MAX, None, 3])

    def test_of_a_word_map(self):
        m = self.client.judyl("m")
        self.assertEqual([m.insert_absent(7, 70), m.insert_absent(7, 80), m.insert_absent(start=MAX, value=MAX), m.insert_absent(MAX, 1)], [7, 8, MAX, None])
        self.assertEqual([m.pop_first(0, 6), m.pop_first(9, 8), m.pop_first(8, 8), m.pop_first(), m.pop_first(high=MAX - 1)], [None, None, (8, 80), (7, 70), None])
        self.assertEqual([m.pop_first(low=MAX), m.pop_first()], [(MAX, MAX), None])
        m.update({5: 0, 6: 1})
        self.assertEqual([m.popitem(), m.popitem()], [(5, 0), (6, 1)])
        self.assertRaisesRegex(KeyError, "the map is empty", m.popitem)

    def test_of_a_string_map(self):
        s, texts = self.client.judysl("s"), self.client.judysl("s", "utf-8")
        s.update({b"": 1, b"tr": 2, b"tree": 3, b"\xff" * 1000: 4})
        self.assertEqual([s.pop_first(b"ts"), s.pop_first(b"tra"), s.pop_first(), s.pop_first(key=b"u")], [(b"\xff" * 1000, 4), (b"tree", 3), (b"", 1), None])
        self.assertEqual([texts.pop_first(), texts.pop_first()], [("tr", 2), None])
        texts.update({"\xe4": 5, "z": 6})
        self.assertEqual([texts.popitem(), texts.popitem()], [("z", 6), ("\xe4", 5)])
        self.assertRaisesRegex(KeyError, "the map is empty", texts.popitem)

    def test_of_a_range(self):
        for array in (self.client.judy1("ids"), self.client.judyl("m")):
            array.update(range(100) if array.name == "ids" else dict.fromkeys(range(100), 7))
            self.assertEqual([array.remove_range(100, MAX), array.remove_range(5, 4), array.remove_range(5, 5), array.remove_range(4, 6)], [0, 0, 1, 2])
            self.assertEqual([array.remove_range(0, 50, 10), array.first(), array.remove_range(low=90, high=MAX, most=65535)], [10, array.next(11), 10])
            self.assertEqual([array.remove_range(0, MAX), array.remove_range(0, MAX)], [77, 0])
            for most, error in ((0, ValueError), (65536, ValueError), (-1, ValueError), (None, TypeError), ("1", TypeError)):
                self.assertRaisesRegex(error, "how many there are at most is an int from 1 to 65535", array.remove_range, 0, 1, most)

    def test_what_is_no_word(self):
        ids, m, s = self.client.judy1("ids"), self.client.judyl("m"), self.client.judysl("s")
        for call in (ids.add_absent, ids.pop_first, lambda it: ids.pop_first(0, it), m.pop_first, lambda it: m.insert_absent(it, 1), lambda it: m.remove_range(it, 5)):
            self.assertRaises(TypeError, call, None)
            for word in (-1, MAX + 1):
                self.assertRaises(ValueError, call, word)
        self.assertRaises(TypeError, m.insert_absent, 0, None)
        self.assertRaises(ValueError, m.insert_absent, 0, -1)
        self.assertRaises(TypeError, s.pop_first, "tree")
        self.assertRaises(ValueError, s.pop_first, b"\0")

    def test_each_is_one_line(self):
        sent, exchange = [], self.client._exchange

        def kept(lines, is_quiet=False):
            sent.extend(lines.each())
            return exchange(lines, is_quiet)

        self.client._exchange = kept
        ids, m, s = self.client.judy1("ids"), self.client.judyl("m"), self.client.judysl("s")
        found = [ids.take(3), ids.add_absent(4), ids.pop(), ids.pop_first(2, 9), m.insert_absent(5, 6), m.popitem(), s.pop_first(b"k")]
        self.assertEqual(found, [3, 4, 3, 4, 5, (5, 6), None])
        lines = ["J1SE ids 3", "J1SE ids 4", "J1UF ids 0 %d" % MAX, "J1UF ids 2 9", "JLIE m 5 6", "JLDF m 0 %d" % MAX, "JSLDF s x6b"]
        self.assertEqual([line.decode() for line in sent], lines)

    def test_a_pipeline(self):
        with self.client.pipeline() as pipe:
            ids, m, s = pipe.judy1("ids"), pipe.judyl("m"), pipe.judysl("s", "utf-8")
            late = [ids.add_absent(3), ids.add_absent(3), ids.pop_first(), ids.pop_first(5), ids.remove_range(0, 9)]
            late += [m.insert_absent(3, 4), m.pop_first(4), m.pop_first(), m.remove_range(0, 9, 1), s.pop_first()]
        self.assertEqual([it.result() for it in late], [3, 4, 3, None, 1, 3, None, (3, 4), 0, None])

    def test_the_words_of_judy(self):
        self.assertEqual([told("J1UF a 0 9", "1 5"), told("J1UF a 0 9", "0")], [("removed", "5", ""), ("none", "", "")])
        self.assertEqual([told("JLDF a 0 9", "V 7 5"), told("JLDF a 0 9", "NULL")], [("removed", "5", "7"), ("none", "", "")])
        self.assertEqual(told("JSLDF a x", "V 7 x74726565"), ("removed", '"tree"', "7"))
        self.assertEqual([told("J1SE a 0", "1 5"), told("JLIE a 0 9", "1 5"), told("J1SE a 0", "0")], [("new", "5", "")] * 2 + [("none", "", "")])
        self.assertEqual([told("J1UR a 0 9 5", "N 3"), told("J1C a 0 9", "N 3")], [("3 removed", "", ""), ("3 counted", "", "")])
        for line in ("J1F a 0 0", "JLPE a 0 65536", "JSLN a x -1", "J1UR a 0 9 0"):
            self.assertIn("a number of entries is 1 to 65535", advice(line, "ERR SYNTAX"))
        for line in ("JLA a 0 0", "J1BC a 0", "J1F a 0 65535"):
            self.assertEqual(advice(line, "ERR SYNTAX"), "")


class Refusals(WithServer):
    """Calls that are refused."""

    def test_for_the_right(self):
        with Client(self.served.path).auth("alice", "look") as looks:
            for call in (*CALLS, *OF_CLIENTS):
                self.assertRaises(ReadOnly, call, looks)

    def test_for_the_quota(self):
        with Client(self.served.path).auth("bob", "hello") as bob:
            ids, m = bob.judy1("ids"), bob.judyl("m")
            self.assertEqual([ids.add_absent(MAX), m.insert_absent(MAX, 7), m.insert_absent(0, 8)], [MAX, MAX, 0])
            for call in (ids.add_absent, ids.take, lambda: m.insert_absent(0, 9)):
                self.assertRaises(Full, call)
            self.assertEqual([ids.add_absent(MAX), m.insert_absent(MAX, 9), bob.used().used], [None, None, 3])  # nothing new is asked for
            self.assertEqual([ids.pop_first(), m.pop_first(), m.popitem(), bob.used().used], [MAX, (0, 8), (MAX, 7), 0])


class Together(WithServer):
    """Clients that take from one array at once."""

    def test_each_gets_its_own(self):
        clients = [self.alice(), self.alice()]
        for kind, absent, pop in (("judy1", lambda a, _: a.add_absent(10), lambda a: a.pop()), ("judyl", lambda a, at: a.insert_absent(10, at), lambda a: a.popitem()[0])):
            arrays = [getattr(client, kind)("shared") for client in clients]
            with ThreadPoolExecutor(8) as threads:
                claimed = list(threads.map(lambda at: absent(arrays[at % 2], at), range(1000)))
                self.assertEqual(sorted(claimed), list(range(10, 1010)))
                popped = list(threads.map(lambda at: pop(arrays[at % 2]), range(1000)))
                self.assertEqual((sorted(popped), arrays[0].count()), (list(range(10, 1010)), 0))

    def test_tasks(self):
        async def job():
            async with aio.Client(self.served.path) as client:
                await client.auth("alice", "abc")
                ids, m, s = client.judy1("ids"), client.judyl("m"), client.judysl("s")
                claimed = await asyncio.gather(*(ids.add_absent(5) for _ in range(100)), *(m.insert_absent(5, at) for at in range(100)), ids.take(5))
                self.assertEqual([sorted(claimed[:100]), sorted(claimed[100:200]), claimed[200]], [list(range(5, 105))] * 2 + [105])
                popped = await asyncio.gather(*(ids.pop_first() for _ in range(50)), *(m.pop_first(10, 59) for _ in range(60)))
                self.assertEqual(sorted(popped[:50]), list(range(5, 55)))
                self.assertEqual(sorted(item[0] for item in popped[50:100]), list(range(10, 60)))
                self.assertEqual([popped[100:], await s.pop_first(), await s.pop_first(b"k")], [[None] * 10, None, None])
                self.assertEqual([await ids.remove_range(0, 60), await ids.free_array(), await m.remove_range(0, MAX)], [6, 45, 50])

        asyncio.run(job())


class Losses(WithServer):
    """A call whose reply is lost."""

    def test_none_is_repeated(self):
        for retry in (QUERIES, IDEMPOTENT):
            for call in (*CALLS, *OF_CLIENTS):
                with scripted([None], [b"0"]) as (path, got), Client(path, 10, reconnect=True, retry=retry) as client:
                    with self.assertRaises(ConnectionLost) as caught:
                        call(client)
                    self.assertEqual((caught.exception.may_have_run, len(got)), (True, 1))
            for call in CALLS:
                with scripted([None], [b"0"]) as (path, got), Client(path, 10, reconnect=True, retry=retry) as client:
                    with self.assertRaises(ConnectionLost), client.pipeline(is_quiet=True) as pipe:
                        late = call(pipe)
                    self.assertRaises(ConnectionLost, late.result)
                    self.assertEqual(len(got), 1)

    def test_none_is_repeated_by_tasks(self):
        async def job(call, path, retry):
            async with aio.Client(path, 10, reconnect=True, retry=retry) as client:
                with self.assertRaises(ConnectionLost) as caught:
                    await call(client)
                self.assertTrue(caught.exception.may_have_run)

        for retry in (QUERIES, IDEMPOTENT):
            for call in CALLS:
                with scripted([None], [b"0"]) as (path, got):
                    asyncio.run(job(call, path, retry))
                self.assertEqual(len(got), 1)

    def test_what_was_lost_has_run_once(self):
        other, client = self.alice(), self.alice(reconnect=True, retry=IDEMPOTENT)
        other.judy1("ids").update(range(5))
        other.judyl("m").update({1: 1, 2: 2})
        for call, array, count in (
            (client.judy1("ids").pop, other.judy1("ids"), 4),
            (client.judy1("ids").take, other.judy1("ids"), 5),
            (client.judyl("m").popitem, other.judyl("m"), 1),
            (lambda: client.judyl("m").insert_absent(0, 1), other.judyl("m"), 2),
        ):
            client.used()  # connects
            lose_reply(client, lambda: None)
            self.assertRaises(ConnectionLost, call)
            self.assertEqual((client.used().used > 0, array.count()), (True, count))
        self.assertEqual((other.judy1("ids").free_array(), other.judyl("m").free_array()), (5, 2))


class Listed(WithServer):
    """The arrays that have entries."""

    def test_arrays_come_and_go(self):
        client = self.alice()
        ids, m = client.judy1("ids"), client.judyl("m")
        self.assertEqual([ids.add_absent(5), m.insert_absent(5, 6), client.arrays()], [5, 5, [("J1", "ids"), ("JL", "m")]])
        self.assertEqual([ids.pop(), m.popitem(), ids.free_array(), m.free_array(), client.arrays()], [5, (5, 6), 0, 0, []])
        self.assertEqual(client.used().used, 0)


if __name__ == "__main__":
    unittest.main()
