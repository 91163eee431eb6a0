"""Tests of the calls that decide by the value that is there: keep, exchange, delete_if and take."""

import asyncio
import os
import sys
import unittest
from concurrent.futures import ThreadPoolExecutor

sys.path.insert(0, os.path.dirname(os.path.abspath(__file__)))

from judyd import IDEMPOTENT, MAX, Client, ConnectionLost, Full, ReadOnly, aio  # noqa: E402
from judyd.wording import told  # noqa: E402
from served import WithServer, odd_server  # noqa: E402
from test_leases import lose_reply  # noqa: E402

CALLS = (
    lambda client: client.judyl("m").keep(1, 2),
    lambda client: client.judyl("m").setdefault(1, 2),
    lambda client: client.judysl("s").exchange(b"k", 1, 2),
    lambda client: client.judyhs("h").delete_if(b"k", 1),
    lambda client: client.judyhs("h").take(b"k"),
    lambda client: client.judyl("m").pop(1, None),
)


class Decisions(WithServer):
    """The four calls of each kind of map."""

    def setUp(self):
        self.client = self.alice()

    def arrays(self, client=None):
        """Each kind of map, and a key of it."""
        client = client or self.client
        return ((client.judyl("m"), 5), (client.judysl("s", "utf-8"), "\xe4"), (client.judyhs("h"), b"\0"))

    def test_results(self):
        for array, key in self.arrays():
            self.assertEqual([array.exchange(key, 0, 1), array.delete_if(key, 0), array.take(key)], [None, False, None])
            self.assertEqual([array.keep(key, 7), array.keep(key, 8), array.keep(key, value=0)], [None, 7, 7])
            self.assertEqual([array.exchange(key, 8, 9), array.exchange(key, 7, MAX), array.exchange(key, old=7, new=1)], [7, 7, MAX])
            self.assertEqual([array.delete_if(key, 7), array[key], array.delete_if(key, value=MAX), array.get(key)], [False, MAX, True, None])
            self.assertEqual([array.keep(key, 0), array.exchange(key, 0, 3), array.take(key), array.take(key)], [None, 0, 3, None])
        self.assertEqual(self.client.used().used, 0)

    def test_what_is_no_word(self):
        for array, key in self.arrays():
            array.insert(key, 7)
            for call in (lambda v, a=array, k=key: a.keep(k, v), lambda v, a=array, k=key: a.exchange(k, v, 1), lambda v, a=array, k=key: a.exchange(k, 7, v)):
                self.assertRaises(TypeError, call, None)
                self.assertRaises(ValueError, call, MAX + 1)
            self.assertRaises(TypeError, array.delete_if, key, None)
            self.assertRaises(ValueError, array.delete_if, key, -1)
            self.assertEqual((array[key], array.free_array()), (7, 1))

    def test_refusals(self):
        with Client(self.served.path).auth("alice", "look") as looks:
            for call in CALLS:
                self.assertRaises(ReadOnly, call, looks)
        with Client(self.served.path).auth("empty", "abc") as empty:
            for array, key in self.arrays(empty):
                self.assertRaises(Full, array.keep, key, 1)
                self.assertRaises(Full, array.setdefault, key, 1)
                self.assertEqual([array.exchange(key, 0, 1), array.delete_if(key, 0), array.take(key), array.pop(key, 4)], [None, False, None, 4])

    def test_one_of_many_is_first(self):
        maps = [self.client.judyl("m"), self.alice().judyl("m")]
        self.addCleanup(maps[1]._asker.close)
        with ThreadPoolExecutor(8) as threads:
            for call, first in (
                (lambda at: maps[at % 2].keep(9, at), lambda at, found: found is None),
                (lambda at: maps[at % 2].exchange(8, 1000, at), lambda at, found: found == 1000),
                (lambda at: maps[at % 2].take(7), lambda at, found: found is not None),
            ):
                maps[0].update({8: 1000, 7: 1})
                found = list(threads.map(call, range(500)))
                self.assertEqual(sum(first(at, it) for at, it in enumerate(found)), 1)
        maps[0].clear()

    def test_a_pipeline(self):
        with self.client.pipeline() as pipe:
            for array, key in self.arrays(pipe):
                late = [array.keep(key, 2), array.keep(key, 3), array.exchange(key, 2, 5), array.delete_if(key, 2), array.take(key)]
                self.assertEqual(pipe.flush(), None)
                self.assertEqual([it.result() for it in late], [None, 2, 2, False, 5])

    def test_tasks(self):
        async def job():
            async with aio.Client(self.served.path) as client:
                await client.auth("alice", "abc")
                h = client.judyhs("h")
                kept = await asyncio.gather(*(h.keep(b"k", it) for it in range(100)))
                stays = await h.get(b"k")
                return kept.count(None), stays in kept, await h.exchange(b"k", stays, 200), await h.delete_if(b"k", 1), await h.take(b"k"), stays

        *found, stays = asyncio.run(job())
        self.assertEqual(found, [1, True, stays, False, 200])

    def test_the_words_of_judy(self):
        self.assertEqual(told("JLK m 5 6", "NULL"), ("new", "", ""))
        self.assertEqual(told("JLK m 5 6", "V 7"), ("kept", "", "7"))
        self.assertEqual(told("JSLX s x61 6 7", "V 6"), ("before", "", "6"))
        self.assertEqual(told("JSLX s x61 6 7", "NULL"), ("none", "", ""))
        self.assertEqual([told("JHSD h x61 6", reply)[0] for reply in "01"], ["not removed", "removed"])
        self.assertEqual([told("JHSD h x61", reply)[0] for reply in "01"], ["was absent", "removed"])
        self.assertEqual(told("JHST h x61", "V 6"), ("taken", "", "6"))


class Losses(WithServer):
    """Such a call whose reply is lost."""

    def test_none_is_repeated(self):
        for call in CALLS:
            for more in ({}, {"retry": IDEMPOTENT}):
                with odd_server() as path, Client(path, 10, reconnect=True, **more) as client:
                    with self.assertRaises(ConnectionLost) as caught:
                        call(client)
                    self.assertTrue(caught.exception.may_have_run)

    def test_a_lease_is_asked_for_again_by_the_program(self):
        other = self.alice().judyl("m")
        self.addCleanup(other._asker.close)
        client = self.alice(reconnect=True)
        leases = client.judyl("m")
        for call, again, wanted in (
            (lambda: leases.keep(7, 42), lambda: leases.keep(7, 42), 42),
            (lambda: leases.exchange(7, 42, 43), lambda: leases.exchange(7, 42, 43), 43),
            (lambda: leases.delete_if(7, 43), lambda: leases.delete_if(7, 43), False),
        ):
            client.used()  # connects
            lose_reply(client, lambda: None)
            self.assertRaises(ConnectionLost, call)
            self.assertEqual(again(), wanted)  # each says that it was made, and none makes it twice
        client.used()
        leases.insert(7, 42)
        lose_reply(client, lambda: other.keep(7, 50))
        self.assertRaises(ConnectionLost, leases.delete_if, 7, 42)
        self.assertEqual((leases.delete_if(7, 42), other.take(7)), (False, 50))  # the lease of another client stays


if __name__ == "__main__":
    unittest.main()
