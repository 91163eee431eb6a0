"""Tests of what an asyncio client does for many calls: methods, pipelines, pools, and tasks of one's own."""

import asyncio
import collections.abc
import copy
import inspect
import os
import pickle
import sys
import typing
import unittest

sys.path.insert(0, os.path.dirname(os.path.abspath(__file__)))

import judyd  # noqa: E402
from judyd import Closed, ConnectionLost, Full, JudyError, NotAuthorized, PoolEmpty, aio, aioarrays  # noqa: E402
from served import WithServer, odd_server  # noqa: E402


class WithTasks(WithServer):
    """Tests with an asyncio client of alice."""

    def run_with(self, job):
        """Runs a coroutine with a client of alice. It leaves her arrays empty."""

        async def whole():
            async with aio.Client(self.served.path, 60) as client:
                await client.auth("alice", "abc")
                await asyncio.wait_for(job(client), 120)
                self.assertEqual((await client.used()).used, 0)

        asyncio.run(whole())


class Many(WithTasks):
    """Methods for many keys."""

    def test_sets(self):
        async def job(client):
            ids = client.judy1("ids")
            await ids.update(range(0, 3000, 3))
            self.assertEqual([i async for i in ids.among([9, -1, 10, "5", 12, 2997])], [9, 12, 2997])
            await ids.difference_update([-1, *range(0, 3000, 6)])
            self.assertEqual([i async for i in ids.walk(0, 28)], [3, 9, 15, 21, 27])
            self.assertEqual([i async for i in ids.walk_back(28, 9)], [27, 21, 15])
            for indexes, error in (([1, -1], ValueError), (["5"], TypeError)):
                with self.assertRaises(error):
                    await ids.update(indexes)
            self.assertEqual(await ids.free_array(), 500)

        self.run_with(job)

    def test_maps(self):
        async def job(client):
            m, s, h = client.judyl("m"), client.judysl("s", "utf-8"), client.judyhs("h")
            for array, keys, strange in ((m, range(2500), -1), (s, ["k%04d" % i for i in range(2500)], "k" * 1001), (h, [b"%d" % i for i in range(2500)], b"k" * 1001)):
                await array.update((key, at) for at, key in enumerate(keys))
                await array.update({keys[7]: 70})
                self.assertEqual([await array.get(keys[7]), await array.get(strange), await array.get(strange, 5), await array.get(keys[8], 5)], [70, None, 5, 8])
                with self.assertRaises(TypeError):
                    await array.get(None)
                found = [item async for item in array.get_many([keys[7], strange, keys[8]])]
                self.assertEqual(found, [(keys[7], 70), (strange, None), (keys[8], 8)])
                self.assertEqual((await array.delete_many(keys[1000:]), await array.delete_many(keys[:2])), (1500, 2))
                with self.assertRaises(TypeError):
                    await array.update({keys[1]: None})
            self.assertEqual([item async for item in m.walk(6, 9)], [(6, 6), (7, 70), (8, 8)])
            self.assertEqual([item async for item in s.walk("k0006", "k0009")], [("k0006", 6), ("k0007", 70), ("k0008", 8)])
            self.assertEqual({key: value async for key, value in h.walk()}, {b"%d" % at: 70 if at == 7 else at for at in range(2, 1000)})
            self.assertEqual([await array.free_array() for array in (m, s, h)], [998] * 3)

        self.run_with(job)

    def test_full(self):
        async def job():
            async with aio.Client(self.served.path, 60) as client:
                await client.auth("bob", "hello")
                ids = client.judy1("ids")
                with self.assertRaises(Full):
                    await ids.update(range(9))
                self.assertEqual(await ids.free_array(), 3)

        asyncio.run(job())


class Pipelines(WithTasks):
    """Calls that are sent together."""

    def test_answers_come_in_order(self):
        async def job(client):
            async with client.pipeline(window=300) as pipe:
                ids, m = pipe.judy1("ids"), pipe.judyl("m")
                late = [ids.set(i % 500) for i in range(1000)] + [ids.count()]
                ids.add(1000)
                m[5] = 7
                value, used = m.add(5, 2), pipe.used()
                with self.assertRaises(JudyError):
                    value.result()
                await pipe.flush()
                self.assertEqual((value.result(), used.result().used), (9, 502))
                freed = [ids.free_array(), m.free_array()]
            self.assertEqual([it.result() for it in late], [True] * 500 + [False] * 500 + [500])
            self.assertEqual([it.result() for it in freed], [501, 1])

        self.run_with(job)

    def test_refusals_and_exceptions(self):
        async def job(client):
            async with aio.Client(self.served.path, 60) as bob:
                await bob.auth("bob", "hello")
                with self.assertRaises(Full):
                    async with bob.pipeline() as pipe:
                        late = [pipe.judy1("ids").set(i) for i in range(4)] + [pipe.judy1("ids").free_array()]
                self.assertEqual([late[0].result(), late[4].result()], [True, 3])
                self.assertRaises(Full, late[3].result)
                async with bob.pipeline(raises=False) as pipe:
                    late = [pipe.judy1("ids").set(i) for i in range(4)] + [pipe.judy1("ids").free_array()]
                self.assertRaises(Full, late[3].result)
            with self.assertRaises(ZeroDivisionError):
                async with client.pipeline() as pipe:
                    pipe.judy1("ids").add(1)
                    1 / 0

        self.run_with(job)

    def test_a_loss(self):
        async def job(path):
            client = aio.Client(path, 10)
            with self.assertRaises(ConnectionLost):
                async with client.pipeline() as pipe:
                    late = [pipe.judy1("a").set(i) for i in range(5)]
            self.assertEqual([late[0].result(), late[1].result()], [True, False])
            for lost in late[2:]:
                self.assertRaises(ConnectionLost, lost.result)

        with odd_server(b"1\n0\n") as path:
            asyncio.run(job(path))

    def test_a_flush_that_is_cancelled(self):
        async def job(path):
            client = aio.Client(path, 30)
            pipe = client.pipeline()
            late = pipe.judy1("a").set(1)
            task = asyncio.ensure_future(pipe.flush())
            while client._link is None or not client._link._waiting:
                await asyncio.sleep(0.001)
            task.cancel()
            with self.assertRaises(asyncio.CancelledError):
                await task
            with self.assertRaisesRegex(ConnectionLost, "the flush of the pipeline was cancelled.*may have run"):
                late.result()
            await client.close()

        with odd_server(None) as path:
            asyncio.run(job(path))


class Pools(WithTasks):
    """Pools of clients."""

    def pool(self, size, **options):
        return aio.Pool(self.served.path, size, "alice", "abc", **options)

    def test_more_tasks_than_clients(self):
        async def job(client):
            held, most = set(), []

            async def task(pool):
                for _ in range(5):
                    async with pool.client() as mine:
                        self.assertNotIn(mine, held)
                        held.add(mine)
                        most.append(len(held))
                        await mine.judy1("ids").take(1)
                        held.remove(mine)

            async with self.pool(3) as pool:
                await asyncio.gather(*(task(pool) for _ in range(10)))
                self.assertEqual((max(most), len(set(map(id, pool._idle)))), (3, 3))
            self.assertEqual([i async for i in client.judy1("ids").walk()], list(range(1, 51)))
            with self.assertRaisesRegex(Closed, "this pool was closed"):
                await pool.client().__aenter__()
            await client.judy1("ids").free_array()

        self.run_with(job)

    def test_a_pool_that_is_empty(self):
        async def job(_):
            async with self.pool(1, wait=0.05) as pool:
                async with pool.client():
                    with self.assertRaisesRegex(PoolEmpty, "all 1 clients of the pool were in use for 0.05 s"):
                        await pool.client().__aenter__()
                async with pool.client() as client:
                    self.assertEqual((await client.used()).used, 0)
            self.assertRaises(ValueError, self.pool, 0)
            async with aio.Pool(self.served.path, 1, "alice", "abd", wait=0.05) as pool:
                for _ in range(3):  # a client that can't be made takes no place
                    with self.assertRaises(NotAuthorized):
                        await pool.client().__aenter__()

        self.run_with(job)

    def test_turns_that_are_cancelled(self):
        async def use(pool, log, number):
            async with pool.client():
                log.append(number)

        async def job(_):
            async with self.pool(1, wait=60) as pool:
                log = []
                async with pool.client():
                    tasks = [asyncio.ensure_future(use(pool, log, number)) for number in range(6)]
                    while len(pool._turns) < 6:
                        await asyncio.sleep(0)
                    tasks[0].cancel()
                    tasks[3].cancel()
                tasks[1].cancel()  # its turn has just come
                found = await asyncio.gather(*tasks, return_exceptions=True)
                self.assertEqual(([it for it in found if it is not None and not isinstance(it, asyncio.CancelledError)], log[-3:]), ([], [2, 4, 5]))
                self.assertEqual(repr(pool), "<aio.Pool %s, alice, 0 of 1 in use>" % self.served.path)

        self.run_with(job)

    def test_a_client_that_is_no_more_fit(self):
        async def job(_):
            async with self.pool(1) as pool:
                async with pool.client() as first:
                    await first.auth("bob", "hello")
                async with pool.client() as second:
                    self.assertEqual((await second.used()).quota, 1000000)
                    second._link.lose(EOFError())
                async with pool.client() as third:
                    self.assertEqual((await third.used()).quota, 1000000)
                async with pool.client() as fourth:
                    self.assertIs(third, fourth)
                self.assertEqual(len({first, second, third}), 3)

        self.run_with(job)


class Forms(WithTasks):
    """Coroutines, defaults, and what is shown."""

    def test_a_call_is_a_coroutine(self):
        async def job(client):
            ids, m, s, h = client.judy1("ids"), client.judyl("m"), client.judysl("s"), client.judyhs("h")
            calls = [ids.set(1), ids.test(1), ids.take(5), ids.update([7]), m.insert(1, 2), m.get(1), m.first(), m.update({3: 4}), s.insert(b"k"), s.last(), h.add(b"k"), client.used()]
            self.assertEqual([call for call in calls if not asyncio.iscoroutine(call)], [])
            found = await asyncio.gather(*(asyncio.create_task(call) for call in calls))
            self.assertEqual((found[:3], found[4:7], found[8:11]), ([True, True, 5], [0, 2, (1, 2)], [0, (b"k", 0), 1]))
            self.assertEqual([await asyncio.create_task(array.free_array()) for array in (ids, m, s, h)], [3, 2, 1, 1])

        self.run_with(job)
        for soon in (aioarrays.SoonYes, aioarrays.SoonNumber, aioarrays.SoonFound):
            self.assertIs(typing.get_origin(soon), collections.abc.Coroutine)

    def test_the_defaults_are_those_of_the_other_client(self):
        def defaults(call):
            return {it.name: it.default for it in inspect.signature(call).parameters.values() if it.default is not it.empty}

        pairs = [(judyd.Client, aio.Client), (judyd.Pool, aio.Pool), (judyd.Pipeline, aio.Pipeline), (judyd.Client.pipeline, aio.Client.pipeline), (judyd.Client.names, aio.Client.names)]
        for name in ("Judy1", "JudyL", "JudySL", "JudyHS"):
            for word, method in inspect.getmembers(getattr(aio, name), inspect.isfunction):
                if not word.startswith("_"):
                    pairs.append((getattr(getattr(judyd, name), word), method))
        self.assertGreater(len(pairs), 60)
        for other, mine in pairs:
            shared = {word: value for word, value in defaults(other).items() if word != "entries"}
            self.assertEqual((mine, defaults(mine)), (mine, shared))

    def test_what_is_shown(self):
        async def job(client):
            self.assertEqual(repr(client), "<aio.Client %s, alice, open>" % self.served.path)
            pipe = client.pipeline()
            self.assertEqual(repr(pipe.judy1("a")), "<LateJudy1 a of <Pipeline of %r: 0 calls wait>>" % client)
            self.assertEqual(repr(client.judyl("a")), "<JudyL a of %r>" % client)
            for thing in (client, pipe, client.judyl("a"), aio.Pool(self.served.path, 1, "alice", "abc")):
                for call in (pickle.dumps, copy.copy):
                    self.assertRaisesRegex(TypeError, "can't be pickled or copied", call, thing)
            with self.assertRaisesRegex(TypeError, "lines are a list, and each line is bytes"):
                await client.lines("USED")

        self.run_with(job)
        self.assertEqual(repr(aio.Client("somewhere")), "<aio.Client somewhere, nobody logged in, not connected>")
        self.assertRaisesRegex(TypeError, "an address is the path of a socket", aio.Client, 7000)


if __name__ == "__main__":
    unittest.main()
