"""Tests of the client for asyncio."""

import asyncio
import os
import random
import sys
import unittest

sys.path.insert(0, os.path.dirname(os.path.abspath(__file__)))

from judyd import Closed, ConnectionLost, JudyError, NoServer, NotAuthorized, ReadOnly, TimedOut, aio  # noqa: E402
from served import WithServer, odd_server  # noqa: E402


class Tasks(WithServer):
    """Tasks that share a connection."""

    def run_with(self, job, **options):
        """Runs a coroutine with a client of alice."""

        async def whole():
            async with aio.Client(self.served.path, 60, **options) as client:
                await client.auth("alice", "abc")
                return await asyncio.wait_for(job(client), 60)

        return asyncio.run(whole())

    def test_the_calls(self):
        async def job(client):
            ids, m, s, h = client.judy1("ids"), client.judyl("m"), client.judysl("s", "utf-8"), client.judyhs("h")
            self.assertEqual([await ids.set(5), await ids.set(5), await ids.test(5), await ids.count(), await ids.first_empty(5)], [True, False, True, 1, 6])
            self.assertEqual([await ids.take(), await ids.take(5), await ids.by_count(2), await ids.next(6), await ids.unset(0)], [0, 6, 5, None, True])
            self.assertEqual([await m.insert(7, 8), await m.get(7), await m.get(8), await m.first(), await m.delete(7)], [0, 8, None, (7, 8), True])
            self.assertEqual([await s.insert("Bäume", 3), await s.get("Bäume"), await s.last(), await s.next("C")], [0, 3, ("Bäume", 3), None])
            self.assertEqual([await h.insert(b"\0", 4), await h.get(b"\0"), await h.delete(b"\0")], [0, 4, True])
            self.assertEqual((await client.used()).used, 3)
            self.assertEqual((await client.ping(), await client.hello()), (None, (1, 4096, 4096, 32, 128, 1000)))
            self.assertEqual(await client.lines([b"J1X a", b"J1C ids 0 -1"]), [b"ERR SYNTAX", b"N 2"])
            self.assertEqual([await it.free_array() for it in (ids, m, s, h)], [2, 0, 1, 0])

        self.run_with(job)

    def test_walks(self):
        async def job(client):
            ids, m, s = client.judy1("ids"), client.judyl("m"), client.judysl("s")
            wanted = [i * i for i in range(1000)]
            await asyncio.gather(*(ids.set(i) for i in wanted), *(m.insert(i, i + 1) for i in wanted), *(s.insert(b"%d" % i, i) for i in range(500)))
            self.assertEqual([i async for i in ids.walk(16)], wanted[4:])
            self.assertEqual([i async for i in ids.walk_back()], wanted[::-1])
            self.assertEqual([item async for item in m.walk()], [(i, i + 1) for i in wanted])
            self.assertEqual([item async for item in m.walk_back(16)], [(16, 17), (9, 10), (4, 5), (1, 2), (0, 1)])
            self.assertEqual([key async for key, _ in s.walk()], sorted(b"%d" % i for i in range(500)))
            self.assertEqual([key async for key, _ in s.with_prefix(b"49")], [b"49", *(b"49%d" % i for i in range(10))])
            self.assertEqual([key async for key, _ in s.walk_back(b"1")], [b"1", b"0"])
            self.assertEqual([await it.free_array() for it in (ids, m, s)], [1000, 1000, 500])

        self.run_with(job)

    def test_each_task_gets_its_own_reply(self):
        async def task(client, number):
            m, draw = client.judyl("m"), random.Random(number)
            for turn in range(50):
                self.assertEqual(await m.insert(number, turn + 1), turn)
                self.assertEqual(await m.get(number), turn + 1)
                if draw.random() < 0.2:
                    await asyncio.sleep(0)
            return number

        async def job(client):
            self.assertEqual(await asyncio.gather(*(task(client, number) for number in range(200))), list(range(200)))
            self.assertEqual([item async for item in client.judyl("m").walk()], [(number, 50) for number in range(200)])
            self.assertEqual(await client.judyl("m").free_array(), 200)

        self.run_with(job)

    def test_a_cancelled_task_shifts_no_reply(self):
        async def job(client):
            m = client.judyl("m")
            await asyncio.gather(*(m.insert(i, i) for i in range(300)))
            for seed in range(20):
                tasks = [asyncio.ensure_future(m.get(i)) for i in range(300)]
                draw = random.Random(seed)
                for _ in range(seed % 3):  # before the lines are sent, when they are sent, and later
                    await asyncio.sleep(0)
                cancelled = set(draw.sample(range(300), 100))
                for at in cancelled:
                    tasks[at].cancel()
                found = await asyncio.gather(*tasks, return_exceptions=True)
                for at, result in enumerate(found):
                    if at in cancelled:
                        self.assertTrue(result == at or isinstance(result, asyncio.CancelledError), result)
                    else:
                        self.assertEqual(result, at)
            self.assertEqual(await m.free_array(), 300)

        self.run_with(job)

    def test_takers(self):
        async def taker(client):
            return [await client.judy1("ids").take(10) for _ in range(20)]

        async def job(client):
            async with aio.Client(self.served.path) as other:
                await other.auth("alice", "abc")
                found = await asyncio.gather(*(taker(client if number % 2 else other) for number in range(10)))
            self.assertEqual(sorted(index for part in found for index in part), list(range(10, 210)))
            self.assertEqual(await client.judy1("ids").free_array(), 200)

        self.run_with(job)

    def test_refusals(self):
        async def job(client):
            with self.assertRaises(NotAuthorized):
                await client.auth("alice", "abd")
            with self.assertRaises(NotAuthorized):
                await client.used()
            await client.auth("alice", "look")
            with self.assertRaises(ReadOnly):
                await client.judy1("ids").set(1)
            with self.assertRaises(ValueError):
                await client.judy1("ids").set(-1)
            await client.close()
            with self.assertRaises(Closed):
                await client.used()

        self.run_with(job)

    def test_no_server(self):
        with self.assertRaisesRegex(NoServer, "start judyd serve, or check the path"):
            asyncio.run(aio.Client(self.served.path + "x").used())

    def test_after_a_fork(self):
        async def job(client):
            child = os.fork()
            if child == 0:
                try:
                    await client.used()
                except JudyError as e:
                    os._exit(7 if "parent process" in str(e) else 8)
                os._exit(9)
            self.assertEqual(os.waitstatus_to_exitcode(os.waitpid(child, 0)[1]), 7)
            await client.used()

        self.run_with(job)


class Losses(WithServer):
    """Servers that go away."""

    def test_a_lost_connection_wakes_all(self):
        async def job():
            client = await aio.Client(path).__aenter__()
            found = await asyncio.wait_for(asyncio.gather(*(client.used() for _ in range(200)), return_exceptions=True), 30)
            self.assertEqual({(type(it), it.may_have_run) for it in found}, {(ConnectionLost, True)})
            with self.assertRaises(ConnectionLost) as caught:
                await client.used()
            self.assertFalse(caught.exception.may_have_run)

        with odd_server(b"Q 1 2 ") as path:
            asyncio.run(job())

    def test_silence_times_out(self):
        async def job():
            client = aio.Client(path, timeout=0.2)
            with self.assertRaises(TimedOut):
                await client.used()

        with odd_server(None) as path:
            asyncio.run(job())

    def test_a_reply_that_nobody_waits_for(self):
        async def job():
            client = aio.Client(path)
            self.assertEqual((await client.used()).most, 4)
            with self.assertRaises(ConnectionLost):
                for _ in range(100):
                    await asyncio.sleep(0.01)
                    await client.used()

        with odd_server(b"Q 1 2 3 4\nQ 1 2 3 4\n") as path:
            asyncio.run(job())

    def test_a_restart(self):
        async def task(client, number, log):
            m = client.judyl("m")
            for turn in range(100000):
                try:
                    self.assertIn(await m.insert(number, turn), (0, turn - 1))
                except ConnectionLost as e:
                    log.append(e.may_have_run)
                    return
                await asyncio.sleep(0)

        async def job(reconnect):
            log = []
            async with aio.Client(self.served.path, reconnect=reconnect) as client:
                await client.auth("alice", "abc")
                tasks = [asyncio.ensure_future(task(client, number, log)) for number in range(50)]
                await asyncio.sleep(0.05)
                self.served.freeze()
                await asyncio.sleep(0.1)  # now each task waits for a reply
                self.served.kill()
                await asyncio.wait_for(asyncio.gather(*tasks), 60)
                self.assertEqual(log, [True] * 50)
                restart = asyncio.get_running_loop().run_in_executor(None, self.served.start)
                if reconnect:
                    self.assertEqual(await asyncio.gather(*(client.judy1("ids").set(5) for _ in range(3))), [True, False, False])
                    self.assertEqual((await client.used()).used, 1)
                else:
                    with self.assertRaises(ConnectionLost) as caught:
                        await client.used()
                    self.assertFalse(caught.exception.may_have_run)
                await restart

        for reconnect in (False, True):
            asyncio.run(job(reconnect))


if __name__ == "__main__":
    unittest.main()
