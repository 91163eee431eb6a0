"""Tests of the client for asyncio when replies do not come: time, many lines, cancelled calls, and what is repeated."""

import asyncio
import os
import signal
import socket
import ssl
import sys
import tempfile
import unittest
from contextlib import contextmanager
from unittest import mock

sys.path.insert(0, os.path.dirname(os.path.abspath(__file__)))

from judyd import IDEMPOTENT, QUERIES, ConnectionLost, TimedOut, aio, aiolink  # noqa: E402
from judyd.lines import Lines, cut  # noqa: E402
from served import WithServer  # noqa: E402
from test_restarts import scripted  # noqa: E402


class Clock:
    """A loop whose time is set by hand."""

    def __init__(self):
        self._loop = asyncio.get_running_loop()
        self.now = 0.0
        self.timers = []
        self.create_future, self.call_soon = self._loop.create_future, self._loop.call_soon

    def time(self):
        return self.now

    def call_later(self, delay, call, *arguments):
        timer = mock.Mock(when=self.now + delay, call=lambda: call(*arguments))
        self.timers.append(timer)
        return timer

    def go_to(self, now):
        """Sets the time, and runs the timers that are due."""
        self.now = now
        due = [timer for timer in self.timers if timer.when <= now and not timer.cancel.called]
        self.timers = [timer for timer in self.timers if timer not in due]
        for timer in due:
            timer.call()


class Wire:
    """A transport that keeps what is written."""

    def __init__(self):
        self.lines = 0

    def get_extra_info(self, _):
        return mock.Mock(family=socket.AF_INET)

    def write(self, data):
        self.lines += data.count(b"\n")

    def abort(self):
        """Nothing is open."""


def linked(timeout=30):
    """A link over such a transport, with its clock."""
    link, wire, clock = aiolink.Link(timeout), Wire(), Clock()
    link._loop = clock
    link.connection_made(wire)
    return link, wire, clock


async def asked(link, lines):
    """The replies to lines."""
    return cut(await link.ask(Lines.of(lines)))


async def turns(count=5):
    """Lets other tasks run."""
    for _ in range(count):
        await asyncio.sleep(0)


class Times(unittest.TestCase):
    """When a call times out."""

    def test_the_oldest_line_counts(self):
        async def job():
            link, _, clock = linked()
            calls = []
            for now in range(30):  # one more call each second, and no byte
                clock.go_to(float(now))
                calls.append(asyncio.ensure_future(asked(link, [b"USED"])))
                await turns()
            self.assertTrue(link.is_open)
            clock.go_to(30.0)
            found = await asyncio.gather(*calls, return_exceptions=True)
            self.assertEqual({type(it) for it in found}, {TimedOut})

        asyncio.run(asyncio.wait_for(job(), 120))

    def test_only_bytes_that_come_give_more_time(self):
        async def job():
            link, _, clock = linked()
            first = asyncio.ensure_future(asked(link, [b"USED"]))
            await turns()
            clock.go_to(29.0)
            link.data_received(b"Q 1 ")
            second = asyncio.ensure_future(asked(link, [b"USED"]))
            await turns()
            for now in (30.0, 58.0):
                clock.go_to(now)
                self.assertTrue(link.is_open)
            link.data_received(b"2 3 4\n")
            await turns()
            self.assertEqual(first.result(), [b"Q 1 2 3 4"])
            for now in (59.0, 87.9):
                clock.go_to(now)
                self.assertTrue(link.is_open)
            clock.go_to(88.0)
            with self.assertRaisesRegex(TimedOut, "no reply for 30 s"):
                await second

        asyncio.run(asyncio.wait_for(job(), 120))

    def test_a_line_that_is_sent_late_has_its_time(self):
        async def job():
            link, _, clock = linked()
            first = asyncio.ensure_future(asked(link, [b"USED"]))
            await turns()
            link.data_received(b"Q 1 2 3 4\n")
            await first
            clock.go_to(1000.0)
            second = asyncio.ensure_future(asked(link, [b"USED"]))
            await turns()
            clock.go_to(1029.0)
            self.assertTrue(link.is_open)
            clock.go_to(1030.0)
            with self.assertRaises(TimedOut):
                await second

        asyncio.run(asyncio.wait_for(job(), 120))


class ManyLines(unittest.TestCase):
    """More lines than may wait for their replies."""

    def test_further_calls_wait(self):
        async def job():
            link, wire, _ = linked()
            calls = [asyncio.ensure_future(asked(link, [b"USED"] * 100)) for _ in range(120)]
            await turns()
            self.assertEqual(wire.lines, 10000)
            for at in (112, 118):
                calls[at].cancel()  # its turn has not come
            for sent in (11000, 11800, 11800):
                link.data_received(b"".join(b"Q %d\n" % at for at in range(1000)))
                await turns()
                self.assertEqual(wire.lines, sent)
            self.assertEqual([reply for call in calls[:30] for reply in call.result()], [b"Q %d" % (at % 1000) for at in range(3000)])
            link.data_received(b"Q 1\n" * 8800)
            found = await asyncio.gather(*calls, return_exceptions=True)
            self.assertEqual([at for at, it in enumerate(found) if isinstance(it, asyncio.CancelledError)], [112, 118])
            self.assertEqual(link._lines, 0)

        asyncio.run(asyncio.wait_for(job(), 120))

    def test_one_call_of_more_lines(self):
        async def job():
            link, wire, _ = linked()
            whole = asyncio.ensure_future(asked(link, [b"USED"] * 25000))
            after = asyncio.ensure_future(asked(link, [b"USED"]))
            sent = []
            for _ in range(4):
                await turns()
                sent.append(wire.lines)
                link.data_received(b"Q\n" * (sent[-1] - (sent[-2] if sent[:-1] else 0)))
            await turns()
            self.assertEqual((len(await whole), len(await after), sent, link._lines), (25000, 1, [10000, 10001, 20001, 25001], 0))

        asyncio.run(asyncio.wait_for(job(), 120))

    def test_a_loss_reaches_all(self):
        async def job():
            link, _, _ = linked()
            calls = [asyncio.ensure_future(asked(link, [b"USED"] * 100)) for _ in range(120)]
            await turns()
            link.data_received(b"Q\n" * 1050)
            await turns()
            link.connection_lost(None)
            found = await asyncio.gather(*calls, return_exceptions=True)
            self.assertEqual([it for it in found if not isinstance(it, ConnectionLost)], [[b"Q"] * 100] * 10)
            self.assertEqual([(it.may_have_run, len(it.replies)) for it in found[10:]], [(True, 50)] + [(True, 0)] * 99 + [(False, 0)] * 10)
            with self.assertRaises(ConnectionLost) as caught:
                await asked(link, [b"USED"])
            self.assertFalse(caught.exception.may_have_run)

        asyncio.run(asyncio.wait_for(job(), 120))


@contextmanager
def recorded():
    """The sockets that are made meanwhile."""
    made = []

    class Recorded(socket.socket):
        def __init__(self, *arguments, **more):
            super().__init__(*arguments, **more)
            made.append(self)

    with mock.patch("socket.socket", Recorded):
        yield made


class Cancelled(WithServer):
    """Calls that are cancelled."""

    async def cancelled_opening(self, client):
        """Cancels the first call of a client in its opening. Its sockets are closed."""
        with recorded() as made:
            task = asyncio.ensure_future(client.used())
            while not made:
                await asyncio.sleep(0.01)
            await turns(50)
            task.cancel()
            with self.assertRaises(asyncio.CancelledError):
                await task
            await turns(50)
            self.assertEqual([it.fileno() for it in made], [-1] * len(made))

    def test_an_opening_while_the_queue_is_full(self):
        with tempfile.TemporaryDirectory(prefix="judyd-odd-") as folder, socket.socket(socket.AF_UNIX) as listener:
            path = os.path.join(folder, "socket")
            listener.bind(path)
            listener.listen(0)
            others = []
            try:
                while True:
                    others.append(socket.socket(socket.AF_UNIX))
                    others[-1].setblocking(False)
                    others[-1].connect(path)
            except BlockingIOError:
                asyncio.run(self.cancelled_opening(aio.Client(path, 5)))
            finally:
                for other in others:
                    other.close()

    def test_an_opening_that_waits_for_tls(self):
        with socket.socket() as listener:
            listener.bind(("127.0.0.1", 0))
            listener.listen()
            client = aio.Client(listener.getsockname(), 5, ssl.create_default_context())
            asyncio.run(self.cancelled_opening(client))

    def test_an_opening_that_waits_for_its_log_in(self):
        async def job():
            client = aio.Client(self.served.path, 60, reconnect=True)
            await client.auth("alice", "abc")
            client._link.lose(EOFError())
            self.served.freeze()
            try:
                await self.cancelled_opening(client)
            finally:
                self.served.process.send_signal(signal.SIGCONT)
            self.assertEqual((await client.used()).quota, 1000000)  # the next opening is well
            await client.close()

        asyncio.run(asyncio.wait_for(job(), 120))

    def test_a_log_in_closes_the_connection(self):
        async def job(reconnect, calls):
            client = aio.Client(self.served.path, 60, reconnect=reconnect)
            await client.auth("alice", "abc")
            self.served.freeze()
            try:
                task = asyncio.ensure_future(calls(client))
                while not client._link._waiting:
                    await asyncio.sleep(0)
                task.cancel()
                with self.assertRaises(asyncio.CancelledError):
                    await task
            finally:
                self.served.process.send_signal(signal.SIGCONT)
            self.assertFalse(client._link.is_open)
            if reconnect:
                self.assertEqual((await client.used()).quota, 1000000)  # alice's, and not bob's
            else:
                with self.assertRaises(ConnectionLost) as caught:
                    await client.used()
                self.assertFalse(caught.exception.may_have_run)
            await client.close()

        for reconnect in (True, False):
            for calls in (lambda c: c.auth("bob", "hello"), lambda c: c.lines([b"USED", b"AUTH bob hello"])):
                asyncio.run(job(reconnect, calls))

    def test_lines_that_log_in(self):
        async def job():
            client = aio.Client(self.served.path, 60, reconnect=True)
            await client.lines([b"AUTH alice abc", b"AUTH bob hello"])
            client._link.lose(EOFError())
            self.assertEqual((await client.used()).quota, 3)  # bob's, who spoke last
            await client.close()

        asyncio.run(asyncio.wait_for(job(), 120))


class Repeats(unittest.TestCase):
    """What is repeated on a new connection."""

    def once_lost(self, call, replies, retry):
        """The result of a call whose first connection ends before its reply, and the lines of the second
        connection, which has the replies."""

        async def job(path):
            async with aio.Client(path, 10, reconnect=True, retry=retry) as client:
                await client.auth("alice", "abc")
                try:
                    return await call(client)
                except ConnectionLost as e:
                    self.assertTrue(e.may_have_run)
                    return "lost"

        with scripted([b"OK", None], [b"OK", *replies]) as (path, got):
            return asyncio.run(job(path)), got[2:]

    def test_queries(self):
        for retry in (QUERIES, IDEMPOTENT):
            for call, line, reply, result in (
                (lambda c: c.judy1("a").test(1), "J1T a 1", b"1", True),
                (lambda c: c.judyl("a").by_count(3), "JLBC a 3", b"V 4 5", (5, 4)),
                (lambda c: c.lines([b"J1C a 0 1"]), "J1C a 0 1", b"N 2", [b"N 2"]),
            ):
                self.assertEqual(self.once_lost(call, [reply], retry), (result, ["AUTH alice abc", line]))

    def test_changes(self):
        for call, line, reply in (
            (lambda c: c.judy1("a").update([1]), "J1S a 1", b"0"),
            (lambda c: c.judyl("a").update({1: 2}), "JLI a 1 2", b"V 0"),
            (lambda c: c.judy1("a").difference_update([1]), "J1U a 1", b"0"),
        ):
            self.assertEqual(self.once_lost(call, [reply], QUERIES), ("lost", []))
            self.assertEqual(self.once_lost(call, [reply], IDEMPOTENT), (None, ["AUTH alice abc", line]))
        for call in (lambda c: c.judy1("a").set(1), lambda c: c.judyl("a").insert(1, 2), lambda c: c.judyl("a").add(1), lambda c: c.judyl("a").delete_many([1])):
            for retry in (QUERIES, IDEMPOTENT):
                self.assertEqual(self.once_lost(call, [b"V 0"], retry), ("lost", []))

    def test_the_word(self):
        self.assertRaisesRegex(ValueError, "needs reconnect=True", aio.Client, "socket", retry=IDEMPOTENT)
        self.assertRaisesRegex(TypeError, "retry is QUERIES or IDEMPOTENT", aio.Client, "socket", reconnect=True, retry=True)

    def test_log_lines(self):
        with self.assertLogs("judyd", "INFO") as logged:
            self.once_lost(lambda c: c.used(), [b"Q 1 2 3 4"], QUERIES)
        self.assertRegex(logged.output[0], "^INFO:judyd:.*, alice, not connected: the connection was lost .*; 1 call is sent again$")
        self.assertRegex(logged.output[1], "^INFO:judyd:.*, alice, open: connected again$")


if __name__ == "__main__":
    unittest.main()
