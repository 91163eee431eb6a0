"""Tests of jobs of several windows that meet a server that was started anew: they raise Restarted, and
never give a part for the whole."""

import asyncio
import os
import socket
import sys
import unittest
from unittest import mock

sys.path.insert(0, os.path.dirname(os.path.abspath(__file__)))

from judyd import Client, ConnectionLost, Restarted, Visitor, aio  # noqa: E402
from judyd.lines import Lines, cut  # noqa: E402
from served import WithServer  # noqa: E402

COUNT = 20000


class Jobs(WithServer):
    """Walks, insertions and pipelines in whose middle the server is started anew."""

    def both(self):
        """A client that connects again, and a visitor."""
        return self.alice(reconnect=True), Visitor(lambda: Client(self.served.path).auth("alice", "abc"))

    def walks(self, client):
        """Walks of arrays that have entries."""
        client.judy1("ids").update(range(COUNT))
        client.judyl("m").update((i, i) for i in range(COUNT))
        client.judysl("s").update((b"%06d" % i, i) for i in range(COUNT))
        yield client.judy1("ids").walk()
        yield client.judy1("ids").walk_back()
        yield client.judyl("m").walk()
        yield client.judysl("s").walk()
        client.judyhs("h").update((b"%06d" % i, i) for i in range(COUNT))
        yield client.judy1("ids").intersection("ids")
        yield client.judyhs("h").walk()

    def test_walks(self):
        for client in self.both():
            for number in range(6):
                walk = list(self.walks(client))[number]
                next(walk)
                self.served.restart()
                with self.assertRaisesRegex(Restarted, "started anew in the middle of this job"):
                    list(walk)

    def test_a_visitor_that_does_not_know_the_server(self):
        visitor = self.both()[1]
        with mock.patch("judyd.connection.server_of", return_value=None):  # as over TCP
            visitor.judy1("ids").update(range(COUNT))
            self.assertEqual(list(visitor.judy1("ids").walk()), list(range(COUNT)))
            self.assertEqual(visitor.judy1("ids").free_array(), COUNT)
            client = self.alice(reconnect=True)
            walk = list(self.walks(client))[0]
            next(walk)
            client._link.connection._sock.shutdown(socket.SHUT_RDWR)
            self.assertRaises(Restarted, list, walk)
        self.served.restart()

    def test_a_walk_over_a_lost_connection(self):
        client = self.alice(reconnect=True)
        walks = list(self.walks(client))
        for walk in walks:
            next(walk)
            client._link.connection._sock.shutdown(socket.SHUT_RDWR)  # the server stays
            self.assertEqual(len(list(walk)), COUNT - 1)
        self.served.restart()

    def restarts(self, things):
        """These things. In the middle the server is started anew."""
        for at, thing in enumerate(things):
            if at == COUNT // 2:
                self.served.restart()
            yield thing

    def test_many_calls(self):
        for number in range(2):
            for call in (
                lambda c: c.judy1("ids").update(self.restarts(range(COUNT))),
                lambda c: c.judyl("m").update(self.restarts((i, i) for i in range(COUNT))),
                lambda c: c.judyhs("h").update(self.restarts((b"%d" % i, i) for i in range(COUNT))),
                lambda c: list(c.judyl("m").get_many(self.restarts(range(COUNT)))),
                lambda c: list(c.judy1("ids").among(self.restarts(range(COUNT)))),
            ):
                self.assertRaises(Restarted, call, self.both()[number])

    def test_a_pipeline(self):
        client = self.alice(reconnect=True)
        with self.assertRaises(Restarted), client.pipeline(is_quiet=True) as pipe:
            for index in self.restarts(range(COUNT)):
                pipe.judy1("ids").set(index)
        client.judy1("ids").clear()
        client.judy1("ids").update(range(COUNT))  # the next job is well
        self.assertEqual(client.judy1("ids").free_array(), COUNT)

    def test_tasks(self):
        async def job():
            async with aio.Client(self.served.path, reconnect=True) as client:
                await client.auth("alice", "abc")
                await client.lines(b"J1S ids %d" % i for i in range(COUNT))
                walk = client.judy1("ids").walk()
                self.assertEqual(await walk.__anext__(), 0)
                self.served.restart()
                while True:  # another task meets the loss
                    try:
                        self.assertEqual(await client.judy1("ids").count(), 0)
                        break
                    except ConnectionLost:
                        pass
                with self.assertRaises(Restarted):
                    async for _ in walk:
                        pass

        asyncio.run(job())

    def test_a_window_of_two_servers(self):
        client = self.alice(reconnect=True)
        connection = client._link.connection

        def ended(lines):  # the server ends after some replies
            replies = cut(connection_exchange(Lines.of(lines.each()[:10])))
            self.served.restart()
            connection.close()
            exception = ConnectionLost("the connection was lost")
            exception.replies = replies
            raise exception

        connection_exchange, connection.exchange = connection.exchange, ended
        with self.assertRaises(Restarted) as caught, client.pipeline(None) as pipe:
            late = [pipe.judy1("ids").test(i) for i in range(100)]
        self.assertEqual(([it.result() for it in late[:10]], len(caught.exception.replies)), ([False] * 10, 10))
        self.assertRaises(Restarted, late[10].result)
        self.assertFalse(client.judy1("ids").test(1))


if __name__ == "__main__":
    unittest.main()
