"""Tests of additions. If the program does not know them, a stand-in that knows nothing else takes its place."""

import asyncio
import os
import socketserver
import sys
import tempfile
import threading
import unittest
from concurrent.futures import ThreadPoolExecutor

sys.path.insert(0, os.path.dirname(os.path.abspath(__file__)))

from judyd import MAX, Client, ConnectionLost, aio  # noqa: E402
from served import WithServer, odd_server  # noqa: E402


class StandIn(socketserver.ThreadingMixIn, socketserver.UnixStreamServer):
    """A server of additions and of FreeArray: a line is atomic."""

    daemon_threads = True

    def __init__(self, path):
        self.arrays, self.lock = {}, threading.Lock()
        super().__init__(path, Connection)

    def reply(self, line):
        """The reply to a line."""
        command, *fields = line.split()
        with self.lock:
            if command in (b"JLA", b"JSLA", b"JHSA"):
                name, key, n = fields
                array = self.arrays.setdefault((command[:-1], name), {})
                array[key] = (array.get(key, 0) + int(n)) % 2**64
                return b"V %d\n" % array[key]
            if command.endswith(b"FA"):
                return b"N %d\n" % len(self.arrays.pop((command[:-2], fields[0]), ()))
        return b"OK\n"


class Connection(socketserver.StreamRequestHandler):
    """A connection to the stand-in."""

    def handle(self):
        for line in self.rfile:
            self.wfile.write(self.server.reply(line))


class Additions(WithServer):
    """The method `add` of the three kinds of map."""

    @classmethod
    def setUpClass(cls):
        super().setUpClass()
        cls.path = cls.served.path
        with Client(cls.path).auth("alice", "abc") as client:
            if client.lines([b"JLA a 1 1", b"JLFA a"])[0] == b"V 1":
                return
        folder = tempfile.TemporaryDirectory(prefix="judyd-add-")
        cls.addClassCleanup(folder.cleanup)
        cls.path = os.path.join(folder.name, "socket")
        server = StandIn(cls.path)
        cls.addClassCleanup(server.server_close)
        cls.addClassCleanup(server.shutdown)
        threading.Thread(target=server.serve_forever, args=(0.05,)).start()

    def setUp(self):
        self.client = Client(self.path, timeout=60).auth("alice", "abc")
        self.addCleanup(self.client.close)

    def test_new_values(self):
        for array, key in ((self.client.judyl("m"), 5), (self.client.judysl("s", "utf-8"), "ä"), (self.client.judyhs("h"), b"\0")):
            self.assertEqual([array.add(key), array.add(key, 7), array.add(key, n=-3), array.add(key, 0)], [1, 8, 5, 5])
            self.assertEqual([array.add(key, -6), array.add(key, 2), array.add(key, MAX), array.add(key, -MAX)], [MAX, 1, 0, 1])
            for n in (MAX + 1, -MAX - 1):
                self.assertRaises(ValueError, array.add, key, n)
            for n in ("1", 1.0, None):
                self.assertRaises(TypeError, array.add, key, n)
            self.assertEqual(array.free_array(), 1)

    def test_threads(self):
        hits = [self.client.judyl("m"), Client(self.path).auth("alice", "abc").judyl("m")]
        self.addCleanup(hits[1]._asker.close)
        with ThreadPoolExecutor(8) as threads:
            values = list(threads.map(lambda at: hits[at % 2].add(9), range(2000)))
        self.assertEqual(sorted(values), list(range(1, 2001)))
        self.assertEqual(hits[0].free_array(), 1)

    def test_a_pipeline(self):
        with self.client.pipeline() as pipe:
            late = [pipe.judysl("s").add(b"k", 2) for _ in range(500)]
        self.assertEqual([it.result() for it in late], list(range(2, 1002, 2)))
        self.assertEqual(self.client.judysl("s").free_array(), 1)

    def test_tasks(self):
        async def job():
            async with aio.Client(self.path) as client:
                await client.auth("alice", "abc")
                values = await asyncio.gather(*(client.judyhs("h").add(b"k", 3) for _ in range(200)))
                return values, await client.judyhs("h").free_array()

        self.assertEqual(asyncio.run(job()), (list(range(3, 603, 3)), 1))

    def test_no_addition_is_repeated(self):
        for add in (lambda c: c.judyl("m").add(1), lambda c: c.judysl("s").add(b"k"), lambda c: c.judyhs("h").add(b"k")):
            with odd_server() as path, Client(path, 10, reconnect=True) as client:
                with self.assertRaises(ConnectionLost) as caught:
                    add(client)
                self.assertTrue(caught.exception.may_have_run)
            with odd_server() as path, Client(path, 10, reconnect=True) as client:
                with self.assertRaises(ConnectionLost), client.pipeline(is_quiet=True) as pipe:
                    late = add(pipe)
                self.assertRaises(ConnectionLost, late.result)


if __name__ == "__main__":
    unittest.main()
