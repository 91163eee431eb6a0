"""Tests of what the client shows of itself: repr, log lines, and errors of wrong uses."""

import copy
import os
import pickle
import socket
import sys
import unittest

sys.path.insert(0, os.path.dirname(os.path.abspath(__file__)))

from judyd import Client, ConnectionLost, NoServer, Pool, Visitor, aio  # noqa: E402
from served import WithServer  # noqa: E402


class Shown(WithServer):
    """A client of alice, and what belongs to it."""

    def things(self):
        """One of each class that has a connection."""
        client = self.alice()
        pool = Pool(self.served.path, 2, "alice", "abc")
        self.addCleanup(pool.close)
        pipe = client.pipeline()
        arrays = [client.judy1("a"), client.judyl("a"), client.judysl("a"), client.judyhs("a"), pipe.judy1("a"), pipe.judyl("a"), pipe.judysl("a"), pipe.judyhs("a")]
        return [client, Visitor(lambda: client), pool, pipe, *arrays, pipe.judy1("a").test(1)]

    def test_repr(self):
        path = self.served.path
        client = Client(path, 60)
        self.addCleanup(client.close)
        self.assertEqual(repr(client), "<Client %s, nobody logged in, open>" % path)
        client.auth("alice", "abc")
        self.assertEqual((repr(client), str(client)), ("<Client %s, alice, open>" % path,) * 2)
        for array, kind in ((client.judy1("a"), "Judy1"), (client.judyl("a"), "JudyL"), (client.judysl("a"), "JudySL"), (client.judyhs("a"), "JudyHS")):
            self.assertEqual(repr(array), "<%s a of <Client %s, alice, open>>" % (kind, path))
        with client.pipeline() as pipe:
            later = pipe.judy1("a").test(1)
            self.assertEqual((repr(pipe), repr(later)), ("<Pipeline of <Client %s, alice, open>: 1 calls wait>" % path, "<Later: not sent yet>"))
            self.assertEqual(repr(pipe.judyl("m")), "<LateJudyL m of %r>" % pipe)
        self.assertEqual(repr(later), "<Later: answered>")
        client._link.connection._sock.shutdown(socket.SHUT_RDWR)
        self.assertRaises(ConnectionLost, client.used)
        self.assertEqual(repr(client), "<Client %s, alice, not connected>" % path)
        client.close()
        self.assertEqual(repr(client), "<Client %s, alice, closed>" % path)

    def test_repr_of_pools_and_visitors(self):
        path = self.served.path
        with Pool(path, 2, "alice", "abc") as pool:
            with pool.client():
                self.assertEqual(repr(pool), "<Pool %s, alice, 1 of 2 in use>" % path)
        self.assertEqual(repr(pool), "<Pool %s, alice, closed>" % path)
        self.assertEqual(repr(Visitor(lambda: None)), "<Visitor, not connected>")

    def test_no_token_is_shown(self):
        for thing in self.things():
            self.assertNotIn("abc", repr(thing).replace(self.served.path, ""))

    def test_nothing_is_pickled(self):
        for thing in self.things():
            for call in (pickle.dumps, copy.copy, copy.deepcopy):
                with self.assertRaisesRegex(TypeError, "a %s can't be pickled or copied.*: pass the address and the names" % type(thing).__name__):
                    call(thing)

    def test_log_lines(self):
        client = self.alice(reconnect=True)
        with self.assertNoLogs("judyd") if hasattr(self, "assertNoLogs") else self.subTest():
            client.used()
        client._link.connection._sock.shutdown(socket.SHUT_RDWR)
        with self.assertLogs("judyd", "INFO") as logged:
            client.lines([b"USED"] * 3)
        begin = "INFO:judyd:%s, alice, " % self.served.path
        self.assertEqual([line[: len(begin)] for line in logged.output], [begin] * 2)
        self.assertRegex(logged.output[0], "not connected: the connection was lost .*; 3 calls are sent again$")
        self.assertRegex(logged.output[1], "open: connected again$")
        self.assertNotIn("abc", "".join(logged.output).replace(self.served.path, ""))


class WrongUses(WithServer):
    """Errors that name what is wrong, in words of the client."""

    def test_lines(self):
        client = self.alice()
        for lines in (["USED"], [5], "USED", b"USED", [None]):
            self.assertRaisesRegex(TypeError, "lines are a list, and each line is bytes", client.lines, lines)
        self.assertEqual((client.lines([]), client.lines([bytearray(b"J1C a 0 1")])), ([], [b"N 0"]))

    def test_timeouts(self):
        clients = (Client, aio.Client, lambda path, timeout: Pool(path, 1, "a", "b", timeout=timeout), lambda path, timeout: aio.Pool(path, 1, "a", "b", timeout=timeout))
        for make in clients:
            for timeout, error in (("30", TypeError), ([], TypeError), (0, ValueError), (-1, ValueError), (float("nan"), ValueError)):
                self.assertRaisesRegex(error, "a timeout is .* seconds, or None, and not", make, self.served.path, timeout)

    def test_pools(self):
        for make in (Pool, aio.Pool):
            for size, name, token, error in ((0, "a", "b", ValueError), (1, "a b", "c", ValueError), (1, "a", "b c", ValueError), (1, 5, "b", TypeError), (1, "a", b"b", TypeError)):
                self.assertRaises(error, make, "nowhere", size, name, token)
            self.assertIn("Pool nowhere, a, 0 of 1 in use>", repr(make("nowhere", 1, "a", "b")))

    def test_addresses(self):
        for address in (7000, None, ("localhost",), ("localhost", 1, 2), ["localhost", 1]):
            self.assertRaisesRegex(TypeError, "an address is the path of a socket, or a tuple of a host and a port", Client, address)
            self.assertRaisesRegex(TypeError, "an address is the path of a socket", Pool, address, 1, "alice", "abc")
        with socket.socket() as closed:
            closed.bind(("127.0.0.1", 0))
            port = closed.getsockname()[1]
            for form in (port, str(port)):
                with self.assertRaisesRegex(NoServer, "no server listens at 127.0.0.1:%d" % port):
                    Client(("127.0.0.1", form))


if __name__ == "__main__":
    unittest.main()
