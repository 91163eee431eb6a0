"""Tests of refusals, of connections that fail, and of turns."""

import inspect
import os
import pathlib
import pickle
import random
import socket
import sys
import threading
import time
import unittest

sys.path.insert(0, os.path.dirname(os.path.abspath(__file__)))

import judyd  # noqa: E402
from judyd import (  # noqa: E402
    Client, Closed, ConnectionLost, Frozen, Full, Hello, JournalFull, KeyTooLong, Long, NoServer, NotAuthorized, ReadOnly, Refused, Syntax, TimedOut, Visitor,
)  # fmt: skip
from judyd.fields import KEY_LIMIT, LINE_LIMIT, hello_of, nothing_of  # noqa: E402
from served import WithClient, WithServer  # noqa: E402


class Refusals(WithClient):
    """Refusals of the server, and connections that fail."""

    def speak(self, *who):
        self.client.close()
        self.client = Client(self.served.path, timeout=60)
        self.addCleanup(self.client.close)
        return self.client.auth(*who)

    def test_who_may(self):
        for who in (("alice", "abd"), ("nobody", "abc")):
            self.assertRaises(NotAuthorized, self.speak, *who)
            self.assertRaises(NotAuthorized, self.client.used)
        for who in (("alice", "a b"), ("alice", ""), ("a b", "abc"), ("alice", "abc\n")):
            self.assertRaises(ValueError, self.client.auth, *who)
        for who in (("alice", b"abc"), (None, "abc"), ("alice", 5)):
            self.assertRaises(TypeError, self.client.auth, *who)
        self.client.auth("alice", "abc")

    def test_read_only(self):
        self.client.judy1("ids").add(1)
        looks = self.speak("alice", "look").judy1("ids")
        self.assertTrue(1 in looks)
        for call in (lambda: looks.add(1), lambda: looks.discard(2), looks.clear):
            self.assertRaises(ReadOnly, call)
        self.assertEqual(self.speak("alice", "abc").judy1("ids").free_array(), 1)

    def test_full(self):
        bob = self.speak("bob", "hello")
        ids = bob.judy1("ids")
        with self.assertRaises(Full) as caught:
            ids.update(range(9))
        self.assertEqual((caught.exception.reply, len(ids), bob.used()), ("FULL", 3, (3, 3, 3, 378)))
        self.assertRaises(Full, bob.judyl("m").insert, 1)
        self.assertFalse(ids.set(0))
        ids.clear()
        self.assertRaises(Full, self.speak("empty", "abc").judyhs("h").insert, b"")
        self.speak("alice", "abc")

    def test_a_client_waits_for_so_long(self):
        self.assertEqual((judyd.TIMEOUT, inspect.signature(Client).parameters["timeout"].default), (30.0, 30.0))
        with Client(self.served.path) as client:
            self.assertEqual(client._link.connection._timeout, 30.0)
        self.assertIn("at most 30 seconds (`timeout`)", " ".join(judyd.__doc__.split()))
        self.assertIn("by default 30", " ".join(Client.__doc__.split()))
        self.assertIn("may be serving other clients just then", " ".join(TimedOut.__doc__.split()))

    def test_each_error_says_what_to_do(self):
        nowhere = os.path.join(self.served.folder.name, "nowhere")
        with self.assertRaisesRegex(NoServer, "no server listens at %s: start judyd serve, or check the path" % nowhere):
            Client(nowhere)
        with self.assertRaisesRegex(NoServer, "no server listens at localhost:1: start what forwards to judyd, or check host and port"):
            Client(("localhost", 1))
        with self.assertRaisesRegex(NoServer, "no connection to %s.*: AF_UNIX path too long" % self.served.folder.name):
            Client(os.path.join(self.served.folder.name, "n" * 120))
        with self.assertRaisesRegex(NotAuthorized, "ERR AUTH: the tenant is unknown, the token is wrong, or nobody has logged in"):
            self.client.auth("alice", "abd")
        self.client.auth("alice", "abc")
        for array in (self.client.judysl("s"), self.client.judyhs("h")):
            with self.assertRaisesRegex(KeyTooLong, "a key has at most 1000 bytes, and this one has 1001"):
                array.insert(b"k" * 1001)
        self.assertTrue(issubclass(KeyTooLong, ValueError))
        for error in (getattr(judyd, name) for name in judyd.__all__):
            if isinstance(error, type) and issubclass(error, Exception):
                self.assertTrue(issubclass(error, judyd.JudyError), error)
                self.assertIn(str(pickle.loads(pickle.dumps(error("FULL")))), (str(error("FULL"))))

    def test_paths(self):
        for path in (self.served.path, os.fsencode(self.served.path), pathlib.Path(self.served.path)):
            with Client(path).auth("alice", "abc") as client:
                self.assertEqual(client.used().used, 0)

    def test_lines(self):
        self.assertEqual(self.client.lines([b"J1X a", b"J1S a 1", b"A" * 4097, b"J1FA a"]), [b"ERR SYNTAX", b"1", b"ERR LONG", b"N 1"])
        self.assertRaises(ValueError, self.client.lines, [b"J1S a 1\nQUIT"])
        self.assertTrue(issubclass(Syntax, Refused) and issubclass(Long, Refused))

    def test_version_and_limits(self):
        with Client(self.served.path) as client:
            for _ in range(2):
                hello = client.hello()
                self.assertEqual((client.ping(), hello), (None, Hello(1, LINE_LIMIT, 4096, 32, 128, KEY_LIMIT)))
                client.auth("alice", "abc")
        self.assertEqual(hello_of(b"JUDYD 2 line 1 reply 2 name 3 token 4 key 5 more 6"), (2, 1, 2, 3, 4, 5))
        for wrong in (b"OK", b"JUDYD 1", b"JUDYD 1 line 4096 reply 4096 name 32 token 128 key", b" JUDYD 1 line 1 reply 2 name 3 token 4 key 5"):
            self.assertRaises(judyd.JudyError, hello_of, wrong)
        self.assertRaises(judyd.JudyError, nothing_of, b"1")

    def test_closed(self):
        self.assertEqual(self.client.lines([b"USED", b"QUIT"])[1:], [b"BYE"])
        self.assertRaises(Closed, self.client.used)
        self.client = self.alice()
        self.client.quit()
        self.assertRaises(Closed, self.client.used)
        self.client.close()
        self.assertRaises(Closed, Client, os.path.join(self.served.folder.name, "nowhere"))
        self.client = self.alice()
        with self.assertRaises(ConnectionLost):
            self.client.lines([b"QUIT", b"USED"])
        self.speak("alice", "abc")


class Turns(WithServer):
    """What others can do while a client is connected to a server that serves one client at a time."""

    clients = 1

    def test_nothing_comes_between_two_lines(self):
        said = []

        def other():
            with Client(self.served.path, timeout=60).auth("alice", "abc") as client:
                said.append(client.judy1("ids").set(1))

        with self.alice() as client:
            beside = threading.Thread(target=other)
            free = client.judy1("ids").first_empty(1)
            beside.start()
            beside.join(0.5)
            said.append(client.judy1("ids").set(free))
        beside.join()
        with self.alice() as client:
            self.assertEqual((free, said, client.judy1("ids").free_array()), (1, [True, False], 1))

    def test_waiting_times_out(self):
        with self.alice(), Client(self.served.path, timeout=0.2) as second:  # the server is busy with the first
            with self.assertRaisesRegex(TimedOut, "no reply for 0.2 s: another client may be served just then; each call without a reply may have run"):
                second.auth("alice", "abc")
            with self.assertRaisesRegex(ConnectionLost, "the connection was lost before: make a new client") as caught:
                second.used()
            self.assertFalse(caught.exception.may_have_run)


class Visits(WithServer):
    """A client that lets others be served."""

    clients = 1

    def test_others_are_served_between(self):
        visitor = Visitor(lambda: Client(self.served.path).auth("alice", "abc"))
        seen = []
        for kind, start in ((visitor.judyl, 0), (visitor.judysl, None)):
            array = kind("m")
            array.update((b"%06d" % i if start is None else i, i) for i in range(20000))
            for at, _ in enumerate(array.walk()):
                if at % 5000 == 0:
                    with Client(self.served.path, timeout=10).auth("alice", "abc") as other:  # would wait in vain for a client that stays
                        seen.append(other.used().used)
            self.assertEqual((seen, array.free_array()), ([20000] * 4, 20000))
            seen.clear()
        self.assertEqual((visitor.used().used, visitor.judy1("a").first()), (0, None))


class Odd(WithServer):
    """Servers that misbehave."""

    def answered(self, *pieces):
        """A client whose server sends these pieces and disconnects."""
        path = os.path.join(self.served.folder.name, "odd%d" % random.randrange(10**9))
        with socket.socket(socket.AF_UNIX) as listener:
            listener.bind(path)
            listener.listen()
            client = Client(path, timeout=10)
            other, _ = listener.accept()

        def send():
            with other:
                for piece in pieces:
                    other.sendall(piece)
                    time.sleep(0.02)
                other.recv(100)

        sender = threading.Thread(target=send)
        sender.start()
        self.addCleanup(sender.join)
        self.addCleanup(client.close)
        return client

    def test_replies_in_pieces(self):
        self.assertEqual(self.answered(b"N", b" 1", b"2\n").judy1("a").count(), 12)

    def test_answers_that_are_none(self):
        for reply in (b"V 1\n", b"N\n", b"N x\n", b"\n", b"HTTP/1.1 400 Bad Request\n"):
            self.assertRaises((judyd.Error, ValueError), self.answered(reply).judy1("a").count)

    def test_a_refusal_of_a_later_server(self):
        with self.assertRaises(Refused) as caught:
            self.answered(b"ERR NEW\n").judy1("a").count()
        self.assertEqual((type(caught.exception), str(caught.exception), caught.exception.reply), (Refused, "ERR NEW", "ERR NEW"))
        for replies in (b"1\n1\nERR NEW\nFULL\n1\n", b"1\nERR FROZEN\n1\n1\n1\n"):
            with self.assertRaisesRegex(Refused, "ERR NEW|ERR FROZEN: the tenant is frozen while its arrays are restored"):
                self.answered(replies).judy1("a").update(range(5))
            with self.assertRaisesRegex(Refused, "ERR"), self.answered(replies).pipeline() as pipe:
                pipe.judy1("a").update(range(5))
        self.assertRaises(Frozen, self.answered(b"ERR FROZEN\n").judyl("a").insert, 5, 5)
        with self.assertRaisesRegex(JournalFull, "^ERR JOURNAL: the journal takes no records of the tenant now; try again later$"):
            self.answered(b"ERR JOURNAL\n").judy1("a").set(5)

    def test_an_end_in_a_reply(self):
        self.assertRaises(Closed, self.answered(b"N 1").judy1("a").count)


if __name__ == "__main__":
    unittest.main()
