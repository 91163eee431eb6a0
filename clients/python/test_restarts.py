"""Tests of connections that are lost: what has run, what is repeated, and what is raised."""

import os
import socket
import sys
import tempfile
import threading
import unittest
from concurrent.futures import ThreadPoolExecutor
from contextlib import contextmanager, suppress

sys.path.insert(0, os.path.dirname(os.path.abspath(__file__)))

from judyd import IDEMPOTENT, QUERIES, Client, ConnectionLost, NoServer, NotAuthorized, Pool, Restarted  # noqa: E402
from served import WithServer, odd_server  # noqa: E402


@contextmanager
def scripted(*connections):
    """The path of a server, and the list of lines that it gets. Each connection is a list of
    replies, one to each line; at None, and at its end, the line is read and the connection ends."""
    got = []
    with tempfile.TemporaryDirectory(prefix="judyd-odd-") as folder, socket.socket(socket.AF_UNIX) as listener:
        path = os.path.join(folder, "socket")
        listener.bind(path)
        listener.listen()

        def serve():
            for replies in connections:
                try:
                    other, _ = listener.accept()
                except OSError:
                    return
                with other, other.makefile("rb") as lines:
                    for reply, line in zip([*replies, None], lines):
                        got.append(line.decode().strip())
                        if reply is None:
                            break
                        other.sendall(reply + b"\n")

        server = threading.Thread(target=serve)
        server.start()
        try:
            yield path, got
        finally:
            listener.shutdown(socket.SHUT_RDWR)  # so that it waits for no connection that does not come
            server.join()


UNSEEN = (  # changes whose result nobody looks at, with the line and its second reply
    (lambda c: c.judy1("a").add(1), "J1S a 1", b"0"),
    (lambda c: c.judy1("a").discard(1), "J1U a 1", b"0"),
    (lambda c: c.judy1("a").clear(), "J1FA a", b"N 0"),
    (lambda c: c.judy1("a").difference_update([1]), "J1U a 1", b"0"),
    (lambda c: c.judyl("a").__setitem__(1, 2), "JLI a 1 2", b"V 2"),
    (lambda c: c.judysl("a").update({b"k": 2}), "JSLI a x6b 2", b"V 2"),
    (lambda c: c.judyhs("a").__setitem__(b"k", 2), "JHSI a x6b 2", b"V 2"),
)


class Rules(unittest.TestCase):
    """What is repeated on a new connection."""

    def once_lost(self, call, reply, retry=QUERIES):
        """The result of a call whose first connection ends before its reply, and the lines of the
        second connection, which has the reply."""
        with scripted([b"OK", None], [b"OK", reply]) as (path, got), Client(path, 10, reconnect=True, retry=retry) as client:
            client.auth("alice", "abc")
            return call(client), got[2:]

    def test_queries_are_repeated(self):
        for call, line, reply, result in (
            (lambda c: c.judy1("a").test(1), "J1T a 1", b"1", True),
            (lambda c: c.judy1("a").count(), "J1C a 0 18446744073709551615", b"N 7", 7),
            (lambda c: c.judyl("a").by_count(3), "JLBC a 3", b"V 4 5", (5, 4)),
            (lambda c: c.judyl("a").first_empty(3), "JLFE a 3", b"1 5", 5),
            (lambda c: c.judysl("a").next(b"k"), "JSLN a x6b", b"NULL", None),
            (lambda c: c.judyhs("a").get(b"k"), "JHSG a x6b", b"V 3", 3),
            (lambda c: c.used().most, "USED", b"Q 1 2 3 4", 4),
            (lambda c: c.names(("JL", "a"), 1), "NAMES JL a 1", b"E 1 JSL b 2", [("JSL", "b", 2)]),
        ):
            for retry in (QUERIES, IDEMPOTENT):
                self.assertEqual(self.once_lost(call, reply, retry), (result, ["AUTH alice abc", line]))

    def test_what_nobody_looks_at_is_repeated_by_word(self):
        for call, line, reply in UNSEEN:
            self.assertEqual(self.once_lost(call, reply, IDEMPOTENT), (None, ["AUTH alice abc", line]))

    def test_no_change_is_repeated_otherwise(self):
        for call, _, _ in UNSEEN:
            self.is_not_repeated(call, QUERIES)
        for call in (
            lambda c: c.judyl("a").add(1),
            lambda c: c.judy1("a").set(1),
            lambda c: c.judy1("a").unset(1),
            lambda c: c.judy1("a").remove(1),
            lambda c: c.judyl("a").insert(1, 2),
            lambda c: c.judyl("a").delete(1),
            lambda c: c.judyl("a").free_array(),
            lambda c: c.judyl("a").__delitem__(1),
            lambda c: c.judysl("a").delete_many([b"k"]),
            lambda c: c.judyhs("a").insert(b"k"),
            lambda c: c.lines([b"JLI a 1 2"]),
        ):
            self.is_not_repeated(call, QUERIES)
            self.is_not_repeated(call, IDEMPOTENT)

    def is_not_repeated(self, call, retry):
        """Checks that a lost call raises ConnectionLost, and that the next call has a new connection."""
        with scripted([b"OK", None], [b"OK", b"Q 1 2 3 4"]) as (path, got), Client(path, 10, reconnect=True, retry=retry) as client:
            client.auth("alice", "abc")
            with self.assertRaisesRegex(ConnectionLost, "may have run") as caught:
                call(client)
            self.assertTrue(caught.exception.may_have_run)
            self.assertEqual((client.used().used, got[0], got[2:]), (1, "AUTH alice abc", ["AUTH alice abc", "USED"]))

    def test_a_quiet_pipeline(self):
        for retry, count in ((QUERIES, 1), (IDEMPOTENT, 2)):
            with scripted([None], [b"1"]) as (path, got), Client(path, 10, reconnect=True, retry=retry) as client:
                with suppress(ConnectionLost), client.pipeline(is_quiet=True) as pipe:
                    pipe.judy1("a").set(1)
                self.assertEqual(got, ["J1S a 1"] * count)

    def test_what_was_not_sent_is_sent_again(self):
        with scripted([b"OK"], [b"OK", b"1", b"1"]) as (path, got), Client(path, 10, reconnect=True) as client:
            client.auth("alice", "abc")
            client._link.connection._sock.shutdown(socket.SHUT_WR)  # so that nothing can be sent
            self.assertEqual((client.judy1("a").set(1), got), (True, ["AUTH alice abc", "AUTH alice abc", "J1S a 1"]))
            self.assertTrue(client.judy1("a").set(2))

    def test_a_log_in_that_is_refused(self):
        with scripted([b"OK", None], [b"ERR AUTH"], [b"ERR AUTH"]) as (path, _), Client(path, 10, reconnect=True) as client:
            client.auth("alice", "abc")
            for _ in range(2):
                self.assertRaises(NotAuthorized, client.used)

    def test_connections_that_end_again_and_again(self):
        with scripted([b"OK", None], *[[b"OK", None]] * 9) as (path, got), Client(path, 10, reconnect=True) as client:
            client.auth("alice", "abc")
            with self.assertRaises(ConnectionLost) as caught:
                client.used()
            self.assertEqual((caught.exception.may_have_run, got.count("USED")), (True, 10))

    def test_without_reconnect(self):
        with odd_server(b"OK\n") as path, Client(path, 10) as client:
            client.auth("alice", "abc")
            for may_have_run in (None, False):
                with self.assertRaises(ConnectionLost) as caught:
                    client.used()
                self.assertIn(may_have_run, (None, caught.exception.may_have_run))

    def test_a_part_of_a_pipeline(self):
        with scripted([b"1", b"0", None]) as (path, _), Client(path, 10) as client:
            with self.assertRaises(ConnectionLost) as caught, client.pipeline() as pipe:
                late = [pipe.judy1("a").set(i) for i in range(5)]
            self.assertEqual((late[0].result(), late[1].result(), caught.exception.may_have_run), (True, False, True))
            for lost in late[2:]:
                self.assertRaises(ConnectionLost, lost.result)

    def test_the_rest_of_a_pipeline_of_queries(self):
        with scripted([b"1", b"0", None], [b"1", b"1", b"0"]) as (path, got), Client(path, 10, reconnect=True) as client:
            with client.pipeline() as pipe:
                late = [pipe.judy1("a").test(i) for i in range(5)]
            self.assertEqual([it.result() for it in late], [True, False, True, True, False])
            self.assertEqual(got[3:], ["J1T a 2", "J1T a 3", "J1T a 4"])


class Restarts(WithServer):
    """A server that is ended, and started again."""

    def interrupted(self, jobs, end=None):
        """The results of jobs, each in a thread of its own. The server stops while they run, is
        ended, and starts again. Some time later the end is set."""
        with ThreadPoolExecutor(len(jobs)) as threads:
            runs = [threads.submit(job) for job in jobs]
            threading.Event().wait(0.1)
            self.served.freeze()
            threading.Event().wait(0.1)
            self.served.kill()
            self.served.start()
            if end is not None:
                threading.Event().wait(0.3)
                end.set()
            return [run.result(60) for run in runs]

    def until_lost(self, call, end=None):
        """Makes calls until the connection is lost, and tells whether the last may have run. None if
        the end comes before."""
        at = 0
        while end is None or not end.is_set():
            try:
                call(at)
            except ConnectionLost as e:
                return e.may_have_run
            at += 1
        return None

    def test_threads(self):
        client = self.alice()
        m = client.judyl("m")
        lost = self.interrupted([lambda number=number: self.until_lost(lambda at: m.insert(number, at)) for number in range(8)])
        self.assertEqual((lost.count(True) <= 1, lost.count(None)), (True, 0))  # at most one call was under way
        self.assertRaises(ConnectionLost, client.used)

    def test_threads_and_reconnect(self):
        client, end = self.alice(reconnect=True), threading.Event()
        m = client.judyl("m")
        lost = self.interrupted([lambda number=number: self.until_lost(lambda at: m.insert(number, at), end) for number in range(8)], end)
        self.assertEqual((lost.count(True) <= 1, lost.count(False)), (True, 0))  # the others go on
        self.assertEqual(m.free_array(), lost.count(None))

    def test_threads_that_may_go_on(self):
        client, end = self.alice(reconnect=True, retry=IDEMPOTENT), threading.Event()
        m, ids = client.judyl("m"), client.judy1("ids")
        client.judyl("w").update((i, i) for i in range(20000))

        def query():
            while not end.is_set():
                self.assertIn(m.get(5), (None, 6))
                with suppress(Restarted):
                    self.assertEqual(list(ids.walk(100)), [])

        def store():
            while not end.is_set():
                m[5] = 6
                ids.update(range(100))

        def walk():
            while not end.is_set():
                try:
                    seen = list(client.judyl("w").walk())
                except Restarted:
                    continue
                self.assertIn(seen, ([], [(i, i) for i in range(20000)]))  # never a part

        self.interrupted([query, query, store, store, walk], end)
        self.assertEqual((m[5], len(ids), len(client.judyl("w"))), (6, 100, 0))
        self.assertEqual((m.free_array(), ids.free_array()), (1, 100))

    def test_pipelines(self):
        client, late = self.alice(), []

        def piped(at):
            late.clear()
            with client.pipeline(window=None) as pipe:
                late.extend(pipe.judyl("m").insert(i, at + 1) for i in range(2000))
            self.assertEqual({it.result() for it in late}, {at})

        self.interrupted([lambda: self.until_lost(piped)])
        came = [it for it in late if it._reply is not None]
        self.assertEqual((late[: len(came)], len({it.result() for it in came}) <= 1, len(late)), (came, True, 2000))
        for later in late[len(came) :]:
            self.assertRaises(ConnectionLost, later.result)

    def test_a_pool(self):
        def use(pool):
            def once(at):
                with pool.client() as client:
                    client.judyl("m").insert(at, 1)

            return self.until_lost(once)

        with Pool(self.served.path, 4, "alice", "abc") as pool:
            self.assertEqual(self.interrupted([lambda: use(pool)] * 4), [True] * 4)
            with pool.client() as first, pool.client() as second:
                self.assertEqual((first.used().used, second.used().used), (0, 0))
            self.served.restart()  # while all clients of the pool are idle
            with pool.client() as first, pool.client() as second:
                self.assertEqual((first.used().used, second.used().used), (0, 0))
            self.served.kill()
            self.assertRaises(NoServer, pool.client().__enter__)
            self.served.start()
            with pool.client() as first:
                self.assertEqual(first.used().used, 0)

    def test_no_server_for_long(self):
        client = self.alice(timeout=0.3, reconnect=True)
        self.served.kill()
        try:
            self.assertRaises(NoServer, client.judy1("a").set, 1)
        finally:
            self.served.start()
        self.assertTrue(client.judy1("a").set(1))
        self.assertEqual(client.judy1("a").free_array(), 1)


if __name__ == "__main__":
    unittest.main()
