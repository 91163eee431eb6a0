"""Tests of clients in threads and after a fork, and of pools."""

import hashlib
import os
import random
import sys
import threading
import time
import unittest
from concurrent.futures import ThreadPoolExecutor

sys.path.insert(0, os.path.dirname(os.path.abspath(__file__)))

from judyd import Client, Closed, JudyError, NotAuthorized, Pool, PoolEmpty  # noqa: E402
from served import WithClient, WithServer, in_child  # noqa: E402


def together(jobs):
    """The results of jobs, each in a thread of its own. All begin at the same time."""
    gate = threading.Barrier(len(jobs))

    def begun(job):
        gate.wait()
        return job()

    with ThreadPoolExecutor(len(jobs)) as threads:
        return [it.result(60) for it in [threads.submit(begun, job) for job in jobs]]


class Threads(WithClient):
    """Threads that share one client."""

    def calls(self, client, number, count):
        """So many calls of a thread, each with a result that only this thread can get."""
        m = client.judyl("m%d" % number)
        for at in range(count // 4):
            key, value = random.randrange(2**63), at * 8 + number
            got = [m.insert(key, value), m.get(key), m.first(), m.delete(key)]
            self.assertEqual(got, [0, value, (key, value), True])
        return count // 4 * 4

    def test_eight_threads(self):
        jobs = [lambda number=number: self.calls(self.client, number, 2000) for number in range(8)]
        self.assertEqual(sum(together(jobs)), 16000)

    def test_pipelines_walks_and_calls(self):
        def piped(number):
            with self.client.pipeline(window=50) as pipe:
                m = pipe.judyl("p%d" % number)
                late = [(m.insert(i, number + i), m.get(i), m.count()) for i in range(500)]
                self.client.judyl("m%d" % number).insert(1, 1)  # a call of the client inside its pipeline
                self.assertEqual(self.client.judyl("m%d" % number).free_array(), 1)
            self.assertEqual([(a.result(), b.result(), c.result()) for a, b, c in late], [(0, number + i, i + 1) for i in range(500)])
            self.assertEqual(list(self.client.judyl("p%d" % number).items()), [(i, number + i) for i in range(500)])
            self.assertEqual(self.client.judyl("p%d" % number).free_array(), 500)

        def walked():
            s = self.client.judysl("s")
            for index in self.client.judy1("ids"):  # a walk, and calls and another walk inside it
                if index % 1000 == 0:
                    self.assertEqual((len(list(s)), len(s), self.client.judy1("ids").count()), (500, 500, 5000))

        self.client.judy1("ids").update(range(5000))
        self.client.judysl("s").update((b"%d" % i, i) for i in range(500))
        jobs = [lambda number=number: piped(number) for number in range(4)]
        together([*jobs, walked, walked, lambda: self.calls(self.client, 9, 400), lambda: self.calls(self.client, 10, 400)])
        self.assertEqual([self.client.judy1("ids").free_array(), self.client.judysl("s").free_array()], [5000, 500])

    def test_one_pipeline_of_many_threads(self):
        with self.client.pipeline(window=64) as pipe:
            m = pipe.judyl("m")
            late = together([lambda number=number: [(i, m.insert(i, i), m.get(i)) for i in range(number, 4000, 8)] for number in range(8)])
        self.assertEqual({(i, before.result(), now.result()) for part in late for i, before, now in part}, {(i, 0, i) for i in range(4000)})
        self.assertEqual(self.client.judyl("m").free_array(), 4000)

    def test_a_call_inside_a_call(self):
        connection, said = self.client._link.connection, []

        def interrupted(lines):  # as by a signal handler that makes a call during an exchange
            with self.assertRaisesRegex(JudyError, "interrupted by another call"):
                self.client.used()
            said.extend(lines.each())
            return type(connection).exchange(connection, lines)

        connection.exchange = interrupted
        self.assertEqual((self.client.judy1("ids").count(), said), (0, [b"J1C ids 0 18446744073709551615"]))


class Walks(WithServer):
    """Walks of arrays that others change meanwhile."""

    def changed(self, change, read):
        """Walks while another client changes the array."""
        end = threading.Event()

        def others():
            with Client(self.served.path).auth("alice", "abc") as client:
                draw = random.Random(1)
                while not end.is_set():
                    change(client, draw)

        beside = threading.Thread(target=others)
        beside.start()
        try:
            until = time.monotonic() + 1.5
            while time.monotonic() < until:
                read()
        finally:
            end.set()
            beside.join()

    def check(self, seen, stays):
        self.assertEqual(seen, sorted(set(seen)))
        self.assertEqual([it for it in seen if it in stays], sorted(stays))

    def test_indexes(self):
        ids, stays = self.alice().judy1("ids"), set(range(0, 30000, 3))
        some, few = self.alice().judy1("some"), set(range(0, 30000, 9))
        ids.update(stays)
        some.update(few | {1, 4, 7, 29999})

        def change(client, draw):
            low, others = draw.randrange(30000), client.judy1("ids")
            several = [i for i in range(low, low + 300) if i % 3]
            others.update(several) if draw.random() < 0.5 else others.difference_update(several)

        def read():
            self.check(list(ids), stays)
            self.check(list(ids.walk_back())[::-1], stays)
            self.check(list(ids.intersection("some")), few)
            self.check(list(some.intersection("ids")), few)

        self.changed(change, read)
        ids.clear()
        some.clear()

    def test_strings(self):
        s, stays = self.alice().judysl("s"), {b"%04d" % i for i in range(0, 3000, 3)}
        s.update((key, 1) for key in stays)

        def change(client, draw):
            low, others = draw.randrange(3000), client.judysl("s")
            several = [b"%04d" % i for i in range(low, low + 100) if i % 3]
            others.update((key, 2) for key in several) if draw.random() < 0.5 else others.delete_many(several)

        self.changed(change, lambda: self.check(list(s), stays))
        s.clear()


    def test_byte_keys(self):
        h, stays = self.alice().judyhs("h"), {b"%04d" % i for i in range(0, 3000, 3)}
        h.update((key, 1) for key in stays)

        def change(client, draw):
            several, others = [b"%04d" % i for i in draw.sample(range(3000), 100) if i % 3], client.judyhs("h")
            others.update((key, 2) for key in several) if draw.random() < 0.5 else others.delete_many(several)

        def read():
            seen = list(h)
            self.assertEqual(seen, sorted(set(seen), key=lambda key: hashlib.sha256(key).digest()))
            self.assertEqual({it for it in seen if it in stays}, stays)

        self.changed(change, read)
        h.clear()


class Forks(WithServer):
    """Clients after a fork."""

    def calls(self, number):
        """500 calls with results that no other process gets."""
        m = self.client.judyl("m%d" % number)
        return all([m.insert(at, at + number) == 0 and m.get(at) == at + number for at in range(250)]) and m.free_array() == 250

    def test_parent_and_child(self):
        for reconnect in (False, True):
            self.client = self.alice(reconnect=reconnect)
            with in_child(lambda: self.calls(1000000)) as child, in_child(lambda: self.calls(2000000)) as other:
                self.assertTrue(self.calls(0))
            self.assertEqual((child.status, other.status), (0, 0))
            self.assertTrue(self.calls(0))

    def test_a_fork_while_threads_make_calls(self):
        self.client = self.alice()
        end = threading.Event()

        def go_on():
            while not end.is_set():
                self.client.judy1("ids").update(range(100))

        beside = threading.Thread(target=go_on)
        beside.start()
        try:
            for _ in range(10):  # mostly, the other thread holds the lock
                with in_child(lambda: self.calls(1000000)) as child:
                    pass
                self.assertEqual(child.status, 0)
        finally:
            end.set()
            beside.join()
        self.assertEqual(self.client.judy1("ids").free_array(), 100)

    def test_a_child_that_closes(self):
        self.client = self.alice()
        with in_child(lambda: self.client.close() is None) as child:
            pass
        self.assertEqual((child.status, self.client.used().used), (0, 0))
        self.client.close()
        with in_child(lambda: self.assertRaises(Closed, self.client.used) is None) as child:
            pass
        self.assertEqual(child.status, 0)

    def test_a_pipeline_belongs_to_its_process(self):
        def ends(pipe):
            with self.assertRaisesRegex(JudyError, "belongs to the parent process"):
                pipe.flush()
            return self.client.judy1("ids").count() == 0

        self.client = self.alice()
        with self.client.pipeline() as pipe:
            late = pipe.judy1("ids").set(5)
            with in_child(lambda: ends(pipe)) as child:
                pass
        self.assertEqual((child.status, late.result(), self.client.judy1("ids").free_array()), (0, True, 1))

    def test_a_pool(self):
        with Pool(self.served.path, 2, "alice", "abc") as pool, pool.client() as self.client:
            def ends():
                with pool.client() as first, pool.client() as second:  # the parent holds one of its two
                    return first.used().quota == second.used().quota == 1000000

            with in_child(ends) as child, in_child(lambda: self.calls(1000000)) as other:
                self.assertTrue(self.calls(0))
            self.assertEqual((child.status, other.status), (0, 0))


class Pools(WithServer):
    """Pools of clients."""

    def test_more_threads_than_clients(self):
        seen, most, lock = set(), [], threading.Lock()

        def job(number):
            for at in range(25):
                with pool.client() as client:
                    with lock:
                        self.assertNotIn(client, seen)
                        seen.add(client)
                        most.append(len(seen))
                    taken = client.judy1("ids").take(1)
                    self.assertEqual(client.judyl("m").insert(taken, number), 0)
                    with lock:
                        seen.remove(client)
            return True

        with Pool(self.served.path, 4, "alice", "abc") as pool:
            together([lambda number=number: job(number) for number in range(12)])
            with pool.client() as client:
                self.assertEqual([list(client.judy1("ids")), list(client.judyl("m"))], [list(range(1, 301))] * 2)
                self.assertEqual([client.judy1("ids").free_array(), client.judyl("m").free_array()], [300, 300])
        self.assertLessEqual(max(most), 4)
        self.assertRaises(Closed, pool.client().__enter__)

    def test_a_pool_that_is_empty(self):
        with Pool(self.served.path, 1, "alice", "abc", wait=0.1) as pool:
            with pool.client():
                with self.assertRaisesRegex(PoolEmpty, "all 1 clients of the pool were in use for 0.1 s"):
                    pool.client().__enter__()
            with pool.client() as client:
                self.assertEqual(client.used().used, 0)
        self.assertRaises(ValueError, Pool, self.served.path, 0, "alice", "abc")
        with Pool(self.served.path, 1, "alice", "abd", wait=0.1) as pool:
            for _ in range(3):  # a client that can't be made takes no place
                self.assertRaises(NotAuthorized, pool.client().__enter__)

    def test_a_client_that_is_no_more_fit(self):
        with Pool(self.served.path, 1, "alice", "abc") as pool:
            with pool.client() as first:
                first.quit()
            with pool.client() as second:
                second.auth("bob", "hello")
            with pool.client() as third, self.assertRaises(ZeroDivisionError):
                self.assertEqual(third.used().quota, 1000000)
                1 / 0
            with pool.client() as fourth:
                self.assertIs(fourth, third)  # it is well
            self.assertEqual(len({first, second, third}), 3)


if __name__ == "__main__":
    unittest.main()
