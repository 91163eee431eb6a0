"""Tests of a change whose reply is lost, beside another client that writes to the same place meanwhile."""

import os
import sys
import unittest

sys.path.insert(0, os.path.dirname(os.path.abspath(__file__)))

from judyd import IDEMPOTENT, QUERIES, Client, ConnectionLost, Pool, Retry  # noqa: E402
from served import WithServer  # noqa: E402

LEASE = 170000000


def lose_reply(client, between):
    """The next lines of a client run, and its connection is lost before their replies. Then the other
    job is done."""
    connection = client._link.connection
    exchange = connection.exchange

    def cut(lines):
        exchange(lines)
        connection.close()
        between()
        raise ConnectionLost("the connection was lost")

    connection.exchange = cut


class Leases(WithServer):
    """A lock that its owner gives back over a connection that is lost."""

    def setUp(self):
        self.other = self.alice()
        self.lock = self.other.judy1("lock")
        self.addCleanup(self.lock.clear)

    def test_a_lease_has_one_owner(self):
        for call in (lambda s: s.discard(LEASE), lambda s: s.difference_update([LEASE]), lambda s: s.clear()):
            client = self.alice(reconnect=True)
            lock = client.judy1("lock")
            self.assertTrue(lock.set(LEASE))
            acquired = []
            lose_reply(client, lambda acquired=acquired: acquired.append(self.lock.set(LEASE)))
            with self.assertRaises(ConnectionLost) as caught:
                call(lock)
            self.assertEqual((caught.exception.may_have_run, acquired), (True, [True]))
            self.assertFalse(lock.set(LEASE), "two clients have one lease")  # over the next connection
            self.lock.clear()

    def test_what_another_client_stored_stays(self):
        client = self.alice(reconnect=True)
        for owner, others, key in ((client.judyl("m"), self.other.judyl("m"), 5), (client.judyhs("m"), self.other.judyhs("m"), b"5")):
            for store in (lambda m, key=key: m.__setitem__(key, 1), lambda m, key=key: m.update({key: 1})):
                client.used()  # connects
                lose_reply(client, lambda others=others, key=key: others.insert(key, 2))
                self.assertRaises(ConnectionLost, store, owner)
                self.assertEqual(others[key], 2)
            self.assertEqual(others.free_array(), 1)

    def test_by_word_a_repeated_release_undoes_what_came_between(self):
        client = self.alice(reconnect=True, retry=IDEMPOTENT)
        lock = client.judy1("lock")
        self.assertTrue(lock.set(LEASE))
        lose_reply(client, lambda: self.lock.set(LEASE))
        lock.discard(LEASE)
        self.assertFalse(LEASE in self.lock)
        self.assertIn("what another client does between the two runs is undone", " ".join(Retry.__doc__.split()))

    def test_the_word(self):
        for retry in (None, True, "idempotent"):
            self.assertRaisesRegex(TypeError, "retry is QUERIES or IDEMPOTENT", Client, self.served.path, reconnect=True, retry=retry)
        self.assertRaisesRegex(ValueError, "needs reconnect=True", Client, self.served.path, retry=IDEMPOTENT)
        self.assertRaisesRegex(ValueError, "needs reconnect=True", Pool, self.served.path, 1, "alice", "abc", retry=IDEMPOTENT)
        for retry, is_there in ((QUERIES, True), (IDEMPOTENT, False)):
            with Pool(self.served.path, 1, "alice", "abc", reconnect=True, retry=retry) as pool, pool.client() as client:
                client.judy1("lock").set(LEASE)
                lose_reply(client, lambda: self.lock.set(LEASE))
                try:
                    client.judy1("lock").discard(LEASE)
                except ConnectionLost:
                    self.assertIs(retry, QUERIES)
                self.assertEqual(LEASE in self.lock, is_there)


if __name__ == "__main__":
    unittest.main()
