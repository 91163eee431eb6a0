"""Tests of methods for many things, of both clients, where something happens in the middle: replies that come byte by
byte, a refusal, an end of the connection, and lines that no buffer takes at once."""

import asyncio
import inspect
import os
import sys
import time
import unittest
from unittest import mock

sys.path.insert(0, os.path.dirname(os.path.abspath(__file__)))

from judyd import IDEMPOTENT, QUERIES, Client, ConnectionLost, Full, ReadOnly, aio  # noqa: E402
from judyd.lines import Lines  # noqa: E402
from served import WithClient, WithServer, odd_server  # noqa: E402
from test_restarts import scripted  # noqa: E402

KEYS = {"judy1": [1, 2, 3, 4, 5], "judyl": [1, 2, 3, 4, 5], "judysl": [b"a", b"b", b"c", b"d", b"e"], "judyhs": [b"", b"\0", b"c", b"d", b"e"]}
MAPS = ("judyl", "judysl", "judyhs")


def things_of(kind, name):
    """What a method is given: keys, or pairs of a key and a number."""
    return list(zip(KEYS[kind], range(7, 12))) if name == "add_many" or (name == "update" and kind != "judy1") else KEYS[kind]


async def given(result):
    """All that an asynchronous method gives."""
    return [item async for item in result] if inspect.isasyncgen(result) else await result


def asked(is_aio, path, call, log_in=("alice", "abc"), **options):
    """What a call of an array gives, or its exception, with a new client of either kind."""

    async def by_tasks():
        async with aio.Client(path, 60, **options) as client:
            await client.auth(*log_in) if log_in else None
            try:
                return await given(call(client))
            except Exception as e:
                return e

    if is_aio:
        return asyncio.run(by_tasks())
    with Client(path, 60, **options) as client:
        client.auth(*log_in) if log_in else None
        try:
            result = call(client)
            return list(result) if inspect.isgenerator(result) else result
        except Exception as e:
            return e


def called(kind, name, things=None):
    """A call of a method of an array, with its things or with others."""
    return lambda client: getattr(getattr(client, kind)("a"), name)(things_of(kind, name) if things is None else things)


METHODS = [  # each with replies to its five lines, and its result
    ("judy1", "update", b"1\n0\n1\n1\n1\n", None),
    ("judy1", "difference_update", b"1\n0\n1\n1\n1\n", None),
    ("judy1", "among", b"1\n0\n0\n1\n1\n", [1, 4, 5]),
    *((kind, "update", b"V 0\nV 18446744073709551615\nV 0\nV 3\nV 0\n", None) for kind in MAPS),
    *((kind, "add_many", b"V 7\nV 18446744073709551615\nV 0\nV 3\nV 11\n", [7, 2**64 - 1, 0, 3, 11]) for kind in MAPS),
    *((kind, "get_many", b"NULL\nV 18446744073709551615\nV 0\nNULL\nV 11\n", list(zip(KEYS[kind], [None, 2**64 - 1, 0, None, 11]))) for kind in MAPS),
    *((kind, "delete_many", b"1\n0\n1\n1\n0\n", 3) for kind in MAPS),
]


class Pieces(unittest.TestCase):
    """How replies come."""

    def test_byte_by_byte(self):
        with mock.patch("time.sleep"):  # the server's pauses
            for kind, name, replies, result in METHODS:
                for is_aio in (False, True):
                    with odd_server(*(replies[at : at + 1] for at in range(len(replies)))) as path:
                        self.assertEqual(asked(is_aio, path, called(kind, name), None), result, (kind, name, is_aio))

    def test_replies_that_come_early_are_held(self):
        with odd_server(b"1\n0\n1\n", b"1\nV 5") as path, Client(path, 60) as client:
            ids = client.judy1("a")
            self.assertEqual((ids.set(1), list(ids.among([1, 2])), ids.set(2)), (True, [2], True))
            self.assertRaises(ConnectionLost, client.judyl("a").get, 1)


    def test_each_reply_is_a_write_of_its_own(self):
        for length in (20, 100, 150, 200, 300, 450):  # the replies of a window take more than the buffers, and some windows too
            entries = [(b"%03d" % at + b"k" * (length - 3), at) for at in range(1000)]
            with scripted([b"V 0"] * 1000) as (path, got), Client(path, 10) as client:
                client.judysl("a").update(entries)
            self.assertEqual(len(got), 1000)


class Ends(unittest.TestCase):
    """The connection ends after two replies of five."""

    def test_a_loss(self):
        for kind, name, replies, _ in METHODS:
            for is_aio in (False, True):
                two = replies.split(b"\n")[:2]
                with odd_server(b"\n".join(two) + b"\n" + replies[:1]) as path:
                    lost = asked(is_aio, path, called(kind, name), None)
                self.assertIsInstance(lost, ConnectionLost, (kind, name, is_aio))
                self.assertEqual((lost.replies, lost.may_have_run), (two, True), (kind, name, is_aio))

    def test_what_is_sent_again(self):
        for kind, name, replies, result in METHODS:
            each = replies.split(b"\n")[:-1]
            may_repeat = {"among": QUERIES, "get_many": QUERIES, "add_many": None, "delete_many": None}.get(name, IDEMPOTENT)
            for is_aio in (False, True):
                for retry in (QUERIES, IDEMPOTENT):
                    with scripted(each[:2], each[2:]) as (path, got):
                        found = asked(is_aio, path, called(kind, name), None, reconnect=True, retry=retry)
                    if may_repeat in (QUERIES, retry):
                        self.assertEqual((found, len(got)), (result, 6), (kind, name, is_aio, retry))  # the third line came twice
                        self.assertEqual(got[2], got[3])
                    else:
                        self.assertIsInstance(found, ConnectionLost)
                        self.assertEqual((len(found.replies), len(got)), (2, 3))


    def test_an_end_before_the_last_piece(self):
        class Slow(Lines):
            """Lines whose last piece is made when the server has ended."""

            def pieces(self):
                yield b"J1S a 1\n" * 3
                time.sleep(0.5)
                yield b"J1S a 1\n" * 2

            def data(self):
                return b"J1S a 1\n" * 5

        with odd_server(b"1\n0\n0") as path, Client(path, 60) as client, self.assertRaises(ConnectionLost) as caught:
            client._exchange(Slow(b"", 5))
        self.assertEqual((caught.exception.replies, caught.exception.may_have_run), ([b"1", b"0"], True))
        with odd_server(b"1\n0\n0\n") as path, Client(path, 60) as client, self.assertRaises(ConnectionLost) as caught:
            client._exchange(Slow(b"", 5))
        self.assertEqual((caught.exception.replies, caught.exception.may_have_run), ([b"1", b"0", b"0"], False))


class Refused(WithServer):
    """A refusal in the middle. bob has room for three entries."""

    def bobs(self, is_aio, call):
        return asked(is_aio, self.served.path, call, ("bob", "hello"))

    def test_full(self):
        for is_aio in (False, True):
            for kind in MAPS:
                keys = KEYS[kind]
                for name, values in (("update", [1, 2, 3]), ("add_many", [2, 2, 3])):
                    things = [*zip(keys, range(1, 6)), (keys[0], 1)]  # two have no room, and the last one is there
                    self.assertIsInstance(self.bobs(is_aio, called(kind, name, things)), Full)
                    found = self.bobs(is_aio, called(kind, "get_many"))
                    self.assertEqual(found, list(zip(keys, [*values, None, None])), (kind, name, is_aio))
                    self.assertEqual(self.bobs(is_aio, called(kind, "delete_many")), 3)
            self.assertIsInstance(self.bobs(is_aio, called("judy1", "update", [1, 2, 3, 4, 1])), Full)
            self.assertEqual(self.bobs(is_aio, called("judy1", "among")), [1, 2, 3])
            self.assertIsNone(self.bobs(is_aio, called("judy1", "difference_update")))

    def test_no_window_after_it_is_sent(self):
        for is_aio in (False, True):
            taken = []

            def words(taken=taken):
                for index in range(2500):
                    taken.append(index)
                    yield index

            self.assertIsInstance(self.bobs(is_aio, called("judy1", "update", words())), Full)
            self.assertEqual(len(taken), 1000)
            self.assertIsInstance(self.bobs(is_aio, lambda client: client.judyl("a").add_many((it, 1) for it in range(2500))), Full)
            self.assertIsNone(self.bobs(is_aio, called("judy1", "difference_update", range(2500))))

    def test_read_only(self):
        for is_aio in (False, True):
            for kind, name, _, result in METHODS:
                found = asked(is_aio, self.served.path, called(kind, name), ("alice", "look"))
                self.assertIsInstance(found, list if isinstance(result, list) and name != "add_many" else ReadOnly, (kind, name))


class Sums(WithClient):
    """The new values of additions."""

    def test_additions(self):
        for array, keys in ((self.client.judyl("m"), range(1500)), (self.client.judyhs("h"), [b"%d" % it for it in range(1500)])):
            self.assertEqual(array.add_many(zip(keys, range(1500))), list(range(1500)))
            self.assertEqual(array.add_many({keys[0]: -1, keys[1]: 2**64 - 1, keys[2]: 5}), [2**64 - 1, 0, 7])
            self.assertEqual(array.add_many([(keys[7], 1)] * 3), [8, 9, 10])
            self.assertEqual(array.add_many([]), [])
            for wrong, error in ((2**64, ValueError), (-(2**64), ValueError), ("1", TypeError), (None, TypeError)):
                self.assertRaises(error, array.add_many, [(keys[3], 1), (keys[4], wrong)])
            self.assertEqual(array.get(keys[3]), 3)
            self.assertEqual(array.delete_many(keys), 1500)

    def test_additions_of_tasks(self):
        async def job(client):
            m = client.judysl("s", "utf-8")
            sums = await m.add_many({"a": 1, "b": 2}), await m.add_many([("a", 2), ("c", -1)])
            return sums, await m.delete_many(["a", "b", "c", "d"])

        self.assertEqual(asked(True, self.served.path, job), (([1, 2], [3, 2**64 - 1]), 3))

    def test_more_than_all_buffers_hold(self):
        keys = [b"%04d" % it * 250 for it in range(500)]  # a megabyte of lines in a window
        for is_aio in (False, True):
            self.assertIsNone(asked(is_aio, self.served.path, called("judysl", "update", [(key, 7) for key in keys])))
            self.assertEqual(asked(is_aio, self.served.path, called("judysl", "get_many", keys)), [(key, 7) for key in keys])
            self.assertEqual(asked(is_aio, self.served.path, called("judysl", "delete_many", keys)), 500)


if __name__ == "__main__":
    unittest.main()
