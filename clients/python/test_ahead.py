"""Tests of windows that are made ahead, while a server works on the one before: what is sent, what is raised and when, and
that nothing of it can be seen where things come one by one."""

import asyncio
import os
import select
import sys
import unittest
from unittest import mock

sys.path.insert(0, os.path.dirname(os.path.abspath(__file__)))

from judyd import IDEMPOTENT, Client, ConnectionLost, Full, NoMemory, aio  # noqa: E402
from judyd.lines import Lines  # noqa: E402
from judyd.many import Ahead  # noqa: E402
from served import WithClient, WithServer, odd_server  # noqa: E402
from test_bulk import asked, called  # noqa: E402
from test_many import Broken, Kept, KeptByTasks, result_of  # noqa: E402
from test_restarts import scripted  # noqa: E402


class Telling(Kept):
    """A client that keeps its lines, and does what is to be done once they are sent."""

    def _exchange(self, lines, is_quiet=False):
        lines.told_sent()
        return super()._exchange(lines, is_quiet)


class TellingByTasks(KeptByTasks):
    """The same with asyncio."""

    async def _exchange(self, lines, is_quiet=False):
        lines.told_sent()
        return await super()._exchange(lines, is_quiet)


class Logged(Lines):
    """Lines that log when they are made in full."""

    def __init__(self, log, window):
        super().__init__(b"%d\n" % window[0] * len(window), len(window))
        self._log, self._first = log, window[0]

    def whole(self):
        self._log.append(("made", self._first))
        return self


class Made(unittest.TestCase):
    """When windows are made."""

    def log_of(self, things, is_ahead=True):
        """What happens with these things."""
        log = []
        for window, lines in Ahead(things, lambda window: Logged(log, window), is_ahead):
            log.append(("sent", window[0]))
            lines.told_sent()
            lines.told_sent()  # as for lines that are sent again
            log.append(("read", window[0]))
        return log

    def test_things_at_hand(self):
        n = 2500
        steps = [("sent", 0), ("made", 1000), ("read", 0), ("sent", 1000), ("made", 2000), ("read", 1000), ("sent", 2000), ("read", 2000)]
        for things in (range(n), list(range(n)), tuple(range(n)), dict.fromkeys(range(n)), dict.fromkeys(range(n)).keys(), set(range(n)), frozenset(range(n))):
            self.assertEqual(self.log_of(things), steps)
            self.assertEqual(self.log_of(things, is_ahead=False), [step for step in steps if step[0] != "made"])

    def test_things_that_come_one_by_one(self):
        class Own(list):
            """A list whose iterator may do anything."""

        for things in (iter(range(2500)), (at for at in range(2500)), Own(range(2500))):
            self.assertEqual([step for step, _ in self.log_of(things)], ["sent", "read"] * 3)

    def test_an_iterator_is_asked_for_no_more_than_its_window(self):
        for client in (Telling(), TellingByTasks()):
            taken = []

            def words(taken=taken, client=client):
                for at in range(2500):
                    self.assertEqual(len(client.sent), at // 1000)
                    taken.append(at)
                    yield at

            self.assertIsNone(result_of(client, "judy1", "update", words()))
            self.assertEqual(([len(window) for window in client.sent], len(taken)), ([1000, 1000, 500], 2500))

    def test_a_caller_that_changes_the_list_between_windows(self):
        client, keys = Telling(), list(range(2000))
        for at, (key, value) in enumerate(client.judyl("a").get_many(keys)):
            self.assertEqual((key, value), (at, None))
            if at == 1500:
                keys.append(2000)
        self.assertEqual(client.sent[2], [b"JLG a 2000"])


class Ends(unittest.TestCase):
    """What ends a method whose next window is made already."""

    def test_a_thing_that_is_wrong_counts_after_the_window_before(self):
        for wrong, error in ((-1, ValueError), (2**64, ValueError), ("5", TypeError), (None, TypeError), (Broken(), ZeroDivisionError)):
            things = [*range(1500), wrong]
            for kind in (Telling, TellingByTasks):
                for name, entries in (("judy1", things), ("judyl", [(it, 1) for it in things]), ("judyl", [(1, it) for it in things])):
                    client = kind()
                    self.assertEqual((result_of(client, name, "update", entries), list(map(len, client.sent))), (error, [1000]))
                    client = kind(*[b"1"] * 999, b"ERR MEMORY")  # a refusal comes first
                    self.assertEqual((result_of(client, name, "update", entries), list(map(len, client.sent))), (NoMemory, [1000]))

    def test_a_dict_that_grows_meanwhile(self):
        entries = dict.fromkeys(range(2500), 7)

        class Growing(Telling):
            """A client beside which the dict grows."""

            def _exchange(self, lines, is_quiet=False):
                entries[len(entries)] = 8
                return super()._exchange(lines, is_quiet)

        client = Growing()
        self.assertEqual(result_of(client, "judyl", "update", entries), RuntimeError)
        self.assertEqual(list(map(len, client.sent)), [1000])

    def test_a_refusal(self):
        for kind in (Telling, TellingByTasks):
            for name in ("update", "add_many"):
                client = kind(*[b"V 0"] * 500, b"FULL", *[b"V 0"] * 499)
                self.assertEqual((result_of(client, "judyl", name, [(it, 1) for it in range(2500)]), len(client.sent)), (Full, 1))

    def test_the_connection_ends_in_the_second_window(self):
        for is_aio in (False, True):
            with scripted([b"1"] * 1500) as (path, got):
                lost = asked(is_aio, path, called("judy1", "update", range(2500)), None)
            self.assertIsInstance(lost, ConnectionLost)
            self.assertEqual((len(lost.replies), lost.may_have_run, got[1500]), (500, True, "J1S a 1500"))

    def test_what_is_sent_again_is_made_once(self):
        for is_aio in (False, True):
            for first in (0, 300, 1000, 1300, 2000):
                with scripted([b"1"] * first, [b"1"] * (2500 - first)) as (path, got):
                    found = asked(is_aio, path, called("judy1", "update", range(2500)), None, reconnect=True, retry=IDEMPOTENT)
                self.assertIsNone(found)
                self.assertEqual(got, ["J1S a %d" % at for at in (*range(first + 1), *range(first, 2500))])


class Small(unittest.TestCase):
    """Windows of a few lines."""

    def test_nothing_is_registered_for_them(self):
        with odd_server(b"1\n" * 30, b"1\n" * 40, None) as path, Client(path, 10) as client:
            ids = client.judy1("a")
            with mock.patch.object(select, "poll", side_effect=AssertionError), mock.patch.object(select, "select", side_effect=AssertionError):
                for count in (1, 9, 10, 11):
                    ids.update(range(count))
                ids.add(5)
                self.assertEqual(client.lines([b"J1T a 5"] * 10), [b"1"] * 10)

    def test_a_silent_server(self):
        with odd_server(None) as path, Client(path, 0.05) as client:
            with self.assertRaises(ConnectionLost) as caught:
                client.judy1("a").update([1, 2])
        self.assertEqual((caught.exception.replies, caught.exception.may_have_run), ([], True))


class Edges(WithClient):
    """How many things there are."""

    def test_sizes(self):
        async def job(client, entries, keys):
            m = client.judyl("m")
            await m.update(entries)
            return [value async for _, value in m.get_many(keys)], await m.delete_many(keys)

        async def by_tasks(entries, keys):
            async with aio.Client(self.served.path, 60) as client:
                await client.auth("alice", "abc")
                return await job(client, entries, keys)

        m = self.client.judyl("m")
        for count in (0, 1, 10, 999, 1000, 1001, 2000):
            pairs = [(key * key, key) for key in range(count)]
            keys, values = [key for key, _ in pairs], [value for _, value in pairs]
            for make in (list, dict, iter) if count <= 1001 else (frozenset,):
                m.update(make(pairs))
                self.assertEqual(([value for _, value in m.get_many(iter(keys))], m.delete_many(keys)), (values, count), (make, count))
            for make in (dict, iter) if count <= 1 else (list,):
                self.assertEqual(asyncio.run(by_tasks(make(pairs), keys)), (values, count))

    def test_keys_of_all_kinds(self):
        for array, keys in (
            (self.client.judysl("s"), [b"k%04d" % at for at in range(1001)]),
            (self.client.judysl("s", "utf-8"), ["k%04d" % at for at in range(1001)]),
            (self.client.judyhs("h"), [b"\0" * at for at in range(1001)]),
        ):
            array.update([(key, at) for at, key in enumerate(keys)])
            self.assertEqual(array.add_many([(key, 1) for key in keys]), list(range(1, len(keys) + 1)))
            self.assertEqual([value for _, value in array.get_many(keys)], list(range(1, len(keys) + 1)))
            self.assertEqual(array.delete_many(keys), len(keys))


class Refused(WithServer):
    """A refusal of a server in a window after which another one is made already. bob has room for three."""

    def test_full(self):
        for is_aio in (False, True):
            for count in (999, 1000, 1001, 2500):
                found = asked(is_aio, self.served.path, called("judyl", "update", [*((5, at) for at in range(count - 4)), (6, 1), (7, 1), (8, 1), (9, 1)]), ("bob", "hello"))
                self.assertIsInstance(found, Full)
                self.assertEqual(asked(is_aio, self.served.path, called("judyl", "delete_many", [5, 6, 7, 8, 9]), ("bob", "hello")), 3)

    def test_nothing_after_the_window_of_a_refusal(self):
        for is_aio in (False, True):
            entries = [(at, 7) for at in range(4)] * 250 + [(0, 9)]  # the last one is of the next window
            self.assertIsInstance(asked(is_aio, self.served.path, called("judyl", "update", entries), ("bob", "hello")), Full)
            found = asked(is_aio, self.served.path, called("judyl", "get_many", [0, 1, 2, 3]), ("bob", "hello"))
            self.assertEqual(found, [(0, 7), (1, 7), (2, 7), (3, None)])
            asked(is_aio, self.served.path, called("judyl", "delete_many", [0, 1, 2]), ("bob", "hello"))


if __name__ == "__main__":
    unittest.main()
