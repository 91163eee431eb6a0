"""Tests of methods for many things: the lines of each window, what ends them, and how little is done for each thing.
The lines of a window are made at once if all its things are of the usual types, and otherwise one by one. That makes no
difference to what is sent, stored and raised."""

import asyncio
import inspect
import os
import sys
import unittest

sys.path.insert(0, os.path.dirname(os.path.abspath(__file__)))

from judyd import MAX, Full, JudyError, KeyTooLong, NoMemory, ReadOnly, aio  # noqa: E402
from judyd.client import Arrays  # noqa: E402
from judyd.lines import joined  # noqa: E402
from served import WithServer  # noqa: E402


class Seven:
    """A number that is no int, as one of numpy."""

    def __index__(self):
        return 7


class Broken:
    """A number that can't be read."""

    def __index__(self):
        raise ZeroDivisionError


class Name(bytes):
    """Bytes of a type of their own."""


def hexed(key):
    """A key as a line has it."""
    return b"x" + bytes(key).hex().encode()


def raising(things, at):
    """The first of these things; then an exception."""
    yield from things[:at]
    raise ZeroDivisionError


def replied(line):
    """The reply of a server with empty arrays."""
    return {b"I": b"V 0", b"A": b"V 7", b"G": b"NULL"}.get(line.split(b" ")[0][-1:], b"0")


class Kept(Arrays):
    """A client without a server, which keeps the lines that it is to send, in windows. It has the given
    replies, or else those of empty arrays."""

    def __init__(self, *replies):
        self.sent, self._given = [], list(replies)

    def _exchange(self, lines, is_quiet=False):
        self.sent.append(lines.each())
        return joined(self._given or list(map(replied, self.sent[-1])))

    def _server(self):
        return self


class KeptByTasks(aio.Client):
    """The same with asyncio."""

    def __init__(self, *replies):
        super().__init__("nowhere")
        self.sent, self._given = [], list(replies)

    async def _exchange(self, lines, is_quiet=False):
        self.sent.append(lines.each())
        return joined(self._given or list(map(replied, self.sent[-1])))


def result_of(client, kind, name, things, *encoding):
    """What a method of a client returns, or the type of its exception."""

    async def listed():
        return [item async for item in result] if inspect.isasyncgen(result) else await result

    try:
        result = getattr(getattr(client, kind)("a", *encoding), name)(things)
        if isinstance(client, aio.Client):
            return asyncio.run(listed())
        return list(result) if inspect.isgenerator(result) else result
    except Exception as e:
        return type(e)


class WithBoth(unittest.TestCase):
    """Methods of both clients."""

    def both(self, kind, name, make, windows, result=None, *encoding):
        """Checks the lines that a method sends, in windows, and its result, or the type of its exception."""
        for client in (Kept(), KeptByTasks()):
            given = result_of(client, kind, name, make(), *encoding)
            self.assertEqual([len(window) for window in client.sent], [len(window) for window in windows])
            self.assertEqual((client.sent, given), (windows, result))


def cut(lines):
    """Lines in windows."""
    return [lines[at : at + 1000] for at in range(0, len(lines), 1000)]


class Lines(WithBoth):
    """What is sent."""

    def test_words(self):
        plain = [0, MAX, *range(10**18, 10**18 + 2498)]
        for odd in ([], [True], [Seven()], [False, Seven(), MAX, True]):
            things = plain + odd
            words = [it.__index__() for it in things]
            self.both("judy1", "update", lambda: iter(things), cut([b"J1S a %d" % it for it in words]))
            self.both("judy1", "difference_update", lambda: things, cut([b"J1U a %d" % it for it in words]))
            self.both("judy1", "among", lambda: things, cut([b"J1T a %d" % it for it in words]), [])
            self.both("judyl", "delete_many", lambda: things, cut([b"JLD a %d" % it for it in words]), 0)
            self.both("judyl", "get_many", lambda: things, cut([b"JLG a %d" % it for it in words]), [(it, None) for it in things])
            lines = cut([b"JLI a %d %d" % (it, value) for it, value in zip(words, reversed(words))])
            self.both("judyl", "update", lambda: zip(things, reversed(things)), lines)
            self.both("judyl", "update", lambda: [list(entry) for entry in zip(things, reversed(things))], lines)
            steps = [-MAX, -1, *(it - 5 for it in words[2:])]
            lines = cut([b"JLA a %d %d" % (it, step % (MAX + 1)) for it, step in zip(words, steps)])
            self.both("judyl", "add_many", lambda: zip(things, steps), lines, [7] * len(words))
        self.both("judyl", "update", lambda: {Seven(): Seven()}, [[b"JLI a 7 7"]])
        self.both("judyl", "add_many", lambda: {Seven(): Seven(), 8: -1}, [[b"JLA a 7 7", b"JLA a 8 18446744073709551615"]], [7, 7])
        for name in ("update", "difference_update", "among"):
            self.both("judy1", name, list, [], [] if name == "among" else None)

    def test_keys(self):
        plain = [b"", b"k" * 1000, b"\xff\n\r %d", *(b"key %d" % at for at in range(1500))]
        for kind, letters in (("judysl", b"JSL"), ("judyhs", b"JHS")):
            for odd in ([], [bytearray(b"array")], [memoryview(b"view")], [Name(b"name")], [b"\0"] if kind == "judyhs" else []):
                keys = plain + odd
                fields = [hexed(key) for key in keys]
                self.both(kind, "update", lambda: zip(keys, range(9, 9999)), cut([letters + b"I a %s %d" % it for it in zip(fields, range(9, 9999))]))
                self.both(kind, "get_many", lambda: keys, cut([letters + b"G a " + it for it in fields]), [(it, None) for it in keys])
                self.both(kind, "delete_many", lambda: keys, cut([letters + b"D a " + it for it in fields]), 0)

    def test_texts(self):
        keys = ["", "\n", "Bär", *("key %d" % at for at in range(1500))]
        for kind, letters in (("judysl", b"JSL"), ("judyhs", b"JHS")):
            for encoding in ("utf-8", "latin-1"):
                fields = [hexed(key.encode(encoding)) for key in keys]
                self.both(kind, "update", lambda: zip(keys, range(9999)), cut([letters + b"I a %s %d" % it for it in zip(fields, range(9999))]), None, encoding)
                self.both(kind, "get_many", lambda: keys, cut([letters + b"G a " + it for it in fields]), [(it, None) for it in keys], encoding)

    def test_what_can_not_be_there(self):
        indexes = [5, -1, MAX + 1, Seven(), *range(10, 1010)]
        fields = [b"5", b"7", *(b"%d" % it for it in range(10, 1010))]
        self.both("judyl", "get_many", lambda: indexes, [[b"JLG a " + it for it in some] for some in (fields[:998], fields[998:])], [(it, None) for it in indexes])
        for name, letter in (("among", b"T"), ("difference_update", b"U")):
            made = cut([b"J1%s a %s" % (letter, it) for it in fields])
            self.both("judy1", name, lambda: ["5", None, *indexes[:3], 5.0, *indexes[3:]], made, [] if name == "among" else None)
        keys = [b"a", b"\0", b"x" * 1001, b"b"]
        self.both("judysl", "get_many", lambda: keys, [[b"JSLG a x61", b"JSLG a x62"]], [(it, None) for it in keys])
        self.both("judyhs", "get_many", lambda: ["a", "\ud800"], [[b"JHSG a x61"]], [("a", None), ("\ud800", None)], "utf-8")


class Ends(WithBoth):
    """What ends a method. The windows before it are sent, and nothing of the window with the thing that is wrong."""

    def test_words_that_are_none(self):
        plain = list(range(2500))
        for wrong, error in ((-1, ValueError), (MAX + 1, ValueError), ("5", TypeError), (5.0, TypeError), (None, TypeError), (Broken(), ZeroDivisionError)):
            things = [*plain[:1500], wrong, -1 if error is TypeError else "5", *plain[1500:]]  # the first that is wrong counts
            self.both("judy1", "update", lambda: things, [[b"J1S a %d" % it for it in range(1000)]], error)
            self.both("judyl", "delete_many", lambda: things, [[b"JLD a %d" % it for it in range(1000)]], error)
            first = [[b"JLI a %d %d" % (it, it) for it in range(1000)]]
            self.both("judyl", "update", lambda: [(it, it) for it in things], first, error)
            self.both("judyl", "update", lambda: enumerate(things), first, error)
            self.both("judyl", "add_many", lambda: [(it, 1) for it in things], [[b"JLA a %d 1" % it for it in range(1000)]], error)
            steps = [(5, -MAX - 1 if it == -1 else it) for it in things]
            self.both("judyl", "add_many", lambda: steps, [[b"JLA a 5 %d" % it for it in range(1000)]], error)
            if error is not ValueError:
                self.both("judyl", "get_many", lambda: things, [[b"JLG a %d" % it for it in range(1000)]], error)

    def test_one_thing_alone(self):
        for thing, error in ((5, None), (True, None), (Seven(), None), (-1, ValueError), (MAX + 1, ValueError), (5.0, TypeError), ("5", TypeError), (None, TypeError), (Broken(), ZeroDivisionError)):
            number = b"%d" % thing.__index__() if error is None else b""
            for kind, things, line in (("judy1", [thing], b"J1S a " + number), ("judyl", [(thing, thing)], b"JLI a " + number + b" " + number), ("judyl", [(thing, 7)], b"JLI a " + number + b" 7")):
                self.both(kind, "update", lambda things=things: things, [[line]] if error is None else [], error)
            for make in (list, tuple, iter):
                self.both("judyl", "delete_many", lambda make=make, thing=thing: make([thing]), [[b"JLD a " + number]] if error is None else [], error or 0)

    def test_keys_that_are_none(self):
        plain = [b"%d" % at for at in range(1500)]
        for kind, letters in (("judysl", b"JSL"), ("judyhs", b"JHS")):
            wrong = [(b"k" * 1001, KeyTooLong), ("text", TypeError), (5, TypeError), (None, TypeError), ([1], TypeError)]
            for key, error in wrong + ([(b"a\0b", ValueError)] if kind == "judysl" else []):
                keys = [*plain[:1200], key, *plain[1200:]]
                self.both(kind, "update", lambda: ((it, 1) for it in keys), [[letters + b"I a %s 1" % hexed(it) for it in plain[:1000]]], error)
                self.both(kind, "delete_many", lambda: keys, [[letters + b"D a %s" % hexed(it) for it in plain[:1000]]], error)
            for key, error in (("k" * 1001, KeyTooLong), (b"k", TypeError), ("\ud800", UnicodeEncodeError), ("ä", UnicodeEncodeError)):
                self.both(kind, "update", lambda: [("a", 1), (key, 1)], [], error, "ascii" if key == "ä" else "utf-8")
            self.both(kind, "update", lambda: {"a": 1}, [], LookupError, "no encoding")

    def test_entries_that_are_no_pairs(self):
        first = [[b"JLI a %d %d" % (it, it) for it in range(1000)]]
        for wrong in ((5,), 5, None, ()):
            for client in (Kept(), KeptByTasks()):
                error = result_of(client, "judyl", "update", [*((it, it) for it in range(1500)), wrong, (-1, -1)])
                self.assertIn(error, (TypeError, ValueError, IndexError))
                self.assertEqual(client.sent, first)

        def update(entries):
            client = Kept()
            return result_of(client, "judyl", "update", entries), client.sent

        for wrong in ((1, 2, 3), [1, 2, 3], range(3), "abc"):
            self.assertEqual(update([(5, 5), wrong, (-1, "5")]), (ValueError, []))
        for entries in ([iter((5, 7)), (Seven(), 8)], [(5, 7), range(7, 9)], [(5, 7), {7: 0, 8: 0}]):  # whatever gives two things is a pair
            self.assertEqual(update(entries), (None, [[b"JLI a 5 7", b"JLI a 7 8"]]))
        self.assertEqual(update([iter((5, 7)), (6, None)]), (TypeError, []))

    def test_a_generator_that_raises(self):
        for at in (0, 999, 1000, 1500, 2000):
            first = at // 1000 * 1000
            self.both("judy1", "update", lambda: raising(range(2500), at), cut([b"J1S a %d" % it for it in range(first)]), ZeroDivisionError)
            entries = list(zip(range(2500), range(2500)))
            self.both("judyl", "update", lambda: raising(entries, at), cut([b"JLI a %d %d" % it for it in entries[:first]]), ZeroDivisionError)
        for things in (5, None):
            self.both("judy1", "update", lambda: things, [], TypeError)

    def test_a_refusal(self):
        for client, odd in ((kind, odd) for odd in ([], [True]) for kind in (Kept, KeptByTasks)):
            for kind, name in (("judy1", "update"), ("judy1", "difference_update"), ("judy1", "among"), ("judyl", "delete_many"), ("judyl", "get_many")):
                refusing = client(*[b"1"] * 500, b"ERR MEMORY", *[b"FULL"] * (499 + len(odd)))
                error = result_of(refusing, kind, name, [*odd, *range(2500)])
                self.assertEqual((error, len(refusing.sent)), (NoMemory, 1))  # it is the first one, and ends the method after its window
            for name in ("update", "add_many"):
                refusing = client(*[b"V 0"] * 999, b"FULL")
                self.assertEqual((result_of(refusing, "judyl", name, [*zip(odd, odd), *zip(range(2500), range(2500))]), len(refusing.sent)), (Full, 1))


class Replies(unittest.TestCase):
    """What replies mean."""

    def read(self, *replies, name="get_many"):
        """What is read of replies up to one that is none."""
        seen = []
        with self.assertRaisesRegex(JudyError, "no such answer"):
            client = Kept(*replies)
            for it in client.judyl("a").get_many(range(9)) if name == "get_many" else client.judy1("a").among(range(9)):
                seen.append(it)
        return seen

    def test_replies_that_are_none(self):
        for odd in (b"V 1", b"", b"10", b"OK", b"2"):
            self.assertEqual(self.read(b"1", b"0", b"1", odd, b"1", name="among"), [0, 2])
            self.assertRaisesRegex(JudyError, "no such answer", Kept(b"1", odd).judyl("a").delete_many, range(2))
            self.assertIsNone(Kept(b"1", odd).judy1("a").update(range(2)))  # nobody looks at them
        for odd in (b"NULL", b"1", b"V -1", b"V ", b"-"):
            self.assertRaisesRegex(JudyError, "no such answer", Kept(b"V 5", odd, b"V 6").judyl("a").add_many, [(1, 1)] * 3)
        for odd in (b"V", b"V ", b"V x", b"V -1", b"V 1 2", b"V  1", b"V +1", b"V 1_0", b"1", b"NULL ", b""):
            self.assertEqual(self.read(b"V 5", b"NULL", odd), [(0, 5), (1, None)])
            self.assertEqual(self.read(odd, b"V 5"), [])
            self.assertEqual(self.read(b"NULL", odd, b"NULL"), [(0, None)])
            self.assertRaisesRegex(JudyError, "no such answer", Kept(odd).judyl("a").insert, 1)


class Stored(WithServer):
    """What a server has after a refusal."""

    def test_refused_calls_stop_no_other(self):
        async def job():
            async with aio.Client(self.served.path, 60) as client:
                await client.auth("bob", "hello")
                m = client.judyl("m")
                with self.assertRaises(Full):
                    await m.update([(5, 1), (6, 1), (7, 1), (8, 1), (5, 2)])  # there is room for three
                return [item async for item in m.get_many([5, 8, -1])], await m.free_array()

        client = self.alice()
        client.auth("bob", "hello")
        m, ids = client.judyl("m"), client.judy1("ids")
        self.assertRaises(Full, m.update, [(5, 1), (6, 1), (7, 1), (8, 1), (5, 2)])
        self.assertEqual((list(m.get_many([5, 8, -1])), m.free_array()), ([(5, 2), (8, None), (-1, None)], 3))
        self.assertEqual(asyncio.run(job()), ([(5, 2), (8, None), (-1, None)], 3))
        self.assertRaises(Full, ids.update, [MAX, True, Seven(), 9, *range(5000)])
        self.assertEqual((list(ids.among([MAX, True, 7, 9])), ids.free_array()), ([MAX, True, 7], 3))
        client.auth("alice", "look")
        for call in (lambda: ids.update([1]), lambda: ids.difference_update([1]), lambda: m.delete_many([1]), lambda: m.update({1: 1})):
            self.assertRaises(ReadOnly, call)


class Work(unittest.TestCase):
    """How little is done for each thing: calls of Python's functions, which cost the most."""

    def calls(self, job):
        """How often functions are called, or generators go on, in a job."""
        count = 0

        def told(frame, event, _):
            nonlocal count
            count += event == "call"

        before = sys.getprofile()
        sys.setprofile(told)
        try:
            job()
        finally:
            sys.setprofile(before)
        return count

    def test_calls(self):
        client, n = Kept(), 3000
        ids, m, s, h = client.judy1("ids"), client.judyl("m"), client.judysl("s"), client.judyhs("h", "utf-8")
        words, keys, texts = range(n), [b"%d" % at for at in range(n)], ["%d" % at for at in range(n)]
        for most, job in (
            (0, lambda: ids.update(words)),
            (0, lambda: m.update(zip(words, words))),
            (0, lambda: m.update(dict(zip(words, words)))),
            (0, lambda: s.update(zip(keys, words))),
            (0, lambda: h.update(zip(texts, words))),
            (1, lambda: ids.difference_update(words)),
            (1, lambda: list(ids.among(words))),
            (0, lambda: m.add_many(zip(words, words))),
            (0, lambda: m.delete_many(words)),
            (1, lambda: list(m.get_many(words))),
            (1, lambda: list(h.get_many(texts))),
        ):
            self.assertLess(self.calls(job), (1.5 + most) * n)  # one makes the reply

    def test_calls_of_tasks(self):
        client, n = KeptByTasks(), 3000
        ids, m = client.judy1("ids"), client.judyl("m")

        async def job():
            await ids.update(range(n))
            await m.update(zip(range(n), range(n)))
            await ids.difference_update(range(n))
            await m.delete_many(range(n))
            await m.add_many(zip(range(n), range(n)))

        self.assertLess(self.calls(lambda: asyncio.run(job())), (5 + 1 + 0.5) * n)  # five make the replies


if __name__ == "__main__":
    unittest.main()
