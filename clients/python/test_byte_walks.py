"""Tests of walks over a JudyHS: one call, the mapping, and what another client changes meanwhile."""

import asyncio
import hashlib
import os
import random
import sys
import unittest

sys.path.insert(0, os.path.dirname(os.path.abspath(__file__)))

from judyd import Client, JudyError, aio  # noqa: E402
from judyd.walks import FEW  # noqa: E402
from judyd.wording import advice, help_of, told  # noqa: E402
from served import WithClient, WithServer  # noqa: E402
from test_restarts import scripted  # noqa: E402

ODD = (b"E", b"E 1", b"E 1 5", b"E 1 x61", b"E 1 5 6 x61", b"E 1 a x61", b"E 1 5 xzz", b"I 0 0", b"V 5 x61", b"NULL", b"0", b"N 5")


def place(key):
    """What the server's order goes by."""
    return hashlib.sha256(key).digest()[:8], key


def in_order(entries):
    """The entries of a dictionary in the server's order."""
    return sorted(entries.items(), key=lambda entry: place(entry[0]))


class Bytes(WithClient):
    """A JudyHS of a client, and the lines that the client sends."""

    def setUp(self):
        super().setUp()
        self.h, self.sent = self.client.judyhs("h"), []
        exchange = self.client._exchange

        def kept(lines, is_quiet=False):
            self.sent += [line.decode() for line in lines.each()]
            return exchange(lines, is_quiet)

        self.client._exchange = kept

    def tearDown(self):
        self.h.clear()
        super().tearDown()

    def filled(self, keys):
        """The array with these keys and no others: its entries in order."""
        entries = {key: at for at, key in enumerate(keys)}
        self.h.clear()
        self.h.update(entries)
        self.sent.clear()
        return in_order(entries)


class Results(Bytes):
    """What calls and walks return."""

    def test_one_call(self):
        h = self.h
        self.assertEqual([h.first(), h.next(b"a"), bool(h), len(h)], [[], [], False, 0])
        entries = self.filled([b"", b"\0", b"a", b"b", bytes(range(256)), b"\xff" * 1000])
        self.assertEqual([h.first(), h.first(1), h.first(6), h.first(5)], [entries, entries[:1], entries, entries[:5]])
        self.assertEqual(self.sent, ["JHSF h 65535", "JHSF h 1", "JHSF h 6", "JHSF h 5"])
        for at, (key, _) in enumerate(entries):
            self.assertEqual([h.next(key), h.next(key, 2), h.next(bytearray(key), 1)], [entries[at + 1 :], entries[at + 1 : at + 3], entries[at + 1 : at + 2]])
        for absent in (b"c", b"d", b"\0\0", b"x" * 999):
            self.assertEqual(h.next(absent), [it for it in entries if place(it[0]) > place(absent)])

    def test_what_fits(self):
        entries = self.filled([b"%0999d" % at for at in range(5)])
        self.assertEqual([len(self.h.first()), self.h.next(entries[3][0], 9), list(self.h.items())], [2, entries[4:], entries])

    def test_what_is_refused_here(self):
        for call in (self.h.first, lambda most: self.h.next(b"a", most)):
            for most, error in ((0, ValueError), (65536, ValueError), (-1, ValueError), (None, TypeError), ("9", TypeError)):
                self.assertRaisesRegex(error, "how many there are at most", call, most)
        for call in (self.h.next, self.h.walk):
            for key, error in ((5, TypeError), ("a", TypeError), (b"a" * 1001, ValueError)):
                self.assertRaisesRegex(error, "a key", call, key)
        self.assertRaises(TypeError, self.h.next, None)
        self.assertRaises(TypeError, reversed, self.h)
        self.assertEqual(self.sent, [])

    def test_a_mapping(self):
        draw = random.Random(16)
        for keys in ([], [b"a"], [b"%d" % at for at in range(FEW)], [b"%d" % at for at in range(FEW + 1)], {draw.randbytes(draw.randrange(40)) for _ in range(4000)}):
            entries, h = self.filled(keys), self.h
            self.assertEqual([list(h.items()), list(h), list(h.keys()), list(h.values())], [entries, [key for key, _ in entries], [key for key, _ in entries], [value for _, value in entries]])
            self.assertEqual([dict(h), len(h), bool(h), h == dict(entries)], [dict(entries), len(entries), bool(entries), True])
            for at in draw.sample(range(len(entries)), min(9, len(entries))):
                self.assertEqual(list(h.walk(entries[at][0])), entries[at + 1 :])
            absent = b"not " + draw.randbytes(8)
            self.assertEqual(list(h.walk(absent)), [it for it in entries if place(it[0]) > place(absent)])

    def test_texts(self):
        texts = self.client.judyhs("h", "utf-8")
        texts.update({"Bäume": 1, "Ast": 2, "": 3})
        entries = [(key.decode(), value) for key, value in in_order({"Bäume".encode(): 1, b"Ast": 2, b"": 3})]
        self.assertEqual([texts.first(), texts.next(entries[0][0], 1), list(texts.items()), list(texts.walk(entries[1][0]))], [entries, entries[1:2], entries, entries[2:]])
        self.assertEqual([texts.popitem(), len(texts)], [entries[0], 2])

    def test_how_many_lines(self):
        entries = self.filled([b"key %05d" % at for at in range(10000)])
        self.assertEqual(list(self.h.items()), entries)
        self.assertEqual(self.sent[:2], ["JHSF h %d" % FEW, "JHSN h x%s 65535" % entries[FEW - 1][0].hex()])
        self.assertLessEqual(len(self.sent), 10000 // (4088 // 26) + 3)
        self.sent.clear()
        self.assertEqual((next(iter(self.h)), len(self.sent)), (entries[0][0], 1))
        self.sent.clear()
        self.assertEqual((list(self.h.walk(entries[-2][0])), len(self.sent)), (entries[-1:], 1))
        self.filled([b"a", b"b"])
        self.assertEqual((len(list(self.h)), len(self.sent)), (2, 1))

    def test_a_pipeline(self):
        entries = self.filled([b"a", b"b", b"c"])
        with self.client.pipeline() as pipe:
            h = pipe.judyhs("h")
            late = [h.first(2), h.delete(entries[0][0]), h.first(), h.next(entries[0][0], 1), pipe.judyhs("h", "utf-8").next("a" if entries[2][0] == b"a" else entries[1][0].decode())]
        self.assertEqual([it.result() for it in late[:4]], [entries[:2], True, entries[1:], entries[1:2]])
        self.assertEqual(late[4].result(), [] if entries[2][0] == b"a" else [(entries[2][0].decode(), entries[2][1])])

    def test_the_words_of_judy(self):
        self.assertEqual([told("JHSF h 9", "E 2 5 x61 6 xff"), told("JHSN h x 9", "E 0")], [("2 found", '5 "a" 6 xff', ""), ("0 found", "", "")])
        for line in ("JHSF h 0", "JHSF h 65536", "JHSN h x61 0", "JHSN h x61 -1"):
            self.assertIn("a number of entries is 1 to 65535", advice(line, "ERR SYNTAX"))
        self.assertIn("it is written JHSF name n", advice("JHSF h", "ERR SYNTAX"))
        self.assertIn("it is written JHSN name key n", advice("JHSN h x61", "ERR SYNTAX"))
        self.assertIn("JHSF name n   JudyHSFirst the first n keys, in the order of", help_of("JHSF"))
        self.assertIn("JHSN name key n   JudyHSNext the first n keys behind this one", help_of("JHSN"))


class Refusals(WithServer):
    """Who may look."""

    def test_a_read_only_token_suffices(self):
        alice = self.alice().judyhs("h")
        alice.update({b"a": 1, b"b": 2})
        with Client(self.served.path).auth("alice", "look") as looks:
            self.assertEqual((looks.judyhs("h").first(), dict(looks.judyhs("h"))), (in_order({b"a": 1, b"b": 2}), {b"a": 1, b"b": 2}))
        alice.clear()


class Beside(Bytes):
    """Another client writes between the lines of a walk."""

    def test_what_stays_comes_once(self):
        draw, keys = random.Random(17), [b"%05d" % at for at in range(6000)]
        stays = set(keys[::3])
        self.filled(stays | set(keys[::2]))
        other, exchange, lines = self.alice().judyhs("h"), self.client._exchange, []

        def beside(asked, is_quiet=False):
            if lines:
                some = [it for it in draw.sample(keys, 900) if it not in stays]
                other.update((key, 1) for key in some) if draw.random() < 0.5 else other.delete_many(some)
            lines.append(asked)
            return exchange(asked, is_quiet)

        self.client._exchange = beside
        for _ in range(8):
            seen = list(self.h)
            self.assertEqual(seen, sorted(set(seen), key=place))
            self.assertEqual({it for it in seen if it in stays}, stays)
        self.assertGreater(len(lines), 80, "it takes several lines")

    def test_a_map_that_changes_in_its_walk(self):
        self.filled([b"%d" % at for at in range(3000)])
        for key in self.h:
            del self.h[key]
        self.assertEqual(len(self.h), 0)


class Tasks(WithServer):
    """With asyncio."""

    def test_of_tasks(self):
        entries = in_order({b"%d" % at: at for at in range(5000)})

        async def job():
            async with aio.Client(self.served.path) as client:
                await client.auth("alice", "abc")
                h = client.judyhs("h")
                await h.update(entries)
                self.assertEqual([it async for it in h.walk()], entries)
                self.assertEqual([it async for it in h.walk(entries[99][0])], entries[100:])
                self.assertEqual(await asyncio.gather(h.first(2), h.next(entries[1][0], 1), client.judyhs("none").first()), [entries[:2], entries[2:3], []])
                texts = client.judyhs("h", "utf-8")
                self.assertEqual([key async for key, _ in texts.walk("1")], [key.decode() for key, _ in entries if place(key) > place(b"1")])
                async with client.pipeline() as pipe:
                    late = pipe.judyhs("h").first(1)
                self.assertEqual((late.result(), await h.free_array()), (entries[:1], 5000))
                self.assertRaises(TypeError, h.walk, 5)

        asyncio.run(job())


class Odd(unittest.TestCase):
    """Replies that are none to a walk."""

    def test_replies(self):
        for reply in ODD:
            for call in (lambda h: h.first(), lambda h: h.next(b"a"), list):
                with scripted([reply]) as (path, got), Client(path, 10) as client:
                    with self.assertRaisesRegex(JudyError, "no such answer", msg=reply):
                        call(client.judyhs("h"))
                    self.assertEqual(len(got), 1)

    def test_a_lost_line_is_asked_again(self):
        sixteen = b"E 16" + b" 5 x61" * 16
        with scripted([sixteen, None], [b"E 1 6 x62"]) as (path, got), Client(path, 10, reconnect=True) as client:
            self.assertEqual(list(client.judyhs("h").values()), [5] * 16 + [6])
        self.assertEqual(got, ["JHSF h 16", "JHSN h x61 65535", "JHSN h x61 65535"])

    def test_a_server_that_cannot_walk(self):
        with scripted([b"ERR SYNTAX"]) as (path, _), Client(path, 10) as client:
            self.assertRaisesRegex(JudyError, "ERR SYNTAX", list, client.judyhs("h"))


if __name__ == "__main__":
    unittest.main()
