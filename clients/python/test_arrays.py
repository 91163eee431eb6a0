"""Tests of the four kinds of array: `python3 -m unittest discover clients/python`."""

import os
import random
import sys
import unittest

sys.path.insert(0, os.path.dirname(os.path.abspath(__file__)))

from judyd import MAX  # noqa: E402
from served import WithClient  # noqa: E402


class Sets(WithClient):
    """Judy1."""

    def setUp(self):
        super().setUp()
        self.ids = self.client.judy1("ids")

    def tearDown(self):
        self.ids.clear()
        super().tearDown()

    def test_the_calls_of_the_manual(self):
        ids = self.ids
        self.assertEqual([ids.set(5), ids.set(5), ids.set(MAX), ids.test(5), ids.test(6)], [True, False, True, True, False])
        self.assertEqual([ids.count(), ids.count(6), ids.count(0, 5), ids.count(9, 3)], [2, 1, 1, 0])
        self.assertEqual([ids.by_count(0), ids.by_count(1), ids.by_count(2), ids.by_count(3)], [None, 5, MAX, None])
        self.assertEqual([ids.first(), ids.first(6), ids.next(5), ids.next(MAX)], [5, MAX, MAX, None])
        self.assertEqual([ids.last(), ids.last(MAX - 1), ids.prev(MAX), ids.prev(5)], [MAX, 5, 5, None])
        self.assertEqual([ids.first_empty(5), ids.next_empty(4), ids.last_empty(), ids.prev_empty(5)], [6, 6, MAX - 1, 4])
        self.assertEqual([ids.next_empty(MAX), ids.prev_empty(0)], [None, None])
        self.assertEqual([ids.unset(5), ids.unset(5), ids.free_array(), ids.free_array()], [True, False, 1, 0])

    def test_a_python_set(self):
        ids = self.ids
        self.assertFalse(ids)
        ids.add(5)
        ids |= {7, 9}
        ids.update(range(20, 30))
        self.assertTrue(ids)
        self.assertTrue(5 in ids and 6 not in ids)
        self.assertEqual(len(ids), 13)
        self.assertEqual(list(ids)[:4], [5, 7, 9, 20])
        self.assertEqual(list(reversed(ids))[:2], [29, 28])
        self.assertEqual(list(ids.walk(9))[:2], [9, 20])
        self.assertEqual(ids & {7, 8, 9}, {7, 9})
        self.assertEqual(ids, {5, 7, 9, *range(20, 30)})
        ids.discard(6)
        ids.remove(5)
        self.assertRaises(KeyError, ids.remove, 5)
        self.assertEqual(ids.pop(), 7)

    def test_slices_of_ranks(self):
        self.ids.update(range(0, 1000, 10))
        ranks = self.ids.ranks
        self.assertEqual([len(ranks), ranks[0], ranks[7], ranks[-1]], [100, 0, 70, 990])
        self.assertEqual([ranks[2:5], ranks[98:], ranks[:3], ranks[::40]], [[20, 30, 40], [980, 990], [0, 10, 20], [0, 400, 800]])
        self.assertEqual([ranks[-2:], ranks[5:2], ranks[4:2:-1]], [[980, 990], [], [40, 30]])
        self.assertEqual(list(ranks), list(range(0, 1000, 10)))
        for rank in (100, -101):
            self.assertRaises(IndexError, ranks.__getitem__, rank)

    def test_words_and_names(self):
        for word in (-1, MAX + 1):
            self.assertRaisesRegex(ValueError, "a word is an int from 0 to %d, and not %d" % (MAX, word), self.ids.set, word)
        for word in ("5", b"5", 1.0, None, [5]):
            self.assertRaisesRegex(TypeError, "a word is an int from 0 to %d, and not " % MAX, self.ids.set, word)
        for name in ("", "a b", "a\n", "x" * 33, "ä"):
            self.assertRaisesRegex(ValueError, "a name is 1 to 32 of", self.client.judy1, name)
        for name in (b"a", None, 5):
            self.assertRaisesRegex(TypeError, "a name is a str", self.client.judy1, name)
        self.assertTrue(self.client.judy1("x" * 32).set(0))
        self.assertEqual(self.client.judy1("x" * 32).free_array(), 1)


class WordMaps(WithClient):
    """JudyL."""

    def tearDown(self):
        self.client.judyl("m").clear()
        super().tearDown()

    def test_the_calls_of_the_manual(self):
        m = self.client.judyl("m")
        self.assertEqual([m.insert(5, 8), m.insert(5), m.insert(5, 9), m.get(5), m.get(6)], [0, 8, 8, 9, None])
        self.assertEqual([m.insert(MAX), m.count(), m.count(6), m.by_count(1), m.by_count(3)], [0, 2, 1, (5, 9), None])
        self.assertEqual([m.first(), m.next(5), m.last(), m.prev(MAX), m.prev(5)], [(5, 9), (MAX, 0), (MAX, 0), (5, 9), None])
        self.assertEqual([m.first_empty(5), m.next_empty(5), m.last_empty(), m.prev_empty(6)], [6, 6, MAX - 1, 4])
        self.assertEqual([m.delete(5), m.delete(5), m.free_array()], [True, False, 1])

    def test_a_python_mapping(self):
        m = self.client.judyl("m")
        m[5] = 7
        m[6] = MAX
        m.update({7: 1, 8: 2})
        self.assertEqual([m[5], m.get(9), m.get(9, 3), m.setdefault(5, 1), m.pop(8)], [7, None, 3, 7, 2])
        self.assertTrue(5 in m and 9 not in m and m)
        self.assertEqual([len(m), list(m), list(m.items())], [3, [5, 6, 7], [(5, 7), (6, MAX), (7, 1)]])
        self.assertEqual([list(reversed(m)), list(m.walk(6)), m.ranks[0], m.ranks[1:]], [[7, 6, 5], [(6, MAX), (7, 1)], (5, 7), [(6, MAX), (7, 1)]])
        del m[5]
        self.assertRaises(KeyError, m.__getitem__, 5)
        self.assertRaises(KeyError, m.__delitem__, 5)
        self.assertRaises(TypeError, m.__setitem__, 5, None)
        self.assertRaises(ValueError, m.__setitem__, 5, -1)


class KeyMaps(WithClient):
    """JudySL and JudyHS."""

    def tearDown(self):
        self.client.judysl("s").clear()
        self.client.judyhs("h").clear()
        super().tearDown()

    def test_strings(self):
        s = self.client.judysl("s")
        for value, key in enumerate((b"", b"tree", b"tr", b"\xff" * 1000, b"abcdefgh", b"abcdefghi")):
            self.assertEqual(s.insert(key, value), 0)
        order = [b"", b"abcdefgh", b"abcdefghi", b"tr", b"tree", b"\xff" * 1000]
        self.assertEqual([list(s), list(reversed(s)), len(s), bool(s)], [order, order[::-1], 6, True])
        self.assertEqual([s.first(b"b"), s.next(b"tr"), s.last(), s.last(b"a"), s.prev(b"")], [(b"tr", 2), (b"tree", 1), (b"\xff" * 1000, 3), (b"", 0), None])
        self.assertEqual([s[b"tree"], b"tre" in s, s.delete(b"tr"), s.get(b"tr")], [1, False, True, None])
        self.assertRaises(ValueError, s.insert, b"a\0b")
        self.assertRaises(ValueError, s.insert, b"a" * 1001)
        self.assertRaises(TypeError, s.get, "tree")

    def test_texts(self):
        s = self.client.judysl("s", encoding="utf-8")
        s.update({"Bäume": 1, "Baum": 2}, Ast=3)
        self.assertEqual(list(s.items()), [("Ast", 3), ("Baum", 2), ("Bäume", 1)])
        h = self.client.judyhs("h", encoding="utf-8")
        h.update({"Bäume": 1}, Ast=3)
        self.assertEqual([h["Bäume"], h.get("Ast"), h.get("Baum"), "Ast" in h], [1, 3, None, True])

    def test_byte_keys(self):
        h = self.client.judyhs("h")
        h[b""] = 1
        h[b"\0"] = 2
        h[bytes(range(256))] = 3
        self.assertEqual([h[b""], h.get(b"\0"), h.get(b"\0\0", 9), h[bytearray(range(256))], b"\0" in h], [1, 2, 9, 3, True])
        self.assertEqual([h.insert(b"", 5), h.delete(b"\0"), h.delete(b"\0")], [1, True, False])
        del h[b""]
        self.assertRaises(KeyError, h.__getitem__, b"")
        self.assertEqual(h.free_array(), 1)

    def test_a_number_is_no_key(self):
        for array in (self.client.judysl("s"), self.client.judyhs("h")):
            for key in (0, 5, 7, [115], (115,), range(3)):
                for call in (lambda: array.__setitem__(key, 1), lambda: array[key], lambda: array.get(key), lambda: array.delete(key), lambda: array.update({0: 1})):
                    self.assertRaisesRegex(TypeError, "a key is bytes, bytearray, memoryview or, with an encoding, str", call)
        self.assertEqual(self.client.used().used, 0)

    def test_keys_are_bytes_or_texts(self):
        texts = {"encoding": "utf-8"}
        for key in (7, [1, 2], None, 1.5, True, ("a",), "text"):
            for array in (self.client.judysl("s"), self.client.judyhs("h")):
                self.assertRaises(TypeError, array.insert, key, 1)
                self.assertFalse(key in array)
        for key in (7, [1, 2], b"bytes", None):
            for array in (self.client.judysl("s", **texts), self.client.judyhs("h", **texts)):
                self.assertRaises(TypeError, array.insert, key, 1)
        for number, key in enumerate((b"a", bytearray(b"b"), memoryview(b"c"))):
            self.client.judysl("s")[key] = number
            self.client.judyhs("h")[key] = number
        self.assertEqual(list(self.client.judysl("s").items()), [(b"a", 0), (b"b", 1), (b"c", 2)])
        h = self.client.judyhs("h")
        self.assertEqual((sorted(h), set(h), dict(h.get_many(h))), ([b"a", b"b", b"c"], {b"a", b"b", b"c"}, {b"a": 0, b"b": 1, b"c": 2}))

    def test_strings_that_begin_so(self):
        s = self.client.judysl("s", encoding="utf-8")
        s.update((word, at) for at, word in enumerate(("a", "tr", "tree", "trees", "try", "ts", "t", "z")))
        self.assertEqual([key for key, _ in s.with_prefix("tr")], ["tr", "tree", "trees", "try"])
        self.assertEqual([list(s.with_prefix("q")), len(list(s.with_prefix("")))], [[], 8])

    def test_a_walk_beside_a_dictionary(self):
        draw, s, model = random.Random(1), self.client.judysl("s"), {}
        for _ in range(600):
            key = bytes(draw.choices(b"ab", k=draw.randrange(12)))
            if draw.random() < 0.6:
                s[key] = model[key] = draw.randrange(MAX)
            else:
                self.assertEqual(s.pop(key, None), model.pop(key, None))
        self.assertEqual(list(s.walk()), sorted(model.items()))
        self.assertEqual(list(s.walk(b"ab")), sorted(item for item in model.items() if item[0] >= b"ab"))
        self.assertEqual(list(s.walk_back(b"ab")), sorted((item for item in model.items() if item[0] <= b"ab"), reverse=True))

    def test_long_walks_of_strings(self):
        draw, s = random.Random(2), self.client.judysl("s")
        words = {bytes(draw.choices(b"etao", k=draw.randrange(3, 9))) for _ in range(3000)}
        alike = {b"user:%d" % i for i in range(4000)} | {b"\xff" * 1000, b"\xff" * 999, b"\x01", b"", b"user:" + b"\xff" * 995}
        for keys in (words, alike, words | alike | {draw.randbytes(9).replace(b"\0", b"") for _ in range(3000)}):
            s.clear()
            s.update((key, at) for at, key in enumerate(sorted(keys)))
            self.assertEqual(list(s.items()), [(key, at) for at, key in enumerate(sorted(keys))])
            start = draw.choice(sorted(keys))
            self.assertEqual([key for key, _ in s.walk(start)], [key for key in sorted(keys) if key >= start])
            self.assertEqual([key for key, _ in s.with_prefix(b"user:3")], [key for key in sorted(keys) if key.startswith(b"user:3")])


if __name__ == "__main__":
    unittest.main()
