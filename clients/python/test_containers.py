"""Tests of arrays as the sets and mappings of Python: what is in them, races, comparisons, and parts in order."""

import os
import sys
import unittest

sys.path.insert(0, os.path.dirname(os.path.abspath(__file__)))

from judyd import MAX, KeyTooLong, many  # noqa: E402
from served import WithClient  # noqa: E402

STRANGE = (-1, MAX + 1, "5", b"5", 5.0, None, (5,), [5])  # no words, though some of them are numbers


class Seven:
    """Something with `__index__`, as a number of numpy."""

    def __index__(self):
        return 7


class Containers(WithClient):
    """Arrays that are empty at the beginning, and are emptied after each test."""

    def setUp(self):
        super().setUp()
        client = self.client
        self.ids, self.m, self.s, self.h = client.judy1("ids"), client.judyl("m"), client.judysl("s"), client.judyhs("h")
        for array in (self.ids, self.m, self.s, self.h):
            self.addCleanup(array.clear)

    def tearDown(self):
        for array in (self.ids, self.m, self.s, self.h):
            array.clear()
        super().tearDown()

    def before_next(self, job, letters, is_ahead=False):
        """Another client does a job after the next call of the client with these letters, or right ahead of
        it, once."""
        ask, left = self.client._ask, [job]

        def asked(line, read, is_quiet=False):
            jobs = [left.pop()] if left and line.split()[0].endswith(letters) else []
            for it in jobs if is_ahead else ():
                it()
            result = ask(line, read, is_quiet)
            for it in () if is_ahead else jobs:
                it()
            return result

        self.client._ask = asked


class Membership(Containers):
    """What may be in an array."""

    def test_no_word_is_in_a_set(self):
        ids = self.ids
        ids.update({5, 6})
        for thing in STRANGE:
            self.assertFalse(thing in ids, thing)
            self.assertFalse(thing in ids.ranks, thing)
            self.assertEqual((list(ids.among([thing, 5])), ids & [thing, 6]), ([5], {6}))
            ids.difference_update([thing])
        self.assertTrue(5 in ids and Seven() not in ids and True not in ids)
        self.assertEqual((ids == {5, -1}, ids <= {5, 6, "7"}, ids.isdisjoint([-1]), {-1, 5} - ids), (False, True, True, {-1}))
        ids -= {-1, 6}
        self.assertEqual(ids, {5})

    def test_an_index_out_of_range_is_absent(self):
        for index in (-1, MAX + 1):
            self.ids.discard(index)
            self.assertRaises(KeyError, self.ids.remove, index)
            self.assertRaises(KeyError, self.m.__delitem__, index)
            self.assertRaises(KeyError, self.m.__getitem__, index)
            self.assertEqual((self.m.get(index), self.m.get(index, 3), self.m.pop(index, 4)), (None, 3, 4))
            self.assertEqual(dict(self.m.get_many([index, 5])), {index: None, 5: None})
            for call in (self.ids.add, self.ids.set, self.ids.unset, self.ids.take, self.m.insert, self.m.delete, self.ids.count, self.ids.walk):
                self.assertRaises(ValueError, call, index)
        for index in ("5", 5.0, None):
            for call in (self.ids.add, self.ids.discard, self.ids.remove, self.m.get, self.m.pop, self.m.__getitem__, self.m.__delitem__, self.ids.next):
                self.assertRaisesRegex(TypeError, "a word is an int", call, index)

    def test_no_other_key_is_in_a_map(self):
        self.m[5], self.s[b"a"], self.h[b"a"] = 1, 2, 3
        for thing in STRANGE:
            self.assertFalse(thing in self.m, thing)
            self.assertFalse((thing, 1) in self.m.ranks, thing)
        for array in (self.s, self.h):
            for thing in (5, "a", None, [97], b"x" * 1001):
                self.assertFalse(thing in array, thing)
            self.assertTrue(b"a" in array)
            self.assertEqual((array.get(b"x" * 1001), array.get(b"x" * 1001, 9)), (None, 9))
            self.assertRaises(KeyTooLong, array.insert, b"x" * 1001)
            self.assertRaises(TypeError, array.get, "a")
        self.assertEqual((b"\0" in self.s, self.s.get(b"\0"), self.client.judysl("s", "ascii").get("ä")), (False, None, None))

    def test_what_has_an_index_is_a_word(self):
        ids, m = self.ids, self.m
        ids.add(Seven())
        m[Seven()] = Seven()
        self.assertEqual((Seven() in ids, list(ids), m[7], m.add(Seven(), Seven())), (True, [7], 7, 14))
        self.assertEqual((list(ids.walk(Seven())), list(ids.walk(0, Seven())), ids.take(Seven()), ids.count(Seven(), Seven())), ([7], [], 8, 1))
        ids.update(range(20))
        self.assertEqual((ids.ranks[Seven()], ids.ranks[: Seven()], ids.by_count(Seven())), (7, list(range(7)), 6))


class Races(Containers):
    """Keys that another client takes in the middle of a call."""

    def arrays(self):
        """Each kind of map, with a key of it, and the map of another client."""
        other = self.alice()
        return ((self.m, 5, other.judyl("m")), (self.s, b"k", other.judysl("s")), (self.h, b"k", other.judyhs("h")))

    def test_pop(self):
        for array, key, other in self.arrays():
            array[key] = 7
            self.assertEqual((array.pop(key), array.pop(key, 8), array.pop(key, None)), (7, 8, None))
            with self.assertRaises(KeyError) as caught:
                array.pop(key)
            self.assertEqual(caught.exception.args, (key,))
            array[key] = 7
            self.before_next(lambda other=other, key=key: other.delete(key), b"T", True)
            self.assertEqual(array.pop(key, 9), 9)  # the other has it
            array[key] = 7
            self.before_next(lambda other=other, key=key: other.insert(key, 8), b"T", True)
            self.assertEqual((array.pop(key, 9), array.get(key)), (8, None))  # what another client stored is not lost

    def test_popitem(self):
        for array, key, other in self.arrays()[:2]:
            later = key + 1 if array is self.m else key + b"1"
            array.update({key: 7, later: 8})
            self.before_next(lambda other=other, key=key: other.delete(key), b"DF", True)
            self.assertEqual(array.popitem(), (later, 8))
            array[key] = 7
            self.before_next(lambda other=other, key=key: other.insert(key, 9), b"DF", True)
            self.assertEqual(array.popitem(), (key, 9))
            array[key] = 7
            self.before_next(lambda other=other, key=key: other.delete(key), b"DF", True)
            self.assertRaisesRegex(KeyError, "the map is empty", array.popitem)
            array[key] = 7
            self.before_next(lambda other=other, later=later: other.insert(later, 8), b"DF")
            self.assertEqual((array.popitem(), array.free_array()), ((key, 7), 1))  # what comes later stays

    def test_popitem_of_byte_keys(self):
        h, other = self.h, self.alice().judyhs("h")
        h.update({b"k": 7, b"l": 8})
        (key, value), later = h.first(1)[0], h.next(h.first(1)[0][0])
        self.before_next(lambda: other.delete(key), b"D", True)
        self.assertEqual([h.popitem()], later)
        h[key] = value
        self.before_next(lambda: other.insert(key, 9), b"D", True)
        self.assertEqual(h.popitem(), (key, 9))  # what another client stored is not lost
        h[key] = value
        self.before_next(lambda: other.delete(key), b"D", True)
        self.assertRaisesRegex(KeyError, "the map is empty", h.popitem)
        self.assertRaisesRegex(KeyError, "the map is empty", h.popitem)

    def test_pop_and_take_of_a_set(self):
        ids, other = self.ids, self.alice().judy1("ids")
        ids.update({5, 6})
        self.before_next(lambda: other.unset(5), b"UF", True)
        self.assertEqual(ids.pop(), 6)
        self.before_next(lambda: other.set(4), b"UF", True)
        self.assertEqual(ids.pop(), 4)
        ids.add(5)
        self.before_next(lambda: other.unset(5), b"UF", True)
        self.assertRaisesRegex(KeyError, "the set is empty", ids.pop)
        self.before_next(lambda: other.set(1), b"SE", True)
        self.assertEqual((ids.take(1), list(ids)), (2, [1, 2]))

    def test_setdefault(self):
        for array, key, other in self.arrays():
            self.assertEqual((array.setdefault(key, 4), array.setdefault(key, 5), array[key]), (4, 4, 4))
            self.before_next(lambda other=other, key=key: other.insert(key, 8), b"K", True)
            self.assertEqual((array.setdefault(key, 6), array.pop(key)), (8, 8))
            self.before_next(lambda other=other, key=key: other.insert(key, 8), b"K", True)
            self.assertEqual((array.setdefault(key, 6), array.pop(key)), (8, 8))  # what another client stored stays
            self.assertEqual((array.setdefault(key, 0), array.setdefault(key, 3), array[key]), (0, 0, 0))
            self.assertRaises(TypeError, array.setdefault, b"l" if key == b"k" else 6, None)
            array.clear()


class Comparisons(Containers):
    """Maps beside dictionaries."""

    def test_a_map_is_equal_to_a_dict(self):
        for array, entries in ((self.m, {5: 7, 9: 1, 3: 0}), (self.s, {b"a": 1, b"b": 2}), (self.h, {b"a": 1, b"": 2})):
            self.assertEqual((array == {}, {} == array), (True, True))
            array.update(entries)
            self.assertEqual((array == entries, entries == array, array != entries, array == array), (True, True, False, True))
            for key in entries:
                self.assertFalse(array == {**entries, key: 77})
            self.assertFalse(array == {} or array == {**entries, 1: 1} or array == list(entries) or array is None or array == 5)
        self.assertTrue(self.m == self.alice().judyl("m") and self.m != self.s)
        for array in (self.ids, self.m, self.s, self.h):
            self.assertRaisesRegex(TypeError, "unhashable", hash, array)

    def test_joins(self):
        for array, key, other in ((self.m, 5, 6), (self.s, b"k", b"l"), (self.h, b"k", b"l")):
            array |= {key: 1}
            array |= [(other, 2)]
            self.assertEqual((array | {key: 7}, {key: 7} | array), ({key: 7, other: 2}, {key: 1, other: 2}))
            self.assertEqual((array | array, dict(array.items())), ({key: 1, other: 2}, {key: 1, other: 2}))
            self.assertRaises(TypeError, lambda array=array: array | 5)
            self.assertRaises(TypeError, lambda array=array: [(1, 2)] | array)
        self.ids |= {1, 2}
        self.assertEqual((self.ids | {3}, {3} | self.ids, self.ids ^ {2, 3}), ({1, 2, 3}, {1, 2, 3}, {1, 3}))


class Parts(Containers):
    """Parts of an array in order."""

    def test_walks_that_stop(self):
        wanted = [i * i for i in range(400)]
        self.ids.update(wanted)
        self.m.update((i, i + 1) for i in wanted[:9])
        for start in (0, 10, 3600, 399**2, MAX):
            for stop in (0, 9, 10, 100, 3600, 399**2, 399**2 + 1, MAX, MAX + 1, None):
                up = [i for i in wanted if start <= i and (stop is None or i < stop)]
                self.assertEqual(list(self.ids.walk(start, stop)), up, (start, stop))
                down = [i for i in reversed(wanted) if i <= start and (stop is None or i > stop)]
                self.assertEqual(list(self.ids.walk_back(start, stop)), down, (start, stop))
        self.assertEqual(list(self.m.walk(9, 26)), [(9, 10), (16, 17), (25, 26)])
        self.assertEqual(list(self.m.walk_back(25, 9)), [(25, 26), (16, 17)])
        self.assertEqual(list(self.m.walk_back(4, -1)), [(4, 5), (1, 2), (0, 1)])
        for stop, error in ((-2, ValueError), (MAX + 2, ValueError), ("9", TypeError), (9.0, TypeError)):
            self.assertRaisesRegex(error, "where a walk stops is an int", self.ids.walk, 0, stop)

    def test_string_walks_that_stop(self):
        wanted = sorted(b"%d" % i for i in range(300))
        self.s.update((key, 1) for key in wanted)
        for start in (None, b"15", b"99"):
            for stop in (None, b"", b"1", b"155", b"2", b"a"):
                up = [key for key in wanted if key >= (start or b"") and (stop is None or key < stop)]
                self.assertEqual([key for key, _ in self.s.walk(start, stop)], up, (start, stop))
        self.assertEqual([key for key, _ in self.s.walk_back(b"12", b"117")], [b"12", b"119", b"118"])
        self.assertRaises(TypeError, self.s.walk, b"1", "2")

    def test_slices_of_ranks_say_that_they_are_not_exact(self):
        ids = self.ids
        for text in (type(ids).ranks.__doc__, many.Ranks.__doc__):
            self.assertRegex(" ".join(text.split()), r"beside other writers.*walk\(start, stop\)")
        ids.update(range(3000))
        other, exchange = self.alice().judy1("ids"), self.client._exchange

        def asked(lines, is_quiet=False):  # another client removes an entry between two windows
            replies = exchange(lines, is_quiet)
            if lines.data().startswith(b"J1BC"):
                other.discard(5)
            return replies

        self.client._exchange = asked
        self.assertNotIn(1000, ids.ranks[:2000])  # it is there all the time, and the slice leaves it out
        ids.add(5)
        self.assertEqual([i for i in ids.walk(0, 2000) if i != 5], [i for i in range(2000) if i != 5])

    def test_a_rank_out_of_range(self):
        self.ids.update(range(3))
        self.m[1] = 1
        for ranks in (self.ids.ranks, self.m.ranks):
            for rank in (3, -4, MAX - 1, MAX, MAX + 1, 2**70, -(2**70)):
                self.assertRaisesRegex(IndexError, "no entry has rank %d" % rank, ranks.__getitem__, rank)
            for rank in ("0", 0.0, None):
                self.assertRaisesRegex(TypeError, "a rank is an int or a slice", ranks.__getitem__, rank)


if __name__ == "__main__":
    unittest.main()
