"""Tests of walks, and of how many lines calls take."""

import os
import sys
import time
import unittest

sys.path.insert(0, os.path.dirname(os.path.abspath(__file__)))

from judyd.walks import ROOM  # noqa: E402
from served import WithClient  # noqa: E402


def listed(count, size):
    """The most lines that list so many entries of at most `size` bytes, each with the spaces before its fields: the
    first line asks for a few, and one or two more find the end. Python may ask for the length too."""
    return count // (ROOM // size) + 4


class Windows(WithClient):
    """How many lines, and how often they are sent."""

    def setUp(self):
        super().setUp()
        self.sent = []
        exchange = self.client._exchange

        def counted(lines, is_quiet=False):
            self.sent.append(lines.count)
            return exchange(lines, is_quiet)

        self.client._exchange = counted

    def tearDown(self):
        for array in (self.client.judy1("ids"), self.client.judyl("m"), self.client.judysl("s"), self.client.judyhs("h")):
            array.clear()
        super().tearDown()

    def costs(self, call, most, times):
        """The result of a call that sends at most this many lines in this many goes."""
        self.sent.clear()
        given = call()
        self.assertLessEqual(sum(self.sent), most, "lines")
        self.assertLessEqual(len(self.sent), times, "goes")
        return given

    def test_one_pass_of_a_word_map(self):
        m, n = self.client.judyl("m"), 20000
        items = [(i * i, i) for i in range(n)]
        most = listed(n, 16)
        self.costs(lambda: m.update(items), n, n // 1000)
        self.assertEqual(self.costs(lambda: list(m.items()), most, most), items)
        self.assertEqual(self.costs(lambda: list(m.values()), most, most), list(range(n)))
        self.assertEqual(self.costs(lambda: list(m), most, most), [key for key, _ in items])
        self.assertEqual(self.costs(lambda: list(reversed(m)), most, most), [key for key, _ in reversed(items)])
        self.assertEqual(self.costs(lambda: dict(m.get_many(range(3000))), 3000, 3)[2500], 50)
        self.assertEqual(self.costs(lambda: m.delete_many(range(3000)), 3000, 3), 55)
        self.costs(m.clear, 1, 1)

    def test_one_pass_of_a_set(self):
        ids, n = self.client.judy1("ids"), 20000

        def put_in():
            nonlocal ids
            ids |= range(0, 3 * n, 3)

        def take_out():
            nonlocal ids
            ids -= range(0, 3 * n, 6)

        self.costs(put_in, n, n // 1000)
        self.assertEqual(self.costs(lambda: list(ids), listed(n, 6), listed(n, 6)), list(range(0, 3 * n, 3)))
        self.assertEqual(self.costs(lambda: ids & range(10), 10, 1), {0, 3, 6, 9})
        self.costs(take_out, n // 2, n // 1000)
        self.assertEqual(self.costs(lambda: next(iter(ids)), 1, 1), 3)
        self.costs(ids.clear, 1, 1)
        self.costs(lambda: ids.update(range(5000)), 5000, 5)
        ranks = ids.ranks
        self.assertEqual(self.costs(lambda: list(ranks), listed(5000, 5), listed(5000, 5)), list(range(5000)))
        self.assertEqual(self.costs(lambda: list(reversed(ranks))[:3], listed(5000, 5), listed(5000, 5)), [4999, 4998, 4997])
        self.assertEqual(self.costs(lambda: ranks[1000:3000], 2001, 3), list(range(1000, 3000)))
        self.assertEqual(self.costs(lambda: (ranks.index(77), 77 in ranks, 5000 in ranks, ranks.count(4)), 7, 7), (77, True, False, 1))
        self.costs(ids.clear, 1, 1)

    def test_one_pass_of_a_string_map(self):
        s, n = self.client.judysl("s"), 1000
        items = [(b"word %d" % i, i) for i in range(1000, 1000 + n)]
        passes = 2 if sys.version_info < (3, 10) else 1  # an older list() asks for the length before it asks for an iterator
        most = listed(n, 25)
        self.costs(lambda: s.update(dict(items)), n, 1)
        for call, wanted in ((s.items, items), (s.values, [v for _, v in items]), (s.keys, [k for k, _ in items]), (lambda: s, [k for k, _ in items])):
            self.assertEqual(self.costs(lambda call=call: list(call()), passes * most, passes * most), wanted)
        self.assertEqual(self.costs(lambda: len(s), most, most), n)
        keys = iter(s)
        self.assertEqual((len(s), next(keys), len(s), len(list(keys))), (n, b"word 1000", n, n - 1))
        self.costs(s.clear, 1, 1)

    def test_one_pass_of_a_byte_map(self):
        h, n = self.client.judyhs("h"), 3000
        self.costs(lambda: h.update((b"%d" % i, i) for i in range(n)), n, n // 1000)
        most = listed(n, 15)
        self.assertEqual(self.costs(lambda: sum(value for _, value in h.walk()), most, most), sum(range(n)))
        self.assertEqual(self.costs(lambda: h.delete_many(b"%d" % i for i in range(1000)), 1000, 1), 1000)
        self.costs(h.clear, 1, 1)

    def test_a_walk_is_quick(self):
        m, n = self.client.judyl("m"), 100000
        m.update((i * i, i) for i in range(n))
        spent = []
        for _ in range(3):  # the machine may do something else
            began = time.process_time()
            self.assertEqual(sum(1 for _ in m.items()), n)
            spent.append(time.process_time() - began)
        self.assertLess(min(spent), 1.2, "seconds of the client's processor for 100,000 entries")

    def test_an_array_that_changes_in_a_walk(self):
        m = self.client.judyl("m")
        m.update((i, i) for i in range(30000))
        for index in m:
            del m[index]
        self.assertEqual(len(m), 0)
        m.update((i, i) for i in range(0, 40000, 2))
        seen = []
        for index in m:
            seen.append(index)
            if index < 30000 and index % 2 == 0:
                m[index + 10001] = 1  # after the window that was read, and so seen
        self.assertTrue(set(range(0, 40000, 2)) <= set(seen))
        self.assertEqual(seen, sorted(set(seen)))
        self.assertTrue({20001, 30001, 39999} <= set(seen))


if __name__ == "__main__":
    unittest.main()
