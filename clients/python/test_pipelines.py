"""Tests of calls with many in flight at once."""

import os
import sys
import unittest
from unittest import mock

sys.path.insert(0, os.path.dirname(os.path.abspath(__file__)))

import judyd  # noqa: E402
from judyd import ReadOnly  # noqa: E402
from served import WithClient  # noqa: E402


class Pipelines(WithClient):
    """Many lines in flight at once."""

    def test_answers_come_in_order(self):
        with self.client.pipeline() as pipe:
            ids = pipe.judy1("ids")
            late = [ids.set(i % 5000) for i in range(10000)] + [ids.count(), ids.first_empty(), ids.free_array(), pipe.judyl("m").get(1)]
        self.assertEqual([answer.result() for answer in late], [True] * 5000 + [False] * 5000 + [5000, 5000, 5000, None])

    def test_more_than_all_buffers_hold(self):
        key = b"z" * 1000
        with self.client.pipeline(window=None) as pipe:
            s = pipe.judysl("s")
            s.insert(key, 7)
            late = [s.first(b"") for _ in range(25000)]
            s.free_array()
        self.assertEqual({answer.result() for answer in late}, {(key, 7)})

    def test_long_lines_and_long_replies(self):
        key, n = b"x" + b"7a" * 1000, 20000
        lines = [b"JSLI s " + key + b" 7", *[b"JSLF s " + key] * n]  # 40 MB there, and 40 MB back
        replies = self.client.lines(lines)
        self.assertEqual((replies[0], set(replies[1:]), len(replies)), (b"V 0", {b"V 7 " + key}, n + 1))
        self.assertEqual(self.client.judysl("s").free_array(), 1)

    def test_refusals(self):
        self.client.auth("alice", "look")
        with self.assertRaises(ReadOnly):
            with self.client.pipeline() as pipe:
                there, refused, after = pipe.judy1("a").test(1), pipe.judy1("a").set(1), pipe.judy1("a").count()
        self.assertEqual((there.result(), after.result()), (False, 0))
        self.assertRaises(ReadOnly, refused.result)
        with self.client.pipeline(raises=False) as pipe:
            refused = pipe.judy1("a").set(1)
            self.assertRaises(judyd.Error, refused.result)
        self.assertRaises(ReadOnly, refused.result)

    def test_the_methods_of_the_arrays(self):
        with self.client.pipeline() as pipe:
            ids, m, s, h = pipe.judy1("ids"), pipe.judyl("m"), pipe.judysl("s", "utf-8"), pipe.judyhs("h")
            ids.add(5)
            ids.update(range(10, 14))
            ids.discard(11)
            ids.discard(-1)
            ids.difference_update([12, -1])
            m[5] = 7
            m.update({6: 8})
            m.update([(7, 9)])
            s["tree"] = 3
            h[b"tree"] = 4
            sums, used = [m.add(5), s.add("tree", 2), h.add(b"tree", -1)], pipe.used()
            self.assertRaises(ValueError, ids.add, -1)
            for array, key in ((m, 5), (s, "tree"), (h, b"tree")):
                self.assertRaises(TypeError, array.__setitem__, key, None)
                self.assertRaises(TypeError, array.__setitem__, None, 1)
        client = self.client
        self.assertEqual((list(client.judy1("ids")), dict(client.judyl("m").items())), ([5, 10, 13], {5: 8, 6: 8, 7: 9}))
        self.assertEqual(([it.result() for it in sums], used.result()), ([8, 5, 3], client.used()))
        with client.pipeline() as pipe:
            for array in (pipe.judy1("ids"), pipe.judyl("m"), pipe.judysl("s"), pipe.judyhs("h")):
                array.clear()
        self.assertEqual(client.used().used, 0)
        self.assertRaisesRegex(TypeError, "the window of a pipeline is an int, or None", client.pipeline, "1000")

    def test_a_window_that_the_buffers_take_makes_no_selector(self):
        m = self.client.judyl("m")
        with mock.patch("select.epoll", side_effect=AssertionError), mock.patch("select.poll", side_effect=AssertionError):
            for count in (1, 2, 10, 1000):
                self.assertEqual(self.client.lines([b"JLI m 1 1", *[b"JLG m 1"] * (count - 1)])[1:], [b"V 1"] * (count - 1))
                with self.client.pipeline() as pipe:
                    late = [pipe.judyl("m").get(1) for _ in range(count)]
                self.assertEqual([it.result() for it in late], [1] * count)
            m.update((it, it) for it in range(1000))
        m.clear()

    def test_an_exception_inside(self):
        with self.assertRaises(ZeroDivisionError):
            with self.client.pipeline() as pipe:
                pipe.judy1("a").set(1)
                1 / 0
        self.assertEqual(self.client.judy1("a").count(), 0)


if __name__ == "__main__":
    unittest.main()
