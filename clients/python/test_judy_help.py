"""Tests of what `judy` says of itself: the help of each word, and that a message says nothing twice."""

import os
import re
import socket
import sys
import tempfile
import unittest

sys.path.insert(0, os.path.dirname(os.path.abspath(__file__)))

from judy_runs import JudyTest, run_judy  # noqa: E402
from judyd.command import SUBCOMMANDS  # noqa: E402
from judyd.options import ABOUT, subcommand  # noqa: E402


def said_twice(message):
    """Runs of three words that a message has more than once."""
    words = re.findall(r"[\w./-]+", message.lower())
    runs = [" ".join(words[at : at + 3]) for at in range(len(words) - 2)]
    return sorted({run for run in runs if runs.count(run) > 1})


class Help(JudyTest):
    """The help of words, known and unknown."""

    def test_a_word_that_is_not_known(self):
        for words, near in ((("NOPE",), ""), (("J1X",), "J1"), (("dmp",), "dump"), (("J1S", "ids"), "")):
            status, said, wrong = run_judy(b"", "help", *words)
            self.assertEqual((status, said, wrong.count("\n")), (2, "", 1), wrong)
            self.assertIn("%s; is it %s" % (" ".join(words), near) if near else " ".join(words), wrong)

    def test_a_word_that_is_known(self):
        self.assertEqual(run_judy(b"", "help", "j1fe"), run_judy(b"", "help", "Judy1FirstEmpty"))
        self.assertEqual(run_judy(b"", "help")[0::2], (0, ""))
        for name in SUBCOMMANDS:
            self.assertEqual(run_judy(b"", "help", name), (0, subcommand(name).format_help(), ""), name)

    def test_each_command(self):
        self.assertEqual(list(ABOUT), list(SUBCOMMANDS))
        for name, about in ABOUT.items():
            status, said, wrong = run_judy(b"", name, "--help")
            self.assertEqual((status, wrong), (0, ""), name)
            self.assertRegex(about.sentence, r"^[A-Z].*\.$")
            for text in (about.sentence, "example:\n  judy ", "exit status: 0", "2 if the command line is wrong"):
                self.assertIn(text, said, name)
            self.assertRegex(said, r"(?m)^  judy .*\b%s\b" % name)

    def test_each_example(self):
        for name, about in ABOUT.items():
            words = about.example.split()[1:]
            given = subcommand(name).parse_args(words[words.index(name) + 1 :])
            self.assertIsNotNone(given, name)


class Messages(JudyTest):
    """One line for a server that is not there, which says the cause, the place and the remedy once."""

    def test_nothing_is_said_twice(self):
        with tempfile.TemporaryDirectory() as folder:
            stale, absent = os.path.join(folder, "stale"), os.path.join(folder, "absent")
            with socket.socket(socket.AF_UNIX) as left:
                left.bind(stale)
            for path, remedy in ((stale, "remove it"), (absent, "systemctl start judyd")):
                for words in (("USED",), ("status",), ("-u", "alice", "J1S", "ids", "5"), ("wait", "--timeout", "0.2")):
                    status, said, wrong = run_judy(b"", *words, path=path)
                    self.assertEqual((status, said, wrong.count("\n")), (1 if "wait" in words else 4, "", 1), wrong)
                    self.assertEqual((said_twice(wrong), wrong.count(path)), ([], 1), wrong)
                    self.assertIn(remedy, wrong)
                for words in (("status", path), ("stop", path), ("top", "--once", path)):
                    _, said, wrong = run_judy(b"", *words)
                    self.assertEqual((said, said_twice(wrong), wrong.count(path)), ("", [], 1), wrong)


if __name__ == "__main__":
    unittest.main()
