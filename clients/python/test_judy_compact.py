"""Tests of `judy compact` with journals that have small segments."""

import os
import shutil
import subprocess
import sys
import tempfile
import unittest

sys.path.insert(0, os.path.dirname(os.path.abspath(__file__)))
sys.path.insert(0, os.path.join(os.path.dirname(os.path.abspath(__file__)), "..", "..", "tests"))

import journals  # noqa: E402
from judy_runs import JudyTest, run_judy  # noqa: E402
from harness import small_disk  # noqa: E402
from judyd.compactions import ROOM_BESIDE, Sizes, files_read, growth, most_room, sizes_in  # noqa: E402
from served import PROGRAM, Served  # noqa: E402

COMMITS = [[b"alice J1S ids %d" % (n % 10)] for n in range(100)]


class Growths(unittest.TestCase):
    """What a growth says."""

    def test_words(self):
        for text, wanted in (("100%", (100, True)), ("0%", (0, True)), ("0", (0, False)), ("4711", (4711, False)), ("64K", (65536, False)), ("3M", (3 << 20, False)), ("1G", (1 << 30, False)), ("2T", (2 << 40, False))):
            self.assertEqual(growth(text)[1:], wanted, text)
        for text in ("", "%", "G", "1g", "1 G", "-1", "1.5G", "100%%", "1GB", "\u0661", "1" * 13):
            self.assertRaises(ValueError, growth, text)

    def test_what_is_reached(self):
        for text, closed, wanted in (("100%", 999, False), ("100%", 1000, True), ("50%", 499, False), ("50%", 500, True), ("1K", 1023, False), ("1K", 1024, True), ("0", 0, True)):
            self.assertEqual(growth(text).is_reached(Sizes(3, 1000, 1, closed)), wanted, text)
        for text in ("0", "0%", "100%"):
            self.assertFalse(growth(text).is_reached(Sizes(3, 1000, 0, 0)), text)
        self.assertTrue(growth("100%").is_reached(Sizes(0, 0, 1, 1)))


class Compactions(JudyTest):
    """Each test has a journal of its own, of three segments."""

    def setUp(self):
        place = tempfile.TemporaryDirectory(prefix="judyd-compact-")
        self.addCleanup(place.cleanup)
        self.journal = os.path.join(place.name, "journal")
        os.mkdir(self.journal)
        journals.write(self.journal, [COMMITS] * 3)

    def names(self):
        """The files of the journal, without its locks and its manifest."""
        return sorted(name for name in os.listdir(self.journal) if not name.endswith("lock") and name != "manifest")

    def compact(self, *words, **how):
        """The status of a compaction, and its output."""
        return run_judy(b"", "compact", *words, self.journal, **how)

    def closed(self, *numbers):
        """The bytes of these segments."""
        return sum(os.path.getsize(journals.segment_path(self.journal, number)) for number in numbers)

    def test_sizes(self):
        self.assertEqual(sizes_in(self.journal), Sizes(0, 0, 2, self.closed(1, 2)))
        for name in ("000000000001.snapshot", "000000000002.snapshot.new", "000000000009", "x000000000009.journal", "lost+found"):
            with open(os.path.join(self.journal, name), "wb") as file:
                file.write(b"123")
        self.assertEqual(sizes_in(self.journal), Sizes(1, 3, 1, self.closed(2)))
        os.remove(journals.segment_path(self.journal, 3))
        self.assertEqual(sizes_in(self.journal), Sizes(1, 3, 0, 0))
        self.assertRaises(FileNotFoundError, sizes_in, os.path.join(self.journal, "none"))

    def test_it_waits_for_growth(self):
        before, bytes_closed = self.names(), self.closed(1, 2)
        said = "%s: nothing done below 1G: a snapshot of 0 bytes, and 2 closed segments of %d bytes\n" % (self.journal, bytes_closed)
        self.assertEqual((self.compact("--when", "1G"), self.names()), ((0, said, ""), before))
        self.assertEqual(self.compact("--when", str(bytes_closed + 1))[0], 0)
        self.assertEqual(self.names(), before)
        status, said, wrong = self.compact("--when", str(bytes_closed))
        self.assertEqual((status, wrong, said.count("\n")), (0, "", 1))
        self.assertEqual(self.names(), ["000000000003.snapshot", "000000000004.journal"])
        now = os.path.getsize(os.path.join(self.journal, "000000000003.snapshot"))
        wanted = "%s: compacted: before, a snapshot of 0 bytes, and 2 closed segments of %d bytes; now, a snapshot of %d bytes, and no closed segment\n"
        self.assertEqual(said, wanted % (self.journal, bytes_closed, now))
        said = "%s: nothing done below 100%%: a snapshot of %d bytes, and no closed segment\n" % (self.journal, now)
        self.assertEqual(self.compact("--when", "100%"), (0, said, ""))

    def test_beside_a_server(self):
        with open(os.path.join(self.journal, "..", "said"), "wb") as file:
            words = [PROGRAM, "serve", "--config", JudyTest.served.config, "--socket", os.path.join(self.journal, "..", "socket"), "--journal", self.journal]
            server = subprocess.Popen(words, stderr=file)
        try:
            path = words[words.index("--socket") + 1]
            self.assertEqual(run_judy(b"", "wait", "--timeout", "60", path=path)[0], 0)
            self.assertEqual(self.compact("--when", "100%")[::2], (0, ""))
            self.assertEqual(self.names(), ["000000000002.snapshot", "000000000003.journal"])
            status, said, wrong = self.compact()
            self.assertEqual((status, "nothing to do" in said, wrong), (0, True, ""))
            self.assertEqual(run_judy(b"J1C ids 0 -1\n", "-u", "alice", path=path)[:2], (0, "N 10\n"))
        finally:
            server.kill()
            server.wait()

    def test_files_that_are_read(self):
        paths = [journals.segment_path(self.journal, number) for number in (1, 2, 3)]
        self.assertEqual(files_read(self.journal, 0), paths)
        last = os.path.getsize(paths[2])
        with open(paths[2], "ab") as file:
            file.write(bytes(100))
        self.assertEqual(files_read(self.journal, 0), paths[:2])
        os.truncate(paths[2], last)
        self.assertEqual(files_read(self.journal, 1), [os.path.join(self.journal, "000000000001.snapshot"), *paths[1:]])
        with tempfile.TemporaryDirectory() as place:
            self.assertEqual(files_read(place, 0), [])

    def test_room(self):
        """Without room for the most that it may take nothing is begun, and the line says which command tries it."""
        with small_disk("judy_compact", "1m") as place:
            if place is None:
                return
            journals.write(place, [COMMITS * 20, COMMITS])
            self.journal, before = place, {name: os.stat(os.path.join(place, name)).st_mtime_ns for name in os.listdir(place)}
            with open(os.path.join(place, ".ballast"), "wb", buffering=0) as file:
                file.write(bytes(1 << 20))
            found = os.statvfs(place)
            most, free = most_room(place, sizes_in(place)), found.f_bavail * found.f_frsize
            said = "judy: %s: not compacted: it may take %d bytes, and the file system has %d: judyd compact %s tries it\n" % (place, most, free, place)
            self.assertEqual(self.compact("--when", "0"), (1, "", said))
            os.remove(os.path.join(place, ".ballast"))
            self.assertEqual(before, {name: os.stat(os.path.join(place, name)).st_mtime_ns for name in os.listdir(place)})
            self.assertEqual(self.compact("--when", "0")[::2], (0, ""))

    def test_a_snapshot_takes_no_more(self):
        """The lines that grow most make a snapshot that takes no more than is looked for."""
        for record in (b"a JLI a %d", b"a JLA a %d 9", b"a JLA a %d -1", b"a J1S %d -1", b"a JLI %d -1 -1", b"a JSLI a x%d1", b"a JHSI a x%d1"):
            with tempfile.TemporaryDirectory() as place:
                journals.write(place, [[[record % (n * 10 + m + 111) for m in range(10)] for n in range(80)], []])
                self.journal, most = place, most_room(place, sizes_in(place)) - ROOM_BESIDE
                self.assertEqual(self.compact()[::2], (0, ""), record)
                self.assertLess(most // 3, sizes_in(place).snapshot)
                self.assertLessEqual(sizes_in(place).snapshot, most, record)

    def test_faults(self):
        shutil.copy(journals.segment_path(self.journal, 1), os.path.join(self.journal, "odd"))
        status, said, wrong = self.compact("--when", "1")
        self.assertEqual((status, said), (1, ""))
        self.assertIn("judyd: %s" % self.journal, wrong)
        self.assertIn("judy: %s: judyd compact ended with status 3\n" % self.journal, wrong)
        status, _, wrong = self.compact("--when", "much")
        self.assertEqual((status, "argument --when: a growth is a number with %, K, M, G or T, as 100% or 1G" in wrong), (2, True), wrong)
        shutil.rmtree(self.journal)
        status, said, wrong = self.compact("--when", "100%")
        self.assertEqual((status, said, wrong.count("\n"), self.journal in wrong), (1, "", 1, True))
        os.mkdir(self.journal)
        self.assertEqual(self.compact("--when", "100%")[0], 0)
        self.assertEqual(self.names(), [])


if __name__ == "__main__":
    unittest.main()
