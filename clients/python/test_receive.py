"""Tests of `judy ship` and `judy receive` in one process: copies, streams that are cut, and losses of
power at any moment."""

import fcntl
import os
import shutil
import sys
import unittest
import unittest.mock
from concurrent.futures import ThreadPoolExecutor

HERE = os.path.dirname(os.path.abspath(__file__))
sys.path[:0] = [HERE, os.path.join(HERE, "..", "..", "tests")]

import journals  # noqa: E402
from judyd.receiving import BadStream  # noqa: E402
from judyd.source import Parted  # noqa: E402
from ship_losses import Disk  # noqa: E402
from shipped import WithJournal, numbers_of, shipped  # noqa: E402


class Copies(WithJournal):
    """What a copy has."""

    def test_it_goes_on(self):
        """Each time it goes on from what is there. What is there is not sent again."""
        for _ in range(12):
            self.grow()
            stream = shipped(self.source, self.target)
            self.is_well()
            again = shipped(self.source, self.target)
            self.assertLess(again.sent, 100)
            self.assertFalse(again.is_cut or stream.is_cut)
        self.assertEqual(os.stat(self.target).st_mode & 0o777, 0o700)
        rights = {os.stat(os.path.join(self.target, name)).st_mode & 0o777 for name in os.listdir(self.target)}
        self.assertEqual(rights, {0o600})
        self.assertEqual([name for name in os.listdir(self.target) if name.endswith(".new")], [])

    def test_while_it_grows(self):
        """A journal that grows, with compactions, between any two pieces: the copy has what was there at its start."""
        for number in range(5):
            target, count = "%s%d" % (self.target, number), self.journal.count
            heard = []

            def hear(line, heard=heard):
                heard.append(line)
                if len(heard) < 12:
                    self.grow()

            shipped(self.source, target, heard=hear)
            self.assertGreaterEqual(numbers_of(target), count)
            segment, byte = map(int, heard[-1][3:].split(":"))
            self.assertEqual(numbers_of(target), self.journal.ends[segment, byte])

    def test_cut_anywhere(self):
        """A stream that is cut leaves what was confirmed, and is taken up again."""
        cuts = 0
        for _ in range(30):
            heard, most = [], self.draw.randrange(self.draw.choice((60, 400, 1500, 6000)))
            try:
                cuts += shipped(self.source, self.target, most, heard=heard.append).is_cut
            except BadStream:
                cuts += 1
            places = [tuple(map(int, line[3:].split(":"))) for line in heard if line.startswith("AT ")]
            self.assertGreaterEqual(numbers_of(self.target) or 0, max((self.journal.ends[it] for it in places), default=0))
            if self.draw.random() < 0.4:
                self.grow()
        self.assertGreater(cuts, 5)
        shipped(self.source, self.target)
        self.is_well()

    def anew(self, change=lambda text: text):
        """Writes the last segment anew, as a server does that starts."""
        with open(self.journal.path(), "rb") as file:
            text = file.read()
        with open(self.journal.path() + ".new", "wb") as file:
            file.write(change(text))
        os.rename(self.journal.path() + ".new", self.journal.path())

    def test_a_segment_that_is_written_anew(self):
        """A server that starts writes its last segment anew. The feed goes on in the new file."""
        write = self.journal.write
        for more in ([], [self.journal.begin, lambda: write(2)]):
            write(3)
            shipped(self.source, self.target, steps=[self.anew, lambda: write(4, 5), self.anew, self.anew, lambda: write(6), *more])
            self.is_well()
        change = lambda: self.anew(lambda text: text.replace(b"ids ", b"idx ", 1))  # noqa: E731
        with self.assertRaises(Parted):
            shipped(self.source, self.target, steps=[change, lambda: write(4)])

    def test_a_commit_that_is_not_whole_yet(self):
        """A commit is sent once all of its bytes are there, in whatever order they come."""
        self.journal.write(3)
        place, before = self.journal.end, self.journal.count
        self.journal.write(40)
        with open(self.journal.path(), "rb") as file:
            text = file.read()
        for start in (place, place + 100, self.journal.end - 1):
            with open(self.journal.path(), "r+b") as file:
                file.seek(start)
                file.write(bytes(min(50, self.journal.end - start)))
            shipped(self.source, self.target)
            self.assertEqual(numbers_of(self.target), before)
            with open(self.journal.path(), "r+b") as file:
                file.write(text)
        shipped(self.source, self.target)
        self.is_well()

    def test_while_nothing_is_sent(self):
        """What comes later is sent: segments, snapshots, several of them."""
        begin, write, compact = self.journal.begin, self.journal.write, self.journal.compact
        steps = [begin, lambda: write(2), compact, begin, begin, compact, lambda: write(1)]
        shipped(self.source, self.target, steps=steps * 2)
        self.is_well()

    def test_a_reader_of_the_copy(self):
        """While somebody reads the copy, no file of it goes. It goes later."""
        self.grow()
        shipped(self.source, self.target)
        self.journal.begin()
        self.journal.write(1)
        self.journal.compact()
        before = {name for name in os.listdir(self.target) if name.endswith(".journal")}
        with open(os.path.join(self.target, "read.lock"), "ab") as lock:
            fcntl.flock(lock, fcntl.LOCK_SH)
            shipped(self.source, self.target)
            self.assertLessEqual(before, set(os.listdir(self.target)))
            self.assertEqual(numbers_of(self.target), self.journal.count)
        self.journal.write(1)
        shipped(self.source, self.target)
        self.is_well()

    def test_a_file_with_a_second_name(self):
        """A copy of links of the copy's files stays as it was."""
        self.journal.write(3)
        shipped(self.source, self.target)
        other = os.path.join(self.place, "link")
        os.link(journals.segment_path(self.target, 1), other)
        with open(other, "rb") as file:
            before = file.read()
        shipped(self.source, self.target, steps=[lambda: self.journal.write(2)] * 5)
        with open(other, "rb") as file:
            self.assertEqual(file.read(), before)
        self.is_well()


class Losses(WithJournal):
    """Losses of power at any moment of a receiver."""

    def grow_for_losses(self, number):
        """Writes more than a page at once; also segments that end, and compactions that leave the copy behind."""
        self.journal.write(*(self.draw.randint(20, 150) for _ in range(6)))
        for _ in range(number % 3):
            self.journal.begin()
            self.journal.write(self.draw.randint(1, 9))
        if number % 3 == 2:
            self.journal.compact()

    def moments(self, disk):
        """Moments to try, each with a number: those at which most can be lost come more often."""
        found = [at for at in range(len(disk.moments)) for _ in range(disk.weight(at))]
        return self.draw.sample(found, min(60, len(found)))

    def test_each_starts(self):
        tried = more = 0
        os.mkdir(self.target)
        for number in range(6):
            self.grow_for_losses(number)
            disk = Disk(self.target)
            counts = [(numbers_of(self.target) or 0) if number else 0]

            def hear(line, disk=disk, counts=counts):
                if line.startswith("AT "):
                    counts.append(self.journal.ends[tuple(map(int, line[3:].split(":")))])
                    disk.answered.append(line)
                    if len(counts) < 4:
                        self.grow_for_losses(self.draw.randrange(3))

            with disk.recorded():
                shipped(self.source, self.target, heard=hear)
            self.assertEqual(numbers_of(self.target), counts[-1])
            moments = self.moments(disk)
            folders = [os.path.join(self.place, "left%d" % at) for at in range(len(moments))]
            for moment, folder in zip(moments, folders):
                disk.leave(self.draw, moment, folder)
            with ThreadPoolExecutor(4) as pool:
                all_found = list(pool.map(numbers_of, folders))
            for moment, folder, found in zip(moments, folders, all_found):
                answered = disk.moments[moment][0]
                self.assertGreaterEqual(found or 0, counts[answered], (number, moment, sorted(os.listdir(folder))))
                if found is None:
                    self.assertEqual((number, answered), (0, 0), "a manifest is there once a place was confirmed")
                tried, more = tried + 1, more + (found is not None and found > counts[answered])
                shutil.rmtree(folder)
        self.assertGreater(min(tried // 10, more), 20)

    def test_a_full_disk(self):
        """A write that fails ends it, and leaves what was confirmed."""
        self.grow()
        shipped(self.source, self.target)
        for calls in (0, 1, 2):
            before, left, real = numbers_of(self.target), [calls], os.fsync
            self.journal.begin()
            self.journal.write(30)

            def fsync(file, left=left, real=real):
                left[0] -= 1
                if left[0] < 0:
                    raise OSError(28, "No space left on device")
                real(file)

            with unittest.mock.patch.object(os, "fsync", fsync), self.assertRaises(OSError):
                shipped(self.source, self.target)
            self.assertIn(numbers_of(self.target), (before, self.journal.count))
            self.assertEqual([name for name in os.listdir(self.target) if name.endswith(".new")], [])
            shipped(self.source, self.target)
            self.is_well()


if __name__ == "__main__":
    unittest.main()
