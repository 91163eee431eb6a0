"""What the tests of `judy ship` and `judy receive` share: a journal that is written as a server writes it, and both
sides in one process."""

import fcntl
import os
import random
import re
import subprocess
import sys
import tempfile
import unittest

HERE = os.path.dirname(os.path.abspath(__file__))
sys.path[:0] = [HERE, os.path.join(HERE, "..", "..", "tests")]

import journals  # noqa: E402
from judyd.feed import Feed  # noqa: E402
from judyd.mirror import Mirror  # noqa: E402
from judyd.receiving import Receiver  # noqa: E402
from served import PROGRAM  # noqa: E402


class Written:
    """A journal with the numbers from 1 on in alice's ids, each a record of its own. It is written as a server does
    it: with notes, with zeros written ahead, with closed segments, and with its lock."""

    def __init__(self, folder):
        self.folder = folder
        os.mkdir(folder)
        with open(journals.manifest_path(folder), "wb") as file:
            file.write(journals.manifest_text(0, 0))
        self.lock = open(os.path.join(folder, "lock"), "wb")
        fcntl.flock(self.lock, fcntl.LOCK_EX)
        self.segment, self.checksum, self.end, self.count = 0, journals.ZEROS, 0, 0
        self.ends = {}  # the numbers that are there at the end of a commit, by its place
        self.begin()

    def path(self):
        """The path of the current segment."""
        return journals.segment_path(self.folder, self.segment)

    def begin(self):
        """Closes the segment, and begins the next one."""
        if self.segment:
            os.truncate(self.path(), self.end)
        self.segment += 1
        text, _ = journals.segment_text(self.segment, self.checksum, [])
        with open(self.path() + ".new", "wb") as file:
            file.write(text + bytes(8192))
        os.rename(self.path() + ".new", self.path())
        self.end, self.sure = len(text), len(text)
        self.ends[self.segment, 0] = self.ends[self.segment, self.end] = self.count
        with open(journals.manifest_path(self.folder), "rb") as file:
            snapshot = int(file.read().split()[3])
        with open(journals.manifest_path(self.folder) + ".new", "wb") as file:
            file.write(journals.manifest_text(snapshot, self.segment))
        os.rename(journals.manifest_path(self.folder) + ".new", journals.manifest_path(self.folder))

    def write(self, *sizes):
        """Appends commits with so many records."""
        for size in sizes:
            records = [b"alice J1S ids %d" % (self.count + n + 1) for n in range(size)]
            place = self.end + sum(len(record) + 1 for record in records)
            text, self.checksum = journals.commits_text(self.checksum, [[*records, journals.note(self.segment, place, self.end)]])
            with open(self.path(), "r+b") as file:
                file.seek(self.end)
                file.write(text)
                if os.fstat(file.fileno()).st_size < self.end + len(text) + 4096:
                    file.write(bytes(8192))
            self.end += len(text)
            self.count += size
            self.ends[self.segment, self.end] = self.count

    def compact(self):
        """Makes a snapshot of the closed segments."""
        subprocess.run([PROGRAM, "compact", self.folder], check=True)

    def close(self):
        """Gives the lock up."""
        self.lock.close()


class Stream:
    """What a feed sends, up to its end or to a number of bytes. While there is nothing, the next of `steps` is made;
    after the last one it ends."""

    def __init__(self, feed, most=None, steps=None):
        self.feed, self.left, self.steps = feed, most, steps
        self.held, self.sent, self.is_cut = b"", 0, False

    def fill(self):
        """Takes more. False at the end."""
        if self.is_cut or self.feed.is_done():
            return False
        data = self.feed.next_bytes()
        if not data and self.steps is not None:
            if not self.steps:
                return False
            self.steps.pop(0)()
        if self.left is not None and len(data) > self.left - self.sent:
            data, self.is_cut = data[: self.left - self.sent], True
        self.held, self.sent = self.held + data, self.sent + len(data)
        return True

    def readline(self, most):
        """A line, as a file has it."""
        while b"\n" not in self.held and len(self.held) < most and self.fill():
            pass
        end = self.held.find(b"\n") + 1
        return self.take(min(end, most) if end else min(len(self.held), most))

    def read(self, count):
        """So many bytes, as a file has them."""
        while len(self.held) < count and self.fill():
            pass
        return self.take(count)

    def take(self, count):
        """The first bytes."""
        data, self.held = self.held[:count], self.held[count:]
        return data


def shipped(source, target, most=None, steps=None, heard=None):
    """Sends a journal in this process: once, up to a number of bytes, or until all steps were made, each of them once
    all that was there is sent. Returns the stream."""
    feed = Feed(source, steps is None)
    mirror = Mirror(target)
    stream = Stream(feed, most, steps)

    def say(line):
        if heard is not None:
            heard(line)
        feed.hear(line)

    try:
        receiver = Receiver(mirror, stream, say)
        receiver.greet()
        receiver.run()
    finally:
        mirror.close()
        feed.close()
    return stream


def numbers_of(folder):
    """How many numbers a start on a directory would find: they are those from 1 on. None if it is refused as it has no
    manifest. An AssertionError if it is refused otherwise, or if numbers are missing."""
    ran = subprocess.run([PROGRAM, "journal", folder], stdout=subprocess.PIPE, stderr=subprocess.PIPE, check=False)
    if ran.returncode == 3 and b"/manifest: missing" in ran.stderr:
        return None
    assert ran.returncode == 0, ran.stderr
    found = {int(it) for it in re.findall(rb"(?m)^alice J1S ids (\d+)$", ran.stdout)}
    assert found == set(range(1, len(found) + 1)), sorted(set(range(1, max(found))) - found)[:3]
    return len(found)


def is_copy(source, target):
    """Whether a directory has the same files as a journal, without the zeros behind the last commit."""
    names = []
    for folder in (source, target):
        names.append({name: text for name, text in journals.contents(folder).items() if re.fullmatch(r"\d+\.(journal|snapshot)", name)})
    with open(journals.manifest_path(source), "rb") as mine, open(journals.manifest_path(target), "rb") as copied:
        return names[0] == names[1] and mine.read() == copied.read()


class WithJournal(unittest.TestCase):
    """Tests with a journal and the directory of its copy."""

    def setUp(self):
        place = tempfile.TemporaryDirectory(prefix="judyd-ship-")
        self.addCleanup(place.cleanup)
        self.place = place.name
        self.source, self.target = os.path.join(place.name, "a"), os.path.join(place.name, "b")
        self.draw = random.Random(int(os.environ.get("SEED", "7")))
        self.journal = Written(self.source)
        self.addCleanup(self.journal.close)

    def is_well(self):
        """Checks that the copy is whole."""
        self.assertTrue(is_copy(self.source, self.target))
        self.assertEqual(numbers_of(self.target), self.journal.count)

    def grow(self):
        """Writes more: commits, and perhaps a segment that ends, or a compaction."""
        self.journal.write(*(self.draw.randint(1, 40) for _ in range(self.draw.randint(1, 4))))
        kind = self.draw.randrange(5)
        for _ in range(self.draw.randint(1, 3) if kind < 3 else 0):
            self.journal.begin()
            self.journal.write(self.draw.randint(1, 9))
        if kind == 0:
            self.journal.compact()

    def files(self, folder):
        """The files of a directory but its locks."""
        found = {}
        for name in os.listdir(folder):
            if not name.endswith("lock"):
                with open(os.path.join(folder, name), "rb") as file:
                    found[name] = file.read()
        return found
