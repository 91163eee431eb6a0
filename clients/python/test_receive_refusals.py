"""Tests of `judy ship` and `judy receive` in one process: copies that differ, directories and streams that are
refused."""

import fcntl
import hashlib
import io
import os
import shutil
import sys
import unittest

HERE = os.path.dirname(os.path.abspath(__file__))
sys.path[:0] = [HERE, os.path.join(HERE, "..", "..", "tests")]

import journals  # noqa: E402
from judyd.errors import Error  # noqa: E402
from judyd.feed import Feed  # noqa: E402
from judyd.journalfiles import Damage, InUse, whole_end  # noqa: E402
from judyd.mirror import Mirror  # noqa: E402
from judyd.receiving import BadStream, Receiver  # noqa: E402
from judyd.source import Parted  # noqa: E402
from shipped import WithJournal, Written, numbers_of, shipped  # noqa: E402

ID = "0123456789abcdef" * 2


class Refusals(WithJournal):
    """What is refused, and changes nothing."""

    def refused(self, kind, text):
        """Checks that a copy is refused, with this text, and that nothing changes."""
        before = self.files(self.target)
        with self.assertRaises(kind) as caught:
            shipped(self.source, self.target)
        self.assertIn(text, str(caught.exception))
        self.assertEqual(self.files(self.target), before)

    def test_copies_that_differ(self):
        self.journal.write(3, 4)
        self.journal.begin()
        self.journal.write(5)
        shipped(self.source, self.target)
        good = self.files(self.target)
        for name, change in (
            (journals.segment_path(self.target, 1), lambda text: text.replace(b"ids 2", b"ids 9")),
            (journals.segment_path(self.target, 1), lambda text: text[:-1]),
            (journals.segment_path(self.target, 2), lambda text: text + b"alice J1S ids 99\n# 1 0123456789abcdef\n"),
            (journals.segment_path(self.target, 2), lambda text: text + bytes(10)),
        ):
            with open(name, "rb") as file:
                text = file.read()
            with open(name, "wb") as file:
                file.write(change(text))
            self.refused(Parted, os.path.basename(name))
            with open(name, "wb") as file:
                file.write(text)
        with open(journals.segment_path(self.target, 3), "wb") as file:
            file.write(journals.segment_text(3, journals.ZEROS, [])[0])
        self.refused(Parted, "000000000002.journal")  # it is not closed in the journal
        self.journal.begin()
        self.refused(Parted, "000000000003.journal")
        os.remove(journals.segment_path(self.target, 3))
        self.assertEqual(self.files(self.target), good)
        shipped(self.source, self.target)
        self.is_well()

    def test_a_copy_of_another_journal(self):
        """Where no file can be compared, the id tells whose copy it is."""
        other = Written(os.path.join(self.place, "other"))
        self.addCleanup(other.close)
        other.write(9)
        shipped(other.folder, self.target)
        for _ in range(3):
            self.journal.begin()
            self.journal.write(2)
        self.journal.compact()
        self.refused(Parted, "no copy of it")
        other.begin()
        other.write(1)
        other.compact()
        shipped(other.folder, self.target)
        self.assertEqual(numbers_of(self.target), 10)
        os.remove(os.path.join(self.target, ".receive"))
        shutil.rmtree(self.source)
        shutil.copytree(other.folder, self.source, ignore=shutil.ignore_patterns("*lock"))
        shipped(self.source, self.target)  # the files are alike

    def test_directories_that_are_refused(self):
        self.journal.write(3)
        for name, text in (("odd", b""), ("000000000003.journal", b""), ("manifest", b"odd\n"), ("manifest", journals.manifest_text(0, 1))):
            shutil.rmtree(self.target, ignore_errors=True)
            os.mkdir(self.target)
            with open(os.path.join(self.target, name), "wb") as file:
                file.write(text)
            self.refused(Damage, self.target)
        shutil.rmtree(self.target)
        shipped(self.source, self.target)
        for name, who in (("lock", "a server"), ("compact.lock", "a compaction"), ("start.lock", "a server that starts")):
            with open(os.path.join(self.target, name), "ab") as lock:
                fcntl.flock(lock, fcntl.LOCK_EX)
                self.refused(InUse, who)
        os.remove(journals.manifest_path(self.source))
        self.refused(Damage, "manifest: missing")

    def test_a_damaged_journal(self):
        self.journal.write(3, 4)
        self.journal.begin()
        self.journal.write(5)
        shipped(self.source, self.target)
        count = self.journal.count
        self.journal.write(6)
        os.truncate(self.journal.path(), self.journal.end - 5)
        shipped(self.source, self.target)  # a commit that is not whole is not sent
        self.assertEqual(numbers_of(self.target), count)
        text, _ = journals.segment_text(3, journals.ZEROS, [[b"alice J1S ids 9"]])
        with open(journals.segment_path(self.source, 3), "wb") as file:
            file.write(text)
        self.refused(Damage, "000000000002.journal: byte")
        end = max(byte for segment, byte in self.journal.ends if segment == 2 and byte < self.journal.end)
        os.truncate(self.journal.path(), end)
        self.refused(Damage, "000000000003.journal: it does not continue")
        os.truncate(self.journal.path(), 0)
        self.refused(Parted, "000000000002.journal")


class Streams(WithJournal):
    """Streams that are not those of judy ship."""

    def setUp(self):
        super().setUp()
        self.journal.write(3)
        shipped(self.source, self.target)
        with open(os.path.join(self.source, ".ship"), encoding="ascii") as file:
            self.first = b"judy ship 1 %s\n" % file.read().strip().encode()
        self.end = self.journal.end
        self.journal.write(4)
        with open(self.journal.path(), "rb") as file:
            self.data = file.read(self.journal.end)[self.end :]

    def took(self, stream):
        """What a receiver says to a stream, after its start."""
        mirror, said = Mirror(self.target), []
        try:
            Receiver(mirror, io.BytesIO(stream), said.append).run()
        finally:
            mirror.close()
        return said

    def header(self, name="000000000001.journal", offset=None, length=None, data=None):
        """A piece with its header."""
        data = self.data if data is None else data
        offset, length = self.end if offset is None else offset, len(data) if length is None else length
        return ("DATA %s %s %s %s\n" % (name, offset, length, hashlib.sha256(data).hexdigest())).encode() + data

    def test_bad_streams(self):
        good, line = self.header(), b"judyd journal 1 2 " + self.journal.checksum.encode() + b"\n"
        snapshot = journals.snapshot_text(1, self.journal.checksum, [])
        for stream, text in (
            (b"\n", "does not begin"),
            (b"hello\n", "does not begin"),
            (b"judy ship 2 %s\n" % ID.encode(), "version 2"),
            (b"judy ship 1 x\n", "does not begin"),
            (self.first[:-5], "in the middle of a header"),
            (self.first + good[:30], "in the middle of a header"),
            (self.first + b"x" * 300, "more than 200 bytes"),
            (self.first + b"x" * 300 + b"\n", "more than 200 bytes"),
            (self.first + good[:-1], "in the middle of a piece"),
            (self.first + b"\xff\n", "not ASCII"),
            (self.first + b"\n", "no such header"),
            (self.first + b"NOPE 1\n", "no such header: NOPE 1"),
            (self.first + self.header("../x"), "name '../x'"),
            (self.first + self.header("0" * 13 + ".journal"), "name"),
            (self.first + self.header("0" * 12 + ".journal"), "name"),
            (self.first + self.header("manifest"), "name"),
            (self.first + self.header("000000000001.torn"), "name"),
            (self.first + self.header(offset=self.end - 1), "piece for byte"),
            (self.first + self.header(offset=self.end + 1), "piece for byte"),
            (self.first + self.header(offset="x"), "no number"),
            (self.first + self.header(length=0), "may have 1 to"),
            (self.first + self.header(length=-1), "no number"),
            (self.first + self.header(length=(1 << 20) + 1), "may have 1 to"),
            (self.first + self.header(length=len(self.data) - 1), "SHA-256"),
            (self.first + self.header(length=9 * 10**20), "no number"),
            (self.first + good[:-9] + b"x" + good[-8:], "SHA-256"),
            (self.first + self.header(data=self.data[:-20]), "does not end with a commit"),
            (self.first + self.header(data=self.data + bytes(9)), "does not end with a commit"),
            (self.first + self.header("000000000003.journal", 0, data=line), "does not come next"),
            (self.first + good + self.header("000000000002.journal", 0, data=line), "does not come next"),
            (self.first + self.header("000000000002.journal", 0), "first line"),
            (self.first + self.header("000000000002.journal", 0, data=b"judyd journal 1 3 " + line[18:]), "first line"),
            (self.first + self.header("000000000001.snapshot", 0), "first line"),
            (self.first + self.header("000000000001.snapshot", 5, data=snapshot), "piece for byte 5"),
            (self.first + b"WHOLE 000000000001.snapshot 9\n", "is whole"),
            (self.first + self.header("000000000001.snapshot", 0, data=snapshot) + b"WHOLE 000000000001.snapshot 9\n", "is whole"),
            (self.first + b"WHOLE 000000000001.journal %d\n" % self.end, "is whole"),
            (self.first + b"SYNC x\n", "no such header"),
        ):
            before = self.files(self.target)
            with self.assertRaises(BadStream, msg=stream[-80:]) as caught:
                self.took(stream)
            self.assertIn(text, str(caught.exception), stream)
            self.assertEqual(self.files(self.target), before, stream)
        self.assertEqual(self.took(self.first + good + b"SYNC\n"), ["AT 1:%d" % self.journal.end])
        self.is_well()

    def test_what_was_not_settled(self):
        """A stream that ends before SYNC changes nothing; what came before in it is there."""
        before = self.files(self.target)
        self.assertEqual(self.took(self.first + self.header()), [])
        self.assertEqual(self.files(self.target), before)
        self.assertEqual(self.took(b""), [])
        with self.assertRaises(BadStream):
            self.took(self.first + self.header() + b"SYNC\nNOPE\n")
        self.assertEqual(numbers_of(self.target), self.journal.count)

    def test_odd_receivers(self):
        """A feed refuses what no receiver says."""
        good = "judy receive 1 -"
        for lines in (["hello"], ["judy receive 2 -"], ["judy receive 1 x"], [good, "HAS x 1 2"], [good, "READY", "AT 1:1"]):
            feed = Feed(self.source, True)
            with self.assertRaises(Error, msg=lines):
                for line in lines:
                    feed.hear(line)

    def test_ends_of_commits(self):
        mark = b"# 1 0123456789abcdef\n"
        part = b"a\n" + mark + b"b"
        for text, wanted in ((b"", 0), (b"a\n", 0), (mark, 21), (mark[:-1], 0), (part + b"\n" + mark[:9], 23), (part, 23), (b"a # 1\n", 0)):
            self.assertEqual(whole_end(text), wanted, text)


if __name__ == "__main__":
    unittest.main()
