"""Tests of what `judy dump` and `judy load` do when something is lost: a part of a file, the disk's room,
the server."""

import contextlib
import hashlib
import io
import os
import random
import resource
import sys
import threading
import unittest

sys.path.insert(0, os.path.dirname(os.path.abspath(__file__)))

from judy_runs import JudyTest, alice, run_judy, start_judy  # noqa: E402
from judyd.copies import read_name  # noqa: E402
from judyd.dumpfile import NoDump, Writer  # noqa: E402
from judyd.sweep import ByteSweep, RankedSweep, StringSweep  # noqa: E402
from judyd.transfer import dump, load  # noqa: E402
from judyd.wire import Wire  # noqa: E402
from served import Served  # noqa: E402


def made(*arrays, lines=b""):
    """A dump of these lines."""
    file = io.BytesIO()
    writer = Writer(file.write, arrays)
    writer.entries(lines, lines.count(b"\n"))
    writer.end()
    return file.getvalue()


def fill(path, lines):
    """Sends lines of alice, all at once."""
    with Wire(path, 60) as wire:
        wire.log_in(b"AUTH alice abc")
        wire.ask(lines, lines.count(b"\n"))


def told(call, *words):
    """What a function returns, and what it says on standard error."""
    with contextlib.redirect_stderr(io.StringIO()) as said:
        return call(*words), said.getvalue()


EMPTY = b"".join(b"%bFA %b\n" % pair for pair in ((b"J1", b"ids"), (b"JSL", b"words")))
IDS = b"".join(b"J1S ids %d\n" % (i * 3) for i in range(100000))


class Losing(Wire):
    """A connection to a server that is started anew before so many more goes."""

    def __init__(self, served, goes):
        super().__init__(served.path, 60)
        self._served, self._goes = served, goes + 1
        self.log_in(b"AUTH alice abc")

    def ask(self, lines, count):
        self._goes -= 1
        if self._goes == 0:
            self._served.kill()
            self._served.start()
        return super().ask(lines, count)


class Refusing:
    """A connection whose server has no memory for the third line."""

    answered = 0

    def ask(self, _, count):
        self.answered += count
        return b"1\n1\nERR MEMORY\n" + b"1\n" * (count - 3)


class Torn(JudyTest):
    """Dumps that are not whole."""

    LINES = b"".join(b"J1S ids %d\n" % (i * 7) for i in range(3000))
    LINES += b"".join(b"JSLI words x%s %d\n" % ((b"word %d" % i).hex().encode(), i) for i in range(2000))

    def setUp(self):
        self.dump = made("J1:ids", "JSL:words", lines=self.LINES)
        self.wire = Wire(self.path(), 60)
        self.addCleanup(self.wire.__exit__)
        self.wire.log_in(b"AUTH alice abc")

    def tearDown(self):
        super().tearDown()
        self.wire.ask(EMPTY, 2)
        self.assertTrue(self.wire.ask(b"USED\n", 1).startswith(b"Q 0 "))

    def refused(self, data):
        """The fault of a file, of which nothing was sent."""
        before = self.wire.answered
        with open(self.file("torn", data), "rb") as file:
            with self.assertRaises(NoDump) as caught:
                load(self.wire, file.fileno(), "torn", True)
        self.assertEqual(self.wire.answered, before)
        self.assertRegex(str(caught.exception), r"\Atorn, line [0-9]+: ")
        return str(caught.exception)

    def piped(self, data):
        """The status and the words of a load from a pipe, and what it left on the server."""
        ours, theirs = os.pipe()
        writer = threading.Thread(target=lambda: (os.write(theirs, data), os.close(theirs)))
        writer.start()
        status, said = told(load, self.wire, ours, "standard input", True)
        writer.join()
        os.close(ours)
        ids = b"".join(lines for lines, _ in RankedSweep(self.wire, "J1", "ids").blocks())
        words = b"".join(lines for lines, _ in StringSweep(self.wire, "words").blocks())
        self.wire.ask(EMPTY, 2)
        return status, said, set((ids + words).splitlines())

    def test_a_whole_one_is_loaded(self):
        with open(self.file("whole", self.dump), "rb") as file:
            self.assertEqual(told(load, self.wire, file.fileno(), "whole", True), (0, ""))
        self.assertTrue(self.wire.ask(b"USED\n", 1).startswith(b"Q 5000 "))
        self.wire.ask(EMPTY, 2)
        self.assertEqual(self.piped(self.dump), (0, "", set(self.LINES.splitlines())))

    def test_cut_at_two_hundred_places(self):
        draw = random.Random(int(os.environ.get("SEED", "1")))
        places = [0, 1, len(self.dump) - 1, len(self.dump) - 2, *draw.sample(range(len(self.dump)), 196)]
        places[4:10] = [at + 1 for at in (self.dump.index(b"\n"), self.dump.index(b"JSLI"), self.dump.rindex(b"# end") - 1, self.dump.rindex(b"# end"), 20, 30)]
        for at in places:
            self.assertIn("line", self.refused(self.dump[:at]))
        self.assertEqual(len(places), 200)

    def test_one_byte_changed_at_two_hundred_places(self):
        draw = random.Random(int(os.environ.get("SEED", "1")))
        last = range(self.dump.rindex(b"# end"), len(self.dump))
        for at in [*last[::2], *draw.sample(range(len(self.dump)), 200 - len(last[::2]))]:
            other = draw.choice([byte for byte in b"0123456789abcdefx# \nJ\x00" if byte != self.dump[at]])
            self.refused(self.dump[:at] + bytes([other]) + self.dump[at + 1 :])

    def test_the_line_is_named(self):
        lines = self.dump.splitlines(keepends=True)
        for at, wrong in ((10, b"J1S idt 5\n"), (4000, b"JSLI words x4 5\n"), (2, b"QUIT\n"), (3, b"\n")):
            self.assertIn("torn, line %d: the line was changed" % (at + 1), self.refused(b"".join(lines[:at] + [wrong] + lines[at + 1 :])))
        for part, said in (
            (lines[:9], "line 10: the dump is cut: its last line"), (lines[1:], "line 1: this is not the first line of a dump"), ([], "line 1: this is not"),
            (lines[:1] + lines[2:], "line 5001: the dump had 5000 entries, and 4999 are here"), (lines[:1] + [b"J1S ids 1\n"] + lines[2:], "line 5002: a line above was changed"),
            ([lines[0].replace(b"dump 1", b"dump 2")] + lines[1:], "line 1: a dump of version 2"), (lines + [b"\n"], "line 5003: text after the end"),
        ):  # fmt: skip
            self.assertIn("torn, " + said, self.refused(b"".join(part)))

    def test_whether_a_dump_is_whole_without_a_server(self):
        for at, wanted in ((None, (0, "5000 entries, whole\n", "")), (-1, (1, "")), (5000, (1, ""))):
            path = self.file("some.dump", self.dump[:at])
            for given, words in ((b"", (path,)), (self.dump[:at], ())):
                ran = run_judy(given, "check", "--whole", *words, path="/nowhere", token="")
                self.assertEqual(ran[: len(wanted)], wanted)
                self.assertEqual("the dump is cut" in ran[2] or "was changed" in ran[2] or "cut or changed" in ran[2], at is not None, ran[2])

    def test_two_dumps_in_one_file(self):
        for other in (self.dump, made("J1:ids"), made("J1:more", lines=b"J1S more 1\n")):
            self.assertIn("two dumps are loaded one by one", self.refused(self.dump + other))
            self.refused(self.dump[:2000] + other)

    def test_by_the_command_line(self):
        path = self.file("torn.dump", self.dump[:5000])
        for word in ("load", "check"):
            status, said, wrong = run_judy(b"", "-u", "alice", word, path)
            self.assertEqual((status, said), (1, ""))
            self.assertRegex(wrong, r"\Ajudy: %s, line [0-9]+: the dump is cut[^\n]*\n\Z" % path)
        status, _, wrong = run_judy(b"J1S a 1\nJ1S a 2", "-u", "alice", "load", "--unchecked")
        self.assertEqual((status, wrong), (1, "judy: standard input, line 2: the line has no end, and was not sent: 1 loaded before that\n"))
        self.assertEqual(run_judy(b"", "-u", "alice", "J1FA", "a")[1], "N 1\n")

    def test_from_a_pipe_the_end_is_told(self):
        draw = random.Random(int(os.environ.get("SEED", "1")))
        whole = set(self.LINES.splitlines())
        for at in draw.sample(range(len(self.dump)), 20):
            status, said, left = self.piped(self.dump[:at])
            self.assertEqual((status, left - whole), (1, set()))  # no number that never was
            self.assertRegex(said, r"\Ajudy: standard input, line [0-9]+: .*: %d loaded before that\n\Z" % len(left))

    def test_no_memory(self):
        with open(self.file("whole", self.dump), "rb") as file:
            status, said = told(load, Refusing(), file.fileno(), "whole", True)
        self.assertEqual((status, said.splitlines()[0]), (1, "judy: line 4: ERR MEMORY: the server is out of memory for a new entry"))
        self.assertRegex(said.splitlines()[-1], r"\Ajudy: refused: [0-9]+ of 5000 loaded; what follows was not sent\Z")


class Losses(JudyTest):
    """A disk without room, and servers that go."""

    def setUp(self):
        fill(self.path(), IDS + Torn.LINES)
        self.good = self.file("good", b"the last good one")

    def is_good(self):
        """The last good file is as it was, and nothing is left beside it."""
        with open(self.good, "rb") as file:
            self.assertEqual(file.read(), b"the last good one")
        self.assertEqual([name for name in os.listdir(self.folder()) if name.endswith(".part")], [])

    def test_a_full_disk(self):
        def limit():
            resource.setrlimit(resource.RLIMIT_FSIZE, (100000, 100000))

        judy = start_judy("-u", "alice", "dump", "-o", self.good, "J1:ids", preexec_fn=limit)
        _, wrong = judy.communicate(timeout=60)
        self.assertEqual((judy.returncode, wrong.count(b"\n")), (1, 1))
        self.assertIn(b"File too large: the dump is not whole; %b stays as it was" % self.good.encode(), wrong)
        self.is_good()
        path = self.file("torn", b"")
        with open(path, "wb") as file:
            judy = start_judy("-u", "alice", "dump", "J1:ids", stdout=file, preexec_fn=limit)
            judy.communicate(timeout=60)
        self.assertEqual((judy.returncode, os.path.getsize(path)), (1, 100000))
        self.assertEqual(run_judy(b"", "-u", "alice", "load", path)[0], 1)

    def test_a_device_is_not_replaced(self):
        status, _, wrong = run_judy(b"", "-u", "alice", "dump", "-o", "/dev/null", "J1:ids")
        self.assertEqual((status, wrong), (1, "judy: /dev/null is no regular file\n"))

    def test_a_file_is_replaced(self):
        os.chmod(self.good, 0o640)
        link = os.path.join(self.folder(), "link")
        os.symlink(self.good, link)
        self.assertEqual(run_judy(b"", "-u", "alice", "dump", "-o", link, "J1:ids", "JSL:words"), (0, "", ""))
        self.assertTrue(os.path.islink(link))
        self.assertEqual(os.stat(self.good).st_mode & 0o777, 0o640)
        self.assertEqual(run_judy(b"", "-u", "alice", "check", self.good)[:2], (0, "%d entries, alike\n" % len({*IDS.splitlines(), *Torn.LINES.splitlines()})))

    @unittest.skipIf(os.getuid(), "only root makes a file for another user")
    def test_a_new_file_of_root_is_its_folders(self):
        folder = self.folder()
        os.chown(folder, 65534, 65534)
        self.addCleanup(os.chown, folder, 0, 0)
        path = os.path.join(folder, "dump")
        self.assertEqual(run_judy(b"", "-u", "alice", "dump", "-o", path, "J1:ids"), (0, "", ""))
        found = os.stat(path)
        self.assertEqual((found.st_uid, found.st_gid, found.st_mode & 0o777), (65534, 65534, 0o600))

    def lost(self):
        """A server with a lot of entries, which will be started anew."""
        served = Served(clients=64)
        self.addCleanup(served.end)
        fill(served.path, IDS)
        return served

    def test_a_server_that_is_started_anew_in_a_dump(self):
        served = self.lost()
        for goes in (1, 2, 3, 20):
            with Losing(served, goes) as wire:
                status, said = told(dump, wire, [read_name("J1:ids")], self.good, False)
            self.assertEqual((status, "the dump is not whole; %s stays as it was" % self.good in said), (1, True))
            self.is_good()
            with alice(served.path) as client:
                self.assertEqual(client.used().used, 0)
            fill(served.path, IDS)

    def test_a_server_that_is_started_anew_while_a_dump_is_printed(self):
        served = self.lost()
        judy = start_judy("-u", "alice", "dump", "J1:ids", path=served.path)
        said = os.read(judy.stdout.fileno(), 10)
        served.kill()
        served.start()
        rest, wrong = judy.communicate(timeout=60)
        self.assertEqual((judy.returncode, b"# end" in said + rest, wrong.count(b"\n")), (1, False, 1))
        self.assertIn(b"the dump is not whole", wrong)

    def test_a_server_that_is_started_anew_in_a_load(self):
        path = self.file("dump", made("J1:ids", lines=IDS))
        served = Served(clients=64)
        self.addCleanup(served.end)
        for goes in (1, 2):
            with Losing(served, goes) as wire, open(path, "rb") as file:
                status, said = told(load, wire, file.fileno(), path, True)
            self.assertEqual(status, 1)
            self.assertRegex(said, r"\Ajudy: the connection was lost: .*: [0-9]+ of 100000 loaded, and perhaps some lines more\n\Z")
            with alice(served.path) as client:
                self.assertEqual(client.used().used, 0)

    def test_a_server_that_is_started_anew_while_a_load_waits(self):
        data = made("J1:ids", lines=b"".join(b"J1S ids %d\n" % i for i in range(10000)))
        served = Served(clients=64)
        self.addCleanup(served.end)
        judy = start_judy("-u", "alice", "load", path=served.path)
        half = data.index(b"\n", len(data) // 2) + 1
        judy.stdin.write(data[:half])
        judy.stdin.flush()
        with alice(served.path) as client:
            while client.used().used == 0:
                pass
        served.kill()
        served.start()
        with contextlib.suppress(BrokenPipeError):
            judy.stdin.write(data[half:])
        _, wrong = judy.communicate(timeout=60)
        self.assertEqual((judy.returncode, b" loaded, and perhaps some lines more" in wrong), (1, True))


class Writers(JudyTest):
    """Dumps while somebody writes."""

    def swept(self, array, change, sweep):
        """The entries of sweeps, while others are inserted and removed beside them."""
        going = threading.Event()

        def disturb():
            draw = random.Random(1)
            with alice() as client:
                while not going.is_set():
                    with client.pipeline() as pipe:
                        for _ in range(50):
                            change(pipe, draw.randrange(20000) * 2 + 1, draw.random() < 0.5)

        thread = threading.Thread(target=disturb)
        thread.start()
        try:
            with Wire(self.path(), 60) as wire:
                wire.log_in(b"AUTH alice abc")
                for _ in range(4):
                    yield b"".join(lines for lines, _ in sweep(wire).blocks()).splitlines()
        finally:
            going.set()
            thread.join()

    def test_numbers(self):
        fill(self.path(), b"".join(b"J1S some %d\n" % number for number in range(0, 40000, 2)))

        def change(pipe, number, is_new):
            (pipe.judy1("some").set if is_new else pipe.judy1("some").unset)(number)

        others = 0
        for lines in self.swept("some", change, lambda wire: RankedSweep(wire, "J1", "some")):
            numbers = [int(line.split()[2]) for line in lines]
            self.assertEqual([number for number in numbers if number % 2 == 0], list(range(0, 40000, 2)))
            self.assertEqual(numbers, sorted(set(numbers)))
            others += len(numbers) - 20000
        self.assertGreater(others, 0)

    def test_strings(self):
        wanted = [b"%05d" % number for number in range(0, 40000, 2)]
        fill(self.path(), b"".join(b"JSLI text x%b 1\n" % key.hex().encode() for key in wanted))

        def change(pipe, number, is_new):
            key = b"%05d" % number
            if is_new:
                pipe.judysl("text").insert(key, 2)
            else:
                pipe.judysl("text").delete(key)

        for lines in self.swept("text", change, lambda wire: StringSweep(wire, "text")):
            entries = [line.split()[2:] for line in lines]
            self.assertEqual([bytes.fromhex(key[1:].decode()) for key, value in entries if value == b"1"], wanted)
            self.assertEqual([key for key, _ in entries], sorted({key for key, _ in entries}))


    def test_byte_keys(self):
        wanted = {b"%05d" % number for number in range(0, 40000, 2)}
        fill(self.path(), b"".join(b"JHSI bytes x%b 1\n" % key.hex().encode() for key in sorted(wanted)))

        def change(pipe, number, is_new):
            key = b"%05d" % number
            if is_new:
                pipe.judyhs("bytes").insert(key, 2)
            else:
                pipe.judyhs("bytes").delete(key)

        for lines in self.swept("bytes", change, lambda wire: ByteSweep(wire, "bytes")):
            entries = [(bytes.fromhex(key[1:].decode()), value) for _, _, key, value in map(bytes.split, lines)]
            keys = [key for key, _ in entries]
            self.assertEqual({key for key, value in entries if value == b"1"}, wanted)
            self.assertEqual(keys, sorted(set(keys), key=lambda key: hashlib.sha256(key).digest()))


if __name__ == "__main__":
    unittest.main()
