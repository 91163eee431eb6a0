"""Tests of `judy ship` and `judy receive` beside servers: clients that write, kills, and a take-over."""

import fcntl
import os
import random
import re
import signal
import subprocess
import sys
import tempfile
import threading
import time
import unittest
from contextlib import suppress

HERE = os.path.dirname(os.path.abspath(__file__))
sys.path[:0] = [HERE, os.path.join(HERE, "..", "..", "tests")]

import journals  # noqa: E402
from judyd import Client, Error  # noqa: E402
from served import PROGRAM, Served  # noqa: E402

JUDY = [sys.executable, os.path.join(HERE, "judy")]
PATIENCE = 60


class Writer(threading.Thread):
    """A client with an array of its own, to which it writes until its server is gone. It keeps its lines, and how many
    of them were answered."""

    def __init__(self, path, number, rest):
        super().__init__()
        self.path, self.name_of_array, self.rest = path, "m%d" % number, rest
        self.draw, self.lines, self.answered = random.Random(number), [], 0
        self.gate, self.is_idle = threading.Event(), threading.Event()
        self.gate.set()

    def run(self):
        name = self.name_of_array.encode()
        with suppress(Error), Client(self.path).auth("alice", "abc") as client:
            while True:
                if not self.gate.is_set():
                    self.is_idle.set()
                    self.gate.wait()
                    self.is_idle.clear()
                window = [self.line() for _ in range(self.draw.choice((1, 10, 300)))]
                self.lines += window
                client.lines(b"JLI %s %d %d" % (name, key, value) if value else b"JLD %s %d" % (name, key) for key, value in window)
                self.answered += len(window)
                time.sleep(self.rest)

    def line(self):
        """A key, and its new value; 0 for a removal."""
        return self.draw.randrange(2000), self.draw.randrange(1, 10**6) if self.draw.random() < 0.8 else 0

    def fronts(self, entries):
        """After how many lines at most the array has these entries; -1 if it never has them."""
        wanted, now, state, found = sum(map(hash, entries.items())), 0, {}, -1
        for number, (key, value) in enumerate([(-1, 0), *self.lines]):
            now -= hash((key, state[key])) if key in state else 0
            state.pop(key, None)
            if value:
                state[key] = value
                now += hash((key, value))
            if now == wanted and state == entries:
                found = number
        return found


class Shipping(unittest.TestCase):
    """Each test has a server with a journal of small segments, and the directory of a copy."""

    def setUp(self):
        place = tempfile.TemporaryDirectory(prefix="judyd-ship-")
        self.addCleanup(place.cleanup)
        self.place = place.name
        self.source, self.target = os.path.join(place.name, "a"), os.path.join(place.name, "b")
        self.status, self.said = os.path.join(place.name, "status"), os.path.join(place.name, "said")
        os.mkdir(self.source, 0o700)
        subprocess.run([PROGRAM, "journal", self.source, "--new"], check=True)
        self.draw = random.Random(int(os.environ.get("SEED", "7")))
        self.server = self.serve(self.source)

    def serve(self, folder):
        """A server with this journal."""
        served = Served(more=["--journal", folder, "--segment", "1"])
        self.addCleanup(served.end)
        return served

    def client(self, served):
        """A client of alice."""
        client = Client(served.path).auth("alice", "abc")
        self.addCleanup(client.close)
        return client

    def ship(self, *words, command=None):
        """A running judy ship. The command that it runs notes its process, and what it says."""
        script = 'echo $$ >"$1.pid"; said=$1; shift; mkfifo "$said.$$"; tee -a "$said" <"$said.$$" & exec "$@" >"$said.$$"'
        command = command or ["sh", "-c", script, "-", self.said, *JUDY, "receive", self.target]
        pipes = {"stdin": subprocess.DEVNULL, "stdout": subprocess.PIPE, "stderr": subprocess.PIPE, "encoding": "utf-8"}
        ship = subprocess.Popen([*JUDY, "ship", "--status", self.status, *words, self.source, "--", *command], **pipes)

        def end():
            if ship.poll() is None:
                ship.kill()
            ship.communicate(timeout=PATIENCE)

        self.addCleanup(end)
        return ship

    def once(self, **how):
        """The status of judy ship --once, and what it told."""
        ship = self.ship("--once", **how)
        said, wrong = ship.communicate(timeout=PATIENCE)
        self.assertEqual(said, "")
        return ship.returncode, wrong

    def told(self):
        """What the file of --status tells."""
        with suppress(FileNotFoundError), open(self.status, encoding="ascii") as file:
            found = re.fullmatch(r"segment (\d+)\nbyte (\d+)\nunconfirmed (\d+)\nseconds (\d+\.\d)\n", file.read())
            return (*map(int, found.groups()[:3]), float(found[4]))
        return (0, 0, -1, 0)

    def until(self, is_so):
        """Waits until something is so."""
        end = time.monotonic() + PATIENCE
        while not is_so():
            self.assertLess(time.monotonic(), end, self.told())
            time.sleep(0.02)

    def until_confirmed(self):
        """Waits until a new status tells that all is confirmed."""
        with suppress(FileNotFoundError):
            os.remove(self.status)
        self.until(lambda: self.told()[2] == 0)

    def until_free(self):
        """Waits until no receiver has the copy."""
        with open(os.path.join(self.target, "lock"), "ab") as lock:
            fcntl.flock(lock, fcntl.LOCK_EX)

    def confirmed(self):
        """The last place that the receiver has confirmed."""
        with open(self.said, encoding="ascii") as file:
            return max([(0, 0), *(tuple(map(int, it)) for it in re.findall(r"(?m)^AT (\d+):(\d+)$", file.read()))])

    def receiver(self):
        """The process of the receiver."""
        with open(self.said + ".pid", encoding="ascii") as file:
            return int(file.read())

    def processor_seconds(self, process):
        """How many seconds of a processor a process has taken."""
        with open("/proc/%d/stat" % process.pid, encoding="ascii") as file:
            return sum(map(int, file.read().rpartition(")")[2].split()[11:13])) / os.sysconf("SC_CLK_TCK")

    def most_memory(self, process):
        """The most kilobytes that a process had, without those of the test that it was forked from."""
        with open("/proc/%d/status" % process.pid, encoding="ascii") as file:
            return int(re.search(r"VmHWM:\s+(\d+) kB", file.read())[1])

    def compact(self):
        """Compacts the journal beside its server."""
        subprocess.run([PROGRAM, "compact", self.source], check=True)

    def place_of_copy(self):
        """Where the copy ends."""
        last = journals.numbers_of(self.target, "journal")[-1]
        return last, os.path.getsize(journals.segment_path(self.target, last))

    def test_once(self):
        """A copy of a running server's journal has all arrays, also once it was compacted."""
        client = self.client(self.server)
        for start in (0, 10**6):
            client.judy1("ids").update(range(start, start + 60000))
            client.judyl("hits").update((n, start + n) for n in range(0, 900, 3))
            client.judysl("words").update((b"w%d" % n, n + 1) for n in range(300))
            client.judyhs("keys").update((b"k%d" % n, n + 2) for n in range(300))
            self.assertEqual(self.once(), (0, ""))
            self.assertEqual(self.told()[:2], self.place_of_copy())
            self.assertEqual(self.told()[2:], (0, 0))
            for name in (it for it in os.listdir(self.target) if re.match(r"\d", it)):
                with open(os.path.join(self.source, name), "rb") as mine, open(os.path.join(self.target, name), "rb") as copied:
                    text = copied.read()
                    self.assertEqual(mine.read().rstrip(b"\0"), text, name)
            if start == 0:
                self.compact()
                self.assertGreater(len(journals.numbers_of(self.target, "journal")), 1)
        self.assertEqual(journals.numbers_of(self.target, "snapshot"), journals.numbers_of(self.source, "snapshot"))
        copy = self.client(self.serve(self.target))
        for mine, copied in zip(self.entries(client), self.entries(copy)):
            self.assertEqual(list(copied), list(mine))
        self.assertEqual(copy.used().used, client.used().used)

    def entries(self, client):
        """The entries of alice's arrays."""
        keys = client.judyhs("keys").get_many(b"k%d" % n for n in range(301))
        return client.judy1("ids").walk(), client.judyl("hits").walk(), client.judysl("words").walk(), keys

    def test_an_empty_journal(self):
        self.server.kill()
        for name in os.listdir(self.source):
            os.remove(os.path.join(self.source, name))
        subprocess.run([PROGRAM, "journal", self.source, "--new"], check=True)
        self.assertEqual(self.once(), (0, ""))
        self.assertEqual(self.client(self.serve(self.target)).used().used, 0)

    def takes_over(self, writers, least):
        """Checks that a server on the copy has each writer's array after a front of its lines, which has all that were
        confirmed."""
        client = self.client(self.serve(self.target))
        for writer, count in zip(writers, least):
            front = writer.fronts(dict(client.judyl(writer.name_of_array).walk()))
            self.assertLessEqual(count, front, writer.name_of_array)
            self.assertGreater(count, 0)

    def writers(self, count=8, rest=0.002):
        """Clients that write."""
        found = [Writer(self.server.path, number, rest) for number in range(count)]
        for writer in found:
            writer.start()
            self.addCleanup(writer.join)
            self.addCleanup(writer.gate.set)
        self.addCleanup(self.server.kill)
        return found

    def rested(self, writers):
        """How many lines of each writer were answered, while none of them writes and once all that is confirmed."""
        for writer in writers:
            writer.gate.clear()
        self.assertTrue(all(writer.is_idle.wait(PATIENCE) for writer in writers))
        self.until_confirmed()
        found = [writer.answered for writer in writers]
        for writer in writers:
            writer.gate.set()
        return found

    def test_a_take_over(self):
        """Eight clients write while it ships, segments fill, compactions run. Then both ends on the first machine are
        killed. A server on the copy has fronts with all that was confirmed."""
        ship, writers = self.ship(), self.writers()
        for last in (2, 3):
            self.until(lambda last=last: journals.numbers_of(self.source, "journal")[-1] >= last)
            least = self.rested(writers)
            self.compact()
            self.assertGreaterEqual(journals.numbers_of(self.source, "snapshot")[0], last - 1)
        time.sleep(self.draw.random())
        ship.kill()
        self.server.process.kill()
        self.until_free()
        number, size = self.place_of_copy()
        self.assertLessEqual(self.confirmed(), (number, size))
        paths = [journals.segment_path(folder, number) for folder in (self.source, self.target)]
        with open(paths[0], "rb") as mine, open(paths[1], "rb") as copied:
            self.assertEqual(mine.read(size), copied.read(size))
        for writer in writers:
            writer.join(PATIENCE)
        self.takes_over(writers, least)

    def test_a_receiver_that_is_killed(self):
        """A receiver is killed at random moments, and started again."""
        writers, least = self.writers(3, 0.01), [0]
        for _ in range(3):
            ship = self.ship()
            self.until(lambda: os.path.exists(self.said + ".pid"))
            time.sleep(self.draw.uniform(0.1, 0.7))
            os.kill(self.receiver(), signal.SIGKILL)
            wrong = ship.communicate(timeout=PATIENCE)[1]
            self.assertEqual((ship.returncode, wrong), (1, "judy: sh was ended by signal 9, and the journal is not sent any more\n"))
            os.remove(self.said + ".pid")
            if os.path.exists(journals.manifest_path(self.target)):
                subprocess.run([PROGRAM, "journal", self.target, "--check"], check=True, stdout=subprocess.DEVNULL)
                self.assertLessEqual(self.confirmed(), self.place_of_copy())
            self.compact()
        ship = self.ship()
        least = self.rested(writers)
        ship.send_signal(signal.SIGTERM)
        ship.communicate(timeout=PATIENCE)
        self.assertEqual(ship.returncode, 143)
        self.until_free()
        self.server.process.kill()
        for writer in writers:
            writer.join(PATIENCE)
        self.takes_over(writers, least)

    def test_a_full_pipe(self):
        """A receiver that stands still holds nobody up. The status tells what it has not confirmed."""
        client, ship = self.client(self.server), self.ship()
        client.judy1("ids").update(range(10))
        self.until_confirmed()
        os.kill(self.receiver(), signal.SIGSTOP)
        ship.send_signal(signal.SIGSTOP)  # so that it finds more than a pipe holds
        client.judy1("ids").update(range(60000))
        ship.send_signal(signal.SIGCONT)
        self.until(lambda: self.told()[2] > 10**6 and self.told()[3] >= 1)
        self.compact()
        os.kill(self.receiver(), signal.SIGCONT)
        self.until_confirmed()
        self.assertEqual(self.told()[3], 0)
        self.server.restart()  # it writes its last segment anew
        self.client(self.server).judy1("ids").add(10**6)
        self.until_confirmed()
        before = self.processor_seconds(ship)
        time.sleep(1.5)  # nothing happens: it sleeps
        self.assertLess(self.processor_seconds(ship) - before, 0.2)
        self.assertLess(self.most_memory(ship), 60000)
        ship.terminate()
        ship.stdout.close()
        ship.stderr.close()
        self.assertEqual(ship.wait(), 143)
        self.until_free()
        self.assertEqual(self.client(self.serve(self.target)).judy1("ids").count(0, 2**64 - 1), 60001)

    def test_the_locks_of_the_copy(self):
        """A server or a compaction on the copy is refused while a receiver has it, and the other way round."""
        ship = self.ship()
        self.until_confirmed()
        serve = ["serve", "--config", self.server.config, "--socket", os.path.join(self.place, "s"), "--journal"]
        for words, text in (([*serve, self.target], "in use by another server"), (["compact", self.target], "in use by another compaction")):
            ran = subprocess.run([PROGRAM, *words], stderr=subprocess.PIPE, encoding="utf-8", timeout=PATIENCE, check=False)
            self.assertEqual((ran.returncode, text in ran.stderr), (3, True), ran.stderr)
        ran = subprocess.run([*JUDY, "receive", self.target], stdin=subprocess.DEVNULL, capture_output=True, encoding="utf-8", check=False)
        told = "judy: %s: in use by a compaction, a repair or another judy receive\n" % self.target
        self.assertEqual((ran.returncode, ran.stdout, ran.stderr), (1, "", told))
        ship.terminate()
        ship.communicate(timeout=PATIENCE)
        self.until_free()
        self.serve(self.target)
        status, wrong = self.once(command=[*JUDY, "receive", self.target])
        self.assertEqual((status, wrong.splitlines()[0]), (1, "judy: %s: in use by a server" % self.target))
        self.assertRegex(wrong.splitlines()[1], r"judy: .* ended with status 1, and the journal is not sent any more$")

    def test_commands_that_end(self):
        """One line tells what was wrong."""
        for command, text in (
            (["true"], "judy: true ended with status 0, and the journal is not sent any more\n"),
            (["false"], "judy: false ended with status 1, and the journal is not sent any more\n"),
            (["no-such-command"], "judy: no-such-command: No such file or directory\n"),
            (["echo", "hello"], "judy: the receiver says 'hello', and judy receive begins otherwise\n"),
        ):
            self.assertEqual(self.once(command=command), (1, text))
        command = ["sh", "-c", '"$@"; exit 5', "-", *JUDY, "receive", self.target]
        self.assertEqual(self.once(command=command), (1, "judy: sh ended with status 5, after it had confirmed all\n"))
        with open(journals.segment_path(self.target, 1), "r+b") as file:
            file.write(b"J")
        status, wrong = self.once()
        self.assertEqual((status, wrong.count("\n"), "000000000001.journal" in wrong), (1, 1, True), wrong)
        os.remove(journals.manifest_path(self.source))
        self.assertEqual(self.once(), (1, "judy: %s: missing\n" % journals.manifest_path(self.source)))


if __name__ == "__main__":
    unittest.main()
