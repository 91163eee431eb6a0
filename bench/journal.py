#!/usr/bin/env python3
"""judyd with a journal beside redis with its append-only file, on one disk: bench/journal.py [--seconds S] [--rounds N] [--disk DIR] [--starts]

First, persistent clients (persistent.c; half of their calls store, half look): 1, 8 and 64 of them, with 1
and with 100 calls in flight. The servers are judyd without a journal, with `--sync round` and with
`--sync 1`, and redis without a file, with `appendfsync always` and with `everysec`. A row has the calls a
second, the server's processor time of a call, and the bytes on disk of a call that stores.

Then the time from a start to the first answer: a journal of 1,000,000 changing lines, and its snapshot
(`judyd compact`, redis's BGREWRITEAOF); and the time that the making of the snapshot takes. Each has the
seconds, and the seconds of processor time, which other work on the machine changes less. With --starts
only these.

Each server's folder is made in DIR (default: the system's temporary folder), which should be on a disk.
The program is the path in JUDYD, otherwise crates/judyd/out/judyd.
"""

import argparse
import glob
import hashlib
import os
import shutil
import subprocess
import sys
import tempfile
import time

from run import wait_for

TOP = os.path.dirname(os.path.dirname(os.path.realpath(__file__)))
PROGRAM = os.environ.get("JUDYD", os.path.join(TOP, "crates", "judyd", "out", "judyd"))
NAMES = ("ann", "ben", "cat", "dan")
LINES = 1_000_000
STEP = 0x9E3779B97F4A7C15
PATIENCE = 120.0


def size_of(paths):
    """The bytes of all files."""
    return sum(os.path.getsize(it) for it in paths)


class Judyd:
    """judyd with these words for its journal."""

    kind = "judyd"
    log_ins = ["%s abc" % name for name in NAMES]

    def __init__(self, folder, title, words):
        self.folder, self.title, self.words = folder, title, words
        self.socket = os.path.join(folder, "socket")
        self.journal = os.path.join(folder, "journal")

    def prepare(self):
        """Makes the table and an empty folder for the journal."""
        digest = hashlib.sha256(b"abc").hexdigest()
        with open(os.path.join(self.folder, "table"), "w", encoding="ascii") as table:
            for name in NAMES:
                print('[%s]\nsha256 = "%s"\nquota = 16000000\n' % (name, digest), file=table)
        os.mkdir(self.journal)
        subprocess.run([PROGRAM, "journal", self.journal, "--new"], check=True)

    def start(self):
        """Starts the server."""
        words = ["serve", "--config", os.path.join(self.folder, "table"), "--socket", self.socket, "--clients", "64"]
        if self.words is not None:
            words += ["--journal", self.journal, *self.words]
        return subprocess.Popen([PROGRAM, *words], stderr=subprocess.DEVNULL)

    def bytes_a_store(self):
        """The bytes of the journal for each of its records."""
        count = size = 0
        for path in glob.glob(os.path.join(self.journal, "*.journal")):
            with open(path, "rb") as file:
                # Behind the last commit are zeros, which the next ones are written over.
                text = file.read().rstrip(b"\0")
            size += len(text)
            count += sum(1 for line in text.splitlines() if not line.startswith((b"#", b"@", b"judyd ")))
        return size / count if count else 0.0

    @staticmethod
    def store(word):
        """The bytes of a call that stores."""
        return b"J1S s %d\n" % word

    @staticmethod
    def greet(client):
        """Logs in."""
        client.sendall(b"AUTH ann abc\n")
        client.recv(100)

    def compact(self):
        """Makes a snapshot of all segments: no server uses them."""
        subprocess.run([PROGRAM, "compact", self.journal], check=True, stdout=subprocess.DEVNULL)


class Redis:
    """redis with these words for its append-only file."""

    kind = "redis"
    log_ins = []

    def __init__(self, folder, title, words):
        self.folder, self.title, self.words = folder, title, words
        self.socket = os.path.join(folder, "socket")

    def prepare(self):
        """Nothing is needed beside the folder."""

    def start(self):
        """Starts the server."""
        words = ["--port", "0", "--unixsocket", self.socket, "--dir", self.folder, "--save", "", "--daemonize", "no", *self.words]
        return subprocess.Popen(["redis-server", *words], stdout=subprocess.DEVNULL)

    def bytes_a_store(self):
        """The bytes of the append-only file for each of its commands."""
        files = glob.glob(os.path.join(self.folder, "**", "*.aof"), recursive=True)
        count = 0
        for path in files:
            with open(path, "rb") as file:
                count += sum(1 for line in file if line == b"SADD\r\n")
        return size_of(files) / count if count else 0.0

    @staticmethod
    def store(word):
        """The bytes of a call that stores."""
        text = b"%d" % word
        return b"*3\r\n$4\r\nSADD\r\n$2\r\ns0\r\n$%d\r\n%s\r\n" % (len(text), text)

    @staticmethod
    def greet(client):
        """Waits until the data is loaded."""
        end = time.monotonic() + PATIENCE
        while time.monotonic() < end:
            client.sendall(b"*1\r\n$4\r\nPING\r\n")
            if client.recv(100).startswith(b"+PONG"):
                return
            time.sleep(0.005)

    @staticmethod
    def compact(client):
        """Writes the append-only file anew."""
        client.sendall(b"*1\r\n$12\r\nBGREWRITEAOF\r\n")
        client.recv(200)
        end = time.monotonic() + PATIENCE
        while time.monotonic() < end:
            client.sendall(b"*2\r\n$4\r\nINFO\r\n$11\r\npersistence\r\n")
            if b"aof_rewrite_in_progress:0" in client.recv(8192):
                return
            time.sleep(0.05)


def measured(binary, disk, kind, title, words, clients, inflight, seconds):
    """One run of persistent clients: calls a second, the server's processor time of a call in
    microseconds, and the bytes on disk of a call that stores."""
    folder = tempfile.mkdtemp(dir=disk)
    server = kind(folder, title, words)
    server.prepare()
    running = server.start()
    wait_for(server.socket, running).close()
    ran = subprocess.run(
        [binary, server.socket, str(clients), str(min(clients, 2)), str(seconds), str(inflight), str(running.pid), kind.kind, *kind.log_ins],
        stdout=subprocess.PIPE, encoding="ascii", check=True,
    )
    running.terminate()
    running.wait()
    figures = ran.stdout.split()
    found = int(figures[0]), float(figures[5]) / 1000, server.bytes_a_store()
    shutil.rmtree(folder)
    return found


def rows(disk, seconds, rounds):
    """The table of persistent clients, one row after another. The servers take turns in each round."""
    binary = os.path.join(tempfile.mkdtemp(), "persistent")
    subprocess.run(["cc", "-O2", "-o", binary, os.path.join(TOP, "bench", "persistent.c")], check=True)
    kinds = [
        (Judyd, "judyd, no journal", None),
        (Judyd, "judyd --sync round", ["--sync", "round"]),
        (Judyd, "judyd --sync 1", ["--sync", "1"]),
        (Redis, "redis, no file", []),
        (Redis, "redis, always", ["--appendonly", "yes", "--appendfsync", "always"]),
        (Redis, "redis, everysec", ["--appendonly", "yes", "--appendfsync", "everysec"]),
    ]
    print("| server | clients | in flight | calls a second | CPU a call, us | bytes a store |\n|---|---|---|---|---|---|")
    for clients in (1, 8, 64):
        for inflight in (1, 100):
            found = {title: [] for _, title, _ in kinds}
            for _ in range(rounds):
                for kind, title, words in kinds:
                    found[title].append(measured(binary, disk, kind, title, words, clients, inflight, seconds))
            for title, runs in found.items():
                rate, cpu, size = sorted(runs)[len(runs) // 2]
                print("| %s | %d | %d | %s | %.2f | %.0f |" % (title, clients, inflight, f"{rate:,}", cpu, size), flush=True)


def fill(server, running):
    """Stores different words, and returns when all are answered."""
    client = wait_for(server.socket, running)
    server.greet(client)
    for start in range(0, LINES, 1000):
        client.sendall(b"".join(server.store(word * STEP % 2**64) for word in range(start, start + 1000)))
        left = 1000
        while left:
            left -= client.recv(1 << 16).count(b"\n")
    return client


def processor_time(pid):
    """The processor time of a process and of its children that have ended, in seconds."""
    with open("/proc/%d/stat" % pid, encoding="ascii") as file:
        fields = file.read().rpartition(")")[2].split()
    return sum(int(ticks) for ticks in fields[11:15]) / os.sysconf("SC_CLK_TCK")


def first_answer(server):
    """Starts a server and returns it with the seconds until its first answer, and those of processor time."""
    begun = time.monotonic()
    running = server.start()
    client = wait_for(server.socket, running)
    server.greet(client)
    return running, (time.monotonic() - begun, processor_time(running.pid))


def seconds_of(work, pid):
    """How long some work takes, and the processor time that this process spends on it meanwhile."""
    begun, before = time.monotonic(), processor_time(pid)
    work()
    return time.monotonic() - begun, processor_time(pid) - before


def starts(disk):
    """The table of starts."""
    print("\n| server | from 1,000,000 changing lines, s (CPU) | from the snapshot of 1,000,000 entries, s (CPU) | making the snapshot, s (CPU) |\n|---|---|---|---|")
    for kind, title, words in ((Judyd, "judyd --sync 1", ["--sync", "1"]), (Redis, "redis, everysec", ["--appendonly", "yes", "--appendfsync", "everysec"])):
        folder = tempfile.mkdtemp(dir=disk)
        server = kind(folder, title, words)
        server.prepare()
        running = server.start()
        fill(server, running)
        running.terminate()
        running.wait()
        if kind is Judyd:
            os.unlink(server.socket)
        running, lines = first_answer(server)
        if kind is Redis:
            made = seconds_of(lambda: server.compact(wait_for(server.socket, running)), running.pid)
        running.terminate()
        running.wait()
        if kind is Judyd:
            os.unlink(server.socket)
            made = seconds_of(server.compact, os.getpid())
        running, snapshot = first_answer(server)
        running.terminate()
        running.wait()
        print("| %s | %.2f (%.2f) | %.2f (%.2f) | %.2f (%.2f) |" % (title, *lines, *snapshot, *made), flush=True)
        shutil.rmtree(folder)


def main():
    """Both tables."""
    parser = argparse.ArgumentParser(description=__doc__.splitlines()[0])
    parser.add_argument("--seconds", type=int, default=4, help="how long each run of clients counts")
    parser.add_argument("--rounds", type=int, default=3, help="how many runs a row has; it shows the one with the median rate")
    parser.add_argument("--disk", default=None, help="where the files are made")
    parser.add_argument("--starts", action="store_true", help="only the times of starts and snapshots")
    options = parser.parse_args()
    if not options.starts:
        rows(options.disk, options.seconds, options.rounds)
    starts(options.disk)


if __name__ == "__main__":
    main()
