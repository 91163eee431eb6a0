#!/usr/bin/env python3
"""Measures the Python client: the CPU time of the client alone, and the wall time, for each entry.

usage: bench/client.py [--beside FOLDER] [--program JUDYD] [--rounds N] [--entries N] [LOAD ..]

Without --program a stand-in is the server: a process that answers each line at once, with the reply of an
empty array, and reads at most 4,096 bytes at once, as judyd does. So what is measured is the client. With
--beside a second client, of another folder like clients/python, runs each load in turn with the first one.
Each run is a process of its own, which does its load several times. The table has the least CPU time of all,
and the greatest rate.
"""

import argparse
import asyncio
import gc
import hashlib
import os
import random
import signal
import socket
import subprocess
import sys
import tempfile
import time

HERE = os.path.dirname(os.path.abspath(__file__))
CLIENT = os.path.join(HERE, "..", "clients", "python")
TABLE = '[alice]\nsha256 = "%s"\nquota = 16000000\n' % hashlib.sha256(b"abc").hexdigest()
TIMES = 7  # how often a run does its load
FEW = ("pipe-1", "pipe-10", "lines-10", "aio-gather")  # a tenth of the entries
NAMES = {  # of the loads
    "judy1": "Judy1 `update`",
    "judyl": "JudyL `update`, pairs",
    "judyl-dict": "JudyL `update`, a dict",
    "judysl": "JudySL `update`, bytes",
    "judysl-text": "JudySL `update`, str",
    "judyhs": "JudyHS `update`, bytes",
    "add": "JudyL `add_many`",
    "get": "JudyL `get_many`",
    "delete": "JudyL `delete_many`",
    "lines": "`lines`, 1,000 at once",
    "pipe-1": "pipelines of 1 insertion",
    "pipe-10": "pipelines of 10 insertions",
    "lines-10": "`lines`, 10 at once",
    "aio-update": "asyncio, JudyL `update`",
    "aio-get": "asyncio, JudyL `get_many`",
    "aio-lines": "asyncio, `lines`, 1,000 at once",
    "aio-gather": "asyncio, `gather` of 1,000 insertions",
}


def stand_in(listener):
    """Serves one connection after the other."""
    while True:
        other, _ = listener.accept()
        reply, is_start = b"OK\n", True
        with other:
            while data := other.recv(4096):
                if is_start:
                    reply = b"OK\n" if data[:1] == b"A" else b"1\n" if data[:2] == b"J1" or data[2:3] == b"D" else b"V 7\n"
                is_start = data.endswith(b"\n")
                other.sendall(reply * data.count(b"\n"))


def started(folder, program):
    """The process of a server, and the path of its socket."""
    path = os.path.join(folder, "socket")
    if program is not None:
        table = os.path.join(folder, "tenants.toml")
        with open(table, "w", encoding="ascii") as file:
            file.write(TABLE)
        number = subprocess.Popen([program, "serve", "--config", table, "--socket", path], stderr=subprocess.DEVNULL).pid
        while not os.path.exists(path):
            time.sleep(0.01)
        return number, path
    listener = socket.socket(socket.AF_UNIX)
    listener.bind(path)
    listener.listen()
    number = os.fork()
    if number == 0:
        stand_in(listener)
    listener.close()
    return number, path


class Things:
    """What is stored: random words, and keys of 6 to 14 bytes."""

    def __init__(self, count):
        draw = random.Random(5)
        self.words = [draw.getrandbits(64) for _ in range(count)]
        self.pairs = [(word, draw.getrandbits(32)) for word in self.words]
        self.entries = [(b"word:%d" % (word % 10**9), value) for word, value in self.pairs]
        self.texts = [(key.decode(), value) for key, value in self.entries]
        self.lines = [b"JLI m %d %d" % pair for pair in self.pairs]

    def parts(self, things, size):
        """The things in lists of this size."""
        return [things[at : at + size] for at in range(0, len(things), size)]


def piped(client, parts):
    """Insertions, in pipelines of some each."""
    for part in parts:
        with client.pipeline() as pipe:
            m = pipe.judyl("m")
            for key, value in part:
                m.insert(key, value)


def lined(client, parts):
    """Lines, some at once."""
    for part in parts:
        client.lines(part)


def jobs_of(client, things):
    """The loads of a client, each a call."""
    m, s = client.judyl("m"), client.judysl("s")
    by_one, by_ten = things.parts(things.pairs, 1), things.parts(things.pairs, 10)
    lines, lines_by_ten, entries = things.parts(things.lines, 1000), things.parts(things.lines, 10), dict(things.pairs)
    return {
        "judy1": lambda: client.judy1("ids").update(things.words),
        "judyl": lambda: m.update(things.pairs),
        "judyl-dict": lambda: m.update(entries),
        "judysl": lambda: s.update(things.entries),
        "judysl-text": lambda: client.judysl("s", "utf-8").update(things.texts),
        "judyhs": lambda: client.judyhs("h").update(things.entries),
        "add": lambda: m.add_many(things.pairs),
        "get": lambda: sum(1 for _ in m.get_many(things.words)),
        "delete": lambda: m.delete_many(things.words),
        "lines": lambda: lined(client, lines),
        "pipe-1": lambda: piped(client, by_one),
        "pipe-10": lambda: piped(client, by_ten),
        "lines-10": lambda: lined(client, lines_by_ten),
    }


def tasks_of(client, things):
    """The loads of an asyncio client, each a coroutine function."""
    m = client.judyl("m")

    async def got():
        async for _ in m.get_many(things.words):
            pass

    async def lined_up():
        for part in things.parts(things.lines, 1000):
            await client.lines(part)

    async def gathered():
        for part in things.parts(things.pairs, 1000):
            await asyncio.gather(*(m.insert(key, value) for key, value in part))

    return {"aio-update": lambda: m.update(things.pairs), "aio-get": got, "aio-lines": lined_up, "aio-gather": gathered}


def clocks():
    """Wall time and CPU time."""
    return time.perf_counter(), time.process_time()


class Least:
    """The least wall time and CPU time of a job that is done several times."""

    def __init__(self):
        self.times = []

    def __iter__(self):
        for _ in range(TIMES):
            before = clocks()
            yield
            self.times.append([now - then for now, then in zip(clocks(), before)])

    def found(self):
        """Both times, in seconds."""
        return list(map(min, zip(*self.times)))


def measured(path, load, count):
    """The least seconds of wall time and of CPU time that a load takes."""
    import judyd
    from judyd import aio

    things, least = Things(count), Least()
    gc.freeze()
    if not load.startswith("aio-"):
        with judyd.Client(path).auth("alice", "abc") as client:
            job = jobs_of(client, things)[load]
            for _ in least:
                job()
        return least.found()

    async def timed():
        async with aio.Client(path) as client:
            await client.auth("alice", "abc")
            job = tasks_of(client, things)[load]
            for _ in least:
                await job()
        return least.found()

    return asyncio.run(timed())


def run(folder, path, load, count):
    """The same in a process of its own, with the client of a folder; None if that client has no such method."""
    words = [sys.executable, os.path.abspath(__file__), "--one", path, "--entries", str(count), load]
    ran = subprocess.run(words, env={**os.environ, "PYTHONPATH": folder}, stdout=subprocess.PIPE, stderr=subprocess.PIPE, encoding="ascii", check=False)
    return list(map(float, ran.stdout.split())) if ran.returncode == 0 else None


def cells(times, count):
    """CPU microseconds an entry, and thousands of entries a second."""
    if not all(times):
        return "- | -"
    wall, cpu = (min(column) for column in zip(*times))
    return "%.2f | %s" % (cpu / count * 1e6, format(round(count / wall / 1000), ","))


def compare(options):
    """Prints the table."""
    folders = [it for it in (options.beside, CLIENT) if it is not None]
    with tempfile.TemporaryDirectory(prefix="bench-client-") as folder:
        number, path = started(folder, options.program)
        try:
            print("| load" + " | CPU us an entry | thousand entries a second" * len(folders) + " |\n" + "|---" * (1 + 2 * len(folders)) + "|")
            for load in options.loads or NAMES:
                count = options.entries // (10 if load in FEW else 1)
                times = [[] for _ in folders]
                for _ in range(options.rounds):
                    for place, found in zip(folders, times):
                        found.append(run(place, path, load, count))
                print("| %s | %s |" % (NAMES[load], " | ".join(cells(found, count) for found in times)), flush=True)
        finally:
            os.kill(number, signal.SIGTERM)
            os.waitpid(number, 0)


def main():
    """Runs what the command line asks for."""
    parser = argparse.ArgumentParser(description=__doc__, formatter_class=argparse.RawDescriptionHelpFormatter)
    parser.add_argument("--beside", metavar="FOLDER", help="another client, which runs first in each turn")
    parser.add_argument("--program", metavar="JUDYD", help="a judyd that serves, in the place of the stand-in")
    parser.add_argument("--rounds", type=int, default=7, help="runs of each load")
    parser.add_argument("--entries", type=int, default=20000, help="entries of a load")
    parser.add_argument("--one", metavar="PATH", help=argparse.SUPPRESS)
    parser.add_argument("loads", nargs="*", metavar="LOAD", help=", ".join(NAMES))
    options = parser.parse_args()
    if wrong := [it for it in options.loads if it not in NAMES]:
        parser.error("no such load: %s" % wrong[0])
    if options.one is not None:
        print(*measured(options.one, options.loads[0], options.entries))
    else:
        compare(options)


if __name__ == "__main__":
    main()
