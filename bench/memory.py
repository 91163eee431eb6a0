#!/usr/bin/env python3
"""Measures the resident memory of judyd, redis-server and libjudy with 10,000 to 10,000,000 entries in one array.

usage: bench/memory.py [--most N] [--out FILE] [--only SUBJECT] [LOAD ..]
       bench/memory.py --rest [--out FILE]
       bench/memory.py --show [--out FILE]

Each load fills an array of a process of its own, and at each number of entries tells by how many bytes the
process has grown since it had none. Counted are resident pages that are in no file: those of the program's own
files come as it runs, whatever it holds. redis has a set for a Judy1 and a hash for each map, and no file; before each
look its tables are made whole, by as many look-ups as it has entries, and it gives free pages back. libjudy's arrays
(memory.c needs libjudy-dev and a C compiler) are in a program without lines. Strings and keys have 12 bytes. Values
are the number of entries before. Each entry must be a new one: another reply, as `FULL` or `ERR MEMORY`, ends it.

--rest measures what an empty judyd, names, clients, a journal, a status and a reserve take. FILE, by default
bench/out/memory.json, keeps what was measured before of other loads and subjects; --show only prints its tables, which
the pages have of bench/memory.json.

The program is the path in the environment's JUDYD, otherwise ./judyd, which builds it if necessary.
"""

import argparse
import hashlib
import json
import os
import random
import resource
import shutil
import socket
import subprocess
import sys
import tempfile
import time
from array import array
from binascii import hexlify
from contextlib import contextmanager, suppress

from run import wait_for

HERE = os.path.dirname(os.path.abspath(__file__))
PROGRAM = os.environ.get("JUDYD") or os.path.join(HERE, "..", "judyd")
DIGEST = hashlib.sha256(b"bench").hexdigest()
ROW = '[%s]\nsha256 = "%s"\nquota = 16777216\n'
COUNTS = (10000, 100000, 1000000, 10000000)
PART = 1000  # entries that are sent together
LETTERS = bytes(97 + at % 26 for at in range(256))

LOADS = {  # the kind of the array, whether its words are dense, the form of a line, and those of redis's command
    "Judy1, random words": ("1", False, b"J1S a %d\n", b"SADD a %d\r\n"),
    "Judy1, dense words": ("1", True, b"J1S a %d\n", b"SADD a %d\r\n"),
    "JudyL, random words": ("L", False, b"JLI a %d %d\n", b"HSET a %d %d\r\n"),
    "JudyL, dense words": ("L", True, b"JLI a %d %d\n", b"HSET a %d %d\r\n"),
    "JudySL, 12 letters": ("S", False, b"JSLI a x%b %d\n", b"HSET a %b %d\r\n"),
    "JudyHS, 12 bytes": ("H", False, b"JHSI a x%b %d\n", b'HSET a "%b" %d\r\n'),
}
SUBJECTS = ("judyd", "redis", "libjudy")

NAMES = (256, 4096, 65536, 1048576)  # arrays of one entry each
CLIENTS = 1000
RESERVE = 64  # MiB
ASKED, TOLD = b"J1T n1 5\n", b"0\n"  # a query, and its reply


class Keys:
    """The keys of a load, part by part."""

    def __init__(self, kind, is_dense):
        self.kind, self._is_dense, self._draw = kind, is_dense, random.Random(5)

    def part(self, at):
        """The keys from this number of entries on, as bytes."""
        if self._is_dense:
            return array("Q", range(at, at + PART)).tobytes()
        plain = self._draw.randbytes(PART * (8 if self.kind in "1L" else 12))
        return plain.translate(LETTERS) if self.kind == "S" else plain

    def fields(self, at, shown):
        """The same as the fields of lines, with the values. `shown` makes a key of a byte array a field."""
        plain = self.part(at)
        if self.kind in "1L":
            keys = array("Q", plain).tolist()
        else:
            keys = [shown(plain[it : it + 12]) for it in range(0, len(plain), 12)]
        return keys if self.kind == "1" else [field for pair in zip(keys, range(at, at + PART)) for field in pair]


def pages(process, row="Anonymous:"):
    """The bytes of a process's resident pages: by default of those that are in no file, and of all by `Rss:`."""
    with open("/proc/%d/smaps_rollup" % process.pid, encoding="ascii") as file:
        return sum(1024 * int(line.split()[1]) for line in file if line.startswith(row))


@contextmanager
def running(words, path):
    """A server, and a connection to it."""
    with subprocess.Popen(words, stdout=subprocess.DEVNULL, stderr=subprocess.DEVNULL) as process:
        try:
            with wait_for(path, process) as client:
                yield process, client
        finally:
            process.kill()


def words_of(subject, folder, more=(), tenants=("bench",)):
    """The command of a server, and the path of its socket."""
    path = os.path.join(folder, "socket")
    if subject == "redis":
        return ["redis-server", "--port", "0", "--unixsocket", path, "--save", "", "--appendonly", "no", "--dir", folder], path
    config = os.path.join(folder, "tenants.toml")
    with open(config, "w", encoding="ascii") as file:
        file.write("".join(ROW % (name, DIGEST) for name in tenants))
    return [PROGRAM, "serve", "--config", config, "--socket", path, *more], path


def ask(client, lines, replies):
    """Sends lines, and reads their replies. Others than these end the program."""
    client.sendall(lines)
    got = b""
    while got != replies:
        part = client.recv(65536)
        got += part
        if not part or not replies.startswith(got):
            wrong = next((it for it, right in zip(got.split(b"\n"), replies.split(b"\n")) if not right.startswith(it)), b"no reply")
            sys.exit("memory.py: %s replied to one of the lines from %s on" % (wrong, lines.split(b"\n")[0]))


def settle(client, kind, count):
    """Lets redis make its tables whole, which each call does a step of, and give free pages back."""
    look = b"SISMEMBER a no\r\n" if kind == "1" else b"HEXISTS a no\r\n"
    for _ in range(0, count, PART):
        ask(client, look * PART, b":0\r\n" * PART)
    ask(client, b"MEMORY PURGE\r\n", b"+OK\r\n")


def filled(subject, load, counts):
    """By how many bytes a server has grown, at each number of entries."""
    kind, is_dense, line, command = LOADS[load]
    keys, grown, is_redis = Keys(kind, is_dense), [], subject == "redis"
    form, new = (command, b":1\r\n") if is_redis else (line, b"1\n" if kind == "1" else b"V 0\n")
    shown = escaped if is_redis and kind == "H" else bytes if is_redis else hexlify
    with tempfile.TemporaryDirectory(prefix="bench-memory-") as folder, running(*words_of(subject, folder)) as (process, client):
        ask(client, *((b"PING\r\n", b"+PONG\r\n") if is_redis else (b"AUTH bench bench\n", b"OK\n")))
        empty = pages(process)
        for at in range(0, counts[-1], PART):
            ask(client, form * PART % tuple(keys.fields(at, shown)), new * PART)
            if at + PART in counts:
                if is_redis:
                    settle(client, kind, at + PART)
                grown.append(pages(process) - empty)
    return grown


def escaped(key):
    """A key of any bytes in one of redis's commands."""
    return b"".join(b"\\x%02x" % byte for byte in key)


def filled_libjudy(load, counts):
    """The same for libjudy's array in a program of its own."""
    kind, is_dense, _, _ = LOADS[load]
    with tempfile.TemporaryDirectory(prefix="bench-memory-") as folder:
        program = os.path.join(folder, "memory")
        subprocess.run(["cc", "-O2", "-o", program, os.path.join(HERE, "memory.c"), "-lJudy"], check=True)
        keys = Keys(kind, is_dense)
        with subprocess.Popen([program, kind, *map(str, counts)], stdin=subprocess.PIPE, stdout=subprocess.PIPE) as process:
            for at in range(0, counts[-1], PART):
                process.stdin.write(keys.part(at))
            process.stdin.close()
            grown = list(map(int, process.stdout.read().split()))
        if process.returncode:
            sys.exit("memory.py: libjudy's program ended with status %d" % process.returncode)
    return grown


def shown(number):
    """Bytes an entry, with three digits at least."""
    return "%.2f" % number if number < 1 else "%.1f" % number if number < 100 else "%d" % round(number)


def table(found):
    """The rows of all loads that were measured: in a cell the figures of all counts."""
    rows = ["| resident bytes an entry | %s |" % " | ".join(SUBJECTS), "|---" * (1 + len(SUBJECTS)) + "|"]
    for load in LOADS:
        cells = []
        for subject in SUBJECTS:
            grown = found.get(load, {}).get(subject, {})
            cells.append(", ".join(shown(grown[str(count)] / count) if str(count) in grown else "-" for count in COUNTS))
        rows.append("| %s | %s |" % (load, " | ".join(cells)))
    return "\n".join(rows)


def rest_table(rows):
    """The rows of all else, and the bytes of each: one row for several numbers of the same things, and for different
    things that take the same."""
    found, same = {}, {}
    for what, count, size in rows:
        number = "%s " % format(count, ",")
        name, part = (what[len(number) :], number.strip()) if count > 1 and what.startswith(number) else (what, "")
        found.setdefault(name, []).append((part, format(round(size / count), ",")))
    for name, sizes in found.items():
        same.setdefault(tuple(sizes), []).append(name)
    lines = ["| what | bytes of each |", "|---|---|"]
    for sizes, alike in same.items():
        parts, told = ("; ".join(it for it in column if it) for column in zip(*sizes))
        lines.append("| %s%s | %s |" % ("; ".join(alike), parts and " (%s)" % parts, told))
    return "\n".join(lines)


@contextmanager
def judyd(more=(), tenants=("bench",)):
    """A judyd with one entry that serves many clients, a connection of its first tenant, and the server's folder."""
    with tempfile.TemporaryDirectory(prefix="bench-memory-") as folder:
        if "--journal" in more:
            more = [*more, os.path.join(folder, "journal"), "--new-journal"]
            os.mkdir(os.path.join(folder, "journal"))
        if "--status" in more:
            more = [*more, os.path.join(folder, "status")]
        words, path = words_of("judyd", folder, ("--clients", "1024", "--login", "600", *more), tenants)
        with running(words, path) as (process, client):
            ask(client, b"AUTH %b bench\nJ1S first 1\n" % tenants[0].encode(), b"OK\n1\n")
            yield process, client, folder


def names(kind, line, new):
    """What names take: arrays of one entry each."""
    with judyd() as (process, client, _):
        empty, done = pages(process), 0
        for count in NAMES:
            for at in range(done, count, 256):
                ask(client, b"".join(line % it for it in range(at, at + 256)), new * 256)
            done = count
            yield "%s names of %ss" % (format(count, ","), kind), count, pages(process) - empty


def clients():
    """What clients take."""
    with judyd() as (process, _, folder):
        empty = pages(process)

        def row(what):
            time.sleep(1)  # until the server has closed or read all
            return "%s clients: %s" % (format(CLIENTS, ","), what), CLIENTS, pages(process) - empty

        others = [socket.socket(socket.AF_UNIX) for _ in range(CLIENTS)]
        for other in others:
            other.connect(os.path.join(folder, "socket"))
        yield row("connected")
        for other in others:
            ask(other, b"AUTH bench bench\n" + ASKED * 100, b"OK\n" + TOLD * 100)
        yield row("100 lines answered")
        for other in others:
            other.setblocking(False)
            with suppress(BlockingIOError):
                for _ in range(100):
                    other.send(b"HELLO\n" * 1000)
        yield row("lines wait")
        for other in others:
            other.close()
        yield row("gone")


def journal():
    """What a journal takes: a judyd with one beside a judyd without."""
    told = []
    for more in ((), ("--journal",)):
        with judyd(more) as (process, client, _):
            told.append([pages(process)])
            for at in range(0, 100000, PART):
                ask(client, b"".join(b"J1S a %d\n" % it for it in range(at, at + PART)), b"1\n" * PART)
            told[-1].append(pages(process))
    yield "a journal: at the start", 1, told[1][0] - told[0][0]
    yield "a journal: after 100,000 stores", 1, told[1][1] - told[0][1]


def statuses():
    """What the text of a status takes, and a table of the most tenants."""
    told = []
    for tenants in (["bench"], ["tenant-%d" % at for at in range(64)]):
        with judyd(("--status",), tenants) as (process, _, folder):
            told.append(pages(process))
            for _ in range(2):
                with socket.socket(socket.AF_UNIX) as asker:
                    asker.connect(os.path.join(folder, "status"))
                    asker.sendall(b"STATUS\n")
                    while asker.recv(65536):
                        pass
            yield "a status of %d tenant%s" % (len(tenants), "s"[: len(tenants) > 1]), 1, pages(process) - told[-1]
    yield "63 tenants more", 63, told[1] - told[0]


def rest():
    """The rows of all that is no entry."""
    soft, hard = resource.getrlimit(resource.RLIMIT_NOFILE)
    resource.setrlimit(resource.RLIMIT_NOFILE, (min(max(soft, 4096), hard), hard))
    with judyd() as (process, _, _):
        empty = pages(process)
        yield "a server, its program's pages among them", 1, pages(process, "Rss:")
        yield "the same without pages of files", 1, empty
    yield from names("Judy1", b"J1S n%d 1\n", b"1\n")
    yield from names("JudySL", b"JSLI n%d x61 1\n", b"V 0\n")
    yield from clients()
    yield from journal()
    yield from statuses()
    with judyd(("--reserve", str(RESERVE))) as (process, _, _):
        yield "`--reserve %d`" % RESERVE, 1, pages(process) - empty


def measure(options, found):
    """Measures what the command line asks for, and lets the caller keep it, load by load."""
    if options.rest:
        found["rest"] = list(rest())
        yield
        return
    counts = [count for count in COUNTS if count <= options.most]
    for load in options.loads or LOADS:
        for subject in [options.only] if options.only else SUBJECTS:
            if subject != "redis" or shutil.which("redis-server"):
                grown = filled_libjudy(load, counts) if subject == "libjudy" else filled(subject, load, counts)
                found["loads"].setdefault(load, {}).setdefault(subject, {}).update(zip(map(str, counts), grown))
                yield


def main():
    """Runs what the command line asks for."""
    parser = argparse.ArgumentParser(description=__doc__, formatter_class=argparse.RawDescriptionHelpFormatter)
    parser.add_argument("--most", type=int, default=COUNTS[-1], help="the greatest number of entries")
    parser.add_argument("--out", default=os.path.join(HERE, "out", "memory.json"))
    parser.add_argument("--only", choices=SUBJECTS)
    parser.add_argument("--rest", action="store_true")
    parser.add_argument("--show", action="store_true")
    parser.add_argument("loads", nargs="*", metavar="LOAD", help=", ".join(LOADS))
    options = parser.parse_args()
    unknown = set(options.loads) - set(LOADS)
    if unknown:
        parser.error("no such load: %s" % ", ".join(sorted(unknown)))
    found = {"loads": {}, "rest": []}
    if os.path.exists(options.out):
        with open(options.out, encoding="ascii") as file:
            found = json.load(file)
    for _ in () if options.show else measure(options, found):
        found.update(date=time.strftime("%Y-%m-%d"), processors=os.cpu_count())
        os.makedirs(os.path.dirname(os.path.abspath(options.out)), exist_ok=True)
        with open(options.out, "w", encoding="ascii") as file:
            json.dump(found, file, indent=1)
    print(table(found["loads"]), *([rest_table(found["rest"])] if found["rest"] else []), sep="\n\n")


if __name__ == "__main__":
    main()
