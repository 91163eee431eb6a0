#!/usr/bin/env python3
"""Requests of many entries, and calls that do a script's work, beside redis: bench/many_entries.py [--rounds N] [--disk DIR] [--only WORD]

Each load runs through a Unix socket, with 1 and with 100 calls in flight, by the same client for both
servers. A row has the calls a second, and the server's processor time of a call and of an entry: the
medians of N runs, in which the servers take turns. Calls that change entries run without a journal and with
one (`--sync round`; redis's append-only file with `appendfsync always`), in a folder of DIR, which should be on
a disk. Last, one client asks for what three sets share, and eight processes take entries, with one call in flight
each.

redis gets the nearest command: a sorted set by score for a JudyL, one by text for a JudySL, and a script for
`JLT`, which takes an entry. It intersects three sets, or sorted sets, by one command. judyd has none for three: the
client asks for the words that two of them share (`J1I`), and with each next line it tests the words of the reply
before in the third (`J1T`), all of these in flight at once. So the third set costs a search for each shared word,
where `J1I` of another two would cost two for each of its steps, of which there are more. The program is the path in JUDYD, otherwise crates/judyd/out/judyd.
"""

import argparse
import bisect
import multiprocessing
import os
import random
import shutil
import statistics
import subprocess
import sys
import tempfile
import time
from collections import namedtuple

from run import LOG_IN, TABLE, TOP, Peer, count_lines, count_resp, resp, wait_for, words_of

PROGRAM = os.environ.get("JUDYD", os.path.join(TOP, "crates", "judyd", "out", "judyd"))
ENTRIES = 100_000
TAKE = b"local v = redis.call('HGET', KEYS[1], ARGV[1]); redis.call('HDEL', KEYS[1], ARGV[1]); return v"
TAKERS = 8
SETS, INDEXES, BELOW = (b"a", b"b", b"c"), 20_000, 200_000  # names of the sets that are intersected, and what is in each

# A load: the lines before it that are not timed, its lines, both for redis too, the name of redis's command, how
# many entries a line has, and whether it changes any.
Load = namedtuple("Load", "name before lines redis_before redis asks entries changes")
Figures = namedtuple("Figures", "rate cpu")


# ---- loads ----


def filled(draw):
    """JudyLs with random indexes, which redis holds as scores, without loss."""
    indexes = sorted(draw.sample(range(10**15, 9 * 10**15), ENTRIES))
    lines = [b"JLI m %d %d\n" % (it, at) for at, it in enumerate(indexes)]
    redis = [resp(b"ZADD", b"m", b"%d" % it, b"%016d" % at) for at, it in enumerate(indexes)]
    return indexes, lines, redis


def ranges(draw, count):
    """The first 20 entries from an index on."""
    indexes, before, redis_before = filled(draw)
    starts = [indexes[draw.randrange(ENTRIES - 20)] - draw.randrange(3) for _ in range(count)]
    lines = [b"JLF m %d 20\n" % it for it in starts]
    redis = [resp(b"ZRANGEBYSCORE", b"m", b"%d" % it, b"+inf", b"WITHSCORES", b"LIMIT", b"0", b"20") for it in starts]
    return Load("range of 20", before, lines, redis_before, redis, "ZRANGEBYSCORE", 20, False)


def walk(draw):
    """All entries, 100 a call."""
    indexes, before, redis_before = filled(draw)
    starts = [indexes[at] for at in range(0, ENTRIES, 100)]
    lines = [b"JLF m %d 100\n" % it for it in starts]
    redis = [resp(b"ZRANGEBYSCORE", b"m", b"%d" % it, b"+inf", b"WITHSCORES", b"LIMIT", b"0", b"100") for it in starts]
    return Load("walk of a JudyL, 100 a call", before, lines, redis_before, redis, "ZRANGEBYSCORE", 100, False)


def strings(draw):
    """A JudySL of words."""
    words = sorted(words_of(draw, ENTRIES))
    lines = [b"JSLI s x%s %d\n" % (it.hex().encode(), at) for at, it in enumerate(words)]
    return words, lines, [resp(b"ZADD", b"s", b"0", it) for it in words]


def completions(draw, count):
    """The first ten words that begin with some letters."""
    words, before, redis_before = strings(draw)
    fronts = [draw.choice(words)[:3] for _ in range(count)]
    fronts = [it for it in fronts if bisect.bisect(words, it) + 10 <= len(words)]
    lines = [b"JSLF s x%s 10\n" % it.hex().encode() for it in fronts]
    redis = [resp(b"ZRANGEBYLEX", b"s", b"[" + it, b"+", b"LIMIT", b"0", b"10") for it in fronts]
    return Load("completion of a prefix, 10", before, lines, redis_before, redis, "ZRANGEBYLEX", 10, False)


def walk_of_strings(draw):
    """All words, 100 a call."""
    words, before, redis_before = strings(draw)
    starts = [words[at] for at in range(0, ENTRIES, 100)]
    lines = [b"JSLF s x%s 100\n" % it.hex().encode() for it in starts]
    redis = [resp(b"ZRANGEBYLEX", b"s", b"[" + it, b"+", b"LIMIT", b"0", b"100") for it in starts]
    return Load("walk of a JudySL, 100 a call", before, lines, redis_before, redis, "ZRANGEBYLEX", 100, False)


def pops(draw):
    """The least entry, which is removed."""
    _, before, redis_before = filled(draw)
    return Load("pop of the least", before, [b"JLDF m 0 -1\n"] * ENTRIES, redis_before, [resp(b"ZPOPMIN", b"m")] * ENTRIES, "ZPOPMIN", 1, True)


def removals(draw):
    """Ranges of 100 entries, which are removed."""
    indexes, before, redis_before = filled(draw)
    bounds = [(indexes[at], indexes[at + 99]) for at in range(0, ENTRIES, 100)]
    lines = [b"JLDR m %d %d 65535\n" % it for it in bounds]
    redis = [resp(b"ZREMRANGEBYSCORE", b"m", b"%d" % low, b"%d" % high) for low, high in bounds]
    return Load("removal of a range of 100", before, lines, redis_before, redis, "ZREMRANGEBYSCORE", 100, True)


# ---- servers ----


class Judyd:
    """A judyd, with a journal in its folder if it is asked for."""

    name, count = "judyd", staticmethod(count_lines)

    def __init__(self, folder, durable):
        self.path, table, journal = (os.path.join(folder, it) for it in ("socket", "table", "journal"))
        with open(table, "w", encoding="ascii") as file:
            file.write(TABLE)
        words = [PROGRAM, "serve", "--config", table, "--socket", self.path, "--clients", "64"]
        if durable:
            os.mkdir(journal)
            subprocess.run([PROGRAM, "journal", journal, "--new"], check=True)
            words += ["--journal", journal, "--sync", "round"]
        self.process = subprocess.Popen(words, stderr=subprocess.DEVNULL)

    def client(self):
        """A connection, logged in."""
        client = wait_for(self.path, self.process)
        peer = Peer(self.process, client.fileno(), client.fileno(), count_lines)
        peer.exchange(LOG_IN, 1)
        return client, peer

    @staticmethod
    def lines(load):
        """The lines before a load, and those of it."""
        return load.before, load.lines

    @staticmethod
    def put_in(name, word):
        """A call that puts a word into a set."""
        return b"J1S %s %d\n" % (name, word)

    @staticmethod
    def shared(client, replies, _):
        """The words that three sets share."""
        found, going_on, words = [], 0, []
        while going_on is not None or words:
            line = b"" if going_on is None else b"J1I a b %d 65535\n" % going_on
            client.sendall(line + b"".join(b"J1T c %d\n" % it for it in words))
            _, following, _, *shared = map(bytes.decode, replies.readline().split()) if line else ("I", "0", "0")
            found += [it for it in words if replies.readline() == b"1\n"]
            going_on, words = int(following) or None, list(map(int, shared))
        return found

    @staticmethod
    def take(word):
        """A call that takes an entry."""
        return b"JLT m %d\n" % word

    @staticmethod
    def put(word):
        """A call that stores it."""
        return b"JLI m %d 7\n" % word


class Redis:
    """A redis, with an append-only file in its folder if it is asked for."""

    name, count = "redis", staticmethod(count_resp)

    def __init__(self, folder, durable):
        self.path = os.path.join(folder, "socket")
        file = ["--appendonly", "yes", "--appendfsync", "always"] if durable else ["--appendonly", "no"]
        words = ["redis-server", "--port", "0", "--unixsocket", self.path, "--save", "", "--dir", folder, *file]
        self.process = subprocess.Popen(words, stdout=subprocess.DEVNULL)

    def client(self):
        """A connection."""
        client = wait_for(self.path, self.process)
        return client, Peer(self.process, client.fileno(), client.fileno(), count_resp)

    @staticmethod
    def lines(load):
        """The commands before a load, and those of it."""
        return load.redis_before, load.redis

    @staticmethod
    def put_in(name, word):
        """Commands that put a word into a set, and into a sorted set."""
        return resp(b"SADD", name, b"%d" % word) + resp(b"ZADD", b"z" + name, b"%d" % word, b"%d" % word)

    @staticmethod
    def shared(client, replies, command):
        """The words that three sets share."""
        client.sendall(resp(b"SINTER", *SETS) if command == "SINTER" else resp(b"ZINTER", b"3", *(b"z" + it for it in SETS)))
        count = int(replies.readline()[1:])
        return sorted(int([replies.readline(), replies.readline()][1]) for _ in range(count))

    @staticmethod
    def take(word):
        """A script that takes an entry."""
        return resp(b"EVAL", TAKE, b"1", b"m", b"%d" % word)

    @staticmethod
    def put(word):
        """A command that stores it."""
        return resp(b"HSET", b"m", b"%d" % word, b"7")


# ---- runs ----


def measured(kind, disk, durable, run):
    """The figures of a run on a new server."""
    folder = tempfile.mkdtemp(dir=disk)
    server = kind(folder, durable)
    try:
        return run(server)
    finally:
        server.process.kill()
        server.process.wait()
        shutil.rmtree(folder)


def of_load(load, window):
    """A run of a load with so many calls in flight."""

    def run(server):
        client, peer = server.client()
        before, lines = server.lines(load)
        with client:
            peer.all(before, 1000)
            wall, cpu = time.monotonic(), peer.cpu()
            peer.all(lines, window)
            return Figures(len(lines) / (time.monotonic() - wall), (peer.cpu() - cpu) / len(lines))

    return run


def taker(server, words):
    """A process that takes entries, one after another."""
    client, peer = server.client()
    with client:
        peer.all([server.take(it) for it in words], 1)


def takes(count):
    """A run of eight processes that take all entries."""

    def run(server):
        client, peer = server.client()
        with client:
            peer.all([server.put(it) for it in range(count)], 1000)
            those = [multiprocessing.Process(target=taker, args=(server, range(one, count, TAKERS))) for one in range(TAKERS)]
            wall, cpu = time.monotonic(), peer.cpu()
            for it in those:
                it.start()
            for it in those:
                it.join()
            if any(it.exitcode for it in those):
                sys.exit("many_entries: a process that takes entries failed")
            return Figures(count / (time.monotonic() - wall), (peer.cpu() - cpu) / count)

    return run


def shares(command, times):
    """A run of so many intersections of three sets, by this command of redis, and how many words these share."""
    draw = random.Random(2026)
    sets = {name: draw.sample(range(BELOW), INDEXES) for name in SETS}
    wanted = sorted(set.intersection(*map(set, sets.values())))

    def run(server):
        client, peer = server.client()
        with client, client.makefile("rb") as replies:
            lines = [server.put_in(name, it) for name, words in sets.items() for it in words]
            peer.exchange(b"".join(lines), len(lines) * (2 if isinstance(server, Redis) else 1))
            client.setblocking(True)
            wall, cpu = time.monotonic(), peer.cpu()
            found = [server.shared(client, replies, command) for _ in range(times)]
            figures = Figures(times / (time.monotonic() - wall), (peer.cpu() - cpu) / times)
        if any(it != wanted for it in found):
            sys.exit("many_entries: %s found other words than three sets share" % server.name)
        return figures

    return run, len(wanted)


def row(name, durable, entries, run, options):
    """Prints a row: both servers take turns."""
    found = {kind: [] for kind in (Judyd, Redis)}
    for _ in range(options.rounds):
        for kind, all_of_it in found.items():
            all_of_it.append(measured(kind, options.disk, durable, run))
    cells = []
    for all_of_it in found.values():
        rate, cpu = (statistics.median(column) for column in zip(*all_of_it))
        cells.append("%.*f (%.2f; %.0f)" % (1 if rate >= 10_000 else 2, rate / 1e3, cpu * 1e6, cpu * 1e9 / entries))
    print("| %s | %s | %s |" % (name, "yes" if durable else "no", " | ".join(cells)), flush=True)


def main():
    """Prints the table."""
    parser = argparse.ArgumentParser(description=__doc__.splitlines()[0])
    parser.add_argument("--rounds", type=int, default=5, help="how many runs each server has")
    parser.add_argument("--disk", default=None, help="where the servers' folders are made")
    parser.add_argument("--only", default="", help="only the loads whose names have this text")
    options = parser.parse_args()
    made = (lambda draw: ranges(draw, 20000), lambda draw: completions(draw, 20000), walk, walk_of_strings, pops, removals)
    print("Thousand calls a second (the server's processor time of a call in us; of an entry in ns)\n")
    print("| load | journal | judyd | redis |\n|---|---|---|---|")
    for load in (make(random.Random(2026)) for make in made):
        for window in (1, 100):
            for durable in (False, True) if load.changes else (False,):
                name = "%s (%s), %d in flight" % (load.name, load.asks, window)
                if options.only in name:
                    row(name, durable, load.entries, of_load(load, window), options)
    for command in ("SINTER", "ZINTER"):
        name = "words that three sets share (%s)" % command
        if options.only in name:
            run, entries = shares(command, 200)
            row(name, False, entries, run, options)
    for durable in (False, True):
        if options.only in "take by eight processes":
            row("take by eight processes (EVAL)", durable, 1, takes(40000), options)


if __name__ == "__main__":
    sys.exit(main())
