#!/usr/bin/env python3
"""CPU time of walks, in nanoseconds an entry: bench/walks.py [--entries N] [--rounds N] [PROGRAM..]

Each PROGRAM (JUDYD, or crates/judyd/out/judyd) fills an array through `judyd run --batch`, and then walks over it by
lines that ask for 65,535, 100 or 20 entries, as many times as it takes to read 2,000,000 entries. A cell has the
median of N runs, each less a run that fills the array alone. Programs take turns. The time is that of the
server: with its lines read, its searches, and the text of its replies.
"""

import argparse
import hashlib
import os
import random
import statistics
import subprocess
import sys
import tempfile

TOP = os.path.dirname(os.path.dirname(os.path.realpath(__file__)))
PROGRAM = os.environ.get("JUDYD", os.path.join(TOP, "crates", "judyd", "out", "judyd"))
TABLE = b'[bench]\nsha256 = "%s"\nquota = 16777216\n---\n' % hashlib.sha256(b"bench").hexdigest().encode()
READ = 2_000_000  # the entries that a run reads
AT_ONCE = 500  # lines of which the replies fit into a pipe
SYLLABLES = [a + b for a in "bcdfghklmnprstvw" for b in "aeiou"]


def arrays(count):
    """The name of each array, the lines that fill it, and how a line begins that walks from each of its entries on."""
    draw = random.Random(2026)
    words = sorted({draw.getrandbits(64) for _ in range(count)})
    dense = list(range(count))
    keys = [b"x" + it.encode().hex().encode() for it in sorted({"".join(draw.choices(SYLLABLES, k=6)) for _ in range(count)})]
    hashed = sorted(keys, key=lambda key: hashlib.sha256(bytes.fromhex(key[1:].decode())).digest())
    yield "Judy1, dense", [b"J1S a %d" % it for it in dense], [b"J1F a %d" % it for it in dense]
    yield "Judy1, random", [b"J1S a %d" % it for it in words], [b"J1F a %d" % it for it in words]
    yield "JudyL, dense", [b"JLI a %d %d" % (it, it) for it in dense], [b"JLF a %d" % it for it in dense]
    yield "JudyL, random", [b"JLI a %d %d" % (it, it & 0xFFFF) for it in words], [b"JLF a %d" % it for it in words]
    yield "JudySL, 12 letters", [b"JSLI a %s %d" % (it, at) for at, it in enumerate(keys)], [b"JSLF a " + it for it in keys]
    yield "JudyHS, 12 letters", [b"JHSI a %s %d" % (it, at) for at, it in enumerate(keys)], [b"JHSF a", *(b"JHSN a " + it for it in hashed[:-1])]


def spent(program, lines):
    """The seconds of processor time that a program takes for these lines, and its replies."""
    with tempfile.TemporaryFile() as given, tempfile.TemporaryFile() as replied:
        given.write(TABLE + b"AUTH bench bench\n" + b"".join(line + b"\n" for line in lines))
        given.seek(0)
        process = subprocess.Popen([program, "run", "--batch"], stdin=given, stdout=replied)
        _, status, used = os.wait4(process.pid, 0)
        process.returncode = os.waitstatus_to_exitcode(status)
        if process.returncode:
            sys.exit("walks: %s ended with status %d" % (program, process.returncode))
        replied.seek(0)
        return used.ru_utime + used.ru_stime, replied.read()


def lines_of(program, filled, starts, most):
    """The lines of a walk, which ask for at most this many entries each, and how many entries they read. A reply has
    as many as fit, so each line begins behind those of the reply before."""
    process = subprocess.Popen([program, "run"], stdin=subprocess.PIPE, stdout=subprocess.PIPE)
    lines = []
    with process.stdin as given, process.stdout as replies:
        given.write(TABLE)
        for at in range(0, len(filled), AT_ONCE):
            some = [b"AUTH bench bench", *filled[at : at + AT_ONCE]]
            given.write(b"".join(line + b"\n" for line in some))
            given.flush()
            for _ in some:
                replies.readline()
        at = 0
        while at < len(starts):
            lines.append(b"%s %d" % (starts[at], most))
            given.write(lines[-1] + b"\n")
            given.flush()
            at += int(replies.readline().split(b" ", 2)[1])
    process.wait()
    return lines, at


def main():
    """Prints the table."""
    parser = argparse.ArgumentParser(description=__doc__.splitlines()[0])
    parser.add_argument("programs", nargs="*", default=[PROGRAM])
    parser.add_argument("--entries", type=int, default=90_000, help="how many entries an array has")
    parser.add_argument("--rounds", type=int, default=5, help="how many runs each cell has")
    options = parser.parse_args()
    print("| array of %d | entries a line | %s |\n|---|---|%s" % (options.entries, " | ".join(options.programs), "---|" * len(options.programs)))
    for name, filled, starts in arrays(options.entries):
        for most in (65535, 100, 20):
            lines, entries = lines_of(options.programs[0], filled, starts, most)
            times = READ // entries + 1
            found = {it: [] for it in options.programs}
            for _ in range(options.rounds):
                for it in options.programs:
                    alone = spent(it, filled)[0]
                    found[it].append((spent(it, filled + lines * times)[0] - alone) / (entries * times))
            cells = " | ".join("%.0f" % (statistics.median(it) * 1e9) for it in found.values())
            print("| %s | %d | %s |" % (name, most, cells), flush=True)


if __name__ == "__main__":
    sys.exit(main())
