#!/usr/bin/env python3
"""The time and the memory of a compaction: bench/compact.py [--lines N] [--tenants N] [--kind KIND] [--beside] [--disk DIR] [--keep]

Writes a journal of N insertions (default: 1,000,000), each of another key, by so many tenants in turns
(default: 1), and compacts it. KIND is J1, JL (the default), JSL or JHS. A row has the lines, the tenants, the
kind, the seconds, the processor time of a line in microseconds, and the most resident memory. With --keep the
journal is left in DIR. With --beside a server has the directory, as this program pretends: then no file is read to
close the last segment.

The program is the path in JUDYD, otherwise crates/judyd/out/judyd.
"""

import argparse
import fcntl
import multiprocessing
import os
import shutil
import subprocess
import sys
import tempfile
import time

TOP = os.path.dirname(os.path.dirname(os.path.realpath(__file__)))
sys.path.insert(0, os.path.join(TOP, "tests"))

import journals  # noqa: E402

PROGRAM = os.environ.get("JUDYD", os.path.join(TOP, "crates", "judyd", "out", "judyd"))
STEP = 0x9E3779B97F4A7C15
COMMIT = 300  # records of a commit


def record(kind, tenants, at):
    """The record with this number."""
    key = at * STEP % 2**64
    name = b"t%d a" % (at % tenants)
    if kind == "J1":
        return name.replace(b" ", b" J1S ") + b" %d" % key
    if kind == "JL":
        return name.replace(b" ", b" JLI ") + b" %d %d" % (key, at)
    return name.replace(b" ", b" %sI " % kind.encode()) + b" x%016x %d" % (key | 0x0101010101010101, at)


def write(folder, kind, tenants, lines):
    """Writes a journal of so many lines, in segments of 64 MiB."""
    number, checksum, size, parts = 1, journals.ZEROS, 0, []
    for first in range(0, lines, COMMIT):
        if not parts:
            parts = [b"judyd journal 1 %d %s\n" % (number, checksum.encode())]
        records = [record(kind, tenants, at) for at in range(first, min(lines, first + COMMIT))]
        text, checksum = journals.commits_text(checksum, [records])
        parts.append(text)
        size += len(text)
        if size >= journals.SEGMENT:
            with open(journals.segment_path(folder, number), "wb") as file:
                file.write(b"".join(parts))
            number, size, parts = number + 1, 0, []
    if not parts:
        parts = [b"judyd journal 1 %d %s\n" % (number, checksum.encode())]
    with open(journals.segment_path(folder, number), "wb") as file:
        file.write(b"".join(parts))
    with open(journals.segment_path(folder, number + 1), "wb") as file:
        file.write(b"judyd journal 1 %d %s\n" % (number + 1, checksum.encode()))
    journals.write_manifest(folder)


def main():
    """One row."""
    parser = argparse.ArgumentParser(description=__doc__.splitlines()[0])
    parser.add_argument("--lines", type=int, default=1_000_000, help="how many lines the journal has")
    parser.add_argument("--tenants", type=int, default=1, help="how many tenants take turns")
    parser.add_argument("--kind", choices=("J1", "JL", "JSL", "JHS"), default="JL", help="the kind of the arrays")
    parser.add_argument("--beside", action="store_true", help="as beside a server")
    parser.add_argument("--disk", default=None, help="where the journal is made")
    parser.add_argument("--keep", action="store_true", help="leave the journal, and compact a copy")
    options = parser.parse_args()
    folder = tempfile.mkdtemp(dir=options.disk)
    kept = os.path.join(options.disk or folder, "%s-%d-%d" % (options.kind, options.tenants, options.lines))
    if not os.path.exists(kept):
        os.mkdir(kept)
        # In a process of its own: the memory of the one that starts another counts as that one's too.
        writing = multiprocessing.Process(target=write, args=(kept, options.kind, options.tenants, options.lines))
        writing.start()
        writing.join()
    journal = os.path.join(folder, "journal")
    shutil.copytree(kept, journal)
    if not options.keep:
        shutil.rmtree(kept)
    with open(os.path.join(journal, "lock"), "wb") as lock:
        if options.beside:
            fcntl.flock(lock, fcntl.LOCK_EX)
        begun = time.monotonic()
        compaction = subprocess.Popen([PROGRAM, "compact", journal])
        _, status, after = os.wait4(compaction.pid, 0)
        compaction.returncode = os.waitstatus_to_exitcode(status)
        seconds = time.monotonic() - begun
    if status:
        sys.exit("judyd compact ended with status %d" % compaction.returncode)
    used = after.ru_utime + after.ru_stime
    print("| %d | %d | %s | %.2f s | %.2f us | %d MB |" % (
        options.lines, options.tenants, options.kind, seconds, used * 1e6 / options.lines, after.ru_maxrss // 1024,
    ))  # fmt: skip
    shutil.rmtree(folder)


if __name__ == "__main__":
    main()
