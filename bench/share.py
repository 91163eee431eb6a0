#!/usr/bin/env python3
"""How long a tenant's single calls wait beside another tenant that floods: bench/share.py [--seconds S] [--lines N]

bob makes a call each 2 ms on one connection, while alice's 0, 64 and 500 connections each keep two batches of N
lines on the way (flood.c). The servers are judyd with `--share 8`, the default, and with `--share 1024`, which
passes over nobody. A row has the median and the 99th percentile of bob's calls, alice's calls a second, and the
server's processor time of a call.

The program is the path in JUDYD, otherwise crates/judyd/out/judyd.
"""

import argparse
import hashlib
import os
import signal
import socket
import subprocess
import sys
import tempfile
import time

from run import wait_for

TOP = os.path.dirname(os.path.dirname(os.path.realpath(__file__)))
PROGRAM = os.environ.get("JUDYD", os.path.join(TOP, "crates", "judyd", "out", "judyd"))
LINE = b"J1T ids 4711\n"


def processor_time(pid):
    """The processor time of a process, in seconds."""
    with open("/proc/%d/stat" % pid, encoding="ascii") as file:
        fields = file.read().rpartition(")")[2].split()
    return (int(fields[11]) + int(fields[12])) / os.sysconf("SC_CLK_TCK")


def log_in(path):
    """bob's connection."""
    bob = socket.socket(socket.AF_UNIX)
    bob.connect(path)
    bob.sendall(b"AUTH bob hello\n")
    bob.recv(100)
    return bob


def calls_of(bob, seconds):
    """How long each of his calls took, in seconds, sorted."""
    found, end = [], time.monotonic() + seconds
    while time.monotonic() < end:
        begun = time.perf_counter()
        bob.sendall(LINE)
        bob.recv(100)
        found.append(time.perf_counter() - begun)
        time.sleep(0.002)
    return sorted(found)


def measured(place, binary, share, clients, lines, seconds):
    """One run: the row of a table."""
    table, path = os.path.join(place, "table"), os.path.join(place, "socket")
    with open(table, "w", encoding="ascii") as file:
        for name, token in (("alice", b"abc"), ("bob", b"hello")):
            print('[%s]\nsha256 = "%s"\nquota = 1000\n' % (name, hashlib.sha256(token).hexdigest()), file=file)
    words = [PROGRAM, "serve", "--config", table, "--socket", path, "--clients", "1024", "--share", str(share)]
    server = subprocess.Popen(words, stderr=subprocess.DEVNULL)
    try:
        wait_for(path, server).close()
        flood = subprocess.Popen([binary, path, str(clients), str(lines)], stdout=subprocess.PIPE, encoding="ascii")
        flood.stdout.readline()
        bob, begun, used = log_in(path), time.monotonic(), processor_time(server.pid)
        times = calls_of(bob, seconds)
        used, span = processor_time(server.pid) - used, time.monotonic() - begun
        flood.send_signal(signal.SIGTERM)
        replies = int(flood.communicate()[0])
    finally:
        server.kill()
        server.wait()
        os.unlink(path)
    median, most = times[len(times) // 2], times[len(times) * 99 // 100]
    return "| %d | %d | %.3f | %.3f | %.0f | %.2f |" % (clients, share, median * 1e3, most * 1e3, replies / span / 1e3, used * 1e6 / (replies + len(times)))


def main():
    """Prints the table."""
    parser = argparse.ArgumentParser(description=__doc__.splitlines()[0])
    parser.add_argument("--seconds", type=float, default=6, help="how long bob calls in each run")
    parser.add_argument("--lines", type=int, default=20, help="how many lines a batch of alice has")
    options = parser.parse_args()
    with tempfile.TemporaryDirectory() as place:
        binary = os.path.join(place, "flood")
        subprocess.run(["cc", "-O2", "-o", binary, os.path.join(TOP, "bench", "flood.c")], check=True)
        print("| connections of alice | share | median, ms | 99th percentile, ms | thousand calls of alice a second | CPU a call, us |\n|---|---|---|---|---|---|")
        for clients in (0, 64, 500):
            for share in (1024, 8):
                print(measured(place, binary, share, clients, options.lines, options.seconds), flush=True)


if __name__ == "__main__":
    sys.exit(main())
