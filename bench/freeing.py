#!/usr/bin/env python3
"""How long FreeArray and RELOAD stop all other clients of a `judyd serve`, and what they cost.

usage: bench/freeing.py [ENTRIES [NAMES [LOAD..]]], by default 5,000,000 entries and 80,000 names, all loads

One client fills an array and frees it, or fills two arrays of each name for two tenants, one of whom
leaves the table. Another client asks a short question again and again meanwhile. For each load: the
processor time and the wall time of the call, and the longest time that the other client waited.
"""

import os
import random
import sys
import threading
import time

TOP = os.path.dirname(os.path.dirname(os.path.abspath(__file__)))
sys.path.insert(0, os.path.join(TOP, "tests"))
from harness import Server, connect  # noqa: E402
from oracle import Tenant  # noqa: E402

ALICE = Tenant("alice", "abc", 16777216)
BOB = Tenant("bob", "hello", 16777216)
CAROL = Tenant("carol", "carol", 16)
TICKS = os.sysconf("SC_CLK_TCK")
BATCH = 20000


class Client:
    """A client that has logged in."""

    def __init__(self, server, tenant):
        self.socket = connect(server.path)
        self.say([b"AUTH %s %s" % (tenant.name.encode(), tenant.token.encode())])

    def say(self, lines):
        """Sends lines, and reads as many replies: the last of them."""
        self.socket.settimeout(600)
        self.socket.sendall(b"\n".join(lines) + b"\n")
        ends, got = 0, b""
        while ends < len(lines):
            piece = self.socket.recv(1 << 16)
            if not piece:
                sys.exit("freeing: the server closed the connection")
            ends += piece.count(b"\n")
            got = got[-200:] + piece
        return got.splitlines()[-1]

    def fill(self, lines):
        """Sends many lines, a batch at a time."""
        for at in range(0, len(lines), BATCH // 50):
            self.say(lines[at : at + BATCH // 50])


class Watch(threading.Thread):
    """Asks a short question again and again, and notes the longest time to its reply."""

    def __init__(self, server):
        super().__init__(daemon=True)
        self.client = Client(server, CAROL)
        self.longest, self.ended = 0.0, False

    def run(self):
        while not self.ended:
            began = time.monotonic()
            self.client.say([b"J1T a 1"])
            self.longest = max(self.longest, time.monotonic() - began)
            time.sleep(0.0005)


def seconds(server):
    """The processor time of the server so far."""
    with open("/proc/%d/stat" % server.process.pid, encoding="ascii") as file:
        parts = file.read().rpartition(")")[2].split()
    return (int(parts[11]) + int(parts[12])) / TICKS


def timed(server, what, count, act):
    """Times an act while another client asks, and prints its row."""
    watch = Watch(server)
    watch.start()
    time.sleep(0.2)
    used, began = seconds(server), time.monotonic()
    act()
    wall = time.monotonic() - began
    watch.ended = True
    watch.join()
    used = seconds(server) - used
    each = used * 1e9 / count
    print("| %s | %d | %.2f | %.2f | %.2f | %.0f |" % (what, count, used, wall, watch.longest, each), flush=True)


def strings(draw, count):
    """This many keys: an x, and 4 to 20 bytes in hexadecimal digits."""
    made = set()
    while len(made) < count:
        made.add(draw.randbytes(draw.randint(4, 20)).replace(b"\0", b"x"))
    return [b"x" + it.hex().encode() for it in made]


def reload(server, *tenants):
    """Reads another table."""
    with open(server.config + ".new", "wb") as file:
        file.write("".join(it.toml() for it in tenants).encode())
    os.replace(server.config + ".new", server.config)
    with connect(os.path.join(server.folder.name, "control"), 600) as client:
        client.sendall(b"RELOAD\n")
        if client.recv(4096) != b"OK\n":
            sys.exit("freeing: RELOAD was refused")


def free(what, count, lines, call):
    """Fills an array on a server of its own, and times FreeArray."""
    with serving() as server:
        client = Client(server, ALICE)
        client.fill(lines)
        timed(server, what, count, lambda: client.say([call]))
        if client.say([b"USED"]).split()[1] != b"0":
            sys.exit("freeing: the array was not freed")


def leave(names):
    """Two tenants have arrays of as many names, and one of them leaves."""
    with serving() as server:
        for tenant in (ALICE, BOB):
            Client(server, tenant).fill([b"J1S n%d 1" % name for name in range(names)])
        timed(server, "RELOAD, one of two tenants leaves", names, lambda: reload(server, BOB, CAROL))


def serving():
    """A server for the three tenants. Its control socket lies in its folder."""
    server = Server("".join(it.toml() for it in (ALICE, BOB, CAROL)).encode(), "--clients", "8")
    server.words = (*server.words, "--control", os.path.join(server.folder.name, "control"))
    return server


def main():
    count = int(sys.argv[1]) if len(sys.argv) > 1 else 5000000
    names = int(sys.argv[2]) if len(sys.argv) > 2 else 80000
    draw = random.Random(1)
    words = lambda line: [line % draw.getrandbits(63) for _ in range(count)]  # noqa: E731
    dense = lambda line: [line % at for at in range(count)]  # noqa: E731
    loads = {
        "J1": lambda: free("J1FA, random words", count, words(b"J1S a %d"), b"J1FA a"),
        "J1D": lambda: free("J1FA, dense words", count, dense(b"J1S a %d"), b"J1FA a"),
        "JL": lambda: free("JLFA, random words", count, words(b"JLI a %d 1"), b"JLFA a"),
        "JLD": lambda: free("JLFA, dense words", count, dense(b"JLI a %d 1"), b"JLFA a"),
        "JSL": lambda: free("JSLFA, strings of 4 to 20 bytes", count, [b"JSLI a %s 1" % it for it in strings(draw, count)], b"JSLFA a"),
        "JHS": lambda: free("JHSFA, keys of 4 to 20 bytes", count, [b"JHSI a %s 1" % it for it in strings(draw, count)], b"JHSFA a"),
        "RELOAD": lambda: leave(names),
    }
    print("| call | entries or names | CPU, s | wall, s | longest stop of others, s | CPU ns each |\n|---|---|---|---|---|---|", flush=True)
    for load in sys.argv[3:] or loads:
        loads[load]()


if __name__ == "__main__":
    sys.exit(main())
