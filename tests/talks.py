"""Clients of a `judyd serve`: those that talk, each beside a plain store of its own, and those that
do harm."""

import os
import random
import select
import signal
import socket
import struct
import sys
import time
import traceback

import lines as made
from harness import connect
from oracle import COMMANDS, Syntax, Tenant, names_of, read_line

TENANTS = [
    Tenant("alice", "abc", 1000001, read_token="look"),
    Tenant("bob", "hello", 1000002, old_token="bye", old_read_token="glance"),
    Tenant("carol.x-1", "!~" * 64, 1000003),
    Tenant("Dave_" + "d" * 27, "abc", 1000004, read_token="peek"),
    Tenant("e", "e", 1000005, read_token="e"),
]
TABLE = "".join(tenant.toml() for tenant in TENANTS).encode()
LOG_IN = b"AUTH alice abc\n"
LONG_KEY = b"x" + b"7a" * 1000


def want(what, wanted, got):
    """Ends the test if two values differ."""
    if wanted != got:
        sys.exit("%s: %s: wanted %r, got %r" % (os.path.basename(sys.argv[0]), what, wanted, got))


def must(what, truth):
    """Ends the test if a condition does not hold."""
    if not truth:
        sys.exit("%s: %s" % (os.path.basename(sys.argv[0]), what))


def log_in_as(tenant):
    """The line that logs a tenant in."""
    return b"AUTH %s %s" % (tenant.name.encode(), tenant.token.encode())


def own_line(draw, hostile, names):
    """A line whose reply depends on no other client: it asks for no counts or names of the tenant,
    and calls only arrays of these names."""
    while True:
        line = hostile.walk.line() if draw.random() < 0.4 else hostile.line()
        try:
            fields = read_line(line[:-1] if line.endswith(b"\r") else line)
        except Syntax:
            return line
        if fields[0] in COMMANDS and set(names_of(*fields)) <= set(names):
            return line
        if fields[0] in (b"AUTH", b"PING", b"HELLO"):
            return line


def lines_of(draw, names):
    """A maker of lines for a client that calls arrays of these names."""
    made.TENANTS, made.NAMES = TENANTS, names
    return made.Hostile(draw)


class Talk:
    """A client that sends a few lines and reads as many replies."""

    def __init__(self, path, log_in=None):
        self.socket = connect(path)
        self.held = b""
        if log_in is not None:
            want("a log-in", b"OK\n", self.say(log_in))

    def say(self, text):
        """Sends complete lines, and returns their replies, or those that came before the server
        closed."""
        self.socket.sendall(text)
        return self.read(text.count(b"\n"))

    def read(self, count):
        """This many replies, or those that came before the end."""
        while self.held.count(b"\n") < count:
            try:
                piece = self.socket.recv(65536)
            except ConnectionResetError:
                piece = b""
            if not piece:
                break
            self.held += piece
        replies = self.held.splitlines(keepends=True)
        self.held = b"".join(replies[count:])
        return b"".join(replies[:count])

    def is_closed(self, patience):
        """Whether the server closes within some seconds. What it writes before is thrown away."""
        self.socket.settimeout(patience)
        try:
            while self.socket.recv(1 << 20):
                pass
            return True
        except ConnectionResetError:
            return True
        except socket.timeout:
            return False
        finally:
            self.socket.settimeout(60)

    def close(self):
        """Disconnects."""
        self.socket.close()


class Guest:
    """A client, with a connection to the plain store beside it."""

    def __init__(self, path, store):
        self.talk = Talk(path)
        self.own = store.connect()
        self.half = self.rest = b""

    def begin(self, line, cut):
        """Sends a line's first bytes."""
        self.half, self.rest = line, line[cut:] + b"\n"
        self.talk.socket.sendall(line[:cut])

    def say(self, lines, what):
        """Sends the rest of a line and more lines. The replies are those of its own connection to
        the plain store."""
        text = self.rest + b"".join(line + b"\n" for line in lines)
        if self.rest:
            lines = [self.half, *lines]
            self.rest = b""
        self.talk.socket.sendall(text)
        want("%s, %r" % (what, lines), b"".join(self.own.answer(line) + b"\n" for line in lines), self.talk.read(len(lines)))


def speak_at_once(path, scripts, draw):
    """Clients that send at the same time, in pieces of any size. Returns each one's replies until
    it is closed."""
    clients = [connect(path) for _ in scripts]
    left = [memoryview(script) for script in scripts]
    got = [[] for _ in scripts]
    of = {client.fileno(): at for at, client in enumerate(clients)}
    for client in clients:
        client.setblocking(False)
    until, is_open = time.monotonic() + 120, set(range(len(clients)))
    while is_open:
        must("no end after 120 seconds", time.monotonic() < until)
        writers = [clients[at] for at in is_open if left[at] is not None]
        reads, writes, _ = select.select([clients[at] for at in is_open], writers, [], 1)
        for client in writes:
            speak_on(client, left, of[client.fileno()], draw)
        for client in reads:
            at = of[client.fileno()]
            try:
                piece = client.recv(draw.choice((1, 100, 65536)))
            except ConnectionResetError:
                piece = b""
            if piece:
                got[at].append(piece)
            else:
                is_open.discard(at)
    for client in clients:
        client.close()
    return [b"".join(pieces) for pieces in got]


def speak_on(client, left, at, draw):
    """Sends the next piece of a client. After the last one it ends the sending side."""
    try:
        if left[at]:
            left[at] = left[at][client.send(left[at][: draw.choice((1, 7, 50, 1000, 60000))]) :]
        if not left[at]:
            client.shutdown(socket.SHUT_WR)
            left[at] = None
    except OSError:
        left[at] = None  # it was closed after a QUIT


def calls_of(path, count, seconds):
    """How many calls each client makes if it sends one line at a time and waits for the reply."""
    talks = [connect(path) for _ in range(count)]
    calls, poll = dict.fromkeys((talk.fileno() for talk in talks), 0), select.epoll()
    of = {talk.fileno(): talk for talk in talks}
    for at, talk in enumerate(talks):
        talk.sendall(log_in_as(TENANTS[at % 2]) + b"\n")
        want("a log-in", b"OK\n", talk.recv(99))
        poll.register(talk, select.EPOLLIN)
        talk.sendall(b"J1S w%d 1\n" % at)
    until = time.monotonic() + seconds
    while time.monotonic() < until:
        for number, _ in poll.poll(1):
            reply = of[number].recv(99)
            must("a worker was answered %r" % reply, reply in (b"0\n", b"1\n"))
            calls[number] += 1
            of[number].sendall(b"J1S w 1\n")
    for talk in talks:
        talk.close()
    return list(calls.values())


def refills(path, line, wanted, count, seconds):
    """A client that keeps this many lines in flight: when half of them are answered it sends as many
    again. It checks each reply, and ends when none comes in ten seconds."""
    talk, flying, came = Talk(path, LOG_IN), 0, b""
    talk.say(b"JLI m -1 -1\n")
    talk.socket.settimeout(10)
    until = time.monotonic() + seconds
    while True:
        is_over = time.monotonic() >= until
        if is_over and not flying:
            break
        if flying <= count // 2 and not is_over:
            talk.socket.sendall(line * (count - flying))
            flying = count
        try:
            came += talk.socket.recv(65536)
        except socket.timeout:
            sys.exit("%d of %d lines %r in flight have no reply in ten seconds" % (flying, count, line))
        whole = came.count(b"\n")
        replies, came = came[: whole * len(wanted)], came[whole * len(wanted) :]
        want("replies to %r" % line, wanted * whole, replies)
        flying -= whole


# ---- clients that do harm ----


def half_line(path, draw):
    """Sends a part of a line, and leaves."""
    with connect(path) as client:
        client.sendall((LOG_IN + b"J1S half 1")[: draw.randrange(24)])
        time.sleep(0.01)


def reset(path, _draw):
    """Leaves with replies unread, so that the server's next write or read fails."""
    with connect(path) as client:
        client.setsockopt(socket.SOL_SOCKET, socket.SO_LINGER, struct.pack("ii", 1, 0))
        client.sendall(LOG_IN + b"USED\n" * 100)


def long_line(path, _draw):
    """Sends a line of 5,000 bytes, and quits."""
    with connect(path) as client:
        client.sendall(b"q" * 5000 + b"\nQUIT\nUSED\n")
        want("a long line", b"ERR LONG\nBYE\n", client.makefile("rb").read())


def never_reads(path, _draw):
    """Sends as much as it can and reads nothing."""
    with connect(path) as client:
        client.setblocking(False)
        until = time.monotonic() + 0.2
        while time.monotonic() < until:
            try:
                client.send(LOG_IN + b"JSLI long " + LONG_KEY + b" 7\n" + b"JSLF long x\n" * 2000)
            except BlockingIOError:
                time.sleep(0.01)


def two_hundred(path, _draw):
    """Connects two hundred times at once, and leaves."""
    clients = []
    for _ in range(200):
        client = socket.socket(socket.AF_UNIX)
        client.setblocking(False)
        try:
            client.connect(path)
        except OSError:  # the backlog is full
            pass
        clients.append(client)
    for client in clients:
        client.close()


HARM = [half_line, reset, long_line, never_reads, two_hundred]


def do_harm(path, seed, harms, seconds):
    """Does one harm after another. A server that closes before it has read all is no fault."""
    draw, until = random.Random(seed), time.monotonic() + seconds
    while time.monotonic() < until:
        try:
            draw.choice(harms)(path, draw)
        except (ConnectionResetError, BrokenPipeError):
            pass


class Beside:
    """A process that does something until it ends or is killed."""

    def __init__(self, task, *words):
        self.pid = os.fork()
        if not self.pid:
            status = 1
            try:
                task(*words)
                status = 0
            except SystemExit as end:
                print(end.code, file=sys.stderr, flush=True)
            except Exception:
                traceback.print_exc()
            finally:
                os._exit(status)

    def __enter__(self):
        return self

    def __exit__(self, *_):
        self.kill()

    def wait(self):
        """Waits for its end, and returns its status."""
        if self.pid is None:
            return None
        _, status = os.waitpid(self.pid, 0)
        self.pid = None
        return os.waitstatus_to_exitcode(status)

    def kill(self):
        """Kills it, if it still runs."""
        if self.pid is not None:
            os.kill(self.pid, signal.SIGKILL)
            self.wait()
