"""What clients count of their own lines, replies and bytes, beside the counters of a status."""

import os
import random
import select
import sys
import threading
from collections import Counter

import lines as made
from harness import TOP, connect
from oracle import COMMANDS, LINE_LIMIT, Syntax, Tenant, read_line

sys.path.insert(0, os.path.join(TOP, "clients", "python"))

from status_server import CALLS, CAUSES, KINDS  # noqa: E402

TENANTS = [
    Tenant("alice", "abc", 1000000, read_token="look"),
    Tenant("bob", "hello", 40, old_token="bye", old_read_token="glance"),
    Tenant("carol.x-1", "!~" * 64, 500, pieces=600),
    Tenant("Dave_" + "d" * 27, "abc", 0, read_token="peek"),
    Tenant("e", "e", 100, read_token="e"),
]
TABLE = "".join(tenant.toml() for tenant in TENANTS).encode()
LINES, REPLIES, REFUSED, UNKNOWN = "judyd_lines_total", "judyd_replies_total", "judyd_logins_refused_total", "judyd_logins_unknown_total"
SPOKEN, FULL = "judyd_tenant_lines_total", "judyd_tenant_full_total"
RECEIVED, SENT = "judyd_bytes_received_total", "judyd_bytes_sent_total"
ACCEPTED, ENDED = "judyd_connections_accepted_total", "judyd_connections_ended_total"


def call_of(line):
    """What a line asks for, and its fields; `none` for a line that is no request."""
    try:
        if len(line) > LINE_LIMIT:
            raise Syntax
        word, fields = read_line(line[:-1] if line.endswith(b"\r") else line)
    except Syntax:
        return "none", ()
    return word.decode(), fields


def kind_of(reply):
    """The kind of a reply."""
    return KINDS.get(reply, "ok")


class Counts:
    """Counters of a status by name and label, from what clients sent and got."""

    def __init__(self, tenants):
        self.names = {tenant.name.encode() for tenant in tenants}
        self.numbers = Counter()

    def add(self, script, replies, cause):
        """A connection: the bytes that it sent, those that it got, and how it ended."""
        lines, answers = script.split(b"\n")[:-1], replies.split(b"\n")[:-1]
        if len(lines) != len(answers):
            sys.exit("counted: %d lines got %d replies, the last one %r" % (len(lines), len(answers), answers[-1:]))
        speaker = None
        for line, answer in zip(lines, answers):
            speaker = self.line(line, answer, speaker)
        self.numbers.update({(RECEIVED, ""): len(script), (SENT, ""): len(replies), (ACCEPTED, ""): 1, (ENDED, cause): 1})

    def line(self, line, answer, speaker):
        """A line, its reply, and the tenant that spoke before it. The tenant that speaks after it, for whom it counts."""
        (call, fields), kind = call_of(line), kind_of(answer)
        wanted = "long" if len(line) > LINE_LIMIT else "syntax"
        if (call == "none") != (kind in ("long", "syntax")) or (call == "none" and kind != wanted):
            sys.exit("counted: %r was answered %r" % (line[:100], answer[:100]))
        self.numbers.update([(LINES, call), (REPLIES, kind)])
        if call == "AUTH" and kind in ("auth", "clients"):
            self.numbers[(REFUSED, fields[0].decode()) if fields[0] in self.names else (UNKNOWN, "")] += 1
        if call == "AUTH":
            speaker = fields[0].decode() if kind == "ok" else None
        if speaker is not None:
            self.numbers.update([(SPOKEN, speaker)] + [(FULL, speaker)] * (kind == "full"))
        return speaker

    def wanted(self):
        """All numbers, by name and then by label."""
        labels = {LINES: CALLS, REPLIES: KINDS.values(), **{name: [it.decode() for it in self.names] for name in (REFUSED, SPOKEN, FULL)}, ENDED: CAUSES}
        found = {name: dict.fromkeys(of, 0) for name, of in labels.items()}
        found[REPLIES]["ok"] = 0
        found.update({name: {"": 0} for name in (UNKNOWN, RECEIVED, SENT, ACCEPTED)})
        for (name, label), number in self.numbers.items():
            found[name][label] = number
        return found

    def differences(self, numbers):
        """Where the counters of a status are others: each as its name, its label, what is wanted and what came."""
        for name, wanted in self.wanted().items():
            got = numbers.all(name)
            for label in sorted(wanted.keys() | got.keys()):
                if wanted.get(label) != got.get(label):
                    yield name, label, wanted.get(label), got.get(label)

    def never_drawn(self):
        """The counters that are 0, except those of connections, of memory that no client can use up, of tenants that are
        not full, of frozen ones, and of a journal that is full."""
        return [(name, label) for name, of in self.wanted().items() for label, number in of.items() if not number and name not in (ENDED, FULL) and label not in ("memory", "frozen", "journal")]


class Lines:
    """Lines of all kinds from a seed, by a client of one tenant, with the line feeds left out."""

    def __init__(self, draw, tenant):
        made.TENANTS, made.NAMES = TENANTS, [b"a", b"b"]
        self.draw, self.tenant, self.hostile = draw, tenant, made.Hostile(draw)

    def log_in(self):
        """A log-in: well-formed, and right or wrong in its name or its token."""
        names = [self.tenant.name] * 6 + [tenant.name for tenant in TENANTS] + ["mallory", "nobody" * 5]
        tokens = [self.tenant.token] * 6 + [self.tenant.read_token or "wrong", self.tenant.old_token or "wrong", "wrong", "?" * 128]
        return ("AUTH %s %s" % (self.draw.choice(names), self.draw.choice(tokens))).encode()

    def call(self):
        """A call, each with the same chance."""
        word = self.draw.choice(sorted(COMMANDS))
        return b" ".join([word, self.draw.choice((b"a", b"b")), *self.hostile.walk.fields(COMMANDS[word])])

    def line(self):
        """The next line. It does not end the connection."""
        while True:
            chance = self.draw.random()
            line = self.log_in() if chance < 0.06 else self.call() if chance < 0.5 else self.draw.choice((b"USED", b"PING", b"HELLO", self.hostile.walk.names())) if chance < 0.52 else self.hostile.line()
            if b"\n" not in line and call_of(line)[0] != "QUIT":
                return line


def converse(client, script, shuts):
    """Sends a script and reads all replies meanwhile, to the end of the connection. With `shuts` the client then
    sends no more; otherwise the script ends with a QUIT."""
    client.setblocking(False)
    left, got = memoryview(script), []
    while True:
        reads, writes, _ = select.select([client], [client] if left else [], [], 60)
        if not reads and not writes:
            sys.exit("counted: the server neither took nor gave a byte in 60 seconds")
        if writes:
            left = left[client.send(left[:100000]) :]
            if not left and shuts:
                client.shutdown(1)
        if reads:
            piece = client.recv(65536)
            if not piece:
                return b"".join(got)
            got.append(piece)


class Crowd:
    """Clients that send lines of all kinds at once, each of them in some connections, and count them. Tenants have more
    than one, and each connection begins without a log-in."""

    def __init__(self, path, seed, lines, count=8, connections=4):
        self.path, self.counts, self.lock, self.faults = path, Counts(TENANTS), threading.Lock(), []
        self.threads = [threading.Thread(target=self._run, args=(random.Random(seed * 100 + at), TENANTS[at % len(TENANTS)], lines // connections, connections)) for at in range(count)]

    def _run(self, draw, tenant, lines, connections):
        try:
            maker = Lines(draw, tenant)
            for at in range(connections):
                script = b"".join(maker.line() + b"\n" for _ in range(lines))
                shuts = at % 2 == 1
                script += b"J1S a 5" if shuts else b"QUIT\n"
                with connect(self.path) as client:
                    replies = converse(client, script, shuts)
                with self.lock:
                    self.counts.add(script, replies, "end" if shuts else "quit")
        except BaseException as e:  # pylint: disable=broad-exception-caught
            self.faults.append(e)

    def start(self):
        """Starts all clients."""
        for it in self.threads:
            it.start()

    def is_busy(self):
        """Whether a client still talks."""
        return any(it.is_alive() for it in self.threads)

    def join(self):
        """Waits until all of them have ended, and returns what they counted."""
        for it in self.threads:
            it.join()
        if self.faults:
            sys.exit("counted: a client: %r" % self.faults[0])
        return self.counts
