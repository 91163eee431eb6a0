"""What the test scripts share: the program, scripts through `judyd run`, a server on a socket, and
the report of the first difference."""

import contextlib
import os
import random
import re
import select
import socket
import subprocess
import sys
import tempfile
import time

import journals

TOP = os.path.dirname(os.path.dirname(os.path.abspath(__file__)))
SHOWN = 200
LOGGED = re.compile(rb"judyd: (?:\S+ started: table .*, socket .*, \d+ clients(?:, journal .*)?|\S+: cut off \d+ bytes of a commit that was not finished, kept in \d+\.torn|\S+: cut off \d+ bytes of a commit that was not finished: no room to keep them|stopping|accept failed: .*|log-in refused: .*|out of memory: .*|table (?:not )?read again: .*)\n")


def program():
    """The program under test: the path in JUDYD, otherwise ./judyd, which builds the program if it
    is older than its sources."""
    return os.environ.get("JUDYD") or os.path.join(TOP, "judyd")


def seed_of(words, default_lines):
    """The seed and the number of lines of a command line: `SCRIPT [SEED [LINES]]`. Without a seed
    it draws a fresh one."""
    if len(words) > 3 or not all(word.isdigit() for word in words[1:]):
        sys.exit("usage: %s [SEED [LINES]]" % words[0])
    seed = int(words[1]) if len(words) > 1 else random.SystemRandom().randrange(10**9)
    lines = int(words[2]) if len(words) > 2 else default_lines
    return seed, lines


def skip(test, why):
    """Reports that a test, or a part of one, is skipped. If the environment's SKIPS is `fail`, that
    is a failure. Otherwise the line also goes to the file that SKIPS names, if it is set."""
    line = "%s: skipped, %s" % (test, why)
    skips = os.environ.get("SKIPS", "")
    if skips == "fail":
        sys.exit(line + ", and nothing may be")
    print(line, flush=True)
    if skips:
        with open(skips, "a", encoding="utf-8") as file:
            file.write(line + "\n")


@contextlib.contextmanager
def small_disk(test, size):
    """The folder of a disk of this size, or None if none can be mounted."""
    with tempfile.TemporaryDirectory() as place:
        mounted = subprocess.run(["mount", "-t", "tmpfs", "-o", "size=" + size, "tmpfs", place], stderr=subprocess.PIPE, check=False)
        if mounted.returncode != 0:
            skip(test, "no tmpfs can be mounted")
            yield None
            return
        try:
            yield place
        finally:
            subprocess.run(["umount", place], check=True)


def run(table, script, *words):
    """The output of `judyd run` for a table and a script, both bytes. A status other than 0 ends
    the test."""
    ran = subprocess.run([program(), "run", *words], input=table + b"---\n" + script, stdout=subprocess.PIPE, check=False)
    if ran.returncode != 0:
        sys.exit("judyd run ended with status %d" % ran.returncode)
    return ran.stdout


def unlogged(told):
    """What a server logged on standard error, without the lines that tests/loglines checks."""
    return LOGGED.sub(b"", told)


def compare(what, lines, wanted, got):
    """Ends the test at the first reply that differs, and prints the line that it answers."""
    if wanted == got:
        return
    wants, gots = wanted.split(b"\n"), got.split(b"\n")
    for at, line in enumerate(lines):
        want, given = (replies[at] if at < len(replies) else b"nothing" for replies in (wants, gots))
        if want != given:
            sys.exit("%s: line %d, %r: wanted %r, got %r" % (what, at + 1, line[:SHOWN], want[:SHOWN], given[:SHOWN]))
    sys.exit("%s: %d replies wanted, and %d came" % (what, len(wants) - 1, len(gots) - 1))


class Server:
    """A `judyd serve` with its table and its socket in a folder of its own, which is removed with
    it. With `heard` its standard error is kept, for `process.stderr`. The directory of its journal gets a
    manifest, if it has none."""

    def __init__(self, table, *words, heard=False):
        self.heard = heard
        self.folder = tempfile.TemporaryDirectory(prefix="judyd-")
        self.path = os.path.join(self.folder.name, "socket")
        self.config = os.path.join(self.folder.name, "tenants.toml")
        with open(self.config, "wb") as file:
            file.write(table)
        self.words = words
        self.process = self.said = None

    def __enter__(self):
        self.start()
        return self

    def __exit__(self, *_):
        self.kill()
        self.folder.cleanup()

    def start(self):
        """Starts the server and waits until it listens, at most half an hour. The program may have
        to be built first."""
        # Clients of the tests may be silent for longer than the program's default.
        patient = () if "--login" in self.words else ("--login", "3600")
        words = [program(), "serve", "--config", self.config, "--socket", self.path, *patient, *self.words]
        for word, folder in zip(self.words, self.words[1:]):
            if word == "--journal":
                journals.begin(folder)
        self._tell()
        self.said = None if self.heard else tempfile.TemporaryFile()
        self.process = subprocess.Popen(words, stderr=self.said or subprocess.PIPE)
        until = time.monotonic() + 1800
        desks = [after for word, after in zip(words, words[1:]) if word in ("--status", "--control")]
        while not all(is_listening(path) for path in (self.path, *desks)):
            if self.process.poll() is not None:
                said = self.process.stderr.read() if self.heard else b""
                sys.exit("judyd serve ended with status %d: %r" % (self.process.returncode, said))
            if time.monotonic() > until:
                sys.exit("judyd serve does not listen")
            time.sleep(0.01)

    def sockets(self):
        """The paths of its sockets. That of the status is made after that of the clients."""
        return [self.path, *(path for word, path in zip(self.words, self.words[1:]) if word == "--status")]

    def files(self):
        """How many files the server has open."""
        return len(os.listdir("/proc/%d/fd" % self.process.pid))

    def wait_for_files(self, count, patience=60.0):
        """Waits until the server has this many files open. Returns whether that came in time."""
        until = time.monotonic() + patience
        while self.files() != count:
            if time.monotonic() > until:
                return False
            time.sleep(0.01)
        return True

    def kill(self):
        """Kills the server. The path of its socket stays."""
        if self.process is not None and self.process.poll() is None:
            self.process.kill()
        if self.process is not None:
            self.process.wait()
            if self.process.stderr is not None:
                self.process.stderr.close()
        self._tell()

    def _tell(self):
        """Prints what the server logged on standard error, without the lines that report nothing wrong."""
        if self.said is not None:
            self.said.seek(0)
            sys.stderr.buffer.write(unlogged(self.said.read()))
            sys.stderr.flush()
            self.said.close()
            self.said = None


def resident_kib(process):
    """The memory of a process that is in no file, exactly, in KiB. What /proc/PID/status says of it is counted by each
    processor for itself, and some hundred KiB may be missing."""
    with open("/proc/%d/smaps_rollup" % process, encoding="ascii") as file:
        return next(int(line.split()[1]) for line in file if line.startswith("Anonymous:"))


def is_listening(path):
    """Whether a process listens on a path, by the kernel's list of sockets. It makes no
    connection."""
    if not os.path.exists(path):
        return False
    with open("/proc/net/unix", encoding="utf-8", errors="replace") as file:
        rows = [row.split() for row in file.read().splitlines()[1:]]
    return any(len(row) > 7 and row[7] == path and row[3] == "00010000" for row in rows)


def connect(path, patience=60.0):
    """A connection to a server's socket. A call that waits longer than `patience` seconds fails."""
    client = socket.socket(socket.AF_UNIX, socket.SOCK_STREAM)
    client.settimeout(patience)
    client.connect(path)
    return client


def exchange(client, script, patience=60.0):
    """Sends a script and reads all replies meanwhile, so that neither side waits for the other.
    Ends when the server closes."""
    client.settimeout(None)
    client.setblocking(False)
    left, got = memoryview(script), []
    while True:
        reads, writes, _ = select.select([client], [client] if left else [], [], patience)
        if not reads and not writes:
            sys.exit("the server neither took nor gave a byte in %d seconds" % patience)
        if writes:
            left = left[client.send(left) :]
        if reads:
            piece = client.recv(65536)
            if not piece:
                return b"".join(got)
            got.append(piece)


def ask(path, *lines):
    """The replies to a few lines on a new connection, which first logs in as alice."""
    script = b"".join(line + b"\n" for line in (b"AUTH alice abc", *lines, b"QUIT"))
    with connect(path) as client:
        replies = exchange(client, script).split(b"\n")
    if replies[0] != b"OK" or replies[-2:] != [b"BYE", b""]:
        sys.exit("alice was answered %r" % replies)
    return replies[1:-2]
