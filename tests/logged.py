"""A `judyd serve` with a status and a control socket, whose lines on standard error are read as they come."""

import os
import select
import subprocess
import sys
import threading
import time
from collections import namedtuple

from harness import TOP, Server, connect, program
from talks import must, want

sys.path.insert(0, os.path.join(TOP, "clients", "python"))

from judyd.metrics import Metrics, ask  # noqa: E402

PATIENCE = 60.0
STOPPING = b"judyd: stopping"
LOOK = 0.02  # how often the reader looks whether there is nothing to read

# A line: a time when it was not written yet, a time when it was, and its text.
Line = namedtuple("Line", "before after text")


class Logged(Server):
    """A server with a status and a control socket, whose lines on standard error are read as they come. The
    reader may be late, as on a busy machine. So each line has two times, and was written between them."""

    def __init__(self, table, *words):
        super().__init__(table, *words, heard=True)
        self.status = os.path.join(self.folder.name, "status")
        self.control = os.path.join(self.folder.name, "control")
        self.words = ("--status", self.status, "--control", self.control, *words)
        self.lines, self.rest, self._reader = [], b"", None

    def start(self):
        super().start()
        self._reader = threading.Thread(target=self._read)
        self._reader.start()

    def _read(self):
        file, before, piece = self.process.stderr.fileno(), 0.0, b"\n"
        while piece:
            asked = time.monotonic()
            if not select.select([file], [], [], 0)[0]:
                before = asked
                select.select([file], [], [], LOOK)
                continue
            piece = os.read(file, 65536)
            *whole, self.rest = (self.rest + piece).split(b"\n")
            self.lines += [Line(before, time.monotonic(), text) for text in whole]

    def numbers(self):
        """The numbers of its status."""
        return Metrics(ask(self.status, "STATUS", PATIENCE))

    def found(self, pattern):
        """The lines of a kind, each with its parts."""
        return [(line, match) for line, match in ((line, pattern.match(line.text)) for line in list(self.lines)) if match]

    def wait_for(self, what, is_so):
        """Waits until something is so. Meanwhile the server has something to do."""
        until = time.monotonic() + PATIENCE
        while not is_so():
            must("%s in time: %r" % (what, self.lines[-5:]), time.monotonic() < until)
            self.numbers()
            time.sleep(0.05)

    def stop(self):
        """Ends the server by a stop, and returns all lines."""
        ask_to_stop(self.control)
        want("the status", 0, self.process.wait(PATIENCE))
        self._reader.join()
        want("a line that is not whole", b"", self.rest)
        return [line.text for line in self.lines]

    def kill(self):
        if self.process is not None and self.process.poll() is None:
            self.process.kill()
        if self._reader is not None:
            self._reader.join()
        super().kill()


def ask_to_stop(path):
    """Sends a stop to a control socket, and waits for the end of the connection."""
    with connect(path) as client:
        client.sendall(b"STOP\n")
        want("the answer to a stop", b"", client.recv(100))


def started(server, clients=64):
    """The first line."""
    version = subprocess.run([program(), "--version"], stdout=subprocess.PIPE, check=True).stdout.split()[1]
    return b"judyd: %b started: table %b, socket %b, %d clients" % (version, server.config.encode(), server.path.encode(), clients)
