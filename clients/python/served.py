"""What the client's tests share: a server with three tenants, in a folder of its own.

The program is what the environment's JUDYD names, else ./judyd at the top of the repository, which builds it where it has to.
"""

import hashlib
import os
import re
import signal
import socket
import subprocess
import sys
import tempfile
import threading
import time
import traceback
import unittest
from contextlib import contextmanager, suppress
from typing import Callable, Iterator, Optional, Sequence

HERE = os.path.dirname(os.path.abspath(__file__))
sys.path.insert(0, HERE)

from judyd import QUERIES, Client, Closed, Retry  # noqa: E402

PROGRAM = os.environ.get("JUDYD") or os.path.join(HERE, "..", "..", "judyd")
EXPECTED = re.compile(r"judyd: (\S+ started: |stopping$|log-in refused: |accept failed: |tenant \S+ (frozen|thawed)$)")
TENANTS = [("alice", "abc", 1000000, "look"), ("bob", "hello", 3, None), ("empty", "abc", 0, None)]


def table() -> str:
    """The table of tenants that the tests use."""
    text = ""
    for name, token, quota, look in TENANTS:
        text += '[%s]\nsha256 = "%s"\nquota = %d\n' % (name, hashlib.sha256(token.encode()).hexdigest(), quota)
        if look is not None:
            text += 'read_sha256 = "%s"\n' % hashlib.sha256(look.encode()).hexdigest()
    return text


class Served:
    """A server with a folder of its own. Its table is the one above, or the given text. It serves so
    many clients at once; with None as many as the program does by itself. With `control` it has a control
    socket on this path too; `more` are further words."""

    def __init__(self, text: Optional[str] = None, clients: Optional[int] = None, control: bool = False, more: Sequence[str] = ()) -> None:
        self.folder = tempfile.TemporaryDirectory(prefix="judyd-client-")
        self.path = os.path.join(self.folder.name, "socket")
        self.config = os.path.join(self.folder.name, "tenants.toml")
        with open(self.config, "w", encoding="utf-8") as file:
            file.write(text or table())
        self._words = [PROGRAM, "serve", "--config", self.config, "--socket", self.path]
        self._words += [] if clients is None else ["--clients", str(clients)]
        self.control = os.path.join(self.folder.name, "control") if control else None
        self._words += [*(["--control", self.control] if self.control else []), *more]
        self.process: "subprocess.Popen[bytes]"
        self.start()

    def start(self) -> None:
        """Starts the server, and waits until it serves. The program may have to be built first."""
        for path in filter(None, (self.path, self.control)):
            if os.path.exists(path):
                os.remove(path)
        self._said = tempfile.TemporaryFile()
        self.process = subprocess.Popen(self._words, stderr=self._said)
        until = time.monotonic() + 1800
        while True:
            try:
                Client(self.path).close()
                if self.control is None or os.path.exists(self.control):
                    return
            except Closed:
                if self.process.poll() is not None or time.monotonic() > until:
                    raise
                time.sleep(0.01)

    def kill(self) -> None:
        """Ends the server, and prints what it told but of its start and of clients. Its path stays."""
        self.process.kill()
        self.process.wait()
        if not self._said.closed:
            self._said.seek(0)
            told = [line for line in self._said.read().decode("utf-8", "replace").splitlines() if not EXPECTED.match(line)]
            print("".join("%s\n" % line for line in told), end="", file=sys.stderr, flush=True)
            self._said.close()

    def freeze(self) -> None:
        """Stops the server where it is, so that what is sent to it waits."""
        self.process.send_signal(signal.SIGSTOP)

    def restart(self) -> None:
        """Ends the server and starts it again, with empty arrays."""
        self.kill()
        self.start()

    def end(self) -> None:
        """Ends the server and removes its folder."""
        self.kill()
        self.folder.cleanup()


class WithServer(unittest.TestCase):
    """Tests with a server that serves `clients` at once."""

    clients = 64
    served: Served

    @classmethod
    def setUpClass(cls) -> None:
        cls.served = Served(clients=cls.clients)
        cls.addClassCleanup(cls.served.end)

    def alice(self, timeout: float = 60, reconnect: bool = False, retry: Retry = QUERIES) -> Client:
        """A client of alice, which is closed after the test."""
        client = Client(self.served.path, timeout, reconnect=reconnect, retry=retry)
        self.addCleanup(client.close)
        return client.auth("alice", "abc")


class WithClient(WithServer):
    """Tests on a connection of alice. They leave her arrays empty."""

    client: Client

    def setUp(self) -> None:
        self.client = self.alice()

    def tearDown(self) -> None:
        used = self.client.used()
        self.assertEqual((used.used, used.pieces), (0, 0), "a test left entries")


@contextmanager
def odd_server(*pieces: Optional[bytes]) -> Iterator[str]:
    """The path of a server that waits for a line, sends these pieces to its one client, and ends the
    connection. With None it is silent, and the connection stays."""
    with tempfile.TemporaryDirectory(prefix="judyd-odd-") as folder, socket.socket(socket.AF_UNIX) as listener:
        path = os.path.join(folder, "socket")
        listener.bind(path)
        listener.listen()

        def serve() -> None:
            other, _ = listener.accept()
            with other:
                other.recv(65536)
                for piece in pieces:
                    if piece is not None:
                        other.sendall(piece)
                    time.sleep(0.02)
                while None in pieces and other.recv(65536):
                    pass

        server = threading.Thread(target=serve)
        server.start()
        try:
            yield path
        finally:
            with suppress(OSError):
                listener.shutdown(socket.SHUT_RDWR)
            server.join()


class Child:
    """A child process. `status` is 0 if its job returned true."""

    status = -1


@contextmanager
def in_child(job: Callable[[], object]) -> Iterator[Child]:
    """Runs a job in a child process while the block runs."""
    child, number = Child(), os.fork()
    if number == 0:
        try:
            os._exit(0 if job() else 1)
        except BaseException:
            traceback.print_exc()
        finally:
            os._exit(2)
    try:
        yield child
    finally:
        child.status = os.waitstatus_to_exitcode(os.waitpid(number, 0)[1])
