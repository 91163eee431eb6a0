"""`judy ship`: sends a journal to a command with a `judy receive`, which keeps a copy in step while the server runs.
One loop waits for what the command says, and for room in its pipe, and otherwise looks at the journal.
"""

import os
import select
import signal
import subprocess
import sys
import time
from contextlib import suppress
from typing import List, Optional, Tuple

from .errors import Error
from .feed import Broken, Feed

PATIENCE = 10
"""How many seconds the command has to end, once its pipes are closed."""


class Command:
    """The command that receives, with pipes."""

    def __init__(self, words: List[str]) -> None:
        self._name = words[0]
        self._process = subprocess.Popen(words, stdin=subprocess.PIPE, stdout=subprocess.PIPE, bufsize=0)
        assert self._process.stdin is not None and self._process.stdout is not None
        self._in, self._out = self._process.stdin, self._process.stdout
        os.set_blocking(self._in.fileno(), False)
        self._held = b""

    def wait(self, is_sending: bool, seconds: float) -> Tuple[bool, bool]:
        """Waits so long, or until it says something, or takes more. Returns which of both it does."""
        said, takes, _ = select.select([self._out], [self._in] if is_sending else [], [], seconds)
        return bool(said), bool(takes)

    def send(self, data: memoryview) -> memoryview:
        """Sends as many bytes as it takes now. Returns the rest."""
        try:
            return data[os.write(self._in.fileno(), data) :]
        except BlockingIOError:
            return data
        except BrokenPipeError:
            raise self._ended() from None

    def lines(self) -> List[str]:
        """The lines that it has said."""
        said = os.read(self._out.fileno(), 65536)
        if not said:
            raise self._ended()
        *whole, self._held = (self._held + said).split(b"\n")
        if len(self._held) > 1000:
            raise Broken("%s does not say what judy receive says" % self._name)
        return [line.decode("ascii", "replace") for line in whole]

    def _ended(self) -> Broken:
        """What to tell of a command that has ended too early."""
        status = self._status()
        return Broken("%s %s, and the journal is not sent any more" % (self._name, told_status(status)))

    def _status(self) -> int:
        """Its status, once it has ended."""
        self._in.close()
        try:
            return self._process.wait(PATIENCE)
        except subprocess.TimeoutExpired:
            self._process.kill()
            return self._process.wait()

    def end(self) -> None:
        """Ends its input. Raises Broken if it ends with another status than 0."""
        status = self._status()
        if status:
            raise Broken("%s %s, after it had confirmed all" % (self._name, told_status(status)))

    def close(self) -> None:
        """Closes its pipes, and waits until it has ended."""
        self._out.close()
        self._status()


def told_status(status: int) -> str:
    """How a process has ended."""
    return "ended with status %d" % status if status >= 0 else "was ended by signal %d" % -status


class StatusFile:
    """The file that tells where the receiver is, if there is one. Another file takes its place once a second."""

    def __init__(self, path: Optional[str], feed: Feed) -> None:
        self._path = path
        self._feed = feed
        self._next = 0.0

    def renew(self) -> None:
        """Writes it again if it is time."""
        if self._path is not None and time.monotonic() >= self._next:
            self._next = time.monotonic() + 1
            self.write()

    def write(self) -> None:
        """Writes it again."""
        if self._path is not None:
            with open(self._path + ".new", "w", encoding="ascii") as file:
                file.write(self._feed.status())
            os.replace(self._path + ".new", self._path)


def exchange(feed: Feed, command: Command, status: StatusFile) -> None:
    """Sends, and takes answers, until all is done."""
    left = memoryview(b"")
    while not feed.is_done():
        if not left:
            left = memoryview(feed.next_bytes())
        said, takes = command.wait(bool(left), feed.wait_time())
        if said:
            for line in command.lines():
                feed.hear(line)
        if takes:
            left = command.send(left)
        status.renew()


def ship(folder: str, words: List[str], is_once: bool, path: Optional[str]) -> int:
    """Sends a journal to a command: all that is there now, or also what comes. Returns the status."""
    signal.signal(signal.SIGTERM, lambda *_: sys.exit(143))  # so that the last status is written
    feed = Feed(folder, is_once)
    status = StatusFile(path, feed)
    command = Command(words)
    try:
        exchange(feed, command, status)
        command.end()
    finally:
        with suppress(OSError, Error):
            status.write()
        feed.close()
        command.close()
    return 0
