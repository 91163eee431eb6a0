"""The terminal of `judy top`: lines that are updated in place, until a key q or ^C."""

import os
import select
import shutil
import signal
import sys
import termios
import time
from typing import List, NoReturn, Optional

from .errors import Closed, NoServer, TimedOut
from .metrics import Metrics, Question, status
from .top import Sample, lines_of

PERIOD = 1.0
"""After how many seconds the lines are updated."""

BEGIN, RENEW, END_OF_LINE, REST, END = "\033[?1049h\033[?25l", "\033[H", "\033[K\n", "\033[K\033[J", "\033[?25h\033[?1049l"


class Ended(Exception):
    """The user has seen enough."""


def once(path: str, seconds: Optional[float]) -> None:
    """Prints one table, with the rates since the server's start."""
    now = Sample(Metrics(status(path, seconds)), time.monotonic())
    print("\n".join(lines_of(now, None, shutil.get_terminal_size((80, 24)).columns)))


def top(path: str, seconds: Optional[float]) -> None:
    """Shows what a server does until the user ends it. However it ends, the terminal is as before."""
    if sys.stdout is None or not sys.stdout.isatty():
        raise ValueError("judy top needs a terminal; judy top --once %s prints one table" % path)
    for number in (signal.SIGTERM, signal.SIGHUP):
        signal.signal(number, _end)
    screen = Screen()
    try:
        screen.open()
        screen.watch(path, seconds)
    except (Ended, KeyboardInterrupt):
        pass
    finally:
        screen.close()


def _end(number: int, _: object) -> NoReturn:
    sys.exit(128 + number)


class Screen:
    """A terminal that shows a table, and its state before."""

    def __init__(self) -> None:
        self._keys = sys.stdin.fileno() if sys.stdin is not None and sys.stdin.isatty() else None
        self._state = None if self._keys is None else termios.tcgetattr(self._keys)

    def open(self) -> None:
        """Keys come without an end of line and without echo, and the table has a screen of its own."""
        if self._keys is not None:
            state = termios.tcgetattr(self._keys)
            state[3] &= ~(termios.ECHO | termios.ICANON)
            state[6][termios.VMIN], state[6][termios.VTIME], state[6][termios.VSUSP] = 1, 0, b"\0"
            termios.tcsetattr(self._keys, termios.TCSADRAIN, state)
        self._write(BEGIN)

    def close(self) -> None:
        """The terminal is as before."""
        for number in (signal.SIGINT, signal.SIGTERM, signal.SIGHUP):
            signal.signal(number, signal.SIG_IGN)  # nothing comes between
        try:
            if self._keys is not None and self._state is not None:
                termios.tcsetattr(self._keys, termios.TCSADRAIN, self._state)
            self._write(END)
        except (OSError, termios.error):
            pass  # the terminal is gone

    def watch(self, path: str, seconds: Optional[float]) -> None:
        """Asks the server each second, and shows what it does."""
        before: Optional[Sample] = None
        while True:
            began = time.monotonic()
            try:
                text = self._asked(path, seconds)
            except NoServer as e:
                raise e if before is None else Closed("the server has ended: %s" % e) from None
            now = Sample(Metrics(text), time.monotonic())
            size = shutil.get_terminal_size((80, 24))
            self._show(lines_of(now, before, max(size.columns - 1, 1), max(size.lines, 1)))
            before = now
            self._waits(None, began + PERIOD)

    def _asked(self, path: str, seconds: Optional[float]) -> bytes:
        """The status text."""
        until = None if seconds is None else time.monotonic() + seconds
        with Question(path, "STATUS", seconds) as question:
            while self._waits(question, until):
                answer = question.answer()
                if answer is not None:
                    return answer
        raise TimedOut("%s: no answer for %g s" % (path, seconds or 0))

    def _waits(self, question: Optional[Question], until: Optional[float]) -> bool:
        """Whether more of an answer can be read before this time. Meanwhile a key q ends all."""
        while True:
            files = [file for file in (self._keys, question) if file is not None]
            ready = select.select(files, [], [], None if until is None else max(until - time.monotonic(), 0))[0]
            if self._keys is not None and self._keys in ready:
                keys = os.read(self._keys, 100)
                if not keys or b"q" in keys.lower():
                    raise Ended
            if question in ready:
                return True
            if until is not None and time.monotonic() >= until:
                return False

    def _show(self, lines: List[str]) -> None:
        """Writes the lines over those before."""
        self._write(RENEW + END_OF_LINE.join(lines) + REST)

    def _write(self, text: str) -> None:
        sys.stdout.write(text)
        sys.stdout.flush()
