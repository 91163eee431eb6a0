"""Sends the lines of `judy` to a server: those of a script over one connection, those of a terminal with a
connection for each line, so that an idle user does not block others on a server that serves one client."""

import os
import select
import sys
from collections import deque
from typing import Callable, Deque, Iterator, List, Optional, Tuple

from .client import Client
from .errors import Closed, ConnectionLost, Error, NotAuthorized, Restarted, TooManyClients
from .wording import advice, coded, is_quit, is_refused, request_of, told

WINDOW = 1000
"""How many lines are sent at once."""

Line = Tuple[int, str]


class Cut(Error):
    """A script's connection was lost. The text says how many lines were answered."""


class Session:
    """A log-in that lasts over several connections. With `is_held` a connection is kept."""

    def __init__(self, connect: Callable[[], Client], log_in: Optional[str], is_held: bool = False) -> None:
        self._connect = connect
        self._is_held = is_held
        self._client: Optional[Client] = None
        self.log_in = log_in  # the AUTH line, if anyone has logged in

    def open(self) -> None:
        """Connects and logs in, if there is no connection. If the server closed an idle one, as after the
        seconds of `judyd serve --idle`, and still runs, a new one replaces it."""
        before = self._client
        if before is not None and before._link.is_idle():
            return
        self._client = self._opened()
        if before is not None:
            before.close()
            if self._client._link.server() != before._link.server():
                raise Restarted()

    def exchange(self, requests: List[str]) -> List[str]:
        """The replies to requests, in order. Requests after a QUIT have none."""
        try:
            self._client = self._client or self._opened()
            replies = [reply.decode("ascii", "replace") for reply in self._client.lines(map(coded, requests))]
        except BaseException:
            self.close()
            raise
        if not self._is_held:
            self.close()
        for request, reply in zip(requests, replies):
            if request.split()[:1] == ["AUTH"] and reply in ("OK", "ERR AUTH", "ERR CLIENTS"):
                self.log_in = request if reply == "OK" else None
        return replies

    def _opened(self) -> Client:
        """A new connection, with the same log-in."""
        client = self._connect()
        try:
            replies = client.lines([coded(self.log_in)]) if self.log_in is not None else [b"OK"]
            if replies == [b"ERR CLIENTS"]:
                raise TooManyClients("ERR CLIENTS")
            if replies != [b"OK"]:
                raise NotAuthorized("ERR AUTH")
        except BaseException:
            client.close()
            raise
        return client

    def close(self) -> None:
        """Ends the connection, if there is one."""
        if self._client is not None:
            self._client.close()
            self._client = None


class Printer:
    """Prints replies, as they are or as rows of a table, and reports refusals with the numbers of
    their lines."""

    def __init__(self, is_pretty: bool) -> None:
        self.is_pretty = is_pretty
        self.refusals = 0
        self._has_head = False

    def show(self, request: str, reply: str, place: str = "") -> None:
        """Prints the reply to a request."""
        if is_refused(reply):
            self.refusals += 1
            words = [place, reply, advice(request, reply)]
            complain(": ".join(word for word in words if word))
        if not self.is_pretty:
            print(reply)
            return
        if not self._has_head:
            print(_row("REQUEST", "ANSWER", "KEY", "VALUE").rstrip())
            self._has_head = True
        short = request if not request.lstrip().startswith("AUTH") else "AUTH .."
        short = coded(short).decode("utf-8", "replace")
        print(_row(short if len(short) <= 36 else short[:33] + "...", *told(request, reply)).rstrip())


def _row(*fields: str) -> str:
    """A row of the table."""
    return "%-36s %-16s %-22s %s" % fields


def reason(e: BaseException) -> str:
    """What an exception says. Of a fault with a file it is the path, and what the system says."""
    if not isinstance(e, OSError) or not e.strerror:
        return str(e)
    return "%s: %s" % (os.fsdecode(e.filename), e.strerror) if isinstance(e.filename, (str, bytes)) else e.strerror


def complain(text: str) -> None:
    """Writes to standard error, after what was printed."""
    sys.stdout.flush()
    print("judy: %s" % coded(text).decode("utf-8", "replace"), file=sys.stderr, flush=True)


def windows_of(number: int, is_waiting: Callable[[], bool]) -> Iterator[List[Line]]:
    """The lines of a file descriptor with their numbers, in windows of as many lines as are
    available, at most WINDOW. It waits only for the first line of a window, so that slow lines, as
    from `tail -f`, are sent as they come."""
    lines: Deque[Line] = deque()
    held, count, is_open = b"", 0, True
    while is_open or lines:
        while is_open and len(lines) < WINDOW and (not lines or is_waiting()):
            piece = os.read(number, 65536)
            is_open = bool(piece)
            *whole, held = (held + piece).split(b"\n")
            whole += [held] if not is_open and held else []
            for line in whole:
                count += 1
                text = line.decode("utf-8", "surrogateescape")
                if text.strip() and not text.lstrip().startswith("#"):
                    lines.append((count, text))
        window = [lines.popleft() for _ in range(min(WINDOW, len(lines)))]
        if window:
            yield window


def requests_of(file: int) -> Iterator[List[Line]]:
    """The requests of a file, in windows, with the numbers of their lines. They end with a QUIT."""
    for window in windows_of(file, lambda: bool(select.select([file], [], [], 0.01)[0])):
        requests = [(number, request_of(line)) for number, line in window]
        end = next((at + 1 for at, (_, request) in enumerate(requests) if is_quit(request)), None)
        yield requests[:end]
        if end is not None:
            return


def answers(session: Session, requests: List[str], has_begun: bool) -> Tuple[List[str], Optional[Closed]]:
    """The replies to requests, and the loss of the connection that ended them, if there was one. Raises
    Closed if the first connection can't be made."""
    try:
        session.open()
    except Closed as e:
        if not has_begun:
            raise
        return [], e
    try:
        return session.exchange(requests), None
    except ConnectionLost as e:
        return [reply.decode("ascii", "replace") for reply in e.replies], e


def run_script(session: Session, file: int, printer: Printer, name: str = "") -> None:
    """Runs the script of a file over one connection: reads what is available, sends it, and prints the
    replies. Raises Cut if the connection is lost after the log-in."""
    prefix, answered, has_begun = name + ": " if name else "", 0, False
    for window in requests_of(file):
        replies, lost = answers(session, [request for _, request in window], has_begun)
        has_begun = True
        for (number, request), reply in zip(window, replies):
            printer.show(request, reply, "%sline %d" % (prefix, number))
        sys.stdout.flush()
        answered += len(replies)
        if lost is not None:
            raise Cut("%sline %d: %s; %d lines were answered" % (prefix, window[len(replies)][0], lost, answered)) from lost
    if not has_begun:
        session.open()  # also tries the log-in of an empty script
    session.close()
