"""A connection of an asyncio client."""

import asyncio
import os
import socket
import ssl
from collections import deque
from contextlib import suppress
from typing import Deque, List, Optional, Tuple, Union

from .connection import Address, lost, no_server, server_of
from .errors import ConnectionLost, JudyError
from .lines import Lines, cut, joined
from .many import windows

MOST_LINES = 10000
"""The most lines of a connection that wait for their replies. Further calls wait to be sent."""


class Window:
    """Lines that are sent together, and the replies that have come."""

    def __init__(self, lines: Lines, replies: "asyncio.Future[bytes]") -> None:
        self.data = lines.data()
        self.told_sent = lines.told_sent
        self.missing = lines.count
        self.come: List[bytes] = []  # the replies, in pieces
        self.replies = replies
        self.sent = 0.0  # when the lines were sent


class Link(asyncio.Protocol):
    """A connection. Replies go to the windows of lines in the order in which these were sent."""

    def __init__(self, timeout: Optional[float]) -> None:
        self._loop = asyncio.get_running_loop()
        self._timeout = timeout
        self._transport: Optional[asyncio.Transport] = None
        self._lines = 0  # how many lines wait for their replies, or have a place for that
        self._turns: Deque[Tuple["asyncio.Future[None]", int]] = deque()  # lines without a place yet
        self._unsent: List[Window] = []
        self._waiting: Deque[Window] = deque()
        self._held = b""
        self._received = 0.0  # when a byte came
        self._timer: Optional[asyncio.TimerHandle] = None
        self.is_open = True
        self.server: object = None

    def connection_made(self, transport: asyncio.BaseTransport) -> None:
        self._transport = transport  # type: ignore[assignment]
        self.server = server_of(transport.get_extra_info("socket")) or object()

    def data_received(self, data: bytes) -> None:
        self._received = self._loop.time()
        data = self._held + data
        end = data.rfind(b"\n") + 1
        self._held = data[end:]
        self._take(data[:end], data.count(b"\n"))

    def _take(self, replies: bytes, count: int) -> None:
        """Gives this number of replies to the windows that wait for them, and their places to other lines."""
        if self._waiting and 0 < count <= self._waiting[0].missing:
            self._give(replies, count)
            self._leave(count)
            return
        each, at = cut(replies), 0
        while at < count:
            if not self._waiting:
                self.lose(JudyError("the server sent a reply that nobody waits for"))
                return
            part = each[at : at + self._waiting[0].missing]
            self._give(joined(part), len(part))
            at += len(part)
        self._leave(count)

    def _give(self, replies: bytes, count: int) -> None:
        """Gives this number of replies to the window that has waited longest."""
        window = self._waiting[0]
        window.come.append(replies)
        window.missing -= count
        if window.missing == 0:
            self._waiting.popleft()
            if not window.replies.done():  # its task may be cancelled
                window.replies.set_result(b"".join(window.come))

    def connection_lost(self, why: Optional[Exception]) -> None:
        self.lose(why or EOFError("the server closed the connection"))

    async def ask(self, lines: Lines) -> bytes:
        """The replies to lines. Up to MOST_LINES wait for replies at once; more lines, and those of other
        tasks, wait for their turn. All lines that tasks ask for in one turn of the loop are sent
        together."""
        if lines.count <= MOST_LINES:
            await self._place(lines.count)
            return await self._sent(lines)
        replies: List[bytes] = []
        try:
            for part in map(Lines.of, windows(lines.each(), MOST_LINES)):
                await self._place(part.count)
                replies.append(await self._sent(part))
        except ConnectionLost as e:
            e.replies = cut(b"".join(replies)) + e.replies
            raise
        return b"".join(replies)

    async def _place(self, count: int) -> None:
        """Waits until this many more lines may wait for replies."""
        if not self.is_open:
            raise lost(EOFError("it ended at once"), False, self._timeout)
        if not self._turns and self._lines + count <= MOST_LINES:
            self._lines += count
            return
        turn = self._loop.create_future()
        self._turns.append((turn, count))
        try:
            await turn
        except asyncio.CancelledError:
            if turn.done() and not turn.cancelled():
                self._leave(count)
            else:
                self._turns.remove((turn, count))
                self._leave(0)
            raise

    def _leave(self, count: int) -> None:
        """This many lines no longer wait. The next ones get their places."""
        self._lines -= count
        while self._turns and self._lines + self._turns[0][1] <= MOST_LINES:
            turn, more = self._turns.popleft()
            if not turn.done():
                self._lines += more
                turn.set_result(None)

    def _sent(self, lines: Lines) -> "asyncio.Future[bytes]":
        window = Window(lines, self._loop.create_future())
        if not self.is_open:
            window.replies.set_exception(lost(EOFError("it ended at once"), False, self._timeout))
            return window.replies
        if not self._unsent:
            self._loop.call_soon(self._flush)
        self._unsent.append(window)
        return window.replies

    def _flush(self) -> None:
        if not self.is_open or self._transport is None:
            return
        unsent, self._unsent = self._unsent, []
        for window in unsent:
            if window.replies.cancelled():
                self._leave(window.missing)
        unsent = [window for window in unsent if not window.replies.cancelled()]
        if not unsent:
            return
        now = self._loop.time()
        for window in unsent:
            window.sent = now
        self._waiting.extend(unsent)
        self._transport.write(b"".join(window.data for window in unsent))
        for window in unsent:
            window.told_sent()
        if self._timer is None and self._timeout is not None:
            self._timer = self._loop.call_later(self._timeout, self._check_time, self._timeout)

    def _check_time(self, timeout: float) -> None:
        """Gives up if the oldest line has waited too long, and no byte has come meanwhile. Lines that are
        sent later do not extend this time."""
        self._timer = None
        if not self._waiting:
            return
        left = max(self._received, self._waiting[0].sent) + timeout - self._loop.time()
        if left <= 0:
            self.lose(TimeoutError())
        else:
            self._timer = self._loop.call_later(left, self._check_time, timeout)

    def lose(self, why: Exception) -> None:
        """Ends the connection. Every call that waits raises ConnectionLost."""
        self.is_open = False
        for windows_of_lines, may_have_run in ((self._waiting, True), (self._unsent, False)):
            for window in windows_of_lines:
                if not window.replies.done():
                    exception = lost(why, may_have_run, self._timeout)
                    exception.replies = cut(b"".join(window.come))
                    window.replies.set_exception(exception)
            windows_of_lines.clear()
        for turn, _ in self._turns:
            if not turn.done():
                turn.set_exception(lost(why, False, self._timeout))
        self._turns.clear()
        if self._timer is not None:
            self._timer.cancel()
        if self._transport is not None:
            self._transport.abort()


async def opened_link(address: Address, timeout: Optional[float], tls: Optional[ssl.SSLContext]) -> Link:
    """A new connection. If the opening is cancelled, its socket is closed."""
    loop = asyncio.get_running_loop()
    try:
        if isinstance(address, tuple):
            host, port = address
            making = loop.create_connection(lambda: Link(timeout), host, port, ssl=tls)
            _, link = await asyncio.wait_for(making, timeout)
            return link
        sock = socket.socket(socket.AF_UNIX, socket.SOCK_STREAM)
        try:
            sock.setblocking(False)
            await _connect(sock, os.fspath(address), timeout)
            _, link = await loop.create_unix_connection(lambda: Link(timeout), sock=sock)
            return link
        except BaseException:
            sock.close()
            raise
    except (OSError, asyncio.TimeoutError) as e:
        raise no_server(address, e if isinstance(e, OSError) else socket.timeout()) from e


async def _connect(sock: socket.socket, path: Union[str, bytes], timeout: Optional[float]) -> None:
    """Connects to a path, which takes no time. If the server's queue of connections is full, tries
    again."""
    loop = asyncio.get_running_loop()
    until = None if timeout is None else loop.time() + timeout
    while True:
        with suppress(BlockingIOError):
            sock.connect(path)
            return
        if until is not None and loop.time() > until:
            raise socket.timeout()
        await asyncio.sleep(0.01)
