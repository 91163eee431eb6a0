"""A connection that threads share, that survives a fork, and that may be made again."""

import os
import ssl
import threading
import time
from contextlib import contextmanager
from typing import Callable, Iterator, Optional
from weakref import WeakSet

from .connection import Address, Connection, checked_address, checked_timeout, place_of
from .errors import Closed, ConnectionLost, JudyError, NoServer, Restarted, all_checked
from .lines import Lines
from .retry import LOGGER, TRIES, Exchange, tenant_of


class Link:
    """The connection of a client, with its log-in. One thread at a time uses it. With `reconnect` a
    new connection replaces a lost one."""

    def __init__(self, address: Address, timeout: Optional[float], tls: Optional[ssl.SSLContext], reconnect: bool) -> None:
        checked_address(address)
        checked_timeout(timeout)
        self._connect: Callable[[], Connection] = lambda: Connection(address, timeout, tls)
        self._place = place_of(address)
        self._timeout = timeout
        self._reconnect = reconnect
        self._lock = threading.RLock()
        self._process = os.getpid()
        self._is_busy = False
        self._is_closed = False
        self._may_open = reconnect
        self.log_in: Optional[bytes] = None  # the AUTH line, if anyone has logged in
        self.connection: Optional[Connection] = self._connect()
        self._server: object = self.connection.server or object()
        _LINKS.add(self)

    @contextmanager
    def held(self) -> Iterator[None]:
        """No other thread uses the connection meanwhile."""
        self._check_process()
        with self._lock:
            yield

    def __str__(self) -> str:
        """Its address, its tenant and its state. The token is not in it."""
        connection = self.connection
        is_open = connection is not None and connection.is_open
        state = "closed" if self._is_closed else "open" if is_open else "not connected"
        return "%s, %s, %s" % (self._place, tenant_of(self.log_in), state)

    def server(self) -> object:
        """What identifies the server of the latest connection. If the system does not report its
        process, each connection counts as one to another server."""
        return self._server

    def process(self) -> Optional[int]:
        """The number of the server's process, if it is known."""
        return self._server if isinstance(self._server, int) else None

    def close(self) -> None:
        """Closes the connection for good, after the exchange of another thread."""
        with self.held():
            self._is_closed = True
            if self.connection is not None:
                self.connection.close()

    def is_idle(self) -> bool:
        """Whether there is a connection, on which nothing has come since the last reply."""
        return not self._is_closed and self.connection is not None and self.connection.is_idle()

    def exchange(self, lines: Lines, may_repeat: Callable[[bytes], bool]) -> bytes:
        """The replies to lines. If the connection is lost, the lines without a reply are sent again
        if each of them may be repeated."""
        if self._process != os.getpid():
            self.after_fork()
        with self._lock:
            if self._is_busy:
                raise JudyError("a call of this client was interrupted by another call, as from a signal handler: use a client of its own there")
            self._is_busy = True
            try:
                return self._exchange(lines, may_repeat)
            finally:
                self._is_busy = False

    def _exchange(self, lines: Lines, may_repeat: Callable[[bytes], bool]) -> bytes:
        exchange = Exchange(lines, may_repeat)
        for at in range(TRIES):
            try:
                connection = self.connection
                if connection is None or not connection.is_open:
                    connection = self._opened(at)
                return exchange.whole(connection.exchange(exchange.left(self._server)))
            except Restarted:
                raise
            except NoServer as e:
                exchange.raise_no_server(e)
            except ConnectionLost as e:
                self.connection = None
                exchange.lose(e, self._reconnect, self)
        exchange.raise_lost()

    def _opened(self, at: int) -> Connection:
        """A new connection, if there may be one, with the same log-in."""
        if self._is_closed:
            raise Closed("this client was closed")
        if not self._may_open:
            raise ConnectionLost("the connection was lost before: make a new client, or use reconnect=True; this call has not run", False)
        self.connection = None
        connection = self._made(at)
        try:
            self._log_in_on(connection)
        except BaseException:
            connection.close()
            raise
        self.connection, self._server = connection, connection.server or object()
        LOGGER.info("%s: connected again", self)
        self._may_open = self._reconnect
        return connection

    def _log_in_on(self, connection: Connection) -> None:
        """Logs in on a new connection. A loss there is a loss before any call."""
        if self.log_in is None:
            return
        try:
            all_checked(connection.exchange(Lines.of([self.log_in])))
        except ConnectionLost as e:
            raise type(e)("the new connection was lost at the log-in; the calls that need it have not run", False) from e

    def _made(self, at: int) -> Connection:
        """A new connection. With `reconnect`, a server that restarts has the time of one wait."""
        time.sleep(0.05 * max(at - 1, 0))
        until = None if self._timeout is None else time.monotonic() + self._timeout
        while True:
            try:
                return self._connect()
            except NoServer:
                if not self._reconnect or (until is not None and time.monotonic() > until):
                    raise
                time.sleep(0.05)

    def _check_process(self) -> None:
        if self._process != os.getpid():
            self.after_fork()

    def after_fork(self) -> None:
        """In a child process: leaves the connection and the lock to the parent. The next exchange
        makes a connection of the child's own."""
        self._process = os.getpid()
        self._lock = threading.RLock()
        self._is_busy = False
        if self.connection is not None:
            self.connection.close()  # the child's copy; the parent's stays open
            self.connection = None
            self._may_open = True


_LINKS: "WeakSet[Link]" = WeakSet()


def _after_fork() -> None:
    for link in list(_LINKS):
        link.after_fork()


os.register_at_fork(after_in_child=_after_fork)
