"""A pool of clients, for threads that each need a connection of their own, and what it shares with the
pool for asyncio."""

import os
import ssl
import threading
import time
from contextlib import contextmanager
from typing import Any, Callable, Generic, Iterator, List, Optional, Type, TypeVar

from .bound import Bound
from .client import TIMEOUT, Client
from .connection import Address, checked_address, checked_timeout, place_of
from .errors import Closed, PoolEmpty
from .fields import name_field, token_field
from .retry import QUERIES, Retry, checked_retry

C = TypeVar("C")


class AnyPool(Bound, Generic[C]):
    """What pools share: their parameters, which are checked at once, what is shown of them, and their
    errors."""

    _client_type: Type[Any]  # a C
    _shown: str  # the name of the class

    def __init__(
        self, address: Address, size: int, name: str, token: str, wait: Optional[float] = TIMEOUT,
        timeout: Optional[float] = TIMEOUT, tls: Optional[ssl.SSLContext] = None, reconnect: bool = False, retry: Retry = QUERIES,
    ) -> None:  # fmt: skip
        if size < 1:
            raise ValueError("a pool has at least one client")
        checked_retry(retry, reconnect)
        checked_timeout(timeout)
        self._place = "%s, %s" % (place_of(checked_address(address)), name_field(name).decode())
        token_field(token)
        client_type: Callable[..., C] = self._client_type
        self._made: Callable[[], C] = lambda: client_type(address, timeout, tls, reconnect=reconnect, retry=retry)
        self._name = name
        self._token = token
        self._size = size
        self._wait = wait
        self._is_closed = False
        self._reset()

    def _reset(self) -> None:
        """No client is in use or idle."""
        self._idle: List[C] = []
        self._used = 0

    def __repr__(self) -> str:
        return "<%s %s, %s>" % (self._shown, self._place, "closed" if self._is_closed else "%d of %d in use" % (self._used, self._size))

    def _closed_error(self) -> Closed:
        return Closed("this pool was closed")

    def _empty_error(self) -> PoolEmpty:
        return PoolEmpty("all %d clients of the pool were in use for %g s" % (self._size, self._wait or 0))


class Pool(AnyPool[Client]):
    """Up to `size` clients of one tenant, each with a connection and a log-in of its own:

        pool = Pool("/run/judyd/socket", 8, "alice", "abc")
        with pool.client() as client:
            client.judy1("ids").add(5)

    A block has its client to itself. If all are in use, `client()` waits up to `wait` seconds for
    one, and then raises `PoolEmpty`; with None it waits without a limit. Connections are made when
    they are needed, and kept. A lost connection is not given out again, and a new one replaces it;
    the exception of the call that lost it reaches its block. After a fork the child's pool makes
    connections of its own. The server serves at most `--clients` connections at once. `reconnect`
    and `retry` are those of a `Client`.
    """

    _client_type = Client
    _shown = "Pool"

    def _reset(self) -> None:
        super()._reset()
        self._process = os.getpid()
        self._change = threading.Condition()

    def __enter__(self) -> "Pool":
        return self

    def __exit__(self, *_: object) -> None:
        self.close()

    @contextmanager
    def client(self) -> Iterator[Client]:
        """A client for a block, logged in."""
        client = self._taken()
        process, log_in = self._process, client._link.log_in
        try:
            yield client
        finally:
            if process == os.getpid():
                self._give_back(client, client._link.log_in == log_in)
            else:
                client.close()

    def close(self) -> None:
        """Closes the clients. One that is in use is closed at the end of its block."""
        self._check_process()
        with self._change:
            self._is_closed = True
            idle, self._idle = self._idle, []
            self._change.notify_all()
        for client in idle:
            client.close()

    def _taken(self) -> Client:
        """A client that is idle, or a new one."""
        self._check_process()
        with self._change:
            self._wait_for_room()
            self._used += 1
            client = self._idle.pop() if self._idle else None
        try:
            if client is not None and not client._link.is_idle():
                client.close()
                client = None
            return client or self._logged_in()
        except BaseException:
            with self._change:
                self._used -= 1
                self._change.notify()
            raise

    def _logged_in(self) -> Client:
        """A new client."""
        client = self._made()
        try:
            return client.auth(self._name, self._token)
        except BaseException:
            client.close()
            raise

    def _wait_for_room(self) -> None:
        until = None if self._wait is None else time.monotonic() + self._wait
        while not self._is_closed and self._used >= self._size:
            left = None if until is None else until - time.monotonic()
            if left is not None and left <= 0:
                raise self._empty_error()
            self._change.wait(left)
        if self._is_closed:
            raise self._closed_error()

    def _give_back(self, client: Client, is_same_tenant: bool) -> None:
        with self._change:
            self._used -= 1
            keeps = is_same_tenant and not self._is_closed and client._link.is_idle()
            if keeps:
                self._idle.append(client)
            self._change.notify()
        if not keeps:
            client.close()

    def _check_process(self) -> None:
        """In a child process: leaves the clients to the parent."""
        if self._process != os.getpid():
            self._reset()
