"""The client for asyncio, and its pipeline."""

import asyncio
import os
import ssl
from collections import deque
from typing import Any, Callable, Deque, Dict, Iterable, List, NoReturn, Optional, Tuple, TypeVar, overload

from .aioarrays import Judy1, JudyHS, JudyL, JudySL, walked
from .aiolink import Link, opened_link
from .bound import Bound
from .client import TIMEOUT
from .connection import Address, SameServer, checked_address, checked_timeout, place_of
from .errors import Closed, ConnectionLost, JudyError, NoServer, Restarted, all_checked, checked, refusal_of
from .fields import MOST, Hello, Used, hello_of, name_field, nothing_of, plain_lines, token_field, used_of
from .late import LateArrays, Later
from .lines import Lines, cut
from .names import Behind, NamedArray, listing, names_line, names_of
from .retry import LOGGER, QUERIES, TRIES, Exchange, Retry, checked_retry, rule_of, tenant_of

T = TypeVar("T")


class Client(Bound):
    """A connection to a judyd for the tasks of one event loop: see `help(judyd.aio)`. The first call
    makes the connection. The parameters are those of `judyd.Client`."""

    def __init__(
        self, address: Address, timeout: Optional[float] = TIMEOUT, tls: Optional[ssl.SSLContext] = None,
        reconnect: bool = False, retry: Retry = QUERIES,
    ) -> None:  # fmt: skip
        self._address = checked_address(address)
        self._timeout = checked_timeout(timeout)
        self._tls = tls
        self._may_open = True
        self._reconnect = reconnect
        self._retry = checked_retry(retry, reconnect)
        self._process = os.getpid()
        self._is_closed = False
        self._link: Optional[Link] = None
        self._opening: Optional[asyncio.Lock] = None
        self._log_in: Optional[bytes] = None

    def __repr__(self) -> str:
        return "<aio.Client %s>" % self

    def __str__(self) -> str:
        """Its address, its tenant and its state. The token is not in it."""
        is_open = self._link is not None and self._link.is_open
        state = "closed" if self._is_closed else "open" if is_open else "not connected"
        return "%s, %s, %s" % (place_of(self._address), tenant_of(self._log_in), state)

    async def __aenter__(self) -> "Client":
        await self._opened(0)
        return self

    async def __aexit__(self, *_: object) -> None:
        await self.close()

    async def auth(self, name: str, token: str) -> "Client":
        """Logs in, and returns the client. Raises NotAuthorized if the tenant is unknown or the token
        is wrong. Then nobody is logged in. If it is cancelled, the connection is closed, so that no
        call goes to an unknown tenant; the next connection has the previous log-in."""
        (reply,) = await self._exchange_log_ins([b"AUTH %s %s" % (name_field(name), token_field(token))])
        checked(reply)
        return self

    async def used(self) -> Used:
        """The tenant's numbers of entries and pieces, and its quota of both, as a `Used`."""
        return await self._ask(b"USED", used_of)

    async def ping(self) -> None:
        """Asks the server for a reply, which needs no log-in. Raises a JudyError if none comes."""
        await self._ask(b"PING", nothing_of)

    async def hello(self) -> Hello:
        """The version and the limits of the server's protocol, as a `Hello`. It needs no log-in."""
        return await self._ask(b"HELLO", hello_of)

    async def names(self, behind: Behind = None, most: int = MOST) -> List[NamedArray]:
        """The first of the tenant's arrays that have entries, or those behind an array, which may be absent: at
        most `most` of them and as many as fit into a reply, each as a `NamedArray`. Go on behind the last of them
        until there is none."""
        return await self._ask(names_line(behind, most), names_of)

    async def arrays(self) -> List[Tuple[str, str]]:
        """The kinds and names of all arrays of the tenant that have entries, as ("J1", "ids"), by kind and then by name.
        It sends a line for each 4,088 bytes of them. An array that comes or goes meanwhile may be there or not."""
        return list(await self.array_counts())

    async def array_counts(self) -> Dict[Tuple[str, str], int]:
        """The same, with how many entries each array has: {("J1", "ids"): 3}. A count is that of the moment when the
        server listed the array."""
        return {(it.kind, it.name): it.entries async for it in walked(listing(), self)}

    async def lines(self, lines: Iterable[bytes]) -> List[bytes]:
        """Sends lines as they are, bytes without LF, and returns the list of their replies. If a call
        with an AUTH among them is cancelled, the connection is closed, as by `auth`."""
        plain = plain_lines(lines)
        if any(b"AUTH" in line and line.split()[:1] == [b"AUTH"] for line in plain):
            return await self._exchange_log_ins(plain)
        return await self._replies(plain)

    def judy1(self, name: str) -> "Judy1":
        """The set of words with this name."""
        return Judy1(self, name)

    def judyl(self, name: str) -> "JudyL":
        """The map from words to words with this name."""
        return JudyL(self, name)

    @overload
    def judysl(self, name: str, encoding: None = None) -> "JudySL[bytes]": ...

    @overload
    def judysl(self, name: str, encoding: str) -> "JudySL[str]": ...

    def judysl(self, name: str, encoding: Optional[str] = None) -> "JudySL[Any]":
        """The map from strings to words with this name. Keys are bytes, or text in the given
        encoding."""
        return JudySL(self, name, encoding)

    @overload
    def judyhs(self, name: str, encoding: None = None) -> "JudyHS[bytes]": ...

    @overload
    def judyhs(self, name: str, encoding: str) -> "JudyHS[str]": ...

    def judyhs(self, name: str, encoding: Optional[str] = None) -> "JudyHS[Any]":
        """The map from byte keys to words with this name. Keys are bytes, or text in the given
        encoding."""
        return JudyHS(self, name, encoding)

    def pipeline(self, window: Optional[int] = 1000, raises: bool = True, is_quiet: bool = False) -> "Pipeline":
        """A `Pipeline` of calls, with up to `window` in flight at once; with None all of them. It is
        quiet if its results are not used: then a client with `retry=IDEMPOTENT` repeats those that
        store or remove."""
        return Pipeline(self, window, raises, is_quiet)

    async def close(self) -> None:
        """Closes the connection. Calls that wait raise ConnectionLost. The arrays stay."""
        self._is_closed = True
        if self._link is not None and self._process == os.getpid():
            self._link.lose(JudyError("this client was closed"))

    async def _ask(self, line: bytes, read: Callable[[bytes], T], is_quiet: bool = False) -> T:
        (reply,) = await self._replies([line], is_quiet)
        return read(checked(reply))

    async def _exchange_log_ins(self, lines: List[bytes]) -> List[bytes]:
        """The replies to lines, among which are log-ins."""
        try:
            replies = await self._replies(lines)
        except asyncio.CancelledError:
            if self._link is not None:
                self._link.lose(JudyError("a log-in was cancelled"))
            raise
        for line, reply in zip(lines, replies):
            if line.split()[:1] == [b"AUTH"] and reply in (b"OK", b"ERR AUTH", b"ERR CLIENTS"):
                self._log_in = line if reply == b"OK" else None
        return replies

    async def _replies(self, lines: List[bytes], is_quiet: bool = False) -> List[bytes]:
        """The replies to lines."""
        return cut(await self._exchange(Lines.of(lines), is_quiet)) if lines else []

    async def _exchange(self, lines: Lines, is_quiet: bool = False) -> bytes:
        """The replies to lines, each with its LF."""
        exchange = Exchange(lines, rule_of(self._retry, is_quiet))
        for at in range(TRIES):
            try:
                link = self._link
                if link is None or not link.is_open or self._process != os.getpid():
                    link = await self._opened(at)
                return exchange.whole(await link.ask(exchange.left(link.server)))
            except Restarted:
                raise
            except NoServer as e:
                exchange.raise_no_server(e)
            except ConnectionLost as e:
                exchange.lose(e, self._reconnect and not self._is_closed, self)
        exchange.raise_lost()

    def _server(self) -> object:
        """What identifies the server of the connection."""
        return None if self._link is None else self._link.server

    async def _opened(self, at: int) -> Link:
        """The connection. If there is none and a new one is allowed, it is made, with the same
        log-in."""
        if self._process != os.getpid():
            raise JudyError("this client belongs to the parent process: make one in the child")
        if self._opening is None:
            self._opening = asyncio.Lock()
        async with self._opening:
            if self._is_closed:
                raise Closed("this client was closed")
            if self._link is None or not self._link.is_open:
                if not self._may_open:
                    raise ConnectionLost("the connection was lost before: make a new client, or use reconnect=True; this call has not run", False)
                is_first = self._link is None
                link = await self._made(at)
                await self._log_in_on(link)
                self._link, self._may_open = link, self._reconnect
                if not is_first:
                    LOGGER.info("%s: connected again", self)
            return self._link

    async def _log_in_on(self, link: Link) -> None:
        """Logs in on a new connection. A loss there is a loss before any call."""
        try:
            if self._log_in is not None:
                all_checked(await link.ask(Lines.of([self._log_in])))
        except ConnectionLost as e:
            raise type(e)("the new connection was lost at the log-in; the calls that need it have not run", False) from e
        except BaseException:
            link.lose(JudyError("there was no log-in"))
            raise

    async def _made(self, at: int) -> Link:
        """A new connection. After a lost one, a server that restarts has the time of one wait."""
        await asyncio.sleep(0.05 * max(at - 1, 0))
        loop, is_first = asyncio.get_running_loop(), self._link is None
        until = None if self._timeout is None else loop.time() + self._timeout
        while True:
            try:
                return await opened_link(self._address, self._timeout, self._tls)
            except NoServer:
                if is_first or (until is not None and loop.time() > until):
                    raise
            await asyncio.sleep(0.05)


class Pipeline(LateArrays):
    """Calls, with many in flight at once: `async with client.pipeline() as pipe:`.

    Its calls are not awaited: each returns a `Later` at once. `await pipe.flush()` and the end of the
    block send them, in their order, in windows of `window` calls, or with `window=None` at once.
    Otherwise it is like the pipeline of `judyd.Client`: a refused call does not stop the others, and the
    end of the block raises the first refusal, unless `raises=False`.
    """

    def __init__(self, client: Client, window: Optional[int] = 1000, raises: bool = True, is_quiet: bool = False) -> None:
        super().__init__()
        if not isinstance(window, (int, type(None))):
            raise TypeError("the window of a pipeline is an int, or None, and not %r" % (window,))
        self._client = client
        self._window = window
        self._raises = raises
        self._is_quiet = is_quiet
        self._waiting: Deque[Tuple[bytes, Later[Any]]] = deque()
        self._same = SameServer(client._server)

    def __repr__(self) -> str:
        return "<Pipeline of %r: %d calls wait>" % (self._client, len(self._waiting))

    async def __aenter__(self) -> "Pipeline":
        return self

    async def __aexit__(self, kind: object, *_: object) -> None:
        if kind is not None:
            self._waiting.clear()
            return
        await self.flush()
        if self._raises and self._refusal is not None:
            raise refusal_of(self._refusal)

    async def flush(self) -> None:
        """Sends the calls that wait, and reads their replies."""
        while self._waiting:
            count = len(self._waiting) if self._window is None else min(max(self._window, 1), len(self._waiting))
            await self._send([self._waiting.popleft() for _ in range(count)])

    async def _send(self, calls: List[Tuple[bytes, Later[Any]]]) -> None:
        late = [later for _, later in calls]
        try:
            replies = await self._client._replies([line for line, _ in calls], self._is_quiet)
        except Closed as e:
            self._lose(late, e)
        except asyncio.CancelledError:
            for later in late:
                later._lost = ConnectionLost("the flush of the pipeline was cancelled; each call without a reply may have run")
            raise
        self._take(late, replies)
        self._same.check()

    def _lose(self, late: List[Later[Any]], why: Closed) -> NoReturn:
        replies = why.replies if isinstance(why, ConnectionLost) else []
        for later in late[len(replies) :]:
            later._lost = why
        self._take(late, replies)
        raise why

    def _ask(self, line: bytes, read: Callable[[bytes], T], is_quiet: bool = False) -> Later[T]:
        later = Later(read)
        self._waiting.append((line, later))
        return later
