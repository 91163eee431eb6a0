"""A client of a judyd."""

import ssl
from typing import Any, Callable, ContextManager, Dict, Iterable, Iterator, List, Optional, Tuple, TypeVar, overload

from .bound import Bound
from .connection import Address
from .errors import checked
from .fields import MOST, Hello, Used, hello_of, name_field, nothing_of, plain_lines, token_field, used_of
from .lines import Lines, cut
from .link import Link
from .maps import JudyHS, JudyL, JudySL
from .names import Behind, NamedArray, listing, names_line, names_of
from .pipeline import Pipeline
from .retry import QUERIES, Retry, checked_retry, rule_of
from .sets import Judy1
from .walks import walked

T = TypeVar("T")

TIMEOUT = 30.0
"""How many seconds a client waits by default."""


class Arrays(Bound):
    """What a client and a visitor share: the arrays of a tenant, over `_exchange`."""

    _is_late = False

    def used(self) -> Used:
        """The tenant's numbers of entries and pieces, and its quota of both, as a `Used`."""
        return self._ask(b"USED", used_of)

    def ping(self) -> None:
        """Asks the server for a reply, which needs no log-in. Raises a JudyError if none comes."""
        self._ask(b"PING", nothing_of)

    def hello(self) -> Hello:
        """The version and the limits of the server's protocol, as a `Hello`. It needs no log-in."""
        return self._ask(b"HELLO", hello_of)

    def judy1(self, name: str) -> Judy1:
        """The set of words with this name."""
        return Judy1(self, name)

    def judyl(self, name: str) -> JudyL:
        """The map from words to words with this name."""
        return JudyL(self, name)

    @overload
    def judysl(self, name: str, encoding: None = None) -> JudySL[bytes]: ...

    @overload
    def judysl(self, name: str, encoding: str) -> JudySL[str]: ...

    def judysl(self, name: str, encoding: Optional[str] = None) -> JudySL[Any]:
        """The map from strings to words with this name. Keys are bytes, or text in the given
        encoding."""
        return JudySL(self, name, encoding)

    @overload
    def judyhs(self, name: str, encoding: None = None) -> JudyHS[bytes]: ...

    @overload
    def judyhs(self, name: str, encoding: str) -> JudyHS[str]: ...

    def judyhs(self, name: str, encoding: Optional[str] = None) -> JudyHS[Any]:
        """The map from byte keys to words with this name. Keys are bytes, or text in the given
        encoding."""
        return JudyHS(self, name, encoding)

    def names(self, behind: Behind = None, most: int = MOST) -> List[NamedArray]:
        """The first of the tenant's arrays that have entries, or those behind an array, which may be absent: at
        most `most` of them and as many as fit into a reply, each as a `NamedArray`. Go on behind the last of them
        until there is none."""
        return self._ask(names_line(behind, most), names_of)

    def arrays(self) -> List[Tuple[str, str]]:
        """The kinds and names of all arrays of the tenant that have entries, as ("J1", "ids"), by kind and then by name.
        It sends a line for each 4,088 bytes of them. An array that comes or goes meanwhile may be there or not."""
        return [(it.kind, it.name) for it in self._listed()]

    def array_counts(self) -> Dict[Tuple[str, str], int]:
        """The same, with how many entries each array has: {("J1", "ids"): 3}. A count is that of the moment when the
        server listed the array."""
        return {(it.kind, it.name): it.entries for it in self._listed()}

    def _listed(self) -> Iterator[NamedArray]:
        return walked(listing(), self)

    def pipeline(self, window: Optional[int] = 1000, raises: bool = True, is_quiet: bool = False) -> Pipeline:
        """A `Pipeline` of calls, with up to `window` in flight at once; with None all of them. It is
        quiet if its results are not used: then a client with `retry=IDEMPOTENT` repeats those that
        store or remove."""
        return Pipeline(self, window, raises, is_quiet)

    def _ask(self, line: bytes, read: Callable[[bytes], T], is_quiet: bool = False) -> T:
        return read(checked(self._exchange(Lines(line + b"\n", 1), is_quiet)[:-1]))

    def _replies(self, lines: List[bytes], is_quiet: bool = False) -> List[bytes]:
        """The replies to lines."""
        return cut(self._exchange(Lines.of(lines), is_quiet)) if lines else []

    def _exchange(self, lines: Lines, is_quiet: bool = False) -> bytes:
        """The replies to lines, each with its LF."""
        raise NotImplementedError

    def _server(self) -> object:
        """What identifies the server of the latest exchange."""
        raise NotImplementedError

    def _pause(self) -> None:
        """A place where a visitor lets others be served."""


class Client(Arrays):
    """A connection to a judyd: `Client("/run/judyd/socket")`, or `Client(("host", port))` if a program
    forwards TCP to its socket, with `tls=ssl.create_default_context()` if that program uses TLS. A
    path is a str, bytes, or an `os.PathLike`.

    Threads may share a client: one call, or one window of a pipeline or of a walk, at a time goes
    over the connection. After a fork the child process makes a connection of its own at its next
    call, with the same log-in.

    `timeout` is how many seconds the client waits while no byte goes either way, by default 30; then
    it raises `TimedOut`. With None it waits without a limit. A server that serves `--clients` clients
    lets the others wait.

    With `reconnect=True` the client connects and logs in again when the connection was lost, and waits
    up to `timeout` seconds for a server that starts again. It repeats a lost call if none of it was
    sent, or if the call changes nothing. All other calls raise `ConnectionLost`, whose `may_have_run`
    is true: it is not known whether they have run. `retry=IDEMPOTENT` repeats more, which is safe only
    where no other client writes: see `help(judyd.Retry)`. After a restart of the server the arrays are
    empty. So a job of several windows, as a walk, an `update` or a pipeline, raises `Restarted` if it
    met two servers, and its caller begins it again.
    """

    def __init__(
        self, address: Address, timeout: Optional[float] = TIMEOUT, tls: Optional[ssl.SSLContext] = None,
        reconnect: bool = False, retry: Retry = QUERIES,
    ) -> None:  # fmt: skip
        self._retry = checked_retry(retry, reconnect)
        self._link = Link(address, timeout, tls, reconnect)

    def __repr__(self) -> str:
        return "<Client %s>" % self._link

    def __enter__(self) -> "Client":
        return self

    def __exit__(self, *_: object) -> None:
        self.close()

    def auth(self, name: str, token: str) -> "Client":
        """Logs in, and returns the client. Raises NotAuthorized if the tenant is unknown or the
        token is wrong. Then nobody is logged in, and the connection stays open for another try."""
        checked(self._log_in(b"AUTH %s %s" % (name_field(name), token_field(token))))
        return self

    def lines(self, lines: Iterable[bytes]) -> List[bytes]:
        """Sends lines as they are, bytes without LF, and returns the list of their replies. QUIT
        ends the connection: lines after it have no reply, and raise ConnectionLost."""
        plain = plain_lines(lines)
        with self._held():
            replies = self._replies(plain)
            for line, reply in zip(plain, replies):
                if b"AUTH" in line:
                    self._note_log_in(line, reply)
        return replies

    def quit(self) -> None:
        """Sends QUIT, and closes."""
        try:
            self._replies([b"QUIT"])
        finally:
            self.close()

    def close(self) -> None:
        """Closes the connection. The arrays stay."""
        self._link.close()

    def _log_in(self, line: bytes) -> bytes:
        """The reply to a log-in, which is repeated on each new connection."""
        with self._held():
            (reply,) = self._replies([line])
            self._note_log_in(line, reply)
        return reply

    def _note_log_in(self, line: bytes, reply: bytes) -> None:
        if line.split()[:1] == [b"AUTH"] and reply in (b"OK", b"ERR AUTH", b"ERR CLIENTS"):
            self._link.log_in = line if reply == b"OK" else None

    def _held(self) -> ContextManager[None]:
        return self._link.held()

    def _server(self) -> object:
        return self._link.server()

    def _exchange(self, lines: Lines, is_quiet: bool = False) -> bytes:
        return self._link.exchange(lines, rule_of(self._retry, is_quiet))


class Visitor(Arrays):
    """A client that makes a connection for each piece of a long job, so that a server that serves
    one client at a time serves others in between. Its argument makes a connection:

        Visitor(lambda: Client("/run/judyd/socket").auth("alice", "abc"))

    It has the arrays of a client. Calls of other clients may come between any two of its calls, and
    between two windows of a walk. It is for one thread.
    """

    def __init__(self, open_client: Callable[[], Client]) -> None:
        self._open = open_client
        self._client: Optional[Client] = None
        self._latest: object = None

    def __repr__(self) -> str:
        return "<Visitor, not connected>" if self._client is None else "<Visitor by %r>" % self._client

    def _ask(self, line: bytes, read: Callable[[bytes], T], is_quiet: bool = False) -> T:
        try:
            return super()._ask(line, read, is_quiet)
        finally:
            self._pause()

    def _server(self) -> object:
        return self._latest

    def _exchange(self, lines: Lines, is_quiet: bool = False) -> bytes:
        if self._client is None:
            self._client = self._open()
        try:
            replies = self._client._exchange(lines, is_quiet)
        except BaseException:
            self._pause()
            raise
        self._latest = self._client._link.process()
        return replies

    def _pause(self) -> None:
        if self._client is not None:
            self._client.close()
            self._client = None
