"""A connection: sends lines and receives replies, each as soon as it can."""

import os
import select
import socket
import ssl
import struct
import time
from typing import Callable, List, Optional, Sequence, Tuple, Union

from .errors import Closed, ConnectionLost, NoServer, Restarted, TimedOut
from .lines import Lines, cut

Address = Union[str, bytes, "os.PathLike[str]", "os.PathLike[bytes]", Tuple[str, int]]
"""The path of a socket, or a host and a port."""
Ready = Callable[[Optional[float]], Sequence[object]]

_BUSY = (BlockingIOError, InterruptedError, ssl.SSLWantReadError, ssl.SSLWantWriteError)
_PIECE = 65536
_SERVED = ": another client may be served just then"


class Connection:
    """A socket, with the bytes that came after the last reply. It is for one exchange at a time."""

    def __init__(self, address: Address, timeout: Optional[float], tls: Optional[ssl.SSLContext]) -> None:
        self._timeout = timeout
        self._pieces: List[bytes] = []
        self._sent = 0  # bytes of the exchange that were sent
        self._is_local = not isinstance(address, tuple)  # a write to a server that has ended fails at once
        self._is_plain = self._is_local or tls is None  # bytes go and come as they are
        self._sock: Optional[socket.socket] = None
        self.is_open = True  # it was not closed here
        self.server: Optional[int] = None
        try:
            self._sock = connected(address, timeout)
            self.server = server_of(self._sock)
            if tls is not None and isinstance(address, tuple):
                self._sock = tls.wrap_socket(self._sock, server_hostname=address[0])
            self._sock.setblocking(False)
        except OSError as e:
            raise no_server(address, e) from e
        self._come = ready_of(self._sock, select.POLLIN)
        self._come_or_go = ready_of(self._sock, select.POLLIN | select.POLLOUT)

    def close(self) -> None:
        """Closes this process's end of the connection."""
        self.is_open = False
        if self._sock is not None:
            self._sock.close()
            self._sock = None

    def is_idle(self) -> bool:
        """Whether the connection is open, and the server has sent nothing since the last reply. A
        server that has ended the connection has sent its end."""
        return self._sock is not None and not select.select([self._sock], [], [], 0)[0]

    def exchange(self, lines: Lines) -> bytes:
        """Sends lines and reads as many replies. If the buffers take all lines at once, it then
        only reads. Otherwise it reads while it writes, so neither side ever waits for the other to
        read, however many lines there are. If the connection is lost, the exception has the replies
        that came."""
        if self._sock is None:
            raise Closed("the connection is closed")
        missing = lines.count - (b"".join(self._pieces).count(b"\n") if self._pieces else 0)
        self._sent = 0
        try:
            is_sent = (self._is_local or (lines.count == 1 and self._is_plain)) and self._send_at_once(self._sock, lines)
            if is_sent:
                lines.told_sent()
                self._read(self._sock, missing)
            else:
                self._exchange_both_ways(self._sock, lines, missing)
            return self._replies(lines.count)
        except (OSError, EOFError) as e:
            raise self._lost(e, lines.data()) from e
        except BaseException:
            self.close()  # interrupted: the next bytes would answer another line
            raise

    def _replies(self, count: int) -> bytes:
        """This many of the replies that came. Later ones are kept."""
        data = b"".join(self._pieces)
        self._pieces = []
        if not data.endswith(b"\n") or data.count(b"\n") > count:
            held = data.split(b"\n", count)[count]
            self._pieces = [held]
            data = data[: len(data) - len(held)]
        return data

    def _lost(self, why: Exception, data: bytes) -> ConnectionLost:
        """The exception for an exchange that failed. A line has run only if its LF was sent."""
        self.close()
        replies = cut(b"".join(self._pieces))
        exception = lost(why, data.count(b"\n", 0, self._sent) > len(replies), self._timeout)
        exception.replies = replies
        return exception

    def _send_at_once(self, sock: socket.socket, lines: Lines) -> bool:
        """Sends what the socket's buffers take without a wait. Returns whether that is all."""
        try:
            for piece in lines.pieces():
                sent = sock.send(piece)
                self._sent += sent
                if sent < len(piece):
                    return False
            return True
        except _BUSY:
            return False
        except OSError:
            self._take(sock, lines.count)  # the replies that came before the end
            raise

    def _read(self, sock: socket.socket, missing: int) -> None:
        """Waits for the missing replies, once all lines are sent."""
        while missing > 0:
            self._wait(self._come)
            try:
                piece = sock.recv(_PIECE)
            except _BUSY:
                continue
            if not piece:
                raise EOFError("the server closed the connection")
            self._pieces.append(piece)
            missing -= piece.count(b"\n")

    def _exchange_both_ways(self, sock: socket.socket, lines: Lines, missing: int) -> None:
        """Sends the rest of the lines, and reads meanwhile."""
        left = memoryview(lines.data())[self._sent :]
        while True:
            missing, is_open = self._take(sock, missing)
            if missing <= 0:
                return
            if not is_open:
                raise EOFError("the server closed the connection")
            if left:
                left = self._give(sock, left, missing)
                if not left:
                    lines.told_sent()
            self._wait(self._come_or_go if left else self._come)

    def _wait(self, ready: Ready) -> None:
        """Waits until a byte can come, or also until one can go."""
        if not ready(None if self._timeout is None else self._timeout * 1000):
            raise socket.timeout()

    def _take(self, sock: socket.socket, missing: int) -> Tuple[int, bool]:
        """Reads what has come, up to the last of the missing replies. Returns how many are missing still,
        and whether more may come."""
        try:
            while missing > 0:
                piece = sock.recv(_PIECE)
                if not piece:
                    return missing, False
                self._pieces.append(piece)
                missing -= piece.count(b"\n")
        except _BUSY:
            pass
        return missing, True

    def _give(self, sock: socket.socket, left: memoryview, missing: int) -> memoryview:
        """Sends what can be sent, and returns the rest."""
        try:
            sent = sock.send(left[:_PIECE])
        except _BUSY:
            return left
        except OSError:
            self._take(sock, missing)  # the replies that came before the end
            raise
        self._sent += sent
        return left[sent:]


def ready_of(sock: socket.socket, events: int) -> Ready:
    """A function that waits for one of these events of a socket, for at most so many milliseconds, and
    returns whether one came."""
    ready = select.poll()
    ready.register(sock, events)
    return ready.poll


def server_of(sock: socket.socket) -> Optional[int]:
    """The number of the server's process; None if the system does not report it, as over TCP."""
    if sock.family == socket.AF_UNIX and hasattr(socket, "SO_PEERCRED"):
        number, _, _ = struct.unpack("3i", sock.getsockopt(socket.SOL_SOCKET, socket.SO_PEERCRED, 12))
        return number or None
    return None


class SameServer:
    """Checks that one server does a job of several windows. `server` returns which one did the
    latest window."""

    def __init__(self, server: Callable[[], object]) -> None:
        self._server = server
        self._first: object = None

    def check(self) -> None:
        """Raises Restarted if the latest window met another server than the first one."""
        server = self._server()
        if self._first is None:
            self._first = server
        elif server != self._first:
            raise Restarted()


def place_of(address: Address) -> str:
    """An address as a text."""
    return ":".join(map(str, address)) if isinstance(address, tuple) else os.fsdecode(address)


def checked_address(address: Address) -> Address:
    """An address of the right type."""
    if isinstance(address, (str, bytes, os.PathLike)) or (isinstance(address, tuple) and len(address) == 2):
        return address
    raise TypeError("an address is the path of a socket, or a tuple of a host and a port, and not %r" % (address,))


def checked_timeout(timeout: Optional[float]) -> Optional[float]:
    """How many seconds a client waits; None is forever."""
    if timeout is None:
        return None
    if not isinstance(timeout, (int, float)):
        raise TypeError("a timeout is a number of seconds, or None, and not %r" % (timeout,))
    if not timeout > 0:
        raise ValueError("a timeout is more than 0 seconds, or None, and not %r" % (timeout,))
    return timeout


def no_server(address: Address, why: OSError) -> NoServer:
    """The exception for a connection that can't be made."""
    place = place_of(address)
    if isinstance(why, (socket.timeout, TimeoutError)):
        return NoServer("no connection to %s in time%s" % (place, _SERVED))
    if isinstance(why, (FileNotFoundError, ConnectionRefusedError)):
        todo = "start what forwards to judyd, or check host and port" if isinstance(address, tuple) else "start judyd serve, or check the path"
        return NoServer("no server listens at %s: %s" % (place, todo))
    return NoServer("no connection to %s: %s" % (place, why))


def lost(why: Exception, may_have_run: bool, timeout: Optional[float]) -> ConnectionLost:
    """The exception for a connection that was lost."""
    run = "each call without a reply may have run" if may_have_run else "no call without a reply has run"
    if isinstance(why, (socket.timeout, TimeoutError)):
        return TimedOut("no reply for %.3g s%s; %s" % (timeout or 0, _SERVED, run), may_have_run)
    return ConnectionLost("the connection was lost (%s); %s" % (str(why) or type(why).__name__, run), may_have_run)


def connected(address: Address, timeout: Optional[float]) -> socket.socket:
    """A socket that is connected to a path, or to a host and a port."""
    if isinstance(address, tuple):
        sock = socket.create_connection(address, timeout)
        sock.setsockopt(socket.IPPROTO_TCP, socket.TCP_NODELAY, 1)
        return sock
    sock = socket.socket(socket.AF_UNIX, socket.SOCK_STREAM)
    try:
        sock.settimeout(timeout)
        _connect(sock, os.fspath(address), timeout)
    except BaseException:
        sock.close()
        raise
    return sock


def _connect(sock: socket.socket, path: Union[str, bytes], timeout: Optional[float]) -> None:
    """Connects to a path. If the server's queue of connections is full, tries again."""
    until = None if timeout is None else time.monotonic() + timeout
    while True:
        try:
            sock.connect(path)
            return
        except BlockingIOError as e:
            if until is not None and time.monotonic() > until:
                raise socket.timeout() from e
            time.sleep(0.01)
