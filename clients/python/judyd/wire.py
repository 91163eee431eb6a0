"""A connection for a dump or a load: many lines at once, as bytes. It is one connection from the log-in
to the end, so a restart in the middle, with empty arrays, is detected."""

import select
import socket
import ssl
from typing import List, Optional, Tuple, Union

from .errors import Closed, checked

Address = Union[str, Tuple[str, int]]
_BUSY = (BlockingIOError, InterruptedError, ssl.SSLWantReadError, ssl.SSLWantWriteError)
_PIECE = 1 << 18


class Wire:
    """A connection, with the number of replies that came over it. A loss raises `Closed`."""

    def __init__(self, address: Address, timeout: Optional[float], tls: Optional[ssl.SSLContext] = None) -> None:
        self._timeout = timeout
        self.answered = 0
        try:
            self._sock = _connected(address, timeout, tls)
        except OSError as e:
            raise Closed("no connection to %s: %s" % (address if isinstance(address, str) else "%s:%d" % address, e)) from e
        self._sock.setblocking(False)

    def __enter__(self) -> "Wire":
        return self

    def __exit__(self, *_: object) -> None:
        self._sock.close()

    def log_in(self, line: bytes) -> None:
        """Sends an AUTH line."""
        checked(self.ask(line + b"\n", 1)[:-1])

    def ask(self, lines: bytes, count: int) -> bytes:
        """Sends this many lines, and returns the bytes of as many replies. It reads while it writes."""
        left, pieces, missing = memoryview(lines), [b""], count
        try:
            while missing > 0:
                self._wait(bool(left))
                before = len(pieces)
                is_open = self._take(pieces)
                came = sum(piece.count(b"\n") for piece in pieces[before:])
                self.answered += came
                missing -= came
                if missing > 0 and not is_open:
                    raise EOFError("the server closed the connection")
                if left:
                    left = self._given(left)
        except (OSError, EOFError) as e:
            self._sock.close()
            raise Closed("the connection was lost: %s" % (e or type(e).__name__)) from e
        return b"".join(pieces)

    def _wait(self, is_writing: bool) -> None:
        """Waits until a byte can go or come."""
        ready = select.poll()
        ready.register(self._sock, select.POLLIN | (select.POLLOUT if is_writing else 0))
        if not ready.poll(None if self._timeout is None else self._timeout * 1000):
            raise socket.timeout("no byte for %g s" % (self._timeout or 0))

    def _take(self, pieces: List[bytes]) -> bool:
        """Reads what has come, and returns whether more may come."""
        try:
            while piece := self._sock.recv(_PIECE):
                pieces.append(piece)
            return False
        except _BUSY:
            return True

    def _given(self, left: memoryview) -> memoryview:
        """Sends what can be sent, and returns the rest."""
        try:
            return left[self._sock.send(left[:_PIECE]) :]
        except _BUSY:
            return left


def _connected(address: Address, timeout: Optional[float], tls: Optional[ssl.SSLContext]) -> socket.socket:
    """A socket that is connected to a path, or to a host and a port."""
    if not isinstance(address, str):
        sock = socket.create_connection(address, timeout)
        return sock if tls is None else tls.wrap_socket(sock, server_hostname=address[0])
    sock = socket.socket(socket.AF_UNIX, socket.SOCK_STREAM)
    sock.settimeout(timeout)
    try:
        sock.connect(address)
    except OSError:
        sock.close()
        raise
    return sock
