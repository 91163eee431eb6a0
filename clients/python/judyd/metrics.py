"""The sockets of a judyd for its operator: the numbers of its status (`judyd serve --status PATH`), and its
commands (`--control PATH`)."""

import errno
import os
import re
import select
import socket
import time
from typing import Dict, Optional, Tuple

from .errors import ConnectionLost, Error, NoServer, TimedOut

LIMIT = 1 << 20
"""The most bytes of an answer."""

_LINE = re.compile(r'(\w+)(?:\{\w+="([^"\\]*)"\})? (\d{1,20})\Z')
_NAME = re.compile(r"[A-Za-z0-9_.-]{1,32}\Z")
_KICKED = re.compile(rb"OK (\d{1,20})\n\Z")
_CAUSES = {
    errno.ENOENT: "no server has made that socket (judyd serve --%(option)s %(path)s)",
    errno.ECONNREFUSED: "no server listens there, and one that ended left the socket: %(path)s",
    errno.EACCES: "this user may not connect to %(path)s: be root, or for the status in the group judyd-monitor",
}


class Metrics:
    """The numbers of a status text, by their names; those with a label also by its value."""

    def __init__(self, text: bytes) -> None:
        self._numbers: Dict[str, Dict[str, int]] = {}
        lines = text.decode("ascii", "replace").split("\n")
        if lines.pop():
            raise Error("the status is cut: its last line has no end")
        for line in lines:
            found = _LINE.match(line)
            if found:
                self._numbers.setdefault(found[1], {})[found[2] or ""] = int(found[3])
            elif line and not line.startswith("#"):
                raise Error("this is no status: %s" % line[:60])
        self.one("judyd_uptime_seconds")

    def one(self, name: str) -> int:
        """The number of a metric without a label."""
        numbers = self.all(name)
        if list(numbers) != [""]:
            raise Error("the status has no %s" % name)
        return numbers[""]

    def all(self, name: str) -> Dict[str, int]:
        """The numbers of a metric, by the value of its label."""
        return self._numbers.get(name, {})


class Question:
    """A request line on a socket of the operator, whose answer comes in parts."""

    def __init__(self, path: str, line: str, seconds: Optional[float], option: str = "status") -> None:
        self._path, self._option = path, option
        self._sock = socket.socket(socket.AF_UNIX, socket.SOCK_STREAM)
        self._sock.settimeout(seconds)
        self._got = b""
        try:
            self._sock.connect(path)
            self._sock.sendall(b"%b\n" % line.encode("ascii"))
        except OSError as e:
            self._sock.close()
            raise NoServer(_CAUSES.get(e.errno or 0, "no connection to %%(path)s: %s" % str(e).replace("%", "%%")) % {"path": path, "option": option}) from None
        self._sock.setblocking(False)

    def __enter__(self) -> "Question":
        return self

    def __exit__(self, *_: object) -> None:
        self._sock.close()

    def fileno(self) -> int:
        """The number of the file to wait for."""
        return self._sock.fileno()

    def piece(self) -> Optional[bytes]:
        """What came, or nothing once the server has closed. None if more may come."""
        try:
            return self._sock.recv(65536)
        except BlockingIOError:
            return None
        except OSError as e:
            raise ConnectionLost("%s: the connection was lost: %s" % (self._path, e)) from None

    def answer(self) -> Optional[bytes]:
        """The whole answer, once the server has closed. None if more may come."""
        piece = self.piece()
        if piece is None:
            return None
        self._got += piece
        if not self._got:
            raise ConnectionLost("%s: the server closed without an answer" % self._path)
        if self._got.startswith(b"ERR") and self._got.endswith(b"\n"):
            raise Error("%s answers %s: it is not the socket of --%s" % (self._path, self._got.split(b"\n")[0].decode("ascii", "replace"), self._option))
        if len(self._got) > LIMIT:
            raise Error("%s gives more than %d bytes: it is not the socket of --%s" % (self._path, LIMIT, self._option))
        return None if piece else self._got


def ask(path: str, line: str, seconds: Optional[float], option: str = "status") -> bytes:
    """The answer to a request line, which comes within so many seconds, at the socket of this option."""
    until = None if seconds is None else time.monotonic() + seconds
    with Question(path, line, seconds, option) as question:
        while True:
            left = None if until is None else max(until - time.monotonic(), 0)
            if not select.select([question], [], [], left)[0]:
                raise TimedOut("%s: no answer for %g s" % (path, seconds or 0))
            answer = question.answer()
            if answer is not None:
                return answer


def status(path: str, seconds: Optional[float]) -> bytes:
    """The status text of a server."""
    text = ask(path, "STATUS", seconds)
    Metrics(text)
    return text


def stop(path: str, seconds: Optional[float]) -> None:
    """Tells a server to end at its control socket, and waits until that is gone."""
    before, until = _identity(path), None if seconds is None else time.monotonic() + seconds
    try:
        ask(path, "STOP", seconds, "control")
    except ConnectionLost:
        pass  # it may be gone before its answer is read
    while before is not None and _identity(path) == before:
        if until is not None and time.monotonic() >= until:
            raise Error("the server was told to stop, and after %g s its socket is still there: %s" % (seconds or 0, path))
        time.sleep(0.02)


def _said(path: str, line: str, seconds: Optional[float]) -> bytes:
    """The line that the control socket answers to a command."""
    until = None if seconds is None else time.monotonic() + seconds
    with Question(path, line, seconds, "control") as question:
        got = b""
        while not got.endswith(b"\n"):
            left = None if until is None else max(until - time.monotonic(), 0)
            if not select.select([question], [], [], left)[0]:
                raise TimedOut("%s: no answer for %g s" % (path, seconds or 0))
            piece = question.piece()
            if piece == b"":
                raise ConnectionLost("%s: the server closed without an answer" % path)
            got += piece or b""
    return got


def _other(path: str, got: bytes) -> Error:
    """An answer that is not one of a control socket."""
    return Error("%s answers %s: it is not the socket of --control" % (path, got[:-1].decode("ascii", "replace")))


def reload(path: str, seconds: Optional[float]) -> None:
    """Tells a server at its control socket to read its table again. An error has the reason if it does not."""
    got = _said(path, "RELOAD", seconds)
    if got.startswith(b"ERR ") and got not in (b"ERR SYNTAX\n", b"ERR AUTH\n", b"ERR LONG\n"):
        raise Error("the table is not read again: %s" % got[4:-1].decode("ascii", "replace"))
    if got != b"OK\n":
        raise _other(path, got)


def _said_of(path: str, tenant: str, line: str, seconds: Optional[float]) -> bytes:
    """The line that the control socket answers to a command about a tenant, which the server has."""
    if not _NAME.match(tenant):
        raise Error("no tenant has such a name: %s" % tenant)
    got = _said(path, line % tenant, seconds)
    if got == b"ERR TENANT\n":
        raise Error("the server has no tenant %s" % tenant)
    return got


def kick(path: str, tenant: str, seconds: Optional[float]) -> int:
    """Tells a server at its control socket to close the connections of a tenant. Returns how many it closed."""
    got = _said_of(path, tenant, "KICK %s", seconds)
    found = _KICKED.match(got)
    if not found:
        raise _other(path, got)
    return int(found[1])


def freeze(path: str, tenant: str, digest: str, seconds: Optional[float]) -> None:
    """Tells a server at its control socket that only one token may change a tenant: that of this SHA-256,
    64 hexadecimal digits."""
    _check_frozen(path, _said_of(path, tenant, "FREEZE %%s %s" % digest, seconds))


def thaw(path: str, tenant: str, seconds: Optional[float]) -> None:
    """Tells a server at its control socket that a tenant is no longer frozen."""
    _check_frozen(path, _said_of(path, tenant, "THAW %s", seconds))


def _check_frozen(path: str, got: bytes) -> None:
    if got == b"ERR\n":
        raise Error("%s answers ERR: its server cannot freeze a tenant, or it is not the socket of --control" % path)
    if got != b"OK\n":
        raise _other(path, got)


def _identity(path: str) -> Optional[Tuple[int, int, int]]:
    """What distinguishes a socket from another one on the same path. None if nothing is there."""
    try:
        found = os.lstat(path)
    except OSError:
        return None
    return found.st_dev, found.st_ino, found.st_ctime_ns
