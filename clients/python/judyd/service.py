"""`judy status` and `judy wait`: whether a server answers, and what to do if none does."""

import errno
import time
from typing import Callable, Optional

from .client import Client
from .errors import Closed


def remedy(e: BaseException, path: Optional[str]) -> str:
    """Why no server answers on the path of a socket, and what to do. Empty if the error itself says it."""
    cause: Optional[BaseException] = e
    while cause is not None and not isinstance(cause, OSError):
        cause = cause.__cause__
    if path is None or cause is None:
        return ""
    if cause.errno == errno.ENOENT:
        return "no server has made that socket: start one (systemctl start judyd, or judyd serve --config FILE --socket %s), or name another with -s PATH" % path
    if cause.errno == errno.ECONNREFUSED:
        return "no server listens at %s: if one that ended left it, remove it and start the server (systemctl restart judyd)" % path
    if cause.errno == errno.EACCES:
        return "this user may not connect to %s: be root, or in the group judyd" % path
    return ""


def status(connect: Callable[[], Client], user: Optional[str], where: str) -> str:
    """What a server reports about itself, and about the tenant that is logged in."""
    with connect() as client:
        if user is None:
            client.lines([b"PING"])
            return "%s: a server answers" % where
        used = client.used()
    return "%s: a server answers; %s has %d of %d entries, %d of %d pieces" % (where, user, *used)


def wait(connect: Callable[[Optional[float]], Client], seconds: Optional[float]) -> None:
    """Waits until a server answers. `connect` makes a connection that waits for at most so many seconds.
    Raises Closed if no server answers in time."""
    until = None if seconds is None else time.monotonic() + seconds
    while True:
        left = None if until is None else max(until - time.monotonic(), 0.05)
        try:
            with connect(left) as client:
                client.lines([b"PING"])
                return
        except Closed:
            if until is not None and time.monotonic() >= until:
                raise
        time.sleep(0.05)
