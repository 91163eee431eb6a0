"""The exceptions. All of them are a `JudyError`: `Closed` if there is no connection, `Refused` if the
server refuses a call."""

from typing import Dict, List, Sequence, Type

from .lines import cut

__all__ = [
    "JudyError", "Error", "Closed", "NoServer", "ConnectionLost", "TimedOut", "Restarted",
    "PoolEmpty", "Refused", "Full", "NoMemory", "ReadOnly", "Frozen", "JournalFull", "NotAuthorized", "TooManyClients", "Syntax", "Long", "KeyTooLong",
]  # fmt: skip


class JudyError(Exception):
    """Any fault between a client and a server."""


Error = JudyError
"""The same class, by a shorter name."""


class Closed(JudyError):
    """There is no connection: this client was closed, no server listens, or the connection was
    lost."""


class NoServer(Closed):
    """No connection could be made. Nothing was sent, so no call has run."""


class ConnectionLost(Closed):
    """The connection ended before the reply came. If `may_have_run` is false, no call without a
    reply has run. If it is true, each of them may have run, or not. A restarted server has empty
    arrays; with a journal it has the effect of each call with a reply, and perhaps of calls without
    one. `replies` has the replies that came to the lost window."""

    def __init__(self, text: str, may_have_run: bool = True) -> None:
        super().__init__(text)
        self.may_have_run = may_have_run
        self.replies: List[bytes] = []  # to the first lines of a window that was lost


class TimedOut(ConnectionLost):
    """No byte came for `timeout` seconds. The server may be serving other clients just then."""


class Restarted(ConnectionLost):
    """A walk, an `update` or another job of several windows met two servers: the one that it began on
    ended, and another took its place. Without a journal, the arrays of the first one are lost. The job
    is not done: begin it again."""

    def __init__(self, replies: Sequence[bytes] = ()) -> None:
        super().__init__("the server was started anew in the middle of this job: without a journal its arrays were lost, so begin the job again")
        self.replies = list(replies)


class PoolEmpty(JudyError):
    """All clients of a pool were in use for too long."""


class Refused(JudyError):
    """The server refused a call, and nothing has changed. `reply` is its reply, with which the text
    begins."""

    meaning = ""

    def __init__(self, text: str) -> None:
        self.reply, _, more = text.partition(": ")
        super().__init__(text if more or not self.meaning else "%s: %s" % (text, self.meaning))


class Full(Refused):
    """The tenant's quota of entries or of pieces has no room for a new entry."""

    meaning = "the tenant's quota has no room for a new entry; used() tells it"


class NoMemory(Refused):
    """The server is out of memory for a new entry."""

    meaning = "the server is out of memory for a new entry"


class ReadOnly(Refused):
    """The call may change an array, and the log-in was with the read-only token."""

    meaning = "the read-only token may look and not change"


class Frozen(Refused):
    """The call may change an array, and the tenant is frozen: its arrays are being restored. Try again
    later."""

    meaning = "the tenant is frozen while its arrays are restored; try again later"


class JournalFull(Refused):
    """The call may change an array, and the journal takes no records of the tenant: its disk is full, or the
    tenant has as many records as it may have until the next compaction. Try again later."""

    meaning = "the journal takes no records of the tenant now; try again later"


class NotAuthorized(Refused):
    """The tenant of a log-in is unknown or its token is wrong, or nobody has logged in. The server
    gives an unknown tenant and a wrong token the same reply."""

    meaning = "the tenant is unknown, the token is wrong, or nobody has logged in"


class Syntax(Refused):
    """The line is not a request."""

    meaning = "the line spells no request of this server"


class TooManyClients(Refused):
    """The tenant is logged in on as many other connections as `judyd serve --tenant-clients` allows. Nobody is
    logged in on this one now."""

    meaning = "the tenant has as many connections as it may have"


class Long(Refused):
    """The line has more than 4,096 bytes."""

    meaning = "the line has more than 4,096 bytes"


class KeyTooLong(JudyError, ValueError):
    """A key has more than 1,000 bytes. Nothing was sent."""


REFUSALS: Dict[bytes, Type[Refused]] = {
    b"FULL": Full,
    b"ERR MEMORY": NoMemory,
    b"ERR READONLY": ReadOnly,
    b"ERR FROZEN": Frozen,
    b"ERR JOURNAL": JournalFull,
    b"ERR AUTH": NotAuthorized,
    b"ERR CLIENTS": TooManyClients,
    b"ERR SYNTAX": Syntax,
    b"ERR LONG": Long,
}
"""The refusals that this client knows."""


def is_refusal(reply: bytes) -> bool:
    """Whether a reply is a refusal, also one of a later server."""
    return reply == b"FULL" or reply[:4] == b"ERR "


def refusal_of(reply: bytes) -> Refused:
    """The exception for a refusal. One that this client does not know is a `Refused`."""
    return REFUSALS.get(reply, Refused)(reply.decode("ascii", "replace"))


def all_checked(replies: bytes) -> bytes:
    """These replies, each with its LF. The first refusal among them raises its exception."""
    if b"ERR " in replies or b"FULL" in replies:
        for reply in filter(is_refusal, cut(replies)):
            raise refusal_of(reply)
    return replies


def checked(reply: bytes) -> bytes:
    """The reply. A refusal raises its exception."""
    if is_refusal(reply):
        raise refusal_of(reply)
    return reply
