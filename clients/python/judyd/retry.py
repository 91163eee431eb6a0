"""Which calls a client repeats on a new connection, after one that was lost before their replies came."""

import logging
from enum import Enum
from typing import Callable, List, NoReturn, Optional

from .calls import is_query, is_same_twice
from .errors import ConnectionLost, NoServer, Restarted, TimedOut
from .lines import Lines, joined

LOGGER = logging.getLogger("judyd")
"""It logs new connections and repeated calls, at the level INFO."""

TRIES = 10
"""The most connections that one exchange uses."""


class Retry(Enum):
    """Which lost calls a client with `reconnect=True` repeats, if they may have run before.

    `QUERIES`: calls that change nothing. All others raise `ConnectionLost`.

    `IDEMPOTENT`: also calls that store or remove and whose result is not used: `m[k] = v`,
    `update`, `s.add`, `discard`, `difference_update`, `clear`, and a pipeline with `is_quiet=True`.

    A call that does more if it runs twice is never repeated: `m.add`, `add_absent`, `insert_absent`,
    `pop_first`, `remove_range`, and so `take` and `pop` of a set, `popitem` and `add_many`.

    Run twice in a row, a repeated call leaves what it leaves once. Beside other writers it may not:
    what another client does between the two runs is undone by the second. A repeated `discard`
    takes back an id or a lock that another client has acquired since, and a repeated `m[k] = v`
    stores an old value over a newer one. A repeated `keep`, `exchange` or `delete_if` of a quiet
    pipeline does so only if the value that it names has come again meanwhile, and a repeated `take`
    of a map takes what was stored since. So it is for arrays, or keys, that one client at a time writes to.
    """

    QUERIES = "queries"
    IDEMPOTENT = "idempotent"


QUERIES = Retry.QUERIES
IDEMPOTENT = Retry.IDEMPOTENT


def checked_retry(retry: Retry, reconnect: bool) -> Retry:
    """The word of a client that says what is repeated."""
    if not isinstance(retry, Retry):
        raise TypeError("retry is QUERIES or IDEMPOTENT, and not %r" % (retry,))
    if retry is not QUERIES and not reconnect:
        raise ValueError("retry=IDEMPOTENT needs reconnect=True: without it no call is repeated")
    return retry


def tenant_of(log_in: Optional[bytes]) -> str:
    """Who is logged in by an AUTH line."""
    return "nobody logged in" if log_in is None else log_in.split()[1].decode()


def counted(calls: int) -> str:
    """How many calls there are, and the verb."""
    return "1 call is" if calls == 1 else "%d calls are" % calls


def rule_of(retry: Retry, is_quiet: bool) -> Callable[[bytes], bool]:
    """Whether a line that may have run may be sent again. It is quiet if its result is not used."""
    return is_same_twice if retry is IDEMPOTENT and is_quiet else is_query


class Exchange:
    """Lines and their replies, over one connection, or over several if one is lost and the lines
    without a reply may be sent again."""

    def __init__(self, lines: Lines, may_repeat: Callable[[bytes], bool]) -> None:
        self.replies: List[bytes] = []  # that came over a connection before it was lost
        self._lines = lines
        self._may_repeat = may_repeat
        self._lost: Optional[ConnectionLost] = None
        self._server: object = None

    def left(self, server: object) -> Lines:
        """The lines for a server. Raises Restarted if another one has answered the first of them."""
        if self.replies and server != self._server:
            raise Restarted(self.replies)
        self._server = server
        return Lines.of(self._unanswered()) if self.replies else self._lines

    def whole(self, replies: bytes) -> bytes:
        """The replies to all lines. Those to the lines that were left are given."""
        return joined(self.replies) + replies if self.replies else replies

    def _unanswered(self) -> List[bytes]:
        return self._lines.each()[len(self.replies) :]

    def raise_no_server(self, why: NoServer) -> NoReturn:
        """Raises the error for a missing next connection."""
        if self._lost is None or not (self._lost.may_have_run or self.replies):
            raise why
        raise self._lost from why

    def lose(self, lost: ConnectionLost, reconnect: bool, who: object) -> None:
        """Takes the loss of a connection, with the replies that came. Raises the exception of the whole
        exchange unless the other lines may be sent again."""
        self.replies += lost.replies
        lost.replies = list(self.replies)
        before = self._lost
        if before is not None and before.may_have_run and not lost.may_have_run:
            before.replies = lost.replies
        else:
            self._lost = lost
        left = self._unanswered()
        is_safe = not lost.may_have_run or all(map(self._may_repeat, left))
        if not reconnect or isinstance(lost, TimedOut) or not is_safe:
            self.raise_lost(lost)
        LOGGER.info("%s: %s; %s sent again", who, lost, counted(len(left)))

    def raise_lost(self, latest: Optional[ConnectionLost] = None) -> NoReturn:
        """Raises the exception of the whole exchange."""
        assert self._lost is not None, "it has lost a connection"
        raise self._lost from (None if latest is None else latest.__cause__)
