"""Calls, with many in flight at once."""

import os
import threading
from collections import deque
from typing import Any, Callable, Deque, List, Optional, Tuple, TypeVar

from .connection import SameServer
from .errors import Closed, ConnectionLost, JudyError, refusal_of
from .late import LateArrays, Later

T = TypeVar("T")


class Pipeline(LateArrays):
    """Calls, with many in flight at once: `with client.pipeline() as pipe:`.

    Its arrays have the manual's calls, each of which returns a `Later` at once, and `add`, `discard`,
    `m[k] = v`, `update`, `difference_update` and `clear`. The calls are sent together, in their
    order, at the latest when the block ends. A refused call does not stop the others. If calls were
    refused, the end of the block raises the first refusal, unless `raises=False`. If the block raises
    an exception, the calls that were not sent yet are left out. Calls are sent in windows of `window`
    calls, or with `window=None` only at the end. The client reads while it writes, so a window may
    have any length.

    No call of another thread comes between the calls of one window. The block itself does not hold
    the connection: a call of the client inside it is made at once, before the calls that wait.

    If the connection is lost, `flush()` and the end of the block raise `ConnectionLost`. A `Later`
    whose reply came has its result, and the others raise that exception too.
    """

    def __init__(self, client: Any, window: Optional[int] = 1000, raises: bool = True, is_quiet: bool = False) -> None:
        super().__init__()
        self._client = client
        if not isinstance(window, (int, type(None))):
            raise TypeError("the window of a pipeline is an int, or None, and not %r" % (window,))
        self._window = window
        self._raises = raises
        self._is_quiet = is_quiet
        self._waiting: Deque[Tuple[bytes, Later[Any]]] = deque()
        self._lock = threading.RLock()
        self._process = os.getpid()
        self._same = SameServer(client._server)

    def __enter__(self) -> "Pipeline":
        return self

    def __repr__(self) -> str:
        return "<Pipeline of %r: %d calls wait>" % (self._client, len(self._waiting))

    def __exit__(self, kind: object, *_: object) -> None:
        if kind is not None:
            self._waiting.clear()
            return
        self.flush()
        if self._raises and self._refusal is not None:
            raise refusal_of(self._refusal)

    def flush(self) -> None:
        """Sends the calls that wait, and reads their replies."""
        self._check_process()
        with self._lock:
            waiting, self._waiting = self._waiting, deque()
            if waiting:
                self._send([line for line, _ in waiting], [later for _, later in waiting])

    def _send(self, lines: List[bytes], late: List[Later[Any]]) -> None:
        try:
            replies = self._client._replies(lines, self._is_quiet)
        except Closed as e:
            replies = e.replies if isinstance(e, ConnectionLost) else []
            for later in late[len(replies) :]:
                later._lost = e
            self._take(late, replies)
            raise
        self._take(late, replies)
        self._same.check()

    def _ask(self, line: bytes, read: Callable[[bytes], T], is_quiet: bool = False) -> Later[T]:
        if self._process != os.getpid():
            self._check_process()
        later = Later(read)
        with self._lock:
            self._waiting.append((line, later))
            if self._window is not None and len(self._waiting) >= self._window:
                self.flush()
        return later

    def _check_process(self) -> None:
        if self._process != os.getpid():
            raise JudyError("this pipeline belongs to the parent process, which sends its calls: make one in the child")
