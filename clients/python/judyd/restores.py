"""`judy restore`: the arrays of dumps take the place of a tenant's, while its writers are kept out.

The server freezes the tenant: only a token that is made for this restore may change it. Lines of its other
clients that may change an array are refused with `ERR FROZEN`; those that only look are answered. At the
end the tenant is thawed, whatever happened.
"""

import fcntl
import hashlib
import os
import secrets
import signal
import time
from contextlib import contextmanager
from dataclasses import dataclass
from typing import Callable, Iterator, List, Optional, Set, Tuple, TypeVar

from . import metrics
from .backups import Server
from .client import Client
from .copies import ArrayName, all_arrays, check, open_input, read_name
from .dumpfile import Reader, is_regular, verify
from .errors import Closed, ConnectionLost, Error, JudyError, NoServer, NotAuthorized, TooManyClients, checked
from .fields import count_of, used_of
from .session import complain, reason
from .transfer import load_blocks
from .wire import Wire

PLACE_PATIENCE = 5
"""For how many seconds a restore waits until the tenant's other clients leave it a connection."""

T = TypeVar("T")


@dataclass
class Control:
    """The control socket of the server, and how many seconds it may take for an answer."""

    path: str
    seconds: Optional[float]


class Dump:
    """A whole dump. It is read more than once."""

    def __init__(self, path: str) -> None:
        self._file = open_input(path)
        self._name = path
        if not is_regular(self._file):
            raise ValueError("%s is no regular file: a restore reads a dump more than once" % path)
        whole = verify(self._file, path)
        self.arrays = [read_name(text) for text in whole.arrays]
        self.count = whole.count

    def blocks(self) -> Iterator[Tuple[int, bytes]]:
        """The lines of its entries, in blocks, each with the number of its first line."""
        os.lseek(self._file, 0, os.SEEK_SET)
        return Reader(self._file, self._name).blocks()


@contextmanager
def alone(control: Control) -> Iterator[None]:
    """No other restore runs at this server meanwhile: it would freeze the tenant for a token of its own."""
    try:
        folder = os.open(os.path.dirname(os.path.abspath(control.path)), os.O_RDONLY | os.O_DIRECTORY)
    except FileNotFoundError:
        raise NoServer("no server has made that socket (judyd serve --control %s)" % control.path) from None
    try:
        try:
            fcntl.flock(folder, fcntl.LOCK_EX | fcntl.LOCK_NB)
        except BlockingIOError:
            raise Error("another judy restore runs at %s" % control.path) from None
        yield
    finally:
        os.close(folder)


@contextmanager
def frozen(control: Control, tenant: str, token: str) -> Iterator[None]:
    """Only one token may change a tenant while the block runs. However the block ends, the tenant is thawed.
    If that fails too, a line reports it."""
    is_frozen = True
    try:
        try:
            metrics.freeze(control.path, tenant, hashlib.sha256(token.encode()).hexdigest(), control.seconds)
        except JudyError as e:
            is_frozen = isinstance(e, ConnectionLost)  # then it may be
            raise
        yield
    finally:
        if is_frozen:
            _thaw(control, tenant)


def _thaw(control: Control, tenant: str) -> None:
    """Thaws a tenant. No signal ends that."""
    for number in (signal.SIGINT, signal.SIGTERM, signal.SIGHUP):
        signal.signal(number, signal.SIG_IGN)
    try:
        metrics.thaw(control.path, tenant, control.seconds)
    except JudyError as e:
        complain("%s: %s is still frozen, if the server runs: judy thaw %s %s" % (reason(e), tenant, control.path, tenant))


def _in_place(make: Callable[[], T]) -> T:
    """A connection of the tenant, once its other clients leave a place for it."""
    until = time.monotonic() + PLACE_PATIENCE
    while True:
        try:
            return make()
        except TooManyClients:
            if time.monotonic() > until:
                raise Error("the tenant's clients have all of its connections: end one of them, and begin again") from None
        except NotAuthorized:
            raise Error("the server does not know the token of this restore: --control is the socket of another server, or the tenant was thawed") from None
        time.sleep(0.05)


class Restore:
    """A restore of a tenant that is frozen."""

    def __init__(self, server: Server, tenant: str, token: str, dumps: List[Dump]) -> None:
        self._server = server
        self._tenant = tenant
        self._token = token
        self._dumps = dumps
        self.is_connected, self.has_freed = False, False

    def run(self, is_all: bool) -> int:
        """Frees the arrays, loads the dumps, compares, and returns the status."""
        arrays = [array for dump in self._dumps for array in dump.arrays]
        with _in_place(lambda: self._server.wire(self._tenant, self._token)) as wire:
            self.is_connected = True
            self._check_quota(wire)
            if is_all:
                arrays = list(dict.fromkeys([*arrays, *all_arrays(wire)]))
            self._free(wire, arrays)
            if any(load_blocks(wire, dump.blocks(), dump.count) for dump in self._dumps):
                return 1
        with self._client() as client:
            return 1 if any([check(client, dump.blocks()) for dump in self._dumps]) else 0

    def _client(self) -> Client:
        return _in_place(lambda: self._server.client(self._tenant, self._token))

    def _check_quota(self, wire: Wire) -> None:
        """Raises Error if the dumps have more entries than the tenant may have at all."""
        quota, count = used_of(wire.ask(b"USED\n", 1)[:-1]).quota, sum(dump.count for dump in self._dumps)
        if count > quota:
            raise Error("%d entries to load, and the quota is %d" % (count, quota))

    def _free(self, wire: Wire, arrays: List[ArrayName]) -> None:
        for array in arrays:
            self.has_freed = True
            reply = wire.ask(b"%bFA %b\n" % (array.kind.encode(), array.name.encode()), 1)[:-1]
            print("%s: %d entries freed" % (array, count_of(checked(reply))), flush=True)


def _refuse_twice(dumps: List[Dump]) -> None:
    """Raises ValueError if two dumps have the same array."""
    seen: Set[ArrayName] = set()
    for array in (array for dump in dumps for array in dump.arrays):
        if array in seen:
            raise ValueError("two of the dumps have %s: restore one of them" % array)
        seen.add(array)


def restore(server: Server, control: Control, tenant: str, paths: List[str], is_all: bool) -> int:
    """Restores a tenant's arrays from dumps, all of which are first read to their ends. Returns the status."""
    dumps = [Dump(path) for path in paths]
    _refuse_twice(dumps)
    token = secrets.token_hex(32)
    going = Restore(server, tenant, token, dumps)
    status = 1
    try:
        with alone(control), frozen(control, tenant, token):
            status = going.run(is_all)
    except Closed as e:
        if not going.is_connected:
            raise
        complain(str(e))
    finally:
        if status and going.has_freed:
            complain("%s: its arrays are not as the dump has them; begin again" % tenant)
    return status
