"""`judy backup`: a dump of each tenant of a list. Each is whole and on the disk, or as before.

    # tenant  token  arrays
    alice     look   J1:ids JL:hits JHS:keys
    bob       hello  --all

A row has a tenant, its token (the read-only one is enough) and its arrays, or --all for all that have
entries. Under --empty an array that is named may have no entries. The dump of alice is alice.dump, and the one
before it alice.dump.1.
"""

import fcntl
import os
from contextlib import contextmanager
from dataclasses import dataclass
from typing import Callable, Iterator, List, Tuple

from .client import Client
from .copies import ArrayName, all_arrays, read_name
from .dumpfile import replaced, write_all
from .errors import Closed, Error, NotAuthorized
from .fields import name_field, used_of
from .session import complain, reason
from .transfer import dump_all
from .wire import Wire


@dataclass
class Row:
    """A tenant of the list. Without arrays, all that have entries are dumped."""

    tenant: str
    token: str
    arrays: List[ArrayName]
    may_be_empty: bool


@dataclass
class Server:
    """How to make a connection that is logged in."""

    wire: Callable[[str, str], Wire]
    client: Callable[[str, str], Client]


def row_of(line: str) -> Row:
    """The row of a line. Raises ValueError with what is wrong, without the token."""
    tenant, *rest = line.split()
    name_field(tenant)
    if len(rest) < 2:
        raise ValueError("a row is TENANT TOKEN ARRAY.., or --all instead of arrays")
    token, *words = rest
    flags, names = [word for word in words if word.startswith("--")], [word for word in words if not word.startswith("--")]
    unknown = [flag for flag in flags if flag not in ("--all", "--empty")]
    if unknown or ("--all" in flags) == bool(names):
        raise ValueError("%s: arrays as J1:ids, or --all, and --empty if one may have no entries" % (unknown or [tenant])[0])
    return Row(tenant, token, [read_name(name) for name in names], "--empty" in flags)


def rows_in(path: str) -> Tuple[List[Row], List[str]]:
    """The rows of a list, and what is wrong with its other lines."""
    rows, faults, seen = [], [], set()
    with open(path, encoding="utf-8", errors="replace") as file:
        for number, line in enumerate(file, 1):
            if not line.strip() or line.lstrip().startswith("#"):
                continue
            try:
                row = row_of(line)
                if row.tenant in seen:
                    raise ValueError("%s is there twice" % row.tenant)
                seen.add(row.tenant)
                rows.append(row)
            except ValueError as e:
                faults.append("%s, line %d: %s" % (path, number, e))
    if not rows and not faults:
        faults.append("%s names no tenant" % path)
    return rows, faults


@contextmanager
def alone(folder: str) -> Iterator[None]:
    """No other backup runs in the folder meanwhile. What a killed one left half-done is removed."""
    number = os.open(folder, os.O_RDONLY | os.O_DIRECTORY)
    try:
        try:
            fcntl.flock(number, fcntl.LOCK_EX | fcntl.LOCK_NB)
        except BlockingIOError:
            raise Error("another judy backup runs in %s" % folder) from None
        for name in os.listdir(folder):
            if name.startswith(".") and ".dump." in name and name.endswith(".part"):
                os.unlink(os.path.join(folder, name))
        yield
    finally:
        os.close(number)


def dump_of(server: Server, row: Row, path: str) -> str:
    """Dumps a tenant, and returns a line with how many of its entries the dump has."""
    may_be_empty = row.may_be_empty or not row.arrays  # an array that is not named may go meanwhile
    with server.wire(row.tenant, row.token) as wire, replaced(path, path + ".1") as file:
        empty, count = dump_all(wire, row.arrays or all_arrays(wire), may_be_empty, lambda data: write_all(file, data))
        if empty and not may_be_empty:
            raise Error("nothing under %s" % ", ".join(map(str, empty)))
        if count == 0:
            raise Error("it has no entries")
        used = used_of(wire.ask(b"USED\n", 1)[:-1]).used
    return "%s: %d entries of %d" % (row.tenant, count, used)


def backup(server: Server, path: str, folder: str) -> int:
    """Dumps each tenant of a list into a folder, and returns the status. If one fails, the others are
    dumped all the same."""
    rows, faults = rows_in(path)
    failed, told = [], []
    for fault in faults:
        complain(fault)
    with alone(folder):
        for row in rows:
            file = os.path.join(folder, row.tenant + ".dump")
            try:
                told.append(dump_of(server, row, file))
            except (Closed, Error, OSError, ValueError) as e:
                why = "the server does not know this tenant and token" if isinstance(e, NotAuthorized) else reason(e)
                complain("%s: %s; %s" % (row.tenant, why, file + " stays as it was" if os.path.exists(file) else "it has no dump"))
                failed.append(row.tenant)
    if failed or faults:
        complain("%d of %d rows failed%s" % (len(failed) + len(faults), len(rows) + len(faults), ": " + ", ".join(failed) if failed else ""))
    for line in told:
        print(line)
    return 1 if failed or faults else 0
