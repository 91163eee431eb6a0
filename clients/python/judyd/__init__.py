"""A client of judyd, the Judy array server. It needs Python 3.9 or later and nothing else.

    from judyd import Client, Full

    with Client("/run/judyd/socket").auth("alice", "abc") as client:
        ids = client.judy1("ids")           # a set of words
        ids.add(5)                          # or ids.set(5), the manual's name, which returns whether 5 was new
        5 in ids, len(ids), list(ids)       # True, 1, [5]
        ids.first_empty(0)                  # 0: the least id that is free
        ids.add_absent(0)                   # 0: now claimed; each of several clients gets an id of its own
        ids.ranks[:10]                      # the ten least ids
        list(ids.intersection("mine"))      # what this set shares with the one of another name

        counters = client.judyl("counters")  # words to words
        counters.add(7)                     # the new value; exact with any number of clients
        words = client.judysl("words", encoding="utf-8")  # strings to words, in the order of their bytes
        words["tree"] = 3
        words.next("tr")                    # ("tree", 3)

        with client.pipeline() as pipe:     # many lines in flight
            late = [pipe.judy1("ids").set(i) for i in range(1000)]
        sum(answer.result() for answer in late)

A call of the manual (Judy1Set, JudyLFirstEmpty, ..) is a method in lower case (`set`,
`first_empty`). A word is an int from 0 to MAX. A key is bytes, bytearray or memoryview, or a str if
the array has an encoding. A refusal of the server raises `Full`, `NoMemory`, `ReadOnly`, `Frozen`,
`JournalFull`, `NotAuthorized`, `TooManyClients`, `Syntax` or `Long`, all of them `Refused`; then
nothing has changed. A refusal that this client does not know is a plain `Refused`. `NoServer` means
that no server listens. A lost connection raises `ConnectionLost`, which says whether the call may
have run. With `reconnect=True` a client repeats lost calls that change nothing. A walk or an
`update` that meets a restarted server raises `Restarted`. All of these are a `JudyError`.

Threads may share a client, and a `Pool` gives each a connection of its own. A child process makes a
connection of its own after a fork. `judyd.aio` has a client for asyncio. A client waits at most 30
seconds (`timeout`) for a reply. A line is atomic: what is done in one call is exact with any number
of clients, and between two lines others may come.
"""

from .client import TIMEOUT, Client, Visitor
from .errors import (
    Closed, ConnectionLost, Error, Frozen, Full, JournalFull, JudyError, KeyTooLong, Long, NoMemory, NoServer, NotAuthorized, PoolEmpty, ReadOnly,
    Refused, Restarted, Syntax, TimedOut, TooManyClients,
)  # fmt: skip
from .fields import MAX, Hello, Shared, Used
from .late import Later
from .maps import JudyHS, JudyL, JudySL
from .names import NamedArray
from .pipeline import Pipeline
from .pool import Pool
from .retry import IDEMPOTENT, QUERIES, Retry
from .sets import Judy1

__all__ = [
    "MAX", "TIMEOUT", "QUERIES", "IDEMPOTENT", "Retry", "Client", "Visitor", "Pool", "Pipeline", "Later", "Used", "NamedArray", "Hello", "Shared", "Judy1", "JudyL", "JudySL", "JudyHS",
    "JudyError", "Error", "Closed", "NoServer", "ConnectionLost", "TimedOut", "Restarted",
    "PoolEmpty", "Refused", "Full", "NoMemory", "ReadOnly", "Frozen", "JournalFull", "NotAuthorized", "TooManyClients", "Syntax", "Long", "KeyTooLong",
]  # fmt: skip
__version__ = "1.0.0"
