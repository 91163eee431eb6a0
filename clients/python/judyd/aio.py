"""A client for asyncio, with the same calls as `judyd.Client`, each with `await`.

    from judyd import aio

    async with aio.Client("/run/judyd/socket") as client:
        await client.auth("alice", "abc")
        ids = client.judy1("ids")
        await ids.set(5)
        await ids.update(range(1000))
        async for index in ids.walk():
            print(index)
        async with client.pipeline() as pipe:
            late = [pipe.judy1("ids").test(i) for i in range(1000)]
        sum(answer.result() for answer in late)

Many tasks may share a client, and `Pool` gives each a client of its own. Their lines go over one
connection, each at once, in the order of the calls; no task waits for the reply to another. At most
10,000 lines wait for their replies, and further calls wait to be sent. Each task gets its own reply.
A call is a coroutine: `asyncio.create_task(ids.set(5))`. A cancelled task may have made its call; its
reply is dropped, and no other task gets it. A cancelled opening closes its socket. A cancelled `auth`
closes the connection, so that no call goes to an unknown tenant: the log-in is the one before, on the
next connection.

If the oldest line has waited for `timeout` seconds and no byte has come meanwhile, every waiting call
raises `TimedOut`. Lines that are sent later do not extend this time. If the connection is lost, every
waiting call raises `ConnectionLost`, and so does each later call. With `reconnect=True` the next call
makes a connection and logs in again, and waits up to `timeout` seconds for a server that starts
again; lost calls that change nothing are repeated, and with `retry=IDEMPOTENT` also an `update` and
others whose result is not used (`help(judyd.Retry)`). A walk that meets a restarted server raises
`Restarted`.
"""

from .aioarrays import Judy1, JudyHS, JudyL, JudySL
from .aioclient import Client, Pipeline
from .aiopool import Pool

__all__ = ["Client", "Pool", "Pipeline", "Judy1", "JudyL", "JudySL", "JudyHS"]
