"""A pool of clients for asyncio."""

import asyncio
from collections import deque
from contextlib import asynccontextmanager
from typing import AsyncIterator, Deque

from .aioclient import Client
from .pool import AnyPool


class Pool(AnyPool[Client]):
    """Up to `size` clients of one tenant, each with a connection and a log-in of its own:

        async with aio.Pool("/run/judyd/socket", 8, "alice", "abc") as pool:
            async with pool.client() as client:
                await client.judy1("ids").set(5)

    Tasks may share one client, so a pool is for those that hold the speaker or fill the connection. A
    block has its client to itself. If all are in use, `client()` waits up to `wait` seconds for one, in
    its turn, and then raises `PoolEmpty`; with None it waits without a limit. A lost connection is not
    given out again. It is for one event loop.
    """

    _client_type = Client
    _shown = "aio.Pool"

    def _reset(self) -> None:
        super()._reset()
        self._turns: Deque["asyncio.Future[None]"] = deque()

    async def __aenter__(self) -> "Pool":
        return self

    async def __aexit__(self, *_: object) -> None:
        await self.close()

    @asynccontextmanager
    async def client(self) -> AsyncIterator[Client]:
        """A client for a block, logged in."""
        await self._place_taken()
        try:
            client = await self._taken()
            log_in = client._log_in
            try:
                yield client
            finally:
                if self._is_closed or client._log_in != log_in or client._link is None or not client._link.is_open:
                    await client.close()
                else:
                    self._idle.append(client)
        finally:
            self._give_back()

    async def close(self) -> None:
        """Closes the clients. One that is in use is closed at the end of its block."""
        self._is_closed = True
        idle, self._idle = self._idle, []
        for client in idle:
            await client.close()
        for turn in self._turns:
            turn.set_exception(self._closed_error())
        self._turns.clear()

    async def _taken(self) -> Client:
        """A client that is idle, or a new one."""
        while self._idle:
            client = self._idle.pop()
            if client._link is not None and client._link.is_open:
                return client
            await client.close()
        client = self._made()
        try:
            return await client.auth(self._name, self._token)
        except BaseException:
            await client.close()
            raise

    async def _place_taken(self) -> None:
        """Waits until one more client may be in use."""
        if self._is_closed:
            raise self._closed_error()
        if self._used < self._size:
            self._used += 1
            return
        turn: "asyncio.Future[None]" = asyncio.get_running_loop().create_future()
        self._turns.append(turn)
        try:
            await asyncio.wait([turn], timeout=self._wait)
        except asyncio.CancelledError:
            if turn.done() and turn.exception() is None:
                self._give_back()
            self._forget(turn)
            raise
        if not turn.done():
            self._forget(turn)
            raise self._empty_error()
        turn.result()

    def _forget(self, turn: "asyncio.Future[None]") -> None:
        if turn in self._turns:
            self._turns.remove(turn)

    def _give_back(self) -> None:
        """Gives the place of a client to the next block that waits."""
        if self._turns:
            self._turns.popleft().set_result(None)
        else:
            self._used -= 1
