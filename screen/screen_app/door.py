"""Connections: how many there may be, how long one may be silent, and what the answer to a wrong request is.

Whoever is on this machine can open connections, and each takes a number of a file. Without numbers no session starts.
"""

from __future__ import annotations

import asyncio
from typing import Any

from aiohttp import web

from .guard import HEADERS

# The most connections, and how long each has to ask for something, in seconds.
MOST, PATIENCE = 128, 10


class Connection(web.RequestHandler):
    def __init__(self, door: Door, manager: web.Server, loop: asyncio.AbstractEventLoop) -> None:
        super().__init__(manager, loop=loop, access_log=None)  # type: ignore[arg-type]
        self.door = door
        self.late = loop.call_later(PATIENCE / 2, self._wait_on)

    def _wait_on(self) -> None:
        """A machine that stood still may come to a request that is there after this."""
        self.late = asyncio.get_running_loop().call_later(PATIENCE / 2, self.force_close)

    def connection_made(self, transport: asyncio.BaseTransport) -> None:
        super().connection_made(transport)
        self.door.connections.add(self)
        if len(self.door.connections) > MOST:
            self.force_close()

    def connection_lost(self, exc: BaseException | None) -> None:
        self.late.cancel()
        self.door.connections.discard(self)
        super().connection_lost(exc)

    def has_asked(self) -> None:
        self.late.cancel()

    def handle_error(
        self,
        request: web.BaseRequest,
        status: int = 500,
        exc: BaseException | None = None,
        message: str | None = None,
    ) -> web.StreamResponse:
        """A request that cannot be read is answered as all others are, and the terminal stays quiet."""
        if status != 400:
            return super().handle_error(request, status, exc, message)
        response = web.Response(status=status, text="400: Bad Request", headers=HEADERS)
        response.headers["Server"] = "screen"
        response.force_close()
        return response


class Door:
    """Takes connections on one port of 127.0.0.1."""

    def __init__(self, runner: web.AppRunner) -> None:
        self.runner = runner
        self.connections: set[Connection] = set()

    def _connection(self) -> Connection:
        assert self.runner.server
        return Connection(self, self.runner.server, asyncio.get_running_loop())

    async def open(self, port: int) -> int:
        """Begins; gives the port, which was any if it was 0."""
        self.listening = await asyncio.get_running_loop().create_server(self._connection, "127.0.0.1", port)
        number: Any = self.listening.sockets[0].getsockname()[1]
        return int(number)

    async def close(self, grace: float) -> None:
        self.listening.close()
        if self.runner.server:
            await self.runner.server.shutdown(grace)
        await self.runner.cleanup()
