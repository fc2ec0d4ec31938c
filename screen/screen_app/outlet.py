"""What is sent to one browser, in the order in which it was said."""

from __future__ import annotations

import asyncio
import json
from collections.abc import Mapping

from aiohttp import web


# How long a browser has to take a message, in seconds, and how many may wait for that.
SLOW, MOST = 60, 1_000


class Outlet:
    """Sends what it is given, one after another, so nobody waits for a browser that takes nothing.

    The order matters: a step's entry of the log is sent before the step's answer, and the page acts on that.
    """

    def __init__(self, socket: web.WebSocketResponse, transport: asyncio.Transport | None) -> None:
        self.socket, self.transport = socket, transport
        self.queue: asyncio.Queue[str] = asyncio.Queue(MOST)
        self.writing = asyncio.ensure_future(self._write())

    def send(self, message: Mapping[str, object]) -> None:
        try:
            self.queue.put_nowait(json.dumps(message, separators=(",", ":")))
        except asyncio.QueueFull:
            self.let_go()

    async def _write(self) -> None:
        try:
            while True:
                text = await self.queue.get()
                async with asyncio.timeout(SLOW):  # `wait_for` may swallow that this task is cancelled
                    await self.socket.send_str(text)
        except (OSError, RuntimeError, asyncio.TimeoutError):
            self.let_go()

    def let_go(self) -> None:
        """Ends the connection. The page connects again when its browser is awake."""
        if self.transport:
            self.transport.abort()

    def stop(self) -> None:
        self.writing.cancel()
