"""Parts of the server in the process of the tests, without a page."""

import asyncio
from collections.abc import Mapping
from typing import Any

import traces
from screen_app import outlet, server
from screen_app.bench import Bench
from screen_app.source import Source
from screen_app.trace import Trace

# How long what has to come may take on a busy machine, in seconds.
PATIENCE = 600


class Heard(outlet.Outlet):
    """An outlet that keeps what is sent, and has no browser."""

    def __init__(self) -> None:
        self.messages: list[dict[str, Any]] = []

    def send(self, message: Mapping[str, object]) -> None:
        self.messages.append({**message})


def served(program: str) -> server.Server:
    """A server of the small trace."""
    traces.write("trace", traces.COUNT)
    bench = Bench(program, Trace("trace").read_at_once(), "log", 1)
    return server.Server(bench, Source(None), "trace")


async def bench_of(program: str, text: str) -> Bench:
    """What a screen of this trace asks the program with."""
    traces.write("trace", text)
    bench = Bench(program, Trace("trace").read_at_once(), "log", 1)
    await bench.open()
    bench.mirror.sync()
    return bench


async def status(
    port: int, path: str = "/", method: str = "GET", body: bytes | None = None, /, **headers: str
) -> tuple[int, bytes]:
    """The status of one request, whose path is sent as it is written."""
    reader, writer = await asyncio.open_connection("127.0.0.1", port)
    sent = {"Host": f"127.0.0.1:{port}", "Connection": "close", **headers}
    if body is not None:
        sent["Content-Length"] = str(len(body))
    head = "".join(f"{name.replace('_', '-')}: {value}\r\n" for name, value in sent.items())
    writer.write(f"{method} {path} HTTP/1.1\r\n{head}\r\n".encode() + (body or b""))
    answer = await reader.read()
    writer.close()
    return int(answer.split(b" ", 2)[1]), answer
