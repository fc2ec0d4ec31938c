"""Limits, so that nobody takes all room: connections, requests, what waits to be sent, links, windows."""

import asyncio
import contextlib
import json
from collections.abc import AsyncIterator

import aiohttp
import pytest
from aiohttp import web

import traces
from comparing import same, within
from screen_app import door, guard, outlet, server
from servers import PATIENCE, Heard, served, status
from sessions import session
from stage import Screen, Socket


@contextlib.asynccontextmanager
async def begun(program: str, **limits: float) -> AsyncIterator[server.Server]:
    """A server in this process, with other limits of its door."""
    kept = {name: getattr(door, name) for name in limits}
    for name, value in limits.items():
        setattr(door, name, value)
    screen = served(program)
    await screen.start(0)
    try:
        yield screen
    finally:
        for name, value in kept.items():
            setattr(door, name, value)
        await screen.stop()


async def opened(screen: server.Server) -> tuple[asyncio.StreamReader, asyncio.StreamWriter]:
    return await asyncio.open_connection("127.0.0.1", screen.guard.port)


async def is_closed(reader: asyncio.StreamReader) -> None:
    """Waits for the end of a connection."""
    with contextlib.suppress(ConnectionResetError):
        same(await within(PATIENCE, reader.read()), b"")


async def test_who_asks_for_nothing_is_let_go(program: str) -> None:
    """A connection that sends nothing, or half a request, is closed. One that asked stays."""
    async with begun(program, PATIENCE=0.5) as screen:
        silent = [await opened(screen) for _ in range(3)]
        silent[0][1].write(b"GET / HTTP/1.1\r\nHost: ")
        for reader, _ in silent:
            await is_closed(reader)
        same(len(screen.door.connections), 0)
    async with begun(program) as screen:
        reader, writer = await opened(screen)
        writer.write(f"GET / HTTP/1.1\r\nHost: 127.0.0.1:{screen.guard.port}\r\n\r\n".encode())
        assert (await within(PATIENCE, reader.readline())).startswith(b"HTTP/1.1 200"), "no page"
        (made,) = screen.door.connections
        same(made.late.cancelled(), True)
        for _, other in [*silent, (reader, writer)]:
            other.close()


async def test_no_more_connections_than_there_are_places(program: str) -> None:
    """Those that are there stay, and a place that is left is taken again."""
    async with begun(program, MOST=3) as screen:
        there = [await opened(screen) for _ in range(3)]
        while len(screen.door.connections) < 3:
            await asyncio.sleep(0.01)
        await is_closed((await opened(screen))[0])
        same(len(screen.door.connections), 3)
        there.pop()[1].close()
        while len(screen.door.connections) == 3:
            await asyncio.sleep(0.01)
        same((await status(screen.guard.port))[0], 200)
        for _, writer in there:
            writer.close()


async def test_a_ticket_that_does_not_come(program: str, monkeypatch: pytest.MonkeyPatch) -> None:
    """Who announces a ticket and sends none gets a message."""
    monkeypatch.setattr(server, "PATIENCE", 0.3)
    async with begun(program) as screen:
        here = f"127.0.0.1:{screen.guard.port}"
        reader, writer = await opened(screen)
        head = f"POST /enter HTTP/1.1\r\nHost: {here}\r\nOrigin: http://{here}\r\nContent-Length: 32\r\n\r\n"
        writer.write(head.encode())
        same((await within(PATIENCE, reader.readline())).split()[1], b"408")
        writer.close()


async def test_a_request_that_cannot_be_read(program: str) -> None:
    """It is answered with the headers of all answers, and the terminal says nothing of it."""
    traces.write("trace", traces.COUNT)
    async with Screen(program, "trace", "log") as screen:
        none: dict[str, str] = {}
        for path, headers in (("/" + "x" * 19_999, none), ("/", {"X": "y" * 99_999}), ("/", {"Y\x01": "z"})):
            code, answer = await status(screen.port, path, **headers)
            head = answer.split(b"\r\n\r\n")[0].decode()
            same(code, 400)
            for part in ("frame-ancestors 'none'", "nosniff", "Cross-Origin-Resource-Policy: same-origin"):
                assert part in head, (part, head)
            assert "aiohttp" not in head and "xxx" not in answer.decode(), answer
        screen.has_page = True  # then its terminal must be clean


async def test_a_socket_that_asks_without_end(program: str) -> None:
    """It is ended when more requests wait than a page has, and others are answered."""
    async with begun(program) as screen, aiohttp.ClientSession() as client:
        base = f"127.0.0.1:{screen.guard.port}"
        socket = await client.ws_connect(f"ws://{base}/ws", origin=f"http://{base}")
        await socket.send_str(screen.guard.key)
        with contextlib.suppress(ConnectionResetError):
            for number in range(server.ASKED + 1):  # none is answered until the trace is read
                await socket.send_str(json.dumps({"id": number, "do": "hello"}))
        while (message := await socket.receive(timeout=PATIENCE)).type == aiohttp.WSMsgType.TEXT:
            assert "push" in message.data, message
        same((await status(screen.guard.port))[0], 200)


async def test_requests_at_work_are_few(program: str, monkeypatch: pytest.MonkeyPatch) -> None:
    """The others of a socket wait for their turn."""
    screen = served(program)
    screen.requests.is_ready.set()
    room, ended, outlet = asyncio.Semaphore(2), asyncio.Event(), Heard()
    begun_ones: list[object] = []

    async def slow(request: object) -> dict[str, object]:
        begun_ones.append(request)
        await ended.wait()
        return {}

    monkeypatch.setattr(screen.requests, "do_slow", slow, raising=False)
    work = [asyncio.ensure_future(screen._answer(outlet, '{"id": 1, "do": "slow"}', room)) for _ in range(5)]
    for _ in range(20):
        await asyncio.sleep(0)
    same(len(begun_ones), 2)
    ended.set()
    await asyncio.gather(*work)
    same(len(begun_ones), 5)


class Deaf(web.WebSocketResponse):
    """A browser that takes nothing."""

    async def send_str(self, text: str, compress: bool | None = None) -> None:
        await asyncio.Event().wait()


class Connection(asyncio.Transport):
    """A connection that says whether it was ended."""

    is_ended = False

    def abort(self) -> None:
        self.is_ended = True


async def test_a_browser_that_takes_nothing(monkeypatch: pytest.MonkeyPatch) -> None:
    """Its connection is ended when too much waits for it, or when it takes too long for one message."""
    deaf = Connection()
    made = outlet.Outlet(Deaf(), deaf)
    for number in range(outlet.MOST):
        made.send({"log_length": number})
    same(deaf.is_ended, False)
    await asyncio.sleep(0)  # one is under way
    made.send({})
    same(deaf.is_ended, False)
    made.send({})
    same(deaf.is_ended, True)
    made.stop()
    monkeypatch.setattr(outlet, "SLOW", 0.1)
    deaf = Connection()
    made = outlet.Outlet(Deaf(), deaf)
    made.send({})
    await within(PATIENCE, made.writing)
    same(deaf.is_ended, True)


def test_links_that_were_never_opened() -> None:
    """Sixteen are good; an older one is good no longer."""
    keeper = guard.Guard()
    tickets = [keeper.link().split("#")[1] for _ in range(guard.TICKETS + 1)]
    same(len(set(tickets)), 17)
    same([keeper.spend(ticket) for ticket in tickets], [False] + [True] * 16)
    same([keeper.spend(ticket) for ticket in tickets], [False] * 17)


async def test_windows_have_a_most(program: str) -> None:
    """A larger request gets an answer with no more rows, entries, races or events to come than the limit."""
    lines = [f"T{at % 2}|w(a{at % 2})|{at % 2}.c:{at}\n" for at in range(600)]
    lines += [f"T{thread}|w(v{at})|{thread}.c:{at}\n" for thread in (2, 3) for at in range(210)]
    traces.write("trace", "".join(lines))
    await session(program, 2, "new A\n" + "".join(f"add A {event}\n" for event in range(500)))
    async with Screen(program, "trace", "log") as screen, Socket(screen) as socket:
        much = {"from": 0, "count": 10**9}
        view = await socket.call(do="view", view={"schedule": "A"}, **much)
        same((view["total"], len(view["rows"])), (500, 400))
        same(len((await socket.call(do="feed", **much))["entries"]), 300)
        same(len((await socket.call(do="hello"))["feed"]), 200)
        same(len((await socket.call(do="ahead", name="A", thread=2, **much))["events"]), 200)
        while (races := await socket.call(do="races", kinds=["race"], **much))["state"] == "searching":
            await asyncio.sleep(0.05)
        same((races["total"], len(races["blocks"])), (210, 200))
        for by in (65, -65):
            same(await socket.call(do="swap", name="A", position=300, by=by), {"mistake": "no such move", "id": 1})
