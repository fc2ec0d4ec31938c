"""Who is let in, and what gets through to files and to the session. No browser is needed."""

import asyncio
import json
import time
from typing import Any

import aiohttp
import pytest

import traces
from browser import Json
from comparing import same
from servers import status
from stage import LATE, PATIENCE, Screen, Socket, Stage, keyed, logged


async def test_a_port_that_is_taken(program: str) -> None:
    traces.write("trace", traces.COUNT)
    async with Screen(program, "trace", "log") as screen:
        try:
            async with Screen(program, "trace", "log", "--client", "2", "--port", str(screen.port)):
                raise RuntimeError("two screens have one port")
        except AssertionError as why:
            same(str(why), f"screen: port {screen.port} is taken\n")


@pytest.fixture
def screen(stage: Stage, runner: asyncio.Runner) -> Screen:
    """A screen of the small trace."""
    traces.write("trace", traces.COUNT)
    return runner.run(stage.screen())


async def code(screen: Screen, path: str = "/", method: str = "GET", body: bytes | None = None, **headers: str) -> int:
    return (await status(screen.port, path, method, body, **headers))[0]


async def test_another_host_is_refused(screen: Screen) -> None:
    same(await code(screen), 200)
    same(await code(screen, Host=f"localhost:{screen.port}"), 200)
    for host in ("evil.example", f"evil.example:{screen.port}", "127.0.0.1", f"127.0.0.2:{screen.port}", ""):
        same(await code(screen, Host=host), 421)
        same(await code(screen, "/app.js", Host=host), 421)


EVIL = "http://evil.example"


async def test_another_origin_is_refused(screen: Screen) -> None:
    ticket = screen.ticket.encode()
    for origin in (EVIL, "null", f"http://localhost:{screen.port}", f"https://127.0.0.1:{screen.port}"):
        same(await code(screen, Origin=origin), 403)
        same(await code(screen, "/enter", "POST", ticket, Origin=origin), 403)
    same(await code(screen, "/enter", "POST", ticket), 403)  # none is named
    for site in ("cross-site", "same-site"):
        same(await code(screen, Sec_Fetch_Site=site), 403)
    same(await code(screen, "/enter", "POST", ticket, Origin=screen.base), 200)


async def test_a_ticket_opens_once(screen: Screen) -> None:
    ticket = screen.ticket.encode()
    for wrong in (b"", b"wrong", ticket[:-1], ticket + b"x", b"x" * 900, b"\xff" * 8):
        same(await code(screen, "/enter", "POST", wrong, Origin=screen.base), 403)
    assert await code(screen, "/enter", "POST", b"x" * 5000, Origin=screen.base) in (403, 413)
    first, answer = await status(screen.port, "/enter", "POST", ticket, Origin=screen.base)
    same(first, 200)
    assert len(answer.rsplit(b"\r\n", 1)[1]) > 40
    same(await code(screen, "/enter", "POST", ticket, Origin=screen.base), 403)


async def closed_with(client: aiohttp.ClientSession, screen: Screen, first: str) -> int | None:
    """The code with which the socket is closed where this is its first message, if that is not too late."""
    code: int | None = LATE
    while code == LATE:
        socket = await client.ws_connect(screen.base.replace("http", "ws") + "/ws", origin=screen.base)
        await socket.send_str(first)
        answer = await socket.receive(timeout=PATIENCE)
        assert answer.type in (aiohttp.WSMsgType.CLOSE, aiohttp.WSMsgType.CLOSED), answer
        code = socket.close_code
    return code


async def test_a_socket_needs_the_key_and_the_origin(screen: Screen) -> None:
    async with aiohttp.ClientSession() as client:
        for origin in (None, EVIL, "null"):
            try:
                await client.ws_connect(screen.base.replace("http", "ws") + "/ws", origin=origin)
                raise AssertionError(f"{origin} was let in")
            except aiohttp.WSServerHandshakeError as why:
                same(why.status, 403)
        for wrong in ("", "wrong", screen.ticket, json.dumps({"id": 1, "do": "hello"})):
            same(await closed_with(client, screen, wrong), 4403)


async def is_full(client: aiohttp.ClientSession, screen: Screen) -> bool:
    """Whether there is no room for one more socket."""
    try:
        await client.ws_connect(screen.base.replace("http", "ws") + "/ws", origin=screen.base)
    except aiohttp.WSServerHandshakeError as why:
        same(why.status, 503)
        return True
    return False


async def drained(socket: aiohttp.ClientWebSocketResponse) -> None:
    """Reads what comes, so that the server's look whether this end is there is answered."""
    async for _ in socket:
        pass


async def let_in(client: aiohttp.ClientSession, screen: Screen) -> aiohttp.ClientWebSocketResponse:
    """A socket, as soon as there is room for one."""
    end = time.monotonic() + PATIENCE
    while time.monotonic() < end:
        try:
            return await client.ws_connect(screen.base.replace("http", "ws") + "/ws", origin=screen.base)
        except aiohttp.WSServerHandshakeError as why:
            same(why.status, 503)
            await asyncio.sleep(0.05)
    raise AssertionError("there is no room")


async def test_no_more_than_sixteen_sockets(screen: Screen) -> None:
    async with Socket(screen) as socket:
        more, reading = [], [asyncio.ensure_future(drained(socket.socket))]
        for _ in range(15):
            more.append(await keyed(socket.client, screen, socket.key))
            reading.append(asyncio.ensure_future(drained(more[-1])))
        same(await is_full(socket.client, screen), True)
        reading.pop().cancel()
        await more.pop().close()
        await (await let_in(socket.client, screen)).close()
        await (await keyed(socket.client, screen, socket.key)).close()
        for task in reading:
            task.cancel()


# So often sixteen sockets are opened at once, until they are all open at a time.
ROUNDS = 60


async def test_who_names_no_key_shuts_nobody_out(screen: Screen) -> None:
    """Sixteen sockets that name no key take all room, until each is closed."""
    async with aiohttp.ClientSession() as client:
        for _ in range(ROUNDS):  # a slow machine may come to the seventeenth when the first was closed
            waiting = await asyncio.gather(*[let_in(client, screen) for _ in range(16)])
            ends = [asyncio.ensure_future(one.receive(timeout=PATIENCE)) for one in waiting]
            was_full = await is_full(client, screen)
            await asyncio.gather(*ends)
            same({one.close_code for one in waiting}, {LATE})
            if was_full:
                break
        same(was_full, True)
        await (await let_in(client, screen)).close()
        async with Socket(screen) as socket:
            same((await socket.call(do="hello"))["events"], 17)


async def answer_of(socket: aiohttp.ClientWebSocketResponse) -> Json:
    """The next message that is no push."""
    while "push" in (message := json.loads((await socket.receive(timeout=PATIENCE)).data)):
        pass
    return message


async def test_long_and_broken_messages(screen: Screen) -> None:
    async with Socket(screen) as socket:
        for text in ("[" * 40_000, "not json", "[]", "7", "null", '{"do": 7}', '{"id": {}, "do": "__init__"}', "{}"):
            await socket.socket.send_str(text)
            answer = await answer_of(socket.socket)
            assert "mistake" in answer, answer
        same((await socket.call(do="hello"))["events"], 17)
        await socket.socket.send_str(json.dumps({"id": 1, "do": "hello", "more": "x" * (1 << 16)}))
        while (await socket.socket.receive(timeout=PATIENCE)).type == aiohttp.WSMsgType.TEXT:
            pass
        same(socket.socket.close_code, 1009)
    same(await code(screen), 200)


async def test_paths_that_escape(screen: Screen) -> None:
    for path in (
        "/../screen",
        "/%2e%2e/screen",
        "/..%2fscreen",
        "/index.html.bak",
        "/static/../screen",
        "/.",
        "//etc/passwd",
        "/screen_app/server.py",
        "/%00",
        "/app.js%00.css",
        "/..%5cscreen",
        "/index.html",
    ):
        assert await code(screen, path) in (400, 404), path
    same(await code(screen, "/app.js"), 200)


async def test_every_answer_has_its_headers(screen: Screen) -> None:
    for path in ("/", "/app.js", "/none"):
        _, answer = await status(screen.port, path)
        head = answer.split(b"\r\n\r\n")[0].decode()
        for part in (
            "default-src 'self'; object-src 'none'; base-uri 'none'; form-action 'none'; frame-ancestors 'none'; "
            "require-trusted-types-for 'script'; trusted-types 'none'\r\n",
            "nosniff",
            "no-referrer",
            "X-Frame-Options: DENY",
            "Cross-Origin-Resource-Policy: same-origin",
            "Cross-Origin-Opener-Policy: same-origin",
            "no-store",
        ):
            assert part in head, (path, part, head)
        assert "\nServer:" not in head


BAD: list[dict[str, Any]] = [
    dict(do="nothing"),
    dict(do="_send"),
    dict(do="new", name="A\nundo"),
    dict(do="new", name="A ; drop B"),
    dict(do="new", name=""),
    dict(do="new", name="x" * 65),
    dict(do="new", name=["A"]),
    dict(do="new", name="A\n"),
    dict(do="add", name="A", event="3 ; new B"),
    dict(do="add", name="A", event=-1),
    dict(do="add", name="A", event=True),
    dict(do="add", name="A", event=1.5),
    dict(do="undo", entries=["1\nnew X"]),
    dict(do="undo", entries="7"),
    dict(do="branch", name="A", length="1 B\nnew", to="C"),
    dict(do="branch", name="A", length=1, to="B\nnew C"),
    dict(do="adopt", name="A", proposal="0\nnew B"),
    dict(do="propose", view={"schedule": "A"}, pair=["1\nnew B", 2]),
    dict(do="source", place=7, around=1),
    dict(do="view", view={"schedule": "../x"}, count=10),
    dict(do="view", view=7),
    dict(do="view", view={"witness": ["1\nnew B", 2]}, count=10),
    dict(do="run", name="A"),
    dict(do="run", name="A", until=10**12),
    dict(do="swap", name="A", position=0, by=10**9),
    dict(do="swap", name="A", position=0, by="1"),
    dict(do="witness", pair=[0, 10**12]),
    dict(do="witness", pair="--script"),
    dict(do="explain", pair=["--all", 1]),
    dict(do="ahead", name="A", thread=999, **{"from": 0}, count=1),
    dict(do="frontier", name="A", aim=[1, 10**9]),
    dict(do="seen", log_length=10**9),
    dict(do="feed", **{"from": 0}, count="x"),
    dict(do="enter", name="B", view={"witness": [1, 2]}),
]


async def test_nothing_is_smuggled_into_the_session(screen: Screen) -> None:
    async with Socket(screen) as socket:
        same((await socket.call(do="new", name="A"))["answer"], "0: done")
        for bad in BAD:
            answer = await socket.call(**bad)
            assert "mistake" in answer or answer.get("answer", "").startswith("refused"), (bad, answer)
        same(await socket.call(do="source", place="../../../etc/passwd:1", around=3), {"none": True, "id": 1})
        same(logged(), ["1 new A"])
        same((await socket.call(do="add", name="A", event=0))["answer"], "1: done")
        same(logged(), ["1 new A", "1 add A 0"])
