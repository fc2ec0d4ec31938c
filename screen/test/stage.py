"""What the tests need: a screen that is started, its socket, and what its page and its log have."""

from __future__ import annotations

import asyncio
import contextlib
import itertools
import json
import os
import re
from collections.abc import Callable
from typing import Any, TypeVar

import aiohttp
import traces
from browser import HEIGHT, WIDTH, Browser, Page
from comparing import same, within

T = TypeVar("T")

SCREEN = os.path.join(os.path.dirname(os.path.dirname(os.path.abspath(__file__))), "screen")
HEAD = 81
# How long what takes seconds may take, and a process after a request to end.
PATIENCE, GRACE = 600, 300
# With this code a socket is closed that named no key in time.
LATE = 4408

NEXT = "document.querySelectorAll('#next-list .next').length"
ROWS = "document.querySelectorAll('#space .row').length"
SAID = "document.getElementById('said').textContent"
SAYINGS = "(document.getElementById('said').dataset.n ?? '')"
LENGTH = "document.querySelector('#bar .line > .dim')?.textContent"
TITLE = "!!document.getElementById('title').textContent"
FRAMES = "new Promise((done) => requestAnimationFrame(() => requestAnimationFrame(() => setTimeout(done))))"
# Whether a page has this many entries, does no step and waits for no answer, and whether that is so two frames later.
SETTLED = (
    "(async () => {{ const [net, queue, words] = await Promise.all(['net', 'queue', 'words']"
    ".map((name) => import(`/${{name}}.js`))); const is = () => words.state.title && "
    "words.state.logLength === {entries} && !queue.isBusy() && !net.isWaiting(); "
    "if (!is()) return false; await " + FRAMES + "; return is(); }})()"
)
ORDER = (
    "[...document.querySelectorAll('#space .row')].sort((a, b) => a.dataset.p - b.dataset.p)"
    ".map((r) => r.querySelector('.event').textContent).join(' ')"
)


class Screen:
    """A process `screen`, its link and its port."""

    def __init__(self, program: str, trace: str, log: str, *arguments: str) -> None:
        self.has_page = False
        self.arguments = ["/usr/bin/python3", SCREEN, trace, log, *arguments, "--program", program]

    async def __aenter__(self) -> Screen:
        pipe = asyncio.subprocess.PIPE
        self.process = await asyncio.create_subprocess_exec(
            *self.arguments, stdin=asyncio.subprocess.DEVNULL, stdout=pipe, stderr=pipe
        )
        assert self.process.stdout and self.process.stderr
        self.errors = asyncio.ensure_future(self.process.stderr.read())  # so that it never waits for a reader
        try:
            self.link = (await within(PATIENCE, self.process.stdout.readline())).decode().strip()
        except asyncio.TimeoutError:
            self.process.kill()
            raise
        if not self.link:
            raise AssertionError((await self.errors).decode())
        self.base, self.ticket = self.link.split("/#")
        self.port = int(re.findall(r":(\d+)/", self.link)[0])
        return self

    async def __aexit__(self, *_: object) -> None:
        if self.process.returncode is None:
            self.process.terminate()
        try:
            await within(GRACE, self.process.wait())
        except asyncio.TimeoutError:
            self.process.kill()
            raise
        errors = (await self.errors).decode()
        if self.has_page:  # what a page asks for is never a bad request
            assert "bad request" not in errors and "Traceback" not in errors, errors


async def keyed(client: aiohttp.ClientSession, screen: Screen, key: str) -> aiohttp.ClientWebSocketResponse:
    """A socket that named the key. A slow machine may do so too late, and then tries again, as the page does."""
    while True:
        socket = await client.ws_connect(screen.base.replace("http", "ws") + "/ws", origin=screen.base, max_msg_size=0)
        await socket.send_str(key)
        await socket.send_str('{"id": 0, "do": "nothing"}')
        while (message := await socket.receive()).type == aiohttp.WSMsgType.TEXT:
            if json.loads(message.data).get("id") == 0:
                return socket
        same(socket.close_code, LATE)


class Socket:
    """The page's socket, without a page."""

    def __init__(self, screen: Screen) -> None:
        self.screen = screen

    async def __aenter__(self) -> Socket:
        self.client = aiohttp.ClientSession()
        origin = {"Origin": self.screen.base}
        answer = await self.client.post(self.screen.base + "/enter", data=self.screen.ticket.encode(), headers=origin)
        assert answer.status == 200, answer.status
        self.key = await answer.text()
        self.socket = await keyed(self.client, self.screen, self.key)
        return self

    async def call(self, **request: object) -> dict[str, Any]:
        """The answer to a request; screen_app/messages.py has its keys."""
        await self.socket.send_str(json.dumps({"id": 1, **request}))
        while True:
            answer: dict[str, Any] = json.loads((await self.socket.receive()).data)
            if answer.get("id") == 1:
                return answer

    async def __aexit__(self, *_: object) -> None:
        await self.socket.close()
        await self.client.close()


class Stage:
    """What a test starts: screens, and pages of the browser that all tests share. They end with the test."""

    def __init__(self, program: str) -> None:
        self.program = program
        self.exits = contextlib.AsyncExitStack()
        self.browser: Browser | None = None

    async def screen(self, *arguments: str, program: str | None = None) -> Screen:
        """Starts a screen of the trace and the log that are in the folder of the test."""
        return await self.exits.enter_async_context(Screen(program or self.program, "trace", "log", *arguments))

    async def page(
        self, link: str, width: int = WIDTH, height: int = HEIGHT, dark: bool = False, script: str = ""
    ) -> Page:
        """Opens a page, which runs the script before its own code."""
        if self.browser is None:
            self.browser = await self.exits.enter_async_context(Browser())
        return await self.browser.page(link, width, height, dark, script)

    async def opened(self, trace: str | None = None, *arguments: str, script: str = "") -> tuple[Screen, Page]:
        """Writes a trace, unless it is there, starts a screen and opens its link."""
        if trace is not None:
            traces.write("trace", trace)
        screen = await self.screen(*arguments)
        return screen, await self.page(screen.link, script=script)

    async def end(self) -> None:
        await self.exits.aclose()


async def comes(condition: Callable[[], T], seconds: int = PATIENCE) -> T:
    """Waits until a condition outside the page holds, and gives its value."""
    loop = asyncio.get_running_loop()
    end = loop.time() + seconds
    while not (got := condition()):
        assert loop.time() < end, f"not within {seconds} s"
        await asyncio.sleep(0.02)
    return got


def logged() -> list[str]:
    """The calls in the log: its lines up to the first whose gate is closed. What a killed session left after that does
    not count, though each of its other lines has an open gate."""
    with open("log", "rb") as file:
        lines = file.read()[HEAD:].split(b"\n")
    return [line[1:].decode() for line in itertools.takewhile(lambda line: line.startswith(b" "), lines)]


async def focus(page: Page, name: str) -> None:
    await page.run(f"document.getElementById('{name}').focus()")


def entries() -> int:
    """How many entries the log has; none before the program makes it."""
    return len(logged()) if os.path.exists("log") else 0


async def settled(*pages: Page) -> None:
    """Waits until each page shows the whole log, no step is under way, and no answer has to come.

    Another analyst's step reaches a page in parts: the length of a schedule, its rows and what may come next are drawn
    one after another. A key or a click that comes in between is for what is drawn at that moment.
    """
    for page in pages:
        await page.until(lambda: SETTLED.format(entries=entries()), what="all entries, and no answer to come")


async def press(page: Page, *keys: str) -> None:
    """Presses keys one after another, each on a page that is settled, and waits until all that they do is drawn."""
    for key in keys:
        await settled(page)
        await press_at_once(page, key)
    await settled(page)


async def press_at_once(page: Page, key: str, modifiers: int = 0) -> None:
    """Presses a key, though news or answers may have to come, and waits for the answer to it."""
    before = await page.run(SAYINGS)
    await page.key(key, modifiers)
    try:
        await page.until(f"{SAYINGS} !== {json.dumps(before)}", what=f"an answer to {key}")
    except AssertionError as why:
        pressed = await page.run(
            f"document.activeElement?.id + ' | ' + {SAID} + ' | ' + "
            "(document.querySelector('#next-list .on')?.textContent ?? 'none chosen')"
        )
        raise AssertionError(f"{why}; {pressed}") from why


async def new(page: Page, threads: int, name: str | None = None) -> None:
    """Makes a schedule by the key, and waits until it is open and this many threads have a next event."""
    await settled(page)
    await page.key("n")
    await page.until("document.getElementById('ask').open")
    if name:
        await page.run("document.getElementById('ask-input').select()")
        await page.type(name)
    await page.key("Enter")
    await settled(page)
    await page.until(f"{NEXT} === {threads}")
    await focus(page, "next-list")


def is_clean(page: Page, screen: Screen) -> None:
    """Nothing went wrong in the page, and it asked nobody else for anything."""
    same(page.faults, [])
    own = (f"http://127.0.0.1:{screen.port}/", f"ws://127.0.0.1:{screen.port}/")
    same([url for url in page.requests if not url.startswith(own)], [])
    assert page.requests, "the page asked for nothing"
    screen.has_page = True
