"""A small client of Chromium's remote protocol: pages, keys, clicks, pictures."""

from __future__ import annotations

import asyncio
import base64
import contextlib
import json
import os
import re
import shutil
import tempfile
import time
from collections.abc import Callable
from typing import Any

import aiohttp
from comparing import within
from legend import Listener

# What JavaScript or the browser answers: any value of JSON.
Json = Any
WIDTH, HEIGHT = 1440, 900

KEYS = {
    "Enter": 13,
    "Backspace": 8,
    "Escape": 27,
    "ArrowUp": 38,
    "ArrowDown": 40,
    "ArrowLeft": 37,
    "ArrowRight": 39,
    "F6": 117,
    "Home": 36,
    "End": 35,
    "Tab": 9,
}
ALT, CONTROL, META, SHIFT = 1, 2, 4, 8
# A letter while the caps lock is on: it comes as a capital, and no key is held.
CAPS = 0
# How long a condition, an answer of the browser and its start may take, in seconds: a machine may be slow and busy.
PATIENCE, TRIES = 600, 3
# How often a press that hits something else, since the page moved, is made again.
PRESSES = 100
# How long what the mouse shows may take before it is moved there again, in seconds.
LOOK = 6
# So much time lies between the presses of a double click, in seconds.
DOUBLE = 0.05
# How long the browser has to end, in seconds.
GRACE = 60
# How long it has to close a page, in seconds. If it takes longer, the next test starts another browser.
CLOSING = 60
# The longest path of a folder in which the browser can make a socket: with the names in it 107 bytes are allowed.
SOCKET_FOLDER = 50
CRASHED = "the page ended: the browser ran out of memory, or failed"
# How much slower than it could a page works, so that tests are tried as on a slow machine; and up to how many
# milliseconds later than it could a message comes to the page.
SLOWER, LATER = float(os.environ.get("SLOWER", 1)), int(os.environ.get("LATER", 0))
# A press that hits something else than `aim` comes to nobody, and `struck` says so.
GUARD = """(() => {
  let stray = false;
  window.aim = null;
  const guard = (event) => {
    if (event.type === "pointerdown") {
      window.struck = !window.aim || window.aim.contains(event.target);
      stray = !window.struck;
    }
    if (!stray) return;
    event.stopImmediatePropagation();
    event.preventDefault();
  };
  for (const kind of ["pointerdown", "mousedown", "pointerup", "mouseup", "click", "dblclick"]) {
    addEventListener(kind, guard, true);
  }
})()"""
DELAY = f"""(() => {{
  Object.defineProperty(WebSocket.prototype, "onmessage", {{
    set(act) {{
      let before = Promise.resolve();
      this.addEventListener("message", (message) => {{
        const late = new Promise((done) => setTimeout(done, Math.random() * {LATER}));
        before = Promise.all([before, late]).then(() => act.call(this, message));
      }});
    }}, configurable: true,
  }});
}})()"""


def chromium() -> str:
    """Chromium itself; the script in /usr/bin starts it with more words."""
    return next(filter(os.path.exists, ("/usr/lib/chromium/chromium", "/usr/bin/chromium")))


def short_paths() -> dict[str, str]:
    """An environment for the browser, which makes a socket in the folder for temporary files: its path is short."""
    folder = tempfile.gettempdir()
    is_long = len(folder) > SOCKET_FOLDER and os.access("/tmp", os.W_OK | os.X_OK)
    return {**os.environ, "TMPDIR": "/tmp" if is_long else folder}


class Browser:
    """The browser of all tests. Leaving it closes its pages, and `end` the browser."""

    started: Browser | None = None
    process: asyncio.subprocess.Process
    errors: asyncio.StreamReader
    folder: str
    client: aiohttp.ClientSession
    socket: aiohttp.ClientWebSocketResponse
    drain: asyncio.Future[None]
    reader: asyncio.Future[None]
    number: int
    is_dead: bool
    waiting: dict[int, tuple[str | None, asyncio.Future[Json]]]
    pages: dict[str, Page]

    async def __aenter__(self) -> Browser:
        if Browser.started is not None and Browser.started.is_dead:
            await Browser.end()
        if Browser.started is None:
            await self._start()
            Browser.started = self
        return Browser.started

    async def __aexit__(self, *_: object) -> None:
        browser = Browser.started
        assert browser is not None
        for page in browser.pages.values():
            if not page.is_closed and not browser.is_dead:
                page.is_closed = True
                try:
                    closed = browser.call("Target.disposeBrowserContext", browserContextId=page.context)
                    await asyncio.wait_for(closed, CLOSING)
                except asyncio.TimeoutError:
                    return await Browser.end()

    async def _start(self) -> None:
        """Starts the browser; a slow machine may need more than one try."""
        for number in range(TRIES):
            try:
                return await asyncio.wait_for(self._start_once(), PATIENCE)
            except (asyncio.TimeoutError, OSError, aiohttp.ClientError):
                await self._stop()
                if number == TRIES - 1:
                    raise

    async def _stop(self) -> None:
        """Ends the process and removes its folder. Its own processes may have its pipe for longer than it lives."""
        for end in (self.process.terminate, self.process.kill):
            if self.process.returncode is None:
                end()
            with contextlib.suppress(asyncio.TimeoutError):
                await asyncio.wait_for(self.process.wait(), GRACE)
                break
        shutil.rmtree(self.folder, ignore_errors=True)

    async def _start_once(self) -> None:
        self.folder = tempfile.mkdtemp(prefix="chromium-")
        self.process = await asyncio.create_subprocess_exec(
            chromium(),
            "--headless=new",
            "--no-sandbox",
            "--disable-gpu",
            "--no-first-run",
            "--disable-dev-shm-usage",
            # A mouse is there: a pointer that is fine, and that hovers.
            "--blink-settings=primaryHoverType=2,availableHoverTypes=2,primaryPointerType=4,availablePointerTypes=4",
            "--disable-background-timer-throttling",
            "--disable-renderer-backgrounding",
            "--remote-debugging-port=0",
            f"--user-data-dir={self.folder}",
            "about:blank",
            stdout=asyncio.subprocess.DEVNULL,
            stderr=asyncio.subprocess.PIPE,
            env=short_paths(),
        )
        assert self.process.stderr
        self.errors = self.process.stderr
        address = None
        while not address:
            line = (await self.errors.readline()).decode()
            if not line:
                raise ConnectionResetError("the browser ended at its start")
            address = re.search(r"ws://\S+", line)
        self.drain = asyncio.ensure_future(self._drain())
        self.client = aiohttp.ClientSession()
        self.socket = await self.client.ws_connect(address[0], max_msg_size=0)
        self.number, self.waiting, self.pages, self.is_dead = 0, {}, {}, False
        self.reader = asyncio.ensure_future(self._read())

    async def _drain(self) -> None:
        while await self.errors.read(4096):
            pass

    async def _read(self) -> None:
        try:
            async for message in self.socket:
                parsed = json.loads(message.data)
                if "id" in parsed:
                    self._settle(parsed["id"], parsed)
                elif parsed.get("sessionId") in self.pages:
                    self.pages[parsed["sessionId"]].take(parsed["method"], parsed["params"])
        finally:
            self.is_dead = True
            self.fail("the browser ended")

    def _settle(self, number: int, message: Json) -> None:
        if number in self.waiting:
            _, future = self.waiting.pop(number)
            if not future.done():  # else nobody waits for it any longer
                future.set_result(message)

    def fail(self, why: str, session: str | None = None) -> None:
        """What waits for an answer, of one page or of all, gets none."""
        for asked, future in self.waiting.values():
            if session in (None, asked) and not future.done():
                future.set_exception(ConnectionResetError(why))

    async def call(self, method: str, session: str | None = None, **params: object) -> Json:
        if self.is_dead:
            raise ConnectionResetError("the browser ended")
        self.number += 1
        message: dict[str, object] = {"id": self.number, "method": method, "params": params}
        if session:
            message["sessionId"] = session
        future = asyncio.get_running_loop().create_future()
        self.waiting[self.number] = (session, future)
        await self.socket.send_str(json.dumps(message))
        answer = await within(PATIENCE, future)
        if "error" in answer:
            raise RuntimeError(f"{method}: {answer['error']}")
        return answer["result"]

    async def page(
        self, url: str, width: int = WIDTH, height: int = HEIGHT, dark: bool = False, script: str = ""
    ) -> Page:
        """A page that shares nothing with the others, and that runs the script before its own code."""
        context = (await self.call("Target.createBrowserContext"))["browserContextId"]
        target = (await self.call("Target.createTarget", url="about:blank", browserContextId=context))["targetId"]
        session = (await self.call("Target.attachToTarget", targetId=target, flatten=True))["sessionId"]
        page = self.pages[session] = Page(self, session, context)
        for domain in ("Page", "Runtime", "Log", "Network", "Inspector"):
            await page.call(f"{domain}.enable")
        await page.size(width, height)
        scheme = {"name": "prefers-color-scheme", "value": "dark" if dark else "light"}
        await page.call("Emulation.setEmulatedMedia", features=[scheme])
        if SLOWER > 1:
            await page.call("Emulation.setCPUThrottlingRate", rate=SLOWER)
        for first in (GUARD, DELAY if LATER else "", script):
            if first:
                await page.call("Page.addScriptToEvaluateOnNewDocument", source=first)
        await page.open(url)
        return page

    @classmethod
    async def end(cls) -> None:
        if cls.started is not None:
            await cls.started._end()
            cls.started = None

    async def _end(self) -> None:
        self.reader.cancel()
        await self.socket.close()
        await self.client.close()
        await self._stop()
        self.drain.cancel()


class Page:
    def __init__(self, browser: Browser, session: str, context: str) -> None:
        self.browser, self.session, self.context = browser, session, context
        self.is_closed = self.is_crashed = False
        self.faults: list[str] = []
        self.requests: list[str] = []
        self.listener = Listener(self.faults)

    def take(self, method: str, parameters: Json) -> None:
        """Keeps each error of the page, each address that it asks for, and what is wrong with its messages."""
        if method == "Runtime.exceptionThrown":
            details = parameters["exceptionDetails"]
            self.faults.append(details.get("exception", {}).get("description") or details["text"])
        elif method == "Log.entryAdded" and parameters["entry"]["level"] in ("error", "warning"):
            self.faults.append(parameters["entry"]["text"] + " " + parameters["entry"].get("url", ""))
        elif method == "Runtime.consoleAPICalled" and parameters["type"] == "error":
            self.faults.append(str([one.get("value") or one.get("description") for one in parameters["args"]]))
        elif method == "Network.requestWillBeSent":
            self.requests.append(parameters["request"]["url"])
        elif method == "Network.webSocketCreated":
            self.requests.append(parameters["url"])
        elif method == "Network.webSocketFrameSent":
            self.listener.sent(parameters["response"]["payloadData"])
        elif method == "Network.webSocketFrameReceived":
            self.listener.received(parameters["response"]["payloadData"])
        elif method == "Inspector.targetCrashed":
            self.is_crashed = True
            self.browser.fail(CRASHED, self.session)

    async def call(self, method: str, **params: object) -> Json:
        if self.is_crashed:
            raise ConnectionResetError(CRASHED)
        return await self.browser.call(method, self.session, **params)

    async def size(self, width: int, height: int) -> None:
        await self.call(
            "Emulation.setDeviceMetricsOverride", width=width, height=height, deviceScaleFactor=1, mobile=False
        )

    async def open(self, url: str) -> None:
        await self.call("Page.navigate", url=url)

    async def run(self, code: str) -> Json:
        answer = await self.call("Runtime.evaluate", expression=code, awaitPromise=True, returnByValue=True)
        if "exceptionDetails" in answer:
            raise RuntimeError(answer["exceptionDetails"].get("exception", {}).get("description"))
        return answer["result"].get("value")

    async def until(self, code: str | Callable[[], str], seconds: float = PATIENCE, what: str | None = None) -> Json:
        """Waits by condition, never by time. What the condition is may change: then it is made anew for each look."""
        loop = asyncio.get_running_loop()
        end = loop.time() + seconds
        while loop.time() < end:
            try:
                got = await self.run(code() if callable(code) else code)
            except RuntimeError:
                got = None
            if got:
                return got
            await asyncio.sleep(0.02)
        raise AssertionError(f"not within {seconds} s: {what or code}; faults {self.faults}")

    async def key(self, key: str, modifiers: int = 0) -> None:
        code = KEYS.get(key, ord(key.upper()) if len(key) == 1 else 0)
        event: dict[str, object] = {"key": key, "windowsVirtualKeyCode": code, "modifiers": modifiers}
        if len(key) == 1 and not modifiers:
            event["text"] = key
        if key == "Enter":
            event["text"] = "\r"
        await self.call("Input.dispatchKeyEvent", type="keyDown", **event)
        await self.call("Input.dispatchKeyEvent", type="keyUp", key=key, windowsVirtualKeyCode=code)

    async def type(self, text: str) -> None:
        await self.call("Input.insertText", text=text)

    async def point(self, selector: str, at: int = 0) -> tuple[float, float]:
        """A point of an element that is in sight; presses are for that element from here on."""
        found = await self.run(
            f"(() => {{ const e = document.querySelectorAll({json.dumps(selector)})[{at}]; if (!e) return null; "
            "e.scrollIntoView({block: 'nearest'}); const b = e.getBoundingClientRect(); window.aim = e; "
            "window.struck = false; "
            "return [b.left + Math.min(b.width / 2, 60), b.top + b.height / 2]; })()"
        )
        assert found, f"nothing is {selector}"
        x, y = found
        return x, y

    async def mouse(self, kind: str, x: float, y: float, **more: object) -> None:
        await self.call("Input.dispatchMouseEvent", type=kind, x=x, y=y, **more)

    async def steady(self, selector: str, at: int = 0) -> tuple[float, float]:
        """Waits until the element is where it was a moment ago."""
        before = None
        while (now := await self.point(selector, at)) != before:
            before = now
            await asyncio.sleep(0.03)
        return now

    async def press(self, selector: str, at: int = 0, **more: object) -> tuple[float, float]:
        """Moves to the element and presses the button; returns the place. Tries again if the page moved it."""
        for _ in range(PRESSES):
            x, y = await self.steady(selector, at)
            await self.mouse("mouseMoved", x, y)
            await self.mouse("mousePressed", x, y, button="left", clickCount=1, **more)
            if await self.run("window.struck"):
                await self.run("window.aim = null")
                return x, y
            await self.release(x, y)
        raise AssertionError(f"{selector} does not stand still")

    async def release(self, x: float, y: float, count: int = 1, **more: object) -> None:
        await self.mouse("mouseReleased", x, y, button="left", clickCount=count, **more)

    async def click(self, selector: str, at: int = 0, times: int = 1) -> None:
        """Clicks. Those of a double click follow one another as a hand makes them, however slow the machine is."""
        began = time.time()
        x, y = await self.press(selector, at, timestamp=began)
        await self.release(x, y, timestamp=began)
        for number in range(2, times + 1):
            now = began + DOUBLE * (number - 1)
            await self.mouse("mousePressed", x, y, button="left", clickCount=number, timestamp=now)
            await self.release(x, y, number, timestamp=now)

    async def hover(self, selector: str, at: int = 0, shown: str = "true") -> Json:
        """Moves to the element, and again if that does not show what it has to: the page may have moved it."""
        for _ in range(PRESSES):
            x, y = await self.steady(selector, at)
            await self.mouse("mouseMoved", x, y)
            try:
                return await self.until(shown, LOOK)
            except AssertionError:
                pass
        raise AssertionError(f"over {selector} it never holds that {shown}; faults {self.faults}")

    async def drag(self, selector: str, at: int, by: float) -> None:
        x, y = await self.press(selector, at)
        for part in (0.3, 0.6, 1):
            await self.mouse("mouseMoved", x, y + by * part, button="left", buttons=1)
        await self.release(x, y + by)

    async def picture(self, path: str) -> None:
        answer = await self.call("Page.captureScreenshot", format="png")
        with open(path, "wb") as file:
            file.write(base64.b64decode(answer["data"]))
