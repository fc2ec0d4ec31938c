"""The screen's server: pages, sockets, and what is pushed to them."""

import asyncio
import json
import os
import sys
import traceback
from collections.abc import Coroutine, Iterator, Mapping
from typing import Any

from aiohttp import WSMsgType, web

from .bench import Bench
from .checked import Mistake
from .door import Door
from .guard import Guard, guarded, put_headers
from . import messages
from .kept import Names, Original, Seen
from .outlet import Outlet
from .pairs import Pairs, Races
from .readers import Readers
from .requests import Requests
from .session import Gone
from .source import Source
from .text import clean
from .trace import CONNECTED

STATIC = os.path.join(os.path.dirname(os.path.dirname(os.path.abspath(__file__))), "static")
# The page's files, and the content type of each.
TYPES = {".html": "text/html", ".js": "text/javascript", ".css": "text/css", ".svg": "image/svg+xml"}
# Seconds before background work starts, from the first page's first request.
FIRST_PAGE = 0.5
# So long after a request the page is in use, and so long portions of other work are apart then, in seconds.
USED, BREATH = 0.5, 0.02
# How often the log is looked at, in seconds. The trace is looked at once for this many looks at the log.
POLL, SELDOM = 0.05, 20
# The longest message, the most sockets, the most that have not named their key, and how long they have for it.
MESSAGE, SOCKETS, WAITING, PATIENCE = 1 << 16, 16, 16, 5
# Why a socket is closed: its key is wrong; or no key came in time, or there is no room, and it may try again.
WRONG, LATE = 4403, 4408
# How long a browser has to answer that the socket ends.
GRACE = 0.5
# How many seconds lie between two pings of a browser; it has half of that to answer. A browser that ends closes its
# socket, so this is for one that was stopped, and a machine that is busy has time.
PULSE = 600
# The most requests of one socket that are at work, and the most that wait for that or are at work.
AT_WORK, ASKED = 64, 512
# The most entries that one push has.
PUSHED = 300
# What comes of a request that is no dictionary, or lacks something, or has another type.
BAD = (KeyError, TypeError, ValueError, AttributeError, IndexError, OverflowError, RecursionError)


def file_of(name: str) -> tuple[str, bytes]:
    """The type and the bytes of a file of the page. They are few, so they are read once."""
    with open(os.path.join(STATIC, name), "rb") as file:
        return TYPES[os.path.splitext(name)[1]], file.read()


def mistaken(why: str) -> messages.Mistake:
    return {"mistake": why}


async def in_turn(work: Iterator[Any]) -> None:
    """Does work in portions, with turns for others in between."""
    for _ in work:
        await asyncio.sleep(0)


class Server:
    def __init__(self, bench: Bench, source: Source, title: str) -> None:
        self.bench, self.races = bench, Races()
        self.guard, self.pairs = Guard(), Pairs(bench)
        self.original = Original(bench.trace.path)
        seen, self.names = Seen(bench.mirror.path, bench.client), Names(bench.mirror.path)
        self.requests = Requests(bench, self.races, self.pairs, source, seen, clean(title))
        self.requests.link, self.requests.names = self.guard.link, self.names
        self.files = {name: file_of(name) for name in os.listdir(STATIC) if name.endswith(tuple(TYPES))}
        self.outlets: set[Outlet] = set()
        self.waiting = 0
        self.sent_to = 0
        self.used_until = 0.0
        self.stopping = asyncio.Event()
        self.tasks: list[asyncio.Task[None]] = []

    # HTTP.

    async def page(self, request: web.Request) -> web.StreamResponse:
        return self._file("index.html")

    async def file(self, request: web.Request) -> web.StreamResponse:
        name = request.match_info["name"]
        if name not in self.files or name == "index.html":
            raise web.HTTPNotFound
        return self._file(name)

    def _file(self, name: str) -> web.StreamResponse:
        kind, body = self.files[name]
        return web.Response(body=body, content_type=kind, charset="utf-8")

    async def enter(self, request: web.Request) -> web.StreamResponse:
        """Gives the key for a ticket, once."""
        try:
            async with asyncio.timeout(PATIENCE):
                offered = (await request.content.read(256)).decode("ascii", "replace")
        except TimeoutError:
            raise web.HTTPRequestTimeout from None
        if not self.guard.spend(offered):
            await asyncio.sleep(0.3)
            raise web.HTTPForbidden(text="spent")
        return web.Response(text=self.guard.key, content_type="text/plain")

    async def socket(self, request: web.Request) -> web.StreamResponse:
        if len(self.outlets) >= SOCKETS or self.waiting >= WAITING:
            raise web.HTTPServiceUnavailable
        socket = web.WebSocketResponse(max_msg_size=MESSAGE, heartbeat=PULSE, compress=False)
        self.waiting += 1
        try:
            await socket.prepare(request)
            refused = await self._refused(socket)
        finally:
            self.waiting -= 1
        if refused is None and len(self.outlets) >= SOCKETS:
            refused = LATE
        if refused is None:
            await self._serve(socket, Outlet(socket, request.transport))
        else:
            await socket.close(code=refused)
        return socket

    async def _refused(self, socket: web.WebSocketResponse) -> int | None:
        try:
            first = await socket.receive(timeout=PATIENCE)
        except asyncio.TimeoutError:
            return LATE
        return None if first.type == WSMsgType.TEXT and self.guard.is_key(first.data) else WRONG

    async def _serve(self, socket: web.WebSocketResponse, outlet: Outlet) -> None:
        """Reads all that comes, so that the socket's own messages never queue after requests that wait."""
        self.outlets.add(outlet)
        room = asyncio.Semaphore(AT_WORK)
        work: set[asyncio.Task[None]] = set()
        try:
            async for message in socket:
                if message.type == WSMsgType.TEXT:
                    if len(work) >= ASKED:
                        outlet.let_go()
                        break
                    task = asyncio.ensure_future(self._answer(outlet, message.data, room))
                    work.add(task)
                    task.add_done_callback(work.discard)
        finally:
            self.outlets.discard(outlet)
            outlet.stop()

    async def _answer(self, outlet: Outlet, text: str, room: asyncio.Semaphore) -> None:
        """Answers a request, also one that fails: the page waits for the answer."""
        async with room:
            number, answer = await self._outcome(text, outlet)
        try:
            self._push_changes()
        finally:
            outlet.send({**answer, "id": number})

    async def _outcome(self, text: str, outlet: Outlet) -> tuple[Any, Mapping[str, object]]:
        """The number of a request, and its answer."""
        number, known = None, len(self.bench.mirror.entries)
        self.used_until = asyncio.get_running_loop().time() + USED
        try:
            request = json.loads(text)
            number = request.get("id")
            return number, await self.requests.answer(request, outlet)
        except Gone as why:
            gone: messages.Gone = {"gone": clean(str(why)), "made": self._made_since(known)}
            return number, gone
        except Mistake as why:
            return number, mistaken(clean(str(why)))
        except BAD as why:
            print(f"screen: bad request {clean(text[:200])}: {why!r}", file=sys.stderr, flush=True)
            return number, mistaken("bad request")
        except Exception as why:  # no request leads to this
            traceback.print_exc()
            return number, mistaken(clean(f"the screen failed: {why!r}"))

    def _made_since(self, first: int) -> list[int]:
        """The entries of this analyst from one on: what a step made whose answer is lost."""
        mirror = self.bench.mirror
        mirror.sync()
        return [entry.number for entry in mirror.entries[first:] if entry.client == self.bench.client]

    def push(self, what: str, message: Mapping[str, object]) -> None:
        for outlet in self.outlets:
            outlet.send({"push": what, **message})

    # What others do, and what is looked for beside the steps.

    def _push_changes(self) -> None:
        mirror = self.bench.mirror
        known, total = self.sent_to, len(mirror.entries)
        if total != known:
            self.sent_to = total
            first = max(known, total - PUSHED)
            message: messages.LogPush = {
                "log_length": total,
                "entries": mirror.entry_messages(first, total - first),
                "rows": mirror.take_changes(),
            }
            if first > known:  # the page knows that it was not told all, and asks for what it shows of that
                message["proposals"] = mirror.proposal_messages()
            self.push("log", message)

    async def watch(self) -> None:
        """Looks at the size of the log: that also sees what another machine wrote, which inotify does not."""
        mirror, looks = self.bench.mirror, 0
        while not mirror.fault:
            await asyncio.sleep(POLL)
            looks += 1
            if looks % SELDOM == 0 and await asyncio.to_thread(self.original.is_changed):
                mirror.fault = "the trace was changed since screen began"
            if self.names.changed():
                named: messages.NamesPush = {"names": self.names.names}
                self.push("names", named)
            if mirror.grew():
                mirror.sync()
                self._push_changes()
        self._say_fault(mirror.fault)

    def _say_fault(self, why: str) -> None:
        self.requests.fault = why
        message: messages.FaultPush = {"why": why}
        self.push("fault", message)

    async def compare_traces(self) -> None:
        """Whether the screen reads the trace as the program does: the log's first line has the program's digest.

        The first page is drawn before this takes the processor.
        """
        await self.requests.is_greeted.wait()
        await asyncio.sleep(FIRST_PAGE)
        if not self.bench.trace.is_connected:
            for _ in self.bench.trace.connect():
                await self._give_way()
            self.push("connected", {})
        await asyncio.to_thread(self.original.learn)
        digest = ""
        for digest in self.bench.trace.digests():
            await self._give_way()
        if digest != self.bench.mirror.digest:
            self._say_fault("this screen reads the trace differently from the program")

    async def _give_way(self) -> None:
        """Ends a portion of work that nobody waits for: while the page asks for something, portions are seldom."""
        is_used = asyncio.get_running_loop().time() < self.used_until
        await asyncio.sleep(BREATH if is_used else 0)

    async def look_for_races(self) -> None:
        await self.races.look(self.bench, lambda: self.push("races", {}))
        self.push("races", {})

    async def look_for_deadlocks(self) -> None:
        await self.requests.deadlocks.look(self.bench, lambda: self.push("deadlocks", {}))
        self.push("deadlocks", {})

    def beside(self, work: Coroutine[Any, Any, None]) -> None:
        self.tasks.append(asyncio.ensure_future(self._to_its_end(work)))

    async def _to_its_end(self, work: Coroutine[Any, Any, None]) -> None:
        """Does work that nobody waits for. If it fails, the page gets an error message, and nothing more."""
        try:
            await work
        except Exception as why:
            traceback.print_exc()
            self._say_fault(clean(f"the screen failed: {why!r}"))

    # Life.

    async def start(self, port: int) -> None:
        app = guarded(self.guard)
        app.on_response_prepare.append(put_headers)
        app.router.add_get("/", self.page)
        app.router.add_post("/enter", self.enter)
        app.router.add_get("/ws", self.socket)
        app.router.add_get("/{name}", self.file)
        self.runner = web.AppRunner(app, access_log=None)
        await self.runner.setup()
        self.door = Door(self.runner)
        self.guard.port = await self.door.open(port)
        self.beside(self.look_for_races())
        self.beside(self.look_for_deadlocks())

    async def read_trace(self, readers: Readers) -> None:
        """Reads the trace, in turns with all else."""
        trace = self.bench.trace
        parts = await readers.parts()
        await in_turn(trace.join(parts) if parts else trace.read())
        if len(self.bench.trace) <= CONNECTED:
            await in_turn(self.bench.trace.connect())

    async def follow(self) -> None:
        """Answers what the page asks; the trace was read. The log is followed from here on."""
        self.bench.mirror.sync()
        self.bench.mirror.is_followed = True
        self.bench.mirror.take_changes()
        self.sent_to = len(self.bench.mirror.entries)
        self.names.changed()
        self.requests.is_ready.set()
        self.beside(self.watch())
        self.beside(self.compare_traces())

    async def _close(self) -> None:
        await asyncio.gather(*[outlet.socket.close() for outlet in list(self.outlets)])

    async def stop(self) -> None:
        for task in self.tasks:
            task.cancel()
        await asyncio.wait([asyncio.ensure_future(self._close()), *self.tasks], timeout=GRACE)
        await self.door.close(GRACE)
        await self.pairs.stop()
        await self.bench.session.stop()
