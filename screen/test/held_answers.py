"""Pages whose answers or news a test holds back, and lets go."""

import contextlib
import os
from collections.abc import AsyncIterator

import traces
from browser import WIDTH, Browser, Page
from comparing import same
from page_parts import AT_END, ROW
from sessions import session
from stage import FRAMES, LENGTH, ROWS, Screen, Stage, is_clean, new, press, settled

# Holds back the answers to requests of some kinds, from `hold()` on until `letGo()`.
HOLD = """(() => {
  const kinds = ["view"];
  const rows = new Set();
  const send = WebSocket.prototype.send;
  window.held = null;
  window.owed = window.views = 0;
  WebSocket.prototype.send = function (text) {
    const asked = text.startsWith("{") ? JSON.parse(text) : {};
    if (kinds.includes(asked.do)) {
      rows.add(asked.id);
      window.owed++;
      window.views++;
    }
    window.socket = this;
    send.call(this, text);
  };
  const take = (socket, act, message) => {
    const isRows = rows.has(JSON.parse(message.data).id);
    if (isRows) window.owed--;
    if (isRows && window.held) window.held.push(() => act.call(socket, message));
    else act.call(socket, message);
  };
  Object.defineProperty(WebSocket.prototype, "onmessage", {
    set(act) { this.addEventListener("message", (message) => take(this, act, message)); },
  });
  window.hold = () => { window.held = []; };
  window.letGo = () => { const all = window.held; window.held = null; for (const one of all) one(); };
})()"""


class Reading:
    """A page that shows the end of schedule A, which another analyst made, and what comes to it."""

    def __init__(self, program: str, page: Page) -> None:
        self.program, self.page, self.length = program, page, 0

    async def drawn(self) -> None:
        """Waits until all that the log has is drawn."""
        await settled(self.page)
        await self.page.until(
            f"document.getElementById('space').style.height === '{self.length * ROW + 6}px' && owed === 0 && "
            f"{LENGTH} === '{self.length} events' && "
            f"document.getElementById('next-list').dataset.length === '{self.length}'"
        )
        await self.page.run(FRAMES)

    async def read(self) -> None:
        """Waits until the page has all news, and each answer with rows is held."""
        await self.page.until(f"{LENGTH} === '{self.length} events' && owed === 0 && held.length > 0")

    async def add(self, number: int = 20) -> None:
        """Another analyst adds to A."""
        events = range(self.length, self.length + number)
        await session(self.program, 2, "".join(f"add A {event}\n" for event in events))
        self.length += number


@contextlib.asynccontextmanager
async def reading_of(program: str, width: int = WIDTH) -> AsyncIterator[Reading]:
    """A page that shows the last of 200 events."""
    with contextlib.suppress(FileNotFoundError):
        os.remove("log")
    traces.write("trace", "".join(f"T{at % 2}|w(a{at % 2})|a:{at}\n" for at in range(800)))
    await session(program, 2, "new A\n")
    async with Screen(program, "trace", "log") as screen, Browser() as browser:
        page = await browser.page("about:blank", width, script=HOLD)
        reading = Reading(program, page)
        await reading.add(200)
        await page.open(screen.link)
        await reading.drawn()
        same(await page.run(AT_END), True)
        yield reading
        is_clean(page, screen)


# Holds back all messages about what others do, from `hold()` on until `letGo()`.
DEAF = HOLD.replace('["view"]', '["view", "frontier"]').replace(
    "const isRows = rows.has(JSON.parse(message.data).id);",
    "const told = JSON.parse(message.data); const isRows = Boolean(told.push) || rows.has(told.id);",
)


async def shows(page: Page, length: int) -> None:
    """Waits until a schedule of this many events is drawn, and nothing more has to come."""
    await settled(page)
    await page.until(
        f"{ROWS} === {length} && {LENGTH} === '{length} event{'' if length == 1 else 's'}' && "
        f"document.getElementById('next-list').dataset.length === '{length}'"
    )
    await page.run(FRAMES)


async def deaf(stage: Stage, screen: Screen, events: int, threads: int = 8, script: str = DEAF) -> Page:
    """A page that shows schedule A with the first events, and can be made deaf."""
    page = await stage.page(screen.link, script=script)
    await new(page, threads)
    await press(page, *[str(event + 1) for event in range(events)])
    await shows(page, events)
    return page


async def held_page(stage: Stage, screen: Screen, kind: str) -> Page:
    """A page whose answers to one kind of request are held from the first one on."""
    return await stage.page(screen.link, script=HOLD.replace('["view"]', f'["{kind}"]') + "; hold()")
