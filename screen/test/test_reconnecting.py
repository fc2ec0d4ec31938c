"""Sessions, screens and connections that end and come back."""

import asyncio
import os
import time
from collections.abc import Callable

import traces
from browser import ALT, PATIENCE, Page
from comparing import same
from held_answers import DEAF, HOLD, deaf, reading_of, shows
from page_parts import CURSOR, FEED, NARROWER, OLDER, OPEN, SCROLLED, TOP_ROW
from sessions import children, kill_sessions, session
from stage import (
    FRAMES,
    LENGTH,
    NEXT,
    ORDER,
    ROWS,
    SAID,
    Screen,
    Stage,
    comes,
    focus,
    is_clean,
    logged,
    new,
    press,
    settled,
)


async def test_a_session_that_dies_comes_back(stage: Stage) -> None:
    screen, page = await stage.opened(traces.COUNT)
    await new(page, 3)
    await press(page, "1")
    killed = await kill_sessions(screen)
    await comes(lambda: not set(killed).intersection(children(screen.process)))
    await press(page, "1")
    if "the program ended" in await page.run(SAID):  # the screen did not know of it yet
        await press(page, "1")
    await page.until(f"{ROWS} === 2")
    assert await comes(lambda: list(children(screen.process))) != killed
    same(logged(), ["1 new A", "1 add A 0", "1 add A 1"])
    is_clean(page, screen)


# Sessions of this program find a full disk as long as a file says so.
FULL = """#!/bin/sh
if [ "$1" = session ] && [ -e full ]; then
    echo 'racebench: write failed' >&2
    exit 1
fi
exec {0} "$@"
"""


async def test_what_may_have_ended_the_program(stage: Stage, program: str) -> None:
    """The page says it in words, and the next step comes to the program as soon as that can be started."""
    traces.write("trace", traces.COUNT)
    traces.write("program", FULL.format(program))
    os.chmod("program", 0o755)
    screen = await stage.screen(program=os.path.abspath("program"))
    page = await stage.page(screen.link)
    await new(page, 3)
    causes: list[tuple[Callable[[], None], Callable[[], None], str]] = [
        (
            lambda: os.rename("trace", "gone"),
            lambda: os.rename("gone", "trace"),
            "read failed: trace does not exist",
        ),
        (lambda: traces.write("full", ""), lambda: os.remove("full"), "write failed (the disk may be full)"),
    ]
    for hide, show, reason in causes:
        hide()
        killed = await kill_sessions(screen)
        await comes(lambda: not set(killed).intersection(children(screen.process)))
        await press(page, "Backspace")
        if reason not in await page.run(SAID):  # the screen did not know of its end yet
            await press(page, "Backspace")
        same(await page.run(SAID), f"the program ended: racebench: {reason}")
        show()
        await page.key("Backspace")
        await page.until(f"{SAID}.startsWith('refused: there is no event to take back')")
    is_clean(page, screen)


# What the browser itself says of a server that is gone.
GONE = "ERR_CONNECTION_REFUSED"


async def test_a_screen_that_is_killed(stage: Stage, program: str) -> None:
    """The page says that nobody answers, keeps what it shows while it is scrolled, and takes a new link."""
    traces.write("trace", "".join(f"T{at % 2}|w(a{at % 2})|a:{at}\n" for at in range(800)))
    await session(program, 1, "new A\n" + "".join(f"add A {event}\n" for event in range(300)))
    async with Screen(program, "trace", "log") as screen:
        page = await stage.page(screen.link)
        await page.until(f"{LENGTH} === '300 events' && !!document.querySelector('.row[data-p=\"299\"]')")
        await page.until(f"{NEXT} === 2")
        screen.process.kill()
        await page.until("document.getElementById('live').textContent.includes('screen does not answer')")
        rows = await page.run(ROWS)
        await page.run("document.getElementById('stage').scrollTop = 0")
        for key in ("1", "r", "Backspace"):
            await press(page, key)
            same(await page.run(SAID), "not connected")
        same(await page.run(f"[{ROWS}, {NEXT}, {LENGTH}]"), [rows, 2, "300 events"])
    async with Screen(program, "trace", "log", "--port", str(screen.port)) as screen:
        await page.until("document.getElementById('live').textContent.includes('no longer good')")
        await page.call("Page.reload")  # the key that was refused is not tried again
        await page.until("document.getElementById('live').textContent.includes('used already')")
        await page.run("window.isOld = true")
        await page.open(screen.link)
        await page.until(f"!window.isOld && {LENGTH} === '300 events' && {NEXT} === 2")
        await focus(page, "next-list")
        await press(page, "1")
        await page.until(f"{LENGTH} === '301 events'")
        same(logged()[-1], "1 add A 300")
        page.faults = [fault for fault in page.faults if GONE not in fault]
        is_clean(page, screen)


async def test_a_connection_that_comes_back(program: str) -> None:
    """The page shows what it showed."""
    async with reading_of(program) as reading:
        page = reading.page
        await page.run(f"{SCROLLED} = 900")
        await page.until(f"{TOP_ROW} === '41' && owed === 0")
        before = await page.run("window.socket.close(); window.views")
        await page.until(f"window.views > {before} && {TOP_ROW} === '41' && {NEXT} === 2")
        await reading.drawn()
        same(await page.run(SCROLLED), 900)
        await page.run(NARROWER.format(300))
        await page.run(FRAMES)
        same(await page.run(SCROLLED), 900)


async def test_the_cursor_stays_if_the_connection_comes_back(stage: Stage) -> None:
    traces.write("trace", traces.FREE)
    screen = await stage.screen()
    page = await deaf(stage, screen, 4, script=HOLD)
    await focus(page, "stage")
    for key in ("End", "ArrowUp", "ArrowUp"):
        await page.key(key)
    await page.until(f"{CURSOR} === '1'")
    before = await page.run("window.socket.close(); window.views")
    await page.until(f"window.views > {before} && owed === 0")
    await shows(page, 4)
    same(await page.run(CURSOR), "1")
    await page.key("ArrowUp", ALT)
    await page.until(f"{ORDER} === '1 0 2 3' && {CURSOR} === '0'")
    await settled(page)
    await new(page, 8, "B")
    await page.key("[")
    await shows(page, 4)
    same(await page.run(CURSOR), None)
    is_clean(page, screen)


# What is drawn a moment after the connection ended, and before the page tries again.
AFTER_THE_END = (
    f"new Promise((done) => {{ socket.addEventListener('close', () => setTimeout(() => done([{ROWS}, {NEXT}]), 200)); "
    "socket.close(); })"
)


async def test_answers_that_are_lost_with_the_connection(stage: Stage, program: str) -> None:
    """What was drawn before stays, though the page had requested more."""
    traces.write("trace", traces.FREE)
    screen = await stage.screen()
    page = await deaf(stage, screen, 3, script=DEAF.replace("Boolean(told.push) || ", ""))
    await page.run("hold()")
    await session(program, 2, "add A 5\n")
    await page.until(f"{LENGTH} === '4 events'")  # rows and the list are requested, and the answers held
    same(await page.run(AFTER_THE_END), [3, 5])
    await page.run("letGo()")
    await shows(page, 4)
    is_clean(page, screen)


async def test_older_entries_stay_if_the_connection_comes_back(stage: Stage, program: str) -> None:
    """Also those that are so old that the page is not told them at its start."""
    traces.write("trace", traces.SEVERAL)
    await session(program, 2, "new A\n" + "new B\ndrop B\n" * 500)
    screen, page = await stage.opened(script=HOLD)
    await page.until(f"{FEED}.startsWith('1000,')")
    for _ in range(4):
        before = await page.run(FEED)
        await page.run(f"{OLDER}.click()")
        await page.until(f"{FEED} !== {before!r}")
    shown = await page.run(FEED)
    assert not shown.startswith("1000,"), shown[:40]
    before = await page.run("window.socket.close(); window.views")
    await page.until(f"window.views > {before} && {FEED} === {shown!r}")
    await settled(page)
    await session(program, 2, "new C\n")
    await settled(page)
    same(await page.run("document.getElementById('feed-count').textContent"), "1,002")
    same(await page.run(FEED), shown)
    is_clean(page, screen)


async def test_news_stay_news_if_the_connection_comes_back(stage: Stage, program: str) -> None:
    screen, page = await stage.opened(traces.COUNT, script=HOLD)
    await new(page, 3)
    await session(program, 2, "add A 0\n")
    fresh = "document.querySelectorAll('.entry.fresh').length === 1 && !document.getElementById('away').hidden"
    await page.until(f"{ROWS} === 1 && {fresh}")
    before = await page.run("window.socket.close(); window.views")
    await page.until(f"window.views > {before} && {ROWS} === 1 && {NEXT} === 3 && owed === 0")
    await settled(page)
    await page.until(fresh)
    await press(page, "s")
    same(await page.run(SAID), "the log is marked as seen")
    await page.until("document.getElementById('away').hidden")
    is_clean(page, screen)


async def test_a_click_while_screen_does_not_answer(stage: Stage) -> None:
    """Nothing else can be fetched, so what is shown stays, and the page says why."""
    screen, page = await stage.opened(traces.COUNT)
    await page.until("document.querySelectorAll('.race').length === 1")
    await new(page, 3, "B")
    await new(page, 3, "A")
    await press(page, "1", "1")
    await shows(page, 2)
    screen.process.terminate()
    await page.until("document.getElementById('live').textContent.startsWith('screen does not answer')")
    for selector in (".race", "#row-list .sched"):
        await page.run("document.getElementById('said').textContent = ''")
        await page.click(selector)
        await page.until(f"{SAID} === 'not connected'")
        same(await page.run(f"[{OPEN}, {LENGTH}, {ROWS}]"), ["A", "2 events", 2])


# On a machine that is very busy a page may name its key too late. `lives` keeps the page's messages from before.
LATE = (
    "const send = WebSocket.prototype.send; let first = null; window.lives = ''; "
    "WebSocket.prototype.send = function (text) { first ??= this; if (this !== first) send.call(this, text); }; "
    "new MutationObserver(() => { window.lives += document.getElementById('live')?.textContent; })"
    ".observe(document, { childList: true, subtree: true });"
)


async def test_a_key_that_comes_too_late(stage: Stage) -> None:
    """The page tries again, and keeps its key."""
    screen, page = await stage.opened(traces.COUNT, script=LATE)
    await page.until("window.lives.includes('trying again')")
    await new(page, 3)
    is_clean(page, screen)


# The first request for a key fails, as where the browser's network changes.
LOST = """(() => {
  const ask = window.fetch;
  window.tries = 0;
  window.lives = "";
  window.fetch = (...given) => (window.tries++ ? ask(...given) : Promise.reject(new TypeError("Failed to fetch")));
  new MutationObserver(() => { window.lives += document.getElementById("live")?.textContent; })
    .observe(document, { childList: true, subtree: true });
})()"""


async def test_a_key_that_gets_lost(stage: Stage) -> None:
    """The link is good until the key has come."""
    screen, page = await stage.opened(traces.COUNT, script=LOST)
    await page.until("window.lives.includes('trying again')")
    await new(page, 3)
    same(await page.run("[window.tries, location.hash]"), [2, ""])
    is_clean(page, screen)


async def shows_the_log(page: Page) -> None:
    """Waits until the page says how many events the log leaves."""
    end = time.monotonic() + PATIENCE
    while time.monotonic() < end:
        lines = logged()
        events = sum(line.count("add A") - line.count("back A") for line in lines)
        if await page.run(LENGTH) == f"{events:,} events" and lines == logged():
            return
        await asyncio.sleep(0.1)
    raise AssertionError(f"the log leaves {events} events, and the page says {await page.run(LENGTH)}")


async def test_a_session_killed_in_a_run(stage: Stage) -> None:
    """The page shows what the log has, and the next key goes on."""
    screen, page = await stage.opened("".join(f"T1|w(a{at % 9})|a:{at}\n" for at in range(60_000)))
    await new(page, 1)
    before = await page.run(SAID)
    await page.key("r")
    await comes(lambda: len(logged()) > 3)
    await kill_sessions(screen)
    await page.until(f"{SAID} !== {before!r}")
    await shows_the_log(page)
    await press(page, "Backspace")
    if "the program ended" in await page.run(SAID):
        await press(page, "Backspace")
    same(logged()[-1], "1 back A")
    await shows_the_log(page)
    await page.until(f"{NEXT} === 1")
    is_clean(page, screen)


async def test_what_a_killed_session_left(stage: Stage) -> None:
    """Lines after a closed gate do not count: not for the page, and the next session writes over them."""
    screen, page = await stage.opened(traces.COUNT)
    await new(page, 3)
    await press(page, "1", "1")
    killed = await kill_sessions(screen)
    await comes(lambda: not set(killed).intersection(children(screen.process)))
    with open("log", "r+b") as file:
        file.seek(-1, os.SEEK_END)
        file.write(b"!1 add A 2\n 1 add A 3\n")
    await shows_the_log(page)
    await press(page, "2")
    if "the program ended" in await page.run(SAID):  # the screen did not know of it yet
        await press(page, "2")
    await page.until(f"{ROWS} === 3")
    same(logged(), ["1 new A", "1 add A 0", "1 add A 1", "1 add A 2"])
    is_clean(page, screen)


async def test_a_log_without_its_last_gate(stage: Stage) -> None:
    """A session that takes away what a killed one left cuts the file, and then closes the gate. A disk may take long
    in between, and the page goes on after that."""
    screen, page = await stage.opened(traces.COUNT)
    await new(page, 3)
    await press(page, "1")
    size = os.stat("log").st_size
    os.truncate("log", size - 1)
    await asyncio.sleep(1)  # the screen looks twenty times
    with open("log", "ab") as file:
        file.write(b"!")
    await press(page, "1")
    await page.until(f"{LENGTH} === '2 events'")
    same(await page.run("!!document.querySelector('#live .bad')"), False)
    is_clean(page, screen)
