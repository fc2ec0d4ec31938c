#!/usr/bin/python3
"""Times of the screen, as a browser sees them: times.py PROGRAM [BIG]. BIG is a trace of 1,048,576 events.

It is no test: it prints figures, with the load of the machine, and the goal beside each. On a busy machine look at the
processor time, which is printed too: that of screen, of the session, and of the page's main thread.
"""

from __future__ import annotations

import asyncio
import os
import statistics
import sys
import tempfile
import time
from collections.abc import Sequence

if (SCREEN := os.path.dirname(os.path.dirname(os.path.abspath(__file__)))) not in sys.path:
    sys.dont_write_bytecode = True
    sys.path.insert(0, SCREEN)
import traces
from browser import Browser, Page
from sessions import batches, children
from stage import LENGTH, NEXT, TITLE, Screen, focus, new

# Seconds of processor time of screen, of its sessions and of the page's main thread.
Times = tuple[float, float, float]

# Notes each time that rows are drawn, and each key.
WATCH = """window.drawn = []; window.pressed = [];
new MutationObserver(() => window.drawn.push([performance.now(), Date.now()])).observe(
  document.getElementById('space'), {childList: true});
addEventListener('keydown', () => window.pressed.push([performance.now(), Date.now()]), true); 1"""
FREE = "[...document.querySelectorAll('.next.yes')].find((n) => n.dataset.t < 9)?.dataset.t"


class Spent:
    """Processor time that screen, its sessions and a page spend from here on."""

    def __init__(self, screen: Screen, page: Page) -> None:
        self.screen, self.page = screen, page

    async def __aenter__(self) -> Spent:
        await self.page.call("Performance.setTimeDomain", timeDomain="threadTicks")
        await self.page.call("Performance.enable")
        self.before = await self._now()
        return self

    async def __aexit__(self, *_: object) -> None:
        self.after = await self._now()
        await self.page.call("Performance.disable")

    async def _now(self) -> Times:
        metrics = (await self.page.call("Performance.getMetrics"))["metrics"]
        tasks = sum(one["value"] for one in metrics if one["name"] == "TaskDuration")
        sessions = sum(own(child) for child in children(self.screen.process))
        return own(self.screen.process.pid), sessions, tasks

    def a_key(self, count: int) -> str:
        screen, program, page = (1000 * (new - old) / count for old, new in zip(self.before, self.after))
        return f"processor time a key: screen {screen:.1f} ms, session {program:.1f} ms, page {page:.1f} ms"


def fields(process: int) -> list[float]:
    """Seconds of processor time of a process, and of its children that have ended."""
    with open(f"/proc/{process}/stat", encoding="ascii", errors="replace") as file:
        ticks = [int(word) for word in file.read().rpartition(")")[2].split()[11:15]]
    return [sum(pair) / os.sysconf("SC_CLK_TCK") for pair in (ticks[:2], ticks[2:])]


def own(process: int) -> float:
    return fields(process)[0]


def say(what: str, value: str, goal: str) -> None:
    print(f"{what}: {value} (goal: {goal})", flush=True)


def of(times: list[float]) -> str:
    return f"median {statistics.median(times):.0f} ms, most {max(times):.0f} ms"


async def pressed(page: Page, count: int, others: Sequence[Page] = ()) -> tuple[list[float], list[float]]:
    """Presses keys that add; of each the times until it is drawn here, and at the others'."""
    mine: list[float] = []
    away: list[float] = []
    for _ in range(count):
        for each in (page, *others):
            await each.run("window.drawn.length = window.pressed.length = 0")
        free = await page.until(FREE)
        await page.key(str(int(free) + 1))
        for each in (page, *others):
            await each.until("window.drawn.length > 0")
        key = (await page.run("window.pressed"))[0]
        mine.append((await page.run("window.drawn"))[0][0] - key[0])
        away += [(await each.run("window.drawn"))[0][1] - key[1] for each in others]
        await asyncio.sleep(0.15)
    return mine, away


async def of_few_events(program: str) -> None:
    lines = [f"T3|w(a{number % 7})|x.c:{number}\nT4|w(b{number % 5})|y.c:{number}\n" for number in range(2000)]
    traces.write("trace", traces.COUNT + "".join(lines))
    async with Screen(program, "trace", "log") as one, Screen(
        program, "trace", "log", "--client", "2"
    ) as two, Browser() as browser:
        page, other = await browser.page(one.link), await browser.page(two.link)
        await other.until(TITLE, 60)
        await new(page, 5)
        await other.until("document.querySelectorAll('.sched').length === 1", 90)
        await other.click(".sched")
        await other.until(f"{NEXT} === 5", 90)
        for each in (page, other):
            await each.run(WATCH)
        async with Spent(one, page) as spent:
            mine, away = await pressed(page, 25, [other])
        say("4,000 events: key to drawn", of(mine), "20 ms")
        print("  ", spent.a_key(25))
        say("4,000 events: key to drawn in another's browser", of(away), "100 ms")


async def of_a_million(program: str, trace: str) -> None:
    if not os.path.exists(trace):
        traces.big(trace)
    if os.path.abspath(trace) != os.path.abspath("trace"):
        os.symlink(trace, "trace")
    began = time.monotonic()
    async with Screen(program, "trace", "log") as screen, Browser() as browser:
        say("1,048,576 events: start to link", f"{time.monotonic() - began:.2f} s", "1 s")
        page = await browser.page("about:blank")  # an analyst has a browser open; that of the tests makes a new one
        began = time.monotonic()
        await page.open(screen.link)
        await page.until("document.getElementById('facts').textContent.startsWith('1,048,576')", 60)
        say("1,048,576 events: link to page", f"{time.monotonic() - began:.2f} s", "0.5 s")
        ours, helpers = fields(screen.process.pid)
        print(f"   processor time until then: screen {ours:.2f} s, its processes that read sections {helpers:.2f} s")
        await new(page, 16)
        began = time.monotonic()
        await batches(program, 100_000)
        say("100,000 events of another client", f"{time.monotonic() - began:.1f} s", "none")
        await page.until(f"{LENGTH} === '100,000 events'", 60)
        await page.until("document.getElementById('next-list').dataset.length === '100000'", 60)
        await page.run(WATCH)
        await focus(page, "next-list")
        async with Spent(screen, page) as spent:
            mine, _ = await pressed(page, 15)
        say("100,000 events: key to drawn", of(mine), "60 ms")
        print("  ", spent.a_key(15))
        await scrolled(page)
        await memory(screen, "memory with a schedule of 100,000 events")
        await of_a_witness(page, screen)


async def scrolled(page: Page) -> None:
    times: list[float] = []
    for share in (0.1, 0.9, 0.5, 0.0, 0.73):
        await page.run(
            "window.drawn.length = 0; window.t0 = performance.now(); "
            f"{{ const s = document.getElementById('stage'); s.scrollTop = s.scrollHeight * {share}; }} 1"
        )
        await page.until("window.drawn.length > 0")
        times.append((await page.run("window.drawn"))[0][0] - await page.run("window.t0"))
    say("100,000 events: far scroll to drawn", of(times), "none")


async def memory(screen: Screen, what: str) -> None:
    with open(f"/proc/{screen.process.pid}/status", encoding="ascii") as file:
        kibibytes = sum(int(line.split()[1]) for line in file if line.startswith("VmRSS"))
    say(what, f"{kibibytes // 1024} MB", "300 MB")


LENGTHS = """(() => { const cards = [...document.querySelectorAll('.race')];
  const length = (card) => Number((/shown by ([\\d,]+) event/.exec(card.title)?.[1] ?? '0').replaceAll(',', ''));
  const lengths = cards.map(length);
  const at = lengths.indexOf(Math.max(...lengths));
  return [at, lengths[at]]; })()"""


async def of_a_witness(page: Page, screen: Screen) -> None:
    """Opens the race in sight that has the longest witness."""
    began = time.monotonic()
    await page.until("document.querySelectorAll('.race').length > 0", 900)
    say("1,048,576 events: races after that", f"{time.monotonic() - began:.1f} s", "none")
    at, length = await page.run(LENGTHS)
    began = time.monotonic()
    await page.click(".race", at)
    await page.until("document.querySelector('#bar h2').textContent === 'Witness'", 60)
    await page.until("document.querySelectorAll('#space .row').length > 0", 60)
    say(f"witness of {length:,} events, click to drawn", f"{time.monotonic() - began:.1f} s", "2 s for a million")
    await memory(screen, "memory with it")


async def of_a_long_witness(program: str) -> None:
    """A race whose witness has a million events: it is looked at, and then worked on."""
    for path in ("trace", "log"):
        os.remove(path)
    traces.long_witness("trace")
    async with Screen(program, "trace", "log") as screen, Browser() as browser:
        page = await browser.page(screen.link)
        await of_a_witness(page, screen)
        began = time.monotonic()
        await page.key("w")
        await page.until("document.querySelector('#bar h2').textContent.startsWith('r10')", 600)
        say("work on it", f"{time.monotonic() - began:.1f} s", "none")
        await memory(screen, "memory with that")


async def main() -> None:
    program = os.path.abspath(sys.argv[1])
    big = os.path.abspath(sys.argv[2]) if len(sys.argv) > 2 else "trace"
    with tempfile.TemporaryDirectory() as folder:
        os.chdir(folder)
        os.environ["XDG_STATE_HOME"] = os.path.join(folder, "state")
        print(f"load of the machine: {os.getloadavg()[0]:.1f} on {os.cpu_count()} processors")
        await of_few_events(program)
        os.remove("trace")
        os.remove("log")
        await of_a_million(program, big)
        await of_a_long_witness(program)
        print(f"load of the machine: {os.getloadavg()[0]:.1f}")
        await Browser.end()
        os.chdir("/")


if __name__ == "__main__":
    asyncio.run(main())
