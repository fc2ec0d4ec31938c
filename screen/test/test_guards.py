"""The guards that compare what is drawn with the program: each says so in the page if the two differ."""

import asyncio

import pytest

import traces
from comparing import same
from fake_programs import script
from screen_app import server
from screen_app.bench import Bench
from screen_app.trace import Trace
from servers import PATIENCE, Heard, served
from sessions import session
from stage import NEXT, ROWS, Stage, is_clean, settled

LIVE = "document.getElementById('live').textContent"
# Sessions of this program are of another trace, as if the screen read its own otherwise than the program.
OTHER = """#!/bin/sh
if [ "$1" = session ]; then
    shift 2
    exec {0} session other "$@"
fi
exec {0} "$@"
"""


async def test_a_trace_that_is_read_otherwise(stage: Stage, program: str) -> None:
    """The digest in the log's first line is not that of what the screen read."""
    traces.write("trace", traces.COUNT)
    traces.write("other", traces.COUNT.replace("count.c:5", "count.c:4"))
    screen = await stage.screen(program=script("odd", OTHER.format(program)))
    page = await stage.page(screen.link)
    warning = "Do not go by what is drawn here: this screen reads the trace differently from the program."
    await page.until(f"{LIVE} === '{warning}'")
    is_clean(page, screen)


async def test_a_digest_that_is_the_same(program: str, monkeypatch: pytest.MonkeyPatch) -> None:
    """It is compared once a page is there, and there is no message if it is the same."""
    for digest, is_shown in ((None, False), ("0" * 64, True)):
        screen, outlet = served(program), Heard()
        screen.outlets.add(outlet)
        monkeypatch.setattr(server, "FIRST_PAGE", 0)
        comparing = asyncio.ensure_future(screen.compare_traces())
        (*_, screen.bench.mirror.digest) = screen.bench.trace.digests()
        screen.bench.mirror.digest = digest or screen.bench.mirror.digest
        await asyncio.sleep(0.05)
        same((comparing.done(), outlet.messages), (False, []))
        screen.requests.is_greeted.set()
        await asyncio.wait_for(comparing, PATIENCE)
        faults = [one["why"] for one in outlet.messages if one["push"] == "fault"]
        same(faults, ["this screen reads the trace differently from the program"] if is_shown else [])
        same(screen.requests.fault, faults[0] if faults else None)


NOTE = "document.getElementById('note')"
# Sessions of this program show each schedule with its first event alone.
SHORT = """#!/bin/sh
if [ "$1" = session ]; then
    {0} "$@" | sed -u 's/^shown \\([0-9]*\\) .*/shown \\1/'
else
    exec {0} "$@"
fi
"""


async def test_a_schedule_that_is_shown_otherwise(stage: Stage, program: str) -> None:
    """The program shows it when it is opened, and what it shows is not what is drawn."""
    traces.write("trace", traces.COUNT)
    await session(program, 1, "new A\nadd A 0\nadd A 1\nnew B\nadd B 0\n")
    screen = await stage.screen(program=script("odd", SHORT.format(program)))
    page = await stage.page(screen.link)
    await page.until(f"{ROWS} === 1 && {NEXT} === 3")  # of one event: that is the same
    await settled(page)
    same(await page.run(f"{NOTE}.hidden"), True)
    await page.click(".sched")
    await page.until(f"{ROWS} === 2 && !{NOTE}.hidden")
    note = await page.run(f"{NOTE}.textContent")
    assert note.startswith("The program shows this schedule differently from how it is drawn here."), note
    same(await page.run(f"{NOTE}.querySelector('[role=alert]')?.textContent"), note)  # a screen reader says it
    await page.click(".sched", 1)
    await page.until(f"{ROWS} === 1 && {NOTE}.hidden")
    is_clean(page, screen)


async def test_a_check_is_of_one_moment(program: str, monkeypatch: pytest.MonkeyPatch) -> None:
    """If another analyst changes the schedule during the check, it is shown again; a difference is one that stays."""
    traces.write("trace", traces.COUNT)
    await session(program, 1, "new A\nadd A 0\n")
    bench = Bench(program, Trace("trace").read_at_once(), "log", 1)
    bench.mirror.sync()
    questions: list[str] = []
    say = bench.say_one

    async def say_one(line: str) -> str:
        questions.append(line)
        if len(questions) == 1:
            await session(program, 2, "add A 1\n")
        return await say(line)

    monkeypatch.setattr(bench, "say_one", say_one)
    same(await bench.check("A"), True)
    same(questions, ["show A", "show A"])
    bench.row("A").events[1] = 2
    same(await bench.check("A"), False)
    await bench.session.stop()
