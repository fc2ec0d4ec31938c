"""Two analysts at once: each sees what the other does."""

import asyncio
import glob
import os

import traces
from comparing import same
from page_parts import AT_END, SCROLLED
from sessions import session
from stage import (
    FRAMES,
    LENGTH,
    NEXT,
    ROWS,
    SAID,
    TITLE,
    Screen,
    Stage,
    comes,
    focus,
    is_clean,
    logged,
    new,
    press,
    settled,
)

AWAY = "[...document.querySelectorAll('.away-line')].map((l) => l.textContent.trim().replace(/ +/g, ' ')).join('; ')"


async def test_two_analysts(stage: Stage) -> None:
    """Each sees the other's steps; an undo that another's entry rests on names that entry."""
    traces.write("trace", traces.COUNT)
    one = await stage.screen()
    two = await stage.screen("--client", "2")
    page, other = await stage.page(one.link), await stage.page(two.link)
    await other.until(TITLE)
    await new(page, 3)
    await press(page, "1", "1")
    await page.until(f"{ROWS} === 2")
    await press(page, "Backspace")
    await page.until(f"{ROWS} === 1")
    await press(page, "u")
    await page.until(f"{ROWS} === 2")
    same(logged(), ["1 new A", "1 add A 0", "1 add A 1", "1 back A", "1 undo 3"])
    await other.until("document.querySelectorAll('.sched').length === 1")
    await other.click(".sched")
    await other.until(f"{ROWS} === 2")
    await settled(other)
    await other.key("b")
    await other.until("document.getElementById('ask').open")
    await other.key("Enter")
    await comes(lambda: logged()[-1] == "2 branch A 2 A.b")
    await press(page, "u")
    note = await page.run(SAID)
    assert note.startswith("not taken back: entry 5 of 2 rests on it"), note
    await page.until("document.querySelectorAll('.entry.flash').length === 1")
    await page.until(f"{AWAY} === '2 A.b made'")
    await page.key("s")
    await page.until("document.getElementById('away').hidden")
    await press(other, "u")
    await settled(page)
    same(await page.run("document.querySelectorAll('.sched').length"), 1)
    await press(page, "u")
    await page.until(f"{ROWS} === 1")
    is_clean(page, one)
    is_clean(other, two)


async def test_both_type_at_once(stage: Stage, program: str) -> None:
    """Two analysts add to one schedule at once: both pages show what the program shows."""
    traces.write("trace", "".join(f"T{thread}|w(a{thread})|a:{at}\n" for at in range(40) for thread in (1, 2)))
    one = await stage.screen()
    two = await stage.screen("--client", "2")
    page, other = await stage.page(one.link), await stage.page(two.link)
    await other.until(TITLE)
    await new(page, 2)
    await other.until("document.querySelectorAll('.sched').length === 1")
    await other.click(".sched")
    await other.until(f"{NEXT} === 2")
    await focus(other, "next-list")
    for _ in range(20):
        await asyncio.gather(page.key("1"), other.key("2"))
    for each in (page, other):
        await each.until(f"{LENGTH} === '40 events'")
    await settled(page, other)
    events = "[...document.querySelectorAll('#bar h2, #feed-count')].map((e) => e.textContent).join()"
    same(await page.run(events), await other.run(events))
    shown = (await session(program, 3, "show A\n")).split()
    same(len(shown), 41)
    is_clean(page, one)
    is_clean(other, two)


def looked_at() -> int | None:
    """How many entries the analyst has looked at, as his own folder keeps it."""
    for path in glob.glob(os.path.join(os.environ["XDG_STATE_HOME"], "racebench-screen", "*")):
        if path.endswith(".new"):  # it is being written
            continue
        with open(path, encoding="ascii") as file:
            return int(file.read().split()[1])
    return None


async def test_what_others_did_meanwhile(stage: Stage, program: str) -> None:
    traces.write("trace", traces.COUNT)
    async with Screen(program, "trace", "log") as screen:
        page = await stage.page(screen.link)
        await new(page, 3)
        await comes(lambda: looked_at() == 1)
    await session(
        program,
        7,
        "add A 0\nadd A 1\nbatch branch A 2 B ; add B 2\nback A\n" "propose 7 12 0 2 3 4 5 6 1 8 9 10 11\n",
    )
    async with Screen(program, "trace", "log") as screen:
        page = await stage.page(screen.link)
        await page.until(f"{AWAY} === '7 1 proposal; 7 A +2, −1; 7 B made, +1'")
        await page.until("document.querySelectorAll('.pos.new').length === 1")  # the event that is left of theirs
        await page.key("s")
        await page.until("document.getElementById('away').hidden && !document.querySelector('.fresh.is')")
        is_clean(page, screen)


# Keeps a proposal of this page back until another changes the schedule; then both come in one message.
TOGETHER = """Object.defineProperty(WebSocket.prototype, "onmessage", {
  set(act) {
    let kept = null;
    const behind = [];
    this.addEventListener("message", (message) => {
      const told = JSON.parse(message.data);
      if (!kept && told.entries?.[0]?.kind === "propose") {
        kept = told;
        window.isKept = true;
      } else if (kept && told.push === "log") {
        const data = JSON.stringify({ ...told, entries: [...kept.entries, ...told.entries] });
        kept = null;
        act.call(this, { data });
        for (const one of behind.splice(0)) act.call(this, one);
      } else if (kept) behind.push(message);
      else act.call(this, message);
    });
  },
})"""


async def test_a_proposal_among_steps_of_others(stage: Stage, program: str) -> None:
    """It is no step at the end of the schedule: who reads above it goes on to read there."""
    lines = "".join(f"T{at % 2}|w(a{at % 2})|a:{at}\n" for at in range(80))
    traces.write("trace", lines + "T2|w(x)|b:1\nT3|w(x)|c:1\n")
    await session(program, 2, "new A\n" + "".join(f"add A {event}\n" for event in range(70)))
    screen, page = await stage.opened(script=TOGETHER)
    await page.until(f"{LENGTH} === '70 events' && {NEXT} === 4 && !document.getElementById('pair').hidden")
    await settled(page)
    await page.run(f"{SCROLLED} = 88")
    await page.run(FRAMES)
    await page.key("p")
    await page.until("window.isKept")
    await session(program, 2, "add A 70\n")
    await page.until(f"{LENGTH} === '71 events' && {SAID}.startsWith('entry 71: proposal 0')")
    await settled(page)
    same(await page.run("document.getElementById('next-list').dataset.length"), "71")
    same(await page.run(f"[{SCROLLED}, {AT_END}]"), [88, False])
    is_clean(page, screen)
