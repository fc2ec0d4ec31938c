"""What an undo takes back, in which order, and why it may be refused."""

import os

import traces
from comparing import same
from held_answers import DEAF, deaf, shows
from page_parts import OPEN, SCHEDULES
from sessions import session
from stage import LENGTH, NEXT, ROWS, SAID, TITLE, Screen, Stage, comes, focus, is_clean, logged, new, press, settled


async def test_runs_are_taken_back_in_their_order(stage: Stage, program: str) -> None:
    """A run is one step, also if other steps came after it and were taken back before it."""
    lines = [f"T1|w(a{at % 9})|a:{at}\n" for at in range(300)]
    screen, page = await stage.opened("".join(lines) + "".join(f"T2|w(b)|b:{at}\n" for at in range(200)))
    await new(page, 2)
    await press(page, "r")  # T1: five entries
    await page.until(f"{LENGTH} === '300 events'")
    await press(page, "2")
    await focus(page, "next-list")
    await press(page, "r")  # T2, which is the one that is left: four entries
    await page.until(f"{LENGTH} === '500 events'")
    await session(program, 2, "new B\n" + "add B 0\nback B\n" * 300)
    await settled(page)
    same(await page.run("document.getElementById('feed-count').textContent"), "612")
    steps = (("took back 4 entries", 301), ("entry 616: took back 6", 300), ("took back 5 entries", 0))
    for text, length in steps:
        await press(page, "u")
        same((await page.run(SAID))[: len(text)], text)
        await page.until(f"{LENGTH} === '{length} events'")
    await press(page, "u")
    same([line for line in logged() if line.startswith("1")][-1], "1 undo 0")
    is_clean(page, screen)


async def test_a_drop_that_is_taken_back(stage: Stage, program: str) -> None:
    """The schedule is open again. One that another analyst dropped offers nothing that cannot be done."""
    buttons = "[...document.querySelectorAll('#bar button')].map((b) => b.dataset.does).join()"
    screen, page = await stage.opened(traces.COUNT)
    await new(page, 3)
    await press(page, "1")
    await page.click("#bar button", 1)  # drop
    await page.until(f"{OPEN} === 'No schedule'")
    await press(page, "u")
    await page.until(f"{OPEN} === 'A' && {ROWS} === 1 && {NEXT} === 3 && {buttons} === 'b,Drop'")
    await settled(page)
    await session(program, 2, "drop A\n")
    await settled(page)
    await page.until(f"document.querySelector('#bar .line').textContent === 'Adropped' && {buttons} === ''")
    await session(program, 2, "undo\n")
    await settled(page)
    await page.until(f"{OPEN} === 'A' && {ROWS} === 1 && {NEXT} === 3 && {buttons} === 'b,Drop'")
    await page.click("#bar button", 1)
    await page.until(f"{OPEN} === 'No schedule'")
    await page.click(".race")
    await page.until(f"{OPEN} === 'Witness'")
    await press(page, "u")  # something else is looked at
    await page.until("document.querySelectorAll('.sched').length === 1")
    await press(page, "p")
    same(await page.run(SAID), "this is a witness: w works on it, e starts empty")
    is_clean(page, screen)


async def test_an_undo_of_very_many_entries(stage: Stage) -> None:
    """More come back at once than the page gets: it does not show a part as if it were all."""
    screen, page = await stage.opened("".join(f"T1|w(a{at % 9})|a:{at}\n" for at in range(60_000)))
    await new(page, 1)
    await page.key("r")
    await page.until(f"{LENGTH} === '60,000 events'")
    await page.until("document.querySelector('#said').textContent.includes('entries 1–938')")
    await press(page, "u")  # a run is one step
    same((await page.run(SAID))[:21], "took back 938 entries")
    await page.until(f"{LENGTH} === '0 events'")
    same(logged()[-1], "1 undo 1")
    await press(page, "u")
    same(logged()[-1], "1 undo 0")
    older = "[...document.querySelectorAll('#feed button')].find((b) => b.textContent === 'older')"
    link = "[...document.querySelectorAll('.entry a')].find((a) => a.textContent === '450')"
    for _ in range(2):
        before = await page.run("document.querySelectorAll('.entry').length")
        await page.run(f"{older}.click()")
        await page.until(f"document.querySelectorAll('.entry').length > {before}")
    await page.run(f"{link}.click()")
    await page.until("!!document.querySelector('.entry.flash')")
    same(await page.run("document.querySelector('.entry.flash').classList.contains('dead')"), True)
    is_clean(page, screen)


async def test_an_undo_of_what_is_in_part_taken_back(stage: Stage, program: str) -> None:
    """Another tab was faster with one of the entries: the page says what it took back, and why not all."""
    traces.write("trace", traces.FREE)
    screen = await stage.screen()
    page = await deaf(stage, screen, 3, script=DEAF)
    await page.run("hold()")
    await session(program, 1, "undo 3\n")
    await page.hover(".entry", 0)
    await page.click(".entry .quiet", 0)
    await page.until(f"{SAID}.startsWith('took back 2 entries; refused: that entry was taken back already')")
    await page.run("letGo()")
    await shows(page, 0)
    same(logged()[4:], ["1 undo 3", "1 undo 2", "1 undo 1"])
    await press(page, "1", "2")
    await shows(page, 2)
    await page.run("hold()")
    await session(program, 1, "undo 8\n")
    await page.hover(".entry", 0)
    await page.click(".entry .quiet", 0)
    await page.until(f"{SAID}.startsWith('took back 1 entry; refused: that entry was taken back already')")
    await page.run("letGo()")
    await shows(page, 0)
    is_clean(page, screen)


async def test_a_step_back_by_a_button(stage: Stage, program: str) -> None:
    """It takes back the event that was the last one when it was pressed, and each click takes one back."""
    traces.write("trace", traces.COUNT)
    screen = await stage.screen()
    page = await stage.page(screen.link, 360, 800)
    await new(page, 3)
    await press(page, "1", "1", "2")
    await page.click("#back", times=2)
    await page.until(f"{ROWS} === 1")
    await settled(page)
    x, y = await page.press("#back")
    await session(program, 2, "add A 1\n")
    await settled(page)
    same(await page.run(ROWS), 2)
    await page.release(x, y)
    await page.until(f"{SAID}.startsWith('not done: entry 6 of 2 changed A meanwhile')")
    await settled(page)
    await page.click("#back")
    await page.until(f"{ROWS} === 1")
    same(logged()[4:], ["1 back A", "1 back A", "2 add A 1", "1 back A"])
    is_clean(page, screen)


async def test_a_group_that_another_rests_on(stage: Stage, program: str) -> None:
    """Nothing of it is taken back. The page names the entry that rests on it, and leads to it."""
    screen, page = await stage.opened("".join(f"T1|w(a{at})|a:{at}\n" for at in range(9)))
    await new(page, 1, "A")
    await press(page, "1", "1", "1", "1")
    await page.until(f"{ROWS} === 4")
    await session(program, 2, "branch A 2 B\n")
    await settled(page)
    same(await page.run("document.querySelectorAll('.entry').length"), 3)
    await page.hover(".entry", 1)
    await page.click(".entry .quiet", 0)
    await page.until(f"{SAID}.startsWith('not taken back: entry 5 of 2 rests on it (branch A 2 B)')")
    flashed = "document.querySelector('.entry.flash .at')?.textContent"
    await page.until(f"{flashed} === '5'")
    await page.click("#said a")
    await page.until(f"{flashed} === '5'")
    same(await page.run(LENGTH), "4 events")
    same(logged()[-1], "2 branch A 2 B")
    is_clean(page, screen)


async def test_what_others_did_is_theirs(stage: Stage, program: str) -> None:
    """There is no button for it, and no key takes it back."""
    traces.write("trace", traces.COUNT)
    await session(program, 2, "new A\nadd A 0\nadd A 1\n")
    screen, page = await stage.opened()
    await page.until(f"{ROWS} === 2 && {NEXT} === 3")
    same(await page.run("document.querySelectorAll('.entry .quiet').length"), 0)
    await press(page, "u")
    assert "you have nothing to undo" in await page.run(SAID)
    await press(page, "2")
    await page.until(f"{ROWS} === 3 && document.querySelectorAll('.entry .quiet').length === 1")
    await press(page, "u")
    await page.until(f"{ROWS} === 2")
    same([line for line in logged() if line.startswith("1")], ["1 add A 2", "1 undo 3"])
    is_clean(page, screen)


async def test_what_was_taken_back_is_struck_out(stage: Stage, program: str) -> None:
    """At once, whoever took it back. It has no undo, and its title names the entry that took it back."""
    entry = "document.getElementById('entry-{}')"
    is_dead = entry + ".classList.contains('dead')"
    screen, page = await stage.opened(traces.FREE)
    await new(page, 8)
    await press(page, "1")
    await session(program, 2, "new B\n")
    await press(page, "u")
    await page.until(is_dead.format(1))
    await session(program, 2, "undo\n")
    await page.until(is_dead.format(2))
    for number, by in ((1, 3), (2, 4)):
        same((await page.run(entry.format(number) + ".title")).split("\n")[1], f"taken back by entry {by}")
        same(await page.run(entry.format(number) + ".querySelector('.quiet')"), None)
    same(await page.run(is_dead.format(0)), False)
    is_clean(page, screen)


async def test_a_long_run_is_one_step_after_a_reload(stage: Stage, program: str) -> None:
    """Its entries are taken back together. Those of a log that was there before are not."""
    traces.write("trace", "".join(f"T{at // 200}|w(a{at // 200})|a:{at}\n" for at in range(400)))
    async with Screen(program, "trace", "log") as screen:
        page = await stage.page(screen.link)
        await new(page, 2)
        await press(page, "r")
        await page.until(f"{LENGTH} === '200 events'")
        await page.call("Page.reload")
        await page.until(f"{TITLE} && {LENGTH} === '200 events' && {NEXT} === 1")
        await press(page, "u")
        await page.until(f"{LENGTH} === '0 events' && {NEXT} === 2")
        undone = [f"1 undo {entry}" for entry in (4, 3, 2, 1)]
        same([line[:8] for line in logged()], ["1 new A", *["1 batch "] * 4, *undone])
        await press(page, "r")
        await page.until(f"{LENGTH} === '200 events'")
        is_clean(page, screen)
    os.rename("log", "first")
    await session(program, 1, "new A\n" + "".join(f"add A {event}\n" for event in range(12)))
    async with Screen(program, "trace", "log", "--port", str(screen.port)) as again:
        await page.open(again.link)
        await page.until(f"{TITLE} && {LENGTH} === '12 events' && {NEXT} === 2")
        await press(page, "u")
        await comes(lambda: logged()[13:])
        same(logged()[13:], ["1 undo 12"])


async def test_a_click_on_an_undo_that_moves_down(stage: Stage, program: str) -> None:
    """Entries of others come in above it: the undo that was pressed is made."""
    screen, page = await stage.opened(traces.COUNT)
    await new(page, 3)
    await press(page, "1")
    await session(program, 2, "new B\n")
    await settled(page)
    at = await page.press(".entry .quiet", 0)
    await session(program, 1, "new D\nadd D 0\n")  # another tab of this analyst
    await session(program, 3, "new C\n")
    await settled(page)
    same(await page.run(f"[{SCHEDULES}, document.querySelectorAll('.entry').length]"), [4, 6])
    await page.release(*at)
    await page.until(f"{LENGTH} === '0 events'")
    same(logged()[-1], "1 undo 1")
    is_clean(page, screen)
