"""What stays in sight if somebody scrolls, or the window changes, while rows are under way."""

import asyncio

import traces
from comparing import same
from held_answers import reading_of
from page_parts import AT_END, NARROWER, OPEN, ROW, SCROLLED, STAGE, TOP_ROW
from sessions import session
from stage import FRAMES, LENGTH, ROWS, Stage, focus, is_clean, logged, new, press_at_once, settled


async def test_scrolling_up_while_rows_are_under_way(program: str) -> None:
    """An answer to a request from the end of the list puts nobody back to the end."""
    async with reading_of(program) as reading:
        page = reading.page
        for by in (10 * ROW, 150 * ROW):  # to rows that are there, and to rows that must be fetched
            for pause in ("", f"await {FRAMES};"):  # the event of it comes after the answer, or before
                await page.run("hold()")
                await reading.add()
                await reading.read()
                steps = f"const to = {SCROLLED} -= {by}; {pause} letGo(); return to;"
                to = await page.run(f"(async () => {{ {steps} }})()")
                await reading.drawn()
                same(await page.run(SCROLLED), to)
                await reading.add()  # and from then on
                await reading.drawn()
                same(await page.run(SCROLLED), to)
                await page.run(f"{SCROLLED} = 1e9")
                await page.run(FRAMES)
                await reading.add()
                await reading.drawn()
                same(await page.run(AT_END), True)


async def test_scrolling_down_while_rows_are_under_way(program: str) -> None:
    """Who comes to the end before the answer does stays there."""
    async with reading_of(program) as reading:
        page = reading.page
        await page.run(f"{SCROLLED} = 900")
        await page.until(f"{TOP_ROW} === '41' && owed === 0")
        await page.run("hold()")
        await reading.add()
        await reading.read()
        await page.run(f"{SCROLLED} = 1e9; letGo()")
        await reading.drawn()
        same(await page.run(AT_END), True)


async def test_another_size_while_rows_are_under_way(program: str) -> None:
    """The end stays in sight, whether the change is drawn before the rows or after them."""
    async with reading_of(program) as reading:
        page = reading.page
        for height in (500, 1300):
            for steps in (f"await {FRAMES}; letGo()", f"letGo(); await {FRAMES}"):
                await page.run("hold()")
                await reading.add()
                await reading.read()
                await page.size(1440, height)
                await page.run(f"(async () => {{ {steps}; }})()")
                await reading.drawn()
                same(await page.run(AT_END), True)
                await page.size(1440, 900)
                await page.until(f"innerHeight === 900 && {AT_END}")


async def test_scrolling_up_while_the_size_changes(program: str) -> None:
    """Both in one frame: what was scrolled to stays. Without a scroll the end stays."""
    async with reading_of(program) as reading:
        page = reading.page
        for height in (420, 90):
            before = await page.run(f"{STAGE}.clientHeight")
            to = await page.run(f"{NARROWER.format(height)}; {SCROLLED} -= {30 * ROW}")
            await page.until(f"{STAGE}.clientHeight !== {before}")
            await page.run(FRAMES)
            same(await page.run(SCROLLED), to)
            await reading.add()
            await reading.drawn()
            same(await page.run(SCROLLED), to)
            await page.run(f"{SCROLLED} = 1e9")
            await page.run(FRAMES)
            await page.run(NARROWER.format(200))
            await page.run(FRAMES)
            same(await page.run(AT_END), True)


async def test_an_own_step_while_another_adds(program: str) -> None:
    """It is brought in sight, though news of another come before its rows."""
    async with reading_of(program) as reading:
        page = reading.page
        await page.run(f"{SCROLLED} = 900")
        await page.until(f"{TOP_ROW} === '41' && owed === 0")
        await focus(page, "next-list")
        await page.run("hold()")
        await press_at_once(page, "1")
        reading.length += 1
        await reading.read()
        await session(program, 2, "add A 201\n")
        reading.length += 1
        await reading.read()
        await page.run("letGo()")
        await reading.drawn()
        same(await page.run(AT_END), True)


LAST = "document.querySelector('.row[data-p=\"{}\"]')"


async def test_a_schedule_that_opens_while_another_adds(program: str) -> None:
    """It opens at its end, and the first event that is sought stays sought."""
    async with reading_of(program) as reading:
        page = reading.page
        await session(program, 2, "branch A 200 B\n")
        await settled(page)
        await page.run(f"{SCROLLED} = 900")
        await page.until(f"{TOP_ROW} === '41' && owed === 0")
        await page.run("hold()")
        await page.click(".sched", 1)
        await page.until(f"{OPEN} === 'B' && held.length > 0")
        await session(program, 2, "".join(f"add B {event}\n" for event in range(200, 220)))
        reading.length = 220
        await reading.read()
        await page.run("letGo()")
        await reading.drawn()
        same(await page.run(f"[{AT_END}, !!{LAST.format(219)}]"), [True, True])
        await focus(page, "stage")
        await page.run("hold()")
        await page.key("Home")
        await page.until("held.length > 0")
        await session(program, 2, "add B 220\n")
        reading.length = 221
        await reading.read()
        await page.run("letGo()")
        await page.until(f"{TOP_ROW} === '0' && document.querySelector('.row.on')?.dataset.p === '0'")
        await reading.drawn()
        same(await page.run(SCROLLED), 0)


async def test_a_part_that_was_hidden_stands_where_it_stood(program: str) -> None:
    """In a narrow window the schedule makes room for another part, and others go on."""
    async with reading_of(program, 760) as reading:
        page = reading.page
        for to, at in ((900, "41"), (1e9, None)):
            await page.run(f"{SCROLLED} = {to}")
            await page.run(FRAMES)
            await page.until("owed === 0")
            await page.click("#tabs button", 2)
            await page.until(f"{STAGE}.offsetHeight === 0")
            await reading.add()
            await reading.drawn()
            await page.click("#tabs button", 1)
            await page.until(f"{STAGE}.offsetHeight > 0")
            await reading.drawn()
            same(await page.run(TOP_ROW if at else AT_END), at or True)


async def test_another_size_in_the_midst(stage: Stage) -> None:
    """The window changes its size between keys, and what is drawn is what was done."""
    lines = [f"T{thread}|w(a{thread})|a:{at}\n" for at in range(60) for thread in (1, 2)]
    screen, page = await stage.opened("".join(lines))
    await new(page, 2)
    for width, height in ((760, 500), (2200, 1400), (1000, 300), (1440, 900)):
        await asyncio.gather(page.key("1"), page.size(width, height), page.key("2"))
        await asyncio.gather(page.size(height, width), page.key("1"), page.key("2"))
    await page.size(1440, 900)
    await page.until(f"{LENGTH} === '16 events' && {ROWS} === 16")
    same(sorted(logged()[1:]), sorted(f"1 add A {event}" for event in range(16)))
    foot = (
        "Math.abs(document.querySelector('.row[data-p=\"15\"]').getBoundingClientRect().bottom - "
        "document.getElementById('stage').getBoundingClientRect().bottom) < 12"
    )
    await page.until(foot)
    is_clean(page, screen)


TOP = (
    "(() => { const s = document.getElementById('stage').getBoundingClientRect(); "
    "return document.elementFromPoint(s.left + 60, s.top + 30)?.closest('.row')?.dataset.p; })()"
)


async def test_reading_above_while_another_adds(stage: Stage, program: str) -> None:
    """Who has scrolled up stays at what he reads."""
    lines = [f"T{at % 2}|w(a{at % 2})|a:{at}\n" for at in range(400)]
    traces.write("trace", "".join(lines))
    await session(program, 2, "new A\n" + "".join(f"add A {event}\n" for event in range(200)))
    screen, page = await stage.opened()
    await page.until(f"{LENGTH} === '200 events' && !!document.querySelector('.row[data-p=\"199\"]')")
    await settled(page)
    await page.run("document.getElementById('stage').scrollTop = 900")
    await page.until("!!document.querySelector('.row[data-p=\"41\"]')")
    await settled(page)
    before = await page.until(TOP)
    await session(program, 2, "".join(f"add A {event}\n" for event in range(200, 240)))
    await settled(page)
    same(await page.run("document.getElementById('next-list').dataset.length"), "240")
    same(await page.run(TOP), before)
    is_clean(page, screen)
