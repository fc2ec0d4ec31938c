"""Who reads which write."""

import traces
from comparing import same
from held_answers import shows
from sessions import session
from stage import LENGTH, NEXT, ROWS, Stage, focus, is_clean, new, press, settled

READS = "document.querySelector('.reads')?.textContent"


async def test_who_reads_whom(stage: Stage, program: str) -> None:
    """Over a write its reads are named, over a read its write; lines lead from one to the other."""
    traces.write("trace", "T1|r(x)|a:1\nT1|w(x)|a:2\nT2|r(x)|b:1\nT3|r(x)|c:1\nT3|w(y)|c:2\n")
    await session(program, 1, "new A\n" + "".join(f"add A {event}\n" for event in range(5)))
    screen, page = await stage.opened()
    await page.until(f"{ROWS} === 5 && {NEXT} === 0")
    await focus(page, "stage")
    for key, reads, lines, linked in (
        ("Home", "reads the initial value", 0, ""),
        ("ArrowDown", "is read at 2, 3", 2, "1,2,3"),
        ("ArrowDown", "reads the write at 1", 1, "1,2"),
    ):
        await page.key(key)
        await page.until(f"{READS} === {reads!r}")
        same(await page.run("document.querySelectorAll('#edges path').length"), lines)
        shown = "[...document.querySelectorAll('.row.linked')].map((r) => r.dataset.p).sort().join()"
        same(await page.run(shown), linked)
    label = "document.querySelector('.row.on').getAttribute('aria-label')"
    same(await page.run(label), "position 2, event 2, T2 reads x, b:1, reads the write at 1")
    await page.key("End")
    await page.until(f"{READS} === undefined && document.querySelectorAll('#edges path').length === 0")
    is_clean(page, screen)


async def test_a_write_of_many_reads(stage: Stage, program: str) -> None:
    """Not all reads are named, and the page says so."""
    traces.write("trace", "T0|w(x)|a:0\n" + "".join(f"T{at}|r(x)|b:{at}\n" for at in range(1, 26)))
    await session(program, 1, "new A\n" + "".join(f"add A {event}\n" for event in range(26)))
    screen, page = await stage.opened()
    await page.until(f"{LENGTH} === '26 events' && {NEXT} === 0")
    await focus(page, "stage")
    await page.key("Home")
    await page.until(f"{READS} === 'is read at {', '.join(map(str, range(1, 25)))} and other positions'")
    same(await page.run("document.querySelectorAll('#edges path').length"), 24)
    is_clean(page, screen)


async def test_who_reads_whom_of_the_cursor_again(stage: Stage, program: str) -> None:
    """The row under the mouse comes first, and the one of the cursor when the mouse is gone."""
    reads = "[...document.querySelectorAll('.reads')].map((e) => e.textContent).join()"
    screen, page = await stage.opened("T0|w(x)|a:1\nT1|r(x)|b:1\nT2|w(y)|c:1\n")
    await new(page, 3)
    await press(page, "1", "2", "3")
    await shows(page, 3)
    await page.click("#space .row[data-p='1'] .info")
    await page.hover("#space .row[data-p='0'] .info", 0, f"{reads} === 'is read at 1'")
    await page.mouse("mouseMoved", 5, 5)
    await page.until(f"{reads} === 'reads the write at 0'")
    await page.key("s")  # it is drawn anew, and the mouse is gone still
    await page.key("Home")
    await page.until("document.querySelector('#space .row.on').dataset.p === '0'")
    await page.key("ArrowDown")
    await settled(page)
    await session(program, 2, "new B\nback A\n")
    await shows(page, 2)
    same(await page.run(reads), "reads the write at 0")
    is_clean(page, screen)


async def test_a_line_ends_at_the_read(stage: Stage) -> None:
    screen, page = await stage.opened("T0|w(x)|a:1\nT1|w(y)|b:1\nT1|r(x)|b:2\n")
    await new(page, 2)
    await press(page, "1", "2", "2")
    await focus(page, "stage")
    await page.key("End")
    await page.until(
        """[document.querySelector('.edge-end'), document.querySelector('#space .row.on .lanes')]
            .map((one) => one.getBoundingClientRect()).map(({ top, height }) => Math.round(top + height / 2))
            .reduce((one, other) => one === other)"""
    )
    is_clean(page, screen)


async def test_reads_of_a_long_trace(stage: Stage, program: str) -> None:
    """Who reads whom is found after the first page, and shown without another step."""
    traces.write("trace", "T1|w(x)|a:1\nT2|r(x)|a:2\n" * 12_000)
    await session(program, 2, "new A\nadd A 0\nadd A 1\n")
    screen, page = await stage.opened()
    await page.until(f"{ROWS} === 2")
    reads = "document.querySelector('.reads')?.textContent === 'reads the write at 0'"
    await page.hover("#space .row[data-p='1'] .what", shown=reads)
    is_clean(page, screen)


async def test_why_a_read_of_the_pair_may_not_come_next(stage: Stage) -> None:
    """The page shows it, unless the other access of the pair is what the read would miss."""
    pair = "[...document.querySelectorAll('#pair .access > .num')].map((e) => e.textContent).join()"
    but = "[...document.querySelectorAll('#pair .but')].map((e) => e.textContent).join()"
    screen, page = await stage.opened("T1|w(x)|a:1\nT1|w(x)|a:2\nT2|r(x)|b:1\n")
    await new(page, 2)
    await page.until(f"{pair} === '0,2' && {but} === 'but would miss the write by 1 T1 w x'")
    await press(page, "1")
    await page.until(f"{pair} === '1,2' && {but} === ''")
    is_clean(page, screen)
