"""Lines of source files beside their locations."""

import os

import traces
from comparing import same
from stage import ROWS, SAID, Stage, focus, is_clean, logged, new, press


async def test_eleven_lines_round_a_place(stage: Stage) -> None:
    traces.write("trace", "T1|w(a)|main.c:20\nT2|w(a)|main.c:30\n")
    os.mkdir("source")
    traces.write("source/main.c", "\n".join(f"line {number};" for number in range(1, 60)))
    screen, page = await stage.opened(None, "--source", "source")
    await new(page, 2)
    await page.click("#next-list .code .place")
    await page.until("document.querySelectorAll('.peek-line').length === 11")
    same(await page.run("document.querySelector('.peek-line.here').textContent"), "20line 20;")
    same(logged(), ["1 new A"])  # a look at the source adds no event
    is_clean(page, screen)


async def test_the_source_by_a_key(stage: Stage) -> None:
    traces.write("trace", traces.COUNT + "T0|w(z)|other.c:3\n")
    os.mkdir("source")
    traces.write("source/count.c", "\n".join(f"line {number};" for number in range(1, 60)))
    screen, page = await stage.opened(None, "--source", "source")
    await new(page, 3)
    here = "!document.getElementById('peek').hidden && document.querySelector('.peek-line.here').textContent"
    await page.key("v")
    await page.until(f"{here} === '17line 17;'")
    await page.key("ArrowDown")
    await page.until("document.getElementById('peek').hidden")
    await page.key("v")  # of an event that may not come next
    await page.until(f"{here} === '5line 5;'")
    await press(page, "1")
    await page.until(f"document.getElementById('peek').hidden && {ROWS} === 1")
    await focus(page, "stage")
    await page.key("Home")
    await page.key("v")
    await page.until(f"{here} === '17line 17;'")
    await page.click("#space .row .pos")
    await page.until("document.getElementById('peek').hidden")
    is_clean(page, screen)


async def test_a_place_without_a_source(stage: Stage) -> None:
    """A click on it says so."""
    traces.write("trace", "T1|w(x)|main.c:3\nT2|w(x)|<b>.c:3\n")
    os.mkdir("source")
    traces.write("source/main.c", "one\ntwo\n")
    screen, page = await stage.opened(None, "--source", "source")
    await new(page, 2)
    for at, place in enumerate(("main.c:3", "<b>.c:3")):
        await page.click("#next-list .code .place", at)
        await page.until(f"{SAID} === 'the source folder has no line for {place}'")
    same(logged(), ["1 new A"])
    is_clean(page, screen)


async def test_the_source_near_an_edge(stage: Stage) -> None:
    """It appears at a side with room, and in the window."""
    traces.write("trace", "T1|w(a)|main.c:20\nT2|w(a)|main.c:30\n")
    os.mkdir("source")
    traces.write("source/main.c", "\n".join(f"line {number}; {'and more ' * 20}" for number in range(1, 60)))
    inside = (
        "(() => { const b = document.getElementById('peek').getBoundingClientRect(); "
        "return b.height > 100 && b.top >= 0 && b.bottom <= innerHeight && b.left >= 0 && b.right <= innerWidth; })()"
    )
    wide = "Math.abs(document.getElementById('peek').offsetWidth - Math.min(720, 0.94 * innerWidth)) < 2"
    screen, page = await stage.opened(None, "--source", "source")
    await new(page, 2)
    for width, height in ((1440, 900), (1000, 500), (320, 640)):
        await page.size(width, height)
        await page.until(f"innerWidth === {width} && innerHeight === {height}")
        await page.click("#next-list .code .place")
        await page.until(f"!document.getElementById('peek').hidden && {inside}")
        same((width, await page.run(wide)), (width, True))  # as much of its lines is seen as can be
        same(await page.run("document.querySelector('.peek-head').textContent"), "main.c:20")
        await page.key("Escape")
    is_clean(page, screen)
