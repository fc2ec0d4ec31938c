"""Answers that come late, and requests beside them."""

import traces
from comparing import same
from held_answers import HOLD, Reading
from sessions import session
from stage import LENGTH, NEXT, ROWS, Stage, is_clean, logged, new, press


async def test_one_list_is_asked_for_at_a_time(stage: Stage, program: str) -> None:
    """What others do while the answer is under way leads to one more request after it, however much it is."""
    traces.write("trace", "".join(f"T{at % 2}|w(a{at % 2})|a:{at}\n" for at in range(800)))
    await session(program, 2, "new A\nadd A 0\nadd A 1\n")
    screen = await stage.screen()
    page = await stage.page("about:blank")
    await page.call("Page.addScriptToEvaluateOnNewDocument", source=HOLD.replace('["view"]', '["frontier"]'))
    reading = Reading(program, page)
    reading.length = 2
    await page.open(screen.link)
    await reading.drawn()
    await page.run("hold()")
    before = await page.run("window.views")
    for _ in range(3):
        await reading.add(5)
        await page.until(f"{LENGTH} === '{reading.length} events'")
        await page.until("owed === 0 && held.length === 1")
    same(await page.run("window.views") - before, 1)
    await page.run("letGo()")
    await reading.drawn()
    same(await page.run("window.views") - before, 2)
    is_clean(page, screen)


async def test_rows_come_while_more_are_asked_for(stage: Stage, program: str) -> None:
    """Rows that were requested before the latest are drawn, if they come before."""
    traces.write("trace", "".join(f"T{at % 2}|w(a{at % 2})|a:{at}\n" for at in range(800)))
    await session(program, 2, "new A\nadd A 0\nadd A 1\n")
    screen = await stage.screen()
    page = await stage.page("about:blank")
    await page.call("Page.addScriptToEvaluateOnNewDocument", source=HOLD)
    reading = Reading(program, page)
    reading.length = 2
    await page.open(screen.link)
    await reading.drawn()
    await page.run("hold()")
    for number in (1, 2):
        await reading.add(3)
        await page.until(f"{LENGTH} === '{reading.length} events' && owed === 0 && held.length >= {number}")
    await page.run("const [first, ...rest] = window.held; first(); window.held = rest;")
    await page.until(f"{ROWS} === 5")
    await page.run("letGo()")
    await reading.drawn()
    same(await page.run(ROWS), 8)
    is_clean(page, screen)


async def test_a_step_that_takes_long_is_said(stage: Stage) -> None:
    """The page says that it waits for the program, until the answer comes."""
    traces.write("trace", traces.COUNT)
    shown = "getComputedStyle(document.getElementById('said'), '::before').content.includes('waiting')"
    screen = await stage.screen()
    page = await stage.page("about:blank")
    await page.call("Page.addScriptToEvaluateOnNewDocument", source=HOLD.replace('["view"]', '["add"]'))
    await page.open(screen.link)
    await new(page, 3)
    await page.run("hold()")
    await page.key("1")
    await page.until(f"held.length === 1 && {shown}")
    await page.run("letGo()")
    await page.until(f"!{shown} && {ROWS} === 1")
    is_clean(page, screen)


async def test_a_schedule_that_opens_while_a_witness_does(stage: Stage, program: str) -> None:
    """What comes next is that of the schedule, though the rows of the witness came later."""
    traces.write("trace", traces.COUNT)
    await session(program, 2, "new A\nadd A 0\n")
    screen, page = await stage.opened(script=HOLD)
    await page.until(f"{ROWS} === 1 && {NEXT} === 3 && document.querySelectorAll('.race').length === 1")
    await page.run("hold()")
    await page.click(".race")
    await page.until("held.length === 1")
    await page.click(".sched")
    await page.until("document.querySelector('#bar h2').textContent === 'A' && held.length === 2")
    await page.until("document.getElementById('next-list').dataset.length === '1'")
    await page.run("letGo()")
    await page.until(f"{ROWS} === 1 && owed === 0")
    await press(page, "2")
    await page.until(f"{ROWS} === 2 && {NEXT} === 3 && document.getElementById('pair').hidden")
    same(logged(), ["2 new A", "2 add A 0", "1 add A 2"])
    is_clean(page, screen)
