"""Presses and drags: what is pressed is what is meant, also if the page changes before the button goes up."""

import traces
from comparing import same
from held_answers import held_page, shows
from page_parts import NEXT_LENGTH, OPEN, SCHEDULES
from sessions import session
from stage import LENGTH, ROWS, SAID, Stage, focus, is_clean, logged, new, press, settled


async def test_a_click_on_a_schedule_that_another_changes(stage: Stage, program: str) -> None:
    """The list is drawn anew between the press and the release: the schedule that was pressed opens."""
    screen, page = await stage.opened(traces.COUNT)
    await new(page, 3)
    await session(program, 2, "new B\nnew C\n")
    await settled(page)
    at = await page.press(".sched", 1)
    await session(program, 3, "add B 0\nadd B 1\n")
    await settled(page)
    same(await page.run("document.querySelectorAll('.sched .num')[1].textContent"), "2")
    await page.release(*at)
    await page.until(f"{OPEN} === 'B' && {ROWS} === 2")
    await settled(page)
    at = await page.press(".sched", 2)
    await session(program, 1, "drop A\n")  # the one that is pressed moves up, from under the hand
    await settled(page)
    same(await page.run(SCHEDULES), 2)
    await page.release(*at)
    await page.until(f"{OPEN} === 'C'")
    is_clean(page, screen)


async def test_a_click_on_what_may_come_next(stage: Stage, program: str) -> None:
    traces.write("trace", "".join(f"T{thread}|w(a{thread})|a:{at}\n" for at in range(9) for thread in (1, 2)))
    screen, page = await stage.opened()
    await new(page, 2)
    await settled(page)
    at = await page.press(".next", 1)
    await session(program, 2, "add A 0\n")
    await settled(page)
    same(await page.run(f"[{ROWS}, document.querySelector('.next .num').textContent]"), [1, "2"])
    await page.release(*at)
    await page.until(f"{ROWS} === 2")
    same(logged()[-1], "1 add A 1")
    await settled(page)
    at = await page.press(".next .do button", 2)  # run
    await session(program, 2, "add A 2\nadd A 4\n")
    await settled(page)
    same(await page.run(f"[{ROWS}, {NEXT_LENGTH}]"), [4, "4"])
    await page.release(*at)
    await page.until(f"{LENGTH} === '12 events'")
    assert logged()[-1].startswith("1 batch add A 3 ; add A 5 "), logged()[-1]
    is_clean(page, screen)


async def test_clicks_over_and_beside_the_schedule(stage: Stage, program: str) -> None:
    """The bar, the pair, the rows and the news are drawn anew between the press and the release."""
    screen, page = await stage.opened(traces.COUNT)
    await new(page, 3, "A")
    await press(page, "1", "1")
    await session(program, 2, "add A 2\n")
    await settled(page)
    await page.until(f"{ROWS} === 3 && {NEXT_LENGTH} === '3' && !document.getElementById('away').hidden")
    at = await page.press("#away button")
    await session(program, 2, "add A 3\n")
    await settled(page)
    await page.until("document.querySelector('.away-line').textContent.includes('+2')")
    await page.release(*at)
    await page.until(f"document.getElementById('away').hidden && {ROWS} === 4 && {NEXT_LENGTH} === '4'")
    await settled(page)
    at = await page.press("#space .row[data-p='1'] .info")
    await session(program, 2, "add A 4\n")
    await settled(page)
    same(await page.run(ROWS), 5)
    await page.release(*at)
    await page.until("document.querySelector('.row.on')?.dataset.p === '1'")
    at = await page.press("#bar button")  # branch
    await session(program, 2, "add A 5\n")
    await settled(page)
    same(await page.run(LENGTH), "6 events")
    await page.release(*at)
    await page.until("document.getElementById('ask').open")
    await page.key("Enter")
    await page.until(f"{OPEN} === 'A.b' && {ROWS} === 2")
    is_clean(page, screen)


async def test_a_press_that_is_taken_back(stage: Stage) -> None:
    """Who lets go elsewhere has thought better of it."""
    screen, page = await stage.opened(traces.COUNT)
    await new(page, 3)
    x, y = await page.press(".next")
    await page.mouse("mouseMoved", x, y - 200, button="left", buttons=1)
    await page.release(x, y - 200)
    await focus(page, "next-list")
    await press(page, "1")
    same(logged(), ["1 new A", "1 add A 0"])
    same(await page.run(f"{SAID}.includes('refused')"), False)
    is_clean(page, screen)


async def test_a_drag_that_is_cancelled(stage: Stage) -> None:
    """The row goes back, and the release of the button moves nothing."""
    screen, page = await stage.opened(traces.COUNT)
    await new(page, 3)
    await press(page, "1", "1", "2")
    await page.until(f"{ROWS} === 3")
    x, y = await page.press("#space .row[data-p='2'] .lanes")
    await page.mouse("mouseMoved", x, y - 22, button="left", buttons=1)
    await page.until("document.querySelector('.row.dragged')?.dataset.p === '2'")
    await page.run(
        "document.getElementById('stage').dispatchEvent(new PointerEvent('pointercancel', " "{ bubbles: true }))"
    )
    same(await page.run("document.querySelector('.row.dragged') === null"), True)
    await page.release(x, y - 22)
    await press(page, "Backspace")
    same(logged()[4:], ["1 back A"])
    is_clean(page, screen)


async def test_one_button_after_another(stage: Stage) -> None:
    """A click is not lost because the step of another button is under way."""
    traces.write("trace", traces.COUNT)
    screen = await stage.screen()
    page = await held_page(stage, screen, "frontier")
    await page.until("document.querySelectorAll('.race').length === 1")
    await page.click(".race")
    await page.until(f"{OPEN} === 'Witness'")
    await page.click("#bar button", 1)  # start empty
    await page.until(f"{OPEN} === 'r7-12' && held.length === 1")
    await page.click("#bar button", 1)  # drop
    await page.run("letGo()")
    await page.until(f"{OPEN} === 'No schedule'")
    same(logged(), ["1 new r7-12", "1 drop r7-12"])
    is_clean(page, screen)


async def test_where_a_button_goes_up(stage: Stage) -> None:
    """Anywhere on what was pressed it is a click, also far from where it went down. Beside that it is no click."""
    screen, page = await stage.opened(traces.COUNT)
    await new(page, 3, "A")
    await new(page, 3, "B")
    x, y = await page.press(".sched", 0)
    await page.mouse("mouseMoved", x + 90, y, button="left", buttons=1)
    await page.release(x + 90, y)
    await page.until(f"{OPEN} === 'A'")
    await settled(page)
    x, y = await page.press(".sched", 1)
    await page.mouse("mouseMoved", x, y - 24, button="left", buttons=1)
    await page.release(x, y - 24)
    await settled(page)
    same(await page.run(OPEN), "A")
    same(logged(), ["1 new A", "1 new B"])
    is_clean(page, screen)


async def test_a_drag_while_another_schedule_opens(stage: Stage) -> None:
    """The row that was dragged is not there any more, so nothing is moved."""
    screen, page = await stage.opened(traces.FREE)
    await new(page, 8, "B")
    await new(page, 8, "A")
    await press(page, "1", "2", "3")
    await shows(page, 3)
    x, y = await page.press("#space .row[data-p='2'] .lanes")
    await page.mouse("mouseMoved", x, y - 22, button="left", buttons=1)
    await page.until("document.querySelector('.row.dragged')?.dataset.p === '2'")
    await page.key("[")
    await page.until(f"{OPEN} === 'B' && document.getElementById('next-list').dataset.length === '0'")
    await page.release(x, y - 22)
    await press(page, "1")
    same(logged()[5:], ["1 add B 0"])
    is_clean(page, screen)
