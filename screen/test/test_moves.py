"""Events that are moved in a schedule, by keys and by hand."""

import traces
from browser import ALT
from comparing import same
from held_answers import reading_of, shows
from page_parts import CURSOR, SCROLLED, TOP_ROW
from sessions import session
from stage import LENGTH, NEXT, ORDER, ROWS, SAID, Stage, focus, is_clean, logged, new, press, press_at_once, settled


async def test_swaps_by_keys_and_by_hand(stage: Stage) -> None:
    screen, page = await stage.opened("T1|w(a)|a:1\nT2|w(b)|b:1\nT3|w(c)|c:1\nT1|w(b)|a:2\n")
    await new(page, 3)
    await press(page, "1", "2", "3", "1")
    await page.until(f"{ROWS} === 4")
    await focus(page, "stage")
    await page.key("ArrowUp")  # the last event
    await page.key("ArrowUp")  # 2
    await page.key("ArrowUp", ALT)
    await page.until(f"{ORDER} === '0 2 1 3'")
    await page.key("ArrowUp", ALT)
    await page.until(f"{ORDER} === '2 0 1 3'")
    await settled(page)
    await page.drag("#space .row[data-p='3'] .lanes", 0, -66)
    await page.until("document.querySelector('.stop')?.textContent === 'stays: both access b, and one writes'")
    await settled(page)
    same(await page.run(ORDER), "2 0 1 3")
    await page.drag("#space .row[data-p='0'] .lanes", 0, 44)
    await page.until(f"{ORDER} === '0 1 2 3'")
    await settled(page)
    same(logged()[-1], "1 batch swap A 0 ; swap A 1")
    await page.drag("#space .row[data-p='2'] .place", 0, -22)  # who marks the text of a place moves nothing
    await press(page, "Backspace")
    same(logged()[-2:], ["1 batch swap A 0 ; swap A 1", "1 back A"])
    is_clean(page, screen)


MOVES = """T0|fork(T1)|a:1
T1|acq(m)|b:1
T1|rel(m)|b:2
T2|acq(m)|c:1
T2|rel(m)|c:2
T1|w(y)|b:3
"""
STOP = "document.querySelector('.stop')?.textContent"


async def test_moves_in_words(stage: Stage, program: str) -> None:
    """How far an event was moved, and why it goes no farther."""
    traces.write("trace", MOVES)
    await session(program, 1, "new A\n" + "".join(f"add A {event}\n" for event in range(6)))
    screen, page = await stage.opened()
    await page.until(f"{ROWS} === 6 && {NEXT} === 0")
    await focus(page, "stage")
    await page.key("Home")
    for downs, key, text in (
        (0, "ArrowDown", "one forks or joins the thread of the other"),
        (2, "ArrowDown", "both are of lock m"),
        (0, "ArrowUp", "both are of one thread"),
    ):
        for _ in range(downs):
            await page.key("ArrowDown")
        await settled(page)
        await press_at_once(page, key, ALT)
        await page.until(f"{STOP} === 'stays: {text}'")
        assert (await page.run(SAID)).startswith(f"not moved · {text}"), await page.run(SAID)
    same(len(logged()), 7)
    await page.key("End")
    await settled(page)
    await press_at_once(page, "ArrowUp", ALT)
    await page.until(f"{STOP} === undefined")
    assert (await page.run(SAID)).startswith("moved by 1"), await page.run(SAID)
    same(logged()[7:], ["1 swap A 4"])
    is_clean(page, screen)


async def test_an_event_that_is_moved_over_a_long_block(stage: Stage, program: str) -> None:
    """It goes as far as one step may, and the next step goes on."""
    traces.write("trace", "".join(f"T0|w(a)|a:{at}\n" for at in range(100)) + "T1|w(b)|b:1\n")
    await session(program, 1, "new A\n" + "".join(f"add A {event}\n" for event in range(101)))
    screen, page = await stage.opened()
    await page.until(f"{LENGTH} === '101 events' && !!document.querySelector('.row[data-p=\"100\"]')")
    await settled(page)
    await page.drag("#space .row[data-p='100'] .lanes", 0, -300)
    await page.until(f"{SAID}.startsWith('moved by 64') && {CURSOR} === '36'")
    await settled(page)
    same(logged()[-1].count(" ; ") + 1, 64)
    await page.drag("#space .row[data-p='36'] .lanes", 0, -300)
    await page.until(f"{SAID}.startsWith('moved by 36') && {CURSOR} === '0'")
    is_clean(page, screen)


async def test_where_a_move_that_stays_says_so(stage: Stage) -> None:
    """Between the two rows that may not change places."""
    top = "parseFloat(document.querySelector('.stop')?.style.top)"
    screen, page = await stage.opened("T1|w(a)|a:1\nT2|w(b)|b:1\nT3|w(c)|c:1\nT1|w(b)|a:2\n")
    await new(page, 3)
    await press(page, "1", "2", "3", "1")
    await shows(page, 4)
    await page.drag("#space .row[data-p='3'] .lanes", 0, -66)
    await page.until(f"{ORDER} === '0 1 3 2' && {top} === 2 * 22")
    await settled(page)
    await page.drag("#space .row[data-p='1'] .lanes", 0, 44)
    await page.until(f"{ORDER} === '0 1 3 2' && {top} === 2 * 22 && {CURSOR} === '1'")
    await settled(page)
    await page.drag("#space .row[data-p='0'] .lanes", 0, 66)
    await page.until(f"{ORDER} === '1 0 3 2' && {top} === 2 * 22 && {CURSOR} === '1'")
    is_clean(page, screen)


async def test_an_event_that_is_moved_into_a_block(stage: Stage, program: str) -> None:
    """The cursor goes with it, and the next key says what it is on."""
    lines = [f"T0|w(a)|a:{at}\n" for at in range(10)] + ["T1|w(b)|b:1\n", "T0|w(a)|a:10\n"]
    lines += [f"T1|w(b)|b:{at}\n" for at in range(9)] + ["T0|w(a)|a:11\n"]
    traces.write("trace", "".join(lines))
    await session(program, 1, "new A\n" + "".join(f"add A {event}\n" for event in range(22)))
    screen, page = await stage.opened()
    await page.until(f"{LENGTH} === '22 events' && !!document.querySelector('.row[data-p=\"11\"]')")
    await settled(page)
    await page.click(".row[data-p='11'] .info")
    await focus(page, "stage")
    await page.key("ArrowUp", ALT)
    await page.until("document.querySelector('.row.on')?.dataset.block === '11'")
    await page.key("ArrowUp", ALT)
    await page.until(f"{SAID} === 'a block cannot be moved: Enter opens it'")
    await page.key("b")
    await page.until("document.getElementById('ask-label').textContent === 'Branch A after its first 11 events'")
    await page.key("Escape")
    same(logged()[-1], "1 swap A 10")
    is_clean(page, screen)


async def test_who_put_what_was_moved(stage: Stage, program: str) -> None:
    """An event that is moved keeps who put it there, and a schedule keeps who made it."""
    traces.write("trace", "T0|w(x)|a:1\nT1|w(y)|b:1\n")
    await session(program, 2, "new A\nadd A 0\n")
    screen, page = await stage.opened()
    await page.until(f"{ROWS} === 1")
    await focus(page, "next-list")
    await press(page, "2")
    await focus(page, "stage")
    await page.key("End")
    await page.key("ArrowUp", ALT)
    await page.until(f"{ORDER} === '1 0'")
    titles = "[0, 1].map((p) => document.querySelector(`#space .row[data-p='${p}'] .pos`).title).join('; ')"
    await page.until(f"{titles} === 'put here by you in entry 2; put here by 2 in entry 1'")
    await page.until("document.querySelector('.sched .who').textContent === '2'")
    is_clean(page, screen)


async def test_a_move_above_the_end_stays_in_sight(program: str) -> None:
    async with reading_of(program) as reading:
        page = reading.page
        await page.run(f"{SCROLLED} = 900")
        await page.until(f"{TOP_ROW} === '41' && owed === 0")
        await page.click("#space .row[data-p='46'] .info")
        await page.until("document.querySelector('.row.on')?.dataset.p === '46'")
        await settled(page)
        await page.run("hold()")
        await page.key("ArrowUp", ALT)
        await page.until("held.length > 0 && owed === 0")
        await reading.add()
        await reading.read()
        await page.run("letGo()")
        await reading.drawn()
        await page.until("document.querySelector('.row.on')?.dataset.p === '45'")
        same(await page.run(SCROLLED), 900)
