"""The list of schedules: their order, their names, and which one opens."""

import traces
from browser import ALT, Browser
from comparing import same
from held_answers import shows
from page_parts import CURSOR, OPEN
from sessions import session
from stage import NEXT, ORDER, ROWS, SAID, Screen, Stage, focus, is_clean, logged, new, press, settled

SCHEDULES = "[...document.querySelectorAll('.sched .sched-name')].map((e) => e.textContent).join()"


async def test_schedules_of_one_entry(stage: Stage, program: str) -> None:
    """They are listed in the order in which they were made, and the keys lead round."""
    traces.write("trace", traces.FREE)
    await session(program, 2, "new M\nbatch new Z ; new B ; branch M 0 K\n")
    screen, page = await stage.opened()
    await page.until(f"{SCHEDULES} === 'M,Z,B,K' && {OPEN} === 'K' && {NEXT} === 8")
    for key, name in (("]", "M"), ("]", "Z"), ("[", "M"), ("[", "K"), ("[", "B")):
        await page.key(key)
        await page.until(f"{OPEN} === '{name}'")
    await settled(page)
    positions = "[...document.querySelectorAll('.sched')].map((e) => `${e.ariaPosInSet}/${e.ariaSetSize}`).join()"
    same(await page.run(positions), "1/4,2/4,3/4,4/4")
    is_clean(page, screen)


async def test_three_hundred_schedules(stage: Stage, program: str) -> None:
    """The list draws what is in sight, and stays where it was scrolled to while others work."""
    traces.write("trace", traces.COUNT)
    await session(program, 2, "".join(f"new S{number}\n" for number in range(300)))
    screen, page = await stage.opened()
    await page.until("document.getElementById('row-count').textContent === '300'")
    await page.until(f"{OPEN} === 'S299' && !!document.querySelector('.sched.on')")
    await settled(page)
    same(await page.run("document.querySelectorAll('.sched').length < 40"), True)
    await page.run("document.getElementById('row-list').scrollTop = 1200")
    await page.until("!!document.getElementById('schedule-S50')")
    await session(program, 2, "new Z\nadd S50 0\nadd S299 0\n")
    await settled(page)
    same(await page.run(f"[document.querySelector('#schedule-S50 .num').textContent, {ROWS}]"), ["1", 1])
    same(await page.run("document.getElementById('row-list').scrollTop"), 1200)
    await page.click("#schedule-S50")
    await page.until(f"{OPEN} === 'S50' && {ROWS} === 1")
    await page.key("]")
    await page.until(f"{OPEN} === 'S51'")
    await focus(page, "row-list")
    await page.key("End")
    await page.until(f"{OPEN} === 'Z' && document.querySelector('.sched.on').id === 'schedule-Z'")
    await page.key("Home")
    await page.until(f"{OPEN} === 'S0' && document.querySelector('.sched.on').id === 'schedule-S0'")
    await page.key("End")
    await page.until(f"{OPEN} === 'Z' && document.querySelector('.sched.on')?.id === 'schedule-Z'")
    await page.run("document.getElementById('row-list').scrollTop = 1200")
    await page.until("!!document.getElementById('schedule-S51')")
    await page.click("#schedule-S51")
    await page.until(f"{OPEN} === 'S51'")
    await page.key("[")
    await page.key("[")
    await page.until(f"{OPEN} === 'S49' && document.querySelector('.sched.on').id === 'schedule-S49'")
    is_clean(page, screen)


async def test_the_schedule_that_was_worked_on_last_opens(program: str) -> None:
    """Of this analyst's, and not the newest of all."""
    traces.write("trace", traces.COUNT)
    await session(program, 1, "new A\nnew B\n")
    await session(program, 2, "new C\nadd B 0\n")
    await session(program, 1, "add A 0\n")
    await session(program, 4, "new E\n")
    await session(program, 2, "add E 0\nnew D\nadd D 0\nadd D 1\n")
    for client, name, length in ((1, "A", 1), (2, "D", 2), (3, "D", 2), (4, "E", 1)):
        arguments = ("--client", str(client)) if client > 1 else ()
        async with Screen(program, "trace", "log", *arguments) as screen, Browser() as browser:
            page = await browser.page(screen.link)
            await page.until(f"{OPEN} === '{name}' && {ROWS} === {length} && {NEXT} === 3")
            same(await page.run("document.title"), f"trace · client {client}")
            is_clean(page, screen)


async def test_a_schedule_of_another_that_was_worked_on_last(stage: Stage, program: str) -> None:
    """It opens at the start, since this analyst changed it last."""
    traces.write("trace", traces.FREE)
    await session(program, 2, "new A\n")
    await session(program, 1, "new B\nadd A 0\n")
    await session(program, 2, "new C\n")
    screen, page = await stage.opened()
    await page.until(f"{OPEN} === 'A' && {ROWS} === 1")
    is_clean(page, screen)


async def test_a_name_that_is_not_given(stage: Stage) -> None:
    """Cancel makes nothing, nor does a press beside the field; what was typed is forgotten."""
    screen, page = await stage.opened(traces.COUNT)
    await new(page, 3)
    await page.click("#new")
    await page.until("document.getElementById('ask').open")
    await page.type("other")
    await page.click("#ask-no")
    await page.until("!document.getElementById('ask').open")
    await page.key("n")
    await page.until("document.getElementById('ask').open")
    same(await page.run("document.getElementById('ask-input').value"), "A.2")
    same(await page.run("getSelection().toString()"), "A.2")  # what is typed takes its place
    await page.type("B")
    await page.click("#ask-yes")
    await page.until(f"{OPEN} === 'B'")
    await page.key("b")
    await page.until("document.getElementById('ask').open")
    texts = await page.run("['ask-label', 'ask-note'].map((id) => document.getElementById(id).textContent)")
    same(texts, ["Branch B after its first 0 events", "all of it; move the cursor to branch earlier"])
    await page.click("#ask-no")
    same(logged(), ["1 new A", "1 new B"])
    is_clean(page, screen)


async def test_names_that_are_taken_or_gone(stage: Stage, program: str) -> None:
    """Refusals are shown in plain words, with the program's text beside them."""
    screen, page = await stage.opened(traces.COUNT)
    await new(page, 3, "A")
    await page.key("n")
    await page.until("document.getElementById('ask').open")
    await page.run("document.getElementById('ask-input').select()")
    await page.type("A")
    await page.key("Enter")
    await page.until(f"{SAID}.startsWith('refused: that name is taken')")
    same(await page.run("document.querySelector('#said .raw').textContent"), "refused 43 name taken")
    await press(page, "Backspace")
    assert (await page.run(SAID)).startswith("refused: there is no event to take back"), await page.run(SAID)
    await session(program, 2, "new B\n")
    link = "[...document.querySelectorAll('.entry a')].find((a) => a.textContent === 'B')"
    await page.until(f"!!{link}")
    await session(program, 2, "drop B\n")
    await settled(page)
    same(await page.run("document.querySelectorAll('.sched').length"), 1)
    await page.run(f"{link}.click()")
    await page.until(f"{SAID} === 'there is no schedule B any more'")
    same(logged(), ["1 new A", "2 new B", "2 drop B"])
    is_clean(page, screen)


async def test_the_ends_of_an_empty_schedule(stage: Stage) -> None:
    """Home and End find no event, and what is shown stays."""
    empty = "document.querySelector('#space .empty')?.textContent === 'No events yet. Choose one below.'"
    screen, page = await stage.opened(traces.COUNT)
    await new(page, 3)
    await page.until(empty)
    await focus(page, "stage")
    for key in ("Home", "ArrowUp", "End"):
        await page.key(key)
    await press(page, "Enter")
    same(await page.run(SAID), "choose an event first: ↑ and ↓ move the cursor")
    same(await page.run(empty), True)
    is_clean(page, screen)


async def test_the_cursor_stays_on_its_event(stage: Stage, program: str) -> None:
    """Wherever others move it. A block that takes it in has the cursor, and the next key goes on from there."""
    lines = [f"T1|w(a)|a:{at}\n" for at in range(8)] + [f"T2|w(b)|b:{at}\n" for at in range(20)]
    screen, page = await stage.opened(traces.FREE.replace("T1|", "T9|").replace("T2|", "T8|") + "".join(lines))
    await new(page, 10)
    await session(program, 2, "".join(f"add A {event}\n" for event in (0, 3, 4, 8, 9)))
    await shows(page, 5)
    await focus(page, "stage")
    for key in ("End", "ArrowUp", "ArrowUp"):
        await page.key(key)
    await page.until(f"{CURSOR} === '2'")
    await session(program, 2, "swap A 1\n")
    await settled(page)
    same(await page.run(f"[{ORDER}, {CURSOR}]"), ["0 4 3 8 9", "1"])
    await page.key("ArrowDown", ALT)
    await page.until(f"{ORDER} === '0 3 4 8 9' && {CURSOR} === '2'")
    await page.key("ArrowDown")
    await page.until(f"{CURSOR} === '3'")  # the first of its thread
    await session(program, 2, "".join(f"add A {event}\n" for event in (*range(10, 14), *range(16, 26))))
    await settled(page)
    same(await page.run("document.querySelector('#space .row.on')?.dataset.block"), "5")
    same(await page.run(CURSOR), "3")
    await page.key("ArrowUp")
    await page.until(f"{CURSOR} === '2'")
    is_clean(page, screen)
