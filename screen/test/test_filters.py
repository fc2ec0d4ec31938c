"""The filter of races and that of threads, and the kinds of races that are shown."""

import traces
from comparing import same
from held_answers import HOLD
from page_parts import CHOSEN_THREAD, EMPTY, OPEN
from stage import NEXT, Stage, focus, is_clean, logged, press

CARDS = "[...document.querySelectorAll('.race')].map((r) => r.textContent).join('; ')"


async def test_races_filter_kinds_and_a_witness(stage: Stage) -> None:
    screen, page = await stage.opened(traces.SEVERAL)
    await page.until("document.querySelectorAll('.race').length === 2")
    cards = await page.run(CARDS)
    for part in ("two.c:5", "one.c:1", "w one.c:5", "r two.c:1", "another_variable_of_a_long_name", "×1"):
        assert part in cards, (part, cards)
    same(
        await page.run("[...document.querySelectorAll('.chip')].map((c) => c.textContent).join()"),
        "2 races,0 undecided,1 apart",
    )
    await page.key("/")
    await page.type("long two.c")
    await page.until("document.querySelectorAll('.race').length === 1")
    await page.key("Escape")
    await page.until("document.querySelectorAll('.race').length === 2")
    await page.click(".chip", 2)
    await page.until("document.querySelectorAll('.race').length === 3")
    await page.click(".chip", 0)
    await page.until("document.querySelectorAll('.race').length === 1")
    await page.click(".race")  # the pair that is apart: the explanation appears
    await page.until("document.querySelector('#note .explained')?.textContent.includes('apart')")
    title = await page.run("document.querySelector('#bar .line').textContent")
    assert title.startswith("No schedule shows this pairproved: "), title
    await page.click("#bar .line:last-child button")  # the aim is dropped, and its explanation with it
    await page.until("document.getElementById('note').hidden && !document.querySelector('#centre.none')")
    for chip in (1, 2):
        await page.click(".chip", chip)
    await page.until("document.querySelector('#race-list .empty')?.textContent === 'No pair of this kind.'")
    for chip in (0, 1, 2):
        await page.click(".chip", chip)
    await page.until("document.querySelectorAll('.race').length === 3")
    await page.click(".race")
    await page.until("document.querySelector('.pair-title')?.textContent === 'Both are next'")
    same(logged(), [])  # looking at pairs leaves nothing in the log
    is_clean(page, screen)


async def test_the_filter_of_threads(stage: Stage) -> None:
    """Those of the aim come first, then those that may go on. Enter chooses the first one that matches."""
    lines = [f"T0|fork(Z{number})|main.c:1\n" for number in range(14)]
    lines += [f"Z{number}|w(v{number})|w.c:{number}\n" for number in range(14)]
    lines += ["Z9|w(hit)|w.c:99\n", "Z12|w(hit)|w.c:98\n"]
    order = "[...document.querySelectorAll('#next-list .next')].map((n) => n.dataset.t).join()"
    screen, page = await stage.opened("".join(lines))
    await page.until("document.querySelectorAll('.race').length === 1")
    await page.click(".race")
    await page.until("!document.getElementById('pair').hidden")
    await press(page, "e")
    await page.until(f"{NEXT} === 15")
    same(await page.run(order), "0,10,13,1,2,3,4,5,6,7,8,9,11,12,14")
    await focus(page, "next-list")
    await press(page, "r")
    await page.until(f"{order}.startsWith('0,10,13') || {order}.startsWith('10,13')")
    await page.run("document.getElementById('next-filter').focus()")
    await page.type("w.c:7")
    await page.until(f"{order} === '8'")
    await page.type("77")
    await page.until("document.querySelector('#next-list .empty')?.textContent === 'Nothing matches.'")
    await page.key("Escape")
    await page.until(f"{NEXT} === 14 && document.activeElement.id === 'next-list'")
    await page.run("document.getElementById('next-filter').focus()")
    await page.type("Z11")
    await page.key("Enter")
    await page.until(f"{CHOSEN_THREAD} === '12' && document.activeElement.id === 'next-list'")
    await press(page, "Enter")
    same(logged()[-1], "1 add r28-29 25")
    is_clean(page, screen)


async def test_a_filter_with_no_match(stage: Stage) -> None:
    screen, page = await stage.opened(traces.COUNT)
    await page.until("document.querySelectorAll('.race').length === 1")
    await page.key("/")
    await page.type("no such place")
    await page.until(f"{EMPTY.format('race-list')} === 'Nothing matches.'")
    same(await page.run("document.getElementById('race-count').textContent"), "0 match")
    for key in ("Enter", "ArrowDown", "ArrowUp", "Enter"):
        await page.key(key)
    await page.key("/")
    await page.key("Escape")
    await page.until("document.querySelectorAll('.race').length === 1")
    same(await page.run(OPEN), "No schedule")
    await page.key("ArrowDown")
    await page.until(f"{OPEN} === 'Witness'")
    is_clean(page, screen)


async def test_a_list_of_races_that_was_scrolled(stage: Stage) -> None:
    """It shows other kinds, and the answer to another filter, from their first on, and is never empty."""
    lines = [f"T{thread}|w(v{at})|{thread}.c:{at}\n" for thread in (1, 2) for at in range(400)]
    screen, page = await stage.opened("".join(lines), script=HOLD)
    await page.until("document.querySelector('.chip')?.textContent === '400 races'")
    first = "[...document.querySelectorAll('.race')].map((r) => r.getAttribute('aria-posinset'))[0]"
    there = "!!document.querySelector('.race[aria-posinset=\"203\"]')"
    scroll = "document.getElementById('race-list').scrollTop = 200 * 58"
    await page.run(scroll)
    await page.until(there)
    await page.click(".chip", 1)
    await page.until(f"{first} === '1'")
    await page.run(scroll)
    await page.until(there)
    await page.run("document.getElementById('race-filter').focus()")
    await page.type("v")
    await page.until(f"{first} === '1' && document.getElementById('race-count').textContent === '400 match'")
    await page.run(scroll)
    await page.until(there)
    await page.run("window.was = document.getElementById('live').textContent; window.socket.close()")
    await page.until("document.getElementById('live').textContent !== window.was")
    await page.until("document.getElementById('live').textContent === window.was")
    await page.until(there)
    same(await page.run("document.getElementById('race-list').scrollTop"), 200 * 58)
    is_clean(page, screen)


async def test_races_that_are_known(stage: Stage) -> None:
    """They are left out of the list, and counted."""
    traces.write("trace", "T1|w(x)|one.c:1\nT1|w(y)|one.c:2\nT2|w(x)|two.c:5\nT2|w(y)|two.c:6\n")
    traces.write("old", "race 0 2 candidate\n  T7|w(x)|two.c:5\n  T8|w(x)|one.c:1\n")
    count = "document.getElementById('race-count').textContent"
    screen, page = await stage.opened(None, "--known", "old")
    await page.until(f"document.querySelectorAll('.race').length === 1 && {count} === '1 known left out'")
    same(await page.run("document.querySelector('.chip').textContent"), "1 race")
    await page.key("/")
    await page.type("one.c:1")
    await page.until(f"{count} === '0 match, 1 known left out'")
    is_clean(page, screen)
