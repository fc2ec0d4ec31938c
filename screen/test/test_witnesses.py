"""Witnesses and explanations: work on them, and what is shown when they are left."""

import traces
from browser import Page
from comparing import same
from held_answers import HOLD
from page_parts import AIM, EXPLAINED, OPEN, RACES
from sessions import session
from stage import LENGTH, NEXT, ROWS, SAID, TITLE, Stage, focus, is_clean, logged, press, settled


async def test_work_on_a_witness(stage: Stage) -> None:
    screen, page = await stage.opened(traces.COUNT)
    await page.until("document.querySelectorAll('.race').length === 1")
    await page.key("/")
    await page.key("ArrowDown")  # into the list, to the first race
    await page.until("!document.getElementById('pair').hidden")
    await press(page, "w")
    await page.until(f"{LENGTH} === '11 events'")
    same(len(logged()), 2)
    assert logged()[0].startswith("1 propose 7 12 "), logged()
    same(logged()[1], "1 batch new r7-12 ; adopt r7-12 0")
    await page.until("document.querySelector('.proposal')?.textContent.includes('7–12')")
    await page.click(".proposal button")
    await page.until("document.getElementById('ask').open")
    await page.run("document.getElementById('ask-input').select()")
    await page.type("copy")
    await page.key("Enter")
    await page.until("document.querySelector('#bar h2').textContent === 'copy'")
    same(logged()[2:], ["1 new copy", "1 adopt copy 0"])
    await page.click("#bar button", 1)  # drop
    await page.until("document.querySelectorAll('.sched').length === 1")
    same(logged()[-1], "1 drop copy")
    await settled(page)
    same(await page.run("document.querySelector('#bar h2').textContent"), "No schedule")  # no more than that
    same(await page.run("document.querySelectorAll('#bar .line:last-child button').length"), 4)
    await page.key("w")
    await page.until("document.querySelector('#bar h2').textContent === 'Witness'")
    is_clean(page, screen)


async def test_a_witness_that_is_kept_no_longer(stage: Stage) -> None:
    """Sixteen are kept for all tabs. One that is looked at longer is looked for again."""
    lines = [f"T{thread}|w(v{at})|{thread}.c:{at}\n" for thread in (1, 2) for at in range(60)]
    traces.write("trace", "".join(lines))
    screen = await stage.screen()
    page = await stage.page("about:blank", 1440, 600)
    await page.call("Page.addScriptToEvaluateOnNewDocument", source=HOLD)
    await page.open(screen.link)
    await page.until("document.querySelector('.chip')?.textContent === '60 races'")
    await focus(page, "race-list")
    await page.key("End")
    await page.until(f"{OPEN} === 'Witness' && {LENGTH}.startsWith('118 events') && {ROWS} > 0")
    await page.click("#link")
    other = await stage.page(await page.until("document.querySelector('#help input.link')?.value"))
    await page.click("#help button")
    await other.until("document.querySelectorAll('.race').length > 5")
    await focus(other, "race-list")
    chosen = "document.querySelector('.race.on')?.getAttribute('aria-posinset')"
    opened = "[...document.querySelectorAll('#bar .aim .short .num')].map((e) => e.textContent).join()"
    for at in range(1, 19):
        await other.key("ArrowDown")
        await other.until(f"{chosen} === '{at}' && {opened} === '{at - 1},{at + 59}'")
        await other.until(f"{OPEN} === 'Witness' && {LENGTH}.startsWith('{2 * at - 2} events')")
    await settled(page, other)
    before = await page.run("window.views")
    await page.click("#space .block")  # this asks for rows in vain, and then for those of the new witness
    await page.until(f"window.views >= {before + 2} && owed === 0 && {OPEN} === 'Witness' && {ROWS} > 0")
    await focus(page, "stage")
    await page.key("Home")
    await page.key("Enter")
    await page.until(f"{ROWS} > 20")
    is_clean(page, screen)
    is_clean(other, screen)


async def test_a_witness_of_no_events(stage: Stage) -> None:
    """It does not ask for any, and an explanation with a long place is read without scrolling it sideways."""
    note = "document.getElementById('note')"
    screen, page = await stage.opened(f"T1|w(x)|{'p' * 3000}:1\nT2|w(x)|b:1\n")
    await page.until("document.querySelectorAll('.race').length === 1")
    await page.click(".race")
    empty = "document.querySelector('#space .empty')?.textContent"
    await page.until(f"{empty} === 'No events are needed before these two.'")
    await page.key("x")
    await page.until(f"!{note}.hidden && {note}.textContent.includes('ppp')")
    for width in (1440, 320):
        await page.size(width, 900)
        await page.until(f"innerWidth === {width} && {note}.scrollWidth <= {note}.clientWidth")
    await page.key("e")
    await page.until(f"{NEXT} === 2")
    await page.until(f"{empty} === 'No events yet. Choose one below.'")
    is_clean(page, screen)


BUTTONS = "[...document.querySelectorAll('#bar .line:first-child button')].map((b) => b.textContent).join()"


async def test_a_witness_without_its_aim(stage: Stage) -> None:
    """It still shows its pair. It has no buttons that need the aim, and their keys say what they need."""
    pair = "document.querySelector('#pair:not([hidden]) .pair-title')?.textContent"
    screen, page = await stage.opened(traces.SEVERAL)
    await page.until(f"{RACES} === 2")
    await page.click(".race")
    await page.until(f"{OPEN} === 'Witness' && {pair} === 'Both are next'")
    same(await page.run(BUTTONS), "Work on it w,Start empty e,Why x")
    await page.click("#bar .of-aim button")  # drop the aim
    await page.until(f"{AIM} === '' && {BUTTONS} === 'Work on it w'")
    for key in "ex":
        await page.run(f"{SAID} && document.getElementById('said').replaceChildren()")
        await press(page, key)
        same(await page.run(SAID), "open a race or a deadlock first: it is the aim")
    same(await page.run(pair), "Both are next")
    await page.key("w")
    await page.until(f"{OPEN} === 'r0-5' && {LENGTH} === '0 events'")
    is_clean(page, screen)


async def test_escape_closes_an_explanation(stage: Stage) -> None:
    screen, page = await stage.opened(traces.SEVERAL)
    await page.until("document.querySelectorAll('.race').length === 2")
    await page.click(".race")
    await page.until(f"{OPEN} === 'Witness'")
    await page.key("x")
    await page.until("!document.getElementById('note').hidden")
    await page.key("Escape")
    await page.until("document.getElementById('note').hidden")
    same(await page.run(OPEN), "Witness")
    is_clean(page, screen)


async def explained(page: Page) -> None:
    """Opens a pair that is apart."""
    await page.until(f"{RACES} === 2")
    await page.click(".chip", 2)
    await page.until(f"{RACES} === 3")
    await page.click(".race", 2)
    await page.until(EXPLAINED)


async def test_an_explanation_that_was_left(stage: Stage) -> None:
    """With its aim it is gone, also after a reload; the browser's back button leads to it."""
    screen, page = await stage.opened(traces.SEVERAL)
    await explained(page)
    await page.click("#bar .of-aim button")  # drop the aim
    gone = f"{OPEN} === 'No schedule' && {AIM} === '' && document.getElementById('note').hidden"
    await page.until(gone)
    await page.call("Page.reload")
    await page.until(f"{RACES} === 2 && {TITLE} && {OPEN} === 'No schedule'")
    await page.until(gone)
    await page.run("history.back()")
    await page.until(EXPLAINED)
    is_clean(page, screen)


OPEN_ONES = "[...document.querySelectorAll('.sched.on .sched-name')].map((e) => e.textContent).join()"
ACTIVE = "document.getElementById('row-list').getAttribute('aria-activedescendant')"


async def test_no_schedule_is_chosen_if_none_is_open(stage: Stage, program: str) -> None:
    """An explanation takes its place, and the browser's buttons lead there and back."""
    traces.write("trace", traces.SEVERAL)
    await session(program, 2, "new A\nnew B\n")
    screen, page = await stage.opened()
    await page.until(f"{OPEN_ONES} === 'B'")
    await settled(page)
    await explained(page)
    await settled(page)
    same(await page.run(OPEN_ONES), "")
    same(await page.run(ACTIVE), None)
    await page.run("history.back()")
    await page.until(f"{OPEN} === 'B' && {OPEN_ONES} === 'B' && {ACTIVE} === 'schedule-B'")
    await page.run("history.forward()")
    await page.until(f"{EXPLAINED} && {OPEN_ONES} === '' && {ACTIVE} === null")
    await settled(page)
    await page.key("[")  # the one before none is the last
    await page.until(f"{OPEN} === 'B' && {OPEN_ONES} === 'B'")
    is_clean(page, screen)
