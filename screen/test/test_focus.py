"""What has the focus, also if what had it goes away."""

import traces
from browser import SHIFT, Page
from comparing import same
from page_parts import OPEN
from stage import NEXT, ROWS, Stage, focus, is_clean, logged, new, press


async def to_pane(page: Page, pane: str) -> None:
    """Presses the key for the next pane until this one has the focus."""
    for _ in range(10):
        await page.key("F6")
        if await page.run("document.activeElement.id") == pane:
            return
    raise AssertionError(f"no key leads to {pane}")


# Whether the list that has the focus, or its chosen line, shows so.
SEEN = """(() => {
  const list = document.activeElement;
  return [list, list.querySelector(".on")].filter(Boolean).map((one) => getComputedStyle(one)).some((style) =>
    (style.outlineStyle !== "none" && parseFloat(style.outlineWidth) > 0) || style.boxShadow !== "none") && list.id;
})()"""


async def test_the_focus_is_seen(stage: Stage) -> None:
    """In each pane, also in one that has no chosen line."""
    screen, page = await stage.opened(traces.COUNT)
    await page.until("document.querySelectorAll('.race').length === 1")
    panes = ("race-list", "stage", "next-list", "row-list", "feed")
    for pane in ("race-list", "row-list", "feed"):  # nothing is chosen, and no schedule is open
        await to_pane(page, pane)
        same(await page.run(SEEN), pane)
    await new(page, 3)
    await press(page, "1")
    await page.until(f"{ROWS} === 1")
    for keys in ((), ("ArrowDown",)):
        for pane in panes:
            await to_pane(page, pane)
            for key in keys if pane != "race-list" else ():
                await page.key(key)
            await page.until(f"{SEEN} === '{pane}'")
    await focus(page, "race-list")
    await page.key("ArrowDown")
    await page.until(f"document.querySelector('.race.on') && {SEEN} === 'race-list'")
    is_clean(page, screen)


async def test_the_focus_of_a_button_that_went_away(stage: Stage) -> None:
    """A thread ends by its button: the list has the focus then, and the next pane is the one after it."""
    at = "document.activeElement.id"
    screen, page = await stage.opened("T0|w(a)|a:1\nT1|w(b)|b:1\nT1|w(b)|b:2\n")
    await new(page, 2)
    await page.run("document.querySelector('#next-list .next.on .do button').focus()")
    await page.key("Enter")
    await page.until(f"{NEXT} === 1 && {ROWS} === 1")
    same(await page.run(at), "next-list")
    await page.key("F6")
    await page.until(f"{at} === 'row-list'")
    await page.key("F6", SHIFT)
    await page.until(f"{at} === 'next-list'")
    same(logged(), ["1 new A", "1 add A 0"])
    is_clean(page, screen)


async def enter(page: Page, button: str) -> None:
    """Presses a button by the keyboard."""
    await page.until(f"{button} !== null")
    await page.run(f"{button}.focus()")
    await page.key("Enter")


async def test_the_focus_is_never_lost(stage: Stage) -> None:
    """If what has it goes away, the list around it has it, or a pane. What may come next has it again later."""
    at, bar = "document.activeElement.id", "document.querySelector('#bar [data-does=\"{}\"]')"
    screen, page = await stage.opened(traces.COUNT)
    await page.until("document.querySelectorAll('.race').length === 1")
    await page.click(".race")
    await page.until(f"{OPEN} === 'Witness'")
    await enter(page, bar.format("e"))
    await page.until(f"{OPEN} === 'r7-12' && {at} === 'next-list'")
    await page.key("w")  # the list is hidden
    await page.until(f"{OPEN} === 'Witness' && {at} === 'stage'")
    await page.key("[")
    await page.until(f"{OPEN} === 'r7-12' && {at} === 'next-list'")
    await press(page, "1")
    await enter(page, "document.querySelector('#feed [aria-label=\"undo 1\"]')")
    await page.until(f"{ROWS} === 0 && {at} === 'feed'")
    await enter(page, bar.format("Drop"))
    await page.until(f"{OPEN} === 'No schedule' && {at} === 'stage'")
    await enter(page, bar.format("×"))
    await page.until(f"document.querySelector('#bar .aim') === null && {at} === 'stage'")
    await page.key("n")
    await page.until("document.getElementById('ask').open")
    await page.key("Enter")
    await page.until(f"{OPEN} === 'A' && {at} === 'next-list'")
    await page.key("Enter")
    await page.until(f"{ROWS} === 1")
    same(logged(), ["1 new r7-12", "1 add r7-12 0", "1 undo 1", "1 drop r7-12", "1 new A", "1 add A 0"])
    is_clean(page, screen)
