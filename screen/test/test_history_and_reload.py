"""The browser's own means: back, forward, a reload, a second tab, no storage."""

import os

import traces
from browser import Browser
from comparing import same
from held_answers import HOLD
from page_parts import AIM, EXPLAINED, OPEN, RACES, ROW, TOP_ROW
from sessions import session
from stage import LENGTH, NEXT, ROWS, Screen, Stage, focus, is_clean, logged, new, press, settled


async def test_back_and_forward(stage: Stage) -> None:
    """They lead through what was looked at, and leave no entry."""
    screen, page = await stage.opened(traces.SEVERAL)
    await page.until(f"{RACES} === 2")
    await page.click(".race", 0)
    await page.until(f"{OPEN} === 'Witness'")
    first = await page.run(AIM)
    await page.click(".race", 1)
    await page.until(f"{OPEN} === 'Witness' && {AIM} !== '{first}'")
    second = await page.run(AIM)
    await press(page, "e")
    name = await page.until(f"{ROWS} === 0 && {NEXT} === 2 && {OPEN}")
    await page.run("history.back()")
    await page.until(f"{OPEN} === 'Witness' && {AIM} === '{second}'")
    await page.run("history.back()")
    await page.until(f"{OPEN} === 'Witness' && {AIM} === '{first}'")
    await page.run("history.go(2)")
    await page.until(f"{OPEN} === '{name}' && {AIM} === '{second}' && {NEXT} === 2")
    await settled(page)
    same(logged(), [f"1 new {name}"])
    is_clean(page, screen)


async def test_a_reload_shows_what_was_shown(stage: Stage, program: str) -> None:
    traces.write("trace", traces.SEVERAL)
    await session(program, 1, "new A\nnew B\nadd B 0\nnew C\n")
    screen, page = await stage.opened()
    await page.until(f"{OPEN} === 'C' && {RACES} === 2")
    await page.click(".sched", 1)
    await page.until(f"{OPEN} === 'B' && {ROWS} === 1")
    await page.call("Page.reload")
    await page.until(f"{OPEN} === 'B' && {ROWS} === 1 && {NEXT} === 2 && {RACES} === 2")
    await page.click(".race", 1)
    await page.until(f"{OPEN} === 'Witness'")
    aim = await page.run(AIM)
    await page.call("Page.reload")
    await page.until(f"{OPEN} === 'Witness' && {AIM} === '{aim}' && {RACES} === 2")
    await page.click(".chip", 2)
    await page.until(f"{RACES} === 3")
    await page.click(".race", 2)  # apart
    await page.until(EXPLAINED)
    await page.call("Page.reload")
    await page.until(EXPLAINED)
    await page.run("history.back()")
    await page.until(f"{OPEN} === 'Witness' && {AIM} === '{aim}'")
    is_clean(page, screen)


async def test_an_aim_that_was_dropped(stage: Stage) -> None:
    """A reload and a connection that comes back leave it so. A schedule that is opened anew has that of its name."""
    there = f"{OPEN}.startsWith('r') && {ROWS} === 0 && {NEXT} === 2"
    screen, page = await stage.opened(traces.SEVERAL, script=HOLD)
    await page.until(f"{RACES} === 2")
    await page.click(".race", 0)
    await page.until(f"{OPEN} === 'Witness'")
    aim = await page.run(AIM)
    await press(page, "e")
    await page.until(f"{there} && {AIM} === '{aim}'")
    await page.call("Page.reload")
    await page.until(f"{there} && {AIM} === '{aim}' && {RACES} === 2")
    await page.click("#bar .of-aim button")  # drop the aim
    await page.until(f"{AIM} === ''")
    await page.call("Page.reload")
    await page.until(f"{there} && {RACES} === 2 && owed === 0")
    await settled(page)
    same(await page.run(AIM), "")
    before = await page.run("window.socket.close(); window.views")
    await page.until(f"window.views > {before} && {there} && owed === 0")
    await settled(page)
    same(await page.run(AIM), "")
    await page.click(".sched")
    await page.until(f"{there} && {AIM} === '{aim}'")
    is_clean(page, screen)


async def test_two_tabs_of_one_analyst(stage: Stage, program: str) -> None:
    """What is done in one is not scrolled to in the other, and each looks at its own race."""
    traces.write("trace", "".join(f"T{at % 2}|w(a{at % 2})|a:{at}\n" for at in range(400)))
    await session(program, 1, "new A\n" + "".join(f"add A {event}\n" for event in range(200)))
    screen, page = await stage.opened()
    await page.until(f"{LENGTH} === '200 events' && {NEXT} === 2")
    await page.click("#link")
    link = await page.until("document.querySelector('#help input.link')?.value")
    other = await stage.page(link)
    await other.until(f"{LENGTH} === '200 events' && {NEXT} === 2 && !!document.querySelector('[data-p=\"199\"]')")
    await settled(other)
    await other.run(f"document.getElementById('stage').scrollTop = {40 * ROW}")
    await other.until(f"{TOP_ROW} === '40'")
    await page.click("#help button")
    await focus(page, "next-list")
    await press(page, "1", "2", "1")
    await page.until(f"{LENGTH} === '203 events' && !!document.querySelector('[data-p=\"202\"]')")
    await other.until(
        f"{LENGTH} === '203 events' && document.getElementById('next-list').dataset.length === '203' && "
        f"document.getElementById('space').style.height === '{203 * ROW + 6}px'"
    )
    await settled(other)
    same(await other.run(TOP_ROW), "40")
    is_clean(page, screen)
    is_clean(other, screen)


# Neither the tab nor the browser keeps anything.
NOTHING_KEPT = (
    "for (const name of ['localStorage', 'sessionStorage']) Object.defineProperty(window, name, "
    "{ get() { throw new DOMException('Access is denied for this document.', 'SecurityError'); } });"
)
NO_ROOM = "Storage.prototype.setItem = () => { throw new DOMException('It is full.', 'QuotaExceededError'); };"


async def test_a_browser_that_keeps_nothing(program: str) -> None:
    """It may allow nothing, or have no room. The page works as long as it is there."""
    traces.write("trace", traces.COUNT)
    for script in (NOTHING_KEPT, NO_ROOM):
        async with Screen(program, "trace", "log") as screen, Browser() as browser:
            page = await browser.page("about:blank")
            await page.call("Page.addScriptToEvaluateOnNewDocument", source=script)
            await page.open(screen.link)
            await new(page, 3)
            await press(page, "1")
            await page.click("#theme")
            same(logged(), ["1 new A", "1 add A 0"])
            is_clean(page, screen)
        os.remove("log")


async def test_what_a_browser_keeps(stage: Stage) -> None:
    """The theme stays after a reload. A tab of a narrow window says that it is the one that is shown."""
    screen, page = await stage.opened(traces.COUNT)
    await new(page, 3)
    ground = "getComputedStyle(document.body).backgroundColor"
    light = await page.run(ground)
    await page.click("#theme")
    await page.until(f"{ground} !== '{light}'")
    await page.run("window.isOld = true")
    await page.call("Page.reload")
    await page.until(f"!window.isOld && {NEXT} === 3")
    same(await page.run(f"[{ground} !== '{light}', document.documentElement.dataset.theme]"), [True, "dark"])
    await page.click("#theme")
    await page.until(f"{ground} === '{light}'")
    await page.size(760, 700)
    current = "[...document.querySelectorAll('#tabs button')].map((b) => b.getAttribute('aria-current')).join()"
    for at, shown in ((2, "false,false,true"), (0, "true,false,false"), (1, "false,true,false")):
        await page.click("#tabs button", at)
        await page.until(f"{current} === '{shown}'")
    is_clean(page, screen)
