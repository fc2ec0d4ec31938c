"""Double clicks and taps: the second press does not hit what came under the hand after the first."""

import time

import traces
from browser import DOUBLE, Page
from comparing import same
from held_answers import HOLD
from page_parts import NEXT_LENGTH, OPEN
from sessions import session
from stage import NEXT, ROWS, Stage, focus, is_clean, logged, press, settled


async def test_double_clicks(stage: Stage) -> None:
    """The second click hits what came under the hand after the first, and does not do that."""
    screen, page = await stage.opened(traces.COUNT)
    await page.until("document.querySelectorAll('.race').length === 1")
    await page.click(".race", times=2)
    await page.until(f"{OPEN} === 'Witness'")
    await page.click("#bar button", 1, times=2)  # start empty; then the two buttons of a schedule are there
    await page.until(f"{OPEN} === 'r7-12' && {NEXT_LENGTH} === '0'")
    await page.click(".next", times=2)
    await page.until(f"{ROWS} === 2 && {NEXT_LENGTH} === '2'")
    same(logged(), ["1 new r7-12", "1 add r7-12 0", "1 add r7-12 1"])
    await page.click("#new", times=2)
    await page.until("document.getElementById('ask').open")
    await page.click("#ask-yes", times=2)
    await page.until(f"{OPEN} === 'A'")
    same(logged()[3:], ["1 new A"])
    is_clean(page, screen)


async def touch(page: Page, x: float, y: float, when: float) -> None:
    point = [{"x": x, "y": y}]
    await page.call("Input.dispatchTouchEvent", type="touchStart", touchPoints=point, timestamp=when)
    await page.call("Input.dispatchTouchEvent", type="touchEnd", touchPoints=[], timestamp=when + 0.02)


async def tap(page: Page, selector: str, at: int, when: float) -> tuple[float, float]:
    """A finger at an element, at a time as the browser counts it."""
    x, y = await page.steady(selector, at)
    await page.run("window.aim = null")
    await touch(page, x, y, when)
    return x, y


async def test_double_taps(stage: Stage) -> None:
    """The second tap of a finger hits what came under it after the first, and does not do that. A later one does."""
    screen, page = await stage.opened(traces.COUNT)
    await page.call("Emulation.setTouchEmulationEnabled", enabled=True)
    await page.until("document.querySelectorAll('.race').length === 1")
    now = time.time()
    await tap(page, ".race", 0, now)
    await page.until(f"{OPEN} === 'Witness'")
    x, y = await tap(page, "#bar button", 1, now + 5)  # start empty; then a schedule's buttons are there
    await page.until(f"{OPEN} === 'r7-12' && {NEXT_LENGTH} === '0'")
    under = f"document.elementFromPoint({x}, {y}).closest('button')?.dataset.does"
    same(await page.run(under), "b")  # branch
    await touch(page, x, y, now + 5.2)
    await press(page, "1")
    same(logged(), ["1 new r7-12", "1 add r7-12 0"])
    same(await page.run("document.getElementById('ask').open"), False)
    await touch(page, x, y, now + 20)
    await page.until("document.getElementById('ask').open")
    is_clean(page, screen)


async def test_quick_clicks_at_one_place(stage: Stage, program: str) -> None:
    """Each acts on what it hits, however soon it comes. The second one of a double click does so on the same alone."""
    traces.write("trace", traces.COUNT)
    await session(program, 2, "new B\nnew C\nnew D\nnew E\nadd B 0\n")
    screen, page = await stage.opened()
    await page.until(f"document.querySelectorAll('.sched').length === 4 && {NEXT} === 3")
    await settled(page)
    began = time.time()
    x, y = await page.press(".sched", 0, timestamp=began)
    await page.release(x, y, timestamp=began)
    await page.until(f"{OPEN} === 'B' && {ROWS} === 1")
    for number, name, clicks, there in ((1, "B", 1, "C"), (2, "C", 2, "C"), (3, "D", 1, "E")):
        await session(program, 2, f"drop {name}\n")  # the one below it comes to its place
        await settled(page)
        same(await page.run("document.querySelectorAll('.sched').length"), 4 - number)
        now = began + DOUBLE * number
        await page.mouse("mousePressed", x, y, button="left", clickCount=clicks, timestamp=now)
        await page.release(x, y, clicks, timestamp=now)
        await page.until(f"{OPEN} === '{there}'")
    is_clean(page, screen)


async def test_a_double_click_makes_one_schedule(stage: Stage) -> None:
    """However quick the program is: the second press may come when the first one's schedule is there."""
    screen, page = await stage.opened(traces.COUNT)
    await page.until("document.querySelectorAll('.race').length === 1")
    await page.click(".race")
    await page.until(f"{OPEN} === 'Witness'")
    await page.click("#bar button", 1)  # start empty
    await page.until(f"{OPEN} === 'r7-12' && {NEXT_LENGTH} === '0'")
    began = time.time()
    x, y = await page.press("#bar .of-aim button", 2, timestamp=began)  # start empty once more
    await page.release(x, y, timestamp=began)
    await page.until(f"{OPEN} === 'r7-12.2' && {NEXT} === 3")
    await focus(page, "next-list")
    await press(page, "1")  # the step of the button has ended
    await page.mouse("mousePressed", x, y, button="left", clickCount=2, timestamp=began + DOUBLE)
    await page.release(x, y, 2, timestamp=began + DOUBLE)
    await focus(page, "next-list")
    await press(page, "1")
    same(logged(), ["1 new r7-12", "1 new r7-12.2", "1 add r7-12.2 0", "1 add r7-12.2 1"])
    is_clean(page, screen)


async def test_a_double_click_on_a_block(stage: Stage, program: str) -> None:
    """It opens the block, whether the rows come before the second press or after it; another one closes it."""
    traces.write("trace", "".join(f"T1|w(a)|a:{at}\n" for at in range(40)) + "T2|w(b)|b:1\n")
    await session(program, 1, "new A\n" + "".join(f"add A {event}\n" for event in range(20)))
    screen, page = await stage.opened(script=HOLD)
    await page.until(f"{ROWS} === 7 && {NEXT} === 2")
    for is_late in (False, True):
        await settled(page)
        began = time.time()
        if is_late:
            await page.run("hold()")
        x, y = await page.press("#space .block .pos", timestamp=began)
        await page.release(x, y, timestamp=began)
        await page.until("owed === 0 && held.length === 1" if is_late else f"{ROWS} === 20")
        await page.mouse("mousePressed", x, y, button="left", clickCount=2, timestamp=began + DOUBLE)
        await page.release(x, y, 2, timestamp=began + DOUBLE)
        if is_late:
            await page.run("letGo()")
        await page.until(f"{ROWS} === 20")
        await press(page, "p")
        await page.until(f"owed === 0 && {ROWS} === 20")
        await page.click("#space .row[data-p='3'] .pos", times=2)
        await page.until(f"{ROWS} === 7")
    is_clean(page, screen)
