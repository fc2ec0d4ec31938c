"""The map beside a long schedule."""

import traces
from sessions import session
from stage import LENGTH, Stage, is_clean, settled


async def test_a_press_on_the_map(stage: Stage, program: str) -> None:
    """It leads there, and the box of what is in sight follows. Carmine marks the aim."""
    traces.write("trace", "".join(f"T{at % 2}|w(a{at % 2})|a:{at}\n" for at in range(900)))
    await session(program, 1, "new A\n" + "".join(f"add A {event}\n" for event in range(900)))
    scrolled = "document.getElementById('stage').scrollTop"
    screen, page = await stage.opened()
    await page.until(f"{LENGTH} === '900 events' && !document.getElementById('map').hidden")
    await settled(page)  # the map stays so high
    x, y, height = await page.run(
        "(() => { const b = document.getElementById('map').getBoundingClientRect(); "
        "return [b.left + b.width / 2, b.top, b.height]; })()"
    )
    for part in (0.25, 0.75):
        await page.run("window.aim = null")
        await page.mouse("mouseMoved", x, y + height * part)
        await page.mouse("mousePressed", x, y + height * part, button="left", clickCount=1)
        await page.release(x, y + height * part)
        row = f"document.querySelector('.row[data-p=\"{int(900 * part)}\"]')"
        await page.until(f"{row} && Math.abs({scrolled} - {900 * 22 * part} + {height / 2}) < 40")
        box = f"Math.abs(parseFloat(document.querySelector('#map b').style.top) - 100 * {scrolled} / 19806) < 1"
        await page.until(box)
    is_clean(page, screen)


async def test_a_hand_that_moves_on_the_map(stage: Stage, program: str) -> None:
    """What is in sight follows as long as the button is down. The accesses of the aim have their marks."""
    lines = [f"T{at % 2}|w(a{at % 2})|a:{at}\n" for at in range(400)]
    lines[100], lines[301] = "T0|w(x)|b:1\n", "T1|w(x)|b:2\n"
    traces.write("trace", "".join(lines))
    await session(program, 1, "new r100-301\n" + "".join(f"add r100-301 {event}\n" for event in range(400)))
    scrolled = "document.getElementById('stage').scrollTop"
    marks = "[...document.querySelectorAll('#map u')].map((mark) => parseFloat(mark.style.top)).join()"
    screen, page = await stage.opened()
    await page.until(f"{LENGTH} === '400 events' && {marks} === '25,75.25'")
    await settled(page)  # the map stays so high
    await page.steady("#map")
    x, y, height = await page.run(
        "(() => { const b = document.getElementById('map').getBoundingClientRect(); "
        "return [b.left + b.width / 2, b.top, b.height]; })()"
    )
    await page.run("window.aim = null")
    await page.mouse("mouseMoved", x, y + height * 0.2)
    await page.mouse("mousePressed", x, y + height * 0.2, button="left", clickCount=1)
    for part in (0.4, 0.6):
        await page.mouse("mouseMoved", x, y + height * part, button="left", buttons=1)
        await page.until(f"Math.abs({scrolled} - {400 * 22 * part} + {height / 2}) < 40")
    await page.release(x, y + height * 0.6)
    await page.mouse("mouseMoved", x, y + height * 0.3)
    await page.run("new Promise((done) => requestAnimationFrame(() => setTimeout(done)))")
    await page.until(f"Math.abs({scrolled} - {400 * 22 * 0.6} + {height / 2}) < 40")
    is_clean(page, screen)
