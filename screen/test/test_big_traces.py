"""A trace of 1,048,576 events, and a schedule of 100,000."""

import time

import traces
from comparing import same
from sessions import batches
from stage import LENGTH, NEXT, Stage, focus, is_clean, logged, new, press

EVENTS = 100_000
# How long the look for the races of a million events may take, in seconds.
LONG = 1800
SEEN = "[...document.querySelectorAll('.row')].some((r) => r.offsetTop <= 20000 && r.offsetTop > 19900)"
FREE = "[...document.querySelectorAll('.next.yes')].find((n) => n.dataset.t < 9).dataset.t"


async def test_a_million_events(stage: Stage, program: str) -> None:
    traces.big("trace")
    began = time.monotonic()
    screen, page = await stage.opened()
    await page.until("document.getElementById('facts').textContent.startsWith('1,048,576 events')")
    print(f"      drawn after {time.monotonic() - began:.1f} s")
    await new(page, 16)
    await batches(program, EVENTS)
    await page.until(f"{LENGTH} === '100,000 events'")
    await page.until("Number(document.getElementById('next-list').dataset.length) === 100000")
    await page.until("document.querySelectorAll('.race').length > 0", LONG)  # then all lists are full
    same(await page.run("document.querySelectorAll('*').length < 2000"), True)
    await focus(page, "next-list")
    free = int(await page.run(FREE))
    await press(page, str(free + 1))
    await page.until(f"{LENGTH} === '100,001 events'")
    assert logged()[-1].startswith("1 add A "), logged()[-1]
    await page.run("document.getElementById('stage').scrollTop = 20000")
    await page.until(SEEN)
    await page.until(f"{NEXT} === 16")
    is_clean(page, screen)
