"""Runs of events that are drawn as one block."""

import traces
from comparing import same
from page_parts import CURSOR
from sessions import session
from stage import LENGTH, NEXT, ROWS, Stage, focus, is_clean, new, press, settled

# What a screen reader says of where each row is.
NUMBERS = "[...document.querySelectorAll('#space .row')].map((row) => `${row.ariaPosInSet}/${row.ariaSetSize}`).join()"
# How far each row is from where its number in the list puts it.
ASTRAY = (
    "[...document.querySelectorAll('#space .row')].sort((one, other) => one.dataset.p - other.dataset.p)"
    ".map((row, at) => parseFloat(row.style.top) - 22 * at).filter((by) => by).join()"
)


async def test_rows_below_a_block_move_up(stage: Stage, program: str) -> None:
    """A run that becomes a block takes one row, and what is below it follows."""
    traces.write("trace", "".join(f"T{at // 8 % 2}|w(a{at // 8 % 2})|a:{at}\n" for at in range(32)))
    screen, page = await stage.opened()
    await new(page, 2)
    await session(program, 2, "".join(f"add A {event}\n" for event in range(16)))
    await settled(page)
    await page.until(f"{LENGTH} === '16 events' && !!document.querySelector('[data-p=\"15\"]')")
    await page.until(f"{ASTRAY} === ''")
    rows = await page.run(ROWS)
    await session(program, 2, "".join(f"add A {event}\n" for event in range(16, 32)))
    await page.until(f"{LENGTH} === '32 events' && !!document.querySelector('[data-p=\"31\"]')")
    await page.until(f"{ASTRAY} === ''")
    await session(program, 2, "back A\n" * 16)
    await settled(page)
    await page.until(f"{LENGTH} === '16 events' && {ROWS} === {rows}")
    await page.until(f"{ASTRAY} === ''")
    same(await page.run(NUMBERS), ",".join(f"{number}/{rows}" for number in range(1, rows + 1)))
    is_clean(page, screen)


async def test_enter_opens_a_block_and_closes_it(stage: Stage, program: str) -> None:
    """Also on an event in the midst of it, unless that reads a write: then it goes there."""
    traces.write("trace", "".join(f"T0|{'r' if at == 7 else 'w'}(a)|a:{at}\n" for at in range(12)))
    await session(program, 1, "new A\n" + "".join(f"add A {event}\n" for event in range(12)))
    screen, page = await stage.opened()
    await page.until(f"{LENGTH} === '12 events' && {ROWS} === 7 && {NEXT} === 0")
    await focus(page, "stage")
    await page.key("Home")
    await page.until("document.querySelector('.row.on')?.dataset.block === '6'")
    await page.key("Enter")
    await page.until(f"{ROWS} === 12 && {CURSOR} === '0'")
    for key in ("ArrowDown", "ArrowDown", "Enter"):
        await page.key(key)
    await page.until(f"{ROWS} === 7 && document.querySelector('.row.on')?.dataset.block === '6'")
    for key in ("ArrowDown", "ArrowDown"):
        await page.key(key)
    await page.until(f"{CURSOR} === '7'")
    await page.key("Enter")
    await page.until(f"{ROWS} === 7 && {CURSOR} === '6'")
    is_clean(page, screen)


async def test_who_put_the_events_of_a_block_there(stage: Stage, program: str) -> None:
    """A block has the latest entry of its events. It is blue if that is news of another."""
    traces.write("trace", "".join(f"T1|w(a)|a:{at}\n" for at in range(16)))
    await session(program, 1, "new A\n" + "".join(f"add A {event}\n" for event in range(4)))
    position = "document.querySelector('.row.block .pos')"
    screen, page = await stage.opened()
    await page.until(f"{LENGTH} === '4 events' && {NEXT} === 1")
    await press(page, "s")
    await session(program, 2, "".join(f"add A {event}\n" for event in range(4, 16)))
    await settled(page)
    await page.until(f"{LENGTH} === '16 events' && {position}?.title === 'put here by 2 in entry 10'")
    same(await page.run("document.querySelector('.row.block').dataset.block"), "10")
    same(await page.run(f"{position}.classList.contains('new')"), True)
    await press(page, "s")
    await page.until(f"!{position}.classList.contains('new')")
    is_clean(page, screen)
