"""A program that answers questions gets questions, and another one gets batches; the page is the same."""

import os

import traces
from browser import Browser, Json
from comparing import same
from stage import LENGTH, NEXT, ROWS, Screen, focus, is_clean, logged, press

SHOWN = "[...document.querySelectorAll('#next-list .next')].map((n) => n.getAttribute('aria-label'))"
REASONS = "[...document.querySelectorAll('.next .reason')].map((r) => r.textContent + ' / ' + r.title)"


async def walked(program: str) -> tuple[list[Json], list[str]]:
    """What the page says at each step from a race to its pair, and the log."""
    answers = []
    async with Screen(program, "trace", "log") as screen, Browser() as browser:
        page = await browser.page(screen.link)
        await page.until("document.querySelectorAll('.race').length === 1")
        await page.click(".race")
        await page.until("!document.getElementById('pair').hidden")
        answers.append(await page.run(f"{LENGTH} + document.getElementById('pair').textContent"))
        await page.key("e")
        await page.until(f"{NEXT} === 3")
        await focus(page, "next-list")
        for keys, rows in (("11", 2), ("3", 3), ("2", 4)):
            answers.append(await page.run(SHOWN) + await page.run(REASONS))
            await press(page, *keys)
            await page.until(f"{ROWS} === {rows} && document.getElementById('next-list').dataset.length === '{rows}'")
        answers.append(await page.run(SHOWN) + await page.run(REASONS))
        is_clean(page, screen)
    return answers, logged()


ASKING = os.path.join(os.path.dirname(os.path.abspath(__file__)), "asking.py")


async def test_questions_and_batches_say_the_same(program: str) -> None:
    traces.write("trace", traces.COUNT)
    plain = await walked(program)
    os.rename("log", "plain.log")
    os.environ["RACEBENCH"] = program
    asked = await walked(ASKING)
    same(asked, plain)
    for part in ("not begun", "would miss the write", "lock m held by T2", "waits for T1"):
        assert any(part in one for steps in plain[0][1:] for one in steps), (part, plain[0])
    with open("asked", encoding="ascii") as file:
        lines = file.read().splitlines()
    assert any(line.startswith("? next ") for line in lines), lines
    assert "? witness 7 12" in lines, lines
    same([line for line in lines if line.startswith("batch") and " ; new " in line], [])
    os.rename("log", "asked.log")
    os.environ["WITNESS"] = "unknown"  # a program that answers some questions and not this one
    same(await walked(ASKING), plain)
    del os.environ["WITNESS"]
    os.rename("log", "some.log")
    os.remove("asked")
    os.environ["QUESTIONS"] = "unknown"  # one that answers none: it gets batches that are refused
    same(await walked(ASKING), plain)
    del os.environ["QUESTIONS"]
    with open("asked", encoding="ascii") as file:
        lines = file.read().splitlines()
    assert any(line.startswith("batch") and " ; new " in line for line in lines), lines
    same([line for line in lines if line.startswith("? ") and line != "? rows"], [])
