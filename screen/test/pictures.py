#!/usr/bin/python3
"""Takes the pictures of docs/SCREEN.md by walking its tour: pictures.py PROGRAM [FOLDER] (docs)."""

import asyncio
import os
import sys
import tempfile
import time

if (SCREEN := os.path.dirname(os.path.dirname(os.path.abspath(__file__)))) not in sys.path:
    sys.dont_write_bytecode = True
    sys.path.insert(0, SCREEN)
import traces
from browser import Browser
from stage import LENGTH, NEXT, Screen, focus, logged, press

TOP = os.path.dirname(os.path.dirname(os.path.dirname(os.path.abspath(__file__))))


async def walk(program: str, to: str) -> None:
    trace = os.path.join(TOP, "examples", "pdsh.std")
    async with Screen(program, trace, "log") as screen, Browser() as browser:
        page = await browser.page(screen.link, 1280, 760)
        await page.until("document.querySelectorAll('.race').length > 0", 120)
        print(await page.run("[...document.querySelectorAll('.chip')].map((c) => c.textContent).join(', ')"))
        print(await page.run("document.querySelector('.race').textContent"))
        await page.key("F6")
        await page.key("ArrowDown")
        await page.until("!document.getElementById('pair').hidden", 30)
        await page.picture(os.path.join(to, "screen-witness.png"))
        print("witness:", await page.run(LENGTH))
        began = time.monotonic()
        await page.key("e")
        await page.until(f"{NEXT} > 20", 90)
        await focus(page, "next-list")
        print("next:", await page.run("document.querySelector('#next-list .reason').textContent"))
        for keys in ("t", "5", "2t"):
            await press(page, *keys)
            print(keys, await page.run(LENGTH), "|", await page.run("document.getElementById('said').textContent"))
        await page.until("document.querySelector('.pair-title')?.textContent === 'Aim: side by side'", 90)
        print(f"rebuilt from an empty schedule in {time.monotonic() - began:.1f} s")
        await press(page, "p")
        await page.picture(os.path.join(to, "screen-rebuilt.png"))
        print(*(line[:100] for line in logged()), sep="\n")
        print("faults of the page:", page.faults)


async def walk_to_a_deadlock(program: str, to: str) -> None:
    """The deadlock of examples/abba.c, in a folder that has another log."""
    traces.write("abba.std", traces.ABBA)
    async with Screen(program, "abba.std", "other") as screen, Browser() as browser:
        page = await browser.page(screen.link, 1280, 760)
        await page.until("document.querySelectorAll('.deadlock').length > 0", 120)
        await page.click(".deadlock")
        await page.until("!document.getElementById('pair').hidden", 90)
        await press(page, "w")
        await page.until("document.querySelector('.pair-title')?.textContent === 'Aim: deadlock'", 90)
        await page.picture(os.path.join(to, "screen-deadlock.png"))
        print("faults of the page:", page.faults)


async def main() -> None:
    program, to = os.path.abspath(sys.argv[1]), os.path.abspath(sys.argv[2] if len(sys.argv) > 2 else f"{TOP}/docs")
    with tempfile.TemporaryDirectory() as folder:
        os.chdir(folder)
        os.environ["XDG_STATE_HOME"] = os.path.join(folder, "state")
        await walk(program, to)
        await walk_to_a_deadlock(program, to)
        await Browser.end()
        os.chdir("/")


asyncio.run(main())
