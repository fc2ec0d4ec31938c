"""Logs and traces that break, are replaced, or are not what they should be."""

import os
from collections.abc import Callable

import traces
from browser import Browser
from comparing import same
from sessions import session
from stage import Screen, Stage, is_clean, new, press


async def test_a_log_that_breaks_is_said(stage: Stage) -> None:
    screen, page = await stage.opened(traces.COUNT)
    await new(page, 3)
    await press(page, "1")
    os.truncate("log", 90)
    await page.until("document.getElementById('live').textContent.includes('shorter than it was')")
    is_clean(page, screen)


async def test_a_trace_that_is_recorded_anew_is_said(stage: Stage) -> None:
    """Its witnesses would be of another trace."""
    screen, page = await stage.opened(traces.COUNT)
    await new(page, 3)
    traces.write("trace", traces.COUNT.replace("count.c:12", "count.c:14"))
    await page.until("document.getElementById('live').textContent.includes('the trace was changed since')")
    is_clean(page, screen)


async def test_a_log_of_another_trace(program: str) -> None:
    traces.write("trace", traces.COUNT)
    await session(program, 1, "new A\n")
    traces.write("trace", traces.COUNT.replace("count.c:5", "count.c:4"))
    try:
        async with Screen(program, "trace", "log"):
            pass
    except AssertionError as why:
        assert "101" in str(why) or "other trace" in str(why), why
        return
    raise AssertionError("the screen began on a log of another trace")


async def test_a_trace_that_is_refused(program: str) -> None:
    traces.write("trace", "T1|rel(m)|a:1\n")
    try:
        async with Screen(program, "trace", "log"):
            pass
    except AssertionError as why:
        assert "release not held" in str(why), why
        return
    raise AssertionError("the screen began on a trace that the program refuses")


async def test_a_log_that_another_file_replaces(program: str) -> None:
    """The program goes on with the file that it opened, so what is drawn would stay as it is."""
    traces.write("trace", traces.COUNT)
    replacements: list[tuple[Callable[[bytes], bytes], str]] = [
        (lambda text: text, "not the file that the program writes"),
        (lambda text: text.replace(b"add A 0", b"add A 2") + b"1 add A 3\n!", "not the one that was read before"),
        (lambda text: text[:-1] + b" 1 add A 99999999999\n!", "no call that the program accepts"),
        (lambda text: text[:-1] + b" 1 add A 17\n!", "no call that the program accepts"),
    ]
    for replaced, why in replacements:
        async with Screen(program, "trace", "log") as screen, Browser() as browser:
            page = await browser.page(screen.link)
            await new(page, 3)
            await press(page, "1")
            with open("log", "rb") as file:
                text = file.read()
            with open("copy", "wb") as file:
                file.write(replaced(text))
            os.rename("copy", "log")
            await page.key("1")
            await page.until(f"document.getElementById('live').textContent.includes('{why}')")
            is_clean(page, screen)
        os.remove("log")


async def test_files_that_are_none(program: str) -> None:
    """Pipes with the names of the small files beside log and trace are passed over: nobody waits for a writer."""
    for name in ("x\u202ey.std", "z" * 200):
        traces.write(name, traces.COUNT)
        for path in ("log.names", name + ".confirmed"):
            os.mkfifo(path)
        async with Screen(program, name, "log") as screen, Browser() as browser:
            page = await browser.page(screen.link, 760, 500)
            await page.until("document.getElementById('title').textContent.length > 5")
            await new(page, 3)
            title = await page.run("document.getElementById('title').textContent + document.title")
            assert "\u202e" not in title, title
            await page.until("document.getElementById('keys').getBoundingClientRect().right <= innerWidth")
            os.truncate("log", 85)  # in its one entry, which a session that begins anew does not bring back
            await page.until("document.getElementById('live').textContent.includes('shorter than it was')")
            errors = (
                "(() => { const b = document.querySelector('#live .bad').getBoundingClientRect(); "
                "return b.right <= document.getElementById('link').getBoundingClientRect().left && b.height > 20; })()"
            )
            same(await page.run(errors), True)  # all of it is in sight
            is_clean(page, screen)
        for path in ("log.names", "log"):
            os.remove(path)
