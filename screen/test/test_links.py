"""The link of a screen: a second browser, a new link in the same tab, a page of another origin."""

import asyncio
import json

from aiohttp import web

import traces
from browser import Page
from comparing import same
from stage import NEXT, ROWS, TITLE, Stage, focus, is_clean, logged, new, press


async def test_a_link_for_another_browser(stage: Stage) -> None:
    screen, page = await stage.opened(traces.COUNT)
    await new(page, 3)
    await page.click("#link")
    await page.until("document.querySelector('#help input.link')?.value.includes('#')")
    other = await stage.page(await page.run("document.querySelector('#help input.link').value"))
    await other.until(f"{NEXT} === 3")
    await page.click("#help button")
    await focus(page, "next-list")
    await press(page, "1")
    await other.until(f"{ROWS} === 1")
    again = await stage.page(screen.link)
    await again.until("document.getElementById('live').textContent.includes('used already')")
    is_clean(other, screen)
    is_clean(page, screen)


async def test_the_link_is_there_to_be_copied(stage: Stage) -> None:
    """It is chosen, cannot be written over, and Close leads back."""
    screen, page = await stage.opened(traces.COUNT)
    await page.until("document.querySelectorAll('.race').length === 1")
    await page.click("#link")
    field = "document.querySelector('#help input.link')"
    link = await page.until(f"{field}?.value")
    assert link.startswith(f"{screen.base}/#") and link != screen.link, link
    same(await page.run("getSelection().toString()"), link)
    await page.key("x")
    same(await page.run(f"{field}.value"), link)
    await page.click("#help button")
    await page.until("!document.getElementById('help').open")
    await page.click("#keys")
    await page.until("document.getElementById('help').open")
    same(await page.run("document.querySelectorAll('#help kbd').length > 20"), True)
    await page.click("#help button")
    await page.until("!document.getElementById('help').open")
    same(logged(), [])
    is_clean(page, screen)


async def test_a_new_link_in_the_same_tab(stage: Stage) -> None:
    """It differs from the page in the fragment alone, so the browser itself would do nothing."""
    screen, page = await stage.opened(traces.COUNT)
    await page.until(TITLE)
    await page.click("#link")
    link = await page.until("document.querySelector('#help input.link')?.value")
    await page.run("sessionStorage.clear(); window.isOld = true")
    await page.open(link)
    await page.until(f"!window.isOld && {TITLE}")
    await new(page, 3)
    same(await page.run("location.hash"), "")
    is_clean(page, screen)


async def test_a_new_link_while_the_page_tries_to_connect(stage: Stage) -> None:
    """The page that is loaded then spends the link's ticket, and not the one that still tries."""
    screen, page = await stage.opened(traces.COUNT)
    await page.until(TITLE)
    await page.click("#link")
    link = await page.until("document.querySelector('#help input.link')?.value")
    await page.run("sessionStorage.clear(); window.isOld = true")
    ticket = json.dumps(link[link.index("#") :])
    await page.run(f"import('/net.js').then((net) => {{ location.hash = {ticket}; net.connect(); }}); 0")
    await page.until(f"!window.isOld && {TITLE}")
    await new(page, 3)
    is_clean(page, screen)


async def other_site(body: str) -> tuple[web.AppRunner, str]:
    """A page of another origin; its runner and its address."""

    async def answer(_: web.Request) -> web.Response:
        return web.Response(text=body, content_type="text/html")

    app = web.Application()
    app.router.add_get("/", answer)
    runner = web.AppRunner(app)
    await runner.setup()
    await web.TCPSite(runner, "127.0.0.1", 0).start()
    return runner, f"http://127.0.0.1:{runner.addresses[0][1]}/"


async def frames_in(page: Page) -> list[str]:
    """Of each frame that has come to its end the address that was refused, or `shown`."""
    tree = (await page.call("Page.getFrameTree"))["frameTree"]
    frames = [one["frame"] for one in tree.get("childFrames", [])]
    return [frame.get("unreachableUrl") or "shown" for frame in frames if frame["url"] not in ("", "about:blank")]


async def test_another_page_gets_nothing(stage: Stage) -> None:
    """A page of another origin can neither frame the screen, nor read it, nor open its socket."""
    traces.write("trace", traces.COUNT)
    screen = await stage.screen()
    page = await stage.page("about:blank")
    tries = f"""<iframe src="{screen.base}/"></iframe><script>
          const told = window.told = {{}};
          fetch("{screen.base}/").then(() => told.read = "read", () => told.read = "refused");
          fetch("{screen.base}/enter", {{method: "POST", body: "{screen.ticket}"}})
            .then(() => told.enter = "read", () => told.enter = "refused");
          const socket = new WebSocket("ws://127.0.0.1:{screen.port}/ws");
          socket.onopen = () => told.socket = "open"; socket.onerror = () => told.socket ??= "refused";
        </script>"""
    runner, address = await other_site(tries)
    await page.open(address)
    found = await page.until("Object.keys(window.told ?? {}).length === 3 && window.told")
    same(found, {"read": "refused", "enter": "refused", "socket": "refused"})
    while not (frames := await frames_in(page)):
        await asyncio.sleep(0.05)
    same(frames, [screen.base + "/"])
    await runner.cleanup()
    mine = await stage.page(screen.link)  # the ticket was not spent
    await mine.until("document.querySelectorAll('.race').length === 1")
    is_clean(mine, screen)
