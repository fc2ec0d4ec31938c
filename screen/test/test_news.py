"""News of others since the last look."""

import traces
from comparing import same
from held_answers import HOLD, shows
from page_parts import DID, OPEN
from sessions import session
from stage import NEXT, ROWS, TITLE, Stage, is_clean, new, press, press_at_once, settled

PROPOSAL = "propose 7 12 0 2 3 4 5 6 1 8 9 10 11\n"
LINES = "[...document.querySelectorAll('.away-line')].map((l) => l.textContent.trim().replace(/ +/g, ' '))"


async def test_news_of_each_kind(stage: Stage, program: str) -> None:
    """News since the last look are listed by analyst and schedule, the latest first, six lines at most."""
    traces.write("trace", traces.COUNT)
    await session(program, 1, "new A\nnew B\nnew C\n")
    await session(program, 2, PROPOSAL)
    screen, page = await stage.opened()
    await page.until(f"{OPEN} === 'C' && {NEXT} === 3")
    await press(page, "s")
    await session(program, 2, "adopt A 0\nswap A 5\nswap A 5\n")
    await page.until(f"{LINES}.join('; ') === '2 A took a proposal, 2 swaps'")
    await session(program, 3, "drop C\nadd B 0\nadd B 1\nback B\nundo\n")
    news = "3 took back 1 entry; 3 B +2, −1; 3 C dropped; 2 A took a proposal, 2 swaps"
    await page.until(f"{LINES}.join('; ') === {news!r}")
    await session(program, 4, "branch A 2 D\nnew E\nnew F\nnew G\n" + PROPOSAL)
    await page.until(f"{LINES}.length === 6 && {LINES}.join('; ').startsWith('4 1 proposal; 4 G made; 4 F made; ')")
    await settled(page)
    same(await page.run("document.querySelector('#away > .dim').textContent"), "and 3 more")
    same(await page.run("[...document.querySelectorAll('#feed .divide')].map((d) => d.textContent)"), ["seen"])
    below = "document.querySelector('.divide').nextElementSibling.querySelector('.at').textContent"
    same(await page.run(below), "3")
    await page.click("#away button")
    await page.until("document.getElementById('away').hidden && !document.querySelector('.divide')")
    is_clean(page, screen)


FRESH = (
    "[...document.querySelectorAll('.sched')].filter((e) => e.querySelector('.fresh.is'))"
    ".map((e) => e.querySelector('.sched-name').textContent).join()"
)


async def test_own_schedules_are_no_news(stage: Stage, program: str) -> None:
    """What this analyst did after the news of others is no news."""
    traces.write("trace", traces.FREE)
    await session(program, 1, "new A\n")
    screen, page = await stage.opened()
    await page.until(f"{OPEN} === 'A' && {NEXT} === 8 && {TITLE}")
    await session(program, 2, "new B\n")
    await page.until(f"{FRESH} === 'B' && document.querySelectorAll('.entry.fresh').length === 1")
    await press(page, "1", "2")
    await shows(page, 2)
    same(await page.run(FRESH), "B")
    same(await page.run("document.querySelectorAll('.entry.fresh').length"), 1)
    same(await page.run("document.querySelectorAll('.pos.new').length"), 0)
    is_clean(page, screen)


async def test_news_begin_where_the_last_look_ended(stage: Stage, program: str) -> None:
    """What comes to a group of entries that were seen is news, and is above the line."""
    traces.write("trace", traces.FREE)
    await session(program, 2, "new A\nadd A 0\nadd A 1\n")
    fresh = "[...document.querySelectorAll('.entry.fresh .at')].map((e) => e.textContent).join()"
    lines = "[...document.querySelectorAll('#feed > *')].map((e) => e.className.split(' ')[0]).join()"
    screen, page = await stage.opened()
    await page.until(f"{OPEN} === 'A' && {ROWS} === 2 && {NEXT} === 8 - 2")
    await press(page, "s")
    await page.until(f"{DID}.startsWith('A + 2 events') && {fresh} === ''")
    await session(program, 2, "add A 2\nadd A 3\n")
    await settled(page)
    await page.until(f"{fresh} === '3–4' && {lines} === 'entry,divide,entry,entry'")
    same(await page.run(f"{DID}.split('; ')[0]"), "A + 2 events T2 T3")
    await press(page, "s")
    await page.until(f"{fresh} === '' && {lines} === 'entry,entry'")
    is_clean(page, screen)


# What the page reports to the server as shown; and whether another tab hides the page.
TELLS = """{
  const send = WebSocket.prototype.send;
  window.told = [];
  WebSocket.prototype.send = function (text) {
    const { do: what, log_length: length } = JSON.parse(text);
    if (what === "seen") window.told.push(length);
    send.call(this, text);
  };
}"""
HIDDEN = """Object.defineProperty(document, "hidden", {{ get: () => {}, configurable: true }});
document.dispatchEvent(new Event("visibilitychange")); window.told.at(-1)"""


async def test_news_that_come_while_the_page_is_hidden(stage: Stage, program: str) -> None:
    """What was shown before is seen, and what comes while the page is hidden is not until it is back."""
    counted = "document.getElementById('feed-count').textContent === '{}'"
    screen, page = await stage.opened(traces.FREE)
    await new(page, 8)
    await page.run(TELLS)
    await session(program, 2, "add A 0\n")
    await page.until(counted.format(2))
    same(await page.run(HIDDEN.format("true")), 2)
    count = await page.run("window.told.length")
    await session(program, 2, "add A 1\n")
    await page.until(counted.format(3))
    await page.run("new Promise((done) => setTimeout(done, 700))")  # as long as a look takes to count
    same(await page.run(f"window.told.slice({count})"), [])
    await page.run(HIDDEN.format("false"))
    same(await page.run(HIDDEN.format("true")), 3)
    is_clean(page, screen)


async def test_news_that_come_after_they_were_seen(stage: Stage, program: str) -> None:
    """Who marks the log as seen is not told of that again by an answer that comes late."""
    traces.write("trace", traces.FREE)
    screen = await stage.screen()
    page = await stage.page("about:blank")
    await page.call("Page.addScriptToEvaluateOnNewDocument", source=HOLD.replace('["view"]', '["since"]'))
    await page.open(screen.link)
    await new(page, 8)
    await page.run("hold()")
    await session(program, 2, "new B\n")
    await page.until("held.length === 1 && document.querySelectorAll('.entry.fresh').length === 1")
    await press_at_once(page, "s")
    await page.run("letGo()")
    await settled(page)
    same(await page.run("document.getElementById('away').hidden"), True)
    await session(program, 2, "new C\n")
    await page.until("!document.getElementById('away').hidden")
    same(await page.run("document.querySelectorAll('.away-line').length"), 1)
    is_clean(page, screen)
