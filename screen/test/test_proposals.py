"""Proposals: those of a long log, and those that others adopt."""

import traces
from comparing import same
from page_parts import OPEN
from sessions import session
from stage import LENGTH, Stage, is_clean, logged, settled

PROPOSAL = """(({ title, firstChild, lastChild }) => [firstChild.textContent, title, lastChild.ariaLabel].join("; "))(
  document.querySelector(".proposal"))"""
PROPOSALS = "[...document.querySelectorAll('.proposal')].map((p) => p.textContent.match(/p\\d+/)[0]).join()"


async def test_proposals_of_a_long_log(stage: Stage, program: str) -> None:
    """The latest are listed, however far the feed was scrolled, and each can be adopted from the feed."""
    traces.write("trace", traces.COUNT)
    proposal = "propose 7 12 0 2 3 4 5 6 1 8 9 10 11\n"
    await session(program, 2, proposal * 9 + "new A\n" + "add A 0\nback A\n" * 200 + proposal * 2)
    screen, page = await stage.opened()
    latest = "p10,p9,p8,p7,p6,p5"
    await page.until(f"{PROPOSALS} === '{latest}'")
    await settled(page)
    line, whole = "p10 shows 7–12 · 11 events", "p10: 11 events that show 7 and 12, proposed by 2 in entry 411"
    same(await page.run(PROPOSAL), f"{line}; {whole}; Adopt p10")
    older = "[...document.querySelectorAll('#feed button')].find((b) => b.textContent === 'older')"
    for _ in range(2):
        before = await page.run("document.getElementById('feed').textContent.length")
        await page.run(f"{older}.click()")
        await page.until(f"document.getElementById('feed').textContent.length > {before}")
    same(await page.run(PROPOSALS), latest)
    link = "[...document.querySelectorAll('.entry a')].find((a) => a.textContent === 'p3')"
    await page.run(f"{link}.scrollIntoView({{block: 'center'}}); {link}.id = 'third'")
    await page.click("#third")
    await page.until("document.getElementById('ask').open")
    await page.run("document.getElementById('ask-input').select()")
    await page.type("third")
    await page.key("Enter")
    await page.until(f"{OPEN} === 'third' && {LENGTH} === '11 events'")
    same(logged()[-2:], ["1 new third", "1 adopt third 3"])
    is_clean(page, screen)


async def test_proposals_while_another_does_much(stage: Stage, program: str) -> None:
    """More comes at once than the page gets: what is proposed stays listed."""
    traces.write("trace", traces.COUNT)
    await session(program, 2, "new A\npropose 7 12 0 2 3 4 5 6 1 8 9 10 11\n")
    screen, page = await stage.opened()
    await page.until(f"{PROPOSALS} === 'p0'")
    await session(program, 2, "add A 0\nback A\n" * 4000)
    await settled(page)
    same(await page.run("document.getElementById('feed-count').textContent"), "8,002")
    same(await page.run(PROPOSALS), "p0")
    is_clean(page, screen)


# What the server sends of a log that grows to this many entries while the page shows it.
GROWS = """import("/feed.js").then((feed) => {
  for (let n = 300; n <= 9000; n += 300) {
    const entry = (at) => ({ number: n - 300 + at, client: 2, kind: "new", name: "B", text: "new B" });
    const entries = Array.from({ length: 300 }, (_, at) => entry(at)).filter(({ number }) => number > 1);
    feed.take({ log_length: n, entries, rows: {} });
  }
  feed.render();
})"""
KNOWN = "import('/words.js').then(({ state: { entries: all } }) => [all.size, all.has(2), all.has(8999)].join())"


async def test_proposals_that_are_not_left(stage: Stage, program: str) -> None:
    """If the log grows for long the page leaves what nobody looks at, but no proposals."""
    traces.write("trace", traces.COUNT)
    await session(program, 2, "new A\npropose 7 12 0 2 3 4 5 6 1 8 9 10 11\n")
    screen, page = await stage.opened()
    await page.until(f"{PROPOSALS} === 'p0'")
    await settled(page)
    await page.run(GROWS)
    await page.until("document.getElementById('feed-count').textContent === '9,000'")
    same(await page.run(KNOWN), "8000,false,true")
    same(await page.run(PROPOSALS), "p0")
    is_clean(page, screen)


async def test_the_aim_of_a_proposal_that_is_adopted(stage: Stage, program: str) -> None:
    traces.write("trace", traces.COUNT)
    await session(program, 2, "propose 7 12 0 2 3 4 5 6 1 8 9 10 11\n")
    aim = "[...document.querySelectorAll('#bar .aim .short .num')].map((e) => e.textContent).join()"
    screen, page = await stage.opened()
    await page.until("!!document.querySelector('.proposal button')")
    await page.click(".proposal button")
    await page.until("document.getElementById('ask').open")
    await page.type("X")
    await page.key("Enter")
    await page.until(f"{OPEN} === 'X' && {LENGTH} === '11 events' && {aim} === '7,12'")
    await page.until("document.querySelector('.pair-title')?.textContent === 'Aim: side by side'")
    same(logged()[1:], ["1 new X", "1 adopt X 0"])
    is_clean(page, screen)
