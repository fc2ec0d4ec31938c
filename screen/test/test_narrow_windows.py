"""Windows with little room: what was opened comes in sight, and locations keep their file and line."""

import os

import traces
from comparing import same
from long_places import CALLS, FOLDER, PLACES
from sessions import session
from stage import NEXT, ROWS, SAID, Stage, focus, is_clean, logged, new, press

# Of each place whose file and line are not in sight in full the text.
HIDDEN = """(() => { const cut = [];
  for (const place of document.querySelectorAll('.place')) {
    const end = place.querySelector('.end') ?? place;
    const [box, line] = [end.getBoundingClientRect(), place.parentElement.getBoundingClientRect()];
    if (!box.width) continue;
    const room = Math.min(innerWidth, line.right + 1);
    if (end.scrollWidth > end.clientWidth + 1 || box.right > room) cut.push(place.textContent);
  }
  return cut.join('; '); })()"""


async def test_places_keep_their_file_and_line(stage: Stage) -> None:
    screen, page = await stage.opened(PLACES)
    await page.until("document.querySelectorAll('.race').length === 1")
    await page.click(".race")
    await page.until("!document.getElementById('pair').hidden")
    await page.key("e")
    await page.until(f"{NEXT} === 2")
    await focus(page, "next-list")
    await press(page, "1")
    await page.until(f"{ROWS} === 1")
    for width in (760, 840, 1000, 1180, 1440, 2200):
        await page.size(width, 900)
        for tab in (0, 1) if width == 760 else ():
            await page.click("#tabs button", tab)
            await page.until(f"innerWidth === {width} && {HIDDEN} === ''")
        await page.until(f"innerWidth === {width} && {HIDDEN} === ''")
    same(await page.run("document.querySelector('#stage .place').title"), f"{FOLDER}/work_queue.cpp:1200{CALLS}")
    is_clean(page, screen)


async def test_places_beside_their_source(stage: Stage) -> None:
    """The line of the source is cut first."""
    traces.write("trace", traces.COUNT)
    os.mkdir("source")
    traces.write("source/count.c", "\n".join(f"line {number}; /* {'long ' * 60}*/" for number in range(1, 60)))
    screen, page = await stage.opened(None, "--source", "source")
    await new(page, 3)
    await press(page, "1")
    await page.until(f"{ROWS} === 1 && document.querySelectorAll('#next-list .code code').length === 2")
    for width in (1180, 1440, 2200):
        await page.size(width, 900)
        await page.until(f"innerWidth === {width} && {HIDDEN} === ''")
    is_clean(page, screen)


NINE = "".join(f"main|fork(W{at})|src/main.c:1{at}\n" for at in range(8)) + "".join(
    f"W{at}|{operation}|src/deep/folder/worker.c:2{at}\n" for at in range(8) for operation in ("w(shared)", "w(hits)")
)
# How many rows are in sight, and of each whose file and line are covered or beyond the window's edge its place.
COVERED = """(() => { const box = document.getElementById('stage').getBoundingClientRect();
  const rows = [...document.querySelectorAll('#space .row:not(.block)')].filter((row) => {
    const { top, bottom } = row.getBoundingClientRect();
    return top >= box.top && bottom <= box.top + document.getElementById('stage').clientHeight;
  });
  const bad = rows.filter((row) => {
    const end = row.querySelector('.place .end') ?? row.querySelector('.place');
    const { left, right, top } = end.getBoundingClientRect();
    const isThere = (x) => end.contains(document.elementFromPoint(x, top + 8));
    return end.scrollWidth > end.clientWidth + 1 || !isThere(left + 2) || !isThere(right - 2);
  });
  return `${rows.length > 4} ${bad.map((row) => row.querySelector('.place').textContent).join('; ')}`; })()"""
# Whether all that the event at the cursor does is in sight beside its place, and its lane is below the lane's name.
BESIDE = """(() => { const row = document.querySelector('#space .row.on');
  const [what, name] = [row.querySelector('.what'), row.querySelector('.what .name')];
  const room = row.querySelector('.info').getBoundingClientRect().left;
  const head = document.getElementById(`lane-${(Number(row.querySelector('.event').textContent) - 8 >> 1) + 1}`);
  const off = row.querySelector('.cell').getBoundingClientRect().left - head.getBoundingClientRect().left;
  return [what.getBoundingClientRect().left > 0, name.getBoundingClientRect().right <= room, off].join(); })()"""


async def test_places_beside_nine_lanes(stage: Stage) -> None:
    """Lanes that have no room are scrolled sideways, and their names with them. Places stay, and what is chosen."""
    traces.write("trace", NINE)
    screen = await stage.screen()
    page = await stage.page(screen.link, 360, 800)
    await new(page, 9)
    await press(page, "1", "r", *"2345678", "9")
    await page.until(f"{ROWS} > 9")
    for width in (360, 540, 1000, 1440):
        await page.size(width, 800)
        await page.until(f"innerWidth === {width} && {COVERED} === 'true '")
    await page.size(360, 800)
    await focus(page, "stage")
    await page.key("End")
    await page.until(f"{COVERED} === 'true ' && {BESIDE} === 'true,true,0'")
    same(await page.run("document.querySelector('.place-name').getBoundingClientRect().right <= innerWidth"), True)
    for _ in range(7):
        await page.key("ArrowUp")
        await page.until(f"{BESIDE} === 'true,true,0'")
    same(await page.run("document.getElementById('stage').scrollLeft"), 0)  # the beginning shows this lane
    for key, is_there in (("ArrowRight", "> 0"), ("ArrowLeft", "=== 0")):
        await page.key(key)
        await page.until(f"document.getElementById('stage').scrollLeft {is_there}")
    await focus(page, "next-list")
    await press(page, "9")  # a step shows its lane
    await page.until("document.getElementById('stage').scrollLeft > 0")
    is_clean(page, screen)


SHOWN = "[...document.querySelectorAll('#main > section')].filter((s) => s.offsetHeight).map((s) => s.id).join()"


async def test_what_is_asked_for_comes_in_sight(stage: Stage, program: str) -> None:
    traces.write("trace", PLACES)
    await session(program, 2, "new A\nadd A 0\n")
    screen = await stage.screen()
    page = await stage.page(screen.link, 900, 700)
    await page.until(f"{SHOWN} === 'races,centre' && {ROWS} === 1")
    await page.click("#tabs button", 2)
    await page.until(f"{SHOWN} === 'races,side'")
    await page.click(".sched")  # what was opened is not left out of sight
    await page.until(f"{SHOWN} === 'races,centre'")
    await page.size(760, 700)
    await page.click("#tabs button", 0)
    await page.until("document.querySelectorAll('.chip').length === 3")
    await page.click(".chip", 2)
    await page.until("document.querySelectorAll('.race').length === 2")
    await page.click(".race", 1)  # apart: the explanation
    await page.until(f"{SHOWN} === 'centre' && !document.getElementById('note').hidden")
    await press(page, "x")
    same(await page.run(f"{SAID} + document.getElementById('note').hidden"), "its explanation is shownfalse")
    found = set()
    for _ in range(5):
        await page.key("F6")
        found.add(await page.run(f"document.activeElement.id + ' in ' + {SHOWN}"))
    same(found, {"race-list in races", "row-list in side", "feed in side"})  # no schedule is open
    is_clean(page, screen)


# Elements that lie outside of the window, or are cut.
OUTSIDE = """(() => [...document.querySelectorAll(
  "button, .what, .reason, .access, .access > .place, .pair-title, .title, dialog[open], .key")].filter((one) => {
    const box = one.getBoundingClientRect();
    if (!box.width || one.closest("[hidden]")) return false;
    return box.left < 0 || box.right > innerWidth || box.width < 6;
  }).map((one) => one.className + one.textContent).join("; "))()"""


async def test_a_window_as_narrow_as_a_page_that_is_enlarged(stage: Stage) -> None:
    """In 320 pixels a race is found, its schedule rebuilt and proposed; nothing lies outside."""
    traces.write("trace", traces.COUNT)
    screen = await stage.screen()
    page = await stage.page(screen.link, 320, 640)
    await page.until(f"{SHOWN} === 'races' && document.querySelectorAll('.race').length === 1")
    await page.until(f"{OUTSIDE} === ''")
    await page.click(".race")
    await page.until(f"{SHOWN} === 'centre' && !document.getElementById('pair').hidden")
    for width in (320, 400, 500):
        await page.size(width, 640)
        await page.until(f"innerWidth === {width} && {OUTSIDE} === ''")
    await page.size(320, 640)
    await page.click("#bar button", 1)  # start empty
    await page.until(f"{NEXT} === 3 && {OUTSIDE} === ''")
    for keys in ("1t", "2t", "3t"):
        await press(page, *keys)
        await page.until(f"{OUTSIDE} === ''")
    await page.until("document.querySelector('.pair-title')?.textContent === 'Aim: side by side'")
    await page.click("#pair .do button")
    await page.until(f"{SAID}.includes('proposal 0')")
    same(logged()[-1], "1 propose 7 12 0 1 2 3 4 5 6 8 9 10 11")
    await page.key("?")
    await page.until(f"document.getElementById('help').open && {OUTSIDE} === ''")
    await page.key("Escape")
    await page.key("n")
    await page.until(f"document.getElementById('ask').open && {OUTSIDE} === ''")
    is_clean(page, screen)


# What is in sight when the page is scrolled to its end: the foot of the schedule, and the next events in a list of
# more than one line.
FOOT = """(() => { scrollTo(0, 1e9);
  const [said, next] = ["said", "next-list"].map((id) => document.getElementById(id).getBoundingClientRect());
  return said.bottom <= innerHeight + 1 && next.height > 40 && next.bottom <= said.top + 1; })()"""


async def test_a_low_window(stage: Stage) -> None:
    """As when a page is enlarged fourfold: what has no room in the window is scrolled to."""
    screen, page = await stage.opened(traces.COUNT)
    await page.until("document.querySelectorAll('.race').length === 1")
    await page.click(".race")
    await page.until("!document.getElementById('pair').hidden")
    await page.click("#bar button", 1)  # start empty
    await page.until(f"{NEXT} === 3")
    await press(page, "t", "2", "t", "3", "t")
    await page.until("document.querySelector('.pair-title')?.textContent === 'Aim: side by side'")
    for width, height in ((1440, 300), (1000, 300), (720, 450), (360, 225), (320, 256), (1440, 900)):
        await page.size(width, height)
        await page.until(f"innerWidth === {width} && innerHeight === {height} && {FOOT}")
        await page.until("document.documentElement.scrollWidth <= innerWidth")
    same(await page.run("document.documentElement.scrollHeight <= innerHeight"), True)
    is_clean(page, screen)
