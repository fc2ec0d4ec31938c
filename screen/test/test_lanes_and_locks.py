"""Lanes of threads, and the locks that they hold."""

import os

import traces
from browser import Json
from comparing import same
from sessions import session
from stage import LENGTH, NEXT, ROWS, Stage, focus, is_clean, new, press

LONG = "".join(
    ["T0|fork(T1)|main.c:1\nT0|acq(m)|main.c:2\n"]
    + [f"T0|w(a{at % 5})|main.c:{at}\n" for at in range(100)]
    + ["T1|acq(n)|work.c:1\nT1|r(a1)|work.c:2\nT1|rel(n)|work.c:3\n"]
    + [f"T{at % 2}|w(b{at % 2})|main.c:{at}\n" for at in range(600)]
)


async def test_lanes_blocks_locks_reads_and_the_map(stage: Stage) -> None:
    traces.write("trace", LONG)
    os.mkdir("source")
    traces.write("source/main.c", "\n".join(f"line {number};" for number in range(1, 700)))
    screen, page = await stage.opened(None, "--source", "source")
    await new(page, 2)
    for key in ("r", "2", "2", "2"):
        await press(page, key)
    await page.until("document.querySelectorAll('.block').length >= 1")
    await page.until("document.querySelectorAll('.lock').length === 2")  # m to the end, and n
    assert (await page.run("document.querySelector('.lock').title")).endswith("held by T0 since 1")
    assert "events" in await page.run("document.querySelector('.block .box').textContent")
    found = "[...document.querySelectorAll('.row')].find((r) => r.textContent.includes('r a1'))"
    at = await page.until(f"{found}?.dataset.p")
    reads = "document.querySelector('.reads')?.textContent.startsWith('reads the write at')"
    await page.hover(f"#space .row[data-p='{at}'] .what", shown=reads)
    await focus(page, "stage")
    await page.click(f"#space .row[data-p='{at}'] .what")
    await page.key("Enter")  # to the write that is read, which is in the block
    await page.until("document.querySelector('.row.on')?.dataset.block > 0")
    before = await page.run(ROWS)
    await page.click("#space .block")
    await page.until(f"{ROWS} > {before}")
    await page.until("document.querySelector('#map') && !document.querySelector('#map').hidden")
    await page.key("Home")
    await page.until("document.querySelector('.row.on')?.dataset.p === '0'")
    await page.until("document.querySelector('.row.on code')?.textContent === 'line 1;'")
    await page.click(".row.on .place")
    await page.until("!document.getElementById('peek').hidden")
    same(await page.run("document.querySelector('.peek-line.here code').textContent"), "line 1;")
    await page.key("Escape")
    await page.until("document.getElementById('peek').hidden")
    is_clean(page, screen)


BARS = "[...document.querySelectorAll('.lock')].map((l) => [l.title, l.classList.contains('open'), l.offsetLeft])"


async def test_locks_that_are_held_at_once(stage: Stage, program: str) -> None:
    """They are side by side, and one that is held still ends with the last row."""
    lines = ["acq(l)", "acq(m)", "w(x)", "rel(m)", "acq(n)", "w(x)", "rel(n)", "w(x)"]
    traces.write("trace", "".join(f"T1|{line}|a:{at}\n" for at, line in enumerate(lines)))
    await session(program, 1, "new A\n" + "".join(f"add A {event}\n" for event in range(8)))
    screen, page = await stage.opened()
    await page.until(f"{LENGTH} === '8 events'")
    await focus(page, "stage")
    await page.key("Home")
    await page.key("Enter")  # the block
    await page.until(f"{ROWS} === 8 && {BARS}.length === 3")
    held: list[list[Json]] = await page.run(BARS)
    held.sort()
    names = [f"{name}, held by T1 since {at}" for name, at in (("l", 0), ("m", 1), ("n", 4))]
    same([one[0] for one in held], names)
    same([one[1] for one in held], [True, False, False])
    first, second, third = (one[2] for one in held)
    assert first < second == third, held
    tall = "[...document.querySelectorAll('.lock')].map((l) => l.offsetHeight).sort((a, b) => a - b)"
    same(await page.run(tall), [44, 44, 7.5 * 22])  # the last one ends with the last row
    is_clean(page, screen)


async def test_more_locks_at_once_than_have_room(stage: Stage, program: str) -> None:
    """From the third on they share one place, right of the first two."""
    traces.write("trace", "".join(f"T1|acq(l{at})|a:{at}\n" for at in range(4)) + "T1|w(x)|a:4\n")
    await session(program, 1, "new A\n" + "".join(f"add A {event}\n" for event in range(5)))
    screen, page = await stage.opened()
    await page.until(f"{LENGTH} === '5 events' && {BARS}.length === 4")
    first, *rest = [left for _, _, left in sorted(await page.run(BARS))]
    same([left - first for left in rest], [4, 8, 8])
    is_clean(page, screen)


# How far the bar of a lock reaches above the first row that is drawn, and below the last one, in rows.
BEYOND = """(() => {
  const box = (selector) => [...document.querySelectorAll(selector)].map((one) => one.getBoundingClientRect());
  const [[bar], rows] = [box(".lock"), box("#space .row")];
  const first = Math.min(...rows.map((row) => row.top));
  const last = Math.max(...rows.map((row) => row.bottom));
  return [first - bar.top, bar.bottom - last].map((pixels) => pixels / 22).join();
})()"""


async def test_a_lock_that_is_held_beyond_what_is_drawn(stage: Stage, program: str) -> None:
    """Its bar goes from above the first row that is drawn to below the last one."""
    lines = [f"T{at % 2}|w(a{at % 2})|a:{at}\n" for at in range(300)]
    traces.write("trace", "".join(["T0|acq(l)|a:0\n", *lines, "T0|rel(l)|a:1\n"]))
    await session(program, 1, "new A\n" + "".join(f"add A {event}\n" for event in range(302)))
    screen, page = await stage.opened()
    await page.until(f"{LENGTH} === '302 events' && {BEYOND} === '0.5,-0.5'")  # from above to its release
    await page.run("document.getElementById('stage').scrollTop = 130 * 22")
    await page.until("!!document.querySelector('.row[data-p=\"120\"]')")
    await page.until(f"{BEYOND} === '0.5,0.5'")
    await page.run("document.getElementById('stage').scrollTop = 0")
    await page.until(f"{BEYOND} === '-0.5,0.5'")  # from its acquisition
    is_clean(page, screen)


async def test_each_of_nine_threads_has_a_lane(stage: Stage, program: str) -> None:
    """With one more, the last lane is that of all others."""
    names = "[...document.querySelectorAll('#lanes-head .lane-name bdi')].map((e) => e.textContent).join()"
    last = "[...document.querySelectorAll('#lanes-head .lane-name')].some((e) => e.textContent === 'others')"
    traces.write("trace", "".join(f"T{thread}|w(a{thread})|a:1\n" for thread in range(10)))
    await session(program, 1, "new A\n" + "".join(f"add A {event}\n" for event in range(9)))
    screen, page = await stage.opened()
    await page.until(f"{ROWS} === 9 && {names} === 'T0,T1,T2,T3,T4,T5,T6,T7,T8' && !{last}")
    await session(program, 2, "add A 9\n")
    await page.until(f"{ROWS} === 10 && {names} === 'T0,T1,T2,T3,T4,T5,T6,T7' && {last}")
    is_clean(page, screen)


# Of each lane the name, its title, and whether the rows of its thread have its colour.
LANES = """[...document.querySelectorAll('#lanes-head .lane-name[id]')].map((name) => {
  const hue = /\\bh\\d\\b/.exec(name.className)[0];
  const cells = [...document.querySelectorAll('#space .cell')].filter((cell) =>
    cell.getBoundingClientRect().left === name.getBoundingClientRect().left);
  return `${name.title} ${cells.length > 0 && cells.every((cell) => cell.classList.contains(hue))}`;
}).join('; ')"""


async def test_a_lane_is_that_of_its_thread(stage: Stage) -> None:
    """Of many threads those with most events have lanes, by rising number, with their colours and lengths."""
    events = {thread: thread + 1 for thread in range(11)}
    traces.write("trace", "".join(f"T{t}|w(v{t})|a:{t}\n" * size for t, size in events.items()))
    screen = await stage.screen()
    page = await stage.page(screen.link, 2200, 900)
    await new(page, 11)
    for key in "987654321":
        await press(page, key)
    await press(page, "9", "8", "7", "6", "5", "4", "3")
    await page.key("End")
    await press(page, "Enter")  # a thread without a digit
    shown = "; ".join(f"T{t}: {2 if t < 9 else 1} of {t + 1} events true" for t in (2, 3, 4, 5, 6, 7, 8))
    await page.until(f"{LANES}.endsWith({shown!r})", what="lanes in their order")
    is_clean(page, screen)


# Whether the chosen thread is in sight.
IN_SIGHT = (
    "(() => { const [one, list] = ['#next-list .next.on', '#next-list'].map((name) => "
    "document.querySelector(name).getBoundingClientRect()); "
    "return one.top >= list.top - 1 && one.bottom <= list.bottom + 1; })()"
)


async def test_many_threads(stage: Stage) -> None:
    traces.many_threads("trace")
    screen, page = await stage.opened()
    await new(page, 201)
    await press(page, "r")
    await page.until("document.querySelectorAll('.next.yes').length === 200")
    await page.until(IN_SIGHT)  # the thread that has to wait comes after the others now
    for _ in range(10):  # a worker to its end, and the main thread to the next join
        await press(page, "f", "r")
    await page.until(f"{LENGTH} === '250 events'")
    await page.until("document.querySelector('.lane-name:nth-last-of-type(2)').textContent === 'others'")
    await page.run("document.getElementById('next-filter').focus()")
    worker = 17
    await page.type(f"W{worker} ")
    await page.until(f"{NEXT} === 1")
    is_clean(page, screen)
