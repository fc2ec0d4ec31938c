"""What a screen reader finds and says."""

import traces
from browser import Page
from comparing import same
from page_parts import OPEN
from sessions import session
from stage import LENGTH, NEXT, ROWS, Stage, focus, is_clean, new, press, settled


async def spoken(page: Page) -> list[tuple[str, str]]:
    """What a screen reader finds: pairs of a role and a name, from the browser's accessibility tree."""
    await page.call("Accessibility.enable")
    tree = (await page.call("Accessibility.getFullAXTree"))["nodes"]
    return [
        (node["role"]["value"], node.get("name", {}).get("value", "").strip())
        for node in tree
        if not node.get("ignored") and "role" in node
    ]


async def test_what_a_screen_reader_finds(stage: Stage) -> None:
    """Each pane is a named list of options, each option is a sentence, and a live region has what was done."""
    screen, page = await stage.opened(traces.COUNT)
    await page.until("document.querySelectorAll('.race').length === 1")
    await new(page, 3)
    await press(page, "1")
    await settled(page)
    same(await page.run(f"[{ROWS}, document.getElementById('next-list').dataset.length]"), [1, "1"])
    found = await spoken(page)
    for role, name in (
        ("listbox", "Races"),
        ("listbox", "Events of the schedule"),
        ("listbox", "Each thread's next event"),
        ("listbox", "Schedules"),
        ("list", "Log"),
        ("searchbox", "Filter races and deadlocks"),
        ("separator", "Height of the next events"),
        ("region", "Races and deadlocks"),
        ("button", "Undo mine"),
        ("button", "undo 0"),
        ("button", "undo 1"),
        ("option", "position 0, event 0, T0 forks T1, count.c:17"),
        (
            "option",
            "event 8, T2 takes lock m, count.c:11, may not come next: " "not begun: 1 T0 fork T2 has to come first",
        ),
    ):
        assert (role, name) in found, (role, name, [one for one in found if one[0] == role])
    options = [name for role, name in found if role == "option"]
    race = "candidate, hits, w at count.c:7 by T1 and r at count.c:13 by T2"
    assert any(name.startswith(race) for name in options), options
    nameless = {role for role, name in found if not name}
    same(nameless & {"button", "link", "textbox", "searchbox", "option", "listbox"}, set())
    live = await page.run("[...document.querySelectorAll('[role=status]')].map((e) => e.id).join()")
    same(live, "live,pair,said,away")
    await page.key("ArrowDown")
    active = "document.getElementById(document.activeElement.getAttribute('aria-activedescendant'))"
    await page.until(f"{active}.getAttribute('aria-selected') + {active}.dataset.t === 'true1'")
    await focus(page, "stage")
    await page.key("ArrowUp")
    await page.until(f"{active}.getAttribute('aria-label') === 'position 0, event 0, T0 forks T1, count.c:17'")
    await page.click(".race")
    await page.until("document.querySelector('#bar h2').textContent === 'Witness'")
    await page.until("document.getElementById('next').hidden")
    await settled(page)
    same([one for one in await spoken(page) if one[0] == "separator"], [])  # there is nothing to split
    is_clean(page, screen)


async def test_what_a_screen_reader_finds_of_a_deadlock(stage: Stage) -> None:
    """The list is named, its option is a sentence, and the box says who waits for whom."""
    screen, page = await stage.opened(traces.ABBA)
    await page.until("document.querySelectorAll('.deadlock').length === 1")
    await page.click(".deadlock")
    await page.until(f"{OPEN} === 'Witness' && !document.getElementById('pair').hidden")
    await settled(page)
    found = await spoken(page)
    assert ("listbox", "Deadlocks") in found, found
    options = [name for role, name in found if role == "option" and name.startswith("deadlock")]
    one = "3: T1 waits for b at abba.c:8 < first, holds a since 2 at abba.c:7 < first"
    other = "9: T2 waits for a at abba.c:16 < second, holds b since 8 at abba.c:15 < second"
    same(options, [f"deadlock, ordered, {one}; {other}; 4 events, 3 threads"])
    same({role for role, name in found if not name} & {"option", "listbox"}, set())
    same(await page.run("document.getElementById('pair').getAttribute('role')"), "status")
    is_clean(page, screen)


LIVE = "[...document.querySelectorAll('[aria-live=polite]')].map((e) => e.id || e.localName).join()"
HEADING = "document.querySelector('#bar h2')"


async def test_what_is_opened_is_announced(stage: Stage, program: str) -> None:
    """The heading is a live region that stays when another pane opens; so is the number of races that match."""
    traces.write("trace", traces.SEVERAL)
    await session(program, 2, "new A\nnew B\n")
    screen, page = await stage.opened()
    await page.until(f"{HEADING}.textContent === 'B' && document.querySelectorAll('.race').length === 2")
    same(await page.run(LIVE), "race-count,deadlock-count,h2,said")
    await page.run(f"window.heading = {HEADING}; window.counted = document.getElementById('race-count')")
    await page.key("[")
    await page.until("window.heading.isConnected && window.heading.textContent === 'A'")
    await page.click(".chip", 2)
    await page.until("document.querySelectorAll('.race').length === 3")
    await page.click(".race", 2)
    await page.until("window.heading.isConnected && heading.textContent === 'No schedule shows this pair'")
    await page.click(".race")
    await page.until("window.heading.isConnected && window.heading.textContent === 'Witness'")
    same(await page.run(LIVE), "race-count,deadlock-count,h2,said")
    await page.click("#race-filter")
    await page.type("nothing of this name")
    await page.until("window.counted.isConnected && window.counted.textContent === '0 match'")
    is_clean(page, screen)


LABELS = "[...document.querySelectorAll('{}')].map((one) => one.getAttribute('aria-label'))"


async def test_a_screen_reader_says_what_is_drawn_beside(stage: Stage) -> None:
    """How far a thread is from the aim, how many events it has to come, and how a race was replayed."""
    traces.write("trace", traces.COUNT)
    traces.write("trace.confirmed", '{"events": [7, 12], "ended": "stands"}\n')
    screen, page = await stage.opened()
    await page.until("document.querySelectorAll('.race').length === 1")
    labels = await page.run(LABELS.format(".race"))
    assert labels[0].endswith(", replayed: stands"), labels
    await page.click(".race")
    await page.until(f"{OPEN} === 'Witness'")
    await press(page, "e")
    await page.until(f"{NEXT} === 3")
    refused = "may not come next: not begun: {} T0 fork {} has to come first"
    same(
        await page.run(LABELS.format("#next-list .next")),
        [
            "event 0, T0 forks T1, count.c:17, may come next, 2 needed",
            f"event 2, T1 writes value, count.c:5, {refused.format(0, 'T1')}, 5 to aim",
            f"event 8, T2 takes lock m, count.c:11, {refused.format(1, 'T2')}, 4 to aim",
        ],
    )
    more = "#next-list .more"
    all_of_them = ["5 events of T0 to come", "6 events of T1 to come", "6 events of T2 to come"]
    same(await page.run(LABELS.format(more)), all_of_them)
    opened = f"[...document.querySelectorAll('{more}')].map((one) => one.ariaExpanded).join()"
    same(await page.run(opened), "false,false,false")
    await focus(page, "next-list")
    await page.key("ArrowRight")
    await page.until(f"{opened} === 'true,false,false'")
    is_clean(page, screen)


OPTIONS = "[...document.querySelectorAll('{} [role=option]')].map((o) => o.getAttribute('aria-label'))"


async def test_what_a_screen_reader_says_of_lines(stage: Stage, program: str) -> None:
    """Of each kind of event, of a block, of what others did, and of the two of the aim."""
    made = "T0|fork(T1)|a:1\n" + "".join(f"T0|w(v{at})|a:2\n" for at in range(8))
    traces.write("trace", made + "T1|acq(m)|b:1\nT1|rel(m)|b:2\nT1|r(x)|b:3\nT2|w(x)|c:1\nT0|join(T1)|a:3\n")
    adds = "".join(f"add A {event}\n" for event in (*range(12), 13))
    await session(program, 1, "new A\n" + adds)
    screen, page = await stage.opened()
    await page.until(f"{LENGTH} === '13 events' && {NEXT} === 1")
    await page.until("document.querySelectorAll('.race').length === 1")
    await page.click(".race")
    await page.until(f"{OPEN} === 'Witness'")
    await page.click(".sched")
    await page.until(f"{OPEN} === 'A' && {NEXT} === 1")
    await settled(page)
    await session(program, 2, "add A 12\nnew B\n")
    await settled(page)
    await page.until(f"{LENGTH} === '14 events' && {NEXT} === 0")
    await page.until("document.querySelectorAll('.sched').length === 2")
    same(
        await page.run(OPTIONS.format("#stage")),
        [
            "position 0, block of 8 events of T0",
            "position 8, event 8, T0 writes v7, a:2",
            "position 9, event 9, T1 takes lock m, b:1",
            "position 10, event 10, T1 releases lock m, b:2",
            "position 11, event 11, T1 reads x, b:3, reads the initial value, of the aim",
            "position 12, event 13, T0 joins T1, a:3",
            "position 13, event 12, T2 writes x, c:1, of the aim, put here by 2",
        ],
    )
    same(
        await page.run(OPTIONS.format("#row-list")),
        [
            "A: 14 events, made by you in entry 0, last changed by 2 in entry 14, since you last looked",
            "B: 0 events, made by 2 in entry 15, last changed by 2 in entry 15, since you last looked",
        ],
    )
    title = "document.querySelector('.row.block').title"
    same(await page.run(title), "T0: 8 events, positions 0 to 7. Enter or a click opens it.")
    is_clean(page, screen)
