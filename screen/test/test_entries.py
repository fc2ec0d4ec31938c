"""The entries of the log as the page shows them."""

import traces
from comparing import same
from page_parts import DID, FEED, OLDER
from sessions import session
from stage import LENGTH, ROWS, SAID, Stage, focus, is_clean, logged, new, press, settled

CALLS = """new A
add A 0
add A 1
swap A 0
batch add A 2 ; add A 3 ; add A 4
batch swap A 0 ; swap A 0
batch back A ; new B
back A
undo
branch A 1 C
propose 2 3 0 1
batch new D ; adopt D 0
adopt C 0
drop C
"""
ENTRIES = (
    "[...document.querySelectorAll('#feed .entry')].map((e) => e.querySelector('.at').textContent + ': ' + "
    "e.querySelector('.did').textContent.trim()).reverse()"
)


async def test_what_each_entry_says(stage: Stage, program: str) -> None:
    """Each kind of entry has its own sentence, and each name in it is a link."""
    traces.write("trace", "T0|w(a)|a:1\nT1|w(b)|b:1\nT0|w(c)|a:2\nT1|w(c)|b:2\nT1|w(d)|b:3\n")
    await session(program, 2, CALLS)
    screen, page = await stage.opened()
    await page.until("document.getElementById('feed-count').textContent === '14'")
    same(
        await page.run(ENTRIES),
        [
            "0: made A",
            "1–2: A + 2 events T0 T1",
            "3: A swapped 0 and 1",
            "4: A + 3 events T0 T1",
            "5: A moved an event by 2",
            "6: A batch of 2 commands",
            "7: A − its last event",
            "8: took back 7",
            "9: branched C from A at 1",
            "10: proposed p0 for 2–3 2 events",
            "11: made D from proposal p0",
            "12: C took proposal p0",
            "13: dropped C",
        ],
    )
    is_clean(page, screen)


async def test_a_group_of_many_threads(stage: Stage) -> None:
    """The log names some of its threads, and says how many more there are."""
    screen, page = await stage.opened(traces.FREE)
    await new(page, 8)
    await press(page, "1", "2", "3", "4")
    await page.until(f"{DID} === 'A + 4 events T0 T1 T2 T3; made A'")
    await press(page, "5", "6")
    await page.until(f"{DID} === 'A + 6 events T0 T1 T2 T3 and 2 more; made A'")
    is_clean(page, screen)


NEWEST = "[...document.querySelectorAll('#feed button')].find((b) => b.textContent === 'newest')"


async def test_the_newest_entries_again(stage: Stage, program: str) -> None:
    """After older ones `newest` shows as many as at first, and what came since then. There `older` goes on."""
    traces.write("trace", traces.SEVERAL)
    await session(program, 2, "new A\n" + "new B\ndrop B\n" * 500)
    screen, page = await stage.opened()
    await page.until(f"{FEED}.split(',').length === 120 && {FEED}.startsWith('1000,')")
    same(await page.run(NEWEST), None)
    for first, last in ((1000, 681), (1000, 481), (800, 281)):
        await page.run(f"{OLDER}.click()")
        await page.until(f"{FEED}.startsWith('{first},') && {FEED}.endsWith(',{last}')")
    await session(program, 2, "new C\n")
    await settled(page)
    same(await page.run("document.getElementById('feed-count').textContent"), "1,002")
    same((await page.run(FEED)).split(",")[0], "800")
    await page.run(f"{NEWEST}.click()")
    await page.until(f"{FEED}.startsWith('1001,') && {FEED}.endsWith(',882')")
    same(await page.run(NEWEST), None)
    await page.run(f"{OLDER}.click()")
    await page.until(f"{FEED}.startsWith('1001,') && {FEED}.endsWith(',682')")
    is_clean(page, screen)


async def test_a_branch_at_the_cursor_and_who_did_what(stage: Stage) -> None:
    screen, page = await stage.opened(traces.COUNT)
    await new(page, 3)
    await press(page, "1", "1", "2")
    await page.until(f"{ROWS} === 3")
    await focus(page, "stage")
    await page.key("Home")
    await page.key("ArrowDown")
    await page.key("b")
    await page.until("document.getElementById('ask').open")
    note = await page.run("document.getElementById('ask-note').textContent")
    same(note, "up to and including event 1, where the cursor is")
    await page.key("Enter")
    await page.until("document.querySelector('#bar h2').textContent === 'A.b'")
    same(logged()[-1], "1 branch A 2 A.b")
    await page.until("document.querySelector('#space .pos')?.title === 'put here by you in entry 1'")
    await page.key("[")
    await page.until("document.querySelector('#bar h2').textContent === 'A'")
    await settled(page)
    feed = await page.run("document.getElementById('feed').textContent")
    assert "branched A.b from A at 2" in feed and "A + 3 events" in feed, feed
    await page.hover(".entry", 2)
    await page.click(".entry .quiet", 0)  # undo of the branch, which is the newest group
    await page.until("document.querySelectorAll('.sched').length === 1")
    await settled(page)
    same(logged()[-1], "1 undo 4")
    await page.click(".entry .quiet", 0)  # undo of the three that were added
    await page.until(f"{LENGTH} === '0 events'")
    same(logged()[-3:], ["1 undo 3", "1 undo 2", "1 undo 1"])
    is_clean(page, screen)


SAYINGS = {
    "3: done": "entry 3",
    "4: undone 3": "entry 4: took back 3",
    "5: proposed 0": "entry 5: proposal 0",
    "refused 42 no such schedule": "refused: no such schedule",
    "refused 43 name taken": "refused: that name is taken",
    "refused 44 no such proposal": "refused: no such proposal",
    "refused 45 nothing to retract": "refused: there is no event to take back",
    "refused 48 too short": "refused: the schedule is shorter",
    "refused 51 nothing to undo": "refused: you have nothing to undo",
    "refused 54 not shown": "refused: it does not show that pair",
    "refused 55 log full": "refused: the log is full",
    "refused 58 not own": "refused: that entry is not yours",
    "refused 59 not live": "refused: that entry was taken back already",
    "refused 70 at 0 43 name taken": "refused: at 0 43 name taken",
    "line 3: 81 bad word": "line 3: 81 bad word",
}


async def test_answers_of_the_program_in_words(stage: Stage, program: str) -> None:
    screen, page = await stage.opened(traces.FREE)
    await new(page, 8)
    for answer, text in SAYINGS.items():
        same(await page.run(f"import('/words.js').then((words) => words.said({answer!r}))"), text)
    await press(page, "1", "2")
    await page.run("document.getElementById('said').replaceChildren()")
    undo = "import('/act.js').then((page) => void page.act('undo', { entries: [2] }))"
    await session(program, 1, "undo 2\n")
    await settled(page)
    await page.run(undo)
    await page.until(f"{SAID}.startsWith('refused: that entry was taken back already')")
    is_clean(page, screen)


async def test_titles_tell_the_rest(stage: Stage, program: str) -> None:
    """Of schedules who made and changed them, of races what is held, of lanes how far they are."""
    traces.write("trace", "T1|acq(l)|a:1\nT1|w(x)|a:2\nT1|rel(l)|a:3\nT2|w(x)|b:1\n")
    traces.write("log.names", "2 Grace\n")
    await session(program, 2, "new A\nadd A 0\n")
    screen, page = await stage.opened()
    await page.until(f"{ROWS} === 1 && document.querySelectorAll('.race').length === 1")
    await press(page, "1")
    await page.until(f"{ROWS} === 2")
    changed = "A: 2 events, made by Grace in entry 0, last changed by you in entry 2"
    await page.until(f"document.querySelector('.sched').title === '{changed}'")
    race = await page.run("document.querySelector('.race').title")
    same(race.split("\n"), [race.split("\n")[0], "1 holds l"])
    assert race.startswith("1 pair of events; the least: 1 and 3, shown by "), race
    lane = "document.querySelector('#lanes-head [id=lane-0]')"
    same(await page.run(f"[{lane}.title, {lane}.textContent]"), ["T1: 2 of 3 events", "T1 2/3"])
    same(await page.run("document.querySelector('#space .pos').title"), "put here by Grace in entry 1")
    dim = "document.querySelector('.race .verdict').textContent"
    same(await page.run(dim), "candidate")
    is_clean(page, screen)
