"""The list of races: from a race to its pair, the ends of a long list, what a race says."""

import json
import os

import traces
from browser import Browser
from comparing import same
from held_answers import HOLD
from page_parts import AIM, EMPTY, OPEN, RACES
from sessions import session
from stage import LENGTH, NEXT, ROWS, Screen, Stage, focus, is_clean, logged, new, press, settled


async def test_a_race_from_the_list_to_the_pair(stage: Stage) -> None:
    screen, page = await stage.opened(traces.COUNT)
    await page.until("document.querySelectorAll('.race').length === 1")
    await page.click(".race")
    await page.until("!document.getElementById('pair').hidden")
    assert "11 events" in await page.run(LENGTH)
    same(logged(), [])
    await page.key("e")
    await page.until(f"{NEXT} === 3")
    await focus(page, "next-list")
    same(await page.run("document.querySelectorAll('.next.no').length"), 2)
    await press(page, "1")
    await page.until("document.querySelectorAll('.next.yes').length === 2")
    await page.key("ArrowDown")
    await press(page, "t")  # T1 to just before its write of hits
    await page.until(f"{ROWS} === 6")
    await page.key("ArrowDown")
    await press(page, "f", "t")  # what T2 waits for, its fork; and then T2 as far as the aim needs
    await page.until("document.querySelector('.pair-title')?.textContent === 'Aim: side by side'")
    same(
        logged(),
        [
            "1 new r7-12",
            "1 add r7-12 0",
            "1 batch add r7-12 2 ; add r7-12 3 ; add r7-12 4 ; add r7-12 5 ; add r7-12 6",
            "1 batch add r7-12 1",
            "1 batch add r7-12 8 ; add r7-12 9 ; add r7-12 10 ; add r7-12 11",
        ],
    )
    await press(page, "p")
    same(logged()[-1], "1 propose 7 12 0 2 3 4 5 6 1 8 9 10 11")
    is_clean(page, screen)


async def test_the_ends_of_a_long_list_of_races(stage: Stage) -> None:
    """The list is fetched in windows; Home and End reach both ends, and the wheel any place."""
    lines = [f"T{thread}|w(v{at})|{thread}.c:{at}\n" for thread in (1, 2) for at in range(400)]
    screen, page = await stage.opened("".join(lines))
    await page.until("document.querySelector('.chip')?.textContent === '400 races'")
    chosen = "document.querySelector('.race.on')?.getAttribute('aria-posinset')"
    opened = "[...document.querySelectorAll('#bar .aim .short .num')].map((e) => e.textContent).join()"
    await focus(page, "race-list")
    keys = (("End", 400), ("ArrowUp", 399), ("Home", 1), ("ArrowDown", 2), ("End", 400), ("ArrowDown", 400))
    for key, at in keys:
        await page.key(key)
        await page.until(f"{chosen} === '{at}' && {OPEN} === 'Witness' && {opened} === '{at - 1},{at + 399}'")
    await page.run("document.getElementById('race-list').scrollTop = 200 * 58")
    await page.until("!!document.querySelector('.race[aria-posinset=\"201\"]')")
    await page.click(".race[aria-posinset='203']")
    await page.until(f"{opened} === '202,602'")
    is_clean(page, screen)


async def test_a_key_in_a_list_of_races_that_was_scrolled(stage: Stage) -> None:
    """If no race in sight is chosen, the first in sight is."""
    lines = [f"T{thread}|w(v{at})|{thread}.c:{at}\n" for thread in (1, 2) for at in range(300)]
    chosen = "document.querySelector('.race.on')?.ariaPosInSet"
    screen, page = await stage.opened("".join(lines))
    await page.until("document.querySelector('.chip')?.textContent === '300 races'")
    for first, key in ((200, "ArrowDown"), (50, "ArrowUp")):
        await page.run(f"document.getElementById('race-list').scrollTop = {first} * 58")
        await page.until(f"!!document.querySelector('.race[aria-posinset=\"{first + 1}\"]')")
        await focus(page, "race-list")
        await page.key(key)
        await page.until(f"{chosen} === '{first + 1}'")
    is_clean(page, screen)


async def test_keys_beyond_what_was_fetched(stage: Stage) -> None:
    """Races are fetched eighty at a time; who walks down goes on."""
    lines = [f"T{thread}|w(v{at})|{thread}.c:{at}\n" for thread in (1, 2) for at in range(200)]
    screen, page = await stage.opened("".join(lines))
    await page.until("document.querySelector('.chip')?.textContent === '200 races'")
    await focus(page, "race-list")
    chosen = "document.querySelector('.race.on')?.getAttribute('aria-posinset')"
    for at in range(1, 101):
        await page.key("ArrowDown")
        await page.until(f"{chosen} === '{at}'")
    is_clean(page, screen)


SLOW = """#!/bin/sh
if [ "$1" = triage ]; then
    echo "events 17" >&2
    echo "pairs of places 3 of 8" >&2
    while [ ! -e go ]; do sleep 0.1; done
    if [ -s go ]; then cat go >&2; exit 3; fi
fi
exec {program} "$@"
"""


async def test_how_far_the_look_for_races_is(program: str) -> None:
    """It is shown while it lasts; if it fails, what the program said last."""
    traces.write("trace", traces.COUNT)
    traces.write("slow", SLOW.format(program=program))
    os.chmod("slow", 0o755)
    for error, shown in (("", "1 race"), ("racebench: 95 no memory\n", "racebench: 95 no memory")):
        async with Screen(os.path.abspath("slow"), "trace", "log") as screen, Browser() as browser:
            page = await browser.page(screen.link)
            await page.until(f"{EMPTY.format('race-list')}?.includes('pairs of places 3 of 8. You can')")
            traces.write("told", error)
            os.rename("told", "go")  # all of it at once
            await page.until(f"document.getElementById('races').textContent.includes('{shown}')")
            is_clean(page, screen)
        os.remove("go")


# Keeps what the line of the aim showed.
AIMS = """(() => { window.aims = [];
  const look = () => { const line = document.querySelector("#bar .of-aim .aim");
    if (line) aims.push([...line.querySelectorAll(".short .num")].map((one) => one.textContent).join()); };
  new MutationObserver(look).observe(document.getElementById("bar"), { childList: true, subtree: true });
})()"""


async def test_a_race_after_another(stage: Stage) -> None:
    """The line of the aim has the events of one or of the other, also while answers come late, and never none."""
    traces.write("trace", "T1|w(x)|a:1\nT1|w(y)|a:2\nT2|w(x)|b:1\nT2|w(y)|b:2\n")
    screen = await stage.screen()
    page = await stage.page("about:blank")
    script = HOLD.replace('["view"]', '["view", "pair"]')
    await page.call("Page.addScriptToEvaluateOnNewDocument", source=script)
    await page.open(screen.link)
    await page.until("document.querySelectorAll('.race').length === 2")
    await page.click(".race", 0)
    await page.until(f"{OPEN} === 'Witness' && {ROWS} === 0 && owed === 0")
    await page.run(AIMS)
    await page.click(".race", 1)
    await page.until(f"{OPEN} === 'Witness' && {ROWS} === 2 && owed === 0")
    await page.run("hold()")
    await page.click(".race", 0)
    await page.until("owed === 0 && held.length === 1")
    before = await page.run("held.shift()(); window.views")  # the events of the aim
    await page.until(f"owed === 0 && held.length === 1 && window.views === {before + 1}")  # its rows are there
    await page.click(".race", 1)
    await page.until("owed === 0 && held.length === 2")
    await page.run("held.shift()()")
    await page.run("letGo()")
    await page.until(f"{OPEN} === 'Witness' && {ROWS} === 2 && owed === 0")
    same(await page.run("window.aims.filter((one) => one !== '0,2' && one !== '1,3')"), [])
    assert await page.run("window.aims.length") > 1
    is_clean(page, screen)


# The names of a trace with two blocks of one type, and of each card what is cut of the last member.
ALIKE = "".join(
    f"{thread}|w(heap:connection_cache.cpp:32 connections.second.{member}_connections)|a.c:{line}\n"
    for line, member in enumerate(("open", "shut"), 1)
    for thread in ("T0", "T1")
)
MEMBERS = """[...document.querySelectorAll('.race .variable')].map((name) => {
    const [member, end] = [name.querySelector('.member'), name.querySelector('.end')];
    const isCut = (part) => part.scrollWidth > part.clientWidth + 1;
    return isCut(member) || isCut(end) ? 'cut' : member.textContent + end.textContent;
  }).sort().join()"""


async def test_cards_show_the_last_member(stage: Stage) -> None:
    traces.write("trace", ALIKE)
    screen = await stage.screen()
    page = await stage.page(screen.link, 1280, 900)
    await page.until(f"{MEMBERS} === '.open_connections,.shut_connections'")
    is_clean(page, screen)


async def test_how_a_race_ended(program: str) -> None:
    """A race that was followed in the real program shows how that ended."""
    traces.write("trace", traces.COUNT)
    ended: dict[str, object] = {
        "events": [7, 12],
        "ended": "stands",
        "text": "the race stands <b>",
        "first": "status 0",
        "second": "signal 11 (SIGSEGV)",
        "matters": True,
        "why": "the endings differ",
        "same_memory": True,
        "liberties": ["wait"],
        "locations": ["count.c:7", "count.c:13"],
        "places": ["count.c:7", "count.c:13"],
    }
    other = ended | {"locations": ["count.c:7", "count.c:14"]}  # of another trace
    for lines, shown in ((["no json", "[]", json.dumps(ended)], 1), ([json.dumps(other)], 0)):
        traces.write("trace.confirmed", "\n".join(lines) + "\n")
        async with Screen(program, "trace", "log") as screen, Browser() as browser:
            page = await browser.page(screen.link)
            await page.until("document.querySelectorAll('.race').length === 1")
            same(await page.run("document.querySelectorAll('.race .ended').length"), shown)
            if shown:
                same(await page.run("document.querySelector('.race .ended').textContent"), "stands")
                same(
                    await page.run("document.querySelector('.race .ended').title"),
                    "the race stands <b>\n7 first: status 0\n12 first: signal 11 (SIGSEGV)\n"
                    "the order matters: the endings differ\na run by itself may not: wait",
                )
            is_clean(page, screen)


async def test_several_pairs_side_by_side(stage: Stage) -> None:
    """A click leads from one to the next, and p proposes the one that is shown."""
    screen, page = await stage.opened("T1|w(x)|a:1\nT2|w(x)|b:1\nT3|w(x)|c:1\n")
    await new(page, 3)
    pair = "[...document.querySelectorAll('#pair .access .num')].map((e) => e.textContent).join()"
    for shown in ("0,1", "0,2", "1,2", "0,1"):
        await page.until(f"{pair} === '{shown}'")
        same(await page.run("document.querySelector('#pair .do button').textContent"), "and 2 pairs more")
        await press(page, "p")
        await page.click("#pair .do button")
    same(logged(), ["1 new A", "1 propose 0 1", "1 propose 0 2", "1 propose 1 2", "1 propose 0 1"])
    await page.until(f"{pair} === '0,2'")
    await new(page, 3, "B")  # what was chosen in one schedule is not chosen in another
    await page.until(f"{OPEN} === 'B' && {pair} === '0,1'")
    is_clean(page, screen)


async def test_a_race_that_is_opened_at_once(stage: Stage) -> None:
    """The list of races may come before the page knows the rest: the race that was clicked opens."""
    traces.write("trace", traces.COUNT)
    screen = await stage.screen()
    page = await stage.page("about:blank")
    script = HOLD.replace('["view"]', '["hello", "witness"]') + "; hold()"
    await page.call("Page.addScriptToEvaluateOnNewDocument", source=script)
    await page.open(screen.link)
    await page.until("document.querySelectorAll('.race').length === 1 && held.length === 1")
    await page.click(".race")
    await page.until("held.length === 2")
    await page.run("letGo()")
    await page.until(f"{OPEN} === 'Witness' && !document.getElementById('pair').hidden")
    is_clean(page, screen)


async def test_lines_that_belong_together(stage: Stage) -> None:
    """With little room the accesses come right below their title. A button does not touch a field."""
    below = (
        "document.querySelector('.accesses').getBoundingClientRect().top - "
        "document.querySelector('.pair-title').getBoundingClientRect().bottom"
    )
    screen, page = await stage.opened(traces.COUNT)
    await page.until("document.querySelectorAll('.race').length === 1")
    await page.click(".race")
    await page.until("!document.getElementById('pair').hidden")
    for width in (1100, 420):
        await page.size(width, 800)
        await page.until(f"innerWidth === {width} && {below} >= 0 && {below} <= 4")
    await page.click("#link")
    await page.until("document.getElementById('help').open")
    box = "document.querySelector('#help {}').getBoundingClientRect()"
    assert await page.run(f"{box.format('button')}.top - {box.format('input')}.bottom") >= 8
    is_clean(page, screen)


CHOSEN = "[...document.querySelectorAll('.race.on')].map((r) => r.id).join()"


async def test_the_race_that_is_looked_at_is_chosen(stage: Stage, program: str) -> None:
    """However it was opened: by the browser's buttons, a reload, or a schedule of its name."""
    traces.write("trace", traces.SEVERAL)
    await session(program, 2, "new r4-6\n")
    screen, page = await stage.opened()
    await page.until(f"{OPEN} === 'r4-6' && {RACES} === 2 && {AIM} === '4,6'")
    await page.until(f"{CHOSEN} === 'race-4-6'")
    await settled(page)
    await page.click("#race-0-5")
    await page.until(f"{OPEN} === 'Witness' && {AIM} === '0,5' && {CHOSEN} === 'race-0-5'")
    await page.run("history.back()")
    await page.until(f"{OPEN} === 'r4-6' && {AIM} === '4,6' && {CHOSEN} === 'race-4-6'")
    await page.run("history.forward()")
    await page.until(f"{OPEN} === 'Witness' && {AIM} === '0,5' && {CHOSEN} === 'race-0-5'")
    await page.call("Page.reload")
    await page.until(f"{OPEN} === 'Witness' && {AIM} === '0,5' && {CHOSEN} === 'race-0-5'")
    await focus(page, "race-list")
    await page.key("ArrowDown")  # from there on
    await page.until(f"{OPEN} === 'Witness' && {AIM} === '4,6' && {CHOSEN} === 'race-4-6'")
    is_clean(page, screen)


# A key in the list of races and the browser's back button in one moment: which race is chosen then.
MOVES_ON = f"""(async () => {{
  const key = new KeyboardEvent("keydown", {{ key: "ArrowUp", bubbles: true }});
  document.getElementById("race-list").dispatchEvent(key);
  for (let turn = 0; turn < 20; turn++) await null;
  dispatchEvent(new PopStateEvent("popstate", {{ state: {{ pair: [4, 6] }} }}));
  for (let turn = 0; turn < 20; turn++) await null;
  return {CHOSEN};
}})()"""


async def test_a_cursor_that_moves_on_is_not_put_back(stage: Stage) -> None:
    """What is opened while a key moves it is not what it is on. It is looked at soon after."""
    screen, page = await stage.opened(traces.SEVERAL)
    await page.until(f"{RACES} === 2")
    await page.click(".race", 1)
    await page.until(f"{OPEN} === 'Witness' && {AIM} === '4,6' && {CHOSEN} === 'race-4-6'")
    await settled(page)
    await focus(page, "race-list")
    same(await page.run(MOVES_ON), "race-0-5")
    await page.until(f"{OPEN} === 'Witness' && {AIM} === '0,5' && {CHOSEN} === 'race-0-5'")
    is_clean(page, screen)
