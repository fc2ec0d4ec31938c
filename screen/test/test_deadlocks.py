"""Deadlocks: their list, the aim, when it is reached, and who waits for whom."""

from __future__ import annotations

import json
import subprocess

import traces
from browser import Page
from comparing import same
from fake_programs import script
from held_answers import HOLD
from page_parts import AIM, OPEN, RACES
from sessions import session
from stage import LENGTH, NEXT, SAID, Screen, Stage, focus, is_clean, logged, new, press, settled

CARDS = "document.querySelectorAll('.deadlock').length"
CARD = "document.querySelector('.deadlock')"
COUNT = "document.getElementById('deadlock-count').textContent"
HIDDEN = "document.getElementById('deadlock-list').hidden"
FAILED = "document.querySelector('#deadlock-list .bad')?.textContent"
CHOSEN = "[...document.querySelectorAll('.finding.on')].map((one) => one.id).join()"
ACTIVE = "document.activeElement.id"
TITLE = "document.querySelector('#pair:not([hidden]) .pair-title')?.textContent"
WAITS = "[...document.querySelectorAll('#pair:not([hidden]) .waiting')].map((one) => one.textContent).join('; ')"
SHOWN, AIMED = "Each waits for the other", "Aim: deadlock"
BOTH = "T1 waits for b, which T2 holds since 8; T2 waits for a, which T1 holds since 2"
LOST = "The aim can\\'t be reached any more"


async def opened(stage: Stage, trace: str = traces.ABBA, page_script: str = "") -> tuple[Screen, Page]:
    """A page of a trace whose first deadlock is looked at."""
    screen, page = await stage.opened(trace, script=page_script)
    await page.until(f"{CARDS} > 0")
    await page.click(".deadlock")
    await page.until(f"{OPEN} === 'Witness' && {TITLE} === '{SHOWN}'")
    return screen, page


async def reached(page: Page, waits: str = BOTH) -> None:
    await page.until(f"{TITLE} === '{AIMED}' && {WAITS} === {json.dumps(waits)}")


async def test_the_list_of_deadlocks(stage: Stage) -> None:
    """Both requests with their places, what their threads hold since when, the order, events and threads."""
    screen, page = await stage.opened(traces.ABBA)
    await page.until(f"{CARDS} === 1 && {COUNT} === '1'")
    lines = "[...document.querySelectorAll('.deadlock > span')].map((one) => one.innerText.replace(/\\s+/g, ' '))"
    same(
        await page.run(lines),
        [
            "b ⇄ a ordered 4 events, 3 threads",
            "T1 waits for b abba.c:8",
            "holds a since 2 abba.c:7",
            "T2 waits for a abba.c:16",
            "holds b since 8 abba.c:15",
        ],
    )
    one = "3: T1 waits for b at abba.c:8 < first, holds a since 2 at abba.c:7 < first"
    other = "9: T2 waits for a at abba.c:16 < second, holds b since 8 at abba.c:15 < second"
    same(await page.run(f"{CARD}.title"), f"{one}\n{other}\nshown by 4 events of 3 threads")
    label = f"{CARD}.getAttribute('aria-label')"
    same(await page.run(label), f"deadlock, ordered, {one}; {other}; 4 events, 3 threads")
    places = (
        f"['role', 'aria-setsize', 'aria-posinset', 'aria-selected'].map((name) => {CARD}.getAttribute(name)).join()"
    )
    same(await page.run(places), "option,1,1,false")
    same(logged(), [])
    is_clean(page, screen)


async def test_the_filter_is_for_both_lists(stage: Stage) -> None:
    """Each word must be in the same block. Down leads to the first list that has one."""
    race = "T1|w(x)|x.c:1\nT2|w(x)|x.c:2\n"
    screen, page = await stage.opened(traces.ABBA.replace("T0|join(T1)", race + "T0|join(T1)"))
    await page.until(f"{CARDS} === 1 && {RACES} === 1")
    for text, cards, races, said in (
        ("abba.c:16 t1", 1, 0, "1, 1 match"),
        ("x.c", 0, 1, "1, 0 match"),
        ("ORDERED since", 0, 0, "1, 0 match"),
        ("deadlock second", 1, 0, "1, 1 match"),
    ):
        await page.key("/")
        await page.run("document.getElementById('race-filter').value = ''")
        await page.type(text)
        await page.until(f"{CARDS} === {cards} && {RACES} === {races} && {COUNT} === '{said}'")
        same(await page.run(HIDDEN), not cards)
    await page.key("ArrowDown")
    same(await page.run(ACTIVE), "deadlock-list")
    await page.until(f"{OPEN} === 'Witness' && {TITLE} === '{SHOWN}' && {CHOSEN} === 'deadlock-3-9'")
    await page.key("/")
    await page.key("Escape")
    await page.until(f"{CARDS} === 1 && {RACES} === 1 && {COUNT} === '1'")
    is_clean(page, screen)


async def test_a_deadlock_by_keys_alone(stage: Stage, program: str) -> None:
    """From the list to a schedule with the events of the program's script, whose last two lines are refused."""
    screen, page = await stage.opened(traces.ABBA)
    await page.until(f"{CARDS} === 1")
    for pane in ("race-list", "deadlock-list"):
        await page.key("F6")
        same(await page.run(ACTIVE), pane)
    await page.key("ArrowDown")
    await page.until(f"{TITLE} === '{SHOWN}' && {WAITS} === '{BOTH}' && {AIM} === '3,9'")
    same(await page.run(CHOSEN), "deadlock-3-9")
    await settled(page)
    await press(page, "Enter")
    await page.until(f"{OPEN} === 'd3-9' && {LENGTH} === '4 events'")
    await reached(page)
    made = subprocess.run([program, "witness", "trace", "3", "9", "--script"], capture_output=True, text=True)
    *adds, one, other = [line.removeprefix("1 add S ") for line in made.stdout.splitlines()[1:]]
    same((one, other), ("3", "9"))
    same(logged(), ["1 new d3-9", "1 batch " + " ; ".join(f"add d3-9 {event}" for event in adds)])
    for key in "23":  # the threads of the requests
        await press(page, key)
        assert "may not come next: lock" in await page.run(SAID), await page.run(SAID)
    answers = await session(program, 1, "add d3-9 3\nadd d3-9 9\n")
    same(answers.splitlines(), ["refused 46 25 lock held by T2", "refused 46 25 lock held by T1"])
    await press(page, "p")
    same(await page.run(SAID), "a proposal is of two accesses: a deadlock has none")
    await page.key("x")
    await page.until("document.querySelector('#note .explained')?.textContent.startsWith('deadlock ordered: after 4')")
    is_clean(page, screen)


async def test_a_deadlock_is_rebuilt_from_an_empty_schedule(stage: Stage) -> None:
    """The box is there exactly when both requests are refused; a step back takes it away."""
    screen, page = await opened(stage)
    await press(page, "e")
    await page.until(f"{OPEN} === 'd3-9' && {NEXT} === 3")
    await focus(page, "next-list")
    for key, length in (("t", 2), ("2", 3)):
        await press(page, key)
        await page.until(f"{LENGTH} === '{length} events'")
        same(await page.run(TITLE), None)
    await press(page, "3")
    await reached(page)
    same(await page.run("document.querySelectorAll('#next-list .next.lit').length"), 2)
    await press(page, "f")  # no run of a thread helps
    assert "no run of one thread helps here" in await page.run(SAID), await page.run(SAID)
    await press(page, "Backspace")
    await page.until(f"{LENGTH} === '3 events' && !({TITLE})")
    await press(page, "u")
    await reached(page)
    same(logged()[-1], "1 undo 4")
    title = "document.querySelector('#pair .waiting').title"
    held = "which T2 holds since 8 at abba.c:15 < second"
    same(await page.run(title), f"T1 waits for b at abba.c:8 < first, {held}")
    is_clean(page, screen)


async def test_another_aim_has_another_box(stage: Stage) -> None:
    """The box is about the deadlock that was chosen, and not about another one that the schedule shows."""
    screen, page = await opened(stage, traces.crossed(2))
    await press(page, "w")
    await reached(page, "T1 waits for b0, which T2 holds since 8; T2 waits for a0, which T1 holds since 0")
    await page.click(".deadlock", 1)
    await page.until(f"{OPEN} === 'Witness' && {WAITS}.startsWith('T1 waits for b1, which T2 holds since 12')")
    await page.click(".sched")
    await page.until(f"{OPEN} === 'd1-9' && {NEXT} === 2")
    await settled(page)
    same(await page.run(AIM), "5,13")
    await page.until(f"{TITLE} === 'No way to the aim was found from here' || {TITLE} === '{LOST}'")
    await page.click(".deadlock", 0)
    await page.until(f"{OPEN} === 'Witness'")
    await page.click(".sched")
    await reached(page, "T1 waits for b0, which T2 holds since 8; T2 waits for a0, which T1 holds since 0")
    is_clean(page, screen)


async def test_an_aim_that_is_passed(stage: Stage) -> None:
    """A request that was made: the page says so, and leads back to the row where the aim could be reached."""
    screen, page = await opened(stage)
    await press(page, "e")
    await page.until(f"{OPEN} === 'd3-9' && {NEXT} === 3")
    await focus(page, "next-list")
    await press(page, "1", "1", "2", "2")  # T1 takes a and b
    box = "document.getElementById('pair').textContent"
    await page.until(f"{TITLE} === '{LOST}'")
    same(await page.run(f"{box}.replace(/.*any more/, '')"), "3 T1 acq b is past ittake back to row 2")
    await press(page, "2", "2", "2", "2")  # it lets both go, and so its hold
    await page.until(f"{LENGTH} === '8 events'")
    same(await page.run(f"{box}.replace(/.*any more/, '')"), "3 T1 acq b is past ittake back to row 2")
    await press(page, "3")  # T2 takes b, and then a: it is refused by nobody
    same(await page.run(TITLE), LOST.replace("\\", ""))
    await page.click("#pair button")
    await page.until(f"{LENGTH} === '3 events' && !({TITLE})")
    await press(page, "3")
    await reached(page)
    is_clean(page, screen)


# T2 takes a for a moment before it takes both locks. If T1 keeps a from before that on, it cannot.
EARLY = "T2|acq(a)|b:0\nT2|rel(a)|b:1\n" + "".join(
    f"{thread}|{word}({lock})|{thread}:{at}\n"
    for thread, order in (("T1", "ab"), ("T2", "ba"))
    for at, (word, lock) in enumerate((("acq", order[0]), ("acq", order[1]), ("rel", order[1]), ("rel", order[0])))
)


async def test_a_lock_that_is_kept_too_early(stage: Stage) -> None:
    """A run to the aim stops before that, and the page says what has to come first."""
    screen, page = await opened(stage, EARLY)
    await press(page, "e")
    await page.until(f"{OPEN} === 'd3-7' && {NEXT} === 2")
    await focus(page, "next-list")
    await page.key("ArrowDown")
    await press(page, "t")
    assert "the aim needs 0 T2 acq a first" in await page.run(SAID), await page.run(SAID)
    await press(page, "2")
    await page.until(f"{TITLE} === '{LOST}'")
    text = await page.run("document.getElementById('pair').textContent")
    assert "it needs 0 T2 acq a, which can't come after 2 T1 acq a" in text, text
    await page.click("#pair button")
    await page.until(f"{LENGTH} === '0 events'")
    await press(page, "1", "t", "2")
    await reached(page, "T1 waits for b, which T2 holds since 6; T2 waits for a, which T1 holds since 2")
    is_clean(page, screen)


async def test_two_analysts_of_one_deadlock(stage: Stage, program: str) -> None:
    """What another one does brings the box and takes it away. A schedule of its name has the aim."""
    screen, page = await stage.opened(traces.ABBA)
    await page.until(f"{CARDS} === 1")
    await session(program, 2, "new d3-9\nadd d3-9 0\nadd d3-9 1\nadd d3-9 2\n")
    await settled(page)
    await page.click(".sched")
    await page.until(f"{OPEN} === 'd3-9' && {AIM} === '3,9' && {NEXT} === 3 && {CHOSEN} === 'deadlock-3-9'")
    other = await stage.page((await stage.screen("--client", "3")).link)
    await other.until(f"{CARDS} === 1")
    await settled(other)
    await other.click(".sched")
    await other.until(f"{OPEN} === 'd3-9' && {NEXT} === 3")
    await session(program, 2, "add d3-9 8\n")
    for one in (page, other):
        await reached(one)
    await focus(other, "next-list")
    await press(other, "Backspace")
    for one in (page, other):
        await one.until(f"{LENGTH} === '3 events' && !({TITLE})")
    await session(program, 2, "add d3-9 3\n")  # T1 is past it; the page does not know the witness, and says nothing
    await settled(page, other)
    same([await one.run(TITLE) for one in (page, other)], [None, None])
    same(logged()[-1], "2 add d3-9 3")
    is_clean(page, screen)


async def test_the_aim_stays_if_the_connection_comes_back(stage: Stage) -> None:
    screen, page = await opened(stage, page_script=HOLD)
    await press(page, "w")
    await reached(page)
    before = await page.run("window.socket.close(); window.views")
    await page.until(f"window.views > {before} && owed === 0 && {CARDS} === 1")
    await reached(page)
    same(await page.run(f"[{OPEN}, {AIM}, {CHOSEN}, {COUNT}]"), ["d3-9", "3,9", "deadlock-3-9", "1"])
    await page.call("Page.reload")
    await page.until(f"{OPEN} === 'd3-9' && {AIM} === '3,9' && {CHOSEN} === 'deadlock-3-9'")
    await reached(page)
    await page.run("history.back()")
    await page.until(f"{OPEN} === 'Witness' && {TITLE} === '{SHOWN}'")
    is_clean(page, screen)


async def test_a_trace_without_deadlocks(stage: Stage) -> None:
    """The list says so, and is no pane."""
    screen, page = await stage.opened(traces.COUNT)
    await page.until(f"{COUNT} === 'none'")
    same(await page.run(HIDDEN), True)
    await page.until(f"{RACES} === 1")
    await page.key("F6")
    await page.key("ArrowDown")
    await page.until(f"{OPEN} === 'Witness' && {TITLE} === 'Both are next'")
    await page.key("F6")
    same(await page.run(ACTIVE), "stage")
    is_clean(page, screen)


# The program, with another list of deadlocks.
INSTEAD = """#!/bin/sh
if [ "$1" = deadlocks ]; then
    {does}
else
    exec {program} "$@"
fi
"""
LONG = "<script>window.hacked=1</script>" * 313
HEAD = "events 17\nthreads 3\nnested 2\npatterns {}\ndeadlocks {}\nundecided {}\napart {}\nwhole {}\n"
BLOCK = """deadlock 3 9 turned events 4 threads 3
  T1|acq(b)|{place}
    holds a since 2  T1|acq(a)|abba.c:7
    holds {place}
  T2|acq(a)|abba.c:16
    holds b since 8  T2|acq(b)|abba.c:15
"""


async def instead(
    stage: Stage, program: str, text: str, does: str = "cat out", trace: str = traces.ABBA
) -> tuple[Screen, Page]:
    """A page whose program prints this text as its list of deadlocks."""
    traces.write("trace", trace)
    traces.write("out", text)
    path = script("program", INSTEAD.format(program=program, does=does))
    screen = await stage.screen(program=path)
    return screen, await stage.page(screen.link)


def list_of(pairs: int) -> str:
    """The program's list of a trace of crossed locks."""
    blocks = []
    for pair in range(pairs):
        hold, late = 4 * pair, 4 * (pairs + pair)
        blocks.append(
            f"deadlock {hold + 1} {late + 1} ordered events {8 * pair + 2} threads 2\n"
            f"  T1|acq(b{pair})|T1.c:{hold + 1}\n    holds a{pair} since {hold}  T1|acq(a{pair})|T1.c:{hold}\n"
            f"  T2|acq(a{pair})|T2.c:{hold + 1}\n    holds b{pair} since {late}  T2|acq(b{pair})|T2.c:{hold}\n"
        )
    counts = f"events {8 * pairs}\nthreads 2\nnested {2 * pairs}\npatterns {pairs}\ndeadlocks {pairs}\n"
    return counts + "undecided 0\napart 0\nwhole 2\n" + "".join(blocks)


async def test_many_deadlocks(stage: Stage, program: str) -> None:
    """Only what is in sight is drawn. Keys go through the list, and each is looked at."""
    traces.write("trace", traces.crossed(4))
    listed = subprocess.run([program, "deadlocks", "trace"], capture_output=True, text=True)
    same(list_of(4), listed.stdout)
    screen, page = await instead(stage, program, list_of(60), trace=traces.crossed(60))
    await page.until(f"{COUNT} === '60' && {CARDS} > 0")
    assert await page.run(CARDS) < 30, await page.run(CARDS)
    await focus(page, "deadlock-list")
    for key, first in (("End", 59), ("ArrowUp", 58), ("k", 57), ("Home", 0), ("j", 1)):
        await page.key(key)
        pair = f"{4 * first + 1},{240 + 4 * first + 1}"
        await page.until(f"{OPEN} === 'Witness' && {AIM} === '{pair}' && {TITLE} === '{SHOWN}'")
        chosen = "document.querySelector('.deadlock.on')"
        same(await page.run(f"{chosen}.getAttribute('aria-posinset')"), str(first + 1))
        active = "document.getElementById('deadlock-list').getAttribute('aria-activedescendant')"
        same(await page.run(active), f"deadlock-{pair.replace(',', '-')}")
        box = f"(() => {{ const [a, b] = [{chosen}, document.getElementById('deadlock-list')]"
        box += (
            ".map((one) => one.getBoundingClientRect()); return a.top >= b.top - 1 && a.bottom <= b.bottom + 1; })()"
        )
        same(await page.run(box), True)
    is_clean(page, screen)


async def test_names_and_places_of_a_deadlock_are_text(stage: Stage) -> None:
    """Hostile ones of all kinds, as long as the program takes them: nothing is read as markup."""
    names = [name for name in traces.HOSTILE if name.strip() == name]

    def spell(pair: int, lock: int) -> str:
        return f"{names[pair]}{'ab'[lock]}"[-255:]

    trace = traces.crossed(len(names), spell).replace("T1.c:", "<img src=x onerror=window.hacked=1>" * 90 + ".c:")
    screen, page = await stage.opened(trace)
    await page.until(f"{COUNT} === '{len(names)}'")
    await focus(page, "deadlock-list")
    for at, name in enumerate(names):
        await page.key("ArrowDown")
        await page.until(f"{TITLE} === '{SHOWN}' && {AIM}.startsWith('{4 * at + 1},')")
        text = await page.run("document.querySelector('.deadlock.on').title")
        shown = "".join(c if c.isprintable() else f"\\u{{{ord(c):x}}}" for c in spell(at, 1))
        assert f"T1 waits for {shown} at <img src=x" in text, (name, text[:400])
    await press(page, "w")
    await page.until(f"{TITLE} === '{AIMED}'")
    same(await page.run("[window.hacked, document.querySelectorAll('script:not([src]), img, b b').length]"), [None, 0])
    same(await page.run("document.documentElement.scrollWidth <= innerWidth"), True)
    is_clean(page, screen)


async def test_a_text_of_ten_thousand_signs(stage: Stage, program: str) -> None:
    """Longer than the program itself prints: it is text, and is cut where it has no room."""
    screen, page = await instead(stage, program, HEAD.format(1, 1, 0, 0, 2) + BLOCK.format(place=LONG))
    await page.until(f"{CARDS} === 1 && {COUNT} === '1'")
    same(await page.run(f"{CARD}.title.split('window.hacked').length"), 2 * 313 + 1)
    widths = f"[...{CARD}.querySelectorAll('*')].every((one) => one.getBoundingClientRect().right <= 272)"
    same(await page.run(widths), True)
    same(await page.run("[window.hacked, document.querySelectorAll('script:not([src])').length]"), [None, 0])
    await page.click(".deadlock")
    await page.until(f"{TITLE} === '{SHOWN}' && {WAITS} === '{BOTH}'")
    is_clean(page, screen)


async def test_what_is_known_of_other_patterns(stage: Stage, program: str) -> None:
    """How many are undecided and apart, whether all were looked at, and whether the recording is whole."""
    undecided = BLOCK.format(place="x").replace("deadlock 3 9 turned events 4 threads 3", "undecided 3 9 tried 16")
    text = "not whole: left out 1 from 5: memory\n" + HEAD.format(2_003, 0, 1, 2_002, 1) + undecided
    screen, page = await instead(stage, program, text)
    await page.until(f"{COUNT} === 'none, 1 undecided, 2,002 apart, not all were looked at'")
    title = await page.run("document.getElementById('deadlock-count').title")
    assert title.startswith("2,003 patterns") and title.endswith("is not whole: left out 1 from 5: memory"), title
    same(await page.run(f"[{CARDS}, {HIDDEN}]"), [0, True])
    is_clean(page, screen)


async def test_a_damaged_list_is_refused(stage: Stage, program: str) -> None:
    """The page says which line cannot be read, or what the program said, and works on."""
    good = HEAD.format(1, 1, 0, 0, 2) + BLOCK.format(place="abba.c:8")
    for text, does, why in (
        (good.replace("T1|acq(b)", LONG), "cat out", "line 10 is   <script>window.hacked=1</script>"),
        (good[: good.index("    holds")], "cat out", "the block before line 11 is not whole"),
        ("", 'echo "racebench: <b>too many patterns\'" >&2; exit 1', "racebench: <b>too many patterns'"),
        ("", "kill -9 $$", "deadlocks ended with status -9"),
    ):
        screen, page = await instead(stage, program, text, does)
        await page.until(f"{FAILED}?.includes({json.dumps(why)})")
        same(await page.run(f"[{CARDS}, {HIDDEN}, {COUNT}, window.hacked]"), [0, False, "", None])
        await focus(page, "deadlock-list")
        for key in ("ArrowDown", "End", "Home"):
            await page.key(key)
        await press(page, "Enter")
        same(await page.run(SAID), "choose a race or a deadlock first: ↑ and ↓ move the cursor")
        await page.key("/")
        await page.type("b")
        await page.key("Escape")
        name = f"A{len(logged())}"
        await new(page, 3, name)
        await press(page, "1")
        same(logged()[-1], f"1 add {name} 0")
        is_clean(page, screen)


async def test_a_damaged_schedule_is_refused(stage: Stage, program: str) -> None:
    """If the program's schedule cannot be read, or does not show the deadlock, none is shown."""
    for text, why in (
        ("0  a\nno <b>number</b>\n", "the schedule cannot be read: line 2 is no <b>number</b>"),
        ("0  a\n1  a\n2  a\n", "the schedule does not show the deadlock"),
    ):
        traces.write("trace", traces.ABBA)
        traces.write("out", text)
        path = script("program", INSTEAD.replace("deadlocks", "witness").format(program=program, does="cat out"))
        screen = await stage.screen(program=path)
        page = await stage.page(screen.link)
        await page.until(f"{CARDS} === 1")
        await page.click(".deadlock")
        await page.until(f"{OPEN} === 'No witness'")
        same(await page.run("document.querySelector('#bar .bad').textContent"), why)
        is_clean(page, screen)


async def test_a_look_for_deadlocks_that_lasts(stage: Stage, program: str) -> None:
    """The page says that it looks, and can be worked with. The list comes by itself."""
    does = "while [ ! -e go ]; do sleep 0.05; done; exec " + program + ' "$@"'
    screen, page = await instead(stage, program, "", does)
    await page.until(f"{COUNT} === 'looking for them …'")
    await new(page, 3)
    await press(page, "1")
    same(await page.run(f"[{HIDDEN}, {CARDS}]"), [True, 0])
    traces.write("go", "")
    await page.until(f"{COUNT} === '1' && {CARDS} === 1")
    is_clean(page, screen)


async def test_a_list_that_is_never_made_is_left(stage: Stage, program: str) -> None:
    """Who ends the screen does not wait for it."""
    screen, page = await instead(stage, program, "", "exec sleep 100000")
    await page.until(f"{COUNT} === 'looking for them …' && {RACES} === 0")
    screen.process.terminate()
    await screen.process.wait()


async def test_deadlocks_in_a_narrow_window(stage: Stage) -> None:
    """The tab leads to both lists, nothing is wider than the window, and the box has its lines."""
    screen, page = await stage.opened(traces.crossed(30))
    await page.size(320, 640)
    await page.until(f"innerWidth === 320 && {COUNT} === '30'")
    await page.click("#tabs button")
    await page.until(f"{CARDS} > 0 && document.querySelector('.deadlock').offsetWidth > 0")
    inside = "[...document.querySelectorAll('.deadlock, #pair .waiting')].every((one) => one.offsetWidth <= 320)"
    same(await page.run(f"[document.documentElement.scrollWidth <= 320, {inside}]"), [True, True])
    await page.click(".deadlock")
    await page.until(f"{TITLE} === '{SHOWN}' && document.querySelector('#pair .waiting').offsetWidth > 0")
    same(await page.run(f"[document.documentElement.scrollWidth <= 320, {inside}]"), [True, True])
    await press(page, "w")
    await reached(page, "T1 waits for b0, which T2 holds since 120; T2 waits for a0, which T1 holds since 0")
    is_clean(page, screen)
