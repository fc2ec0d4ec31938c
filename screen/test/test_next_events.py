"""What may come next, why not, and what helps."""

import traces
from comparing import same
from page_parts import EMPTY, OPEN
from stage import LENGTH, NEXT, ROWS, SAID, Stage, focus, is_clean, logged, new, press, settled


async def test_adding_in_each_way(stage: Stage) -> None:
    """By Enter, a click, a digit; Backspace; what comes, and a run to there."""
    traces.write("trace", "".join(f"T{thread}|w(a{thread})|a:{at}\n" for at in range(9) for thread in (1, 2)))
    screen, page = await stage.opened()
    await new(page, 2)
    await press(page, "Enter", "2")
    await page.until(f"{ROWS} === 2")
    await page.click(".next")
    await page.until(f"{ROWS} === 3")
    await press(page, "Backspace")
    await page.until(f"{ROWS} === 2")
    await focus(page, "next-list")
    await page.key("ArrowRight")
    await page.until("document.querySelectorAll('.coming').length === 8")
    await page.click(".coming", 3)
    await page.until("document.querySelector('#bar .line > .dim').textContent === '6 events'")
    same(
        logged(),
        [
            "1 new A",
            "1 add A 0",
            "1 add A 1",
            "1 add A 2",
            "1 back A",
            "1 batch add A 2 ; add A 4 ; add A 6 ; add A 8",
        ],
    )
    await press(page, "r")
    await page.until("document.querySelector('#bar .line > .dim').textContent === '10 events'")
    is_clean(page, screen)


REFUSALS = """T1|w(x)|a:1
T1|acq(l)|a:2
T1|rel(l)|a:3
T2|acq(l)|b:1
T2|r(x)|b:2
T2|rel(l)|b:3
T3|r(y)|c:1
T1|w(y)|a:4
T1|fork(T4)|a:5
T4|w(z)|d:1
T1|join(T4)|a:6
"""
REASON = "[...document.querySelectorAll('#next-list .next')].map((n) => n.querySelector('.reason')?.textContent ?? '')"


async def test_refusals_in_words(stage: Stage) -> None:
    screen, page = await stage.opened(REFUSALS)
    await new(page, 4)
    await press(page, "2")  # T2 takes l
    await page.until("document.querySelectorAll('.next .reason').length === 2")
    same(
        await page.run(REASON),
        ["", "would miss the write by 0 T1 w x", "", "not begun: 8 T1 fork T4 has to come first"],
    )
    await press(page, "1")
    held = "'lock l held by T2 since 3'"
    await page.until(f"document.querySelector('#next-list .reason').textContent === {held}")
    same(
        await page.run("document.querySelector('#next-list .reason').title"),
        "lock l held by T2 since 3\nthe program: refused 46 25 lock held by T2",
    )
    await focus(page, "next-list")
    await page.key("ArrowUp")
    await page.key("ArrowUp")
    await press(page, "f")  # T2 runs to its release
    await page.until(f"{ROWS} === 4")
    assert "added 2 events" in await page.run(SAID)
    await press(page, "r")  # T1 on, until it must stop: the join waits for T4
    await page.until("document.querySelector('#next-list .reason').textContent.startsWith('waits')")
    same((await page.run(REASON))[0], "waits for T4: 1 event of it to come")
    reads = await page.run(f"{REASON}.find((r) => r.startsWith('would read'))")
    same(reads, "would read the write by 7 T1 w y, where the trace has none before it")
    is_clean(page, screen)


GO_ON = "2 of 2 threads may go on, 1 at an end"
DISTANCES = (
    "[...document.querySelectorAll('#next-list .next')].map((n) => n.querySelector('.aim-left')?.textContent ?? '')"
)


async def test_how_far_each_thread_is_from_the_aim(stage: Stage) -> None:
    screen, page = await stage.opened(traces.COUNT)
    await page.until("document.querySelectorAll('.race').length === 1")
    await page.click(".race")
    await page.until("!document.getElementById('pair').hidden")
    await press(page, "e")
    await page.until(f"{NEXT} === 3")
    same(await page.run(DISTANCES), ["2 needed", "5 to aim", "4 to aim"])
    await focus(page, "next-list")
    await press(page, "t", "2", "t")
    await page.until(f"{DISTANCES}.join() === ',aim,4 to aim'")
    await press(page, "t")
    assert (await page.run(SAID)).startswith("T1 has come as far as the aim needs"), await page.run(SAID)
    await press(page, "2")  # its last one
    await page.until(f"{DISTANCES}.join() === ',4 to aim'")
    same(await page.run("document.querySelector('#next-count').textContent"), GO_ON)
    await press(page, "3", "t", "3")
    await page.until(f"{DISTANCES}.join() === ',past the aim'")
    is_clean(page, screen)


async def test_a_thread_that_has_no_events(stage: Stage) -> None:
    """Its join waits for its fork, and `f` runs its parent to that. What waits for nothing says so."""
    screen, page = await stage.opened("T0|w(a)|a:1\nT0|fork(T1)|a:2\nT2|join(T1)|b:1\n")
    await new(page, 2)
    reason = await page.run("document.querySelector('#next-list .reason').textContent")
    same(reason, "waits for T1: it is not forked")
    await press(page, "f")
    assert (await page.run(SAID)).startswith("T0 waits for nothing"), await page.run(SAID)
    await page.key("j")
    await page.until("document.querySelector('.next.on .do button').textContent === 'run T0 to 1 (2) f'")
    await press(page, "f")
    await page.until(f"{LENGTH} === '2 events' && {NEXT} === 1")
    await press(page, "3")
    same(logged(), ["1 new A", "1 batch add A 0 ; add A 1", "1 add A 2"])
    is_clean(page, screen)


async def test_what_no_run_helps(stage: Stage) -> None:
    """A read of the initial value, before which a write came: that is to be taken back."""
    screen, page = await stage.opened("T0|r(x)|a:1\nT1|w(x)|b:1\n")
    await new(page, 2)
    await press(page, "2")
    await page.until(f"{LENGTH} === '1 event' && {NEXT} === 1")
    reason = await page.run("document.querySelector('#next-list .reason').textContent")
    same(reason, "would read the write by 1 T1 w x, where the trace has none before it")
    same(await page.run("document.querySelectorAll('#next-list .do button:not(.more)').length"), 0)
    await press(page, "f")
    same(await page.run(SAID), "no run of one thread helps here")
    is_clean(page, screen)


async def test_what_a_thread_waits_for_is_counted(stage: Stage) -> None:
    """The button says how many events its run adds."""
    button = "document.querySelector('#next-list .next.on .do button').textContent"
    screen, page = await stage.opened(traces.COUNT)
    await new(page, 3)
    await press(page, "1", "1", "2", "2", "3")
    same(await page.run(button), "run T1 to 5 (2) f")
    await press(page, "f")
    assert (await page.run(SAID)).startswith("added 2 events"), await page.run(SAID)
    await press(page, "3", "3")
    await press(page, "1")  # the join of T1
    same(await page.run(button), "run T1 to 7 (2) f")
    await press(page, "f")
    assert (await page.run(SAID)).startswith("added 2 events"), await page.run(SAID)
    is_clean(page, screen)


# A run that could add more than one request may: this many more are to come.
MORE = """Object.defineProperty(WebSocket.prototype, "onmessage", {
  set(act) {
    this.addEventListener("message", ({ data }) => {
      const told = JSON.parse(data);
      act.call(this, { data: JSON.stringify(told.added ? { ...told, more: 1234 } : told) });
    });
  },
})"""


async def test_a_run_that_is_not_over(stage: Stage) -> None:
    screen, page = await stage.opened(traces.FREE, script=MORE)
    await new(page, 8)
    await press(page, "r")
    note = await page.run(SAID)
    assert note.startswith("added 1 event · 1,234 more to come: run again · entry 1"), note
    is_clean(page, screen)


async def test_how_far_a_run_to_an_event_goes(stage: Stage) -> None:
    """What comes of a thread says how many events a click adds."""
    until = "[...document.querySelectorAll('.coming .until')].map((e) => e.textContent).join()"
    screen, page = await stage.opened("".join(f"T0|w(a)|a:{at}\n" for at in range(9)))
    await new(page, 1)
    await page.key("ArrowRight")
    await page.until(f"{until} === 'add,' + [2, 3, 4, 5, 6, 7, 8, 9].map((n) => `run to here (${{n}})`).join()")
    await page.click(".coming", 2)
    await page.until(f"{SAID}.startsWith('added 3 events') && {ROWS} === 3")
    await settled(page)
    await page.until(f"{until} === 'add,' + [2, 3, 4, 5, 6].map((n) => `run to here (${{n}})`).join()")
    await page.click(".coming")
    await page.until(f"{SAID}.startsWith('added 1 event ') && {ROWS} === 4")
    is_clean(page, screen)


async def test_the_choice_after_a_thread_ended(stage: Stage) -> None:
    """The first thread that may go on is chosen, and not one before it that has to wait."""
    screen, page = await stage.opened("T0|w(y)|a:1\nT2|w(x)|c:1\nT0|r(x)|a:2\nT1|w(a)|b:1\n")
    await new(page, 3)
    await press(page, "1", "3")
    await page.until(f"{NEXT} === 2")
    await page.until("document.querySelector('#next-list .on .thread').textContent === 'T2'")
    is_clean(page, screen)


EXPANDED = "[...document.querySelectorAll('.next .more')].map((one) => one.ariaExpanded).join()"


async def test_the_list_of_a_thread_that_ended(stage: Stage) -> None:
    """It is folded, as another thread is chosen then: also if the thread's last event is taken back."""
    coming = "document.querySelectorAll('#next-list .coming').length"
    screen, page = await stage.opened(traces.COUNT)
    await new(page, 3)
    await press(page, "1", "1", "2")
    same(await page.run(EXPANDED), "false,false,false")
    await page.key("ArrowRight")
    await page.until(f"{coming} === 5 && {EXPANDED} === 'false,true,false'")
    await page.key("ArrowDown")  # the list of another thread is not wanted
    await page.until(f"{coming} === 0 && {EXPANDED} === 'false,false,false'")
    await page.key("ArrowUp")
    await page.key("ArrowRight")
    await page.until(f"{coming} === 5")
    await press(page, "r")
    await page.until(f"{NEXT} === 2 && {coming} === 0")
    await press(page, "Backspace")
    await page.until(f"{NEXT} === 3 && document.getElementById('next-list').dataset.length === '7'")
    same(await page.run(coming), 0)
    chosen = "document.querySelector('#next-list .next.on').dataset.t"
    assert await page.run(chosen) != "1"
    is_clean(page, screen)


# Of what the threads wait for, nothing is left to run: it came between the program's answer and the look at the log.
NO_STEPS = """Object.defineProperty(WebSocket.prototype, "onmessage", {
  set(act) {
    this.addEventListener("message", ({ data }) => {
      const told = JSON.parse(data);
      for (const one of told.next ?? []) if (one.why) one.why.steps = 0;
      act.call(this, { data: JSON.stringify(told) });
    });
  },
})"""


async def test_a_run_of_no_events_is_not_offered(stage: Stage) -> None:
    screen, page = await stage.opened(traces.COUNT, script=NO_STEPS)
    await new(page, 3)
    await page.key("End")
    await page.until("!!document.querySelector('#next-list .next.on.no')")
    same(await page.run("document.querySelectorAll('#next-list .next.on .do button:not(.more)').length"), 0)
    await press(page, "f")
    same(await page.run(SAID), "no run of one thread helps here")
    same(logged(), ["1 new A"])
    is_clean(page, screen)


async def test_a_trace_of_no_events(stage: Stage) -> None:
    screen, page = await stage.opened("")
    await page.until(f"{EMPTY.format('race-list')} === 'No pair of this kind.'")
    assert (await page.run("document.getElementById('facts').textContent")).startswith("0 events · 0 threads")
    same(await page.run(EMPTY.format("feed")), "Nothing has been done yet.")
    same(await page.run(LENGTH), "open a race or a deadlock, or make an empty schedule")
    await new(page, 0)
    await page.until(f"{EMPTY.format('next-list')} === 'This schedule has all events of the trace.'")
    for key in ("1", "Enter", "r", "t", "f", "ArrowRight", "ArrowDown", "p", "x", "w", "e", "Home", "End"):
        await page.key(key)
    await page.key("Backspace")
    await page.until(f"{SAID}.includes('there is no event to take back')")
    await focus(page, "stage")
    for key in ("ArrowUp", "Enter", "End", "b"):
        await page.key(key)
    await page.until("document.getElementById('ask').open")
    await page.key("Enter")
    await page.until(f"{OPEN} === 'A.b'")
    same(logged(), ["1 new A", "1 branch A 0 A.b"])
    is_clean(page, screen)


async def test_one_thread_of_one_event(stage: Stage) -> None:
    screen, page = await stage.opened("T1|w(x)|a:1\n")
    await new(page, 1)
    await press(page, "r")
    await page.until(f"{ROWS} === 1 && {NEXT} === 0")
    await focus(page, "stage")
    for key in ("ArrowDown", "ArrowUp", "Home", "End", "Enter"):
        await page.key(key)
    await page.until("document.querySelector('.row.on')?.dataset.p === '0'")
    await page.drag("#space .row .lanes", 0, -66)  # there is nothing to change places with
    await press(page, "u")
    await page.until(f"{ROWS} === 0 && {NEXT} === 1")
    same(logged(), ["1 new A", "1 batch add A 0", "1 undo 1"])
    is_clean(page, screen)
