"""What is long: a witness that fits no line, a run without end, an explanation of many lines; locks in locks."""

import pytest

import traces
from comparing import same
from fake_programs import script
from screen_app import frontier, pairs, steps
from screen_app.trace import Trace
from servers import bench_of
from stage import logged


async def test_a_witness_that_fits_no_line(program: str, monkeypatch: pytest.MonkeyPatch) -> None:
    """It is entered by batches, and the next undo takes all batches back. As a proposal it is not sent."""
    bench = await bench_of(program, "".join(f"T1|w(a{at % 9})|a:{at}\n" for at in range(300)) + "T2|w(a2)|b:1\n")
    monkeypatch.setattr(steps, "LINE", 500)
    events = Trace("trace").read_at_once().events_of[0]
    try:
        answer = await steps.enter(bench, "B", events, (299, 300))
        same(answer, {"answer": "5: done", "entries": [0, 1, 2, 3, 4, 5]})
        same(list(bench.row("B").events), list(range(300)))
        same(len(logged()[1].split(" ; ")), 64)
        answer = await steps.propose(bench, (299, 300), events)
        same(answer, {"answer": "not sent: the list is longer than a line of a script may be (65,536 bytes)"})
        same(await steps.enter(bench, "B", events, (299, 300)), {"answer": "refused 43 name taken", "entries": []})
        answer = await steps.undo(bench, [5, 4, 3, 2, 1, 0])
        same((answer["undone"], bench.mirror.rows), (6, {}))
    finally:
        await bench.session.stop()


async def test_a_run_that_goes_on(program: str, monkeypatch: pytest.MonkeyPatch) -> None:
    """Many events are added at once, and the page shows how many are left."""
    bench = await bench_of(program, "".join(f"T1|w(a{at % 9})|a:{at}\n" for at in range(300)))
    monkeypatch.setattr(steps, "MOST", 130)
    try:
        await bench.say("new A")
        answer = await steps.Run(bench, "A").to(0, None)
        same((answer["added"], answer["more"], answer["entries"]), (130, 170, [1, 2, 3]))
        answer = await steps.Run(bench, "A").to(0, 199)
        same((answer["added"], "more" in answer, len(bench.row("A").events)), (70, False, 200))
        answer = await steps.Run(bench, "A").to(0, 150)  # it is there already
        same(answer, {"added": 0, "entries": [], "answer": "nothing to add"})
    finally:
        await bench.session.stop()


async def test_an_explanation_of_many_lines(program: str) -> None:
    """The first ones are shown, and how to see the others."""
    bench = await bench_of(program, traces.COUNT)
    more = "and {} more: racebench explain TRACE 7 12"
    none: list[str] = []
    for number, rest in ((500, [more.format("100 lines")]), (401, [more.format("1 line")]), (400, none), (9, none)):
        bench.program = script("talks", f"#!/bin/sh\nseq 1 {number}\n")
        answer = await pairs.Pairs(bench).explain((7, 12))
        same(answer["lines"], [str(line) for line in range(1, min(number, 400) + 1)] + rest)
    await bench.session.stop()


async def test_a_lock_that_is_taken_again(program: str) -> None:
    """What helps is the release that lets it go, and not the one of the section inside."""
    lines = ["T1|acq(l)|a:1", "T1|acq(l)|a:2", "T1|rel(l)|a:3", "T1|w(x)|a:4", "T1|rel(l)|a:5", "T2|acq(l)|b:1"]
    bench = await bench_of(program, "\n".join(lines) + "\nT2|rel(l)|b:2\n")
    try:
        for count, counted in ((1, 5), (2, 4), (3, 3), (4, 2)):
            await bench.say(*(["new A"] if count == 1 else []), f"add A {count - 1}")
            (waiting,) = [one for one in (await frontier.frontier(bench, "A", ()))["next"] if one["event"] == 5]
            why = waiting["why"]
            same((why["about"]["event"], why["help"], why["helper"], why["steps"]), (0, 4, 0, counted - 1))
        await bench.say("add A 4")
        (free,) = (await frontier.frontier(bench, "A", ()))["next"]
        same((free["event"], "why" in free), (5, False))
    finally:
        await bench.session.stop()
