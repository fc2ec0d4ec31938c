"""Steps by position and their answers, without a page: which entry of another is in the way, and what stays."""

from __future__ import annotations

import os
from collections.abc import Iterable
from typing import cast

import pytest

import traces
from comparing import same
from fake_programs import between
from screen_app import row, steps
from screen_app.messages import Stay, Step, Stop
from screen_app.shown import NOT_SENT, Shown
from servers import bench_of
from sessions import session
from stage import logged

# What another does, the page's step, and the first entry that changed what the step is about.
IN_THE_WAY: list[tuple[list[str], What, int]] = [
    (["add A 4"], "back", 5),
    (["swap A 0", "add A 4"], "back", 6),  # the first is about other events
    (["back A", "add A 4"], "back", 5),
    (["swap A 2"], "back", 5),
    (["swap A 0", "swap A 2"], (2, 1), 6),
    (["swap A 2", "swap A 0"], (0, 1), 6),
    (["swap A 2", "swap A 0"], (1, -1), 6),
    (["swap A 2"], (1, 1), 5),  # the neighbour is another
    (["batch back A ; back A", "add A 4"], (1, 1), 5),
    (["swap A 0"], (2, -1), 5),
    (["drop A", "new A", "add A 0", "add A 1", "add A 2", "add A 3"], "back", 10),
    (["drop A", "new A", "add A 0"], (2, 1), 6),  # neither entry put an event there
]
# A step back, or a move from a position by a number of positions.
What = str | tuple[int, int]
# A schedule of four events, after five entries.
FOUR = ("new A", "add A 0", "add A 1", "add A 2", "add A 3")


class Alone:
    """What a screen has of schedule A, whose page saw the log when it had five entries."""

    def __init__(self, program: str, calls: tuple[str, ...] = FOUR, text: str = traces.FREE) -> None:
        self.program, self.calls, self.text = program, calls, text

    async def __aenter__(self) -> Alone:
        self.bench = await bench_of(self.program, self.text)
        self.bench.mirror.is_followed = True
        await self.bench.say(*self.calls)
        return self

    async def __aexit__(self, *_: object) -> None:
        """The next one begins with no log, and what others do just before a line is done again."""
        await self.bench.session.stop()
        for name in filter(lambda one: one == "log" or one.startswith("done-"), os.listdir(".")):
            os.remove(name)

    async def other(self, *calls: str) -> None:
        await session(self.program, 2, "".join(f"{call}\n" for call in calls))

    def shown(self, own: Iterable[int] = (), length: int = 5, name: str = "A") -> Shown:
        return Shown(self.bench, name, {"log_length": length, "own": list(own)})

    def events(self) -> list[int]:
        self.bench.mirror.sync()
        return list(self.bench.row("A").events)


async def step(shown: Shown, what: What) -> dict[str, object]:
    return {**(await steps.back(shown))} if isinstance(what, str) else {**(await steps.move(shown, *what))}


def changed(entry: int, **more: object) -> dict[str, object]:
    return {"changed": {"entry": entry, "client": 2, "name": "A", **more}}


async def test_the_entry_that_is_in_the_way(program: str) -> None:
    """The step is not made, and the first entry of another that changed its events is named."""
    for calls, what, entry in IN_THE_WAY:
        async with Alone(program) as alone:
            shown = alone.shown()
            await alone.other(*calls)
            answer = await step(shown, what)
            moved: dict[str, object] = {} if what == "back" else {"moved": 0}
            same((calls, answer), (calls, moved | {"answer": NOT_SENT, "made": []} | changed(entry)))
            same(len(logged()), 5 + len(calls))


# What another does that is not about the events of the page's step, and what the schedule has after both.
ELSEWHERE: list[tuple[list[str], What, list[int]]] = [
    (["swap A 0"], "back", [1, 0, 2]),
    (["add A 4", "back A"], "back", [0, 1, 2]),
    (["swap A 2", "swap A 2"], "back", [0, 1, 2]),
    (["swap A 0"], (2, 1), [1, 0, 3, 2]),
    (["swap A 2"], (0, 1), [1, 0, 3, 2]),
    (["add A 4"], (3, -1), [0, 1, 3, 2, 4]),
    (["new B", "add B 4"], "back", [0, 1, 2]),
]


async def test_what_another_does_elsewhere(program: str) -> None:
    """The step is made, whether the other one comes before the screen's look at the log or after it."""
    for calls, what, events in ELSEWHERE:
        line = "back_A" if isinstance(what, str) else f"swap_A_{what[0] + min(what[1], 0)}"
        for path in (program, between(program, **{line: "\n".join(calls)})):
            async with Alone(path) as alone:
                alone.program = program
                shown = alone.shown()
                if path == program:
                    await alone.other(*calls)
                answer = await step(shown, what)
                at = 5 + len(calls)
                moved: dict[str, object] = {} if what == "back" else {"moved": 1}
                same((calls, answer), (calls, moved | {"answer": f"{at}: done", "made": [at]}))
                same(alone.events(), events)


async def test_own_steps_are_no_others(program: str) -> None:
    """What the page did since then is as it was meant, among what others did elsewhere."""
    async with Alone(program) as alone:
        await alone.bench.say("swap A 2", "add A 4")
        answer = await steps.back(alone.shown([5]))  # it does not name the second entry as its own
        same(answer["changed"], {"entry": 6, "client": 1, "name": "A"})
        await alone.other("swap A 1")
        answer = await steps.back(alone.shown([5, 6]))
        same((answer, alone.events()), ({"answer": "8: done", "made": [8]}, [0, 3, 1, 2]))
        await alone.bench.say("swap A 2")
        await alone.other("swap A 2")
        answer = await steps.move(alone.shown([9], length=9), 2, 1)
        same(answer, {"answer": NOT_SENT, "made": [], "moved": 0, **changed(10)})


async def test_own_steps_that_were_shown(program: str) -> None:
    """They are in what the page showed, so they do not count again."""
    async with Alone(program) as alone:
        shown = alone.shown([1, 4])
        await alone.other("swap A 0")
        answer = await steps.move(shown, 2, 1)
        same((answer, alone.events()), ({"answer": "6: done", "made": [6], "moved": 1}, [1, 0, 3, 2]))


async def test_what_another_does_after_the_step(program: str, monkeypatch: pytest.MonkeyPatch) -> None:
    """It is no matter of the step, even if the schedule of that name is another one by now."""
    async with Alone(program) as alone:
        ask = alone.bench.session.ask

        async def among(*lines: str) -> list[str]:
            await alone.other("swap A 0")
            answers = await ask(*lines)
            await alone.other("drop A", "new A", "add A 5")
            return answers

        monkeypatch.setattr(alone.bench.session, "ask", among)
        same((await steps.back(alone.shown()), alone.events()), ({"answer": "6: done", "made": [6]}, [5]))


async def test_a_step_that_does_not_say_what_it_saw(program: str) -> None:
    """It is for the schedule as it is when the step comes."""
    async with Alone(program) as alone:
        await alone.other("add A 4")
        same(await steps.back(Shown(alone.bench, "A", None)), {"answer": "6: done", "made": [6]})
        shown = Shown(alone.bench, "A", None)
        await alone.other("add A 5")
        same(await steps.back(shown), changed(7) | {"answer": NOT_SENT, "made": []})
        same(await steps.back(alone.shown(name="B")), {"answer": "refused 42 no such schedule", "made": []})


async def test_a_step_after_more_changes_than_are_kept(program: str, monkeypatch: pytest.MonkeyPatch) -> None:
    """It cannot be said what the events were, so the step is not made."""
    monkeypatch.setattr(row, "CHANGES", 3)
    async with Alone(program) as alone:
        shown = alone.shown()
        await alone.other("swap A 0", "swap A 0")
        same((await steps.back(shown))["made"], [7])
        shown = alone.shown(length=8)
        await alone.other("swap A 0", "swap A 0", "swap A 0")
        same(await steps.back(shown), dict(answer=NOT_SENT, made=[], **changed(8)))


async def test_a_step_that_is_taken_back(program: str) -> None:
    """The answer has its entry and that of the undo, and whether it stays."""
    cases: list[tuple[dict[str, str], dict[str, object], list[int]]] = [
        ({}, {"made": 6}, [6, 7]),
        ({"undo_6": "add A 5"}, {"made": 6, "stays": True}, [6]),
    ]
    for does, more, made in cases:
        async with Alone(between(program, back_A="add A 4", **does)) as alone:
            answer = await steps.back(alone.shown())
            answer["answer"] = ""
            same(answer, changed(5, **more) | {"answer": "", "made": made})


async def test_a_refusal_that_is_about_other_events(program: str) -> None:
    """Another is faster, so the refusal is no answer to what was asked."""
    text = "T0|w(a)|a:0\nT1|w(b)|a:1\nT1|w(b)|a:2\nT2|w(c)|a:3\n"
    calls = ("new A", "add A 0", "add A 1", "add A 3", "add A 2")
    async with Alone(between(program, swap_A_1="swap A 2"), calls, text) as alone:
        answer = await steps.move(alone.shown(), 1, 1)
        same(answer, {"answer": NOT_SENT, "made": [], "moved": 0, **changed(5)})


async def test_what_is_sent_of_a_batch(program: str) -> None:
    """What it does to one schedule is a run or a move. What it does to two is neither."""
    swaps = "batch swap A 0 ; swap B 0", "batch swap A 0 ; swap A 1"
    calls = "new A", "new B", "batch add A 0 ; add B 0", "batch add A 1 ; add A 2", "batch add B 1 ; add B 2", *swaps
    async with Alone(program, calls) as alone:
        entries = alone.bench.mirror.entry_messages(2, 5)
        same(
            [(one.get("run"), one.get("swaps")) for one in entries],
            [(None, None), ([1, 2], None), ([1, 2], None), (None, None), (None, True)],
        )


# A trace in which T1 may not move over its own events, and T2 may.
ORDERED = "T1|w(a)|a:0\nT1|w(a)|a:1\nT2|w(b)|b:0\nT2|w(c)|b:1\nT3|w(d)|c:0\n"


def stay(answer: Step) -> Stay:
    """The event that a move does not pass."""
    return cast(Stay, answer["stop"])


async def test_how_far_a_move_goes(program: str) -> None:
    """As far as the program lets it; the answer has the event in the way."""
    calls = ("new A", *(f"add A {event}" for event in range(5)))
    for what, moved, stop, events in (
        ((4, -4), 4, None, [4, 0, 1, 2, 3]),
        ((4, -1), 1, None, [0, 1, 2, 4, 3]),
        ((1, -1), 0, (0, 0), [0, 1, 2, 3, 4]),
        ((1, 3), 3, None, [0, 2, 3, 4, 1]),
        ((3, -3), 0, (2, 2), [0, 1, 2, 3, 4]),
        ((0, 3), 0, (0, 1), [0, 1, 2, 3, 4]),
        ((2, 2), 0, (2, 3), [0, 1, 2, 3, 4]),
        ((2, -2), 2, None, [2, 0, 1, 3, 4]),
    ):
        async with Alone(program, calls, ORDERED) as alone:
            answer = await steps.move(alone.shown(length=6), *what)
            found = (stay(answer)["position"], stay(answer)["with"]["event"]) if "stop" in answer else None
            same((what, answer["moved"], found, alone.events()), (what, moved, stop, events))
            same(answer["made"], [6] if moved else [])
    async with Alone(program, (*calls, "swap A 3"), ORDERED) as alone:  # T3 is between the two of T2
        answer = await steps.move(alone.shown(length=7), 4, -3)
        same((answer["moved"], answer["made"], stay(answer)["position"], alone.events()), (1, [7], 2, [0, 1, 2, 3, 4]))
        answer = await steps.move(alone.shown([7], length=7), 2, 2)
        same((answer["moved"], stay(answer)["with"]["event"]), (0, 3))
        same(await steps.move(alone.shown(length=8), 0, -1), {"moved": 0, "answer": "nothing to move"})
        same(await steps.move(alone.shown(length=8), 3, 0), {"moved": 0, "answer": "nothing to move"})
        answer = await steps.move(alone.shown(length=8), 4, 1)  # there is no neighbour
        same((answer["moved"], answer["made"], "stop" in answer), (0, [], False))


def stop(answer: Step) -> Stop:
    """The event before which a run stopped."""
    return cast(Stop, answer["stop"])


async def test_how_far_a_run_goes(program: str) -> None:
    """Up to the first event that may not come, which the answer has; and what several undos take back."""
    text = "T1|w(a)|a:0\nT2|w(b)|b:0\nT2|r(a)|b:1\nT2|w(b)|b:2\n"
    async with Alone(program, ("new A",), text) as alone:
        answer = await steps.Run(alone.bench, "A").to(1, None)
        same((answer["added"], answer["entries"], stop(answer)["event"], stop(answer)["code"]), (1, [1], 2, "24"))
        answer = await steps.Run(alone.bench, "A").to(1, None)
        same((answer["added"], answer["entries"], stop(answer)["event"]), (0, [], 2))
        answer = await steps.add(alone.bench, "A", 2)
        same((answer["answer"].startswith("refused 46 24 "), answer["why"]["code"]), (True, "24"))
        same(await steps.add(alone.bench, "A", 0), {"answer": "2: done"})
        answer = await steps.Run(alone.bench, "A").to(1, 2)
        same(answer, {"added": 1, "entries": [3], "answer": "3: done"})
        await alone.other("new B")
        answer = await steps.undo(alone.bench, [4, 3])  # of several answers the refusal counts
        same((answer["undone"], answer["made"], "rests" in answer), (1, [5], False))
        same(answer["answer"].startswith("refused 58 "), True)
        answer = await steps.undo(alone.bench, [1])
        same(
            (answer["undone"], answer["made"], answer["rests"]["entry"]["number"], answer["rests"]["name"]),
            (0, [], 2, "A"),
        )
        answer = await steps.undo(alone.bench, [])
        same((answer["answer"], answer["undone"], answer["made"]), ("6: undone 2", 1, [6]))
        answer = await steps.undo(alone.bench, [1, 0])  # of several answers the last counts
        same(answer, {"answer": "8: undone 0", "undone": 2, "made": [7, 8]})


async def test_a_missed_write_that_is_there(program: str) -> None:
    """Another write came after it. No run of one thread helps, so the answer has none."""
    calls = ("new A", "add A 0", "add A 2")
    async with Alone(program, calls, "T0|w(x)|a:0\nT2|r(x)|c:0\nT1|w(x)|b:0\n") as alone:
        why = (await steps.add(alone.bench, "A", 1))["why"]
        assert why["about"] and why["has"]
        same((why["about"]["event"], why["has"]["event"], "help" in why, "steps" in why), (0, 2, False, False))


async def test_a_run_while_another_drops_the_schedule(program: str) -> None:
    """What was refused is done again without the event that may not come, and that is refused too."""
    text = "T1|w(a)|a:0\nT2|w(b)|b:0\nT2|r(a)|b:1\n"
    async with Alone(between(program, batch_add_A_1="drop A"), ("new A",), text) as alone:
        answer = await steps.Run(alone.bench, "A").to(1, None)
        same(answer, {"added": 0, "entries": [], "answer": "refused 70 at 0 42 no such schedule"})
        same(logged(), ["1 new A", "2 drop A"])


async def test_a_move_while_another_drops_the_schedule(program: str) -> None:
    """The part of it that may be made is refused too, and the answer has the refusal."""
    calls = ("new A", "add A 0", "add A 1", "add A 2", "add A 4", "add A 3")
    async with Alone(between(program, swap_A_3="drop A"), calls, ORDERED) as alone:
        answer = await steps.move(alone.shown(length=6), 4, -3)
        same(answer, {"moved": 0, "made": [], "answer": "refused 42 no such schedule"})
        same(logged()[6:], ["2 drop A"])


async def test_a_witness_that_is_entered(program: str) -> None:
    """It is proposed and adopted in one batch, or the answer has the refusal."""
    async with Alone(program, ("new A",), "T1|w(x)|a:0\nT2|w(x)|b:0\n") as alone:
        events = alone.bench.trace.events_of[0][:0]
        same(await steps.enter(alone.bench, "B", events, (0, 1)), {"answer": "2: done"})
        same(logged()[1:], ["1 propose 0 1", "1 batch new B ; adopt B 0"])
        answer = await steps.enter(alone.bench, "C", alone.bench.trace.events_of[0], (0, 1))
        same((answer["answer"].startswith("refused "), len(logged())), (True, 3))
        answer = await steps.enter(alone.bench, "D", alone.bench.trace.events_of[0], None)
        same(answer, {"answer": "4: done", "entries": [3, 4]})
        twice = alone.bench.trace.events_of[0] * 2  # no schedule has an event twice
        answer = await steps.enter(alone.bench, "E", twice, None)
        same((answer["answer"].startswith("refused 70 at 1 "), answer["entries"]), (True, [5]))
