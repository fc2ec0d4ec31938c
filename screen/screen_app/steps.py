"""What an analyst does to a schedule. Each step is lines of the session; its answers say what was done."""

from __future__ import annotations

import re
from array import array
from collections.abc import Sequence
from typing import cast

from .bench import Bench
from .causes import Causes, dependent
from .messages import Cause, Reach, Stay, Step, Stop
from .reach import Bar, Loss, loss_of, reach_of
from .shown import Shown
from .text import clean

# The most commands of a batch; this many batches are written together.
BATCH = 64
CHUNK = 64
# The longest line that is sent as a proposal; a line of a script has at most 65,536 bytes.
LINE = 65_000
# The most events that one run adds.
MOST = 200_000
REFUSED_ADD = re.compile(r"refused 70 at (\d+) 46 (.*)")
REFUSED_SWAP = re.compile(r"refused (?:70 at (\d+) )?47 ")
RESTS = re.compile(r"refused 52 rests on (\d+) (\S+)")
PROPOSED = re.compile(r"\d+: proposed (\d+)\Z")


def is_done(answer: str) -> bool:
    return answer.endswith(": done")


def entry_of(answer: str) -> int:
    return int(answer.split(":", 1)[0])


def adds(name: str, events: Sequence[int]) -> str:
    return "batch " + " ; ".join(f"add {name} {event}" for event in events)


async def one(bench: Bench, line: str) -> Step:
    return {"answer": clean(await bench.say_one(line))}


async def add(bench: Bench, name: str, event: int) -> Step:
    answer = await bench.say_one(f"add {name} {event}")
    step: Step = {"answer": clean(answer)}
    if answer.startswith("refused 46 ") and event < len(bench.trace):
        step["why"] = Causes(bench.sheet(name)).cause_of(event, answer.removeprefix("refused 46 "))
    return step


class Run:
    """Adds a thread's events up to a given one, or until the next is refused, by as few batches as may be."""

    def __init__(self, bench: Bench, name: str) -> None:
        self.bench, self.name = bench, name
        self.added = 0
        self.entries: list[int] = []

    async def to(self, thread: int, until: int | None) -> Step:
        events = self.bench.trace.events_of[thread]
        at = self.bench.sheet(self.name).counts[thread]
        wanted = len(events) if until is None else self.bench.trace.index(until) + 1
        end = min(wanted, at + MOST)
        while at < end:
            parts = cut(events[at : min(end, at + BATCH * CHUNK)])
            answers = await self.bench.say(*[adds(self.name, part) for part in parts])
            for part, answer in zip(parts, answers):
                if not is_done(answer):
                    return await self._stopped(part, answer)
                self._count(part, answer)
                at += len(part)
        step = self._step(f"{self.entries[-1]}: done" if self.entries else "nothing to add")
        if end < wanted:
            step["more"] = wanted - end
        return step

    def _count(self, part: Sequence[int], answer: str) -> None:
        self.added += len(part)
        self.entries.append(entry_of(answer))

    def _step(self, answer: str) -> Step:
        return {"added": self.added, "entries": self.entries, "answer": clean(answer)}

    async def _stopped(self, part: Sequence[int], answer: str) -> Step:
        """A batch was refused at one of its events: those before it are added, and the answer has the cause."""
        found = REFUSED_ADD.match(answer)
        if not found:
            return self._step(answer)
        good = int(found[1])
        if good:
            more = await self.bench.say_one(adds(self.name, part[:good]))
            if not is_done(more):
                return self._step(more)
            self._count(part[:good], more)
        event = part[good]
        why = Causes(self.bench.sheet(self.name)).cause_of(event, found[2])
        step = self._step(answer)
        step["stop"] = stop(self.bench, event, why)
        return step


def stop(bench: Bench, event: int, why: Cause) -> Stop:
    """The event before which a run stops, and why."""
    return cast(Stop, {**bench.trace.event_message(event), **why})


def cut(events: array[int]) -> list[array[int]]:
    return [events[start : start + BATCH] for start in range(0, len(events), BATCH)]


def swaps(name: str, places: Sequence[int]) -> str:
    line = " ; ".join(f"swap {name} {place}" for place in places)
    return line if len(places) == 1 else "batch " + line


async def run_to_aim(bench: Bench, name: str, until: int, pair: tuple[int, ...]) -> Step:
    """Runs a thread to an event, and stops before one after which the aim can't be reached."""
    trace, aim = bench.trace, bench.aim(pair)
    thread, end = trace.thread[until], trace.index(until) + 1
    sheet = bench.sheet(name)
    done = sheet.counts[thread]
    if aim is None or end - done > MOST:
        return await Run(bench, name).to(thread, until)
    count, bar, is_searched = reach_of(aim, sheet.events, thread, end)
    if count == end - done:
        return await Run(bench, name).to(thread, until)
    events = trace.events_of[thread]
    step = await Run(bench, name).to(thread, events[done + count - 1]) if count else nothing_added()
    if step["added"] < count:
        return step
    step["stop"] = stop(bench, events[done + count], barred(bench, None if is_searched else bar))
    return step


def nothing_added() -> Step:
    return {"added": 0, "entries": [], "answer": "nothing to add"}


def barred(bench: Bench, bar: Bar | None) -> Cause:
    """Why a step would lead away from the aim: another event has to come first, or no way is found."""
    if bar is None:
        return {"code": "way", "said": "no way to the aim was found after it"}
    return {"code": "aim", "said": "the aim needs another event first", "about": bench.trace.event_message(bar.needed)}


def reach(bench: Bench, name: str, pair: tuple[int, ...]) -> Reach:
    """Whether the schedule can still grow to one that shows the aim; how long it was while it could."""
    aim = bench.aim(pair)
    sheet = bench.sheet(name)
    lost: Loss | None = loss_of(aim, sheet.events) if aim else None
    if lost is None:
        return {}
    about = (
        {}
        if lost.bar is None
        else {key: bench.trace.event_message(event) for key, event in lost.bar._asdict().items()}
    )
    return cast(Reach, {"lost": {"length": lost.length, "left": len(sheet) - lost.length, **about}})


async def back(shown: Shown) -> Step:
    return shown.step(await shown.say(f"back {shown.name}"))


async def back_to(shown: Shown, length: int) -> Step:
    """Takes events back until the schedule has this length, by batches."""
    count = len(shown.bench.sheet(shown.name)) - length
    if count <= 0:
        return {"answer": "nothing to take back", "entries": []}
    sizes = [min(BATCH, count - start) for start in range(0, count, BATCH)]
    lines = [taken_back(shown.name, size) for size in sizes]
    answers = [await shown.say(lines[0], length, length + count)]
    if is_done(answers[0]) and not shown.other:
        for start in range(1, len(lines), CHUNK):
            answers += await shown.bench.say(*lines[start : start + CHUNK])
    entries = [entry_of(answer) for answer in answers if is_done(answer)]
    return shown.step(clean(answers[-1]), made=entries, entries=entries)


def taken_back(name: str, count: int) -> str:
    line = " ; ".join([f"back {name}"] * count)
    return line if count == 1 else "batch " + line


async def branch(shown: Shown, length: int, to: str) -> Step:
    return shown.step(await shown.say(f"branch {shown.name} {length} {to}", 0, length))


async def move(shown: Shown, position: int, by: int) -> Step:
    """Moves an event up or down by neighbours that change places, as far as that goes."""
    places = list(range(position - 1, position + by - 1, -1) if by < 0 else range(position, position + by))[:BATCH]
    if not places or min(places) < 0:
        return {"moved": 0, "answer": "nothing to move"}
    span = min(places), max(places) + 2
    answer = await shown.say(swaps(shown.name, places), *span)
    if is_done(answer):
        return shown.step(answer, moved=len(places))
    found = None if shown.other else REFUSED_SWAP.match(answer)
    if not found:
        return shown.step(answer, moved=0)
    good = int(found[1] or 0)
    if good:
        more = await shown.say(swaps(shown.name, places[:good]), *span)
        if shown.other or not is_done(more):
            return shown.step(more, moved=0)
    return shown.step(answer, moved=good, **stays(shown.bench, shown.name, position, good if by > 0 else -good, by))


def stays(bench: Bench, name: str, position: int, moved: int, by: int) -> dict[str, Stay]:
    """Why an event that was moved so far goes no farther."""
    sheet = bench.sheet(name)
    here = position + moved
    other = here + (1 if by > 0 else -1)
    if not (0 <= other < len(sheet) and 0 <= here < len(sheet)):
        return {}
    why = dependent(sheet, sheet.events[here], sheet.events[other])
    return {"stop": {"position": min(here, other), "why": why, "with": sheet.trace.event_message(sheet.events[other])}}


async def undo(bench: Bench, entries: list[int]) -> Step:
    """Takes back these entries, newest first, under one lock; none named is the latest of this client."""
    answers = await bench.say(*[f"undo {entry}" for entry in entries] or ["undo"])
    failed = next((answer for answer in answers if ": undone" not in answer), None)
    made = [entry_of(answer) for answer in answers if ": undone" in answer]
    step: Step = {"answer": failed or answers[-1], "undone": len(made), "made": made}
    found = RESTS.match(failed or "")
    if found:
        step["rests"] = {"entry": bench.mirror.entry_messages(int(found[1]), 1)[0], "name": found[2]}
    return step


async def enter(bench: Bench, name: str, events: array[int], pair: tuple[int, int] | None) -> Step:
    """Makes a schedule with these events: a proposal that is adopted if its line is short enough, else batches."""
    line = f"propose {pair[0]} {pair[1]} " + " ".join(map(str, events)) if pair else ""
    if pair and len(line) <= LINE:
        answer = await bench.say_one(line)
        found = PROPOSED.match(answer)
        return await one(bench, f"batch new {name} ; adopt {name} {found[1]}") if found else {"answer": clean(answer)}
    answer = await bench.say_one(f"new {name}")
    parts = cut(events) if is_done(answer) else []
    entries = [entry_of(answer)] if parts else []
    for start in range(0, len(parts), CHUNK):
        for answer in await bench.say(*[adds(name, part) for part in parts[start : start + CHUNK]]):
            if not is_done(answer):
                return {"answer": clean(answer), "entries": entries}
            entries.append(entry_of(answer))
    return {"answer": clean(answer), "entries": entries}


async def propose(bench: Bench, pair: tuple[int, int], events: array[int]) -> Step:
    line = f"propose {pair[0]} {pair[1]} " + " ".join(map(str, events))
    if len(line) > LINE:
        return {"answer": "not sent: the list is longer than a line of a script may be (65,536 bytes)"}
    return await one(bench, line)
