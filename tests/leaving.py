"""What the recorder leaves out of a trace that can't change a verdict, computed from the lines of the whole trace:
accesses of variables that forks and joins alone order, and looks of loops that poll. For each event the set of all
earlier events is known, so this is for small traces.
"""

from __future__ import annotations

from collections import defaultdict
from collections.abc import Iterable
from typing import NamedTuple


class Event(NamedTuple):
    thread: str
    word: str
    name: str
    location: str


class Step(NamedTuple):
    """The events of one record, its place in the code, and whether it may be a look: an atomic read, or a try of a lock
    that was refused."""

    events: list[Event]
    place: tuple[object, ...]
    may_look: bool


def event_of(line: str) -> Event:
    thread, operation, location = line.split("|", 2)
    word, name = operation[:-1].split("(", 1)
    return Event(thread, word, name, location)


def line_of(event: Event) -> str:
    return f"{event.thread}|{event.word}({event.name})|{event.location}"


def before(events: list[Event]) -> list[int]:
    """For each event the events that forks, joins and its thread put before it, as bits of a number."""
    found: list[int] = []
    last: dict[str, int] = defaultdict(int)
    forked: dict[str, int] = defaultdict(int)
    for number, event in enumerate(events):
        mine = last[event.thread] | forked[event.thread]
        if event.word == "join":
            mine |= last[event.name] | forked[event.name]
        found.append(mine)
        last[event.thread] = mine | 1 << number
        if event.word == "fork":
            forked[event.name] = mine | 1 << number
    return found


def in_atomics(events: list[Event]) -> list[bool]:
    """Whether each event is within an atomic access."""
    depth: dict[str, int] = defaultdict(int)
    found = []
    for event in events:
        if event.name.startswith("atomic:"):
            depth[event.thread] += {"acq": 1, "rel": -1}.get(event.word, 0)
        found.append(depth[event.thread] > 0)
    return found


def ordered_variables(events: list[Event]) -> set[str]:
    """The variables whose conflicting accesses forks and joins order, if none of the accesses is atomic."""
    earlier, atomic = before(events), in_atomics(events)
    accesses: dict[str, list[int]] = defaultdict(list)
    for number, event in enumerate(events):
        if event.word in ("r", "w") and not event.name.startswith(("sync:", "held:")):
            accesses[event.name].append(number)

    def is_ordered(numbers: list[int]) -> bool:
        if any(atomic[number] for number in numbers):
            return False
        for place, second in enumerate(numbers):
            for first in numbers[:place]:
                one, other = events[first], events[second]
                conflict = one.thread != other.thread and "w" in (one.word, other.word)
                if conflict and not earlier[second] >> first & 1:
                    return False
        return True

    return {name for name, numbers in accesses.items() if is_ordered(numbers)}


def is_look(step: Step) -> bool:
    operations = [event.word for event in step.events]
    reads = operations.count("r")
    is_one = reads == 1 or bool(step.events) and step.events[0].name.startswith("atomic:held:")
    return step.may_look and is_one and operations == ["acq"] * reads + ["r"] * reads + ["rel"] * reads


def left_out_looks(steps: list[Step]) -> set[int]:
    """The places of the steps that are neither the first nor the last look of a thread at one value."""
    mine: dict[str, list[int]] = {}
    found: set[int] = set()
    written: dict[str, int] = {}
    for place, step in enumerate(steps):
        for event in step.events:
            if event.word == "w":
                written[event.name] = place
        if not step.events:
            continue
        thread = step.events[0].thread
        looks = mine.get(thread, [])
        names = [event.name for event in step.events if event.word == "r"]
        goes_on = bool(looks) and is_look(step) and steps[looks[0]] == step
        if goes_on and all(written.get(name, -1) < looks[0] for name in names):
            found.update(looks[1:])
            mine[thread] = [looks[0], place]
        else:
            mine[thread] = [place] if is_look(step) else []
    return found


def without(steps: Iterable[Step]) -> list[Step]:
    """The steps as they are written, with those that are left out as steps without events."""
    whole = list(steps)
    ordered = ordered_variables([event for step in whole for event in step.events])
    kept = [
        step._replace(events=[each for each in step.events if each.word not in ("r", "w") or each.name not in ordered])
        for step in whole
    ]
    polls = left_out_looks(kept)
    return [step._replace(events=[]) if number in polls else step for number, step in enumerate(kept)]
