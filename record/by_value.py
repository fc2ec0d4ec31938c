"""Races by value: pairs of accesses that a schedule shows in which each read sees a write of the value that it saw. The
decoder's search proposes schedules, and `Judge` judges each by the definition. Neither is proved.

A schedule by value has some events of a trace in another order. Each thread keeps its order, and begins after its fork;
a join comes after the end of the joined thread; locks exclude one another. Each read sees a write of the value that
it saw, or the first value if that is the same. A read keeps its writer if its value is not known, or if its writer left
another value: then something wrote that the trace lacks.
"""
from __future__ import annotations

import tempfile
from typing import Any, NamedTuple, Sequence

import decoders

Event = tuple[str, str, str, str]


class BadSchedule(Exception):
    """A schedule does not meet the definition: the search is wrong."""


class Schedule(NamedTuple):
    """A pair of events, and a schedule after which both are next in their threads."""

    pair: tuple[int, int]
    events: list[int]


def event_of(line: str) -> Event:
    """The thread, the word, the object and the location of a line."""
    thread, operation, location = line.split("|", 2)
    word, _, name = operation[:-1].partition("(")
    return thread, word, name, location


class Judge:
    """A trace with its values."""

    def __init__(self, lines: Sequence[str], values: dict[int, bytes]) -> None:
        self.events = [event_of(line) for line in lines]
        self.values = values
        self.writer: dict[int, int | None] = {}
        self.of: dict[str, list[int]] = {}
        self.fork: dict[str, int] = {}
        self.first: dict[str, set[bytes | None]] = {}
        last: dict[str, int] = {}
        for event, (thread, word, name, _) in enumerate(self.events):
            self.of.setdefault(thread, []).append(event)
            if word == "r":
                self.writer[event] = last.get(name)
                if name not in last:
                    self.first.setdefault(name, set()).add(values.get(event))
            elif word == "w":
                last[name] = event
            elif word == "fork":
                self.fork.setdefault(name, event)

    def left_by(self, name: str, write: int | None) -> bytes | None:
        """The value that a variable has after a write, or before all writes, if it is known."""
        if write is not None:
            return self.values.get(write)
        first = self.first.get(name, set())
        return next(iter(first)) if len(first) == 1 else None

    def sees(self, read: int, write: int | None) -> bool:
        """Whether a read may see a write, or the first value."""
        own, name, value = self.writer[read], self.events[read][2], self.values.get(read)
        if write == own:
            return True
        keeps = value is None or self.left_by(name, own) != value
        return not keeps and self.left_by(name, write) == value

    def has_begun(self, thread: str, there: set[int]) -> bool:
        return thread not in self.fork or self.fork[thread] in there

    def has_ended(self, thread: str, there: set[int]) -> bool:
        return self.has_begun(thread, there) and all(event in there for event in self.of.get(thread, []))

    def why_not(self, schedule: Schedule) -> str:
        """Why a schedule does not show its pair by value; nothing if it does."""
        there: set[int] = set()
        counts: dict[str, int] = {}
        last: dict[str, int] = {}
        held: dict[str, list[str]] = {}
        for event in schedule.events:
            if not 0 <= event < len(self.events):
                return f"there is no event {event}"
            thread, word, name, _ = self.events[event]
            if not self.is_next(event, counts, there):
                return f"event {event} is not next in its thread"
            if word == "r" and not self.sees(event, last.get(name)):
                return f"event {event} sees {last.get(name)}, which left another value"
            if word == "acq" and any(holder != thread for holder in held.get(name, [])):
                return f"event {event} takes a lock that another thread holds"
            if word == "join" and not self.has_ended(name, there):
                return f"event {event} joins a thread that has not ended"
            if word == "w":
                last[name] = event
            elif word == "acq":
                held.setdefault(name, []).append(thread)
            elif word == "rel" and held.get(name):
                held[name].pop()
            there.add(event)
            counts[thread] = counts.get(thread, 0) + 1
        return self.why_not_shown(schedule.pair, counts, there)

    def is_next(self, event: int, counts: dict[str, int], there: set[int]) -> bool:
        thread = self.events[event][0]
        mine, count = self.of[thread], counts.get(thread, 0)
        return count < len(mine) and mine[count] == event and self.has_begun(thread, there)

    def why_not_shown(self, pair: tuple[int, int], counts: dict[str, int], there: set[int]) -> str:
        for event in pair:
            if not 0 <= event < len(self.events) or not self.is_next(event, counts, there):
                return f"event {event} of the pair is not next in its thread"
        one, other = (self.events[event] for event in pair)
        words = {one[1], other[1]}
        if one[0] == other[0] or one[2] != other[2] or not words <= {"r", "w"} or words == {"r"}:
            return "the pair does not conflict"
        return ""


class Search:
    """What the decoder's search finds in a trace. `facts` says how much it tried."""

    def __init__(self, trace: str, values: str, known: Sequence[tuple[int, int]], limits: Sequence[str] = ()) -> None:
        options = ["--by-value", values, *(word for limit in limits for word in ("--limit", limit))]
        with tempfile.TemporaryFile() as pairs, tempfile.TemporaryFile() as out:
            pairs.write("".join(f"{a} {b}\n" for a, b in known).encode())
            pairs.seek(0)
            call = [decoders.path(), *options, trace]
            status, errors = decoders.searched(call, pairs, out)
            out.seek(0)
            lines = out.read().decode().splitlines()
        self.facts = decoders.Facts(errors)
        if status:
            raise decoders.Undecodable("the search for races by value failed")
        numbers = [list(map(int, line.split()[1:])) for line in lines]
        self.schedules = [Schedule((row[0], row[1]), row[2:]) for row in numbers]


def judged(judge: Judge, search: Search) -> list[Schedule]:
    """The schedules of a search, each judged."""
    for schedule in search.schedules:
        why = judge.why_not(schedule)
        if why:
            raise BadSchedule(f"the schedule for {schedule.pair[0]} {schedule.pair[1]}: {why}")
    return search.schedules


def by_locations(judge: Judge, schedules: Sequence[Schedule]) -> list[list[Schedule]]:
    """The schedules of each pair of locations, in the order in which the pairs come."""
    found: dict[Any, list[Schedule]] = {}
    for schedule in schedules:
        found.setdefault(frozenset(judge.events[event][3] for event in schedule.pair), []).append(schedule)
    return list(found.values())
