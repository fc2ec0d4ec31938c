"""Finds the pattern of locks of a trace that a report of a lock order names."""
from __future__ import annotations

import shlex
from typing import NamedTuple

import matching
from deadlocks import Deadlock, Deadlocks
from reports import Access, Report

# The most threads of a deadlock that a report is compared with. ThreadSanitizer has no longer ones.
LONGEST = 5
ORDER = {"deadlock": 0, "undecided": 1, "apart": 2}
# How the counts name each verdict.
WORDS = {"deadlock": "a deadlock here", "undecided": "undecided", "apart": "apart"}


class Match(NamedTuple):
    """How well a report fits a pattern: the score, and whether it has all its threads, and each line."""

    score: int
    is_whole: bool
    is_by_lines: bool


class LockOrders:
    """The patterns of locks of a trace, and the places where it takes locks."""

    def __init__(self, racebench: str, trace: str) -> None:
        self.trace, self.deadlocks = trace, Deadlocks(racebench, trace)
        self.verdicts = self.deadlocks.verdicts(LONGEST)
        parts = [line.split("|", 2) for line in self.deadlocks.lines]
        places = {("l", location) for _, operation, location in parts if operation.startswith("acq(")}
        self.locks = matching.Recording([], places)

    def location(self, event: int) -> matching.Location:
        return matching.Location(self.deadlocks.lines[event].split("|", 2)[2])

    def how_well(self, access: Access, request: int, hold: int) -> int:
        """How well a lock of a report fits a request, with the lock before it if the report has that."""
        scores = [self.locks.how_well(access, self.location(request))]
        if access.before and access.before.calls:
            scores.append(self.locks.how_well(access.before, self.location(hold)))
        return min(scores)

    def match(self, report: Report, one: Deadlock) -> Match | None:
        """How a report fits a pattern, from any of its threads on."""
        known = [access for access in report.accesses if access.calls]
        pairs = list(zip(one.events, one.holds))
        if not known or len(known) > len(pairs) or (1 < len(known) < len(pairs)):
            return None
        turns = [pairs[k:] + pairs[:k] for k in range(len(pairs))]
        scores = [[self.how_well(access, *pair) for access, pair in zip(known, turn)] for turn in turns]
        best = max((each for each in scores if all(each)), key=sum, default=None)
        return Match(sum(best), len(known) == len(pairs), min(best) == 2) if best else None

    def found(self, report: Report) -> tuple[Deadlock, Match] | None:
        """The pattern that a report names. One that is apart has to fit in each line."""
        matches = [(self.match(report, one), one) for one in self.verdicts]
        fitting = [(match, one) for match, one in matches if match and self.may_answer(match, one)]
        if not fitting:
            return None
        match, one = min(fitting, key=lambda each: (-each[0].score, ORDER[each[1].kind], each[1].events))
        return one, match

    @staticmethod
    def may_answer(match: Match, one: Deadlock) -> bool:
        return one.kind != "apart" or (match.is_whole and match.is_by_lines)

    def why_not_met(self, report: Report) -> tuple[str, str]:
        """A word for the count, and why no pattern is named."""
        calls = [self.locks.call_of(access) for access in report.accesses]
        missing = [
            f"{call[1].split('/')[-1]}:{call[2]}" if call[2] else call[0]
            for access, call in zip(report.accesses, calls)
            if call and not any(self.locks.how_well(access, location) for location in self.locks.locations)
        ]
        if not any(calls):
            return "not met", "not met: the report has no line of the program: compile it with -g"
        if missing:
            return "not met", f"not met: no lock at {' and '.join(sorted(set(missing)))} is taken in this recording"
        if len(report.accesses) > self.deadlocks.known:
            return "undecided", "undecided: the search found no schedule, and it proves nothing"
        return "not met", "not met: in this recording no two threads take these locks so"

    def answer(self, report: Report) -> tuple[str, list[str]]:
        """The answer to a report: a word for the count, and the lines."""
        found = self.found(report)
        if not found:
            word, text = self.why_not_met(report)
            return word, [text]
        one, match = found
        notes = ["by one lock, since the report has one"] if not match.is_whole else []
        notes += [] if match.is_by_lines else ["by the functions, since the lines differ"]
        lines = [f"  {event}  {self.deadlocks.lines[event]}" for pair in zip(one.holds, one.events) for event in pair]
        return WORDS[one.kind], [
            self.first_line(one, f" ({', '.join(notes)})" if notes else ""),
            *lines,
            *self.more(one),
        ]

    @staticmethod
    def first_line(one: Deadlock, by: str) -> str:
        if one.kind == "deadlock":
            return f"a deadlock here{by}: a schedule of {one.sizes[0]} events of {one.sizes[1]} threads shows it"
        if one.kind == "apart":
            return f"apart in this recording{by}: no correct reordering shows it"
        return f"undecided{by}: {one.sizes[0]} lists of requests were tried, and no schedule shows one"

    def more(self, one: Deadlock) -> list[str]:
        """How to go on from a deadlock."""
        if one.kind != "deadlock":
            return []
        trace, events = shlex.quote(self.trace), " ".join(map(str, one.events))
        return [f"  record/follow --trace {trace} CLOCK {events}"]
