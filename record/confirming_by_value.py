"""Following each race by value of a trace: the table, and the outcome of each as an object for JSON. Such a race is
shown by a run, and not by a proof."""
from __future__ import annotations

import argparse
import json
import os
import re
import sys
from typing import Iterator

import by_value
import clocks
import confirming
import deadlocks
import following
import plans
import run_messages
import running
import values

# Pairs of locations that triage lists: no schedule by value is wanted for these.
LISTED = re.compile(r"^(?:race|undecided) (\d+) (\d+) ", re.MULTILINE)
STANDS, DEPARTED = "by value", "departed"
# How a line of run_messages.liberties ends that a run by itself may do.
ALLOWED = "which nothing forbids"


class ValueConfirmer:
    """Follows schedules by value of a recording."""

    def __init__(
        self, chosen: argparse.Namespace, clock: clocks.Clock, runner: following.Runner, settings: following.Settings
    ) -> None:
        self.chosen, self.clock, self.runner = chosen, clock, runner
        self.settings = following.with_heap_of(clock, settings)
        self.messages = run_messages.RunMessages(clock)
        self.lines = deadlocks.event_lines(chosen.trace)
        known = values.read(chosen.by_value, clock.fields["trace"])
        self.judge = by_value.Judge(self.lines, known)
        listed = LISTED.findall(confirming.answer_of([chosen.racebench, "triage", chosen.trace]))
        pairs = [(int(first), int(second)) for first, second in listed]
        limits = [f"seconds={chosen.search}"]
        self.search = by_value.Search(chosen.trace, chosen.by_value, pairs, limits)

    def all(self) -> list[list[by_value.Schedule]]:
        """The schedules of each pair of locations."""
        return by_value.by_locations(self.judge, by_value.judged(self.judge, self.search))[: self.chosen.most]

    def places(self, pair: tuple[int, int]) -> list[str]:
        return [location.split(" < ")[0] for location in self.locations(pair)]

    def locations(self, pair: tuple[int, int]) -> list[str]:
        return [self.judge.events[event][3] for event in pair]

    def attempts(self, schedules: list[by_value.Schedule]) -> Iterator[tuple[by_value.Schedule, following.Settings]]:
        """The runs to try until one does not depart: the first schedule last with the heap of the recording."""
        for schedule in schedules:
            yield schedule, self.settings
        if self.settings.filled_heap:
            yield schedules[0], self.settings._replace(filled_heap=False)

    def run(self, schedule: by_value.Schedule, settings: following.Settings) -> following.Result:
        """Runs the program by a schedule, and ends it when both threads are at their accesses."""
        witness = schedule.events, {event: self.lines[event] for event in schedule.events}
        plans.check_next(self.clock, schedule.events, schedule.pair)
        plan = plans.Plan(self.clock, witness, schedule.pair, self.chosen.patience, self.chosen.alone)
        with open(os.devnull, "wb") as nowhere:
            out = sys.stderr.buffer if self.chosen.verbose else nowhere
            return following.followed(self.runner, plan, plans.ORDERS["stop"], self.chosen.seed, settings, out)

    def confirmed(self, schedules: list[by_value.Schedule]) -> confirming.Found:
        """What came of a pair of locations, as an object for JSON."""
        first: confirming.Found = {}
        for schedule, settings in self.attempts(schedules):
            found = self.outcome(schedule, self.run(schedule, settings))
            if found["ended"] == STANDS:
                return found
            first = first or found
        return first

    def outcome(self, schedule: by_value.Schedule, result: following.Result) -> confirming.Found:
        pair = schedule.pair
        head = {"events": list(pair), "locations": self.locations(pair), "places": self.places(pair)}
        if not result.stands:
            return {**head, "ended": DEPARTED, "at": result.event, "text": self.messages.departure(result)}
        if not result.is_same_memory:
            return {**head, "ended": DEPARTED, "at": None, "text": "the two accesses are of different memory here"}
        liberties = list(self.messages.liberties(result))
        return {**head, "ended": STANDS, "text": self.messages.title(result), "liberties": liberties}


class Table:
    """Prints each row when it is known."""

    def __init__(self, rows: list[list[str]]) -> None:
        self.widths = [max([1, *(len(row[side]) for row in rows)]) for side in (0, 1)]
        self.ended: list[str] = []
        self.print_row(["A", "B"], "")

    def print_row(self, places: list[str], ended: str) -> None:
        cells = [place.ljust(width) for place, width in zip(places, self.widths)]
        print("  ".join([*cells, ended]).rstrip(), flush=True)

    def add(self, found: confirming.Found) -> None:
        self.ended.append(found["ended"])
        self.print_row(found["places"], found["ended"])
        print(f"    {' '.join(map(str, found['events']))}: {found['text']}", flush=True)
        for liberty in found.get("liberties", []):
            if not liberty.endswith(ALLOWED):
                print(f"    {liberty}", flush=True)

    def end(self, facts: dict[str, int]) -> int:
        """Prints the last line; the exit status."""
        stand, departed = self.ended.count(STANDS), self.ended.count(DEPARTED)
        missing = 0 if facts["explored"] else facts["open"]
        print(f"races by value {stand}, departed {departed}, no schedule found {missing}", flush=True)
        return 1 if departed else 0


def report_limits(facts: dict[str, int]) -> None:
    """What the search did not try."""
    waits, pairs, cut = facts["untried"], facts["untried_pairs"], facts["cut"]
    if waits or pairs or cut:
        text = (
            f"the search was cut: {waits} schedules and {pairs} pairs of events not tried, {cut} schedules ended early"
        )
        running.say("record/confirm", text)


def follow_all(confirmer: ValueConfirmer, path: str) -> int:
    """Follows the schedules of each pair of locations, and writes what came of it to a file as a line of JSON."""
    found = confirmer.all()
    facts = confirmer.search.facts.counts
    report_limits(facts)
    table = Table([confirmer.places(schedules[0].pair) for schedules in found])
    with open(path, "w", encoding="utf-8") as lines:
        for number, schedules in enumerate(found):
            try:
                outcome = confirmer.confirmed(schedules)
            except following.Interrupted as why:
                table.end(facts)
                why.left = f"{len(found) - number} pairs of locations have no verdict"
                raise
            table.add(outcome)
            lines.write(json.dumps(confirming.readable(outcome), sort_keys=True, ensure_ascii=True) + "\n")
            lines.flush()
    return table.end(facts)
