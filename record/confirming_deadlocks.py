"""Following each deadlock of a trace: the table, and the outcome of each as an object for JSON."""
from __future__ import annotations

import argparse
import io
import json
import os
import sys
from typing import Iterator

import clocks
import confirming
import deadlock_plans
import deadlocks
import following
import plans
import run_messages
import running

# How a deadlock has no row in JSON: no schedule of it is known.
UNKNOWN = "no schedule"


class DeadlockConfirmer:
    """Follows deadlocks of a recording."""

    def __init__(
        self, chosen: argparse.Namespace, clock: clocks.Clock, runner: following.Runner, settings: following.Settings
    ) -> None:
        self.chosen, self.clock, self.runner = chosen, clock, runner
        self.settings = following.with_heap_of(clock, settings)
        self.messages = run_messages.RunMessages(clock)
        self.deadlocks = deadlocks.Deadlocks(chosen.racebench, chosen.trace)

    def all(self) -> list[deadlocks.Deadlock]:
        return self.deadlocks.all(self.chosen.longest)[: self.chosen.most]

    def location(self, event: int) -> str:
        return self.deadlocks.lines[event].split("|", 2)[2]

    def places(self, one: deadlocks.Deadlock) -> list[str]:
        """Where its threads wait."""
        return [self.location(event).split(" < ")[0] for event in one.events]

    def head(self, one: deadlocks.Deadlock) -> confirming.Found:
        places = [event for pair in zip(one.holds, one.events) for event in pair]
        return {
            "events": one.events,
            "locations": [self.location(event) for event in places],
            "places": self.places(one),
        }

    def attempts(self, witness: plans.Witness) -> Iterator[tuple[plans.Witness, following.Settings]]:
        """The runs to try until one does not depart: last with the heap of the recording."""
        yield witness, self.settings
        if self.settings.filled_heap:
            yield witness, self.settings._replace(filled_heap=False)

    def result_of(self, requests: list[int], witness: plans.Witness) -> following.Result:
        """The first run in which the deadlock stands, or the first of all."""
        results: list[following.Result] = []
        for each, settings in self.attempts(witness):
            plan = deadlock_plans.DeadlockPlan(self.clock, each, requests, self.chosen.patience)
            plan.take_places(self.deadlocks.lines)
            out = sys.stderr.buffer if self.chosen.verbose else None
            with open(os.devnull, "wb") as nowhere:
                run = following.followed(
                    self.runner, plan, plans.ENDS["stop"], self.chosen.seed, settings, out or nowhere
                )
            results.append(run)
            if run.stands:
                return run
        return results[0]

    def confirmed(self, one: deadlocks.Deadlock) -> confirming.Found:
        """What came of a deadlock, as an object for JSON."""
        text = self.deadlocks.witness(one.events)
        if text is None:
            return {**self.head(one), "ended": UNKNOWN, "text": "no schedule of it is known"}
        witness = plans.read_witness(io.StringIO(text), self.clock)
        plans.check_next(self.clock, witness[0], one.events, "deadlock")
        result = self.result_of(one.events, witness)
        if not result.stands:
            departure = self.messages.departure(result)
            return {**self.head(one), "ended": "departed", "at": result.event, "text": departure}
        liberties = list(self.messages.liberties(result))
        return {**self.head(one), "ended": "stands", "text": self.messages.title(result), "liberties": liberties}


class Table:
    """Prints each row when it is known."""

    def __init__(self, rows: list[list[str]]) -> None:
        self.count = max([2, *map(len, rows)])
        self.width = max([len("waits at"), *(len(place) for row in rows for place in row)])
        self.ended: list[str] = []
        self.print_row(["waits at"] * self.count, "")

    def print_row(self, places: list[str], ended: str) -> None:
        cells = [cell.ljust(self.width) for cell in places + [""] * (self.count - len(places))]
        print("  ".join([*cells, ended]).rstrip(), flush=True)

    def add(self, found: confirming.Found) -> None:
        self.ended.append(found["ended"])
        self.print_row(found["places"], found["ended"])
        print(f"    {' '.join(map(str, found['events']))}: {found['text']}", flush=True)

    def end(self) -> int:
        """Prints the last line; the exit status."""
        stand, departed, unknown = (self.ended.count(word) for word in ("stands", "departed", UNKNOWN))
        counts = f"deadlocks {len(self.ended)}, stand {stand}, departed {departed}"
        print(counts + (f", no schedule {unknown}" if unknown else ""), flush=True)
        return 1 if departed else 0


def follow_all(confirmer: DeadlockConfirmer, path: str) -> int:
    """Follows each deadlock, and writes it to a file as a line of JSON."""
    found = confirmer.all()
    if not confirmer.deadlocks.is_whole:
        running.say("record/confirm", "the search stopped early: there may be other deadlocks")
    table = Table([confirmer.places(one) for one in found])
    with open(path, "w", encoding="utf-8") as lines:
        for number, one in enumerate(found):
            try:
                outcome = confirmer.confirmed(one)
            except following.Interrupted as why:
                table.end()
                why.left = f"{len(found) - number} deadlocks have no verdict"
                raise
            table.add(outcome)
            if outcome["ended"] != UNKNOWN:
                lines.write(json.dumps(confirming.readable(outcome), sort_keys=True, ensure_ascii=True) + "\n")
                lines.flush()
    return table.end()
