#!/usr/bin/env python3
"""Judges `uses`: the accesses of the variables of a race, by location and operation, reckoned from the trace alone.

Draws traces whose locations resemble one another, and pairs of arguments: locations, parts of locations, and numbers
of events. The whole text must be as it is reckoned here from tests/plain.py: the variables, the rows with their
accesses, threads and locks, and which rows come before or after all accesses of the race. If no accesses at the two
locations conflict, the program must say `no such pair`.

    judge_uses.py PROGRAM [TRACES [SEED]]      this many drawn traces, the first of this seed

Says what is wrong, if something is, and ends with status 1 then, also if a kind of answer was never met.
"""

from __future__ import annotations

import random
import sys
from collections import Counter

if __name__ == "__main__":
    sys.dont_write_bytecode = True
import by_chance
import judge_places
import judging
import running
from judging import Wrong

TRACES = 600
MOST_EVENTS = [8, 16, 28, 40]
QUESTIONS = 6
DRAWS = [by_chance.locked_trace, by_chance.trace]
REACHED = [
    "several places",
    "no conflict",
    "no event",
    "table",
    "by number",
    "by word",
    "two variables",
    "before the race",
    "after the race",
    "neither",
    "holds all",
    "holds some",
    "holds nothing",
    "two locks",
    "two threads",
]

Key = tuple[str, str]


class Table:
    """The accesses of the variables on which the two sets of events conflict."""

    def __init__(self, located: judge_places.Located, ones: set[int], others: set[int]) -> None:
        self.trace, self.locations = located.trace, located.locations
        pairs = [(one, other) for one, other in self.trace.conflicting() if self.is_between(one, other, ones, others)]
        self.variables = {self.trace.events[first].name for first, _ in pairs}
        self.rows: dict[Key, list[int]] = {}
        for event, what in enumerate(self.trace.events):
            if what.word in ("r", "w") and what.name in self.variables:
                self.rows.setdefault((self.locations[event], what.word), []).append(event)
        self.race = [event for row in self.rows.values() if not (ones | others).isdisjoint(row) for event in row]
        self.named = [key for key, row in self.rows.items() if not (ones | others).isdisjoint(row)]

    @staticmethod
    def is_between(one: int, other: int, ones: set[int], others: set[int]) -> bool:
        return (one in ones and other in others) or (other in ones and one in others)

    def side(self, key: Key, tally: Counter[str]) -> str:
        """Where the accesses of a row are."""
        must, row = self.trace.must(), self.rows[key]
        if key in self.named:
            return " in the race"
        if all(event in must[access] for event in row for access in self.race):
            tally["before the race"] += 1
            return " before the race"
        if all(access in must[event] for event in row for access in self.race):
            tally["after the race"] += 1
            return " after the race"
        tally["neither"] += 1
        return ""

    def locks(self, row: list[int]) -> list[tuple[str, int]]:
        """The locks that are held at some of the accesses, each with how many these are."""
        held = Counter(lock for event in row for lock in self.trace.locks_before(event))
        return [(lock, held[lock]) for lock in self.trace.locks() if held[lock]]

    def row_lines(self, key: Key, tally: Counter[str]) -> list[str]:
        location, word = key
        row, locks = self.rows[key], self.locks(self.rows[key])
        threads = {self.trace.thread(event) for event in row}
        lines = [f"{'read' if word == 'r' else 'write'} {len(row)} threads {len(threads)}{self.side(key, tally)}"]
        lines.append(f"  {location}")
        for lock, count in locks:
            tally["holds all" if count == len(row) else "holds some"] += 1
            lines.append(f"    holds {lock}" + ("" if count == len(row) else f" at {count}"))
        if not locks:
            tally["holds nothing"] += 1
            lines.append("    holds nothing")
        tally["two locks"] += len(locks) > 1
        tally["two threads"] += len(threads) > 1
        return lines

    def text(self, tally: Counter[str]) -> str:
        """What the program has to print."""
        accesses = [event for row in self.rows.values() for event in row]
        lines = [f"variables {len(self.variables)}", f"accesses {len(accesses)}", f"rows {len(self.rows)}"]
        for key in self.rows:
            lines += self.row_lines(key, tally)
        locks = self.locks(accesses)
        lines.append(f"locks {len(locks)}")
        lines += [f"  {lock} at {count}" for lock, count in locks]
        tally["two variables"] += len(self.variables) > 1
        return "".join(f"{line}\n" for line in lines)


class Judge:
    """Asks the program, and compares."""

    def __init__(self, run: judging.Run) -> None:
        self.program, self.tally = run.program, run.tally
        self.words = judge_places.Judge(run)

    def meant(self, located: judge_places.Located, word: str) -> set[int]:
        """The events that an argument means: of a number, all at the location of that event."""
        named, is_number = located.named(word, Counter())
        self.tally["by number" if is_number else "by word"] += 1
        if not is_number:
            return named
        (number,) = named
        if number >= len(located.locations):
            self.tally["no event"] += 1
            return set()
        return {event for event, location in enumerate(located.locations) if location == located.locations[number]}

    def wanted(self, located: judge_places.Located, arguments: list[str]) -> str | None:
        """The text that the arguments ask for; None if they name no pair."""
        ones, others = (self.meant(located, word) for word in arguments)
        for events in (ones, others):
            if len({judge_places.place_of(located.locations[event].encode()) for event in events}) > 1:
                self.tally["several places"] += 1
                return None
        table = Table(located, ones, others)
        if not table.variables:
            self.tally["no conflict"] += 1
            return None
        self.tally["table"] += 1
        return table.text(self.tally)

    def judge_question(self, located: judge_places.Located, arguments: list[str]) -> None:
        text = self.wanted(located, arguments)
        answer = running.ended(self.program, ["uses", "trace", "--", *arguments])
        wanted = (1, b"", b"racebench: no such pair\n") if text is None else (0, text.encode(), b"")
        if answer != wanted:
            raise Wrong(f"uses of {arguments} answers {answer}, and not {wanted}")
        self.tally["questions"] += 1

    def judge_trace(self, located: judge_places.Located, chance: random.Random) -> None:
        running.write("trace", located.text())
        for _ in range(QUESTIONS):
            arguments = [self.words.word(located, chance, len(located.trace.events)) for _ in range(2)]
            self.judge_question(located, arguments)
        self.tally["traces"] += 1


def judged(run: judging.Run) -> str:
    judge, tally = Judge(run), run.tally
    for seed in run.seeds():
        chance = random.Random(seed)
        located = judge_places.Located(chance.choice(DRAWS)(chance, chance.choice(MOST_EVENTS)), chance)
        with judging.about(f"seed {seed}", "trace"):
            judge.judge_trace(located, chance)
    kinds = ", ".join(f"{tally[kind]} {kind}" for kind in REACHED)
    return f"uses: {tally['questions']} questions on {tally['traces']} traces are answered as reckoned ({kinds})"


if __name__ == "__main__":
    sys.exit(judging.main("uses", judged, REACHED, {"TRACES": TRACES, "SEED": 0}))
