"""Judges the text of a pair that no order of critical sections and reads shows: each step follows by its rule from the
definitions and from earlier steps, and the last one is impossible."""

from __future__ import annotations

import re
from collections import Counter
from collections.abc import Callable

import explained
import plain
from judging import Wrong

# An event that is there (None), or comes before another one.
Fact = tuple[int, int | None]
HEAD = "apart: no order of the critical sections and reads shows the two side by side"
STEPS = "since in such an order"
NUMBER = r"(\d+)"
BEFORE = r"comes before (\d+|itself)"
STANDS = r"(?:is there|comes before (?:\d+|itself))"


class Steps:
    """The steps that were read, and what they are about."""

    def __init__(self, trace: plain.Trace, pair: explained.Pair) -> None:
        self.trace, self.pair = trace, pair
        self.facts: list[Fact] = []

    def is_known(self, step: str, first: int, second: int | None) -> bool:
        """Whether the step with this number is an earlier one, and says this."""
        at = int(step) - 1
        return at < len(self.facts) and self.facts[at] == (first, second)

    def writes(self, event: int, read: int) -> bool:
        return self.trace.events[read].word == "r" and self.trace.does(event, "w", self.trace.events[read].name)

    def base(self, fact: Fact, request: str) -> bool:
        return fact[1] is None and int(request) in self.pair and self.trace.base(int(request)) == fact[0]

    def must(self, fact: Fact) -> bool:
        return fact[1] is not None and fact[0] != fact[1] and fact[0] in self.trace.must()[fact[1]]

    def through(self, fact: Fact, left: str, right: str) -> bool:
        middle = self.facts[int(left) - 1][1] if int(left) <= len(self.facts) else None
        return middle is not None and self.is_known(left, fact[0], middle) and self.is_known(right, middle, fact[1])

    def overwritten(self, fact: Fact, read: str, before: str, due: str) -> bool:
        reader = int(read)
        return (
            fact[1] is not None
            and fact[0] != fact[1]
            and self.writes(fact[0], reader)
            and self.trace.last_writer(reader) == fact[1]
            and self.is_known(before, fact[0], reader)
            and self.is_known(due, reader, None)
        )

    def unseen(self, fact: Fact, after: str, due: str) -> bool:
        read, write = fact
        if write is None or not self.writes(write, read):
            return False
        writer = self.trace.last_writer(read)
        return (
            writer not in (None, write) and self.is_known(after, writer or 0, write) and self.is_known(due, read, None)
        )

    def initial(self, fact: Fact, due: str) -> bool:
        read, write = fact
        return (
            write is not None
            and self.writes(write, read)
            and self.trace.last_writer(read) is None
            and self.is_known(due, read, None)
        )

    def enters(self, fact: Fact, inside: str, before: str, due: str) -> bool:
        (first, begin), event = fact, int(inside)
        lock = self.trace.events[first].name
        return (
            begin is not None
            and self.trace.does(first, "acq", lock)
            and self.trace.thread(first) != self.trace.thread(begin)
            and self.trace.thread(event) == self.trace.thread(begin)
            and lock in [*self.trace.locks_before(event), *self.begun(event)]
            and begin == (event if lock not in self.trace.locks_before(event) else self.trace.held_since(event, lock))
            and self.is_known(before, first, event)
            and self.is_known(due, event, None)
        )

    def begun(self, event: int) -> list[str]:
        """The lock that the event acquires, if it does."""
        return [self.trace.events[event].name] if self.trace.events[event].word == "acq" else []

    def ends(self, fact: Fact, start: str, before: str) -> bool:
        end, second = fact
        begin = int(start)
        return (
            second is not None
            and self.trace.events[begin].word == "acq"
            and self.trace.section_end(begin) == end
            and self.trace.ends_first(begin, second)
            and self.is_known(before, begin, second)
        )

    def lasts(self, fact: Fact, due: str) -> bool:
        first, last = fact
        if last is None or self.trace.events[last].word != "acq":
            return False
        end = self.trace.section_end(last)
        return (
            self.trace.does(first, "acq", self.trace.events[last].name)
            and self.trace.thread(first) != self.trace.thread(last)
            and (end is None or any(request in self.trace.must()[end] for request in self.pair))
            and self.is_known(due, first, None)
        )

    def rule(self, fact: Fact, sentence: str) -> str | None:
        """The name of the rule that the sentence gives, if the step follows by it."""
        rules: dict[str, tuple[str, Callable[..., bool]]] = {
            "base": (rf"is there, so that {NUMBER} can be next", self.base),
            "must": (rf"{STANDS} in every correct reordering", self.must),
            "through": (rf"{STANDS}, by {NUMBER} and {NUMBER}", self.through),
            "overwritten": (
                rf"is written before {NUMBER} reads, so it {STANDS}, by {NUMBER} and {NUMBER}",
                self.overwritten,
            ),
            "unseen": (rf"reads what that overwrites, so it {STANDS}, by {NUMBER} and {NUMBER}", self.unseen),
            "initial": (rf"reads what nobody wrote, so it {STANDS}, by {NUMBER}", self.initial),
            "enters": (
                rf"comes before {NUMBER} in a critical section, so it {STANDS}, by {NUMBER} and {NUMBER}",
                self.enters,
            ),
            "ends": (
                rf"ends a critical section that begins first, at {NUMBER}, so it {STANDS}, by {NUMBER}",
                self.ends,
            ),
            "lasts": (rf"{STANDS}, whose critical section does not end, by {NUMBER}", self.lasts),
        }
        for name, (form, follows) in rules.items():
            found = re.fullmatch(form, sentence)
            if found:
                return name if follows(fact, *found.groups()) else None
        return None

    def add(self, event: int, sentence: str) -> str:
        """Adds a step; the name of its rule."""
        stands = re.findall(rf"is there|{BEFORE}", sentence)
        if not stands:
            raise Wrong(f"this is no step: {sentence}")
        second = {"": None, "itself": event}.get(stands[-1], stands[-1])
        fact = (event, None if second is None else int(second))
        name = self.rule(fact, sentence)
        if name is None:
            raise Wrong(f"step {len(self.facts) + 1}, of {event}, does not follow: {sentence}")
        self.facts.append(fact)
        return name

    def end(self) -> None:
        """The last step is impossible: a request is there, or an event that is there precedes itself."""
        if not self.facts:
            raise Wrong("there is no step")
        first, second = self.facts[-1]
        if not (second is None and first in self.pair) and not (first == second and (first, None) in self.facts):
            raise Wrong(f"the last step is possible: {first} and {second}")


def judge_contradicted(trace: plain.Trace, tally: Counter[str], text: str, pair: explained.Pair) -> None:
    """Judges the text on a pair that is contradicted."""
    lines = explained.Lines(text)
    lines.expect(HEAD, *explained.with_locks(trace, pair[0]), *explained.with_locks(trace, pair[1]), STEPS)
    steps = Steps(trace, pair)
    while lines.next() is not None:
        number = f"{len(steps.facts) + 1}. "
        line = lines.take()
        if not line.startswith(number):
            raise Wrong(f"this is not step {number}: {line!r}")
        event = explained.event_of(trace, line.removeprefix(number), 0)
        sentence = lines.take()
        if not sentence.startswith("  "):
            raise Wrong(f"this is not how a step follows: {sentence!r}")
        tally[f"step|{steps.add(event, sentence.removeprefix('  '))}"] += 1
    steps.end()
