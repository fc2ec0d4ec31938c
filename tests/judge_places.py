#!/usr/bin/env python3
"""Judges which pair of events `explain` and `witness` take if they are given locations, by tests/plain.py and the
rules of docs/FORMATS.md.

Draws traces with locations that resemble one another, and pairs of arguments: locations, files and lines, paths, parts
of paths and numbers of events. If the arguments name a pair, both commands must print what they print for its two
events. Else they must report that they match no pair.

    judge_places.py PROGRAM [TRACES [SEED]]      this many drawn traces, the first of this seed

Says what is wrong, if something is, and ends with status 1 then, also if a kind of question was never met.
"""

import random
import sys
from collections import Counter

if __name__ == "__main__":
    sys.dont_write_bytecode = True
import by_chance
import judging
import plain
import running
from judging import Wrong

TRACES = 150
MOST_EVENTS = [8, 16, 28]
QUESTIONS = 14
TRIES = 16
DRAWS = [by_chance.locked_trace, by_chance.trace]
PLACES = ["a/u.c:1", "b/u.c:1", "u.c:1", "u.c:11", "a/u.c:2", "lib/u_v.c:2", ""]
CALLS = ["", "", " < put", " < put < main m.c:3", " < get m.c:3", " < get m.c:31", " < operator< p.cc:7"]
WORDS = [
    *PLACES[:-1],
    "/src/a/u.c:1",
    "c:1",
    "c:2",
    "put",
    "get",
    "ge",
    "main m.c:3",
    "m.c:3",
    "m.c:31",
    "u.c",
    "< put",
    "p.cc:7",
    "x.c:1",
    ":1",
    "+1",
]
FORMS: list[list[str]] = [[], ["--script"], ["--std"]]
REACHED = [
    "whole",
    "path",
    "part",
    "nothing",
    "several",
    "shared",
    "same accesses",
    "two sets",
    "event",
    "no conflict",
    "candidate",
    "open",
    "apart",
]


def is_word(byte: int) -> bool:
    """Whether words consist of such bytes: digits, letters, underscores, and those of other scripts."""
    return byte >= 128 or bytes([byte]).isalnum() or byte == ord("_")


def is_edge(text: bytes, at: int) -> bool:
    return at == 0 or at >= len(text) or not (is_word(text[at - 1]) and is_word(text[at]))


def is_tail(path: bytes, tail: bytes) -> bool:
    return tail != b"" and path.endswith(b"/" + tail)


def place_of(location: bytes) -> bytes:
    return location.split(b" < ", 1)[0]


def misfit(word: bytes, location: bytes) -> int | None:
    """How well the word fits the location; None if it does not."""
    place = place_of(location)
    if word in (place, location):
        return 0
    if is_tail(place, word) or is_tail(word, place):
        return 1
    for at in range(len(location)):
        if location.startswith(word, at) and is_edge(location, at) and is_edge(location, at + len(word)):
            return 2
    return None


class Located:
    """A trace with a drawn location for each event."""

    def __init__(self, trace: plain.Trace, chance: random.Random) -> None:
        self.trace = trace
        few = [place and place + chance.choice(CALLS) for place in chance.choices(PLACES, k=chance.randint(1, 5))]
        self.locations = [chance.choice(few) for _ in trace.events]

    def text(self) -> str:
        return "".join(self.trace.line(event) + location + "\n" for event, location in enumerate(self.locations))

    def named(self, word: str, tally: Counter[str]) -> tuple[set[int], bool]:
        """The accesses that the word names, and whether it is the number of an event."""
        if word.isascii() and word.isdigit():
            tally["event"] += 1
            return {int(word)}, True
        fits = {}
        for event, location in enumerate(self.locations):
            how = misfit(word.encode(), location.encode())
            if self.trace.events[event].word in ("r", "w") and how is not None:
                fits[event] = how
        if not fits:
            tally["nothing"] += 1
            return set(), False
        best = min(fits.values())
        tally[["whole", "path", "part"][best]] += 1
        return {event for event, how in fits.items() if how == best}, False

    def pair(self, arguments: list[str], tally: Counter[str]) -> tuple[int, int] | None:
        """The pair of events that the arguments name, if they name one."""
        (ones, one_is_event), (others, other_is_event) = (self.named(word, tally) for word in arguments)
        if one_is_event and other_is_event:
            found = sorted(ones | others)
            return next((pair for pair in self.trace.conflicting() if [*pair] == found), None)
        for events, is_event in [(ones, one_is_event), (others, other_is_event)]:
            if not is_event and len({place_of(self.locations[event].encode()) for event in events}) > 1:
                tally["several"] += 1
                return None
        if ones == others:
            tally["same accesses"] += 1
        elif ones & others and not (one_is_event or other_is_event):
            tally["shared"] += 1
            return None
        else:
            tally["two sets"] += 1
        return self.reported(ones, others, tally)

    def reported(self, ones: set[int], others: set[int], tally: Counter[str]) -> tuple[int, int] | None:
        """The pair that `triage` reports for these accesses: the least candidate, the first open pair that is shown,
        the least open one, the least one."""
        pairs = sorted(
            (second, first, self.trace.kind(first, second))
            for first, second in self.trace.conflicting()
            if (first in ones and second in others) or (second in ones and first in others)
        )
        if not pairs:
            tally["no conflict"] += 1
            return None
        kinds = [kind for _, _, kind in pairs]
        if "candidate" in kinds:
            tally["candidate"] += 1
            second, first, _ = pairs[kinds.index("candidate")]
            return first, second
        tally["open" if "open" in kinds else "apart"] += 1
        tried = tries_of(self.trace, pairs)
        for second, first in tried[:TRIES]:
            if self.trace.in_order(first, second) is not None or self.trace.turned(first, second) is not None:
                return first, second
        second, first = tried[0] if tried else pairs[0][:2]
        return first, second


def tries_of(trace: plain.Trace, pairs: list[tuple[int, int, str]]) -> list[tuple[int, int]]:
    """The least open pair of each variable and two threads, in rising order."""
    least: dict[tuple[str, str, str], tuple[int, int]] = {}
    for second, first, kind in pairs:
        if kind == "open":
            least.setdefault((trace.events[first].name, trace.thread(first), trace.thread(second)), (second, first))
    return sorted(least.values())


class Judge:
    def __init__(self, run: judging.Run) -> None:
        self.program, self.tally = run.program, run.tally

    def judge_trace(self, located: Located, chance: random.Random) -> None:
        running.write("trace", located.text())
        events = len(located.trace.events)
        for _ in range(QUESTIONS):
            arguments = [self.word(located, chance, events) for _ in range(2)]
            self.judge_question(located, arguments, chance)
        self.tally["traces"] += 1

    def word(self, located: Located, chance: random.Random, events: int) -> str:
        drawn = chance.random()
        if drawn < 0.15:
            return str(chance.randint(0, events + 1))
        if drawn < 0.5:
            location = chance.choice(located.locations)
            return location if chance.random() < 0.5 else location.split(" < ")[0]
        return chance.choice(WORDS)

    def judge_question(self, located: Located, arguments: list[str], chance: random.Random) -> None:
        pair = located.pair(arguments, self.tally)
        form = chance.choice(FORMS)
        none: list[str] = []
        for command, flags in [("explain", none), ("witness", form)]:
            answer = running.ended(self.program, [command, "trace", *flags, "--", *arguments])
            wanted = (1, b"", b"racebench: no such pair\n")
            if pair is not None:
                wanted = running.ended(self.program, [command, "trace", *flags, *map(str, pair)])
            if answer != wanted:
                raise Wrong(f"{command} of {arguments}, which name {pair}, answers {answer}, and not {wanted}")
        self.tally["questions"] += 1
        self.tally["pairs"] += pair is not None


def judged(run: judging.Run) -> str:
    judge, tally = Judge(run), run.tally
    for seed in run.seeds():
        chance = random.Random(seed)
        located = Located(chance.choice(DRAWS)(chance, chance.choice(MOST_EVENTS)), chance)
        with judging.about(f"seed {seed}", "trace"):
            judge.judge_trace(located, chance)
    kinds = ", ".join(f"{tally[kind]} {kind}" for kind in REACHED)
    return (
        f"places: {tally['questions']} questions on {tally['traces']} traces, {tally['pairs']} with a pair, are "
        f"answered as the rules say ({kinds})"
    )


if __name__ == "__main__":
    sys.exit(judging.main("places", judged, REACHED, {"TRACES": TRACES, "SEED": 0}))
