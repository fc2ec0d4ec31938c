#!/usr/bin/env python3
"""Compares the windows that `cut` prints of traces drawn by chance with those of tests/plain.py, and each window with
its trace.

Takes the program's path, how many traces to draw, and the first seed. A window is its own text: it must keep the
rules, and its events must be those of the trace under its prologue. The verdict of `explain` on each conflicting pair
of the window is compared with all correct reorderings of the trace that begin as recorded up to the window: a race is
shown by one of the whole trace, and what is apart by none that begins so and ends before the window's end. No pair
with an event of the prologue is a race. Says what is wrong, if something is, and ends with status 1 then, also if
something that must be seen was never met.
"""

import random
import sys
from collections import Counter

if __name__ == "__main__":
    sys.dont_write_bytecode = True
import by_chance
import judging
import plain
import running
from judging import Wrong

TRACES = 200
# How many lists are gone over for a trace; a trace with more is judged by its text alone.
LISTS = 4_000
REACHED = [
    "held",
    "several holds",
    "read by another",
    "taken name",
    "race",
    "apart",
    "whole",
    "inner",
    "no event",
    "no holds",
]


def expected(events: list[plain.Event], start: int, most: int) -> tuple[str, list[plain.Event], int]:
    """The text of the window, and the number of events of its prologue."""
    end = min(start + most, len(events))
    name = plain.new_name(events)
    made = plain.prologue(events, start, end, name)
    lines = [f"window|begin(FROM {start} TO {end} PROLOGUE {len(made)})|"]
    lines += [f"{thread}|{word}({what})|" for thread, word, what in made + list(events[start:end])]
    return "".join(line + "\n" for line in lines), made, end


def shown_from(trace: plain.Trace, start: int, end: int) -> set[tuple[int, int]] | None:
    """The pairs that correct reorderings show that begin as recorded up to `start` and go on with events before `end`;
    None if there are too many."""
    lists: list[plain.Listed] = [tuple(range(start))]
    shown: set[tuple[int, int]] = set()
    for listed in lists:
        if len(lists) > LISTS:
            return None
        shown |= {pair for pair in trace.shown_pairs(listed) if max(pair) < end}
        lists += [(*listed, event) for event in range(start, end) if trace.cause(listed, event) is None]
    return shown


def judge_pairs(
    program: str, trace: plain.Trace, start: int, end: int, made: list[plain.Event], seen: Counter[str]
) -> None:
    """The verdicts on the pairs of the window in the file `window`."""
    shown = shown_from(trace, start, end)
    if shown is None:
        return
    inner = plain.Trace(made + list(trace.events[start:end]))
    for first, second in inner.conflicting():
        word = running.printed(program, ["explain", "window", str(first), str(second)]).split()[0].decode().rstrip(":")
        if first < len(made) or second < len(made):
            if word != "apart":
                raise Wrong(f"{first} {second} has an event of the prologue, and is {word}")
            continue
        pair = (start + first - len(made), start + second - len(made))
        if word == "race" and pair not in shown or word == "apart" and pair in shown:
            raise Wrong(
                f"{pair} is {word} in the window, and is {'' if pair in shown else 'not '}shown from {start} on"
            )
        seen[word] += 1


def judge(program: str, seed: int, seen: Counter[str]) -> None:
    """A trace of this seed, and a window of it."""
    chance = random.Random(seed)
    drawn = (
        by_chance.locked_trace(chance, chance.choice([8, 14, 30]))
        if seed % 2
        else by_chance.trace(chance, chance.choice([8, 14, 30]))
    )
    events = list(drawn.events)
    if events and chance.random() < 0.2:
        events = [event._replace(name="window") if event.word in ("r", "w") else event for event in events]
        seen["taken name"] += 1
    trace = plain.Trace(events)
    running.write("trace", trace.text())
    start, most = chance.randint(0, len(events)), chance.randint(1, len(events) + 2)
    words = ["cut", "trace", "--windows", str(most), "--window", str(start)]
    if start >= len(events):
        if running.ended(program, words) != (1, b"", b"racebench: no such event\n"):
            raise Wrong("a number that is no event is not refused")
        seen["no event"] += 1
        return
    text, made, end = expected(events, start, most)
    printed = running.printed(program, words)
    if printed != text.encode():
        raise Wrong(f"the window is\n{printed.decode()}and not\n{text}")
    seen["held" if made else "no holds"] += 1
    seen["several holds"] += len(made) > 20
    seen["read by another"] += len({event.thread for event in made}) > 1
    seen["whole" if start == 0 and end == len(events) else "inner"] += 1
    running.write("window", text)
    if running.printed(program, ["info", "window"]).split(b"\n")[0] != f"events {len(made) + end - start}".encode():
        raise Wrong("info counts other events")
    judge_pairs(program, trace, start, end, made, seen)


def judged(run: judging.Run) -> str:
    for seed in run.seeds():
        with judging.about(f"seed {seed}", "trace", "window"):
            judge(run.program, seed, run.tally)
    return f"{run.numbers[0]} traces: " + ", ".join(f"{what} {count}" for what, count in sorted(run.tally.items()))


if __name__ == "__main__":
    sys.exit(judging.main("cut", judged, REACHED, {"TRACES": TRACES, "SEED": 0}))
