#!/usr/bin/env python3
"""Runs scripts of 31 clients at once, several times, and judges what `threads` printed, by tests/legal.py.

Which order the calls were made in is another at each run, so no expected output can be written down. Half of the runs
are with no door before the lock, so that the clients change often, which is counted. Takes the program's path. Says
what is wrong, if something is, and ends with status 1 then.
"""

import random
import sys
from collections import Counter

if __name__ == "__main__":
    sys.dont_write_bytecode = True
import judging
import legal
import plain
import running
from judging import Wrong

CLIENTS = 31
CALLS = 40
# This many of each kind, and with no door more, until the clients took turns often enough, but this many at most.
RUNS = 3
MOST_RUNS = 300
# How often the client has to change in the logs of the runs with no door beside the changes that there are where each
# client's calls are made in one go.
LEAST_CHANGES = 60
EVENTS = 40
SHARED = ["left", "right", "middle"]
# What must be reached.
REACHED = [
    "new",
    "add",
    "back",
    "swap",
    "branch",
    "drop",
    "adopt",
    "batch",
    "undo",
    "propose",
    "blocked",
    "later",
    "mixed",
]


def trace() -> plain.Trace:
    """Threads that write and read in turn under one lock, and outside it."""
    events = []
    for i in range(EVENTS // 4):
        thread = f"T{i % 4}"
        events += [(thread, "acq", "l"), (thread, "w", "x"), (thread, "rel", "l"), (thread, "w", "y")]
    return plain.Trace(plain.Event(*event) for event in events)


def call(chance: random.Random, own: str) -> str:
    """One call on a schedule of the client's own or on one that all clients change."""
    name = chance.choice([own] + SHARED)
    event = chance.randrange(EVENTS // 2)
    kinds = [
        f"new {name}",
        f"add {name} {event}",
        f"add {name} {event % 5}",
        f"add {name} {event % 5}",
        f"back {name}",
        f"swap {name} {event % 8}",
        f"branch {name} 0 {chance.choice([own, own + '.1'] + SHARED)}",
        f"drop {name}",
        "undo",
        "undo",
        f"undo {chance.randrange(CLIENTS * CALLS)}",
        "propose 3 7",
        "propose 3 7 0 1 2 4 5 6",
        f"adopt {name} 0",
        f"show {name}",
        "list",
        f"races {name}",
        f"batch new {own}.2 ; add {name} {event % 5} ; branch {name} 0 {own}.3 ; drop {own}.2",
        f"batch drop {name} ; new {name} ; add {name} 0",
    ]
    return chance.choice(kinds)


def swapping(name: str) -> list[str]:
    """Calls that end in a swap that no other client's call can spoil, since no other names this schedule."""
    return [f"new {name}"] + [f"add {name} {event}" for event in range(5)] + [f"swap {name} 3"]


def scripts() -> list[list[str]]:
    """For each client the lines of its script, without its number."""
    texts = []
    for client in range(1, CLIENTS + 1):
        chance = random.Random(client)
        texts.append([call(chance, f"own{client}") for _ in range(CALLS)] + swapping(f"swapped{client}"))
    return texts


def judge_run(
    program: str,
    tally: Counter[str],
    room: list[str],
    of: plain.Trace,
    names: list[str],
    drawn: list[list[plain.Call]],
) -> None:
    """Judges one run, and counts what was seen."""
    printed = running.printed(program, ["threads", *room, "trace", *names]).decode("ascii")
    try:
        answers, entries = running.parts_of(printed.splitlines(), [len(lines) for lines in drawn])
        tally.update(legal.judge(of, drawn, answers, entries))
    except Wrong as what:
        raise Wrong(f"{what}\n--- printed\n{printed}") from what


def judged(run: judging.Run) -> str:
    of, written, tally, runs = trace(), scripts(), run.tally, 0
    drawn = [[plain.call_of(line) for line in lines] for lines in written]
    running.write("trace", of.text())
    names = [f"script{client}" for client in range(1, CLIENTS + 1)]
    for client, (name, lines) in enumerate(zip(names, written), start=1):
        running.write(name, "".join(f"{client} {line}\n" for line in lines))
    while runs < RUNS or (tally["changes"] < runs * (CLIENTS - 1) + LEAST_CHANGES and runs < MOST_RUNS):
        judge_run(run.program, tally, running.NO_DOOR, of, names, drawn)
        runs += 1
    changes = tally["changes"]
    for _ in range(RUNS):
        judge_run(run.program, tally, running.BEST_ROOM, of, names, drawn)
    if changes < runs * (CLIENTS - 1) + LEAST_CHANGES:
        raise Wrong(f"in {runs} runs with no door the client changed {changes} times only")
    return (
        f"threads: {runs + RUNS} runs of {CLIENTS} scripts with {tally['entries']} entries are legal; the client "
        f"changed {changes} times in the logs of the "
        f"{runs} with no door, and {tally['changes'] - changes} times in the others"
    )


if __name__ == "__main__":
    sys.exit(judging.main("threads", judged, REACHED))
