#!/usr/bin/env python3
"""Runs a few short scripts at once, many times, and judges what `threads` printed, by tests/legal.py.

Two of three runs are with no door before the lock, so that the clients' calls come mixed.
Takes the program's path. Says what is wrong, if something is, and ends with status 1 then.
"""

import random
import sys
from collections import Counter

if __name__ == "__main__":
    sys.dont_write_bytecode = True
import by_chance
import judging
import legal
import plain
import running
from judging import Wrong

# So many, and more until the calls came mixed often enough, which takes longer on one processor, but so many at most.
RUNS = 3_000
MOST_RUNS = 30_000
# How many traces the runs are on, and how many events these have.
TRACES = 50
MOST_EVENTS = 16
CLIENTS = (2, 8)
CALLS = (6, 10)
# In how many runs with no door a client has to come again after another.
LEAST_MIXED = 100
# What must be reached.
REACHED = ["add", "back", "swap", "branch", "drop", "adopt", "batch", "undo", "propose", "blocked", "later"]


def scripts(chance: random.Random, trace: plain.Trace) -> list[list[plain.Call]]:
    """A list of calls for each client. They are drawn after a log that has the calls of all, in some order; the order
    in which they come to be made is another."""
    lengths = [chance.randint(*CALLS) for _ in range(chance.randint(*CLIENTS))]
    drawn: list[list[plain.Call]] = [[] for _ in lengths]
    names = chance.sample(by_chance.SCHEDULES, 2)
    mood = chance.choice(by_chance.MOODS)
    log = plain.Log(trace)
    client = 0
    while any(len(calls) < length for calls, length in zip(drawn, lengths)):
        if len(drawn[client]) == lengths[client] or chance.random() < 0.5:
            client = chance.choice([one for one, calls in enumerate(drawn) if len(calls) < lengths[one]])
        call = by_chance.call_of_client(chance, log, names, mood, client + 1)
        drawn[client].append(call)
        log = log.answer(client + 1, call)[1]
    return drawn


def judge_run(
    program: str, tally: Counter[str], room: list[str], trace: plain.Trace, drawn: list[list[plain.Call]]
) -> None:
    arguments = ["threads", *room, "trace"] + [f"script{client}" for client in range(1, len(drawn) + 1)]
    running.write("trace", trace.text())
    for client, calls in enumerate(drawn, start=1):
        running.write(f"script{client}", "".join(f"{client} {plain.call_text(call)}\n" for call in calls))
    printed = running.printed(program, arguments).decode("ascii")
    try:
        answers, entries = running.parts_of(printed.splitlines(), [len(calls) for calls in drawn])
        seen = legal.judge(trace, drawn, answers, entries)
    except Wrong as what:
        raise Wrong(f"{what}{judging.texts_of(arguments)}\n--- printed\n{printed}") from what
    if room != running.NO_DOOR:
        del seen["mixed"]
    tally.update(seen)


def judged(run: judging.Run) -> str:
    tally, seed = run.tally, 0
    traces = [by_chance.trace(random.Random(number), MOST_EVENTS) for number in range(TRACES)]
    while seed < RUNS or (tally["mixed"] < LEAST_MIXED and seed < MOST_RUNS):
        trace = traces[seed % TRACES]
        room = running.NO_DOOR if seed % 3 < 2 else running.BEST_ROOM
        judge_run(run.program, tally, room, trace, scripts(random.Random(seed), trace))
        seed += 1
    if tally["mixed"] < LEAST_MIXED:
        raise Wrong(f"in {tally['mixed']} only a client came again after another")
    return (
        f"small runs: {seed} with {tally['calls']} calls and {tally['entries']} entries are each one legal history; "
        f"in {tally['mixed']} of those with no "
        f"door a client came again after another, and {tally['later']} answers tell of others' entries"
    )


if __name__ == "__main__":
    sys.exit(judging.main("small runs", judged, REACHED))
