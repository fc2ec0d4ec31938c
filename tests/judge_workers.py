#!/usr/bin/env python3
"""Runs scripts beside workers, and judges what `threads --workers` printed, by tests/plain.py and tests/legal.py.

The log must be one that calls build one after another, and each script must be told what it is told there. The
client after those of the scripts has to have proposed each of the first 64 candidates once, with the pair's slice,
and no client has to come after it. Half of the runs are with no door before the lock, so that proposals come among the
scripts' calls, which must be reached. Takes the program's path. Says what is wrong, if something is, and ends with
status 1 then.
"""

import random
import sys
from collections import Counter

if __name__ == "__main__":
    sys.dont_write_bytecode = True
import by_chance
import judging
import legal
import plain
import running
from judging import Wrong

WORKERS = [1, 4, 16]
# How many scripts run at once, and on how many traces drawn by chance; in how many rounds at most, until all was
# reached.
SCRIPTS = [1, 3, 30]
TRACES = 4
MOST_ROUNDS = 60
MOST_EVENTS = 24
SLICED = 64
# How many calls each script has, of the runs with few scripts and with many.
CALLS = 40
CALLS_OF_MANY = 8
# What must be reached: a proposal that a script adopts, and one that is not on the board yet; a script's entry
# between two proposals; a trace with more candidates than are sliced, and one with none; a slice that has events.
REACHED = ["adopted", "too early", "among", "more", "none", "events"]


def crossing(writes: int) -> plain.Trace:
    """Two threads that write one variable in turn, this many times each, with nothing that orders them."""
    return plain.Trace(plain.Event(f"T{number % 2}", "w", "x") for number in range(2 * writes))


def quiet() -> plain.Trace:
    """Two threads whose writes are ordered by a fork and a join."""
    events = [("M", "w", "x"), ("M", "fork", "W"), ("W", "w", "x"), ("M", "join", "W"), ("M", "w", "x")]
    return plain.Trace(plain.Event(*event) for event in events)


def script(chance: random.Random, client: int, length: int) -> list[str]:
    """Calls that adopt what workers propose, among some on a schedule of the client's own."""
    own = f"own{client}"
    kinds = [
        f"adopt {own} 0",
        f"adopt {own} {chance.randrange(4)}",
        f"add {own} {chance.randrange(6)}",
        f"back {own}",
        f"show {own}",
        f"races {own}",
        "undo",
    ]
    return [f"new {own}"] + [chance.choice(kinds) for _ in range(length - 1)]


def judge_proposals(tally: Counter[str], trace: plain.Trace, entries: list[tuple[int, str]], searcher: int) -> None:
    """Counts what the client of this number has proposed, where it is right."""
    first = trace.candidates()[:SLICED]
    calls = [plain.call_of(call) for client, call in entries if client == searcher]
    if any(client > searcher for client, _ in entries):
        raise Wrong(f"the log has entries of a client past {searcher}")
    for call in calls:
        if call[0] != "propose" or call[1:3] not in first or call[3] != trace.slice(*call[1:3]):
            raise Wrong(
                f"client {searcher} has made `{plain.call_text(call)}`, which proposes no slice of one of the first "
                f"candidates"
            )
    if sorted(call[1:3] for call in calls) != first:
        raise Wrong(
            f"client {searcher} has proposed {sorted(call[1:3] for call in calls)}, and the first candidates are "
            f"{first}"
        )
    tally["proposed"] += len(calls)
    tally["events"] += sum(bool(call[3]) for call in calls)
    tally["more"] += len(trace.candidates()) > SLICED
    tally["none"] += not first
    clients = [client for client, _ in entries]
    places = [place for place, client in enumerate(clients) if client == searcher]
    tally["among"] += bool(places) and any(client != searcher for client in clients[places[0] : places[-1]])


def judge_run(
    program: str, tally: Counter[str], arguments: list[str], trace: plain.Trace, written: list[list[str]]
) -> None:
    """Judges one run of these scripts, and counts what was seen."""
    drawn = [[plain.call_of(line) for line in lines] for lines in written]
    running.write("trace", trace.text())
    names = [f"script{client}" for client in range(1, len(written) + 1)]
    for client, (name, lines) in enumerate(zip(names, written), start=1):
        running.write(name, "".join(f"{client} {line}\n" for line in lines))
    printed = running.printed(program, ["threads", *arguments, "trace", *names]).decode("ascii")
    try:
        answers, entries = running.parts_of(printed.splitlines(), [len(lines) for lines in drawn])
        legal.judge(trace, drawn, answers, entries)
        judge_proposals(tally, trace, entries, len(drawn) + 1)
    except Wrong as what:
        raise Wrong(f"{what}{judging.texts_of(['trace', *names])}\n--- printed\n{printed}") from what
    tally["runs"] += 1
    for calls, lines in zip(drawn, answers):
        for call, line in zip(calls, lines):
            if call[0] == "adopt":
                tally["adopted"] += line.endswith(": done")
                tally["too early"] += line == "refused 44 no such proposal"


def judge_round(program: str, tally: Counter[str], number: int) -> None:
    """Each number of workers with each number of scripts, on traces drawn by chance and on two of more and of no
    candidates."""
    chance = random.Random(number)
    drawn = [by_chance.trace(chance, MOST_EVENTS) for _ in range(TRACES)]
    for at, trace in enumerate([crossing(10), crossing(3), quiet(), *drawn]):
        for workers in WORKERS:
            for count in SCRIPTS:
                length = CALLS_OF_MANY if count > 3 else CALLS
                scripts = [script(chance, client, length) for client in range(1, count + 1)]
                room = running.NO_DOOR if (at + number) % 2 == 0 else running.BEST_ROOM
                judge_run(program, tally, [*room, "--workers", str(workers)], trace, scripts)


def judged(run: judging.Run) -> str:
    tally = run.tally
    for number in range(MOST_ROUNDS):
        judge_round(run.program, tally, number)
        if all(tally[kind] for kind in REACHED):
            break
    return (
        f"workers: {tally['runs']} runs with {tally['proposed']} proposed slices are legal; scripts adopted "
        f"{tally['adopted']} proposals and came too early "
        f"for {tally['too early']}, and in {tally['among']} runs they made entries between two proposals"
    )


if __name__ == "__main__":
    sys.exit(judging.main("workers", judged, REACHED))
