"""Judges deadlocks of Java programs that are made to happen: record/confirm --deadlocks and record/follow bring each
one of LockOrders.java about, with the stacks of its threads. If no order of the run is a deadlock, there is none.

What no other judge sees: a thread that is said to wait and does not, a wrong holder, a deadlock that stands although a
thread took another lock than in the recording.
"""

from __future__ import annotations

import json
import os
import re
from collections.abc import Iterator
from typing import Any

import recorded_java
from judging import Wrong

FOLLOW, CONFIRM = (os.path.join(recorded_java.TOP, "record", name) for name in ("follow", "confirm"))
SOURCE = os.path.join(recorded_java.SOURCES, "LockOrders.java")
# Ways of LockOrders.java: those with a deadlock, and those without.
DEADLOCKS, CLEAN = "monitors lock readers notified".split(), "gate ordered same tries".split()
# Seeds of which one has to end without the deadlock: such a recording has its requests.
SEEDS = range(1, 11)


def lines_with(label: str) -> list[str]:
    """The places of LockOrders.java with this label."""
    with open(SOURCE, encoding="utf-8") as text:
        labeled = [
            (number, re.findall(r"(?:HOLDS|WAITS) \w+|TRIES", line)) for number, line in enumerate(text, start=1)
        ]
    return [f"LockOrders.java:{number}" for number, labels in labeled if label in labels]


def recorded(way: str) -> None:
    """Records a run that does not hang: `trace.std` and `clock`."""
    recorded_java.compiled(SOURCE)
    for seed in SEEDS:
        arguments = ["--seed", str(seed), "--clock", "clock", "-cp", ".", "LockOrders", way]
        _, notes = recorded_java.recorded(*arguments, wanted=(0, 5))
        if "is in a deadlock" not in notes:
            return
    raise Wrong(f"{way}: each run hangs, with the seeds {SEEDS}")


def confirmed(racebench: str, wanted: int = 0, **more: dict[str, str]) -> list[dict[str, Any]]:
    """What record/confirm found of each deadlock."""
    command = [CONFIRM, "--deadlocks", "--racebench", racebench, "--json", "found", "trace.std", "clock"]
    status, table, notes = recorded_java.ran(*command, **more)
    with open("found", encoding="ascii") as lines:
        found = [json.loads(line) for line in lines]
    stand = sum(one["ended"] == "stands" for one in found)
    counts = f"deadlocks {len(found)}, stand {stand}, departed {len(found) - stand}"
    if status != wanted or table.splitlines()[-1] != counts:
        raise Wrong(f"record/confirm: status {status}: {table}{notes[-1500:]}")
    return found


def followed(racebench: str, events: list[int], *options: str, wanted: int = 0, **more: dict[str, str]) -> str:
    """What record/follow says of a deadlock."""
    command = [FOLLOW, "--racebench", racebench, "--trace", "trace.std", *options, "clock", *map(str, events)]
    status, _, notes = recorded_java.ran(*command, **more)
    if status != wanted:
        raise Wrong(f"record/follow {' '.join(options)}: status {status}: {notes[-1500:]}")
    return notes


def judge_stands(racebench: str, way: str) -> None:
    """The deadlock stands: each thread waits at its line for what the next one holds, and has its stack."""
    recorded(way)
    found = confirmed(racebench)
    if len(found) != 1 or found[0]["ended"] != "stands":
        raise Wrong(f"{way}: {found}")
    one = found[0]
    holds = [location.split(" < ")[0] for location in one["locations"][0::2]]
    for label, places in (("HOLDS", holds), ("WAITS", one["places"])):
        if set(places) != set(lines_with(f"{label} {way}")):
            raise Wrong(f"{way}: {label} {places}")
    waits = [rf"(T\d) at {re.escape(place)} waits for \S+ \S+, which (T\d) holds" for place in one["places"]]
    text = re.fullmatch(f"the deadlock stands: {'; '.join(waits)}", one["text"])
    if not text or text[1] == text[2] or (text[1], text[2]) != (text[4], text[3]):
        raise Wrong(f"{way}: {one['text']}")
    notes = followed(racebench, one["events"])
    stacks = [rf"  {text[2 * k + 1]}, .*lock of \S+ \S+\n    #0 \S+ {re.escape(one['places'][k])}\n" for k in range(2)]
    wanted = re.escape(f"record/follow: {one['text']}\n") + "".join(rf"{stack}(    #\d+ .*\n)*" for stack in stacks)
    if not re.match(wanted, notes):
        raise Wrong(f"{way}: {notes[-1500:]}")


def judge_hangs(racebench: str) -> None:
    """With --then hang the program goes on, hangs, and is ended."""
    recorded("lock")
    notes = followed(racebench, confirmed(racebench)[0]["events"], "--then", "hang", "--timeout", "590")
    if notes.splitlines()[-1] != "record/follow: the program hangs in a deadlock":
        raise Wrong(f"--then hang: {notes[-1500:]}")


def judge_none(racebench: str, way: str) -> None:
    """A common lock, an order, and one order of both locks: there is no deadlock."""
    recorded(way)
    if found := confirmed(racebench):
        raise Wrong(f"{way}: {found}")


def judge_marks(racebench: str) -> None:
    """Each lock that a try took is marked, and no other one is. What a try took is no request."""
    recorded("tries")
    with open("trace.std", encoding="utf-8") as file:
        acquires = [(number, line) for number, line in enumerate(file, start=-1) if "|acq(heap:" in line]
    marked = [(number, line) for number, line in acquires if " < try in LockOrders.tries" in line]
    places = [line.split("|")[2].split(" < ")[0] for _, line in marked]
    others = [line for pair in acquires if pair not in marked for line in pair[1:]]
    if set(places) != set(lines_with("TRIES")) or any(
        "try" in line.replace("LockOrders.tries", "") for line in others
    ):
        raise Wrong(f"marks: {acquires}")
    events = [
        marked[0][0],
        next(number for number, line in acquires if "LockOrders.waitsFor" in line and "Object" in line),
    ]
    notes = followed(racebench, events, wanted=3)
    if (
        "does not wait for a lock: it tries, or waits for a time" not in notes
        and "no schedule leads to the requests" not in notes
    ):
        raise Wrong(f"{events}: {notes}")


def judge_departs(racebench: str) -> None:
    """A thread that takes another lock than in the recording does not wait, and the run says so."""
    recorded("lock")
    place = lines_with("WAITS lock")[1]
    found = confirmed(racebench, wanted=1, env={**os.environ, "ORDERS_AS": "other"})
    wanted = rf"departed at event \d+  T2 waits for \S+ \S+ \(step \d+ of \d+\): T2 did not have to wait at {place}"
    if len(found) != 1 or not re.fullmatch(wanted, found[0]["text"]):
        raise Wrong(f"another lock: {found}")


def cases(racebench: str) -> Iterator[recorded_java.Case]:
    for way in DEADLOCKS:
        yield f"java: a deadlock of {way} stands", judge_stands, (racebench, way)
    for way in CLEAN:
        yield f"java: no deadlock, {way}", judge_none, (racebench, way)
    yield "java: a deadlock that hangs", judge_hangs, (racebench,)
    yield "java: a deadlock, and the run departs", judge_departs, (racebench,)
    yield "java: locks that a try took", judge_marks, (racebench,)
