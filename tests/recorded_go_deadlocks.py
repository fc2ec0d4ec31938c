"""Judges deadlocks of Go programs that are made to happen: record/confirm --deadlocks and record/follow bring each one
of tests/recorded/go/orders.go about, with the stacks of its goroutines. If no order of a run is a deadlock, there is
none.

What no other judge sees: a goroutine that does not wait as the text says, a wrong holder, a deadlock that is reported
although a goroutine took another lock than in the recording.
"""

from __future__ import annotations

import json
import os
import re
from collections.abc import Iterator
from typing import Any

import recorded_go
from judging import Wrong

FOLLOW, CONFIRM = (os.path.join(recorded_go.RECORD, name) for name in ("follow", "confirm"))
SOURCE = os.path.join(recorded_go.SOURCES, "orders.go")
# Programs of orders.go: those with a deadlock, and those without.
DEADLOCKS = "twoOrders writerWaits readerWaits comesBack circle".split()
CLEAN = "gated oneAfterTheOther onlyReaders onlyTries".split()
SEEDS = range(1, 11)
# How many recordings of a program are judged; of two programs all.
COUNT, ALL = 3, ("twoOrders", "onlyTries")
# What the line about a departure says, by the lock that a goroutine takes instead of the recorded one.
DEPARTURES = {
    "idle": "{} did not have to wait at {}",
    "mains": "{} waits at {} for a lock that no other thread of the deadlock holds",
}


def lines_with(label: str) -> set[str]:
    """The places of orders.go with this label."""
    with open(SOURCE, encoding="utf-8") as text:
        return {f"orders.go:{number}" for number, line in enumerate(text, start=1) if line.endswith(f"// {label}\n")}


def recorded(name: str) -> Iterator[int]:
    """Records a program with several seeds: `trace.std` and `clock`. Yields the seeds of the runs that do not hang:
    their recordings have the requests."""
    whole = 0
    for seed in SEEDS:
        _, notes = recorded_go.recorded(name, "--seed", str(seed), "--clock", "clock", wanted=(0, 5))
        if "is in a deadlock" not in notes:
            whole += 1
            yield seed
        if whole == COUNT and name not in ALL:
            return
    if not whole:
        raise Wrong(f"{name}: each run hangs, with the seeds {SEEDS}")


def recorded_once(name: str) -> None:
    """Records a run of a program that does not hang."""
    next(recorded(name))


def confirmed(racebench: str, wanted: int = 0, **more: str) -> list[dict[str, Any]]:
    """What record/confirm found of each deadlock."""
    command = [CONFIRM, "--deadlocks", "--racebench", racebench, "--json", "found", "trace.std", "clock"]
    table, _ = recorded_go.ran(command, wanted, **more)
    with open("found", encoding="ascii") as lines:
        found = [json.loads(line) for line in lines]
    stand = sum(one["ended"] == "stands" for one in found)
    if table.splitlines()[-1] != f"deadlocks {len(found)}, stand {stand}, departed {len(found) - stand}":
        raise Wrong(f"record/confirm counts other deadlocks: {table}")
    return found


def followed(racebench: str, events: list[int], *options: str, wanted: int = 0, **more: str) -> str:
    """What record/follow says of a deadlock."""
    command = [FOLLOW, "--racebench", racebench, "--trace", "trace.std", *options, "clock", *map(str, events)]
    return recorded_go.ran(command, wanted, **more)[1]


def judge_found(name: str, seed: int, found: list[dict[str, Any]]) -> None:
    """The one deadlock comes about: each goroutine waits at a line that waits, and the next one holds the lock."""
    if len(found) != 1 or found[0]["ended"] != "stands":
        raise Wrong(f"{name}, seed {seed}: {found}")
    one = found[0]
    holds = {location.split(" < ")[0] for location in one["locations"][0::2]}
    if holds != lines_with(f"HOLDS {name}") or set(one["places"]) != lines_with(f"WAITS {name}"):
        raise Wrong(f"{name}, seed {seed}: {one['locations']}")
    lock = r"heap:orders\.go:\d+ main\.orders#1\.\w+"
    waits = [rf"(T\d) at {re.escape(place)} waits for {lock}, which (T\d) holds" for place in one["places"]]
    text = re.fullmatch(f"the deadlock stands: {'; '.join(waits)}", one["text"])
    threads, holders = (text.groups()[0::2], text.groups()[1::2]) if text else ((), ())
    if not text or len(set(threads)) != len(waits) or threads[1:] + threads[:1] != holders:
        raise Wrong(f"{name}, seed {seed}: {one['text']}")


def judge_stands(racebench: str, name: str) -> None:
    """The deadlock comes about with each seed whose run does not hang. record/follow prints the stack of each
    goroutine, which begins with the line where it waits."""
    for seed in recorded(name):
        found = confirmed(racebench)
        judge_found(name, seed, found)
    notes = followed(racebench, found[0]["events"])
    lines = re.findall(r"^  (T\d), (?:read |write )?lock of \S+ \S+ at \w+\n((?:    #\d+ .*\n)+)", notes, re.MULTILINE)
    if not notes.startswith(f"record/follow: {found[0]['text']}\n") or len(lines) != len(found[0]["places"]):
        raise Wrong(f"{name}, seed {seed}: {notes}")
    for (_, stack), place in zip(lines, found[0]["places"]):
        # A lock of readers and a condition call the lock from the library.
        if not re.match(rf"(    #\d sync\.\S+ \S+\n)?    #\d main\.\S+ {re.escape(place)}\n", stack):
            raise Wrong(f"{name}, seed {seed}: {notes}")


def judge_none(racebench: str, name: str) -> None:
    """There is no deadlock: a common lock, an order, readers alone, a try."""
    for seed in recorded(name):
        if found := confirmed(racebench):
            raise Wrong(f"{name}, seed {seed}: {found}")


def judge_hangs(racebench: str) -> None:
    """With --then hang the program goes on, hangs, and its runtime ends it."""
    recorded_once("twoOrders")
    notes = followed(racebench, confirmed(racebench)[0]["events"], "--then", "hang", "--timeout", "590")
    if notes.splitlines()[-1] != "record/follow: the program hangs in a deadlock":
        raise Wrong(f"--then hang: {notes[-1500:]}")
    if "fatal error: all goroutines are asleep - deadlock!" not in notes:
        raise Wrong(f"Go's runtime does not end the program: {notes[-1500:]}")
    notes = followed(racebench, confirmed(racebench)[0]["events"], "--gdb", wanted=3)
    if "gdb knows no goroutines" not in notes:
        raise Wrong(f"--gdb: {notes}")


def judge_departs(racebench: str) -> None:
    """A goroutine that takes another lock than in the recording does not wait, or waits for a lock that is not of the
    deadlock. The run says so."""
    recorded_once("twoOrders")
    # The goroutine that takes another lock is that of the later line.
    place = max(lines_with("WAITS twoOrders"), key=lambda place: int(place.rpartition(":")[2]))
    for other, text in DEPARTURES.items():
        found = confirmed(racebench, 1, ORDERS_AS=other)
        start = r"departed at event \d+  T\d waits for \S+ \S+ \(step \d+ of \d+\): "
        if len(found) != 1 or not re.fullmatch(start + text.format(r"T\d", re.escape(place)), found[0]["text"]):
            raise Wrong(f"another lock, {other}: {found}")


def judge_marks() -> None:
    """Each lock that a try took is marked, and no other one is."""
    took = 0
    for _ in recorded("onlyTries"):
        with open("trace.std", encoding="utf-8") as trace:
            acquires = [line.rstrip("\n").split("|")[2] for line in trace if "|acq(" in line]
        for location in acquires:
            is_try = location.split(" < ")[0] in lines_with("TRIES")
            took += is_try
            if is_try != bool(re.match(r"\S+ < try in main\.onlyTries\.func\d < ", location)):
                raise Wrong(f"the location of a try, or of none: {location}")
    if not took:
        raise Wrong("no try took its lock")
    recorded_go.recorded("onlyTries", "--frames", "0")
    with open("trace.std", encoding="utf-8") as trace:
        marked = {line.rstrip("\n").split("|")[2] for line in trace if "try" in line}
    if not marked or marked - {f"{place} < try" for place in lines_with("TRIES")}:
        raise Wrong(f"--frames 0: {marked}")


def cases(racebench: str) -> Iterator[recorded_go.Case]:
    for name in DEADLOCKS:
        yield f"Go: a deadlock of {name} stands", judge_stands, (racebench, name)
    for name in CLEAN:
        yield f"Go: no deadlock, {name}", judge_none, (racebench, name)
    yield "Go: a deadlock that hangs", judge_hangs, (racebench,)
    yield "Go: a deadlock, and the run departs", judge_departs, (racebench,)
    yield "Go: locks that a try took", judge_marks, ()
