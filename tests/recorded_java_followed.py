"""Judges following for Java: record/follow leads each racing program of the suite to its races, with two seeds. A pair
that is no race, a clock of another run and a class of another program are refused. A run that goes another way, is
killed or ends says so.

What no other judge sees: a thread that waits elsewhere, a wrong number of a thread, a departure that is not reported,
the wrong order of the two accesses.
"""
from __future__ import annotations

import os
import re
import signal
import subprocess
import threading
import time
from collections.abc import Iterator

import recorded_java
from judging import Wrong

FOLLOW, CONFIRM = (os.path.join(recorded_java.TOP, "record", name) for name in ("follow", "confirm"))
RACING = "Counter Hidden Published Checked Pool".split()
CLASSICS = "account airline bubblesort pingpong producers".split()
# Ways of Followed.java: what leads to the race.
WAYS = "waits conditions pool ends crashes interrupted sleeps".split()
PROGRAMS = [[name] for name in RACING] + [["Classics", name, "6"] for name in CLASSICS]
PROGRAMS += [["Followed", way] for way in WAYS]
SEEDS = (1, 2)
# The most races of a recording that are followed.
MOST = 4


def compiled(name: str) -> None:
    recorded_java.compiled(os.path.join(recorded_java.SOURCES, f"{name}.java"))


def recorded(arguments: list[str], seed: int = 1) -> list[str]:
    """Records a program with a clock; its events."""
    lines, _ = recorded_java.recorded("--seed", str(seed), "--clock", "clock", "-cp", ".", *arguments)
    return [line for line in lines if not line.startswith("recording|")]


def races(racebench: str) -> list[list[str]]:
    """The two events of each race."""
    printed = recorded_java.ran(racebench, "triage", "trace.std")[1]
    return re.findall(r"^race (\d+) (\d+) ", printed, re.MULTILINE)


def followed(racebench: str, pair: list[str], *options: str, wanted: int = 0, **more: dict[str, str]) -> str:
    """What record/follow says of a pair."""
    with open("witness", "w", encoding="utf-8") as file:
        file.write(recorded_java.ran(racebench, "witness", "trace.std", *pair)[1])
    status, _, notes = recorded_java.ran(FOLLOW, "--witness", "witness", *options, "clock", *pair, **more)
    if status != wanted:
        raise Wrong(f"record/follow {' '.join([*options, *pair])}: status {status}: {notes[-1500:]}")
    return notes


def access_of(line: str) -> str:
    """How record/follow names the access of an event, up to the value."""
    thread, access, _ = line.split("|", 2)
    return f"{thread}, (atomic )?{'read' if access.startswith('r(') else '(write|update)'} of "


def judge_stands(racebench: str, arguments: list[str]) -> None:
    """Both threads come to the accesses of the race, with their calls, for each race of two seeds."""
    compiled(arguments[0])
    found = 0
    for seed in SEEDS:
        events = recorded(arguments, seed)
        for pair in races(racebench)[:MOST]:
            notes = followed(racebench, pair, "--then", "stop")
            first, second = (events[int(event)] for event in pair)
            places = [line.split("|", 2)[2].split(" < ")[0] for line in (first, second)]
            threads = [line.split("|")[0] for line in (first, second)]
            title = ", ".join(f"{thread} at {place}" for thread, place in zip(threads, places))
            calls = [rf"    #0 \S+ {re.escape(place)}\n(    #\d+ .*\n)*" for place in places]
            sides = [f"  {side}: {access_of(line)}.*\n" for side, line in zip("AB", (first, second))]
            wanted = (
                re.escape(f"record/follow: the race stands: {title}\n") + sides[0] + calls[0] + sides[1] + calls[1]
            )
            if not re.search(wanted, notes):
                raise Wrong(f"{' '.join(arguments)}, seed {seed}, {pair}: {notes[-1500:]}")
            found += 1
    if not found:
        raise Wrong(f"{' '.join(arguments)}: no race was followed")


def judge_orders(racebench: str) -> None:
    """Each order does the accesses that its name says, in that order: with A first a name is read before it is null,
    else the program throws. record/confirm has all endings, and the verdict."""
    compiled("Followed")
    events = recorded(["Followed", "crashes"])
    pair = races(racebench)[0]
    writes = [event for event in pair if "|w(" in events[int(event)]]
    a_writes = writes == pair[:1]
    throws, ends = "the program ended with status 1", "the program ended with status 0"
    for order, a_first in (("first", True), ("second", False), ("a-b", True), ("b-a", False)):
        notes = followed(racebench, pair, "--then", order)
        wanted = throws if a_first == a_writes else ends
        held = r'which holds "first", afterwards null'
        if notes.splitlines()[-1] != f"record/follow: {wanted}" or len(re.findall(held, notes)) != 2:
            raise Wrong(f"--then {order}, and {'A' if a_writes else 'B'} writes: {notes[-1500:]}")
    status, table, notes = recorded_java.ran(CONFIRM, "--racebench", racebench, "--most", "1", "trace.std", "clock")
    row = r"^Followed\.java:\d+  Followed\.java:\d+  stands    status (\d) +status (\d) +matters$"
    found = re.search(row, table, re.MULTILINE)
    if status or not found or set(found.groups()) != {"0", "1"}:
        raise Wrong(f"record/confirm: status {status}: {table}{notes[-600:]}")


def judge_sleeper(racebench: str) -> None:
    """A thread that is right before its access waits for the other one, however long that sleeps before its own."""
    compiled("Followed")
    events = recorded(["Followed", "sleeps"])
    pair = races(racebench)[0]
    a_writes = "|w(" in events[int(pair[0])]
    for order, a_first in (("a-a", True), ("a-b", True), ("b-b", False), ("b-a", False)):
        with open("witness", "w", encoding="utf-8") as file:
            file.write(recorded_java.ran(racebench, "witness", "trace.std", *pair)[1])
        status, printed, notes = recorded_java.ran(FOLLOW, "--witness", "witness", "--then", order, "clock", *pair)
        wanted = f"seen {int(a_first == a_writes)}\n"
        if status or wanted not in printed + notes or "departed" in notes:
            raise Wrong(f"--then {order}, and {'A' if a_writes else 'B'} writes: {printed}{notes[-1500:]}")


def judge_hangs(racebench: str) -> None:
    """A run in which all threads wait for ever after the race is ended, and does not take the whole time."""
    compiled("Followed")
    events = recorded(["Followed", "lost"])
    pair = races(racebench)[0]
    order = "a-b" if "|r(" in events[int(pair[0])] else "b-a"
    notes = followed(racebench, pair, "--then", order, "--timeout", "590", env={**os.environ, "FOLLOWED_AS": "hangs"})
    if notes.splitlines()[-1] != "record/follow: the program hangs in a deadlock":
        raise Wrong(f"{order}: {notes[-1500:]}")


def judge_clean(racebench: str) -> None:
    """A pair that is no race has no schedule, so nothing is followed; nor is a schedule of another race."""
    compiled("Guarded")
    events = recorded(["Guarded"])
    writes = [number for number, line in enumerate(events) if "|w(" in line and "Guarded.hits" in line]
    threads = {events[number].split("|")[0]: str(number) for number in writes}
    pair = list(threads.values())[:2]
    notes = followed(racebench, pair, wanted=3)
    if notes != "record/follow: witness has no witness: `racebench witness TRACE A B` prints one\n":
        raise Wrong(f"a pair under one lock: {notes}")
    compiled("Counter")
    recorded(["Counter"])
    pair = races(racebench)[0]
    followed(racebench, pair, "--then", "stop")
    other = [pair[0], str(int(pair[1]) + 1)]
    command = [FOLLOW, "--witness", "witness", "clock", *other]
    status, _, notes = recorded_java.ran(*command)
    if status != 3 or "this is a witness of another race than" not in notes:
        raise Wrong(f"a schedule of another race: status {status}: {notes}")
    notes = followed(racebench, pair, "--gdb", wanted=3)
    if notes != "record/follow: --gdb: gdb knows no threads of Java; the stacks are those that record/follow prints\n":
        raise Wrong(f"--gdb: {notes}")


# What a run says that goes another way, by FOLLOWED_AS.
DEPARTURES = {
    "other": r"departed at event \d+  .*: T2 came to a write at Followed\.java:\d+, where the recording has a read at "
    r"Followed\.java:\d+\n",
    "ends": r"departed at event \d+  .*: the program ended\n",
    "killed": r"departed at event \d+  .*: the program ended\n",
    "waits": r"",
}


def kill_the_program() -> None:
    """Kills the program once it has written its number into a file. If it made a process that kills it, the agent would
    see the thread that waits for that."""
    end = time.monotonic() + recorded_java.PATIENCE
    while time.monotonic() < end:
        if os.path.exists("pid"):
            with open("pid", encoding="ascii") as file:
                number = file.read()
            if number.endswith("\n"):
                os.kill(int(number), signal.SIGKILL)
                return
        time.sleep(0.05)


def judge_departures(racebench: str) -> None:
    """A run that goes another way says at which event, and what it came to. So does one that ends, or is killed."""
    compiled("Followed")
    recorded(["Followed", "changes"])
    pair = races(racebench)[0]
    for way, wanted in DEPARTURES.items():
        surroundings = {**os.environ, "FOLLOWED_AS": way}
        killer = threading.Thread(target=kill_the_program)
        if way == "killed":
            killer.start()
        notes = followed(racebench, pair, wanted=1 if wanted else 0, env=surroundings)
        if way == "killed":
            killer.join()
        if wanted and not re.search(f"^record/follow: {wanted}", notes, re.MULTILINE):
            raise Wrong(f"FOLLOWED_AS={way}: {notes[-1500:]}")
        if not wanted and "the race stands: " not in notes:
            raise Wrong(f"a thread that sleeps while others go on: {notes[-1500:]}")
    status, table, notes = recorded_java.ran(
        CONFIRM, "--racebench", racebench, "trace.std", "clock", env={**os.environ, "FOLLOWED_AS": "other"}
    )
    if status != 1 or not re.search(r"  departed$", table, re.MULTILINE) or "where the recording has" not in table:
        raise Wrong(f"record/confirm: status {status}: {table}{notes[-600:]}")


def judge_killed(racebench: str) -> None:
    """A signal that ends record/follow ends the program too."""
    compiled("Followed")
    recorded(["Followed", "changes"])
    pair = races(racebench)[0]
    with open("witness", "w", encoding="utf-8") as file:
        file.write(recorded_java.ran(racebench, "witness", "trace.std", *pair)[1])
    command = [FOLLOW, "--witness", "witness", "clock", *pair]
    surroundings = {**os.environ, "FOLLOWED_AS": "waits"}
    with subprocess.Popen(command, stderr=subprocess.PIPE, env=surroundings, start_new_session=True) as started:
        end = time.monotonic() + recorded_java.PATIENCE
        while not (children := children_of(started.pid)):
            if time.monotonic() > end:
                raise Wrong("record/follow starts no program")
            time.sleep(0.01)
        started.send_signal(signal.SIGTERM)
        assert started.stderr
        notes = started.stderr.read().decode(errors="replace")
        status = started.wait(recorded_java.PATIENCE)
    left = [child for child in children if os.path.exists(f"/proc/{child}")]
    if status != -signal.SIGTERM or "ended by SIGTERM" not in notes or left:
        raise Wrong(f"status {status}, {left} are left: {notes[-600:]}")


def children_of(process: int) -> list[str]:
    """The numbers of the processes that run java for a process."""
    found = []
    for number in filter(str.isdigit, os.listdir("/proc")):
        try:
            with open(f"/proc/{number}/stat", encoding="utf-8") as file:
                name, _, rest = file.read().partition("(")[2].rpartition(")")
        except OSError:
            continue
        if name == "java" and rest.split()[1] == str(process):
            found.append(number)
    return found


def judge_refused(racebench: str) -> None:
    """Clocks of other traces, programs and runs are refused, each with a line; and options that have no clock."""
    compiled("Counter")
    recorded(["Counter"])
    pair = races(racebench)[0]
    followed(racebench, pair, "--then", "stop")
    os.rename("clock", "first")
    compiled("Hidden")
    recorded(["Hidden"])
    os.rename("clock", "other")
    with open("first", "rb") as file:
        whole = file.read()
    with open("cut", "wb") as file:
        file.write(whole[: len(whole) // 2])
    java = ["--witness", "witness"]
    for clock, text in (
        ("other", "this is no witness of the recording's trace"),
        ("cut", "cut is cut or damaged"),
        ("witness", "witness is no clock of record/run --clock"),
        ("none", "none: No such file or directory"),
    ):
        status, _, notes = recorded_java.ran(FOLLOW, *java, clock, *pair)
        if status != 3 or text not in notes or notes.count("\n") != 1:
            raise Wrong(f"the clock {clock}: status {status}: {notes}")
    status, _, notes = recorded_java.ran(CONFIRM, "--racebench", racebench, "trace.std", "first")
    if status != 3 or "first is the clock of another trace than trace.std" not in notes:
        raise Wrong(f"record/confirm: status {status}: {notes}")
    with open(os.path.join(recorded_java.SOURCES, "Counter.java"), encoding="utf-8") as text_of:
        source = text_of.read()
    with open("Counter.java", "w", encoding="utf-8") as changed:
        changed.write(source.replace("hits++;", "hits += 2;"))
    recorded_java.compiled("Counter.java")
    status, _, notes = recorded_java.ran(FOLLOW, *java, "first", *pair)
    if status != 3 or notes != "record/follow: the class Counter is another than the one that was recorded\n":
        raise Wrong(f"another class: status {status}: {notes}")
    os.remove("Counter.class")
    status, _, notes = recorded_java.ran(FOLLOW, *java, "first", *pair)
    if status != 3 or "java did not begin the program, which was recorded in " not in notes:
        raise Wrong(f"no class: status {status}: {notes}")
    for options in (["--read", "kept.raw"], ["--from", "2", "Main"]):
        status, _, notes = recorded_java.ran(recorded_java.RECORD, "--clock", "clock", *options)
        if status != 2 or "--clock is of a whole run" not in notes:
            raise Wrong(f"{options}: status {status}: {notes}")


def cases(racebench: str) -> Iterator[recorded_java.Case]:
    for arguments in PROGRAMS:
        yield " ".join(["java: following", *arguments]), judge_stands, (racebench, arguments)
    yield "java: following in each order", judge_orders, (racebench,)
    yield "java: following a thread that sleeps", judge_sleeper, (racebench,)
    yield "java: following, and the program hangs", judge_hangs, (racebench,)
    yield "java: following what is no race", judge_clean, (racebench,)
    yield "java: following, and the run departs", judge_departures, (racebench,)
    yield "java: following, and a signal", judge_killed, (racebench,)
    yield "java: following with another clock", judge_refused, (racebench,)
