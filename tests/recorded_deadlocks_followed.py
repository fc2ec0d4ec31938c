"""Judges deadlocks that are made to happen: record/follow by requests, and record/confirm --deadlocks.

What no other judge sees: a deadlock that is listed and does not come about, one that is reported where no thread waits,
and a departure without a message.
"""

import itertools
import json
import os
import re
import shutil
import subprocess
from collections.abc import Iterator, Mapping, Sequence
from typing import Any

from judging import Case, Wrong
from recorded_places import PATIENCE, RECORD, events_in
from recorded_tries import FOLDER, compiled, run

LIMITS = ["--timeout", str(PATIENCE), "--patience", "60000"]
FOLLOW, CONFIRM = [os.path.join(RECORD, "follow"), *LIMITS], [os.path.join(RECORD, "confirm"), *LIMITS]
# How many recordings of each program are followed. Seeds that end in a deadlock have no request in their trace.
COUNT, SEEDS = 5, range(1, 41)
# The places of each program where its threads wait, and the line about it.
STANDING = {
    "abba": (
        [8, 16],
        "T1 at abba.c:8 waits for b, which T2 holds; T2 at abba.c:16 waits for a, which T1 holds",
    ),
    "three": (
        [8, 16, 24],
        "T1 at three.c:8 waits for b, which T2 holds; T2 at three.c:16 waits for c, which T3 holds; T3 at three.c:24 "
        "waits for a, which T1 holds",
    ),
    "readers": (
        [10, 18],
        "T1 at readers.c:10 waits for log_, which T2 holds; T2 at readers.c:18 waits for table, which T1 holds",
    ),
    "philosophers": (
        [11] * 5,
        "; ".join(
            f"T{k} at philosophers.c:11 waits for forks[{k % 5}], which T{k % 5 + 1} holds" for k in range(1, 6)
        ),
    ),
}
# The lock of each kind of each_lock.c.
KINDS = {
    "spin": "spin",
    "reader": "table",
    "writer": "table",
    "stream": r"\S*stdout\S*",
    "c11": "plain",
    "openmp": r"team\S*",
    "condition": "b",
}
MEMBERS = {
    "stands": {"ended", "events", "liberties", "locations", "places", "text"},
    "departed": {"at", "ended", "events", "locations", "places", "text"},
}
# Environments of other_lock.c, and the line about the departure.
DEPARTURES = {
    "IDLE_LOCK": "T2 did not have to wait at other_lock.c:16",
    "MAINS_LOCK": "T2 waits at other_lock.c:16 for a lock that no other thread of the deadlock holds",
}


# What record/confirm found of a deadlock: an object of JSON.
Found = dict[str, Any]


def ran(
    command: Sequence[str], wanted: int = 0, env: Mapping[str, str] | None = None, text: bytes | None = None
) -> tuple[str, str]:
    done = subprocess.run(command, capture_output=True, timeout=PATIENCE, check=False, env=env, input=text)
    out, errors = done.stdout.decode(errors="replace"), done.stderr.decode(errors="replace")
    if done.returncode != wanted or "Traceback" in errors:
        raise Wrong(f"{' '.join(command)}: status {done.returncode}, and not {wanted}: {out}{errors[-900:]}")
    return out, errors


def recorded(name: str, *arguments: str, seed: int = 1) -> bool:
    """Records a program: NAME.std and NAME.clock. Whether it did not hang."""
    status, trace, notes = run("--seed", str(seed), "--clock", f"{name}.clock", f"./{name}", *arguments)
    if status not in (0, 5):
        raise Wrong(f"{name} {seed}: status {status}: {notes}")
    with open(f"{name}.std", "w", encoding="utf-8") as file:
        file.write(trace)
    return status == 0


def confirmed(
    racebench: str, name: str, *options: str, wanted: int = 0, env: Mapping[str, str] | None = None
) -> list[Found]:
    """What record/confirm found of each deadlock."""
    command = [*CONFIRM, "--deadlocks", "--racebench", racebench, "--json", f"{name}.json", *options]
    out, _ = ran([*command, f"{name}.std", f"{name}.clock"], wanted, env)
    with open(f"{name}.json", encoding="ascii") as lines:
        found: list[Found] = [json.loads(line) for line in lines]
    stand = sum(one["ended"] == "stands" for one in found)
    if out.splitlines()[-1] != f"deadlocks {len(found)}, stand {stand}, departed {len(found) - stand}":
        raise Wrong(f"{name}: the last line counts other deadlocks than there are: {out}")
    with open(f"{name}.std", encoding="utf-8") as file:
        there = [line.split("|", 2)[2] for line in events_in(file.read())]
    for one in found:
        requests = [there[event] for event in one["events"]]
        if set(one) != MEMBERS[one["ended"]] or one["locations"][1::2] != requests:
            raise Wrong(f"{name}: a line of JSON: {one}")
        if one["places"] != [each.split(" < ")[0] for each in requests]:
            raise Wrong(f"{name}: the places are not those of the requests: {one}")
    return found


def turned_by_one(text: str) -> set[str]:
    """A text about a deadlock from each of its threads on."""
    waits = text.split("; ")
    return {"; ".join(waits[k:] + waits[:k]) for k in range(len(waits))}


def judge_standing(racebench: str, c: str, cxx: str | None) -> None:
    """Each deadlock of several recordings comes about, and the text says who waits for whom."""
    for name, (lines, text) in STANDING.items():
        compiled(f"{name}.c", c, cxx)
        whole = (seed for seed in SEEDS if recorded(name, seed=seed))
        for seed in itertools.islice(whole, COUNT):
            found = confirmed(racebench, name)
            if len(found) != 1 or found[0]["ended"] != "stands":
                raise Wrong(f"{name}, seed {seed}: {found}")
            if found[0]["text"].partition(": ")[2] not in turned_by_one(text):
                raise Wrong(f"{name}, seed {seed}: {found[0]['text']}")
            if sorted(int(place.rpartition(":")[2]) for place in found[0]["places"]) != lines:
                raise Wrong(f"{name}, seed {seed}: {found[0]['places']}")


def judge_none(racebench: str, c: str, cxx: str | None) -> None:
    """Nothing is listed that can't be: a lock that is only tried, a common lock, an order by a condition."""
    for name in ("tries", "gate", "ordered", *(["scoped"] if cxx else [])):
        compiled(f"{name}.cpp" if name == "scoped" else f"{name}.c", c, cxx)
        for seed in (1, 2):
            recorded(name, seed=seed)
            if found := confirmed(racebench, name):
                raise Wrong(f"{name}, seed {seed}: {found}")


def judge_kinds(racebench: str, c: str, cxx: str | None) -> None:
    """Each kind of lock may be waited for, also by the return of a condition's wait."""
    compiled("each_lock.c", c, cxx, "-fopenmp")
    for kind, lock in KINDS.items():
        recorded("each_lock", kind)
        found = confirmed(racebench, "each_lock")
        wanted = rf"T2 at each_lock.c:\d+ waits for {lock}, which T1 holds"
        if not found or any(one["ended"] != "stands" or not re.search(wanted, one["text"]) for one in found):
            raise Wrong(f"{kind}: {found}")


def follow(
    racebench: str,
    name: str,
    events: Sequence[object],
    *options: str,
    wanted: int = 0,
    env: Mapping[str, str] | None = None,
    text: bytes | None = None,
) -> tuple[str, str]:
    command = [*FOLLOW, "--racebench", racebench, "--trace", f"{name}.std", *options, f"{name}.clock"]
    return ran([*command, *map(str, events)], wanted, env, text)


def judge_departures(racebench: str, c: str, cxx: str | None) -> None:
    """A thread that does not wait, and one that waits for a lock of a thread outside of the deadlock."""
    compiled("other_lock.c", c, cxx)
    recorded("other_lock")
    found = confirmed(racebench, "other_lock")
    if [one["ended"] for one in found] != ["stands"]:
        raise Wrong(f"other_lock, as recorded: {found}")
    events = found[0]["events"]
    for variable, text in DEPARTURES.items():
        surroundings = dict(os.environ, **{variable: "1"})
        found = confirmed(racebench, "other_lock", wanted=1, env=surroundings)
        start = rf"departed at event {events[1]}  T2 waits for a \(step \d+ of \d+\): "
        if len(found) != 1 or not re.fullmatch(start + re.escape(text), found[0]["text"]):
            raise Wrong(f"{variable}: {found}")
        _, errors = follow(racebench, "other_lock", events, wanted=1, env=surroundings)
        if text not in errors or "T1 stands before a lock at other_lock.c:9" not in errors:
            raise Wrong(f"{variable}: {errors}")


def judge_follow(racebench: str, c: str, cxx: str | None) -> None:
    """Both stacks, in any order of the requests; the program ends there, or hangs. Other orders are refused."""
    compiled("abba.c", c, cxx)
    recorded("abba")
    stands = f"record/follow: the deadlock stands: {STANDING['abba'][1]}\n"
    stacks = r"  T1, lock of b at \w+\n    #0 first abba.c:8\n  T2, lock of a at \w+\n    #0 second abba.c:16\n"
    hangs = "record/follow: the program hangs in a deadlock\n"
    for words, then, end in (((3, 9), "", ""), ((9, 3), "stop", ""), ((3, 9, "./abba"), "hang", hangs)):
        out, errors = follow(racebench, "abba", words, *["--then", then] * bool(then))
        if not re.fullmatch(re.escape(stands) + stacks + end, errors) or out:
            raise Wrong(f"{words} {then}: {out}{errors}")
    for then in ("first", "both"):
        follow(racebench, "abba", (3, 9), "--then", then, wanted=2)
    follow(racebench, "abba", [3, 9] * 5, wanted=2)
    if shutil.which("gdb"):
        out, _ = follow(racebench, "abba", (3, 9), "--gdb", text=b"bt\nkill\nquit\n")
        if '"T1 waits"' not in out or "racebench_deadlock_stands" not in out or " second (" not in out:
            raise Wrong(f"under gdb: {out}")


def judge_refusals(racebench: str, c: str, cxx: str | None) -> None:
    """Events that are no requests of a deadlock, and a schedule of another one, are refused."""
    compiled("abba.c", c, cxx)
    compiled("tries.c", c, cxx)
    recorded("abba")
    recorded("tries")
    with open("abba.std", encoding="utf-8") as file:
        lines = events_in(file.read())
    for events, schedule, said in (
        ((3, 9, 4), [0, 1, 2, 8], "more than two events are no race, and these are no requests of a deadlock"),
        ((3, 8), [0, 1, 2], "after this schedule no other thread of the deadlock holds the lock of event 3"),
        ((3, 9), [0, 1, 2], "this is a witness of another deadlock than 3 9"),
        ((3, 9), [0, 1, 2, 3, 8], "this is a witness of another deadlock than 3 9"),
        ((2, 3), [0, 1], "this is a witness of another deadlock than 2 3"),
    ):
        text = "".join(f"{event}  {lines[event]}\n" for event in schedule)
        _, errors = ran([*FOLLOW, "abba.clock", *map(str, events)], 3, text=text.encode())
        if errors != f"record/follow: {said}\n":
            raise Wrong(f"{events}: {errors}")
    with open("tries.std", encoding="utf-8") as file:
        lines = events_in(file.read())
    tries = [k for k, line in enumerate(lines) if "acq(b)|tries.c:8" in line or "acq(a)|tries.c:17" in line]
    _, errors = follow(racebench, "tries", tries, wanted=3)
    if "does not wait for a lock: it tries, or waits for a time" not in errors:
        raise Wrong(f"a try: {errors}")
    for options in (["--triage", "--apart"], ["--longest", "9"]):
        ran([*CONFIRM, "--deadlocks", "--racebench", racebench, *options, "abba.std", "abba.clock"], 2)


def reported(racebench: str, report: str, trace: str, wanted: int = 0) -> str:
    """The answers of record/reported."""
    out, errors = ran([os.path.join(RECORD, "reported"), "--racebench", racebench, report, trace], wanted)
    return out + errors


def lock_orders(name: str) -> Iterator[bytes]:
    """Reports of a program by ThreadSanitizer, with the first locks and without, and by Helgrind, as text and as
    XML."""
    source = os.path.join(FOLDER, f"{name}.c")
    source = source if os.path.exists(source) else os.path.join(os.path.dirname(RECORD), "examples", f"{name}.c")
    ran(["gcc", "-g", "-O1", "-fsanitize=thread", "-pthread", source, "-o", "watched"])
    for both in "01":
        surroundings = dict(os.environ, TSAN_OPTIONS=f"second_deadlock_stack={both}")
        watched = ["setarch", "-R", "./watched"]
        done = subprocess.run(watched, capture_output=True, timeout=PATIENCE, check=False, env=surroundings)
        yield done.stderr
    if not shutil.which("valgrind"):
        return
    ran(["gcc", "-g", "-O1", "-pthread", source, "-o", "plain"])
    yield ran(["valgrind", "--tool=helgrind", "./plain"])[1].encode()
    ran(["valgrind", "--tool=helgrind", "--xml=yes", "--xml-file=report.xml", "./plain"])
    with open("report.xml", "rb") as file:
        yield file.read()


def judge_reports(racebench: str, c: str, cxx: str | None) -> None:
    """Lock orders of real reports: a deadlock is one here too, a common lock makes none, a cut report is one."""
    has_verdicts = subprocess.run([racebench, "deadlocks", "--help"], capture_output=True, check=False).returncode == 0
    no_deadlock = "1 apart, 0 undecided" if has_verdicts else "0 apart, 1 undecided"
    for name, requests, counts in (
        ("abba", "3 9", "1 a deadlock here, 0 apart, 0 undecided"),
        ("three", r"\d+ \d+ \d+", "1 a deadlock here, 0 apart, 0 undecided"),
        ("gate", None, f"0 a deadlock here, {no_deadlock}"),
    ):
        compiled(f"{name}.c", c, cxx)
        recorded(name)
        for number, report in enumerate(lock_orders(name)):
            with open("report", "wb") as file:
                file.write(report)
            out = reported(racebench, "report", f"{name}.std")
            next_one = rf"  record/follow --trace {name}.std CLOCK {requests}\n" if requests else ""
            if not out.endswith(f"\n1 reports: 0 a race here, {counts}, 0 not met\n") or not re.search(next_one, out):
                raise Wrong(f"{name}, report {number}: {out}")
            if name == "abba":
                judge_other_report(racebench, report)


def judge_other_report(racebench: str, report: bytes) -> None:
    """A report of abba that is cut after its first line, and one of another program."""
    first_line = re.search(rb"lock.order", report)
    if first_line is None:
        raise Wrong(f"no report of an order of locks: {report!r}")
    with open("report", "wb") as file:
        file.write(report[: first_line.end() + 60])
    if "cut" not in reported(racebench, "report", "abba.std", 1):
        raise Wrong("a report that is cut is taken")
    with open("report", "wb") as file:
        hostile = b"" if report.startswith(b"<?xml") else b"\x1b"
        file.write(report.replace(b"abba.c", b"other" + hostile + b".c").replace(b"first", hostile + b"[2J"))
    out = reported(racebench, "report", "abba.std")
    if "not met: no lock at" not in out or "\x1b" in out:
        raise Wrong(f"a report of another program: {out}")


def cases(racebench: str, c: str, cxx: str | None) -> list[Case]:
    found: list[Case] = [(f"deadlocks that stand, {c}", judge_standing, (racebench, c, cxx))]
    found += [(f"deadlocks that are none, {c}", judge_none, (racebench, c, cxx))]
    if c == "gcc":
        judges = {
            "of each kind that stand": judge_kinds,
            "that depart": judge_departures,
            "and record/follow": judge_follow,
            "that are refused": judge_refusals,
            "of reports": judge_reports,
        }
        found += [(f"deadlocks {name}", judge, (racebench, c, cxx)) for name, judge in judges.items()]
    return found
