"""Judges how record/ ends a program that hangs in a deadlock: with a line that says who waits for whom.

What no other judge sees: a recording that hangs, and a program that is said to be in a deadlock and would go on.
"""

import os
import re
import signal
import subprocess
import time

from judging import Case, Wrong
from recorded_places import PATIENCE, RECORD, events_in, ran
from recorded_tries import compiled, run

SEEDS = range(1, 11)
FORKS = "; ".join(
    f"T{k} waits at philosophers.c:11 for forks[{k % 5}], which T{k % 5 + 1} holds since philosophers.c:10"
    for k in range(1, 6)
)
# Each program with the options of its recordings, and what is said of it if it hangs. Some seed has to hang.
HANGING: dict[str, tuple[list[str], str]] = {
    "abba": (
        [],
        "T1 waits at abba.c:8 for b, which T2 holds since abba.c:15; T2 waits at abba.c:16 for a, which T1 "
        "holds since abba.c:7",
    ),
    "three": (
        [],
        "T1 waits at three.c:8 for b, which T2 holds since three.c:15; T2 waits at three.c:16 for c, which T3 "
        "holds since three.c:23; T3 waits at three.c:24 for a, which T1 holds since three.c:7",
    ),
    "counter": (
        [],
        "T1 waits at counter.c:9 for b, which T2 holds since counter.c:22; T2 waits at counter.c:23 for a, which T1 "
        "holds since counter.c:8",
    ),
    "philosophers": (["--yield", "5"], FORKS),
    "readers": (
        [],
        "T1 waits at readers.c:10 for log_, which T2 holds since readers.c:17; T2 waits at readers.c:18 for "
        "table, which T1 holds since readers.c:9",
    ),
}
# Programs that end in each seed.
ENDING = ("gate", "ordered", "tries", "scoped", "timed")
# The lock of each kind of kinds.c, as a pattern: the lock of OpenMP has a member, and that of a stream a library.
KINDS = {
    "spin": "spin",
    "reader": "table",
    "writer": "table",
    "stream": r"\S*stdout\S*",
    "c11": "plain",
    "openmp": r"team\S*",
}
IN_DEADLOCK = "record/run: the program is in a deadlock: "
# Seconds in which a deadlock would be seen.
A_WHILE = 4


def deadlock_in(notes: str) -> str:
    """What record/run says of a deadlock; empty if it says nothing."""
    return "".join(line[len(IN_DEADLOCK) :] for line in notes.splitlines() if line.startswith(IN_DEADLOCK))


def check_hang(about: str, found: tuple[int, str, str], text: str) -> None:
    """A recording of a program that hung."""
    status, trace, notes = found
    last = f"recording|end(LEFT OUT 0 FROM {len(events_in(trace))}: DEADLOCK)|"
    if status != 5 or deadlock_in(notes) != text or "the program ended" in notes:
        raise Wrong(f"{about}: status {status}, and not the deadlock {text!r}: {notes}")
    if trace.splitlines()[-1] != last:
        raise Wrong(f"{about}: the last line is not {last}: {trace[-200:]!r}")


def judge_hanging(c: str, cxx: str | None) -> None:
    """In the seeds that hang the line says who waits for whom, and other seeds end as they do."""
    for name, (options, text) in HANGING.items():
        compiled(f"{name}.c", c, cxx)
        hung = 0
        for seed in SEEDS:
            found = run(*options, "--seed", str(seed), f"./{name}")
            hung += found[0] != 0
            if found[0]:
                check_hang(f"{name} {seed}", found, text)
        if not hung:
            raise Wrong(f"{name}: no seed hangs")


def judge_ending(c: str, cxx: str | None) -> None:
    """Programs that can't hang are recorded whole."""
    for name in ENDING:
        if name == "scoped" and not cxx:
            continue
        compiled(f"{name}.cpp" if name == "scoped" else f"{name}.c", c, cxx)
        for seed in SEEDS if name != "timed" else (1, 2):
            status, trace, notes = run("--seed", str(seed), f"./{name}")
            if status or deadlock_in(notes) or not trace.endswith("\nrecording|end(WHOLE)|\n"):
                raise Wrong(f"{name} {seed}: status {status}: {notes}")


def judge_kinds(c: str, cxx: str | None) -> None:
    """Each kind of lock may be in the circle; a thread may wait for itself."""
    compiled("kinds.c", c, cxx, "-fopenmp")
    for kind, lock in KINDS.items():
        status, _, notes = run("./kinds", kind)
        wanted = (
            rf"T1 waits at kinds.c:\d+ for a, which T2 holds since kinds.c:\d+; T2 waits at kinds.c:\d+ for {lock}, "
        )
        if status != 5 or not re.fullmatch(wanted + r"which T1 holds since kinds.c:\d+", deadlock_in(notes)):
            raise Wrong(f"{kind}: status {status}: {notes}")
    compiled("self.c", c, cxx)
    check_hang("self", run("./self"), "T1 waits at self.c:7 for a, which T1 holds since self.c:6")


def hanging_seed() -> str:
    """A seed in which abba hangs."""
    return next(seed for seed in map(str, SEEDS) if run("--seed", seed, "./abba")[0] == 5)


def judge_options(racebench: str, c: str, cxx: str | None) -> None:
    """The statuses with other options; `triage --fail` is not green; record/check finds the deadlock."""
    compiled("abba.c", c, cxx)
    seed = hanging_seed()
    for options, wanted in (
        (["--partial"], 5),
        (["--status"], 134),
        (["--stream"], 5),
        (["--clock", "abba.clock"], 5),
    ):
        status, trace, notes = run(*options, "--seed", seed, "./abba")
        if status != wanted or not deadlock_in(notes) or ": DEADLOCK)|" not in trace:
            raise Wrong(f"{options}: status {status}, and not {wanted}: {notes}")
    with open("abba.std", "w", encoding="utf-8") as text:
        text.write(trace)
    ran([racebench, "triage", "--fail", "abba.std"], wanted=4)
    command = [os.path.join(RECORD, "check"), "--seeds", f"{seed}-{seed}", "--racebench", racebench, "./abba"]
    done = subprocess.run(command, capture_output=True, timeout=PATIENCE, check=False)
    said = f"deadlock: {HANGING['abba'][1]}: seeds {seed}\n"
    if done.returncode != 5 or said not in done.stdout.decode():
        raise Wrong(f"record/check: status {done.returncode}: {done.stdout.decode()}{done.stderr.decode()}")


def judge_followed(racebench: str, c: str, cxx: str | None) -> None:
    """A race before a deadlock is followed, and then the program hangs: it is not waited for."""
    compiled("both.c", c, cxx)
    status, trace, notes = run("--clock", "both.clock", "./both")
    if status != 5:
        raise Wrong(f"both: status {status}: {notes}")
    with open("both.std", "w", encoding="utf-8") as text:
        text.write(trace)
    found = ran([os.path.join(RECORD, "confirm"), "--racebench", racebench, "both.std", "both.clock"])
    row = r"both.c:8 +both.c:15 +stands +hangs in a deadlock +hangs in a deadlock +is the same"
    if not re.search(row, found):
        raise Wrong(f"record/confirm: {found}")


def judge_lost(c: str, cxx: str | None) -> None:
    """A lost signal is no deadlock: the program hangs until a signal ends it."""
    compiled("lost.c", c, cxx)
    with subprocess.Popen(
        [os.path.join(RECORD, "run"), "./lost"], stdout=subprocess.PIPE, stderr=subprocess.PIPE
    ) as hung:
        time.sleep(A_WHILE)
        hung.send_signal(signal.SIGTERM)
        trace, notes = hung.communicate(timeout=PATIENCE)
    if deadlock_in(notes.decode()) or b": KILLED)|" not in trace:
        raise Wrong(f"a lost signal: {notes.decode()}")


def cases(racebench: str, c: str, cxx: str | None) -> list[Case]:
    found: list[Case] = [
        (f"deadlocks that hang, {c}", judge_hanging, (c, cxx)),
        (f"deadlocks that never come, {c}", judge_ending, (c, cxx)),
        (f"deadlocks, options, {c}", judge_options, (racebench, c, cxx)),
        (f"deadlocks after a race, {c}", judge_followed, (racebench, c, cxx)),
        (f"deadlocks, a lost signal, {c}", judge_lost, (c, cxx)),
    ]
    if c == "gcc":
        found += [(f"deadlocks of each kind, {c}", judge_kinds, (c, cxx))]
    return found
