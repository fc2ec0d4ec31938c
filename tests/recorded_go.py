"""Judges record/ on Go programs: those of tests/recorded/go with ten seeds each, those that end badly, the options of
record/run, a Go that is unknown, and programs made by chance whose races are known (recorded_go_planted.py).

What no other judge sees: a race of a Go program that is not listed or a false one, a trace that claims to be whole and
is not, and a seed that is no run.
"""

import atexit
import functools
import glob
import os
import re
import shutil
import signal
import subprocess
import sys
import tempfile
import time
from collections.abc import Callable, Iterator

import recorded_ci
import recorded_go_planted
from judging import Wrong

if (RECORD := os.path.join(os.path.dirname(os.path.dirname(os.path.abspath(__file__))), "record")) not in sys.path:
    sys.path.append(RECORD)
from golang import recording

TOP = os.path.dirname(RECORD)

SOURCES = os.path.join(TOP, "tests", "recorded", "go")
PATIENCE = 900
# Seconds in which a deadlock would be seen.
A_WHILE = 4
# A recording is made again so often if a goroutine was stopped by force in it.
AGAIN = 5
# Where Debian puts each version of Go.
OTHERS = "/usr/lib/go-*/bin/go"
SEEDS = range(1, 11)
BEGIN, WHOLE = "recording|begin(RECORDED)|", "recording|end(WHOLE)|"
# Each program, the options, and the label of the lines that race; no label is a program without a race.
RACES = (
    "counter captured mapwrite timer chanrace publish hidden many readers panics sliced condless finalized crowded"
).split()
CLEAN = (
    "mutex rwmutex waitgroup once atomics cond pool trylock handed unbuffered closed pipeline selected files spins "
    "signals ranges polled syncmap ticker chanfifo"
).split()
NONE: list[str] = []
PROGRAMS: list[tuple[str, list[str], str]] = [
    *[(name, NONE, name) for name in RACES],
    *[(name, NONE, "") for name in CLEAN],
    ("chanfifo", ["--slots"], "chanfifo"),
    ("many", ["--stream"], "many"),
    ("hidden", ["--yield", "1"], "hidden"),
]
# Programs whose traces take long to judge have three seeds.
LONG = ("many",)
# Those that neither sleep nor look at a clock: a seed is a run.
SAME = "counter mutex waitgroup once pipeline cond pool trylock spins".split()
Case = tuple[str, Callable[..., None], tuple[object, ...]]


def the_go() -> str:
    """The Go that builds: the one of PATH, or another one that is judged."""
    return os.environ.get("RECORD_GO") or "go"


def scenarios() -> str:
    """The program of tests/recorded/go, which is built once by each Go."""
    return scenarios_by(the_go())


@functools.lru_cache(maxsize=None)
def scenarios_by(go: str) -> str:
    folder = tempfile.mkdtemp(prefix="recorded_go")
    atexit.register(shutil.rmtree, folder, True)
    program = os.path.join(folder, "scenarios")
    ran([os.path.join(RECORD, "go"), "build", "-o", program, "."], cwd=SOURCES, go=go)
    return program


def ran(
    command: list[str], wanted: int | tuple[int, ...] = 0, cwd: str | None = None, go: str = "", **more: str
) -> tuple[str, str]:
    """What a command writes on standard output and on standard error; its status is one that is wanted. `go` names
    another Go, and `more` has variables of its environment."""
    surroundings = {**os.environ, **({"RECORD_GO": go} if go else {}), **more}
    done = subprocess.run(command, capture_output=True, timeout=PATIENCE, check=False, cwd=cwd, env=surroundings)
    out, notes = done.stdout.decode(errors="replace"), done.stderr.decode(errors="replace")
    if done.returncode not in (wanted if isinstance(wanted, tuple) else (wanted,)):
        raise Wrong(f"{' '.join(command)}: status {done.returncode}, and not {wanted}: {notes[-600:]}")
    return out, notes


def recorded(name: str, *options: str, wanted: int | tuple[int, ...] = 0) -> tuple[str, str]:
    """The trace of a program, and what record/run says; the trace is in `trace.std` too."""
    command = [os.path.join(RECORD, "run"), *options, scenarios(), *name.split()]
    out, notes = ran(command, wanted)
    with open("trace.std", "w", encoding="utf-8") as file:
        file.write(out)
    return out, notes


@functools.lru_cache(maxsize=None)
def labels() -> dict[str, set[str]]:
    """The lines that race, by their labels."""
    found: dict[str, set[str]] = {}
    for path in sorted(glob.glob(os.path.join(SOURCES, "*.go"))):
        with open(path, encoding="utf-8") as file:
            for number, line in enumerate(file, start=1):
                for label in re.findall(r"// RACE (\w+)", line):
                    found.setdefault(label, set()).add(f"{os.path.basename(path)}:{number}")
    return found


def shown(racebench: str, *options: str) -> set[tuple[str, ...]]:
    """The pairs of lines of the races in `trace.std`, as triage prints them."""
    printed, _ = ran([racebench, "triage", *options, "trace.std"])
    places = re.findall(r"^  T\d+\|[^|]*\|(\S+)", printed, re.MULTILINE)
    return {tuple(sorted(pair)) for pair in zip(places[::2], places[1::2])}


def judge_marks(trace: str, last: str = WHOLE) -> None:
    lines = trace.splitlines()
    if lines[0] != BEGIN or not re.fullmatch(re.escape(last).replace("N", r"\d+"), lines[-1]):
        raise Wrong(f"the trace begins with {lines[0]} and ends with {lines[-1]}, not with {last}")


def judge_program(racebench: str, name: str, options: list[str], label: str) -> None:
    """With each seed the trace is whole and has the races that the program has, and no others."""
    wanted = labels()[label] if label else set()
    windows = ["--windows"] if "--stream" in options else []
    for seed in SEEDS if name not in LONG else SEEDS[:3]:
        trace, _ = recorded(name, "--seed", str(seed), *options)
        judge_marks(trace)
        found = shown(racebench, *windows)
        if any(set(pair) - wanted for pair in found) or bool(found) != bool(wanted):
            raise Wrong(f"seed {seed}: the races are {sorted(found)}, and the lines that race are {sorted(wanted)}")


def undisturbed(name: str, seed: int) -> str:
    """The trace of a run in which no goroutine was stopped by force, if one of some runs is so."""
    for _ in range(AGAIN):
        trace, notes = recorded(name, "--seed", str(seed))
        if ", 0 taken by force" in notes:
            break
    return trace


def judge_seeds() -> None:
    """The same seed gives the same trace, and others give others."""
    for name in SAME:
        traces = [undisturbed(name, seed) for seed in (1, 1, 2, 3, 4)]
        if traces[0] != traces[1]:
            raise Wrong(f"{name}: one seed gave two traces")
        if name in ("pipeline", "spins") and len(set(traces)) < 3:
            raise Wrong(f"{name}: four seeds gave {len(set(traces))} traces")


def judge_names() -> None:
    """Variables are named by their types, and locations have the calls and no others."""
    trace, _ = recorded("hidden")
    account = r"T1\|w\(heap:races\.go:\d+ main\.account#1\.balance\)\|races\.go:\d+ < main\.\(\*account\)\.deposit < "
    if not re.search(account, trace) or "|w(main.audit)|" not in trace:
        raise Wrong(f"the names are others: {trace}")
    trace, _ = recorded("panics")
    calls = sorted({line.split("|")[2] for line in trace.splitlines() if line.startswith("T1|w(x@")})
    if len(calls) != 1 or not re.fullmatch(r"races\.go:\d+ < main\.panics\.func1", calls[0]):
        raise Wrong(f"after panics that were recovered a location is {calls}")


def judge_ends() -> None:
    """A program that ends by os.Exit, a panic or a kill is recorded up to there, and the status is its own."""
    for name, status, text in (
        ("exits", 3, "status 3"),
        ("panicked", 2, "status 2"),
        ("killed", 137, "signal 9 (SIGKILL)"),
    ):
        trace, notes = recorded(name, "--status", wanted=status)
        last = f"recording|end(LEFT OUT 0 FROM {len(trace.splitlines()) - 2}: KILLED)|" if name == "killed" else WHOLE
        judge_marks(trace, last)
        if text not in notes or "|w(x@" not in trace:
            raise Wrong(f"{name}: {notes}")
    trace, notes = recorded("alone", wanted=1)
    if "no event was recorded" not in notes or trace.splitlines() != [
        BEGIN,
        "recording|end(LEFT OUT 0 FROM 0: ONE THREAD)|",
    ]:
        raise Wrong(f"a program with one goroutine: {notes}{trace}")


def judge_hang() -> None:
    """A program that hangs is recorded up to the signal that ends it."""
    with open("out", "wb") as out, open("said", "wb") as notes:
        started = subprocess.Popen([os.path.join(RECORD, "run"), scenarios(), "hangs"], stdout=out, stderr=notes)
        while not os.path.getsize("said"):
            time.sleep(0.01)
        time.sleep(A_WHILE)
        if started.poll() is not None:
            raise Wrong("the program was ended")
        started.send_signal(signal.SIGTERM)
        started.wait(PATIENCE)
    with open("out", encoding="utf-8") as out_text:
        trace = out_text.read()
    judge_marks(trace, f"recording|end(LEFT OUT 0 FROM {len(trace.splitlines()) - 2}: KILLED)|")


def lines_of(label: str, name: str) -> str:
    """The lines of broken.go that have a comment, as a pattern."""
    with open(os.path.join(SOURCES, "broken.go"), encoding="utf-8") as file:
        found = [str(n) for n, line in enumerate(file, start=1) if re.search(rf"// {label} {name}$", line)]
    return rf"broken\.go:(?:{'|'.join(found)})"


def judge_deadlock(racebench: str) -> None:
    """Go's runtime ends a program whose goroutines all wait, with its own line; if some wait in a circle of locks, a
    line says who waits for whom."""
    lock = r"(?:mu|a|b)@broken\.go:\d+(?:#\d)?"
    for name, threads in (("deadlock", ["T0"]), ("abba", ["T3", "T4"]), ("abbaReaders", ["T3", "T4"])):
        trace, notes = recorded(name, "--partial", wanted=5)
        waits, since = lines_of("WAITS", name), lines_of("HOLDS", name)
        one = (
            rf"{thread} waits at {waits} for {lock}, which {holder} holds since {since}"
            for thread, holder in zip(threads, threads[1:] + threads[:1])
        )
        if not re.search(rf"^record/run: the program is in a deadlock: {'; '.join(one)}$", notes, re.MULTILINE):
            raise Wrong(f"{name}: {notes}")
        if "fatal error: all goroutines are asleep - deadlock!" not in notes:
            raise Wrong(f"{name}: Go's runtime says nothing: {notes}")
        judge_marks(trace, f"recording|end(LEFT OUT 0 FROM {len(trace.splitlines()) - 2}: DEADLOCK)|")
        shown(racebench)
    recorded("abba", "--status", wanted=2)
    trace, notes = recorded("asleep")
    judge_marks(trace)
    if "is in a deadlock" in notes or "ended with status 2" not in notes:
        raise Wrong(f"all goroutines wait, but for no lock: {notes}")


def judge_thousands(racebench: str) -> None:
    """Goroutines that live at once, more than a trace has threads: a line says it, and windows read the trace."""
    trace, notes = recorded("thousands")
    judge_marks(trace)
    if "has more than 256 threads" not in notes or len({line.split("|")[0] for line in trace.splitlines()}) < 2000:
        raise Wrong(f"2,000 goroutines: {notes}")
    if shown(racebench, "--windows"):
        raise Wrong("2,000 goroutines have a race")
    _, with_clock = recorded("thousands", "--clock", "clock")
    if "record/confirm can't follow it" in notes or "record/confirm can't follow it" not in with_clock:
        raise Wrong(f"2,000 goroutines with a clock: {with_clock}")


def judge_lent() -> None:
    """Goroutines whose end nothing comes after: with --max they lend their numbers, which the mark and a line say; else
    each has a number of its own."""
    trace, notes = recorded("unjoined", "--max", "1000000", wanted=4)
    count = re.findall(r"(\d+) goroutines have the number of one that ended, without an order", notes)
    judge_marks(trace, f"recording|end(LEFT OUT {' '.join(count)} FROM 0: THREADS)|")
    if len({line.split("|")[0] for line in trace.splitlines()[1:-1]}) > 256:
        raise Wrong(f"--max: the trace has more than 256 threads: {notes}")
    trace, notes = recorded("unjoined")
    judge_marks(trace)
    if "have the number of one that ended" in notes or "has more than 256 threads" not in notes:
        raise Wrong(f"without --max: {notes}")


def left_out(notes: str) -> int:
    """How many records had no room, as record/run says it."""
    return int(re.findall(r"(\d+) records left out \(--room\)", notes)[0])


def judge_options() -> None:
    """Each option of record/run does what it says, or is refused by a line."""
    whole = recorded("pipeline")[0].splitlines()[1:-1]
    trace, notes = recorded("pipeline", "--max", "20", wanted=4)
    judge_marks(trace, f"recording|end(LEFT OUT {len(whole) - 20} FROM 20: MAX)|")
    if trace.splitlines()[1:-1] != whole[:20] or f"{len(whole) - 20} events left out" not in notes:
        raise Wrong(f"--max: {notes}")
    _, notes = recorded("pipeline", "--room", "1", wanted=1)
    room = left_out(notes) - 60
    trace, notes = recorded("pipeline", "--room", str(room), wanted=4)
    # Timers of the library make some records more or fewer.
    if not 30 < left_out(notes) < 90:
        raise Wrong(f"--room {room}: {notes}")
    judge_marks(trace, f"recording|end(LEFT OUT {left_out(notes)} FROM {len(trace.splitlines()) - 2}: ROOM)|")
    recorded("pipeline", "--room", str(room), "--partial")
    trace, notes = recorded("pipeline", "--from", "30", wanted=4)
    judge_marks(trace, "recording|end(LEFT OUT 30 FROM 0: FROM)|")
    kept = trace.splitlines()[1:-1]
    held = len(kept) - (len(whole) - 30)
    if held < 0 or kept[held:] != whole[30:] or any("|acq(" not in line for line in kept[:held]):
        raise Wrong(f"--from: {notes}{trace}")


def judge_choices() -> None:
    """Options that choose what is written, and those that are refused."""
    trace, _ = recorded("pipeline", "--frames", "0")
    if " < " in trace or not re.search(r"\|clean\.go:\d+$", trace, re.MULTILINE):
        raise Wrong(f"--frames 0: {trace[:300]}")
    trace, notes = recorded("pipeline", "--only", "races.go", wanted=4)
    count = re.findall(r"(\d+) parts of variables left out, which no line of races\.go accesses", notes)
    last = f"recording|end(LEFT OUT {' '.join(count)} FROM 0: ONLY)|"
    if "|r(heap:" in trace or trace.splitlines()[-1] != last:
        raise Wrong(f"--only: {notes}")
    trace, _ = recorded("counter", "--only", "races.go", "--raw", "raw")
    if "|w(main.hits)|" not in trace or not os.path.getsize("raw"):
        raise Wrong("--only of the right file leaves the variable out, or --raw keeps nothing")
    for options, why in (
        (["--clock", "clock", "--from", "2"], "--clock: the trace of a clock begins with the first event"),
        (["--ordered", "ordered"], "--ordered: the trace of a Go program leaves out no access"),
        (["--values", "values"], "--values: it is for C, C++ and Rust programs"),
        (["--names", "raw"], "--names: the variables of a Go program have the names of the source"),
    ):
        trace, notes = recorded("counter", *options, wanted=2)
        if trace or not notes.startswith(f"record/run: {why}") or notes.count("\n") != 1:
            raise Wrong(f"{options}: {notes}")


# Programs whose race the real program is led to, with what the order changes: a variable, a map, a timer, a channel
# without a buffer, a pointer, a mutex, a lock for readers, a panic, a condition, a lock that a goroutine waited for.
FOLLOWED = (
    ("counter", "the outputs differ: 2 with A first (A goes on), 1 with B first (B goes on)"),
    ("mapwrite", "is the same"),
    ("timer", "the outputs differ: 1 with A first (A goes on), 0 with B first (B goes on)"),
    ("chanrace", "the outputs differ: 2 with A first (A goes on), 1 with B first (B goes on)"),
    ("publish", "is the same"),
    ("hidden", "the outputs differ: 2 with A first (A goes on), 1 with B first (B goes on)"),
    ("readers", "is the same"),
    ("panics", "is the same"),
    ("condless", "is the same"),
    ("crowded", "is the same"),
)


def judge_followed(racebench: str, name: str, what: str) -> None:
    """Both goroutines are led to their accesses, and the order of the accesses has its effect."""
    recorded(name, "--seed", "2", "--clock", "clock")
    confirm = [os.path.join(RECORD, "confirm"), "--racebench", racebench, "trace.std", "clock"]
    out, _ = ran(confirm)
    if not re.search(r"^races (\d+), stand \1, departed 0, ", out, re.MULTILINE) or what not in out:
        raise Wrong(f"{name}: {out}")


def judge_stands(racebench: str) -> None:
    """record/follow prints where both goroutines are, with their calls and the values there; a schedule that is not of
    this recording is refused, and so is gdb."""
    recorded("hidden", "--seed", "2", "--clock", "clock")
    a, b = re.findall(r"^race (\d+) (\d+) ", ran([racebench, "triage", "trace.std"])[0], re.MULTILINE)[0]
    with open("witness", "w", encoding="utf-8") as file:
        file.write(ran([racebench, "witness", "trace.std", a, b])[0])
    follow = [os.path.join(RECORD, "follow"), "--witness", "witness"]
    _, notes = ran([*follow, "--then", "stop", "clock", a, b])
    calls = r"    #0 main\.\(\*account\)\.(close|deposit) races\.go:\d+\n    #1 main\.hidden\.func\d races\.go:\d+\n"
    stands = r"record/follow: the race stands: T\d at races\.go:\d+, T\d at races\.go:\d+\n"
    standing = r"  {}: T\d, (read|write) of 1 byte at \w+, which hold 0x[01]\n"
    wanted = stands + standing.format("A") + calls + standing.format("B") + calls
    if not re.fullmatch(wanted, notes):
        raise Wrong(f"record/follow: {notes}")
    _, notes = ran([*follow, "--gdb", "clock", a, b], 3)
    if notes != "record/follow: --gdb: gdb knows no goroutines; the stacks are those that record/follow prints\n":
        raise Wrong(f"--gdb: {notes}")
    if "witness of another race" not in ran([*follow, "clock", a, str(int(b) + 1)], 3)[1]:
        raise Wrong("a schedule of another race is followed")


def judge_stop() -> None:
    """--for ends the log a while after its first record, and the recorder then writes no more."""
    with open("log", "w+b") as log:
        log.truncate(4096)
        recording.stop_recording_after(0.01, log)
        if any(os.pread(log.fileno(), 8, recording.STOP_AT)):
            raise Wrong("--for ends a log that has no record")
        os.pwrite(log.fileno(), b"\1", 8 * recording.APPENDED)
        while not any(os.pread(log.fileno(), 8, recording.STOP_AT)):
            time.sleep(0.01)
        os.pwrite(log.fileno(), bytes(8), 8 * recording.APPENDED)
        subprocess.run([scenarios(), "mutex"], env={**os.environ, "RACEBENCH_GO_LOG": "log"}, check=True)
        head = recording.head_of(log)
    if head[0] != recording.MAGIC or head[recording.APPENDED] or not head[recording.LOST]:
        raise Wrong(f"a log that is ended has {head[recording.APPENDED]} bytes, and {head[recording.LOST]} are lost")


def judge_unknown() -> None:
    """A Go whose sources have other texts is refused, and so is one that is not there."""
    command = [os.path.join(RECORD, "go"), "build", "."]
    _, notes = ran(command, 2, SOURCES, "no-such-go")
    if notes != "record/go: there is no no-such-go: install Debian's golang-go, or name a Go by RECORD_GO\n":
        raise Wrong(f"no Go: {notes}")
    root = ran([the_go(), "env", "GOROOT"])[0].strip()
    copy = os.path.abspath("root")
    names = "runtime sync syscall internal/race internal/poll".split()
    for name in names:
        shutil.copytree(os.path.join(root, "src", name), os.path.join(copy, "src", name))
    path = os.path.join(copy, "src/sync/pool.go")
    with open(path, encoding="utf-8") as file:
        text = file.read()
    with open(path, "w", encoding="utf-8") as file:
        file.write(text.replace("func poolRaceAddr(", "func otherRaceAddr("))
    with open("go", "w", encoding="utf-8") as file:
        file.write(f"#!/bin/sh\nprintf '%s\\n' {copy} go9.9 linux amd64\n")
    os.chmod("go", 0o755)
    _, notes = ran(command, 2, SOURCES, os.path.abspath("go"))
    why = "sync/pool.go has the text `func poolRaceAddr(` 0 times, not 1"
    if notes != f"record/go: this Go is unknown (go9.9, {copy}): {why}\n":
        raise Wrong(f"an unknown Go: {notes}")


MODULE = {
    "go.mod": "module example\n\ngo 1.19\n",
    "a/a.go": "package a\n\nvar N int\n\nfunc Add() { N++ }\n",
    "a/a_test.go": """package a

import (
    "os"
    "testing"
)

func TestRace(t *testing.T) {
    if _, err := os.Stat("a_test.go"); err != nil {
        t.Fatal(err)
    }
    done := make(chan bool)
    go func() { Add(); done <- true }()
    Add()
    <-done
}

func TestOther(t *testing.T) { t.Skip() }
""",
    "b/b.go": 'package main\n\nimport "os"\n\nfunc main() { go func() {}(); os.Exit(len(os.Args)) }\n',
    "c/c_test.go": 'package c\n\nimport "testing"\n\nfunc TestC(t *testing.T) {}\n',
}


def judge_command(racebench: str) -> None:
    """record/go test records the tests of a package in its folder; run passes arguments on."""
    for name, text in MODULE.items():
        os.makedirs(os.path.dirname(name) or ".", exist_ok=True)
        with open(name, "w", encoding="utf-8") as file:
            file.write(text)
    go = os.path.join(RECORD, "go")
    command = [go, "test", "--seed", "2", "--frames", "1", "--clock", "clock"]
    trace, notes = ran([*command, "./a", "-run", "Race", "-v"])
    with open("trace.std", "w", encoding="utf-8") as file:
        file.write(trace)
    if shown(racebench) != {("a.go:5", "a.go:5")} or "PASS: TestRace" not in notes or "TestOther" in notes:
        raise Wrong(f"record/go test: {notes}{trace}")
    confirm = [os.path.join(RECORD, "confirm"), "--racebench", racebench]
    table, _ = ran([*confirm, "../trace.std", "../clock"], cwd="a")
    if "races 1, stand 1, " not in table:
        raise Wrong(f"the program of record/go test --clock is not followed: {table}")
    _, notes = ran([*command, "--into", "traces", "./..."], 2)
    if notes != "record/go: --into writes several traces, and --clock is of one\n":
        raise Wrong(f"--into with --clock: {notes}")
    _, notes = ran([go, "run", "--status", "./b", "1", "2"], 3)
    if "ended with status 3" not in notes:
        raise Wrong(f"record/go run: {notes}")
    _, notes = ran([go, "test", "./..."], 2)
    if notes != "record/go: 2 packages have tests: --into FOLDER writes a trace of each\n":
        raise Wrong(f"several packages: {notes}")
    ran([go, "test", "--into", "traces", "./..."])
    if sorted(os.listdir("traces")) != ["example_a.std", "example_c.std"]:
        raise Wrong(f"--into: {os.listdir('traces')}")
    for command, why in (
        (["build", "-overlay", "x", "./b"], "record/go: -overlay can't be used: record/go has an overlay already\n"),
        (["vet"], "record/go: vet is none of build, test and run\n"),
    ):
        if ran([go, *command], 2)[1] != why:
            raise Wrong(f"record/go {' '.join(command)} is not refused so: {why}")


# Programs of tests/recorded/go that `go build -race` reports nearly always: a variable, a map and a pointer.
REPORTED = ("counter", "mapwrite", "publish")
RULE = "=" * 18


def watched() -> str:
    """The program of tests/recorded/go with Go's own race detector, which is built once by each Go."""
    program = os.path.join(os.path.dirname(scenarios()), "watched")
    if not os.path.exists(program):
        ran([the_go(), "build", "-race", "-o", program, "."], cwd=SOURCES)
    return program


def race_report(name: str) -> str:
    """A report of Go's race detector on a program."""
    for _ in range(200):
        done = subprocess.run([watched(), name], capture_output=True, timeout=PATIENCE, check=False)
        if b"WARNING: DATA RACE" in done.stderr:
            return done.stderr.decode()
    raise Wrong(f"Go's race detector reports nothing of {name} in 200 runs")


def answered(racebench: str, report: str, wanted: int = 0) -> tuple[str, str]:
    """What record/reported answers to a report by `trace.std`."""
    with open("report", "w", encoding="utf-8") as file:
        file.write(report)
    return ran([os.path.join(RECORD, "reported"), "--racebench", racebench, "report", "trace.std"], wanted)


def judge_reported(racebench: str) -> None:
    """A report of Go's race detector leads to the race of the trace. A cut one leads to a message; a report on another
    method of the same type, or on another line, matches no race."""
    for name in REPORTED:
        recorded(name, "--seed", "1")
        report = race_report(name)
        out, notes = answered(racebench, report)
        races = shown(racebench)
        places = re.findall(r"^  \d+  T\d+\|[^|]*\|(\S+)", out, re.MULTILINE)
        if "1 a race here, 0 apart, 0 undecided, 0 not met" not in out or tuple(sorted(places[:2])) not in races:
            raise Wrong(f"the report {report} is answered by {out}{notes}")
        _, notes = answered(racebench, report[: report.rindex(RULE)], 1)
        if not notes.endswith("is cut\n"):
            raise Wrong(f"a report that is cut: {notes}")
        other = report.replace("races.go:", "races.go:9")
        out, notes = answered(racebench, other.replace(f"main.{name}", "main.(*other).call"))
        if "0 a race here, 0 apart, 0 undecided, 1 not met" not in out:
            raise Wrong(f"a report on other lines is answered by {out}{notes}")


def judge_check(racebench: str) -> None:
    """record/check records, follows and reports a Go program as one of C."""
    recorded_ci.judge_command(racebench, [scenarios(), "hidden"], "races.go", "1 matter")


FULL_DISK = """mount -t tmpfs -o size=%s none small 2>/dev/null || exit 99
TMPDIR=$PWD/small exec %s %s works"""


def judge_full_disk() -> None:
    """A disk that gets full ends the trace there, and not the program."""
    os.mkdir("small")
    command = FULL_DISK % ("6m", os.path.join(RECORD, "run"), scenarios())
    unshared = ["unshare", "--map-root-user", "--mount", "sh", "-c", command]
    done = subprocess.run(unshared, capture_output=True, check=False, timeout=PATIENCE)
    if done.returncode == 99 or b"unshare" in done.stderr:
        print("record/: a full disk is not tested with Go, since no small one can be mounted here")
        return
    notes = done.stderr.decode(errors="replace")
    if done.returncode != 4 or "(less than a tenth of the disk is free)" not in notes or "status 0" not in notes:
        raise Wrong(f"a full disk: status {done.returncode}: {notes}")
    trace = done.stdout.decode()
    judge_marks(trace, f"recording|end(LEFT OUT N FROM {len(trace.splitlines()) - 2}: DISK)|")


def all_cases(racebench: str) -> Iterator[Case]:
    for name, options, label in PROGRAMS:
        yield " ".join(["Go:", name, *options]), judge_program, (racebench, name, options, label)
    yield "Go: a seed is a run", judge_seeds, ()
    yield "Go: names and locations", judge_names, ()
    yield "Go: ends", judge_ends, ()
    yield "Go: a deadlock", judge_deadlock, (racebench,)
    yield "Go: a program that hangs", judge_hang, ()
    yield "Go: 2,000 goroutines", judge_thousands, (racebench,)
    yield "Go: numbers that are lent", judge_lent, ()
    yield "Go: options", judge_options, ()
    yield "Go: more options", judge_choices, ()
    yield "Go: --for", judge_stop, ()
    for name, what in FOLLOWED:
        yield f"Go: following {name}", judge_followed, (racebench, name, what)
    yield "Go: where both stand", judge_stands, (racebench,)
    yield "Go: an unknown Go", judge_unknown, ()
    yield "Go: record/go", judge_command, (racebench,)
    yield "Go: a full disk", judge_full_disk, ()
    yield "Go: reports of its race detector", judge_reported, (racebench,)
    yield "Go: record/check", judge_check, (racebench,)
    yield from recorded_go_planted.cases(racebench)
    # It imports this module.
    import recorded_go_deadlocks

    yield from recorded_go_deadlocks.cases(racebench)


def judge_by(go: str, judge: Callable[..., None], *about: object) -> None:
    """Judges with another Go than that of PATH."""
    before = os.environ.get("RECORD_GO")
    os.environ["RECORD_GO"] = go
    try:
        judge(*about)
    finally:
        if before is None:
            del os.environ["RECORD_GO"]
        else:
            os.environ["RECORD_GO"] = before


def other_versions() -> dict[str, str]:
    """The other versions of Go that are installed, as by Debian's backports: the command of each."""
    usual = os.path.realpath(shutil.which(the_go()) or "")
    found = {re.sub(r".*/go-|/bin/go$", "", path): path for path in glob.glob(OTHERS)}
    return {version: path for version, path in sorted(found.items()) if os.path.realpath(path) != usual}


def cases(racebench: str) -> list[Case]:
    """The cases, for each Go that is installed; none if Go is not here. A line says what is left out."""
    found = list(all_cases(racebench))
    if not shutil.which(the_go()):
        print(f"record/: {len(found)} cases of Go are left out, since there is no {the_go()}")
        return []
    others = other_versions()
    if not others:
        print(f"record/: {len(found)} cases of another version of Go are left out, since there is no {OTHERS}")
    for version, path in others.items():
        found += [
            (name.replace("Go:", f"Go {version}:"), judge_by, (path, judge, *about))
            for name, judge, about in all_cases(racebench)
        ]
    return found
