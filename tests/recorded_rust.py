"""Judges record/ on Rust programs: those of tests/recorded/rust with ten seeds each, those that end badly, following,
a Rust that is unknown, and programs made by chance whose races are known (recorded_rust_planted.py).

What no other judge sees: a race of a Rust program that is not listed or a false one, a lock of Rust's library that is
not written as a lock, and a race that the real program can't be led to.

    recorded_rust.py PROGRAM SEEDS [TEXT]..     the cases whose names contain a text, with this many seeds
"""
from __future__ import annotations

import atexit
import functools
import glob
import os
import re
import shutil
import signal
import subprocess
import sys
import tempfile
import time
from collections.abc import Callable, Iterator

import recorded_ci
import recorded_rust_planted
from judging import Wrong

if (RECORD := os.path.join(os.path.dirname(os.path.dirname(os.path.abspath(__file__))), "record")) not in sys.path:
    sys.path.append(RECORD)
from rustlang import building, library

TOP = os.path.dirname(RECORD)

SOURCES = os.path.join(TOP, "tests", "recorded", "rust")
PATIENCE = 900
# Seconds in which a deadlock would be seen.
A_WHILE = 4
SEEDS = 10
BEGIN, WHOLE = "recording|begin(RECORDED)|", "recording|end(WHOLE)|"
# The programs; each race has the name of its program as its label.
RACES = "counter cell reader relaxed element dropped".split()
CLEAN = "mutex channel arc others downgraded polled timed printed".split()
# Those that end badly, with the status of record/run --status.
ENDS = (("panicked", 101, "status 101"), ("exits", 3, "status 3"), ("killed", 137, "signal 9"))
# A seed is a run of these: they neither sleep nor look at a clock.
SAME = "counter cell mutex arc polled".split()
Case = tuple[str, Callable[..., None], tuple[object, ...]]


def ran(command: list[str], wanted: int = 0, cwd: str | None = None, **more: str) -> tuple[str, str]:
    """What a command writes on standard output and on standard error, in an environment with more variables."""
    surroundings = {**os.environ, "RUST_BACKTRACE": "0", **more}
    done = subprocess.run(command, capture_output=True, timeout=PATIENCE, check=False, cwd=cwd, env=surroundings)
    out, notes = done.stdout.decode(errors="replace"), done.stderr.decode(errors="replace")
    if done.returncode != wanted:
        raise Wrong(f"{' '.join(command)}: status {done.returncode}, and not {wanted}: {notes[-600:]}")
    return out, notes


@functools.lru_cache(maxsize=None)
def scenarios() -> str:
    """The program of tests/recorded/rust, which is built once."""
    folder = tempfile.mkdtemp(prefix="recorded_rust")
    atexit.register(shutil.rmtree, folder, True)
    _, notes = ran([os.path.join(RECORD, "cargo"), "build", "--offline", "--target-dir", folder], cwd=SOURCES)
    program = os.path.join(folder, building.TARGET, "debug", "scenarios")
    if f"record it by: record/run {os.path.relpath(program, SOURCES)}" not in notes:
        raise Wrong(f"record/cargo does not say what it built: {notes}")
    return program


def recorded(name: str, *options: str, wanted: int = 0) -> tuple[str, str]:
    """The trace of a program, and what record/run says; the trace is in `trace.std` too."""
    out, notes = ran([os.path.join(RECORD, "run"), *options, scenarios(), name], wanted)
    with open("trace.std", "w", encoding="utf-8") as file:
        file.write(out)
    return out, notes


@functools.lru_cache(maxsize=None)
def labels() -> dict[str, set[str]]:
    """The lines that race, by their labels."""
    found: dict[str, set[str]] = {}
    for path in sorted(glob.glob(os.path.join(SOURCES, "src", "*.rs"))):
        with open(path, encoding="utf-8") as file:
            for number, line in enumerate(file, start=1):
                for label in re.findall(r"// RACE (\w+)", line):
                    found.setdefault(label, set()).add(f"{os.path.basename(path)}:{number}")
    return found


def shown(racebench: str) -> set[tuple[str, ...]]:
    """The pairs of lines of the races in `trace.std`, as triage prints them."""
    printed, _ = ran([racebench, "triage", "trace.std"])
    places = re.findall(r"^  T\d+\|[^|]*\|(\S+)", printed, re.MULTILINE)
    return {tuple(sorted(pair)) for pair in zip(places[::2], places[1::2])}


def judge_races(racebench: str, about: str, label: str) -> None:
    """The races of `trace.std` are at the lines with a label; without a label there is no race."""
    wanted, found = labels()[label] if label else set(), shown(racebench)
    if any(set(pair) - wanted for pair in found) or bool(found) != bool(wanted):
        raise Wrong(f"{about}: the races are {sorted(found)}, and the lines that race are {sorted(wanted)}")


def judge_whole(name: str, seed: int) -> None:
    """A recording is whole."""
    trace, _ = recorded(name, "--seed", str(seed))
    lines = trace.splitlines()
    if (lines[0], lines[-1]) != (BEGIN, WHOLE):
        raise Wrong(f"seed {seed}: the trace begins with {lines[0]} and ends with {lines[-1]}")


def judge_program(racebench: str, name: str, label: str, seeds: int) -> None:
    """With each seed the trace is whole and has the races that the program has, and no others."""
    for seed in range(1, seeds + 1):
        judge_whole(name, seed)
        judge_races(racebench, f"seed {seed}", label)


def judge_some_seed(racebench: str, name: str, most: int) -> None:
    """One of this many seeds meets the race, and none another one."""
    wanted = labels()[name]
    for seed in range(1, most + 1):
        judge_whole(name, seed)
        found = shown(racebench)
        if any(set(pair) - wanted for pair in found):
            raise Wrong(f"seed {seed}: the races are {sorted(found)}")
        if found:
            return
    raise Wrong(f"no seed meets the race at {sorted(wanted)}")


def judge_seeds() -> None:
    """The same seed gives the same trace, and others give others."""
    for name in SAME:
        traces = [recorded(name, "--seed", str(seed))[0] for seed in (1, 1, 2, 3, 4)]
        if traces[0] != traces[1]:
            raise Wrong(f"{name}: one seed gave two traces")
        if name == "mutex" and len(set(traces)) < 3:
            raise Wrong(f"{name}: four seeds gave {len(set(traces))} traces")


def judge_locks() -> None:
    """Each lock of the library is taken and let go as a lock, at the program's line, with no access of its word."""
    trace, _ = recorded("cell", "--frames", "1")
    line = {
        word: [one for one in trace.splitlines() if f"|{word}(" in one and "atomic:" not in one]
        for word in ("acq", "rel")
    }
    sections = [
        one for one in line["acq"] if re.fullmatch(r"T\d+\|acq\(heap:races\.rs:\d+\+\d+\)\|races\.rs:\d+.*", one)
    ]
    if len(sections) != 3 or len(line["acq"]) != len(line["rel"]):
        raise Wrong(f"three sections of a Mutex are written as {line}")
    trace, _ = recorded("reader")
    if not re.search(r"\|acq\(heap:races\.rs:\d+\+\d+:T\d\)\|races\.rs:", trace):
        raise Wrong("a reader has no lock of its own")


def judge_names() -> None:
    """Statics and blocks have names of the source, and locations only lines of the program."""
    trace, _ = recorded("counter")
    if not re.search(
        r"^T1\|w\(scenarios::races::HITS\)\|races\.rs:\d+ < scenarios::races::raise$", trace, re.MULTILINE
    ):
        raise Wrong(f"the names are others: {trace}")
    trace, _ = recorded("element")
    call = r"races\.rs:\d+ < scenarios::races::Pointer::raise < "
    if not re.search(rf"\|w\(heap:races\.rs:\d+\+4\)\|{call}", trace):
        raise Wrong(f"the block or its calls have other names: {trace}")


def judge_ends(racebench: str) -> None:
    """A program that ends by a panic, process::exit or a kill is recorded up to there, and the status is its own."""
    for name, status, text in ENDS:
        _, notes = recorded(name, "--status", wanted=status)
        if text not in notes:
            raise Wrong(f"{name}: {notes}")
        judge_races(racebench, name, "broken")
    recorded("aborted", "--status", wanted=134)
    judge_races(racebench, "aborted", "broken")
    _, notes = recorded("alone", wanted=4)
    if "the program made no second thread" not in notes:
        raise Wrong(f"a program with one thread: {notes}")


def judge_many(racebench: str) -> None:
    """200 threads live at once."""
    recorded("many")
    if "threads 202\n" not in ran([racebench, "info", "trace.std"])[0]:
        raise Wrong("200 threads are not in the trace")
    recorded("many", "--only", "broken.rs", "--partial")
    judge_races(racebench, "many", "broken")


def judge_thousands(racebench: str) -> None:
    """2,000 threads, in turns and at once: all are in the trace. With --max the rest is left out, and counted."""
    for name in ("in_turns", "at_once"):
        trace, notes = recorded(name, "--only", "broken.rs", "--partial")
        threads = {line.split("|")[0] for line in trace.splitlines()} - {"recording"}
        if len(threads) != 2002 or "this trace has" not in notes or "2000\n" not in notes:
            raise Wrong(f"{name}: {len(threads)} threads: {notes[-600:]}")
        lines = trace.splitlines(keepends=True)
        cut = next(k for k, line in enumerate(lines) if "|fork(T200)|" in line)
        with open("trace.std", "w", encoding="utf-8") as file:
            file.writelines(lines[:cut])
        judge_races(racebench, name, "broken")
    trace, notes = recorded("at_once", "--max", "1000000", wanted=4)
    last = re.fullmatch(r"recording\|end\(LEFT OUT (\d+) FROM \d+: THREADS\)\|", trace.splitlines()[-1])
    threads = {line.split("|")[0] for line in trace.splitlines()} - {"recording"}
    if not last or not int(last[1]) or len(threads) > 256:
        raise Wrong(f"--max: {len(threads)} threads, and the end is {trace.splitlines()[-1]}: {notes[-600:]}")


def lines_of(label: str, name: str) -> str:
    """The lines of broken.rs that have a comment, as a pattern."""
    with open(os.path.join(SOURCES, "src", "broken.rs"), encoding="utf-8") as file:
        found = [str(n) for n, line in enumerate(file, start=1) if re.search(rf"// {label} {name}$", line)]
    return rf"broken\.rs:(?:{'|'.join(found)})"


def judge_deadlock(racebench: str) -> None:
    """A program in a deadlock is ended, with a line that says who waits for whom."""
    lock = r"scenarios::broken::(?:FIRST|SECOND|TABLE)\S*"
    for name in ("deadlock", "scoped_deadlock"):
        trace, notes = recorded(name, "--partial", wanted=5)
        waits, since = lines_of("WAITS", name), lines_of("HOLDS", name)
        one = rf"T\d waits at {waits} for {lock}, which T\d holds since {since}"
        if not re.search(rf"^record/run: the program is in a deadlock: {one}; {one}$", notes, re.MULTILINE):
            raise Wrong(f"{name}: {notes}")
        lines = trace.splitlines()
        if lines[-1] != f"recording|end(LEFT OUT 0 FROM {len(lines) - 2}: DEADLOCK)|":
            raise Wrong(f"{name}: the trace ends with {lines[-1]}")
        judge_races(racebench, name, "broken")


def judge_hang(racebench: str) -> None:
    """A program that hangs, but not in locks, is recorded up to the signal that ends it."""
    with open("trace.std", "wb") as out, open("said", "wb") as notes:
        started = subprocess.Popen([os.path.join(RECORD, "run"), scenarios(), "hangs"], stdout=out, stderr=notes)
        while not os.path.getsize("said") and started.poll() is None:
            time.sleep(0.01)
        time.sleep(A_WHILE)
        if started.poll() is not None:
            raise Wrong("the program was ended")
        started.send_signal(signal.SIGTERM)
        started.wait(PATIENCE)
    judge_races(racebench, "hangs", "broken")


def judge_follow(racebench: str) -> None:
    """record/follow and record/confirm lead the real program to a race that a lock hides in the run."""
    recorded("cell", "--clock", "clock", "--seed", "2")
    confirm = [os.path.join(RECORD, "confirm"), "--racebench", racebench, "trace.std", "clock", scenarios(), "cell"]
    out, notes = ran(confirm)
    if "stands" not in out or "departed 0" not in out.splitlines()[-1]:
        raise Wrong(f"record/confirm: {out}{notes}")
    first = re.search(r"^race (\d+) (\d+) ", ran([racebench, "triage", "trace.std"])[0], re.MULTILINE)
    if not first:
        raise Wrong("there is no race to follow")
    schedule, _ = ran([racebench, "witness", "trace.std", *first.groups()])
    command = [os.path.join(RECORD, "follow"), "--then", "both", "clock", *first.groups(), scenarios(), "cell"]
    done = subprocess.run(command, input=schedule, capture_output=True, text=True, timeout=PATIENCE, check=False)
    differ = "record/follow: the order matters: the outputs differ: 42 with A first, 0 with B first\n"
    if "the race stands" not in done.stderr or differ not in done.stderr:
        raise Wrong(f"record/follow: {done.stdout}{done.stderr}")


REPORT = """==================
WARNING: ThreadSanitizer: data race (pid=9032)
  Read of size 4 at 0x557f79c928d8 by thread T1:
    #0 core::ptr::read::<u32> /usr/src/rustc-1.96.0/library/core/src/ptr/mod.rs:1743:9 (scenarios+0xd4651)
    #1 scenarios::races::raise PLACE:14 (scenarios+0xd4651)

  Previous write of size 4 at 0x557f79c928d8 by thread T2:
    #0 scenarios::races::raise PLACE:14 (scenarios+0xd46ab)

  Location is global 'scenarios::races::HITS' of size 4 at 0x557f79c928d8 (scenarios+0x10a98d8)

SUMMARY: ThreadSanitizer: data race PLACE:14 in scenarios::races::raise
==================
"""


def judge_report(racebench: str) -> None:
    """record/reported answers a report of ThreadSanitizer, whose innermost frame may be the library's."""
    recorded("counter")
    (place,) = labels()["counter"]
    with open("report.txt", "w", encoding="utf-8") as file:
        file.write(REPORT.replace("PLACE", os.path.join(SOURCES, "src", place)))
    command = [os.path.join(RECORD, "reported"), "--racebench", racebench, "report.txt", "trace.std"]
    out, notes = ran(command)
    if f"read {place} in scenarios::races::raise" not in out or "\na race here: " not in out:
        raise Wrong(f"record/reported: {out}{notes}")


def judge_missing() -> None:
    """A Rust without sources is refused by a line, and so is one that is not there."""
    cargo, rust = os.path.join(RECORD, "cargo"), building.found()
    _, notes = ran([cargo, "build"], 2, SOURCES, RECORD_CARGO="/no/such/cargo")
    if notes != f"record/cargo: there is no cargo with a rustc beside it at /no/such/cargo: {building.ADVICE}\n":
        raise Wrong(f"no Rust: {notes}")
    with open("rustc", "w", encoding="utf-8") as file:
        file.write(f'#!/bin/sh\n[ "$1" = --print ] && echo "$PWD" || echo "release: 9.9\\nhost: {building.TARGET}"\n')
    shutil.copy(rust.cargo, "cargo")
    os.chmod("rustc", 0o755)
    here = os.getcwd()
    _, notes = ran([os.path.join(RECORD, "rustc"), "x.rs"], 2, RECORD_CARGO=f"{here}/cargo")
    why = f"{here}/rustc (9.9) has no sources of its library in {here}/lib/rustlib/src/rust/library: {building.ADVICE}"
    if notes != f"record/rustc: {why}\n":
        raise Wrong(f"no sources: {notes}")


def judge_unknown() -> None:
    """A library with other texts is refused, with the text that is missing."""
    rust = building.found()
    name = "std/src/sys/sync/rwlock/futex.rs"
    for source in library.changed(rust.sources):
        os.makedirs(os.path.dirname(source.name), exist_ok=True)
        shutil.copy(os.path.join(rust.sources, source.name), source.name)
    with open(name, encoding="utf-8") as file:
        text = file.read()
    with open(name, "w", encoding="utf-8") as file:
        file.write(text.replace("pub fn try_read(", "pub fn attempt_read("))
    try:
        library.changed(".")
    except library.UnknownRust as why:
        if str(why) == f"{name} has the text `pub fn try_read(&self) -> bool {{` 0 times, not 1":
            return
        raise Wrong(f"another text is missing: {why}") from None
    raise Wrong("a library with other texts is accepted")


LIBRARY = """static mut LOST: u32 = 0;
pub fn lose() {
    unsafe { LOST += 1 };
}
#[cfg(test)]
mod tests {
    #[test]
    fn races() {
        assert!(std::path::Path::new("Cargo.toml").exists());
        let other = std::thread::spawn(crate::lose);
        crate::lose();
        other.join().unwrap();
    }
    #[test]
    fn passes() {}
}
"""
MODULE = {
    "Cargo.toml": '[package]\nname = "part"\nversion = "0.0.0"\nedition = "2021"\n[workspace]\n',
    "src/lib.rs": LIBRARY,
    "src/bin/one.rs": "fn main() { std::process::exit(std::env::args().count() as i32) }\n",
    "tests/more.rs": "#[test]\nfn more() {}\n",
}


def judge_command(racebench: str) -> None:
    """record/cargo test records the tests of a package in its folder; run passes arguments on."""
    for name, text in MODULE.items():
        os.makedirs(os.path.dirname(name) or ".", exist_ok=True)
        with open(name, "w", encoding="utf-8") as file:
            file.write(text)
    cargo = os.path.join(RECORD, "cargo")
    trace, notes = ran([cargo, "test", "--seed", "2", "--offline", "--lib", "races"])
    with open("trace.std", "w", encoding="utf-8") as file:
        file.write(trace)
    if (
        shown(racebench) != {("src/lib.rs:3", "src/lib.rs:3")}
        or "tests::races ... ok" not in notes
        or "passes" in notes
    ):
        raise Wrong(f"record/cargo test: {shown(racebench)} {notes}")
    _, notes = ran([cargo, "run", "--partial", "--status", "--offline", "--bin", "one", "--", "1", "2"], 3)
    if "ended with status 3" not in notes:
        raise Wrong(f"record/cargo run: {notes}")
    _, notes = ran([cargo, "test", "--offline", "--tests"], 2)
    if not notes.endswith("--into FOLDER writes a trace of each\n"):
        raise Wrong(f"several programs of tests: {notes}")
    for arguments, why in (
        (["build", "--target", "x"], f"--target can't be used: programs are recorded on {building.TARGET}"),
        (["check"], "check is none of build, test and run"),
    ):
        if ran([cargo, *arguments], 2)[1] != f"record/cargo: {why}\n":
            raise Wrong(f"record/cargo {' '.join(arguments)} is not refused so: {why}")


def judge_rustc(racebench: str) -> None:
    """record/rustc compiles a file by itself, optimized too."""
    shutil.copy(os.path.join(SOURCES, "src", "races.rs"), "one.rs")
    with open("one.rs", "a", encoding="utf-8") as file:
        file.write("\nfn main() {\n    cell()\n}\n")
    ran([os.path.join(RECORD, "rustc"), "--edition", "2021", "-Adead_code", "-Copt-level=3", "one.rs", "-o", "one"])
    trace, _ = ran([os.path.join(RECORD, "run"), "./one"])
    with open("trace.std", "w", encoding="utf-8") as file:
        file.write(trace)
    wanted = {one.replace("races.rs", "one.rs") for one in labels()["cell"]}
    if {place for pair in shown(racebench) for place in pair} != wanted:
        raise Wrong(f"record/rustc: the races are {shown(racebench)}, not at {sorted(wanted)}")


def judge_check(racebench: str) -> None:
    """record/check records, follows and reports a Rust program as one of C."""
    recorded_ci.judge_command(racebench, [scenarios(), "cell"], "races.rs", "1 (matter|are the same)")


def all_cases(racebench: str, seeds: int) -> Iterator[Case]:
    for name in RACES + CLEAN:
        yield f"Rust: {name}", judge_program, (racebench, name, name if name in RACES else "", seeds)
    # The end of one thread comes before the start of the other if the scope drops what both count in between.
    yield "Rust: scoped", judge_some_seed, (racebench, "scoped", seeds)
    yield "Rust: tried", judge_some_seed, (racebench, "tried", 20)
    yield "Rust: a seed is a run", judge_seeds, ()
    yield "Rust: locks", judge_locks, ()
    yield "Rust: names and locations", judge_names, ()
    yield "Rust: ends", judge_ends, (racebench,)
    yield "Rust: 200 threads", judge_many, (racebench,)
    yield "Rust: 2,000 threads", judge_thousands, (racebench,)
    yield "Rust: a deadlock", judge_deadlock, (racebench,)
    yield "Rust: a program that hangs", judge_hang, (racebench,)
    yield "Rust: following", judge_follow, (racebench,)
    yield "Rust: a report of ThreadSanitizer", judge_report, (racebench,)
    yield "Rust: a Rust that is missing", judge_missing, ()
    yield "Rust: an unknown Rust", judge_unknown, ()
    yield "Rust: record/cargo", judge_command, (racebench,)
    yield "Rust: record/rustc", judge_rustc, (racebench,)
    yield "Rust: record/check", judge_check, (racebench,)
    yield from recorded_rust_planted.cases(racebench)


def why_left_out(release: str = "") -> str:
    """Why the cases are not tried, in words; empty if they are. They do not wait some minutes for the library. If a
    release is given, only that one will do."""
    try:
        rust = building.found()
        if release and rust.release != release:
            return f"Rust is {rust.release} here"
        if building.is_compiled(rust):
            return ""
    except building.NoRust as why:
        return str(why)
    return "its library is not compiled with hooks yet, which the first record/cargo build does"


def cases(racebench: str, seeds: int = SEEDS) -> list[Case]:
    """The cases; none if Rust can't be used, and then a line says how many are left out."""
    found = list(all_cases(racebench, seeds))
    why = why_left_out()
    if not why:
        return found
    print(f"record/: {len(found)} cases of Rust are left out: {why}")
    return []


def main() -> int:
    racebench, seeds, texts = os.path.abspath(sys.argv[1]), int(sys.argv[2]), sys.argv[3:]
    failed = 0
    for name, judge, about in cases(racebench, seeds):
        if texts and not any(text in name for text in texts):
            continue
        with tempfile.TemporaryDirectory() as folder:
            os.chdir(folder)
            try:
                judge(*about)
                print(f"passed {name}", flush=True)
            except Wrong as wrong:
                failed += 1
                print(f"failed {name}: {wrong}", flush=True)
            os.chdir(TOP)
    print(f"{failed} failed")
    return 1 if failed else 0


if __name__ == "__main__":
    sys.exit(main())
