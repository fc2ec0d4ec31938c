"""Judges how record/java ends: by an exception, an exit, a kill, a full disk, a deadlock, with many threads; and what
its options and the agent alone do.

What no other judge sees: a trace that is cut and seems whole, a lost status, a limit without a line about it.
"""
from __future__ import annotations

import os
import re
import resource
import signal
import subprocess
import tempfile
import time
from typing import Any

import recorded_ci
import recorded_java
from judging import Wrong

BEGIN, WHOLE = "recording|begin(RECORDED)|", "recording|end(WHOLE)|"
# How the program ends, its status with --status, and the cause in the mark of the trace.
ENDS = [("throws", 1, ""), ("exits", 7, ""), ("halts", 9, ""), ("kills", 137, "KILLED"), ("overflows", 1, "")]
THREADS = 2000
# The most bytes of a file while the disk is full.
SMALL_DISK = 3 << 20
# Seconds in which a deadlock would be seen.
A_WHILE = 4


def compile_broken() -> None:
    recorded_java.compiled(os.path.join(recorded_java.SOURCES, "Broken.java"))


def judge_end(racebench: str, way: str, status: int, cause: str) -> None:
    """The trace has all up to the end, and the status is that of the program."""
    compile_broken()
    lines, text = recorded_java.recorded("--status", "-cp", ".", "Broken", way, "8", wanted=[status])
    accesses = [line for line in lines if re.search(r"\|[rw]\(Broken\.shared\)\|", line)]
    mark = f"recording|end(LEFT OUT 0 FROM {len(lines) - 2}: {cause})|" if cause else WHOLE
    if lines[0] != BEGIN or lines[-1] != mark or len(accesses) != 32:
        raise Wrong(f"{len(accesses)} accesses, and it ends with {lines[-1:]}: {text[-600:]}")
    labels = recorded_java.labels_of(os.path.join(recorded_java.SOURCES, "Broken.java"))
    if recorded_java.labels_met(racebench, labels, way) != {"shared"}:
        raise Wrong("the race is not found")


def judge_disk(racebench: str) -> None:
    """With a full disk the program goes on, and the trace says that it is not whole. Its beginning has the race."""
    compile_broken()

    def limit() -> None:
        resource.setrlimit(resource.RLIMIT_FSIZE, (SMALL_DISK, SMALL_DISK))

    command = [recorded_java.RECORD, "-cp", ".", "Broken", "ends", "200000"]
    recorded_java.ran(recorded_java.RECORD, "--jar")
    status, trace, text = recorded_java.ran(*command, preexec_fn=limit)
    lines = trace.splitlines()
    if status != 4 or not re.fullmatch(r"recording\|end\(LEFT OUT 0 FROM \d+: DISK\)\|", lines[-1]):
        raise Wrong(f"status {status}, and the trace ends with {lines[-1:]}: {text[-600:]}")
    if "the end\n" not in text or "the disk is full" not in text or len(lines) < 10000:
        raise Wrong(f"{len(lines)} lines, and record/java says: {text[-600:]}")
    if recorded_java.ran(*command[:1], "--partial", *command[1:], preexec_fn=limit)[0] != 0:
        raise Wrong("--partial does not accept the recording")
    with open("trace.std", "w", encoding="utf-8") as file:
        file.write("".join(f"{line}\n" for line in lines[:1000]))
    if not list(recorded_java.races(racebench)):
        raise Wrong("the race is not found")


def judge_threads(way: str) -> None:
    """A trace has threads without a limit; with --max it ends before the 257th."""
    compile_broken()
    lines, text = recorded_java.recorded("--raw", "kept.raw", "-cp", ".", "Broken", way, str(THREADS))
    threads = {line.split("|")[0] for line in lines[1:-1]}
    if len(threads) != THREADS + 2 or lines[-1] != WHOLE or "triage --windows" not in text:
        raise Wrong(f"{len(threads)} threads, and it ends with {lines[-1:]}: {text[-600:]}")
    short, text = recorded_java.recorded("--max", "1000000", "--read", "kept.raw", wanted=[4])
    left = re.fullmatch(r"recording\|end\(LEFT OUT (\d+) FROM \d+: THREADS\)\|", short[-1])
    if len({line.split("|")[0] for line in short[1:-1]}) > 256 or not left or int(left[1]) < THREADS - 256:
        raise Wrong(f"with --max: {len(short)} lines, and it ends with {short[-1:]}")


def judge_for(racebench: str) -> None:
    """With --for the program goes on unrecorded, also threads that wait for a lock then. The trace is a legal one."""
    compile_broken()
    lines, text = recorded_java.recorded("--for", "0.2", "-cp", ".", "Broken", "held", "1", wanted=[4])
    if not re.fullmatch(r"recording\|end\(LEFT OUT 0 FROM \d+: FOR\)\|", lines[-1]) or "the end\n" not in text:
        raise Wrong(f"it ends with {lines[-1:]}: {text[-600:]}")
    status, _, text = recorded_java.ran(racebench, "info", "trace.std")
    if status:
        raise Wrong(f"the trace is refused: {text}")


def places_of(label: str, way: str) -> str:
    """Where Stuck.java has a comment, as a pattern."""
    with open(os.path.join(recorded_java.SOURCES, "Stuck.java"), encoding="utf-8") as file:
        lines = [str(n) for n, line in enumerate(file, start=1) if re.search(rf"// {label} {way}$", line)]
    return rf"Stuck\.java:({'|'.join(lines)})"


def check_deadlock(way: str, threads: int, text: str) -> None:
    """The line of a deadlock: each thread waits for a lock that the next one has."""
    where = "monitors" if way in ("three", "pool") else way
    waits, since = places_of("WAITS", where), places_of("HOLDS", where)
    said = re.search(r"^\S+: the program is in a deadlock: (.*)$", text, re.MULTILINE)
    for number, one in enumerate(said[1].split("; ") if said else [], start=1):
        holder = rf"T{number % threads + 1}"
        lock = r"heap:Stuck\.java:\d+ (Object|ReentrantLock|ReentrantReadWriteLock)(#T0\.\d)?"
        if not re.fullmatch(rf"T{number} waits at {waits} for {lock}, which {holder} holds since {since}", one):
            raise Wrong(f"{way}: a line has another form: {one}")
    if not said or said[1].count("; ") != threads - 1:
        raise Wrong(f"{way}: there is no line of {threads} threads: {text[-600:]}")


def judge_deadlock(racebench: str) -> None:
    """A program in a deadlock is ended, with a line that says who waits for whom; the trace has what came before."""
    recorded_java.compiled(os.path.join(recorded_java.SOURCES, "Stuck.java"))
    for way, threads in (("monitors", 2), ("three", 3), ("locks", 2), ("upgrade", 2), ("notified", 2), ("pool", 2)):
        lines, text = recorded_java.recorded("--partial", "-cp", ".", "Stuck", way, wanted=[5])
        check_deadlock(way, threads, text)
        if lines[-1] != f"recording|end(LEFT OUT 0 FROM {len(lines) - 2}: DEADLOCK)|" or "program ended" in text:
            raise Wrong(f"{way}: the trace ends with {lines[-1]}: {text[-600:]}")
        status, _, text = recorded_java.ran(racebench, "triage", "trace.std")
        if status:
            raise Wrong(f"{way}: the trace is refused: {text}")
    recorded_java.recorded("--status", "-cp", ".", "Stuck", "monitors", wanted=[134])
    lines, text = recorded_java.recorded("-cp", ".", "Stuck", "timed")
    if lines[-1] != WHOLE or "deadlock" in text:
        raise Wrong(f"a lock whose time ran out: {lines[-1]}: {text[-600:]}")


def judge_deadlock_alone(racebench: str) -> None:
    """The agent by itself ends a program in a deadlock, and writes the trace; record/check reports the deadlock."""
    recorded_java.compiled(os.path.join(recorded_java.SOURCES, "Stuck.java"))
    jar = recorded_java.ran(recorded_java.RECORD, "--jar")[1].strip()
    status, _, text = recorded_java.ran("java", f"-javaagent:{jar}=out=alone.std", "-cp", ".", "Stuck", "locks")
    check_deadlock("locks", 2, text)
    with open("alone.std", encoding="utf-8") as file:
        last = file.read().splitlines()[-1]
    if status != 134 or ": DEADLOCK)|" not in last or os.path.exists("alone.std.records"):
        raise Wrong(f"status {status}, and the trace ends with {last}: {text[-600:]}")
    check = os.path.join(os.path.dirname(recorded_java.RECORD), "check")
    command = [check, "--racebench", racebench, "--seeds", "1", "java", "-cp", ".", "Stuck", "locks"]
    status, out, text = recorded_java.ran(*command)
    if status != 5 or not re.search(r"^deadlock: T1 waits at Stuck.java:\d+ for .*: seeds 1$", out, re.MULTILINE):
        raise Wrong(f"record/check: status {status}: {out}{text[-600:]}")


def judge_hang() -> None:
    """A program that hangs without a circle of locks is recorded up to control-C."""
    recorded_java.compiled(os.path.join(recorded_java.SOURCES, "Stuck.java"))
    command = [recorded_java.RECORD, "--status", "-cp", ".", "Stuck", "lost"]
    with tempfile.TemporaryFile("w+") as out:
        with subprocess.Popen(
            command, stdout=out, stderr=subprocess.PIPE, text=True, start_new_session=True
        ) as started:
            assert started.stderr
            if started.stderr.readline() != "waits\n":
                raise Wrong("the program did not come to its wait")
            time.sleep(A_WHILE)
            if started.poll() is not None:
                raise Wrong("the program was ended")
            os.killpg(started.pid, signal.SIGINT)
            rest = started.stderr.read()
            status = started.wait(recorded_java.PATIENCE)
        out.seek(0)
        lines = out.read().splitlines()
    if status != 130 or not any("|fork(T2)|" in line for line in lines) or lines[-1] != WHOLE:
        raise Wrong(f"status {status}, and the trace is {lines[-8:]}: {rest[-600:]}")


def without_marks(lines: list[str]) -> list[str]:
    return [line for line in lines if not line.startswith("recording|")]


def judge_options() -> None:
    """Options leave out what they say, and the mark says it too; a seed is a run."""
    compile_broken()
    call = ["-cp", ".", "Broken", "ends", "50"]
    whole, _ = recorded_java.recorded("--raw", "kept.raw", "--seed", "3", *call)
    events = without_marks(whole)
    if without_marks(recorded_java.recorded("--seed", "3", *call)[0]) != events:
        raise Wrong("a second run with the same seed is another")
    if without_marks(recorded_java.recorded("--read", "kept.raw")[0]) != events:
        raise Wrong("--read makes another trace of the records")
    for option, wanted, mark in (  # each with the lines that it leaves, and the mark
        (["--max", "20"], events[:20], f"LEFT OUT {len(events) - 20} FROM 20: MAX"),
        (["--from", "30"], events[30:], "LEFT OUT 30 FROM 0: FROM"),
        (["--frames", "0"], [line.split(" < ")[0] for line in events], "WHOLE"),
        (["--only", "Broken.java"], events, "WHOLE"),
        (["--only", "Other.java"], [line for line in events if not re.search(r"\|[rw]\((?!sync:)", line)], "ONLY"),
    ):
        lines, _ = recorded_java.recorded(*option, "--partial", "--read", "kept.raw")
        if without_marks(lines) != wanted or f"{mark})|" not in lines[-1]:
            raise Wrong(f"{option}: {len(lines)} lines, and it ends with {lines[-1:]}")


def judge_refused() -> None:
    """Wrong options and missing tools are refused with one line."""
    refused: list[tuple[list[str], str]] = [
        (["--no-free", "-cp", ".", "Main"], "a Java program frees nothing"),
        (["--all", "Main"], "--all is not there for Java: the trace leaves out no access"),
        (["--ordered", "to", "Main"], "--ordered is not there for Java: the trace leaves out no access"),
        (["--values", "to", "Main"], "--values is not there for Java: it is for C, C++ and Rust programs"),
        (["--names", "raw", "Main"], "variables have the names of the source"),
        (["--slots", "Main"], "it is for Go programs"),
        (["--frames", "9", "Main"], "--frames is from 0 to 8"),
        ([], "say what java runs"),
        (["--read", "kept.raw", "Main"], "--jar and --read run nothing"),
    ]
    for arguments, text in refused:
        status, out, errors = recorded_java.ran(recorded_java.RECORD, *arguments)
        if status != 2 or out or text not in errors.splitlines()[-1]:
            raise Wrong(f"{arguments}: status {status}: {errors[-300:]}")
    os.mkdir("bin")
    for name in ("env", "python3"):
        os.symlink(os.path.realpath(f"/usr/bin/{name}"), f"bin/{name}")
    lacking: dict[str, Any] = {
        "env": {"PATH": os.path.abspath("bin"), "XDG_CACHE_HOME": os.getcwd(), "HOME": os.getcwd()}
    }
    status, out, errors = recorded_java.ran(recorded_java.RECORD, "-cp", ".", "Main", **lacking)
    if status != 1 or out or errors != "record/java: there is no program javac: install openjdk-17-jdk-headless\n":
        raise Wrong(f"without a JDK: status {status}: {errors[-300:]}")
    with open("none.raw", "wb") as file:
        file.write(b"no records")
    status, out, errors = recorded_java.ran(recorded_java.RECORD, "--read", "none.raw")
    if status != 1 or "has no records" not in errors:
        raise Wrong(f"a file without records: status {status}: {out[:100]}{errors[-300:]}")


def judge_agent() -> None:
    """The agent by itself writes the trace as the JVM ends; if that is killed, the records are left."""
    compile_broken()
    jar = recorded_java.ran(recorded_java.RECORD, "--jar")[1].strip()
    agent = f"-javaagent:{jar}=out=alone.std,seed=3"
    status, _, text = recorded_java.ran("java", agent, "-cp", ".", "Broken", "throws", "8")
    with open("alone.std", encoding="utf-8") as file:
        lines = file.read().splitlines()
    if status != 1 or lines[0] != BEGIN or lines[-1] != WHOLE or os.path.exists("alone.std.records"):
        raise Wrong(f"status {status}, and the trace ends with {lines[-1:]}: {text[-600:]}")
    status, _, text = recorded_java.ran("java", agent.replace("alone", "killed"), "-cp", ".", "Broken", "kills", "8")
    if status != -signal.SIGKILL or os.path.exists("killed.std"):
        raise Wrong(f"status {status}: {text[-600:]}")
    again, _ = recorded_java.recorded("--read", "killed.std.records")
    if without_marks(again) != without_marks(lines):
        raise Wrong("the trace of the records that were left is another")
    status, _, text = recorded_java.ran("java", f"-javaagent:{jar}=sed=3", "-cp", ".", "Broken", "throws", "8")
    if status != 2 or text != "planecarmine: no option sed; there are out, raw, seed, yield, room, for\n":
        raise Wrong(f"a wrong option of the agent: status {status}: {text[-600:]}")


def judge_check(racebench: str) -> None:
    """record/check records, follows and reports a Java program as one of C, and so does record/run record it."""
    recorded_java.compiled(os.path.join(recorded_java.SOURCES, "Hidden.java"))
    command = ["java", "-cp", ".", "Hidden"]
    recorded_ci.judge_command(racebench, command, "Hidden.java", "1 (matter|are the same)")
    run = os.path.join(os.path.dirname(recorded_java.RECORD), "run")
    lines, _ = recorded_java.recorded("--seed", "2", *command[1:])
    status, trace, text = recorded_java.ran(run, "--seed", "2", *command)
    if status or trace.splitlines() != lines:
        raise Wrong(f"record/run java: status {status}: {text[-600:]}")
    status, trace, text = recorded_java.ran(run, "--no-free", *command)
    if status != 2 or trace or "--no-free is not there for Java: a Java program frees nothing" not in text:
        raise Wrong(f"record/run --no-free java: status {status}: {text[-600:]}")


def cases(racebench: str) -> list[recorded_java.Case]:
    found: list[recorded_java.Case] = [
        (f"java: a program that {way}", judge_end, (racebench, way, status, cause)) for way, status, cause in ENDS
    ]
    found.append(("java: a full disk", judge_disk, (racebench,)))
    found.append((f"java: {THREADS} threads at once", judge_threads, ("threads",)))
    found.append((f"java: {THREADS} threads in turns", judge_threads, ("turns",)))
    found.append(("java: --for", judge_for, (racebench,)))
    found.append(("java: a deadlock", judge_deadlock, (racebench,)))
    found.append(("java: a deadlock with the agent alone", judge_deadlock_alone, (racebench,)))
    found.append(("java: a program that hangs", judge_hang, ()))
    found.append(("java: options", judge_options, ()))
    found.append(("java: what is refused", judge_refused, ()))
    found.append(("java: the agent alone", judge_agent, ()))
    found.append(("java: record/check", judge_check, (racebench,)))
    return found
