"""Judges record/java: programs of tests/recorded/java are recorded with ten seeds each, and `triage` must list the
races that their lines say, and no other. Programs by chance with planted races are judged alike. Other cases are about
how a run ends, and about options.

A line that says `RACE` races with the other lines that say so; a word after it tells several races of a program apart.

    recorded_java.py RACEBENCH [TEXT ..]                  only the cases whose names have one of the texts
    recorded_java.py RACEBENCH --planted FIRST COUNT      this many programs with planted races, from a seed on
"""
from __future__ import annotations

import contextlib
import json
import os
import random
import shutil
import subprocess
import sys
import tempfile
from collections.abc import Iterable, Iterator
from typing import Any

import recorded_java_planted
from judging import Wrong

TOP = os.path.dirname(os.path.dirname(os.path.abspath(__file__)))
RECORD = os.path.join(TOP, "record", "java")
SOURCES = os.path.join(TOP, "tests", "recorded", "java")
# How long a command may take, on a machine that does much else.
PATIENCE = 600
SEEDS = range(1, 11)
# The programs, and what each gets.
PLAIN = "Counter Guarded Hidden Published Waiting Locks Checked Abba Pool Collected Queued".split()
CLASSICS = "account airline bubblesort pingpong producers mergesort critical matrix".split()
PROGRAMS: list[tuple[str, list[str]]] = [(name, []) for name in PLAIN]
PROGRAMS += [("Classics", [name, "6"]) for name in CLASSICS]
ASM = ("/usr/share/java/asm.jar", "/usr/share/java/asm-commons.jar")

Case = tuple[str, Any, tuple[Any, ...]]


def missing() -> str | None:
    """What is not here that record/java needs; None if all is."""
    for program in ("java", "javac"):
        if not shutil.which(program):
            return f"there is no program {program}"
    return next((f"there is no file {file}" for file in ASM if not os.path.exists(file)), None)


@contextlib.contextmanager
def folder_of_its_own() -> Iterator[None]:
    """Works in an empty folder."""
    before = os.getcwd()
    with tempfile.TemporaryDirectory() as folder:
        os.chdir(folder)
        try:
            yield
        finally:
            os.chdir(before)


def ran(*command: str, **more: Any) -> tuple[int, str, str]:
    """The status of a command, and what it wrote on standard output and on standard error."""
    try:
        done = subprocess.run(command, capture_output=True, timeout=PATIENCE, check=False, **more)
    except subprocess.TimeoutExpired:
        raise Wrong(f"{' '.join(command)}: does not end") from None
    return done.returncode, done.stdout.decode(errors="replace"), done.stderr.decode(errors="replace")


def compiled(*sources: str) -> None:
    status, _, text = ran("javac", "-g", "-nowarn", "-d", ".", *sources)
    if status:
        raise Wrong(f"{sources} is not compiled: {text[-1500:]}")


def recorded(*arguments: str, wanted: Iterable[int] = (0,)) -> tuple[list[str], str]:
    """The lines of a trace, which is in `trace.std` too, and what record/java says."""
    status, trace, text = ran(RECORD, *arguments)
    if status not in wanted:
        raise Wrong(f"record/java {' '.join(arguments)}: status {status}: {text[-1500:]}")
    with open("trace.std", "w", encoding="utf-8") as file:
        file.write(trace)
    return trace.splitlines(), text


def labels_of(source: str) -> dict[str, set[str]]:
    """The labels of each place of a source that says `RACE`."""
    found = {}
    with open(source, encoding="utf-8") as text:
        for number, line in enumerate(text, start=1):
            if "// RACE" in line:
                found[f"{os.path.basename(source)}:{number}"] = set(line.split("// RACE")[1].split())
    return found


def races(racebench: str) -> Iterator[list[str]]:
    """The two places of each race of a trace."""
    status, printed, text = ran(racebench, "triage", "trace.std", "--json")
    if status:
        raise Wrong(f"the trace is refused: {text[-600:]}")
    for line in printed.splitlines():
        pair = json.loads(line)
        if pair["kind"] == "race":
            yield [access["location"].split(" < ")[0] for access in pair["accesses"]]


def labels_met(racebench: str, labels: dict[str, set[str]], about: str) -> set[str]:
    """The labels of the races of a recording; each race must have one."""
    met = set()
    for pair in races(racebench):
        shared = labels.get(pair[0], set()) & labels.get(pair[1], set())
        if not shared:
            raise Wrong(f"{about}: {' and '.join(pair)} race, and no label says so")
        met |= shared
    return met


def judge_program(racebench: str, name: str, arguments: list[str]) -> None:
    """The races of ten seeds are those that the lines say, and each label is met."""
    source = os.path.join(SOURCES, f"{name}.java")
    compiled(source)
    labels, met = labels_of(source), set()
    wanted = {label for every in labels.values() for label in every if name != "Classics" or label == arguments[0]}
    outputs = set()
    for seed in SEEDS:
        lines, text = recorded("--seed", str(seed), "-cp", ".", *[name, *arguments])
        if lines[0] != "recording|begin(RECORDED)|" or lines[-1] != "recording|end(WHOLE)|":
            raise Wrong(f"seed {seed}: the trace is not whole: {lines[:1]} .. {lines[-1:]}: {text[-600:]}")
        outputs.add("".join(line for line in text.splitlines(True) if not line.startswith("record/java: ")))
        met |= labels_met(racebench, labels, f"seed {seed}")
    plain = ran("java", "-cp", ".", name, *arguments)[1]
    if met != wanted:
        raise Wrong(
            f"the races {sorted(wanted - met)} are not found in ten seeds, or {sorted(met - wanted)} are too many"
        )
    if not wanted and outputs != {plain}:
        raise Wrong(f"it prints {outputs} if it is recorded, and else {plain!r}")


def judge_planted(racebench: str, seed: int, most: int = 8) -> int:
    """The races of a program by chance are those that its lines say; how many there are."""
    with open("Planted.java", "w", encoding="ascii") as file:
        file.write(recorded_java_planted.program(random.Random(seed)))
    compiled("Planted.java")
    labels = labels_of("Planted.java")
    wanted, met = {label for every in labels.values() for label in every}, set()
    for number in range(1, most + 1):
        lines, text = recorded("--seed", str(number), "--status", "-cp", ".", "Planted")
        if "\ndone\n" not in f"\n{text}" or lines[-1] != "recording|end(WHOLE)|":
            raise Wrong(f"program {seed}, seed {number}: {lines[-1:]}: {text[-1500:]}")
        met |= labels_met(racebench, labels, f"program {seed}, seed {number}")
        if met == wanted:
            return len(wanted)
    raise Wrong(f"program {seed}: {sorted(wanted - met)} are not found with {most} seeds")


def cases(racebench: str) -> list[Case]:
    """All cases; none if something is missing, and then a line says so."""
    why = missing()
    if why:
        print(f"record/java: not tested, since {why}")
        return []
    found: list[Case] = []
    for name, arguments in PROGRAMS:
        found.append((" ".join(["java:", name, *arguments]), judge_program, (racebench, name, arguments)))
    for seed in recorded_java_planted.FEW:
        found.append((f"java: planted races, program {seed}", judge_planted, (racebench, seed)))
    return found


def all_cases(racebench: str) -> list[Case]:
    import recorded_java_deadlocks
    import recorded_java_ends
    import recorded_java_followed

    found = cases(racebench)
    for module in (recorded_java_ends, recorded_java_followed, recorded_java_deadlocks):
        found += module.cases(racebench) if found else []
    return found


def main() -> int:
    racebench, texts = os.path.abspath(sys.argv[1]), sys.argv[2:]
    failed = passed = 0
    chosen = all_cases(racebench)
    if texts[:1] == ["--planted"]:
        seeds = range(int(texts[1]), int(texts[1]) + int(texts[2]))
        chosen, texts = [(f"program {seed}", judge_planted, (racebench, seed)) for seed in seeds], []
    for name, judge, about in chosen:
        if texts and not any(text in name for text in texts):
            continue
        with folder_of_its_own():
            try:
                judge(*about)
                passed += 1
            except Wrong as wrong:
                print(f"{name}: {wrong}", flush=True)
                failed += 1
    print(f"{passed} passed, {failed} failed")
    return 1 if failed else 0


if __name__ == "__main__":
    sys.exit(main())
