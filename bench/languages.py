"""What recording takes for programs in Go, Java and Rust, beside the plain program and the language's own detector."""

import argparse
import os
import pathlib
import shutil
import sys
from collections.abc import Callable, Mapping, Sequence
from typing import IO, NamedTuple, Protocol

if (RECORD := pathlib.Path(__file__).resolve().parent.parent / "record").is_dir():
    sys.path.append(str(RECORD))
import java_agent
import printing
import raw
import running
from golang import recording
from rustlang import building

LOADS = RECORD.parent / "bench" / "loads"
JAVA_LOADS = RECORD.parent / "tests" / "recorded" / "java" / "Classics.java"


class Load(NamedTuple):
    """A load: its language, its small size, the size of the aims, and the aim."""

    language: str
    small: int
    full: int
    aim: int
    unit: str


SIZES = {
    "words": Load("go", 1, 20, 2, "times -race"),
    "mergesort": Load("java", 500, 200_000, 20, "times plain"),
    "matrix": Load("java", 20, 300, 20, "times plain"),
    "account": Load("java", 500, 200_000, 20, "times plain"),
    "sums": Load("rust", 500, 100_000, 60, "ns a record"),
}
# The bytes of a record of a Go program and of a Java program.
RECORD_SIZE = 16
HEADS = ("plain", "detector", "recorded", "and decoded", "records", "figure", "aim")


class Ways(NamedTuple):
    """How a load is run: commands, and what is added to their environment."""

    plain: tuple[list[str], dict[str, str]]
    detector: tuple[list[str], dict[str, str]] | None
    recorded: list[str]
    more: dict[str, str]
    file: str
    whole: list[str]
    # Counts the records of a file.
    records_of: Callable[[str], int]


class Measured(Protocol):
    """Runs a command, and returns its processor seconds and what it writes on standard error."""

    def __call__(
        self, command: list[str], statuses: Sequence[int] = (0,), out: IO[bytes] | None = None
    ) -> tuple[float, str]:
        ...


def go_ways(name: str, size: str, measured: Measured) -> Ways:
    source = str(LOADS / f"{name}.go")
    measured(["go", "build", "-o", "plain", source])
    measured(["go", "build", "-race", "-o", "watched", source])
    measured([str(RECORD / "go"), "build", "-o", "recorded", source])
    options = argparse.Namespace(room=recording.MOST_ROOM, seed=1, **{"yield": 40})
    log = os.path.abspath("records")
    ours = recording.surroundings(options, log)
    more = {key: value for key, value in ours.items() if os.environ.get(key) != value}
    one = {"GOMAXPROCS": "1"}

    def records_of(path: str) -> int:
        with open(path, "rb") as file:
            return recording.head_of(file)[recording.APPENDED] // RECORD_SIZE

    whole = [str(RECORD / "run"), "--partial", "./recorded", size]
    return Ways(
        (["./plain", size], one), (["./watched", size], one), ["./recorded", size], more, log, whole, records_of
    )


def java_ways(name: str, size: str, measured: Measured) -> Ways:
    measured(["javac", "-g", "-nowarn", "-d", ".", str(JAVA_LOADS)])
    words, log = ["-cp", ".", "Classics", name, size], os.path.abspath("records")
    agent = f"-javaagent:{java_agent.jar_path('.')}=raw={log},seed=1"
    whole = [str(RECORD / "java"), "--partial", *words]

    def records_of(path: str) -> int:
        return os.path.getsize(path) // RECORD_SIZE

    return Ways((["java", *words], {}), None, ["java", agent, *words], {}, log, whole, records_of)


def rust_ways(name: str, size: str, measured: Measured) -> Ways:
    rust = building.found()
    source, flags = str(LOADS / f"{name}.rs"), ["--edition", "2021", "-Copt-level=1", "-g"]
    measured([rust.rustc, *flags, source, "-o", "plain"])
    measured([str(RECORD / "rustc"), *flags, source, "-o", "recorded"])
    log = os.path.abspath("records")
    ours = running.environment(log, 1, 40, printing.MOST_ROOM)
    more = {key: value for key, value in ours.items() if os.environ.get(key) != value}

    def records_of(path: str) -> int:
        with open(path, "rb") as file:
            return int(raw.numbers_of(file).kept)

    whole = [str(RECORD / "run"), "--partial", "./recorded", size]
    return Ways((["./plain", size], {}), None, ["./recorded", size], more, log, whole, records_of)


WAYS = {"go": go_ways, "java": java_ways, "rust": rust_ways}


def least(
    measured: Measured, runs: int, command: list[str], more: Mapping[str, str], file: str | None = None
) -> float:
    """The least processor seconds of several runs; each begins with an empty file of records."""
    found = []
    for _ in range(runs):
        if file:
            with open(file, "wb"):
                pass
        found.append(measured(["env", *(f"{key}={value}" for key, value in more.items()), *command], (0, 66))[0])
    return min(found)


def figure_of(load: Load, plain: float, detector: float | None, recorded: float, records: int) -> float:
    if load.unit == "times -race":
        assert detector is not None
        return recorded / detector
    return recorded / plain if load.unit == "times plain" else 1e9 * (recorded - plain) / records


def row_of(name: str, size: int, runs: int, measured: Measured) -> str:
    """The line of a load."""
    load = SIZES[name]
    ways = WAYS[load.language](name, str(size), measured)
    plain = least(measured, runs, *ways.plain)
    detector = least(measured, runs, *ways.detector) if ways.detector else None
    recorded = least(measured, runs, ways.recorded, ways.more, ways.file)
    records = ways.records_of(ways.file)
    os.unlink(ways.file)
    with open("trace.std", "wb") as out:
        whole, _ = measured(ways.whole, (0,), out)
    figure = figure_of(load, plain, detector, recorded, records)
    seconds = [f"{each:10.2f} s" if each is not None else f"{'':>12}" for each in (plain, detector, recorded, whole)]
    texts = [f"{records:12}", f"{figure:12.1f}", f"{load.aim:>6} {load.unit}"]
    return f"{f'{name} {size}':18}" + "".join([*seconds, *texts])


def heads() -> str:
    return f"{'load':18}" + "".join(f"{head:>12}" for head in HEADS)


def why_left_out(name: str) -> str:
    """Why a load can't be measured here, in words; empty if it can."""
    language = SIZES[name].language
    for program in {"go": ["go"], "java": ["java", "javac"]}.get(language, []):
        if not shutil.which(program):
            return f"there is no {program}"
    if language != "rust":
        return ""
    try:
        is_there = building.is_compiled(building.found())
    except building.NoRust as why:
        return str(why)
    return "" if is_there else "the library of Rust is not compiled with hooks yet, which record/rustc does once"
