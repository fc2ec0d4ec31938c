"""Following a Java program: how java runs it by a plan, and what the agent writes of that beside the plan."""
from __future__ import annotations

import contextlib
import os
import struct
import tempfile
from typing import IO, Any, Iterator, NamedTuple

import java_agent
import running
from plans import MOST_REQUESTS

# The raw file of jvm/src/planecarmine/Store.java: chunks of names begin so. An entry has its size, kind and numbers.
CHUNK, HEAD, MAGIC, NAMES = 1 << 20, 32, 0x4A434C50, 2
BEGIN, ENTRY = struct.Struct("<II"), struct.Struct("<IIiii")
# With these java begins sooner. The collector is left to who chooses one.
SOONER, COLLECTOR = "-XX:TieredStopAtLevel=1", "-XX:+UseSerialGC"
# Kinds of names, as jvm/src/planecarmine/Kinds.java has them.
FACT, FRAME, ACCESSED, VALUE, PLACE = 6, 10, 11, 12, 13


class Shown(NamedTuple):
    """What the agent writes of a thread right before its access: its calls, what it accesses, and the value. The value
    is that before both accesses and that after both, if it can be read."""

    calls: list[str]
    accessed: str
    before: str | None
    after: str | None


class Report(NamedTuple):
    """What the agent wrote: the threads at their accesses or their locks, the place where the run departed, a class
    that is another one, and whether it ended the program in a deadlock."""

    shown: list[Shown]
    place: str
    other_class: str
    is_deadlock: bool


def entries(file: IO[bytes]) -> Iterator[tuple[int, int, int, str]]:
    """The names of a raw file: of each the kind, two numbers and the text."""
    start = 0
    while True:
        file.seek(start)
        begin = file.read(BEGIN.size)
        if len(begin) < BEGIN.size or BEGIN.unpack(begin)[0] != MAGIC:
            return
        if BEGIN.unpack(begin)[1] == NAMES:
            file.seek(start)
            yield from entries_of(file.read(CHUNK))
        start += CHUNK


def entries_of(chunk: bytes) -> Iterator[tuple[int, int, int, str]]:
    at = HEAD
    while at + ENTRY.size <= len(chunk):
        size, kind, first, second, _ = ENTRY.unpack_from(chunk, at)
        if size < ENTRY.size:
            return
        yield kind, first, second, chunk[at + ENTRY.size : at + size].decode("utf-8", "replace")
        at += size


def report_of(file: IO[bytes]) -> Report:
    """What the agent wrote of a followed run."""
    calls: list[list[str]] = [[] for _ in range(MOST_REQUESTS)]
    accessed, place, other, is_deadlock = [""] * MOST_REQUESTS, "", "", False
    values: dict[tuple[int, int], str] = {}
    for kind, first, second, text in entries(file):
        if kind == FRAME:
            calls[first].append(text)
        elif kind == ACCESSED:
            accessed[first] = text
        elif kind == VALUE:
            values[first, second] = text
        elif kind == PLACE:
            place = text
        elif kind == FACT and text.startswith("other "):
            other = text[len("other ") :]
        elif kind == FACT and text == "deadlock":
            is_deadlock = True
    shown = [Shown(calls[k], accessed[k], values.get((k, 0)), values.get((k, 1))) for k in range(MOST_REQUESTS)]
    return Report(shown, place, other, is_deadlock)


@contextlib.contextmanager
def command_for(fields: dict[str, Any], arguments: list[str], seed: int, paths: list[str]) -> Iterator[list[str]]:
    """What runs a program, as java has it in `arguments`, with its raw file and its plan at these paths."""
    with tempfile.TemporaryDirectory(prefix="record") as folder:
        try:
            jar, java = java_agent.jar_path(folder), java_agent.tool("java")
        except java_agent.Unbuildable as why:
            raise running.Unrunnable(str(why)) from None
        with tempfile.NamedTemporaryFile("w", prefix="record", dir=folder, encoding="utf-8") as classes:
            classes.writelines(f"{name} {digest}\n" for name, digest in fields["java"]["classes"].items())
            classes.flush()
            agent_options = {"raw": paths[0], "follow": paths[1], "classes": classes.name}
            agent_options.update(seed=str(seed), **{"yield": str(fields["yield"])})
            agent = f"-javaagent:{jar}={','.join('='.join(one) for one in agent_options.items())}"
            yield [java, *sooner(arguments), agent, *arguments]


def sooner(arguments: list[str]) -> list[str]:
    """The options with which java begins sooner, except those that the program's own options forbid."""
    others = [
        *arguments,
        *os.environ.get("JAVA_TOOL_OPTIONS", "").split(),
        *os.environ.get("JDK_JAVA_OPTIONS", "").split(),
    ]
    chooses = any(word.startswith("-XX:+Use") and word.endswith("GC") for word in others)
    return [SOONER] if chooses else [SOONER, COLLECTOR]
