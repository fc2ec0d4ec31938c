"""Runs the program for the judges, in the folder that they are in, and takes what `threads` printed apart."""

import os
import pathlib
import shutil
import subprocess
from collections.abc import Sequence

from judging import Wrong, texts_of

# How long a run may take that takes a moment, in seconds: a machine may be slow and busy.
PATIENCE = 900


def write(name: str, text: str) -> None:
    with open(name, "w", encoding="utf-8") as out:
        out.write(text)


def ended(program: str, arguments: Sequence[str], more: dict[str, str] | None = None) -> tuple[int, bytes, bytes]:
    """The status with which the program ends, and what it writes on standard output and on standard error; `more` is
    added to its environment."""
    done = subprocess.run(
        [program, *arguments], capture_output=True, timeout=PATIENCE, check=False, env={**os.environ, **(more or {})}
    )
    return done.returncode, done.stdout, done.stderr


def printed(program: str, arguments: Sequence[str]) -> bytes:
    """What the program writes, where it ends well."""
    status, out, err = ended(program, arguments)
    if status != 0 or err:
        raise Wrong(f"{arguments[0]}: status {status}: {err.decode()[:300]}{texts_of(arguments[1:])}")
    return out


def library(made: str, *sources: str) -> str:
    """The library at the path `made` for LD_PRELOAD, which is made of these C sources."""
    kit = pathlib.Path(
        subprocess.run(["rt", "doc"], capture_output=True, text=True, check=False).stdout.strip() or "/"
    ).parent
    compiler = shutil.which("cc") or shutil.which("clang") or kit / "toolchain/bin/clang"
    subprocess.run([compiler, "-O2", "-shared", "-fPIC", "-o", made, *sources], check=True)
    return made


# What `threads` is told beside its files: that each thread may queue for its turn at any time, so that clients change
# at nearly each call; and nothing, as users run it, where one thread makes many calls before another comes.
NO_DOOR = ["--room=32"]
BEST_ROOM: list[str] = []


def parts_of(lines: list[str], lengths: list[int]) -> tuple[list[list[str]], list[tuple[int, str]]]:
    """The lines of each client, who made this many calls, and the log as pairs of a client and a call."""
    at = 0
    answers = []
    for client, calls in enumerate(lengths, start=1):
        if lines[at : at + 1] != [f"client {client}"]:
            raise Wrong(f"line {at + 1} is not that of client {client}: {lines[at : at + 1]}")
        answers.append(lines[at + 1 : at + 1 + calls])
        at += 1 + calls
    if lines[at : at + 1] != [f"log {len(lines) - at - 1}"]:
        raise Wrong(f"line {at + 1} does not count the log: {lines[at : at + 1]}")
    log = []
    for number, line in enumerate(lines[at + 1 :]):
        entry, whose, call = line.split(" ", 2)
        if int(entry) != number:
            raise Wrong(f"entry {number} of the log has another number: {line}")
        log.append((int(whose), call))
    return answers, log
