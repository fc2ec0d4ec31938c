#!/usr/bin/env python3
"""Judges what `triage` shows of its progress where standard error is a terminal: a line that is written anew while it
works, and wiped out before anything else is written.

The trace is one whose work takes long enough, which is measured, since no size would do on every machine. What comes
on standard output and the status must be those of a run whose standard error is a pipe, and nothing may come
through that pipe, or lines with `--progress`. What is quick shows nothing. Takes the program's path. Says what is
wrong, if something is, and ends with status 1 then.
"""

import os
import re
import subprocess
import sys
import time
import tty

if __name__ == "__main__":
    sys.dont_write_bytecode = True
import judging
import running
from judging import Wrong

# How many seconds the work takes at least where lines have to come, how many pairs of places are tried first, and how
# many at most.
LEAST_SECONDS = 1.8
FIRST_PAIRS = 20
MOST_PAIRS = 64_000
# Events that come before the pairs, so that each search goes over many.
OTHERS = 60_000
# How many lines that tell of more pairs of places have to come then; how long nothing comes before the first line; and
# how often more work is tried where fewer lines come: a busy machine may hold a run up before it looks at its first
# pair.
LEAST_LINES = 2
QUIET_SECONDS = 0.9
TRIES = 6
SHOWN = re.compile(r"\r(?:events (\d+)|pairs of places (\d+) of (\d+))")
WIPED = re.compile(r"\r *\r")


def trace(pairs: int) -> tuple[str, int]:
    """This many pairs of places, each shown by critical sections in another order alone, which is searched for."""
    lines = [f"T{i % 2}|r(y)|others" for i in range(OTHERS)]
    for i in range(pairs):
        lines += [
            f"T0|acq(l)|a{i}",
            f"T0|w(x{i})|a{i}",
            f"T0|rel(l)|a{i}",
            f"T1|acq(l)|b{i}",
            f"T1|rel(l)|b{i}",
            f"T1|w(x{i})|b{i}",
        ]
    return "".join(line + "\n" for line in lines), len(lines)


class TooFew(Exception):
    """A run that took long told of too few steps."""


class Shown:
    """A run whose standard error is a terminal; without a named file its standard output is the same terminal."""

    def __init__(self, program: str, arguments: list[str], output: str | None) -> None:
        mine, theirs = os.openpty()
        tty.setraw(theirs)
        with open(output, "wb") if output else os.fdopen(os.dup(theirs), "wb") as out:
            start = time.monotonic()
            environment = {name: value for name, value in os.environ.items() if name != "RACEBENCH_NOTES"}
            run = subprocess.Popen(
                [program, *arguments], stdin=subprocess.DEVNULL, stdout=out, stderr=theirs, env=environment
            )
        os.close(theirs)
        self.quiet = 0.0
        sent = b""
        try:
            while piece := os.read(mine, 65_536):
                self.quiet = self.quiet or time.monotonic() - start
                sent += piece
        except OSError:
            pass  # nobody has the other end any more
        os.close(mine)
        self.status = run.wait()
        self.seconds = time.monotonic() - start
        self.sent = sent.decode("ascii")


def judge_shown(run: Shown, events: int, pairs: int, rest: str = "") -> int:
    """Judges what a terminal was sent: lines of rising numbers, the wiping, and the rest. Answers how many lines told
    of more pairs of places."""
    at, longest, judged, rising = 0, 0, 0, 0
    while line := SHOWN.match(run.sent, at):
        at = line.end()
        longest = max(longest, len(line[0]) - 1)
        if line[1] is not None and (judged or int(line[1]) != events):
            raise Wrong(f"behind {judged} pairs of places, of {events} events, {line[0]!r} was shown")
        if line[2] is not None:
            if not judged <= int(line[2]) <= int(line[3]) or int(line[3]) != pairs:
                raise Wrong(f"behind {judged} of {pairs} pairs of places {line[0]!r} was shown")
            rising += int(line[2]) > judged
            judged = int(line[2])
    wiped = WIPED.match(run.sent, at)
    if longest and (not wiped or len(wiped[0]) - 2 < longest):
        raise Wrong(f"a line of {longest} characters was not wiped out: {run.sent[at : at + 100]!r}")
    at = wiped.end() if wiped and longest else at
    if run.sent[at:] != rest:
        raise Wrong(f"{run.sent[at:][:300]!r} came behind the line, and not {rest[:300]!r}")
    if run.seconds >= LEAST_SECONDS and rising < LEAST_LINES:
        raise TooFew(f"in {run.seconds:.1f} s {rising} lines told of more pairs of places: {run.sent[:300]!r}")
    if longest and run.quiet < QUIET_SECONDS:
        raise Wrong(f"something was shown after {run.quiet:.2f} s")
    return rising


def judge_status(arguments: list[str], status: int, wanted: int) -> None:
    if status != wanted:
        raise Wrong(f"{arguments}: status {status} beside a terminal, and not {wanted}")


def judge_output(arguments: list[str], wanted: bytes) -> None:
    """Compares standard output with that of a run without a terminal."""
    with open("out", "rb") as out:
        if out.read() != wanted:
            raise Wrong(f"{arguments}: another standard output beside a terminal")


def judge_quick(program: str) -> None:
    """What is quick shows nothing, whether it ends well or with a fault."""
    running.write("quick", "T1|w(x)|1\nT2|w(x)|2\n")
    for arguments in (["triage", "quick"], ["triage", "none"]):
        status, out, err = running.ended(program, arguments, {"RACEBENCH_NOTES": "1"})
        run = Shown(program, arguments, "out")
        judge_status(arguments, run.status, status)
        judge_output(arguments, out)
        if run.seconds < QUIET_SECONDS and run.sent != err.decode("ascii"):
            raise Wrong(f"{arguments} shows {run.sent!r}, and writes {err!r} where no terminal is")


def judge_windows(program: str) -> None:
    """With `--windows` a terminal gets a line for each window at once, as a pipe does with `--progress`."""
    running.write("quick", "T1|w(x)|1\nT2|w(x)|2\nT1|w(y)|3\nT2|w(y)|4\n")
    arguments = ["triage", "quick", "--windows=2"]
    status, out, err = running.ended(program, [*arguments, "--progress"])
    run = Shown(program, arguments, "out")
    judge_status(arguments, run.status, status)
    judge_output(arguments, out)
    if len(err.splitlines()) != 3 or run.sent != err.decode("ascii"):
        raise Wrong(f"{arguments} shows {run.sent!r}, and writes {err!r} with --progress")


def judge_requested(program: str, events: int, pairs: int, wanted: bytes) -> None:
    """With `--progress` a pipe is sent lines of rising numbers, and standard output is as without it."""
    status, out, err = running.ended(program, ["triage", "trace", "--progress"])
    if (status, out) != (0, wanted):
        raise Wrong(f"status {status} with --progress, or another standard output")
    lines = err.decode("ascii").splitlines()
    found = [re.fullmatch(r"events (\d+)|pairs of places (\d+) of (\d+)", line) for line in lines]
    matches = [line for line in found if line]
    if len(matches) < len(lines):
        raise Wrong(f"with --progress a pipe is sent {err[:300]!r}")
    if len(matches) < LEAST_LINES:
        raise TooFew(f"with --progress a pipe is sent {err[:300]!r} only")
    counts = [int(line[2]) for line in matches if line[2]]
    if counts != sorted(counts) or any(
        int(line[1] or events) != events or int(line[3] or pairs) != pairs for line in matches
    ):
        raise Wrong(f"with --progress other numbers are sent: {err[:300]!r}")


def long_run(program: str, pairs: int) -> tuple[Shown, int, int]:
    """A run that takes long on this many pairs of places or more, and how many events and pairs its trace has."""
    while True:
        text, events = trace(pairs)
        running.write("trace", text)
        run = Shown(program, ["triage", "trace"], "out")
        judge_status(["triage", "trace"], run.status, 0)
        if run.seconds >= LEAST_SECONDS:
            return run, events, pairs
        if pairs == MOST_PAIRS:
            raise Wrong(f"the work on {pairs} pairs of places took {run.seconds:.1f} s only")
        pairs = min(int(pairs * 1.2 * LEAST_SECONDS / run.seconds) + 1, MOST_PAIRS)


def judge_long(program: str) -> tuple[int, int]:
    """Judges what takes long, and more work where that told of too little; a machine that is busy gets that chance."""
    pairs, why = FIRST_PAIRS, TooFew()
    for _ in range(TRIES):
        run, events, pairs = long_run(program, pairs)
        try:
            return judge_lines(program, run, events, pairs), pairs
        except TooFew as what:
            pairs, why = min(2 * pairs, MOST_PAIRS), what
    raise Wrong(f"{why}")


def judge_lines(program: str, run: Shown, events: int, pairs: int) -> int:
    """What takes long shows lines: beside a file, by a worker with all on one terminal, and before a fault. Answers
    how many told of more."""
    status, out, err = running.ended(program, ["triage", "trace"])
    if status != 0 or err:
        raise Wrong(f"status {status} where no terminal is, and on standard error {err[:300]!r}")
    judge_output(["triage", "trace"], out)
    judge_requested(program, events, pairs, out)
    lines = judge_shown(run, events, pairs)
    arguments = ["triage", "trace", "--workers", "1"]
    run = Shown(program, arguments, None)
    judge_status(arguments, run.status, 0)
    lines += judge_shown(run, events, pairs, out.decode("ascii"))
    arguments = ["triage", "trace"]
    run = Shown(program, arguments, "/dev/full")
    judge_status(arguments, run.status, 1)
    note = "note: standard output cannot be written: the disk is full\n"
    return lines + judge_shown(run, events, pairs, f"racebench: write failed\n{note}")


def judged(run: judging.Run) -> str:
    judge_quick(run.program)
    judge_windows(run.program)
    run.tally["lines"], pairs = judge_long(run.program)
    return (
        f"progress: {run.tally['lines']} lines told of {pairs} pairs of places in three runs, each was wiped out, "
        f"and nothing came where no terminal is"
    )


if __name__ == "__main__":
    sys.exit(judging.main("progress", judged, ["lines"]))
