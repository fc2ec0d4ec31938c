"""Runs the program with each call of a kind failing in turn, by tools/refuse.c and tools/disk.c. It judges what the
program writes, and the log that a session leaves.

Each run has to write what is wanted, or to end with the fault's status and text after a beginning of it, and to write
nothing else. Standard error may have several messages: those before the fault are as the case wants them.
  an allocation    `out of memory`; in a thread or a session the call's line may say so, and the others go on; beside
                   workers one slice may not be proposed, whose worker ran out of memory; or `no thread`, if the system
                   had no memory to start one; or only notes are missing, as below; or at status 4 the line that
                   says why
  a read, a file   `read failed` and nothing on standard output, or in a session the answers before it (there also
                   `write failed`, of a file that is to be made); or only notes are missing or say less, for which a
                   file is read once more
  a write          `write failed`; or only standard error is cut, if one of its messages could not be written
  a thread         what is wanted, since another thread makes the calls of such a script; or `no thread` with
                   `--workers`
  a write at a place, a cut, a sync, a lock, a new name of a session's log: `write failed`, or `read failed` if the lock
                   is not had; never what is wanted, except for a write of one byte that cannot be cut
A call that is interrupted and one that moves a single byte change nothing.

The log that a session leaves has the lines from before and those of the calls that were answered, and no others. Only
if a write failed may it have those of the turn at work too, all or none. So it is for each of the calls.
"""

from __future__ import annotations

import os
import pathlib
import re
import subprocess
from collections import Counter
from collections.abc import Iterable, Iterator, Sequence
from typing import NamedTuple

import running
from disk import HEAD, kept_lines
from judging import Wrong

TOP = pathlib.Path(__file__).resolve().parent.parent
# The kinds of calls, and how they fail.
WAYS = [
    ("memory", "error"),
    ("read", "error"),
    ("read", "interrupted"),
    ("read", "short"),
    ("open", "error"),
    ("thread", "error"),
    ("write", "error"),
    ("write", "interrupted"),
    ("write", "short"),
    ("write", "nothing"),
    ("write", "cut"),
]
# Those of a session's log alone.
DISK_WAYS = [
    ("pwrite", "error"),
    ("pwrite", "interrupted"),
    ("pwrite", "short"),
    ("pwrite", "nothing"),
    ("pwrite", "cut"),
    ("ftruncate", "error"),
    ("ftruncate", "interrupted"),
    ("fsync", "error"),
    ("fsync", "interrupted"),
    ("flock", "error"),
    ("link", "error"),
]
# How a message of the program begins; it may be its own write.
NAME = b"racebench: "
# How long the runs of one sweep may take, in seconds.
LONGEST = 3600

# A kind of calls, and how they fail.
Way = tuple[str, str]


class Run(NamedTuple):
    """How a run ended: its status or, below 0, its signal; whether it met the call that fails; what it wrote; and the
    file that it left, if there is one."""

    status: int
    met: bool
    out: bytes
    err: bytes
    left: bytes | None


class Wanted(NamedTuple):
    """What is wanted, and whether scripts run in threads, whether beside workers, and whether a session answers."""

    status: int
    out: bytes
    err: bytes
    in_threads: bool
    has_workers: bool
    in_session: bool


class Log(NamedTuple):
    """A session's log: its file, the bytes of that before and as the case leaves it, or None; the client of each line,
    if it is known; and the input."""

    name: str
    before: bytes | None
    after: bytes | None
    client: bytes | None
    text: bytes


def library(folder: str) -> pathlib.Path:
    """The library that has calls fail, made in this folder."""
    made = running.library(f"{folder}/refuse.so", str(TOP / "tools/refuse.c"), str(TOP / "tools/disk.c"))
    return pathlib.Path(made)


def runs_of(
    made: pathlib.Path,
    program: str | pathlib.Path,
    arguments: Sequence[str] | Sequence[bytes],
    stdin: pathlib.Path,
    here: str,
    way: Way,
    files: pathlib.Path | None,
    left: str | None = None,
) -> Iterator[Run]:
    """The program's runs in the folder `here` with each call of one kind failing in turn; the last one met none. Where
    they change files, each finds those of the folder `files`. With what each left of the file `left`."""
    report = made.parent / "report"
    environment = {
        "REFUSE": way[0],
        "REFUSE_HOW": way[1],
        "REFUSE_IN": str(stdin),
        "REFUSE_EACH": str(report),
        "LD_PRELOAD": str(made),
    }
    if files:
        environment["REFUSE_FILES"] = str(files)
    if left:
        environment["REFUSE_LEFT"] = str(left)
    status = subprocess.run(
        [program, *arguments], cwd=here, env={**os.environ, **environment}, timeout=LONGEST, check=False
    ).returncode
    if status != 0:
        raise Wrong(f"the runs were not made: status {status}")
    rest = report.read_bytes()
    while rest:
        line, rest = rest.split(b"\n", 1)
        ended, met, *sizes = (int(number) for number in line.split(b" "))
        texts = []
        for size in sizes:
            texts.append(rest[: max(size, 0)])
            rest = rest[max(size, 0) :]
        out, err, left_bytes = texts
        yield Run(ended, met == 1, out, err, left_bytes if sizes[2] >= 0 else None)


def says_less(line: bytes, known: bytes) -> bool:
    """Whether the line is the note on a file that was not read once more, and the known note says what it looks
    like."""
    kind = rb"is (?:.+, (?:and not what|not a part: )|not the log of a session: )"
    head = rb"is empty|is a log in another version|has a damaged first line"
    name = re.match(rb"note: (.+?) (?:" + kind + rb"|" + head + rb")", known)
    if not name:
        return False
    less = rb"is not (?:whole, or not )?what `[^`]+` writes|was made with another trace: .+"
    return re.fullmatch(rb"note: " + re.escape(name[1]) + rb" (?:" + less + rb")", line) is not None


def are_but_for_notes(lines: Sequence[bytes], known: Sequence[bytes]) -> bool:
    """Whether the lines are the known ones, in their order, except for notes that are missing or say less."""
    at = 0
    for line in known:
        if lines[at : at + 1] == [line] or any(says_less(printed, line) for printed in lines[at : at + 1]):
            at += 1
        elif not line.startswith(b"note: "):
            return False
    return at == len(lines)


def messages_before(wanted: Wanted) -> list[bytes]:
    """The lines of standard error that the case wants and that another fault may follow: all but its own fault."""
    lines = wanted.err.splitlines()
    if wanted.status in (0, 3):
        return lines
    own = [at for at, line in enumerate(lines) if line.startswith(NAME)]
    return lines[: own[-1]] if own else []


def has_fault(run: Run, text: bytes, wanted: Wanted, behind: bytes = b"") -> bool:
    """Whether the run ended with this fault, after messages that the case wants, and with notes of this beginning alone
    after it."""
    lines = run.err.removesuffix(b"\n").split(b"\n")
    fault = NAME + text
    if run.status != 1 or fault not in lines:
        return False
    at = lines.index(fault)
    known = messages_before(wanted)
    are_wanted = any(are_but_for_notes(lines[:at], known[:end]) for end in range(len(known) + 1))
    return are_wanted and all(behind and note.startswith(behind) for note in lines[at + 1 :])


def without_notes(err: bytes) -> list[bytes]:
    """The lines that are no notes, and no tips of the reader of arguments, which a note may replace."""
    return [line for line in err.splitlines() if line and not line.startswith((b"note: ", b"  tip: "))]


def differs_in_notes(run: Run, wanted: Wanted) -> bool:
    """Whether the run ended as the case wants, except for notes: the variable that turns them off was not read."""
    return (run.status, run.out) == (wanted.status, wanted.out) and without_notes(run.err) == without_notes(wanted.err)


def lacks_a_reason(run: Run, wanted: Wanted) -> bool:
    """Whether the run ended with status 4 as the case wants, except for the line that says why nothing is green."""
    lines, known = run.err.splitlines(), wanted.err.splitlines()
    return (
        run.status == wanted.status == 4
        and run.out == wanted.out
        and any(lines == known[:at] + known[at + 1 :] for at in range(len(known)) if known[at].startswith(NAME))
    )


def lacks_notes(run: Run, wanted: Wanted) -> bool:
    """Whether the run ended as the case wants, except for notes that are missing."""
    lines, known = run.err.splitlines(), wanted.err.splitlines()
    return (run.status, run.out) == (wanted.status, wanted.out) and are_but_for_notes(lines, known)


def lacks_a_write(err: bytes, known: bytes) -> bool:
    """Whether a standard error is the known one, except for one write to it that failed: from some byte up to a line's
    start, to the end of a word there that begins a message, or up to the end."""
    starts = [0, *(at + 1 for at, byte in enumerate(known) if byte == ord("\n"))]
    begun = [start + len(word) for start in starts for word in (NAME, b"note: ") if known.startswith(word, start)]
    for start in [*starts, *begun, len(known)]:
        before, rest = err[: len(err) - len(known[start:])], known[start:]
        if err.endswith(rest) and known[:start].startswith(before):
            return True
    return False


def is_well(run: Run, wanted: Wanted) -> bool:
    """Whether the run ended well, and wrote nothing on standard error but what the case wants of a run that does."""
    return run.status == 0 and (not run.err or (wanted.status == 0 and run.err == wanted.err))


def is_reported_in_threads(run: Run, wanted: Wanted) -> bool:
    """Whether one call's line reports out of memory, and there are lines for as many scripts as there are."""
    lines, known = run.out.splitlines(), wanted.out.splitlines()
    clients = [line for line in lines if line.startswith(b"client ")]
    return (
        is_well(run, wanted)
        and lines.count(b"refused 56 out of memory") == 1
        and len(lines) <= len(known)
        and clients == [line for line in known if line.startswith(b"client ")]
    )


def is_reported_in_session(run: Run, wanted: Wanted) -> bool:
    """Whether one line is answered by out of memory, those before it as the case wants, and each after it by
    something."""
    lines, known = run.out.splitlines(), wanted.out.splitlines()
    at = next((at for at, line in enumerate(lines) if line == b"refused 56 out of memory"), 0)
    is_one = lines.count(b"refused 56 out of memory") == 1
    return is_well(run, wanted) and is_one and len(lines) == len(known) and lines[:at] == known[:at]


def parts_of(out: bytes) -> tuple[list[bytes], list[bytes]] | None:
    """The lines before the log's, and its entries without their numbers, where these and their count are right; or
    None."""
    lines = out.splitlines()
    at = next((at for at, line in enumerate(lines) if line.startswith(b"log ")), len(lines))
    numbers, _, entries = zip(*(line.partition(b" ") for line in lines[at + 1 :])) if lines[at + 1 :] else ((), (), ())
    is_counted = lines[at : at + 1] == [b"log %d" % len(entries)] and list(numbers) == [
        b"%d" % number for number in range(len(entries))
    ]
    return (lines[:at], list(entries)) if is_counted else None


def lacks_a_slice(run: Run, wanted: Wanted) -> bool:
    """Whether the run ended well, and one proposal is missing of the log that the case wants."""
    found, known = parts_of(run.out), parts_of(wanted.out)
    if (run.status, run.err) != (0, b"") or found is None or known is None or found[0] != known[0]:
        return False
    return any(
        b" propose " in entry and found[1] == known[1][:at] + known[1][at + 1 :] for at, entry in enumerate(known[1])
    )


def has_disk_fault(run: Run, wanted: Wanted, kind: str) -> bool:
    """Whether a call on the log's file that failed leads to a message, after the answers of the turns before."""
    is_reported = has_fault(run, b"write failed", wanted, b"note: ") or (
        kind == "flock" and has_fault(run, b"read failed", wanted, b"note: ")
    )
    return is_reported and wanted.out.startswith(run.out)


def is_right(run: Run, wanted: Wanted, kind: str, how: str) -> bool:
    is_wanted = (run.status, run.out, run.err) == wanted[:3]
    if run.met and (kind, how) in DISK_WAYS and how not in ("interrupted", "short"):
        # A write of one byte is never cut.
        return has_disk_fault(run, wanted, kind) or (how == "cut" and is_wanted)
    if is_wanted:
        return True
    if not run.met or how in ("interrupted", "short"):
        return False
    if kind == "thread":
        return wanted.has_workers and has_fault(run, b"no thread", wanted) and not run.out
    if kind == "memory":
        if wanted.has_workers and has_fault(run, b"no thread", wanted) and not run.out:
            return True
        if wanted.in_session and is_reported_in_session(run, wanted):
            return True
        if (wanted.in_threads and is_reported_in_threads(run, wanted)) or (
            wanted.has_workers and lacks_a_slice(run, wanted)
        ):
            return True
        is_reported = (
            has_fault(run, b"out of memory", wanted)
            and wanted.out.startswith(run.out)
            and not (wanted.in_threads and run.out)
        )
        lacks_lines = lacks_notes(run, wanted) or differs_in_notes(run, wanted) or lacks_a_reason(run, wanted)
        return is_reported or (bool(wanted.err) and lacks_lines)
    if kind in ("read", "open"):
        is_begun = wanted.out.startswith(run.out) if wanted.in_session else not run.out
        is_reported = has_fault(run, b"read failed", wanted, b"note: ") or (
            wanted.in_session and kind == "open" and has_fault(run, b"write failed", wanted, b"note: ")
        )
        return (is_reported and is_begun) or (bool(wanted.err) and lacks_notes(run, wanted))
    if run.out != wanted.out:
        return has_fault(run, b"write failed", wanted, b"note: ") and wanted.out.startswith(run.out)
    return run.status == wanted.status and lacks_a_write(run.err, wanted.err)


def turns_of(text: bytes) -> list[list[bytes]]:
    """The lines that are answered at a time: the whole lines of the input; then the last one, if it has no end."""
    whole, feed, last = text.rpartition(b"\n")
    return [lines for lines in (whole.split(b"\n") if feed else [], [last] if last else []) if lines]


def kept_by(log: Log, lines: Iterable[bytes], answers: Sequence[bytes]) -> tuple[list[bytes], int]:
    """The lines that the log gains, the first of which are answered so; and how many answers those are."""
    kept = []
    count = 0
    for line in lines:
        line = line.strip(b" \t\r")
        if not line or count == len(answers):
            continue
        answer = answers[count]
        count += 1
        if log.client is not None:
            line = log.client + b" " + line
        undone = re.fullmatch(rb"\d+: undone (\d+)", answer)
        if undone:
            kept.append(line.split()[0] + b" undo " + undone[1])
        elif re.fullmatch(rb"\d+: (done|proposed \d+)", answer):
            kept.append(line)
    return kept, count


def lines_behind_turns(log: Log, out: bytes) -> list[list[bytes]]:
    """The lines of the log before the first turn, and after each that is answered whole by what was written."""
    states = [kept_lines(log.before) or []]
    answers = out.split(b"\n")[:-1]
    for lines in turns_of(log.text):
        kept, count = kept_by(log, lines, answers)
        if count < sum(1 for line in lines if line.strip(b" \t\r")):
            break
        states.append(states[-1] + kept)
        answers = answers[count:]
    return states


def judge_left(run: Run, wanted: Wanted, kind: str, log: Log) -> None:
    """The log that a run left must be the one from before, and all that was answered, and no part of a turn."""
    if wanted.status != 0:
        if run.left != log.before:
            raise Wrong(f"a session that is refused leaves the log {run.left!r}")
        return
    states = lines_behind_turns(log, run.out)
    now = kept_lines(run.left)
    if run.status == 0 and len(states) == len(turns_of(log.text)) + 1:
        head = (log.before or log.after or run.left or b"")[:HEAD]
        if run.left != head + b"".join(b" " + line + b"\n" for line in states[-1]) + b"!":
            raise Wrong(f"it ended well, and the log that is left is {run.left!r}")
        return
    if now is None and log.before is None and len(states) == 1:
        return
    # Only where a write failed may the turn at work be there: of the file, or of the answers.
    more = (
        lines_behind_turns(log, wanted.out)[len(states) :]
        if has_fault(run, b"write failed", wanted, b"note: ")
        else []
    )
    if now not in [states[-1], *more[:1]]:
        raise Wrong(f"{states[-1]} was answered, or {more[:1]} may have been, and the log that is left has {now}")
    if kind == "write" and now != (more or states[-1:])[0]:
        raise Wrong(f"the answers could not be written, and their turn is not in the log, which has {now}")


def judge(runs: Iterable[Run], wanted: Wanted, way: Way, tally: Counter[str], log: Log | None = None) -> None:
    """Counts the runs, each of which must be right."""
    kind, how = way
    run = None
    for number, run in enumerate(runs, start=1):
        tally["runs"] += 1
        tally[" ".join(way)] += run.met
        tally["told in a line"] += (
            kind == "memory" and run.met and run.status == 0 and b"\nrefused 56 out of memory\n" in run.out
        )
        if not is_right(run, wanted, kind, how):
            raise Wrong(f"{kind} {number} fails, {how}: status {run.status}, {run.err[:300]!r} and {run.out[:300]!r}")
        if log:
            tally["logs"] += 1
            try:
                judge_left(run, wanted, kind, log)
            except Wrong as what:
                raise Wrong(f"{kind} {number} fails, {how}: {what}") from None
    if run is None or run.met:
        raise Wrong(f"{kind}, {how}: the runs do not end")
