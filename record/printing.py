"""After a run: its trace is decoded and written, and record/run reports what is not in it."""
from __future__ import annotations

import argparse
import os
import sys
import threading
import time
from array import array
from collections.abc import Iterator
from typing import IO

import clocks
import decoders
import raw as raw_file
import running
import values

# What racebench reads at once: events, threads, bytes.
MOST_EVENTS, MOST_THREADS, MOST_BYTES = 1_048_576, 256, 268_435_456
MOST_FRAMES = 8
# A trace has this many events at most if nobody asks for less, and a recording this many records.
NO_LIMIT, MOST_ROOM = (1 << 64) - 1, 1 << 36
ROOM_AT = 8
# The statuses if the recording is not whole, and if the program hangs in a deadlock.
NOT_WHOLE, DEADLOCK = 4, 5
# How the files of clang's library of OpenMP begin, whose barriers and locks the recorder does not see.
UNKNOWN_OPENMP = ("libomp", "libiomp")
# Seconds between two looks whether a program has begun.
LOOK = 0.005
# How many names are in a line, at most.
MOST_NAMES = 8


def say(text: str) -> None:
    running.say("record/run", text)


class Recorded:
    """A raw file that was written, as it is needed beside its trace; with the modules and calls if it is wanted
    whole."""

    def __init__(self, file: IO[bytes], whole: bool) -> None:
        self.file = file
        file.seek(0)
        self.head = raw_file.Numbers(file.read(raw_file.HEAD_SIZE))
        if whole:
            file.seek(0)
            calls = self.head.stacks * raw_file.NODE.size
            self.head = raw_file.Head(file.read(self.head.stacks_at + calls))
        self.record_of: array[int] | None = None


def decoder_options(options: argparse.Namespace, is_killed: bool) -> list[str]:
    found = ["--max", str(options.max), "--from", str(options.first), "--frames", str(options.frames)]
    found += [] if options.free else ["--no-free"]
    found += ["--all"] if options.all else []
    found += ["--ordered", options.ordered] if options.ordered else []
    found += ["--raw-names"] if options.names == "raw" else []
    found += [word for file in options.only for word in ("--only", file)]
    found += [word for library in options.trust for word in ("--trust", library)]
    return found + ["--cause", "FOR" if options.seconds else "ROOM"] + (["--killed"] if is_killed else [])


def stop_recording_after(seconds: float, file: IO[bytes]) -> None:
    """This many seconds after the first record no more are kept: the room ends there. The program goes on."""

    def kept() -> int:
        head = os.pread(file.fileno(), raw_file.HEAD_SIZE, 0)
        return int(raw_file.Numbers(head).kept) if len(head) == raw_file.HEAD_SIZE else 0

    def stop() -> None:
        while not kept():
            time.sleep(LOOK)
        time.sleep(seconds)
        os.pwrite(file.fileno(), kept().to_bytes(8, sys.byteorder), ROOM_AT)

    threading.Thread(target=stop, daemon=True).start()


def libraries_of(file: IO[bytes]) -> list[str]:
    """The names of the files that a recorded program and its libraries are in."""
    file.seek(0)
    head = file.read(raw_file.HEAD_SIZE)
    count = min(raw_file.Numbers(head).module_count, raw_file.MOST_MODULES)
    modules = [raw_file.MODULE.unpack_from(head, raw_file.WORDS.size + k * raw_file.MODULE.size) for k in range(count)]
    return [os.path.basename(os.fsdecode(path.split(b"\0")[0])) for _, _, path in modules]


def print_trace(options: argparse.Namespace, status: int, file: IO[bytes]) -> int:
    """Writes the trace, and its clock if that is wanted; the status of this command."""
    recorded = Recorded(file, bool(options.clock))
    out = clocks.Kept(sys.stdout.buffer) if options.clock or options.values else None
    found = running.nameless_file()[0] if options.values else None
    try:
        if options.raw:
            with open(options.raw, "wb") as kept:
                raw_file.write_compact(file, kept)
        is_killed = status < 0 and not recorded.head.deadlock
        decoding = decoder_options(options, is_killed)
        facts, recorded.record_of = decoders.decoded(file, decoding, out, bool(options.clock), found)
        sys.stdout.buffer.flush()
        if out and options.clock:
            clocks.write(options, recorded, out)
        if out and found:
            values.write(options.values, out, found)
    except (OSError, decoders.Undecodable) as error:
        say(
            f"{error.filename or 'the trace was not written'}: {error.strerror}"
            if isinstance(error, OSError)
            else str(error)
        )
        os.dup2(os.open(os.devnull, os.O_WRONLY), 1)
        return 1
    report(options, recorded.head, facts, libraries_of(file))
    if options.status and status:
        return status if status > 0 else 128 - status
    if recorded.head.deadlock:
        return DEADLOCK
    if not facts.counts["written"]:
        return 1
    return NOT_WHOLE if facts.losses and not options.partial else 0


def counted(number: int, one: str, several: str) -> str:
    return f"{number} {one if number == 1 else several}"


def some(names: list[str]) -> str:
    rest = [f"and {len(names) - MOST_NAMES} more"] if len(names) > MOST_NAMES else []
    return ", ".join(names[:MOST_NAMES] + rest)


def losses_of_recording(options: argparse.Namespace, head: raw_file.Numbers, facts: decoders.Facts) -> Iterator[str]:
    """What the options and the machine left out."""
    counts, losses = facts.counts, facts.losses
    reasons = {
        "DISK": "the disk is full, or less than a tenth of it is free",
        "FOR": "--for",
        "ROOM": "--room, or a limit of the process",
    }
    for cause, reason in reasons.items():
        if cause in losses:
            yield f"{losses[cause]} records left out after the first {head.kept} ({reason})"
    if counts["before"]:
        yield (
            f"the first {counts['before']} events left out (--from); the locks that were held there are taken at the "
            "beginning"
        )
    if counts["left_out"]:
        limit = f", since a trace has at most {MOST_THREADS} threads with --max" if counts["too_many_threads"] else ""
        yield f"{counts['left_out']} events left out after the first {counts['written']}{limit}"
    if head.unrecorded:
        yield f"{head.unrecorded} records left out of threads after the 16384th"
    if counts["not_chosen"]:
        files = ", ".join(options.only)
        yield f"{counts['not_chosen']} parts of variables left out, which no line of {files} accesses (--only)"
    if counts["cut_short"]:
        yield f"some accesses have more than {counts['cut_short']} parts, and the rest of these was left out"


def losses_of_program(facts: decoders.Facts) -> Iterator[str]:
    """What of the program was not recorded."""
    losses, names = facts.losses, facts.names
    if "FORK" in losses:
        yield f"{counted(losses['FORK'], 'child process is', 'child processes are')} not recorded"
    if "EXEC" in losses:
        yield f"{counted(losses['EXEC'], 'other program was', 'other programs were')} started and not recorded"
    if "HOOKS" in losses:
        yield (
            f"{counted(losses['HOOKS'], 'linked object has', 'linked objects have')} no hooks, so accesses are not "
            f"recorded: {some(names['HOOKS'])}; compile with record/cc or record/c++"
        )
    if "LIBRARY" in losses:
        yield (
            f"{counted(losses['LIBRARY'], 'library has', 'libraries have')} no hooks, so accesses and orders are not "
            f"recorded: {some(names['LIBRARY'])}; compile with record/cc or record/c++, or accept with --trust"
        )
    if "DEADLOCK" in losses:
        yield "what comes after the deadlock is not judged"
    if "KILLED" in losses:
        yield "what comes after the signal that ended the program is not judged"
    if "ONE THREAD" in losses:
        yield "the program made no second thread, so there is nothing to judge"


def report_order(head: raw_file.Numbers, facts: decoders.Facts, libraries: list[str]) -> None:
    """Lines about an order that the trace has and the program has not, or the other way round."""
    for library in libraries:
        if library.startswith(UNKNOWN_OPENMP):
            say(f"a race in a region of OpenMP may be false: the recorder does not know {library}; compile with gcc")
    if head.strangers:
        say(f"{head.strangers} threads were not made by pthread_create, so they have no fork")
    if facts.counts["no_sections"]:
        locks = facts.counts["no_sections"]
        say(f"{locks} locks were let go by another thread than took them; they are written as semaphores")
    if facts.counts["stronger"]:
        places = some(facts.places["stronger"])
        say(f"{facts.counts['stronger']} atomic accesses are written with more order than they have, at {places}")


def deadlock_of(waits: list[decoders.Wait]) -> str:
    """Which threads wait for each other, in words."""
    texts = (
        f"T{one.thread} waits at {one.place} for {one.lock}, which T{one.holder} holds since {one.since}"
        for one in waits
    )
    return "; ".join(texts)


def report_loss(options: argparse.Namespace, facts: decoders.Facts) -> None:
    """The status of a recording that is not whole, with its causes."""
    causes = ", ".join(facts.losses)
    if "DEADLOCK" in facts.losses:
        say(f"the recording is not whole ({causes}): status {DEADLOCK}")
    elif facts.losses and not options.partial:
        say(f"the recording is not whole ({causes}): status {NOT_WHOLE}; --partial accepts it")


def report_what_no_verdict_needs(facts: decoders.Facts) -> None:
    """What the trace lacks without a loss: no verdict on anything else changes."""
    counts = facts.counts
    if counts["ordered"]:
        accesses = counted(counts["ordered"], "access", "accesses")
        variables = counted(counts["ordered_parts"], "variable", "variables")
        say(f"forks and joins order {accesses} of {variables}: not written, since no race is there (--all)")
    if counts["polls"]:
        say(f"loops poll: {counted(counts['polls'], 'read', 'reads')} not written (--all)")


def report(options: argparse.Namespace, head: raw_file.Numbers, facts: decoders.Facts, libraries: list[str]) -> None:
    counts = facts.counts
    if facts.deadlock:
        say(f"the program is in a deadlock: {deadlock_of(facts.deadlock)}")
    for line in (*losses_of_recording(options, head, facts), *losses_of_program(facts)):
        say(line)
    report_order(head, facts, libraries)
    report_what_no_verdict_needs(facts)
    written, threads, size = counts["written"], counts["threads"], counts["bytes"]
    if written > MOST_EVENTS or threads > MOST_THREADS or size > MOST_BYTES:
        say(
            f"racebench reads {MOST_EVENTS} events, {MOST_THREADS} threads and {MOST_BYTES} bytes at once, and this "
            f"trace has {written}, {threads} and {size}: read it with `racebench triage --windows`"
        )
    if not written and (counts["before"] or counts["left_out"] or counts["not_chosen"]):
        say("no event was written: the options leave out all of them")
    elif not written:
        say("no event was recorded: the program has no second thread, or its threads share nothing")
    else:
        report_loss(options, facts)
    say(f"recorded {written} events, {head.turns} turns, {head.forced} taken by force")
