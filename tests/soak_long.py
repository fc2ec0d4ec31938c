"""A trace of any length with races that are known, through a pipe into `triage --windows`: for tools/soak --long."""

import resource
import subprocess
import sys
import time
from typing import IO

# A block of this many events comes again and again. One lock is held all the time.
BLOCK = 1_000
RACES = 10
EVENTS = 20_000_000


def block() -> list[str]:
    """The lines of a block: ten races, and accesses under a lock."""
    lines: list[str] = []
    for race in range(RACES):
        lines += [f"T1|w(x{race})|one.c:{race}", f"T2|w(x{race})|two.c:{race}"]
    at = 0
    while len(lines) + 5 <= BLOCK:
        thread = at % 4
        lines += [
            f"T{thread}|acq(l)|lock.c:1",
            f"T{thread}|r(g{at % 16})|use.c:{at % 16}",
            f"T{thread}|w(g{at % 16})|use.c:{at % 16}",
        ]
        lines += [f"T{thread}|w(own{thread})|own.c:{thread}", f"T{thread}|rel(l)|lock.c:2"]
        at += 1
    return lines


def wanted(events: int) -> set[tuple[str, str]]:
    """The races that the trace has, as pairs of locations."""
    return {(f"one.c:{race}", f"two.c:{race}") for race in range(RACES)} if events >= BLOCK else set()


def races_in(text: str) -> set[tuple[str, str]]:
    """The races of a report, as pairs of locations."""
    lines = text.splitlines()
    found: set[tuple[str, str]] = set()
    for at, line in enumerate(lines):
        if line.startswith("race "):
            accesses = [line for line in lines[at + 1 : at + 9] if line.startswith("  ") and line[2] != " "]
            first, second = sorted(line.rsplit("|", 1)[1] for line in accesses[:2])
            found.add((first, second))
    return found


def feed(out: IO[bytes], blocks: int) -> None:
    """Writes the trace: a lock that is held all the time, and the blocks."""
    text = ("".join(f"{line}\n" for line in block())).encode()
    out.write(b"T0|acq(outer)|main.c:1\n")
    for _ in range(blocks):
        out.write(text)
    out.close()


def run(program: str, events: int, arguments: list[str]) -> str | None:
    """Judges a trace of about this many events; answers what is wrong, if anything is, and prints time and memory."""
    blocks, size = events // BLOCK, len(block())
    begun = time.monotonic()
    with subprocess.Popen(
        [program, "triage", "-", *arguments], stdin=subprocess.PIPE, stdout=subprocess.PIPE
    ) as running:
        assert running.stdin and running.stdout
        pid = running.pid
        feed(running.stdin, blocks)
        out = running.stdout.read().decode()
        status = running.wait()
    usage = resource.getrusage(resource.RUSAGE_CHILDREN)
    count = blocks * size + 1
    print(
        f"process {pid}: {count} events in {time.monotonic() - begun:.1f} s, {usage.ru_utime:.1f} s of processor "
        f"time, {usage.ru_maxrss // 1024} MB",
        flush=True,
    )
    if status != 0:
        return f"status {status}"
    if f"\nevents {count}\n" not in out:
        return f"other counts: {out[:200]}"
    if races_in(out) != wanted(events):
        return f"the races are {sorted(races_in(out))}"
    return None


if __name__ == "__main__":
    sys.exit(run(sys.argv[1], int(sys.argv[2]), sys.argv[3:]))
