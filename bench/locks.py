#!/usr/bin/env python3
"""bench/locks.py KIND EVENTS

Prints a trace in which 16 threads take two of 64 locks in each section. The seed is fixed. KIND is one of

  bank     in any order, and the section reads and writes what each lock guards
  free     in any order, without data
  gate     in any order, under one more lock
  ordered  the lesser lock first, without data
"""

from __future__ import annotations

import argparse
import random
import sys

THREADS, LOCKS = 16, 64
Op = tuple[str, str]


def section(first: int, second: int, kind: str) -> list[Op]:
    """What a thread does after it took both locks, and the lock around both if there is one."""
    data: list[Op] = []
    if kind == "bank":
        data = [(op, f"v{lock}") for lock in (first, second) for op in ("r", "w")]
    ends = [("rel", f"l{second}"), ("rel", f"l{first}")]
    return data + ends + ([("rel", "gate")] if kind == "gate" else [])


def trace(kind: str, events: int) -> list[str]:
    """A thread begins a section only if all its locks are free, so the run has no deadlock."""
    pick = random.Random(7)
    left: list[list[Op]] = [[] for _ in range(THREADS)]
    held: set[str] = set()
    lines: list[str] = []

    def add(thread: int, op: str, what: str) -> None:
        lines.append(f"T{thread}|{op}({what})|{op}{what}")

    while len(lines) < events:
        thread = pick.randrange(THREADS)
        if left[thread]:
            op, what = left[thread].pop(0)
            held -= {what} if op == "rel" else set()
            add(thread, op, what)
            continue
        pair = pick.sample(range(LOCKS), 2)
        first, second = sorted(pair) if kind == "ordered" else pair
        wanted = (["gate"] if kind == "gate" else []) + [f"l{first}", f"l{second}"]
        if held.isdisjoint(wanted):
            held.update(wanted)
            for lock in wanted:
                add(thread, "acq", lock)
            left[thread] = section(first, second, kind)
    return lines


def main() -> int:
    parser = argparse.ArgumentParser(description=__doc__, formatter_class=argparse.RawDescriptionHelpFormatter)
    parser.add_argument("kind", metavar="KIND", choices=("bank", "free", "gate", "ordered"))
    parser.add_argument("events", metavar="EVENTS", type=int)
    options = parser.parse_args()
    print(*trace(options.kind, options.events), sep="\n")
    return 0


if __name__ == "__main__":
    sys.exit(main())
