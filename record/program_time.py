"""The time that a program has had. On a busy machine its threads wait for a processor, and that is no time of its own.
"""
from __future__ import annotations

import contextlib
import os
import time

# The least part of the time that counts, however long the threads wait. So each limit ends.
LEAST = 0.05
NANOSECONDS = 1e9


def waits_of(process: int) -> dict[str, int]:
    """For how many nanoseconds each thread of a process has waited for a processor; nothing if the system does not
    say so."""
    found = {}
    with contextlib.suppress(OSError):
        for thread in os.listdir(f"/proc/{process}/task"):
            with contextlib.suppress(OSError, ValueError, IndexError):
                with open(f"/proc/{process}/task/{thread}/schedstat", encoding="ascii") as numbers:
                    found[thread] = int(numbers.read().split()[1])
    return found


class ProgramTime:
    """The seconds that a program has had since now: those that passed, without those in which the thread that waited
    longest for a processor waited for it."""

    def __init__(self, process: int) -> None:
        self.process, self.total = process, 0.0
        self.last, self.waits = time.monotonic(), waits_of(process)

    def seconds(self) -> float:
        now, waits = time.monotonic(), waits_of(self.process)
        passed, before = now - self.last, self.waits
        longest = max((waited - before.get(thread, 0) for thread, waited in waits.items()), default=0)
        self.total += max(passed - longest / NANOSECONDS, LEAST * passed)
        self.last, self.waits = now, waits
        return self.total
