"""A schedule to be drawn: its events, the row of each, its runs, and the locks held.

It grows and shrinks at its end, each event in a few steps.
"""

from __future__ import annotations

from array import array
from bisect import bisect_right

from .sections import Sections
from .trace import ACQUIRE, NONE, RELEASE, Trace

# A run of this many events is drawn event by event.
SHORT = 4


class Sheet:
    def __init__(self, trace: Trace) -> None:
        self.trace = trace
        self.events = array("I")
        self.position = array("i", [NONE]) * len(trace)  # of each event of the trace
        self.counts = [0] * len(trace.threads.raw)
        self.run_start, self.run_thread = array("I"), array("H")
        self.run_before = array("i")  # the run before of the same thread, or NONE
        self.run_row = array("I")  # rows of all runs before, where long ones are a row each
        self.last_run = array("i", [NONE]) * len(trace.threads.raw)
        self.sections = Sections()
        self.expanded: set[int] = set()
        self.version = 0

    def __len__(self) -> int:
        return len(self.events)

    def extend(self, added: array[int]) -> None:
        trace, place, counts, events = self.trace, self.position, self.counts, self.events
        threads, operations = trace.thread, trace.word
        last = self.run_thread[-1] if self.run_thread else NONE
        position = len(events)
        for event in added:
            thread = threads[event]
            if thread != last:
                self._begin_run(position, thread)
                last = thread
            place[event] = position
            counts[thread] += 1
            if ACQUIRE <= operations[event] <= RELEASE:
                self.sections.push(position, operations[event], thread, trace.name[event])
            events.append(event)
            position += 1

    def _begin_run(self, position: int, thread: int) -> None:
        row = 0
        if self.run_start:
            length = position - self.run_start[-1]
            row = self.run_row[-1] + (1 if length > SHORT else length)
        self.run_before.append(self.last_run[thread])
        self.last_run[thread] = len(self.run_start)
        self.run_start.append(position)
        self.run_thread.append(thread)
        self.run_row.append(row)

    def pop(self) -> None:
        event = self.events.pop()
        position, thread, kind = len(self.events), self.trace.thread[event], self.trace.word[event]
        self.position[event] = NONE
        self.counts[thread] -= 1
        if ACQUIRE <= kind <= RELEASE:
            self.sections.pop(position, kind, self.trace.name[event])
        if self.run_start[-1] == position:
            self.last_run[thread] = self.run_before.pop()
            self.run_start.pop()
            self.run_thread.pop()
            self.run_row.pop()

    def become(self, events: array[int]) -> None:
        """Turns the sheet into the schedule with these events, keeping the beginning that is the same."""
        kept = common(self.events, events)
        if kept == len(self.events) == len(events):
            return
        while len(self.events) > kept:
            self.pop()
        self.extend(events[kept:])
        self.version += 1

    def run_of(self, position: int) -> int:
        return bisect_right(self.run_start, position) - 1

    def run_length(self, run: int) -> int:
        end = self.run_start[run + 1] if run + 1 < len(self.run_start) else len(self.events)
        return end - self.run_start[run]

    def toggle(self, position: int) -> None:
        """Opens or closes the run of this position."""
        self.expanded ^= {self.run_start[self.run_of(position)]}
        self.version += 1

    def seen(self, position: int) -> int:
        """The position of the write that a read sees, or NONE: a schedule that the program accepted keeps it."""
        writer = self.trace.writer[self.events[position]]
        return self.position[writer] if writer != NONE else NONE

    def readers(self, position: int, most: int) -> list[int]:
        """Positions of reads that see the write of this position, in rising order."""
        found = []
        for event in self.trace.readers(self.events[position]):
            if self.position[event] != NONE:
                found.append(self.position[event])
                if len(found) == most:
                    break
        return sorted(found)


def common(one: array[int], other: array[int]) -> int:
    """How many events two lists begin with that are the same."""
    low, high = 0, min(len(one), len(other))
    if one[:high] == other[:high]:
        return high
    while low < high:
        middle = (low + high + 1) // 2
        if one[low:middle] == other[low:middle]:
            low = middle
        else:
            high = middle - 1
    return low
