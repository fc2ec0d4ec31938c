"""The rows that a sheet is drawn as, and windows of the rows.

A long run is one row, a block; short runs are drawn event by event. So are runs that were opened, the last events of
all, and the last event of each thread, so that you see where each thread is. These runs are few: they are laid out
anew at each change, and the sheet keeps the sums of rows of all others.
"""

from bisect import bisect_right
from collections import Counter
from collections.abc import Iterator
from typing import NamedTuple, cast

from .messages import Lock, Row, View
from .sheet import SHORT, Sheet
from .trace import NONE, OPERATIONS, READ, WRITE

# How many events at the end are always drawn as single rows.
TAIL = 6
# More threads than this have no lane each: the last lane is that of all others.
LANES = 9
# How many reads of a write are named.
READERS = 24


class Part(NamedTuple):
    """A part of a run: a block, which is one row, or single events, a row each."""

    row: int
    start: int
    length: int
    is_block: bool

    @property
    def rows(self) -> int:
        return 1 if self.is_block else self.length


class Layout:
    """The rows of a sheet as it is now."""

    def __init__(self, sheet: Sheet) -> None:
        self.sheet = sheet
        self.runs = self._special()
        self.parts: list[list[Part]] = []  # of each special run
        self.shifts: list[int] = []  # after each special run, how much lower rows are than the sheet counts
        shift = 0
        for run in self.runs:
            parts = list(self._cut(run, sheet.run_row[run] + shift))
            self.parts.append(parts)
            length = sheet.run_length(run)
            shift += sum(part.rows for part in parts) - (1 if length > SHORT else length)
            self.shifts.append(shift)
        self.total = self.parts[-1][-1].row + self.parts[-1][-1].rows if self.parts else 0

    def _special(self) -> list[int]:
        """Runs that are not drawn as the sheet counts them, and the last."""
        sheet = self.sheet
        found = {run for run in sheet.last_run if run != NONE}
        run = len(sheet.run_start) - 1
        while run >= 0 and sheet.run_start[run] + sheet.run_length(run) > len(sheet) - TAIL:
            found.add(run)
            run -= 1
        found |= {sheet.run_of(start) for start in sheet.expanded if start < len(sheet)}
        return sorted(found)

    def _cut(self, run: int, row: int) -> Iterator[Part]:
        """The parts of a special run from this row on."""
        sheet = self.sheet
        start, length = sheet.run_start[run], sheet.run_length(run)
        tail = max(len(sheet) - TAIL, start)
        is_open = start in sheet.expanded
        if start + length > tail:
            first = tail - start
        elif sheet.last_run[sheet.run_thread[run]] == run:
            first = length - 1
        else:
            first = length
        if length <= SHORT or is_open or first < 2:
            yield Part(row, start, length, False)
            return
        yield Part(row, start, first, True)
        if first < length:
            yield Part(row + 1, start + first, length - first, False)

    def _parts_of(self, run: int) -> list[Part]:
        at = bisect_right(self.runs, run) - 1
        if at >= 0 and self.runs[at] == run:
            return self.parts[at]
        length = self.sheet.run_length(run)
        row = self.sheet.run_row[run] + (self.shifts[at] if at >= 0 else 0)
        return [Part(row, self.sheet.run_start[run], length, length > SHORT)]

    def row_of(self, position: int) -> int:
        for part in self._parts_of(self.sheet.run_of(position)):
            if position < part.start + part.length:
                return part.row if part.is_block else part.row + position - part.start
        raise IndexError(position)

    def _run_at(self, row: int) -> int:
        """The run that has this row."""
        at = bisect_right(self.parts, row, key=lambda parts: parts[0].row) - 1
        if at >= 0:
            last = self.parts[at][-1]
            if row < last.row + last.rows:
                return self.runs[at]
        return bisect_right(self.sheet.run_row, row - (self.shifts[at] if at >= 0 else 0)) - 1

    def parts_from(self, row: int) -> Iterator[Part]:
        """The parts from the one that has this row on."""
        if row >= self.total:
            return
        for run in range(self._run_at(row), len(self.sheet.run_start)):
            for part in self._parts_of(run):
                if part.row + part.rows > row:
                    yield part

    def overview(self, count: int = 180) -> list[int]:
        """The threads of this many rows, spread over all."""
        sheet = self.sheet
        return [sheet.run_thread[self._run_at(step * self.total // count)] for step in range(count)]

    def lanes(self, wanted: set[int]) -> list[int]:
        """The threads that have a lane of their own, in rising number."""
        counts = self.sheet.counts
        used = [thread for thread, count in enumerate(counts) if count or thread in wanted]
        if len(used) > LANES:
            used.sort(key=lambda thread: (thread not in wanted, -counts[thread]))
            used = sorted(used[: LANES - 1])
        return used

    def window(self, first: int, count: int) -> View:
        """This many rows from the first on, with the locks beside them."""
        first = max(0, min(first, self.total))
        last = min(self.total, first + count)
        rows: list[Row] = []
        for part in self.parts_from(first):
            if part.row >= last:
                break
            if part.is_block:
                rows.append(self._block(part))
            else:
                low, high = max(part.row, first), min(part.row + part.rows, last)
                rows += [self._event(part.start + row - part.row) for row in range(low, high)]
        locks = self._locks(rows, first, last) if rows else []
        return {"from": first, "rows": rows, "total": self.total, "length": len(self.sheet), "locks": locks}

    def _event(self, position: int) -> Row:
        sheet = self.sheet
        event = sheet.events[position]
        row = cast(Row, sheet.trace.event_message(event))
        row["position"] = position
        kind = sheet.trace.word[event] if sheet.trace.is_connected else NONE
        if kind == READ:
            row["writer"] = sheet.seen(position)
        elif kind == WRITE:
            found = sheet.readers(position, READERS + 1)
            row["readers"] = found[:READERS]
            if len(found) > READERS:
                row["more_readers"] = True
        if sheet.expanded and sheet.run_start[sheet.run_of(position)] in sheet.expanded:
            row["is_open"] = True
        return row

    def _block(self, part: Part) -> Row:
        sheet, trace = self.sheet, self.sheet.trace
        events = sheet.events[part.start : part.start + part.length]
        counts = Counter(map(trace.word.__getitem__, events))
        return {
            "size": part.length,
            "position": part.start,
            "thread": trace.thread[events[0]],
            "operations": [counts[kind] for kind in range(len(OPERATIONS))],
            "first": trace.event_message(events[0]),
            "last": trace.event_message(events[-1]),
        }

    def _locks(self, rows: list[Row], first: int, last: int) -> list[Lock]:
        """The critical sections that meet these rows, from row to row of the window."""
        sheet = self.sheet
        low, high = rows[0]["position"], rows[-1]["position"] + rows[-1].get("size", 1) - 1
        return [
            {
                "thread": section.thread,
                "name": sheet.trace.locks.text(section.lock),
                "lock": section.lock,
                "from": self.row_of(section.begin) if section.begin >= low else first - 1,
                "to": self.row_of(section.end) if section.end is not None and section.end <= high else last,
                "open": section.end is None,
                "event": sheet.events[section.begin],
            }
            for section in sheet.sections.meeting(low, high)
        ]
