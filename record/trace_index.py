"""A trace with the look-ups that a search for deadlocks needs: the events of each thread, what each event comes after,
who holds which locks, and what comes before an event in every correct reordering."""
from __future__ import annotations

from bisect import bisect_right
from typing import Iterable, Iterator

# The sections of a lock: of each thread the acquires that find the lock free.
Sections = dict[int, list[int]]


class TraceIndex:
    """A trace. A thread is a number; what a fork or a join names is a thread."""

    def __init__(self, lines: Iterable[str]) -> None:
        # How many events a search has visited.
        self.visited = 0
        self.numbers: dict[str, int] = {}
        self.thread: list[int] = []
        self.word: list[str] = []
        self.name: list[str] = []
        self.location: list[str] = []
        self.of: list[list[int]] = []
        self.place: list[int] = []
        # What comes before an event: in its thread or at its fork; for a read its writer.
        self.base: list[int | None] = []
        self.writer: dict[int, int | None] = {}
        self.fork: dict[int, int] = {}
        # Of an acquire its release, and the locks that its thread holds, each with the acquire since which.
        self.end: dict[int, int] = {}
        self.held: dict[int, dict[str, int]] = {}
        self.sections: dict[str, Sections] = {}
        self.kept_rows: list[list[int]] = []
        self.open: list[dict[str, list[int]]] = []
        self.last_write: dict[str, int] = {}
        for line in lines:
            self.add(*line.split("|", 2))

    def number(self, name: str) -> int:
        if name not in self.numbers:
            self.numbers[name] = len(self.numbers)
            self.of.append([])
            self.open.append({})
        return self.numbers[name]

    def add(self, thread: str, operation: str, location: str) -> None:
        word, _, name = operation[:-1].partition("(")
        event, mine = len(self.thread), self.number(thread)
        before = self.of[mine]
        self.base.append(before[-1] if before else self.fork.get(mine))
        self.place.append(len(before))
        before.append(event)
        self.thread.append(mine)
        self.word.append(word)
        self.name.append(name)
        self.location.append(location)
        self.note(event, mine, word, name)

    def note(self, event: int, thread: int, word: str, name: str) -> None:
        if word == "r":
            self.writer[event] = self.last_write.get(name)
        elif word == "w":
            self.last_write[name] = event
        elif word == "fork":
            self.fork[self.number(name)] = event
        elif word == "join":
            self.number(name)
        elif word == "acq":
            self.take(event, thread, name)
        elif word == "rel":
            self.let_go(event, thread, name)

    def take(self, event: int, thread: int, lock: str) -> None:
        mine = self.open[thread]
        self.held[event] = {name: since[0] for name, since in mine.items()}
        if lock not in mine:
            self.sections.setdefault(lock, {}).setdefault(thread, []).append(event)
        mine.setdefault(lock, []).append(event)

    def let_go(self, event: int, thread: int, lock: str) -> None:
        mine = self.open[thread].get(lock)
        if mine:
            self.end[mine.pop()] = event
            if not mine:
                del self.open[thread][lock]

    def __len__(self) -> int:
        return len(self.thread)

    def is_outer(self, event: int) -> bool:
        """Whether an acquire finds the lock free: its thread does not hold it yet."""
        return self.name[event] not in self.held[event]

    def last_of(self, thread: int) -> int | None:
        """The last event of a thread, or its fork if it has none."""
        return self.of[thread][-1] if self.of[thread] else self.fork.get(thread)

    def counterpart(self, event: int) -> int | None:
        """What has to come before an event beside its base: the writer of a read, the end of a joined thread."""
        if self.word[event] == "r":
            return self.writer[event]
        return self.last_of(self.numbers[self.name[event]]) if self.word[event] == "join" else None

    def last_section(self, lock: str, thread: int, count: int) -> int | None:
        """The last acquire that finds the lock free among the first `count` events of a thread."""
        mine = self.sections.get(lock, {}).get(thread)
        if not mine or not count:
            return None
        k = bisect_right(mine, self.of[thread][count - 1])
        return mine[k - 1] if k else None

    def foreign_ends(self, lock: str, thread: int, row: list[int]) -> Iterator[int | None]:
        """For each other thread that has taken a lock within the row, the end of its last section, or None."""
        for other in self.sections.get(lock, {}):
            section = self.last_section(lock, other, row[other]) if other != thread else None
            if section is not None:
                yield self.end.get(section)

    def rows(self) -> list[list[int]]:
        """For each event the number of events of each thread that are before it in every correct reordering, or are
        it."""
        if not self.kept_rows:
            holds: list[dict[str, int]] = [{} for _ in self.of]
            for event in range(len(self)):
                self.kept_rows.append(self.row_of(event, holds[self.thread[event]]))
        return self.kept_rows

    def row_of(self, event: int, holds: dict[str, int]) -> list[int]:
        """The row of an event after those of all earlier ones. `holds` has how often its thread holds each lock."""
        thread, word, name = self.thread[event], self.word[event], self.name[event]
        row, own = [0] * len(self.of), self.base[event]
        for before in (own, self.counterpart(event)):
            if before is not None:
                row = [max(pair) for pair in zip(row, self.kept_rows[before])]
        row[thread] = self.place[event] + 1
        is_news = own is None or row[:thread] + row[thread + 1 :] != self.others_of(own, thread)
        asked = set(holds if is_news else ()) | ({name} if word == "acq" else set())
        self.close_row(row, thread, asked, set(holds))
        if word == "acq":
            holds[name] = holds.get(name, 0) + 1
        elif word == "rel" and name in holds:
            holds[name] -= 1
            if not holds[name]:
                del holds[name]
        return row

    def others_of(self, event: int, thread: int) -> list[int]:
        row = self.kept_rows[event]
        return row[:thread] + row[thread + 1 :]

    def close_row(self, row: list[int], thread: int, asked: set[str], holds: set[str]) -> None:
        """Sections of a lock that another thread has begun before an event within the lock have ended before it."""
        again = bool(asked)
        while again:
            again = False
            for lock in list(asked):
                for end in self.foreign_ends(lock, thread, row):
                    if end is not None and self.place[end] >= row[self.thread[end]]:
                        row[:] = [max(pair) for pair in zip(row, self.kept_rows[end])]
                        asked |= holds
                        again = True
