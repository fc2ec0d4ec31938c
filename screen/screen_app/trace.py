"""The trace as the screen needs it to draw: columns of numbers, and names.

The program judges the trace; this only reads what it accepted.
"""

from __future__ import annotations

import hashlib
from array import array
from bisect import bisect_left
from collections.abc import Iterator, Sequence
from typing import NamedTuple

from .reader import WORDS, Numbers, Reader
from .messages import Event

READ, WRITE, ACQUIRE, RELEASE, FORK, JOIN = range(6)
OPERATIONS = ("r", "w", "acq", "rel", "fork", "join")
NONE = -1
# A trace of this many events is connected before the first page; this many are taken before others get a turn.
CONNECTED, PORTION = 20_000, 5_000


class Part(NamedTuple):
    """What a section of the trace's file has: names in the order of their first use there, and columns of numbers."""

    before: int  # this many events come before it, if each line is one
    threads: list[bytes]
    variables: list[bytes]
    locks: list[bytes]
    places: list[bytes]
    thread: bytes
    word: bytes
    name: bytes
    place: bytes
    events_of: list[bytes]


class Trace:
    """One accepted trace, in columns: one number an event."""

    def __init__(self, path: str) -> None:
        self.path = path
        self.before = 0  # the first event's number; in a section of a trace more than 0
        self.threads, self.variables, self.locks, self.places = Numbers(), Numbers(), Numbers(), Numbers()
        self.thread, self.word, self.name, self.place = array("B"), array("B"), array("I"), array("I")
        self.events_of: list[array[int]] = []  # by thread
        self.fork_of: dict[int, int] = {}  # by thread
        self.writer = array("i")  # of a read the write that it saw, or NONE
        self.following = array("i")  # of an access the next one to its variable, or NONE
        self.is_connected = False  # whether these two are filled

    def __len__(self) -> int:
        return len(self.thread)

    def read(self) -> Iterator[None]:
        """Reads the file in portions, so that others get a turn in between."""
        with open(self.path, "rb") as file:
            yield from Reader(self).read(file)
        self._find_forks()

    def _find_forks(self) -> None:
        operations, at = self.word.tobytes(), NONE
        while (at := operations.find(FORK, at + 1)) >= 0:
            self.fork_of[self.name[at]] = at

    def as_part(self) -> Part:
        return Part(
            self.before,
            self.threads.raw,
            self.variables.raw,
            self.locks.raw,
            self.places.raw,
            self.thread.tobytes(),
            self.word.tobytes(),
            self.name.tobytes(),
            self.place.tobytes(),
            [own.tobytes() for own in self.events_of],
        )

    def join(self, parts: list[Part]) -> Iterator[None]:
        """Takes the sections of the file one after another, in portions."""
        for part in parts:
            yield from self._take(part)
        self._find_forks()

    def _take(self, part: Part) -> Iterator[None]:
        is_first = not self.threads.raw and not self.places.raw  # then its numbers are those of the trace
        threads, variables, locks, places = (
            [numbers[name] for name in names]
            for numbers, names in (
                (self.threads, part.threads),
                (self.variables, part.variables),
                (self.locks, part.locks),
                (self.places, part.places),
            )
        )
        start = len(self.thread)
        self._take_events(part, threads, start - part.before)
        self.thread.frombytes(part.thread.translate(bytes(threads + [0] * (256 - len(threads)))))
        self.word.frombytes(part.word)
        yield
        if is_first:
            self.name.frombytes(part.name)
            self.place.frombytes(part.place)
            return
        by_kind = (variables, variables, locks, locks, threads, threads)
        names, found = array("I", part.name), array("I", part.place)
        for at in range(0, len(names), PORTION):
            kinds = part.word[at : at + PORTION]
            self.name.extend([by_kind[kind][name] for kind, name in zip(kinds, names[at : at + PORTION])])
            self.place.extend(map(places.__getitem__, found[at : at + PORTION]))
            yield

    def _take_events(self, part: Part, threads: list[int], shift: int) -> None:
        """Adds to each thread its events of the section, whose numbers are less by the shift there."""
        while len(self.events_of) < len(self.threads.raw):
            self.events_of.append(array("I"))
        for thread, text in zip(threads, part.events_of):
            events = array("I", text)
            self.events_of[thread].extend(array("I", map(shift.__add__, events)) if shift else events)

    def add(self, threads: bytes, operations: bytes, names: list[int], places: list[int]) -> None:
        """Adds events, each given by its numbers."""
        start = self.before + len(self.thread)
        self.thread.frombytes(threads)
        self.word.frombytes(operations)
        self.name.extend(names)
        self.place.extend(places)
        while len(self.events_of) < len(self.threads.raw):
            self.events_of.append(array("I"))
        appends = [own.append for own in self.events_of]
        for event, thread in enumerate(threads, start):
            appends[thread](event)

    def index(self, event: int) -> int:
        """The event's place in its thread."""
        return bisect_left(self.events_of[self.thread[event]], event)

    def connect(self) -> Iterator[None]:
        """Finds who reads whom, in portions. Nothing but the lines from writes to reads needs it."""
        self.writer, self.following = array("i", [NONE]) * len(self), array("i", [NONE]) * len(self)
        last_write: dict[int, int] = {}
        last_access: dict[int, int] = {}
        for start in range(0, len(self), PORTION):
            operations, names = self.word[start : start + PORTION], self.name[start : start + PORTION]
            for event, (kind, name) in enumerate(zip(operations, names), start):
                if kind <= WRITE:
                    if name in last_access:
                        self.following[last_access[name]] = event
                    last_access[name] = event
                    if kind == WRITE:
                        last_write[name] = event
                    elif name in last_write:
                        self.writer[event] = last_write[name]
            yield
        self.is_connected = True

    def read_at_once(self) -> Trace:
        for part in (self.read, self.connect):
            for _ in part():
                pass
        return self

    def names_of(self, kind: int) -> Numbers:
        return self.variables if kind <= WRITE else self.locks if kind <= RELEASE else self.threads

    def name_text(self, event: int) -> str:
        return self.names_of(self.word[event]).text(self.name[event])

    def event_message(self, event: int) -> Event:
        """An event for the browser."""
        return {
            "event": event,
            "thread": self.thread[event],
            "operation": OPERATIONS[self.word[event]],
            "name": self.name_text(event),
            "location": self.places.text(self.place[event]),
        }

    def readers(self, write: int) -> Iterator[int]:
        """The reads that saw this write."""
        event = self.following[write]
        while event != NONE and self.writer[event] == write:
            yield event
            event = self.following[event]

    def conflict(self, first: int, second: int) -> bool:
        one, other = self.word[first], self.word[second]
        return (
            one <= WRITE
            and other <= WRITE
            and WRITE in (one, other)
            and self.thread[first] != self.thread[second]
            and self.name[first] == self.name[second]
        )

    def are_requests(self, events: Sequence[int]) -> bool:
        """Whether these may be requests of a deadlock, and no accesses of a race: all are acquires."""
        return bool(events) and all(self.word[event] == ACQUIRE for event in events)

    def digests(self, most: int = 2_000) -> Iterator[str]:
        """The SHA-256 digest of the canonical text, in steps; the last is of all of it.

        The head of a log has the program's own, so it shows whether both read the same.
        """
        made = hashlib.sha256()
        for start in range(0, len(self), most):
            made.update(b"".join(map(self._line, range(start, min(start + most, len(self))))))
            yield ""
        yield made.hexdigest()

    def _line(self, event: int) -> bytes:
        kind = self.word[event]
        return b"%b|%b(%b)|%b\n" % (
            self.threads.raw[self.thread[event]],
            WORDS[kind],
            self.names_of(kind).raw[self.name[event]],
            self.places.raw[self.place[event]],
        )

    def release_after(self, thread: int, lock: int, position: int, depth: int = 1) -> int | None:
        """The event of the thread, from this place in it on, that lets the lock go for good, or None."""
        events = self.events_of[thread]
        for at in range(position, len(events)):
            event = events[at]
            if self.word[event] in (ACQUIRE, RELEASE) and self.name[event] == lock:
                depth += 1 if self.word[event] == ACQUIRE else -1
                if depth == 0:
                    return event
        return None
