"""The log's file, followed: who did what, and the schedules that this leads to.

Each line of the file is a call that the program accepted there, so the schedules follow by moving numbers about:
no rule of reorderings is looked at here. The screen draws from this, and asks the program for each judgement.
"""

from __future__ import annotations

import os
from array import array

from . import entries, messages
from .entries import Entry
from .row import Row
from .trace import Trace

# The first line, which names the trace by a digest; after it a byte is the gate of the next entry.
HEAD = 81
# How many bytes before the known end are looked at again: they tell the file from another one.
TAIL = 80
# How many of the latest proposals one message has.
PROPOSALS = 6


class Mirror:
    def __init__(self, path: str, trace: Trace) -> None:
        self.path, self.trace, self.offset = path, trace, HEAD
        self.entries: list[Entry] = []
        self.rows: dict[str, Row] = {}
        self.proposals: list[array[int]] = []
        self.proposed: list[int] = []  # their entries
        self.changed: dict[str, bool] = {}  # names since the last look
        self.pops: dict[str, tuple[object, ...]] = {}  # the step that takes back an event of a schedule, made once
        self.version = 0
        self.digest = ""  # of the trace, as the log's first line has it
        self.tail = b""  # what is before the known end
        self.number = 0  # of the file that was read, as the system counts files
        self.is_followed = False  # whether changes of schedules are kept: pages show some, and others change them
        self.fault: str | None = None  # why the file is followed no longer

    def grew(self) -> bool:
        """Whether the file has another length than was read, or is another file; the gate is one byte."""
        try:
            found = os.stat(self.path)
        except OSError:
            return True
        return (found.st_size, found.st_ino) != (self.offset + 1, self.number)

    def sync(self) -> int:
        """Reads what is after the known end; the number of new entries.

        There may be nothing, not even a gate: a session that takes away what a killed one left cuts the file at the
        gate, and then closes it.
        """
        if self.fault:
            return 0
        try:
            with open(self.path, "rb") as file:
                self.digest = self.digest or file.read(HEAD).decode("ascii", "replace").strip()[-64:]
                size, self.number = file.seek(0, os.SEEK_END), os.fstat(file.fileno()).st_ino
                file.seek(self.offset - len(self.tail))
                text = file.read()
        except OSError as why:
            self.fault = f"the log cannot be read: {why.strerror}"
            return 0
        if size < self.offset:
            self.fault = "the log is shorter than it was"
        elif not text.startswith(self.tail):
            self.fault = "the log is not the one that was read before"
        return 0 if self.fault else self._take_all(text[len(self.tail) :])

    def _take_all(self, text: bytes) -> int:
        """Takes the lines whose gate is open; the text begins at a gate."""
        at, new = 0, 0
        while text[at : at + 1] == b" ":
            end = text.find(b"\n", at)
            if end < 0:
                break
            try:
                self._take(text[at + 1 : end].decode("ascii").split())
            except (ValueError, KeyError, IndexError, TypeError, OverflowError):
                self.fault = f"entry {len(self.entries)} of the log is no call that the program accepts"
                break
            at, new = end + 1, new + 1
        self.offset += at
        self.tail = (self.tail + text[:at])[-TAIL:]
        return new

    def _take(self, fields: list[str]) -> None:
        entry = Entry(len(self.entries), int(fields[0]), fields[1:])
        if entry.kind == "undo":
            undone = self.entries[int(fields[2])]
            undone.undone = entry.number
            for step in reversed(undone.steps or []):
                self._turn(step, entry)
            undone.steps = None
        elif entry.kind == "propose":
            entry.proposal = len(self.proposals)
            self.proposed.append(entry.number)
            self.proposals.append(array("I", map(int, fields[4:])))
        else:
            entry.steps = [self._do(entry, place, *part) for place, part in enumerate(entry.parts())]
        self.entries.append(entry)

    def _note(self, name: str, entry: Entry) -> None:
        self.version += 1
        row = self.rows.get(name)
        if row:
            row.version, row.by, row.touched = self.version, entry.client, entry.number
            if self.is_followed:
                row.touch(entry.number)
        self.changed[name] = True

    def _do(self, entry: Entry, place: int, word: str, name: str, *rest: str) -> tuple[object, ...]:
        """Does a command, and says how it is taken back."""
        if word == "branch":
            source, length, name = self.rows[name], int(rest[0]), rest[1]
            made = Row((entry.number, place), entry.client, source.events[:length], source.since[:length])
        elif word == "new":
            made = Row((entry.number, place), entry.client, array("I"), array("I"))
        else:
            step = self._change(entry, word, name, *map(int, rest))
            self._note(name, entry)
            return step
        self.rows[name] = made
        self._note(name, entry)
        return ("gone", name)

    def _change(self, entry: Entry, word: str, name: str, number: int = 0) -> tuple[object, ...]:
        row = self.rows[name]
        if word == "add":
            if number >= len(self.trace):
                raise ValueError(number)
            self._push(row, number, entry.number, entry)
            return self.pops.setdefault(name, ("pop", name))
        if word == "back":
            return ("push", name, *self._pop(row, entry))
        if word == "swap":
            self._exchange(row, number, entry)
            return ("swap", name, number)
        if word == "drop":
            return ("row", name, self.rows.pop(name))
        if word == "adopt":
            since = array("I", [entry.number]) * len(self.proposals[number])
            return ("list", name, *self._replace(row, self.proposals[number][:], since, entry))
        raise ValueError(word)

    def _turn(self, step: tuple[object, ...], entry: Entry) -> None:
        """Takes a step back."""
        match step:
            case ("gone", str(name)):
                del self.rows[name]
            case ("row", str(name), Row() as row):
                self.rows[name] = row
            case ("pop", str(name)):
                self._pop(self.rows[name], entry)
            case ("push", str(name), int(event), int(since)):
                self._push(self.rows[name], event, since, entry)
            case ("list", str(name), array() as events, array() as since):
                self._replace(self.rows[name], events, since, entry)
            case ("swap", str(name), int(at)):
                self._exchange(self.rows[name], at, entry)
        self._note(str(step[1]), entry)

    def _push(self, row: Row, event: int, since: int, entry: Entry) -> None:
        if self.is_followed:
            row.pushed(entry.number, event)
        row.events.append(event)
        row.since.append(since)

    def _pop(self, row: Row, entry: Entry) -> tuple[int, int]:
        event = row.events.pop()
        if self.is_followed:
            row.popped(entry.number, event)
        return event, row.since.pop()

    def _replace(self, row: Row, events: array[int], since: array[int], entry: Entry) -> tuple[object, object]:
        """The events and their entries that were there before."""
        before = row.events, row.since
        row.events, row.since = events, since
        if self.is_followed:
            row.replaced(entry.number, before[0])
        return before

    def _exchange(self, row: Row, at: int, entry: Entry) -> None:
        for listed in (row.events, row.since):
            listed[at], listed[at + 1] = listed[at + 1], listed[at]
        if self.is_followed:
            row.exchanged(entry.number, at)

    # For the browser.

    def schedule_message(self, name: str) -> messages.Schedule | None:
        row = self.rows.get(name)
        if row is None:
            return None
        return {
            "name": name,
            "owner": row.owner,
            "length": len(row.events),
            "birth": row.birth,
            "by": row.by,
            "touched": row.touched,
        }

    def schedule_messages(self) -> list[messages.Schedule | None]:
        return [self.schedule_message(name) for name in sorted(self.rows, key=lambda name: self.rows[name].birth)]

    def take_changes(self) -> dict[str, messages.Schedule | None]:
        names, self.changed = list(self.changed), {}
        return {name: self.schedule_message(name) for name in names}

    def proposal_messages(self) -> list[messages.Entry]:
        return [message for number in self.proposed[-PROPOSALS:] for message in self.entry_messages(number, 1)]

    def entry_messages(self, first: int, count: int) -> list[messages.Entry]:
        return [entries.entry_message(entry, self.trace) for entry in self.entries[first : first + count]]
