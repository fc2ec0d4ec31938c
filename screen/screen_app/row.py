"""A schedule of the log, and its latest changes."""

from __future__ import annotations

from array import array
from bisect import bisect_left
from collections import deque

# How many of the latest changes of a schedule are kept; a batch that adds events is one change.
CHANGES = 4096


class Change:
    """What an entry did to a schedule: from a position on it put new events in the place of old ones."""

    __slots__ = ("entry", "at", "old", "new")

    def __init__(self, entry: int, at: int, old: array[int], new: array[int]) -> None:
        self.entry, self.at, self.old, self.new = entry, at, old, new


class Row:
    """A schedule. `since` has for each position the entry that put its event there.

    While the log is followed, `touches` are the entries that changed it, and `changes` what the latest entries did.
    """

    __slots__ = ("birth", "owner", "events", "since", "version", "by", "touched", "touches", "changes")

    def __init__(self, birth: tuple[int, int], owner: int, events: array[int], since: array[int]) -> None:
        self.birth, self.owner, self.events, self.since = birth, owner, events, since
        self.version, self.by, self.touched = 0, owner, birth[0]
        self.touches = array("I")
        self.changes: deque[Change] = deque(maxlen=CHANGES)

    def touch(self, entry: int) -> None:
        if not self.touches or self.touches[-1] != entry:
            self.touches.append(entry)

    def touches_from(self, first: int) -> array[int]:
        """The entries from the first on that changed it."""
        return self.touches[bisect_left(self.touches, first) :]

    def pushed(self, entry: int, event: int) -> None:
        """Keeps that an event comes to the end."""
        last = self.changes[-1] if self.changes else None
        if last and last.entry == entry and not last.old and last.at + len(last.new) == len(self.events):
            last.new.append(event)
        else:
            self.changes.append(Change(entry, len(self.events), array("I"), array("I", [event])))

    def popped(self, entry: int, event: int) -> None:
        """Keeps that the last event was taken away."""
        last = self.changes[-1] if self.changes else None
        if last and last.entry == entry and not last.new and last.at == len(self.events) + 1:
            last.at -= 1
            last.old.insert(0, event)
        else:
            self.changes.append(Change(entry, len(self.events), array("I", [event]), array("I")))

    def exchanged(self, entry: int, at: int) -> None:
        """Keeps that two neighbours have changed places."""
        now = self.events[at : at + 2]
        self.changes.append(Change(entry, at, now[::-1], now))

    def replaced(self, entry: int, old: array[int]) -> None:
        """Keeps that all events are others."""
        self.changes.append(Change(entry, 0, old[:], self.events[:]))

    def events_at(self, number: int) -> list[int] | None:
        """Its events when the log had this many entries; None if it changed too much since then."""
        events = list(self.events)
        for change in reversed(self.changes):
            if change.entry < number:
                return events
            events[change.at : change.at + len(change.new)] = change.old
        return events if len(self.changes) < CHANGES else None
