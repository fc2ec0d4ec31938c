"""Steps that go by positions: they are for the events that the page showed there."""

from __future__ import annotations

from typing import Any, cast

from .bench import ACCEPTED, Bench
from .checked import counted
from .messages import Changed, Step
from .row import Row
from .text import clean

# The most entries of this analyst that a page names.
OWN = 4096
NOT_SENT = "not sent: the schedule was changed meanwhile"
UNDONE = ": undone "


class Shown:
    """A schedule as the page showed it: how many entries the log had, and the page's own entries since.

    Another analyst may change the schedule before the page shows that. If other events are at the positions of a step
    by then, it is not made. The log may also grow between this look and the step; then the step is taken back.
    """

    def __init__(self, bench: Bench, name: str, message: Any) -> None:
        self.bench, self.name = bench, name
        bench.mirror.sync()
        self.known = len(bench.mirror.entries) if message is None else counted(message["log_length"])
        self.own = set() if message is None else {counted(entry) for entry in message["own"][:OWN]}
        self.made: list[int] = []
        self.other: Changed = {}  # the entry of another that changed these events, and its client

    async def say(self, line: str, low: int = -1, high: int | None = None) -> str:
        """The answer to a line that is about the events from one position up to another; about the last, if not told.

        `other` says whether another one changed them.
        """
        self.bench.mirror.sync()
        before = len(self.bench.mirror.entries)
        if self._is_other(before, low, high):
            return NOT_SENT
        answer = await self.bench.say_one(line)
        found = ACCEPTED.match(answer)
        at = int(found[1]) if found else len(self.bench.mirror.entries)
        if found:
            self.made.append(at)
        if at == before or not self._is_other(at, low, high):
            return clean(answer)
        return await self._take_back(at) if found else NOT_SENT

    async def _take_back(self, entry: int) -> str:
        """A step that was made on other events. It stays if another entry rests on it already."""
        self.other["made"] = entry
        answer = await self.bench.say_one(f"undo {entry}")
        if UNDONE in answer:
            self.made.append(int(answer.partition(":")[0]))
        else:
            self.other["stays"] = True
        return clean(answer)

    def _is_other(self, number: int, low: int, high: int | None) -> bool:
        """Whether the schedule had other events there, when the log had this many entries."""
        row, entries = self.bench.mirror.rows.get(self.name), self.bench.mirror.entries
        if row is None:
            return False  # the program says so
        own = self.own.union(self.made)
        others = [entry for entry in row.touches_from(self.known) if entry < number and entry not in own]
        if not others or (row.birth[0] not in others and self._is_same(row, number, own, (low, high))):
            return False
        found = changer(row, others, (low, high))
        self.other = {"entry": found, "client": entries[found].client, "name": self.name}
        return True

    def _is_same(self, row: Row, number: int, own: set[int], span: tuple[int, int | None]) -> bool:
        """Whether what the page showed, with the page's own steps since, has these events too."""
        shown, now = row.events_at(self.known), row.events_at(number)
        if shown is None or now is None:
            return False
        for change in row.changes:
            if self.known <= change.entry < number and change.entry in own:
                shown[change.at : change.at + len(change.old)] = change.new
        return shown[span[0] : span[1]] == now[span[0] : span[1]]

    def step(self, answer: str, **more: object) -> Step:
        step = cast(Step, {"answer": answer, "made": self.made, **more})
        if self.other:
            step["changed"] = self.other
        return step


def changer(row: Row, others: list[int], span: tuple[int, int | None]) -> int:
    """Which of the others' entries changed the events from one position up to another first."""
    low = span[0] if span[0] >= 0 else len(row.events) - 1
    for change in row.changes:
        end = change.at + max(len(change.old), len(change.new))
        if change.entry in others and end > low and (span[1] is None or change.at < span[1]):
            return change.entry
    return others[0]
