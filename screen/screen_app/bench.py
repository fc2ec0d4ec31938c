"""One trace and one log, as one client sees them: the session, the log's mirror, and sheets of what is looked at."""

from __future__ import annotations

import re
from array import array
from typing import Any

from .checked import Mistake, named, paired
from .layout import Layout
from .mirror import Mirror
from .reach import Aim
from .row import Row
from .session import Session
from .sheet import Sheet
from .trace import Trace

# How many sheets are kept. Each holds four bytes for each event of the trace, and more for each of the sheet's events.
SHEETS = 8
# The answer to a call that was accepted begins with its entry.
ACCEPTED = re.compile(r"(\d+): ")


class Bench:
    def __init__(self, program: str, trace: Trace, log: str, client: int) -> None:
        self.program, self.trace, self.client = program, trace, client
        self.session = Session(program, trace.path, log, client)
        self.mirror = Mirror(log, trace)
        self.sheets: dict[tuple[object, ...], Sheet] = {}
        self.layouts: dict[Sheet, tuple[int, Layout]] = {}
        self.witnesses: dict[tuple[int, int], array[int]] = {}
        self.needs: dict[tuple[int, ...], dict[int, int]] = {}  # of an aim, as its witness has them
        self.aims: dict[tuple[int, ...], Aim] = {}
        self.decided: list[str] = []  # words of `triage` that leave out races
        self.questions = False  # whether the program answers lines that begin with `?`

    async def open(self) -> None:
        """Starts the session, and finds out once which questions its program can answer."""
        names, rows = await self.session.ask("list", "? rows")
        self.questions = rows.startswith("rows ")

    async def say(self, *lines: str) -> list[str]:
        answers = await self.session.ask(*lines)
        self.mirror.sync()
        self._look_for(answers)
        return answers

    def _look_for(self, answers: list[str]) -> None:
        """What the program answered is in its log by then. If it is not in this file, another one has its name."""
        accepted = [int(found[1]) for found in map(ACCEPTED.match, answers) if found]
        if accepted and accepted[-1] >= len(self.mirror.entries):
            self.mirror.fault = self.mirror.fault or "the log is not the file that the program writes"

    async def say_one(self, line: str) -> str:
        return (await self.say(line))[0]

    def row(self, name: str) -> Row:
        row = self.mirror.rows.get(name)
        if row is None:
            raise Mistake("no such schedule")
        return row

    def _sheet(self, key: tuple[object, ...], events: array[int]) -> Sheet:
        sheet = self.sheets.pop(key, None) or Sheet(self.trace)
        self.sheets[key] = sheet  # the last one used is last
        if len(self.sheets) > SHEETS:
            self.layouts.pop(self.sheets.pop(next(iter(self.sheets))), None)
        sheet.become(events)
        return sheet

    def sheet(self, name: str) -> Sheet:
        return self._sheet(("schedule", name), self.row(name).events)

    def layout(self, sheet: Sheet) -> Layout:
        version, layout = self.layouts.get(sheet, (-1, None))
        if layout is None or version != sheet.version:
            layout = Layout(sheet)
            self.layouts[sheet] = (sheet.version, layout)
        return layout

    def viewed(self, view: Any) -> tuple[Sheet, Row | None]:
        """The sheet of what a browser looks at: a witness, or a schedule with its row."""
        if not isinstance(view, dict):
            raise Mistake("no such view")
        if "witness" not in view:
            name = named(view.get("schedule"))
            return self.sheet(name), self.row(name)
        pair = paired(view["witness"])
        if pair not in self.witnesses:
            raise Mistake("no such witness")
        return self._sheet(("witness", *pair), self.witnesses[pair]), None

    def aim(self, pair: tuple[int, ...]) -> Aim | None:
        """What a pair needs, if its witness is known and the trace's reads have their writers."""
        if len(pair) != 2 or (pair[0], pair[1]) not in self.witnesses or not self.trace.is_connected:
            return None
        if pair not in self.aims:
            self.aims.clear()  # each takes as much memory as its witness
            self.aims[pair] = Aim(self.trace, (pair[0], pair[1]), self.witnesses[pair[0], pair[1]])
        return self.aims[pair]

    async def check(self, name: str) -> bool:
        """Whether the program shows the schedule as it is drawn."""
        for _ in range(5):
            version = self.row(name).version
            answer = await self.say_one(f"show {name}")
            if name in self.mirror.rows and self.row(name).version == version:
                return answer == " ".join(["shown", *map(str, self.row(name).events)])
        return True  # others change it all the time; it is looked at again when they rest
