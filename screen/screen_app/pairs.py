"""Pairs of events: their witnesses and explanations, and the list of races."""

from __future__ import annotations

import asyncio
import re
from array import array
from collections.abc import Callable, Iterator
from typing import Any, cast
from weakref import WeakKeyDictionary

from .bench import Bench
from .checked import Mistake
from .findings import UNREAD, Findings, Progress
from .frontier import waits_of
from .kept import Confirmed
from .messages import Explanation, Witness
from .messages import Races as RacesMessage
from .session import Gone, Session, output, triage
from .text import JsonObject, Odd, clean, odd

# How many lines of an explanation are shown.
LINES = 400
# How many witnesses are kept; each has four bytes an event.
WITNESSES = 16
# The beginning of a line of `witness`: an event's number.
EVENT = re.compile(rb"(\d{1,9})  ")
Look = asyncio.Task[tuple[int, bytes, str]]


class Pairs:
    """Looks at pairs beside the log: nothing here makes an entry."""

    def __init__(self, bench: Bench) -> None:
        self.bench = bench
        # Who walks down the races looks at the last one alone. Each browser does so for itself.
        self.latest: WeakKeyDictionary[object, object] = WeakKeyDictionary()
        self.looking: WeakKeyDictionary[object, Look] = WeakKeyDictionary()
        self.looker: Session | None = None
        self.explained: dict[tuple[int, int], list[str]] = {}
        self.knows_witness = True  # until the program says that it is no question

    @property
    def is_asked(self) -> bool:
        return self.bench.questions and self.knows_witness

    async def witness(self, pair: tuple[int, int], asker: object) -> Witness:
        """The list that shows the pair, kept for views of it; without a list, the reason."""
        if pair[1] >= len(self.bench.trace):
            raise Mistake("no such event")
        message: Witness = {"pair": list(pair), "accesses": [self.bench.trace.event_message(event) for event in pair]}
        is_deadlock = self.bench.trace.are_requests(pair)
        if pair not in self.bench.witnesses:
            none = await (self._ask(pair, asker) if self.is_asked and not is_deadlock else self._run(pair, asker))
            if none is not None:
                message["none"] = clean(none)
                return message
        if is_deadlock:
            message["waits"] = waits_of(self.bench.viewed({"witness": list(pair)})[0], pair)
            if not message["waits"]:
                del self.bench.witnesses[pair]
                message["none"] = "the schedule does not show the deadlock"
                return message
        message["length"] = len(self.bench.witnesses[pair])
        return message

    def _keep(self, pair: tuple[int, int], events: array[int]) -> None:
        kept = self.bench.witnesses
        while len(kept) >= WITNESSES:
            kept.pop(next(iter(kept)))
        kept[pair] = events

    async def _run(self, pair: tuple[int, int], asker: object) -> str | None:
        """Has `witness` of the program print the list."""
        if asker in self.looking:
            self.looking[asker].cancel()
        mine = asyncio.ensure_future(output(self.bench.program, "witness", self.bench.trace.path, *map(str, pair)))
        self.looking[asker] = mine
        try:
            status, out, error = await mine
        except asyncio.CancelledError:
            return "left for another"
        finally:
            if self.looking.get(asker) is mine:
                del self.looking[asker]
        if status:
            return error.removeprefix("racebench: ")
        try:
            self._keep(pair, events_of(out, len(self.bench.trace)))
        except Odd as why:
            return f"the schedule cannot be read: {why}"
        return None

    async def _ask(self, pair: tuple[int, int], asker: object) -> str | None:
        """Asks a second session, so that no step waits for it. It knows the trace already."""
        self.latest[asker] = mine = object()
        if self.looker is None:
            self.looker = Session(*self.bench.session.parts)
        await self.looker.turn.acquire()
        self.looker.turn.release()
        if self.latest[asker] is not mine:
            return "left for another"
        try:
            (answer,) = await self.looker.ask(f"? witness {pair[0]} {pair[1]}")
        except Gone:
            answer = "line"
        if answer.startswith("line"):  # it is no question there, or too much for that session
            self.knows_witness = False
            return await self._run(pair, asker)
        if not answer.startswith("witness "):
            return answer.removeprefix("refused ")
        self._keep(pair, array("I", list(map(int, answer.split(" ")[2:]))))
        return None

    async def explain(self, pair: tuple[int, int]) -> Explanation:
        if pair not in self.explained:
            status, out, error = await output(self.bench.program, "explain", self.bench.trace.path, *map(str, pair))
            lines = (error.encode() if status else out).removesuffix(b"\n").split(b"\n")
            more = len(lines) - LINES
            left = "1 line" if more == 1 else f"{more} lines"
            rest = [f"and {left} more: racebench explain TRACE {pair[0]} {pair[1]}"] if more > 0 else []
            self.explained[pair] = [clean(line) for line in lines[:LINES]] + rest
        return {"pair": list(pair), "lines": self.explained[pair]}

    async def stop(self) -> None:
        for looking in self.looking.values():
            looking.cancel()
        if self.looker:
            await self.looker.stop()


def events_of(text: bytes, number: int) -> array[int]:
    """The events of a schedule that `witness` printed, one a line, of a trace with this number of events."""
    events = array("I")
    seen: set[int] = set()
    for at, line in enumerate(filter(None, text.split(b"\n")), 1):
        found = EVENT.match(line)
        event = int(found[1]) if found else number
        if event >= number or event in seen:
            raise odd(at, line)
        seen.add(event)
        events.append(event)
    return events


class Races(Findings):
    """What `triage` says of the trace, in windows."""

    def __init__(self) -> None:
        super().__init__("races")

    async def look(self, bench: Bench, changed: Callable[[], None]) -> None:
        """Looks for the races; says when there is something new of how far that is."""
        progress = Progress(self.state, changed)
        confirmed = Confirmed(bench.trace.path).read()
        try:
            counts, more = await triage(
                bench.program,
                bench.trace.path,
                progress.hear,
                lambda block: self._take(block, confirmed),
                *bench.decided,
            )
            self.found(more, counts=counts)
        except (Gone, *UNREAD) as why:
            self.failed(why)
        finally:
            progress.stop()

    def _take(self, block: dict[str, Any], confirmed: dict[tuple[int, int], JsonObject]) -> None:
        first, second = sorted(access["event"] for access in block["accesses"])
        ended = confirmed.get((first, second))
        if ended and all(
            ended["places"].get(one["event"], one["location"]) == one["location"] for one in block["accesses"]
        ):  # else that file is of another trace
            block["ended"] = {"word": ended["word"], "text": ended["text"]}
        for access in block["accesses"]:
            access.update({key: clean(access[key]) for key in ("thread", "variable", "location")})
            access["holds"] = [clean(lock) for lock in access["holds"]]
        self.keep(block["kind"], block, texts_of(block))

    def window(self, text: str, kinds: list[str], first: int, count: int) -> RacesMessage:
        return cast(RacesMessage, self.chosen(text, kinds, first, count))


def texts_of(block: dict[str, Any]) -> Iterator[str]:
    """What a filter looks in."""
    yield from (block["kind"], block.get("how", ""))
    for access in block["accesses"]:
        yield from (access["location"], access["thread"], access["variable"], str(access["event"]))
