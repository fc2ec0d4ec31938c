"""The requests of the page: each is checked, and answered by the bench."""

import asyncio
from collections.abc import Awaitable, Callable, Iterable, Mapping

from . import frontier, messages, steps
from .bench import Bench
from .checked import Mistake, counted, named, paired
from .deadlocks import Deadlocks
from .kept import Names, Seen
from .news import News
from .pairs import Pairs, Races
from .row import Row
from .shown import Shown
from .source import Source
from .text import JsonObject

# The most rows of a window, entries of the feed, races, entries taken back, and lines of news.
ROWS, ENTRIES, BLOCKS, UNDONE, NEWS = 400, 300, 200, 4096, 40
# The farthest that an event is moved at once, as many commands as a batch has.
FARTHEST = 64
# A schedule of more rows has a map at its side.
MAPPED = 150
# What is found beside the steps is listed before the trace is read.
LISTS = ("races", "deadlocks")


def places_of(row: messages.Row) -> list[str]:
    """The location of a row's event, or those of the two ends of a block."""
    return [row["first"]["location"], row["last"]["location"]] if "size" in row else [row["location"]]


class Requests:
    def __init__(self, bench: Bench, races: Races, pairs: Pairs, source: Source, seen: Seen, title: str) -> None:
        self.bench, self.races, self.pairs = bench, races, pairs
        self.source, self.seen, self.title = source, seen, title
        self.deadlocks = Deadlocks()
        self.fault: str | None = None  # why what is drawn cannot be gone by
        self.link: Callable[[], str] = str
        self.names = Names(bench.mirror.path)
        self.news = News(bench.client)
        self.is_ready, self.is_greeted = asyncio.Event(), asyncio.Event()

    async def answer(self, request: JsonObject, asker: object) -> Mapping[str, object]:
        do: Callable[[JsonObject], Awaitable[Mapping[str, object]]] | None = getattr(
            self, f"do_{request.get('do')}", None
        )
        if do is None:
            raise Mistake("no such request")
        if request.get("do") not in LISTS:
            await self.is_ready.wait()
        request["asker"] = asker
        return await do(request)

    # What is where.

    async def do_hello(self, request: JsonObject) -> messages.Hello:
        self.is_greeted.set()
        trace, mirror = self.bench.trace, self.bench.mirror
        first = max(0, len(mirror.entries) - 200)
        return {
            "title": self.title,
            "client": self.bench.client,
            "events": len(trace),
            "threads": [[trace.threads.text(number), len(own)] for number, own in enumerate(trace.events_of)],
            "variables": len(trace.variables.raw),
            "locks": len(trace.locks.raw),
            "log_length": len(mirror.entries),
            "seen": self.seen.read(mirror.digest),
            "rows": mirror.schedule_messages(),
            "feed": mirror.entry_messages(first, 200),
            "proposals": mirror.proposal_messages(),
            "fault": self.fault,
            "source": bool(self.source.folder),
            "names": self.names.names,
        }

    async def do_seen(self, request: JsonObject) -> messages.Nothing:
        mirror = self.bench.mirror
        self.seen.write(mirror.digest, counted(request["log_length"], len(mirror.entries)))
        return {}

    async def do_link(self, request: JsonObject) -> messages.Link:
        return {"link": self.link()}

    def _aim(self, request: JsonObject) -> tuple[int, ...]:
        aim = request.get("aim")
        if not aim:
            return ()
        pair = paired(aim)
        counted(pair[1], len(self.bench.trace) - 1)
        return pair

    async def do_view(self, request: JsonObject) -> messages.View:
        """A window of rows: from a row on, at the end, or round a position that is to be seen."""
        sheet, row = self.bench.viewed(request["view"])
        aim, count = self._aim(request), min(counted(request["count"]), ROWS)
        if "toggle" in request and len(sheet):
            sheet.toggle(counted(request["toggle"], len(sheet) - 1))
        layout = self.bench.layout(sheet)
        sought: int | None = None
        if "at" in request:
            at = min(counted(request["at"]), max(0, len(sheet) - 1))
            sought = layout.row_of(at) if len(sheet) else 0
            first = max(0, sought - count // 2)
        else:
            first = max(0, layout.total - count) if request["from"] is None else counted(request["from"])
        message = layout.window(first, count)
        message["log_length"] = len(self.bench.mirror.entries)
        message["lanes"] = layout.lanes({self.bench.trace.thread[event] for event in aim})
        message["counts"] = [[thread, made] for thread, made in enumerate(sheet.counts) if made]
        if layout.total > MAPPED:
            message["map"] = layout.overview()
            places = [sheet.position[event] for event in aim]
            message["aimed"] = [layout.row_of(place) for place in places if place >= 0]
        if sought is not None:
            message["row"] = sought
        if row:
            self._say_who(message["rows"], row)
        if self.source.folder:
            message["source"] = self.source.of_places({place for one in message["rows"] for place in places_of(one)})
        return message

    def _say_who(self, rows: list[messages.Row], row: Row) -> None:
        """Adds to each row of a window the latest entry that put an event there, and whose it is."""
        for one in rows:
            one["entry"] = max(row.since[one["position"] : one["position"] + one.get("size", 1)])
            one["by"] = self.bench.mirror.entries[one["entry"]].client

    def _lines_of(self, events: Iterable[messages.Event]) -> dict[str, str]:
        """The source lines of events, by location."""
        return self.source.of_places({event["location"] for event in events})

    async def do_frontier(self, request: JsonObject) -> messages.Frontier:
        message = await frontier.frontier(self.bench, named(request["name"]), self._aim(request))
        if self.source.folder:
            message["source"] = self._lines_of(message["next"])
        return message

    async def do_ahead(self, request: JsonObject) -> messages.Ahead:
        thread, first, count = (counted(request[key]) for key in ("thread", "from", "count"))
        message = frontier.ahead(self.bench, named(request["name"]), thread, first, count)
        if self.source.folder:
            message["source"] = self._lines_of(message["events"])
        return message

    async def do_source(self, request: JsonObject) -> messages.SourceLines:
        if not isinstance(request["place"], str):
            raise Mistake("no such place")
        return self.source.around(request["place"], counted(request["around"])) or {"none": True}

    async def do_check(self, request: JsonObject) -> messages.Check:
        return {"same": await self.bench.check(named(request["name"]))}

    # Steps.

    def _shown(self, request: JsonObject) -> Shown:
        """The schedule of a step, as the page showed it."""
        return Shown(self.bench, named(request["name"]), request.get("shown"))

    async def do_add(self, request: JsonObject) -> messages.Step:
        return await steps.add(self.bench, named(request["name"]), counted(request["event"]))

    async def do_back(self, request: JsonObject) -> messages.Step:
        return await steps.back(self._shown(request))

    async def do_back_to(self, request: JsonObject) -> messages.Step:
        return await steps.back_to(self._shown(request), counted(request["length"]))

    async def do_reach(self, request: JsonObject) -> messages.Reach:
        """Whether the aim of the page can still be reached from the schedule."""
        return steps.reach(self.bench, named(request["name"]), self._aim(request))

    async def do_new(self, request: JsonObject) -> messages.Step:
        return await steps.one(self.bench, f"new {named(request['name'])}")

    async def do_drop(self, request: JsonObject) -> messages.Step:
        return await steps.one(self.bench, f"drop {named(request['name'])}")

    async def do_branch(self, request: JsonObject) -> messages.Step:
        return await steps.branch(self._shown(request), counted(request["length"]), named(request["to"]))

    async def do_adopt(self, request: JsonObject) -> messages.Step:
        return await steps.one(self.bench, f"adopt {named(request['name'])} {counted(request['proposal'])}")

    async def do_propose(self, request: JsonObject) -> messages.Step:
        sheet, _ = self.bench.viewed(request["view"])
        return await steps.propose(self.bench, paired(request["pair"]), sheet.events)

    async def do_swap(self, request: JsonObject) -> messages.Step:
        by = request["by"]
        if not isinstance(by, int) or abs(by) > FARTHEST:
            raise Mistake("no such move")
        return await steps.move(self._shown(request), counted(request["position"]), by)

    async def do_run(self, request: JsonObject) -> messages.Step:
        """Runs a thread until it must stop, or to an event, with it or up to it."""
        trace, until = self.bench.trace, request.get("until")
        if until is None:
            thread = counted(request["thread"], len(trace.events_of) - 1)
        else:
            until = counted(until, len(trace) - 1)
            thread = trace.thread[until]
            if request.get("thread", thread) != thread:
                raise Mistake(f"{until} is an event of {trace.threads.text(thread)}")
        if until is not None and request.get("aim"):
            return await steps.run_to_aim(self.bench, named(request["name"]), until, self._aim(request))
        return await steps.Run(self.bench, named(request["name"])).to(thread, until)

    async def do_undo(self, request: JsonObject) -> messages.Step:
        entries = [counted(entry) for entry in request.get("entries") or []]
        return await steps.undo(self.bench, entries[:UNDONE])

    async def do_enter(self, request: JsonObject) -> messages.Step:
        sheet, _ = self.bench.viewed(request["view"])
        pair = request["view"].get("witness") and paired(request["view"]["witness"])
        is_race = pair and not self.bench.trace.are_requests(pair)  # a proposal is of two accesses
        return await steps.enter(self.bench, named(request["name"]), sheet.events[:], pair if is_race else None)

    # The log, the races and the deadlocks.

    async def do_feed(self, request: JsonObject) -> messages.Feed:
        first, count = counted(request["from"]), min(counted(request["count"]), ENTRIES)
        return {"entries": self.bench.mirror.entry_messages(first, count)}

    async def do_since(self, request: JsonObject) -> messages.News:
        return {"news": (await self.news.since(counted(request["from"]), self.bench.mirror.entries))[:NEWS]}

    async def do_races(self, request: JsonObject) -> messages.Races:
        kinds = [kind for kind in request["kinds"] if isinstance(kind, str)]
        first, count = counted(request["from"]), min(counted(request["count"]), BLOCKS)
        return self.races.window(str(request.get("text") or ""), kinds, first, count)

    async def do_deadlocks(self, request: JsonObject) -> messages.Deadlocks:
        first, count = counted(request["from"]), min(counted(request["count"]), BLOCKS)
        return self.deadlocks.window(str(request.get("text") or ""), first, count)

    async def do_witness(self, request: JsonObject) -> messages.Witness:
        message = await self.pairs.witness(paired(request["pair"]), request["asker"])
        if self.source.folder:
            message["source"] = self._lines_of(message["accesses"])
        return message

    async def do_pair(self, request: JsonObject) -> messages.Accesses:
        return {"accesses": [self.bench.trace.event_message(event) for event in self._aim({"aim": request["pair"]})]}

    async def do_explain(self, request: JsonObject) -> messages.Explanation:
        return await self.pairs.explain(paired(request["pair"]))
