"""The deadlocks of the trace: the text of `racebench deadlocks`, read strictly, and the list that a page shows."""

from __future__ import annotations

import contextlib
import re
from collections.abc import Callable, Iterator
from typing import NamedTuple, cast

from .bench import Bench
from .findings import UNREAD, Findings, Progress
from .messages import Deadlock, Hold, Request
from .messages import Deadlocks as DeadlocksMessage
from .session import MOST_BLOCKS, Gone, lines_of
from .text import Odd, clean, odd

# The counts, in the order of their lines.
COUNTS = ("events", "threads", "nested", "patterns", "deadlocks", "undecided", "apart", "whole")
NUMBER = rb"(0|[1-9]\d{0,9})"
COUNT = re.compile(rb"([a-z]+) " + NUMBER)
HEAD = re.compile(
    rb"(?:deadlock %b %b (ordered|turned) events %b threads %b|undecided %b %b tried %b)" % ((NUMBER,) * 7)
)
# The canonical line of an acquire, after its blanks. No name has a bar, and a location may have any byte.
ACQUIRE = rb"([^|]+)\|acq\(([^|]+)\)\|(.*)"
REQUEST = re.compile(rb"  (?! )" + ACQUIRE, re.DOTALL)
HOLD = re.compile(rb"    holds " + ACQUIRE, re.DOTALL)
OTHER = re.compile(rb"    holds ([^|]+)", re.DOTALL)
SINCE = re.compile(rb" since " + NUMBER + rb"  (.+)", re.DOTALL)
NOT_WHOLE = b"not whole: "
# The most bytes of a line. One of a trace has up to 4,096, and a lock's name up to 255.
LONGEST = 1 << 16


# A line with its number.
Line = tuple[int, bytes]


class Head(NamedTuple):
    """The first line of a block. HOW is empty if the pattern is undecided."""

    first: int
    second: int
    how: str = ""
    events: int = 0
    threads: int = 0


class Side(NamedTuple):
    """A request, and the acquire since which its thread holds the lock that the other request acquires."""

    thread: bytes
    lock: bytes
    location: bytes
    hold: bytes
    since: int
    since_location: bytes
    others: list[bytes]


class Report:
    """Reads the lines of the text, one after another. Each line that is not as its page of formats says is refused."""

    def __init__(self, take: Callable[[Deadlock], None]) -> None:
        self.take = take
        self.number = 0  # lines that were read
        self.counts: dict[str, int] = {}
        self.missing: str | None = None  # what the recording lacks
        self.head: Head | None = None
        self.inside: list[Line] = []  # the lines of the block below its first, each with its number
        self.found = {"deadlocks": 0, "undecided": 0}

    def line(self, line: bytes) -> None:
        self.number += 1
        if self.number == 1 and line.startswith(NOT_WHOLE):
            self.missing = clean(line.removeprefix(NOT_WHOLE))
        elif len(self.counts) < len(COUNTS):
            self._count(line)
        elif line.startswith(b"  ") and self.head:
            self.inside.append((self.number, line))
        else:
            self._end_block(self.number)
            self._begin_block(line)

    def _count(self, line: bytes) -> None:
        found = COUNT.fullmatch(line)
        if not found or found[1].decode() != COUNTS[len(self.counts)]:
            raise odd(self.number, line)
        self.counts[found[1].decode()] = int(found[2])

    def _begin_block(self, line: bytes) -> None:
        found = HEAD.fullmatch(line)
        if not found:
            raise odd(self.number, line)
        kind = "deadlocks" if found[1] else "undecided"
        first, second = (int(number) for number in (found.group(1, 2) if found[1] else found.group(6, 7)))
        is_late = kind == "deadlocks" and self.found["undecided"]
        if not first < second < self.counts["events"] or is_late:
            raise odd(self.number, line)
        self.found[kind] += 1
        self.head = Head(first, second)
        if found[1]:
            self.head = Head(first, second, found[3].decode(), int(found[4]), int(found[5]))

    def _end_block(self, before: int) -> None:
        """Takes the block that is before the line of this number, or before the end."""
        if self.head is None:
            return
        one, other = sides_of(self.inside, before)
        where = self.inside[0]
        head, self.head, self.inside = self.head, None, []
        is_circle = one.lock == other.hold and other.lock == one.hold and one.lock != other.lock
        if not is_circle or one.thread == other.thread or one.since >= head.first or other.since >= head.second:
            raise odd(*where)
        if head.how:
            requests = [request_of(head.first, one), request_of(head.second, other)]
            self.take({"how": head.how, "events": head.events, "threads": head.threads, "requests": requests})

    def end(self) -> None:
        """The text is at its end: the counts must be those of the blocks."""
        if len(self.counts) < len(COUNTS):
            raise Odd(f"it ends after {self.number} lines")
        self._end_block(self.number + 1)
        for kind, number in self.found.items():
            if number != self.counts[kind]:
                raise Odd(f"it counts {self.counts[kind]} {kind}, and has {number}")
        if self.counts["patterns"] != sum(self.counts[kind] for kind in ("deadlocks", "undecided", "apart")):
            raise Odd(f"it counts {self.counts['patterns']} patterns, and the kinds are others")
        if self.counts["whole"] not in (1, 2):
            raise Odd(f"it counts whole {self.counts['whole']}")


def sides_of(lines: list[Line], before: int) -> tuple[Side, Side]:
    """The two requests of a block, which ends before the line of this number."""
    left = iter(lines)
    one, line = side_of(next(left, None), left, before)
    other, line = side_of(line, left, before)
    if line is not None:
        raise odd(*line)
    return one, other


def side_of(line: Line | None, left: Iterator[Line], before: int) -> tuple[Side, Line | None]:
    """A request with the locks that its thread holds, and the line after them."""
    asked = REQUEST.fullmatch(line[1]) if line else None
    if line and not asked:
        raise odd(*line)
    held = next(left, None)
    if asked is None or held is None:
        raise Odd(f"the block before line {before} is not whole")
    hold = hold_of(held, asked[1])
    others: list[bytes] = []
    after = next(left, None)
    while after is not None and (other := OTHER.fullmatch(after[1])):
        others.append(other[1])
        after = next(left, None)
    return Side(asked[1], asked[2], asked[3], *hold, others), after


def hold_of(line: Line, thread: bytes) -> tuple[bytes, int, bytes]:
    """A lock that the thread holds, the acquire since which it does, and its location. A lock may have any name, also
    one that looks like the rest of the line. The acquire has the name once more."""
    found = HOLD.fullmatch(line[1])
    since = SINCE.fullmatch(found[1].removeprefix(found[2])) if found and found[1].startswith(found[2]) else None
    if not found or not since or since[2] != thread:
        raise odd(*line)
    return found[2], int(since[1]), found[3]


def request_of(event: int, side: Side) -> Request:
    """A request for the browser."""
    hold: Hold = {"event": side.since, "lock": clean(side.hold), "location": clean(side.since_location)}
    return {
        "event": event,
        "thread": clean(side.thread),
        "lock": clean(side.lock),
        "location": clean(side.location),
        "hold": hold,
        "holds": [clean(lock) for lock in side.others],
    }


def texts_of(block: Deadlock) -> Iterator[str]:
    """What a filter looks in."""
    yield from ("deadlock", block["how"])
    for one in block["requests"]:
        yield from (str(one["event"]), one["thread"], one["lock"], one["location"])
        yield from (str(one["hold"]["event"]), one["hold"]["location"], *one["holds"])


class Deadlocks(Findings):
    """The deadlocks, in windows. Of patterns that are undecided or apart there are the counts."""

    def __init__(self) -> None:
        super().__init__("deadlocks")
        self.number = 0

    async def look(self, bench: Bench, changed: Callable[[], None]) -> None:
        """Has the program look for them; says when there is something new of how far that is."""
        progress = Progress(self.state, changed)
        report = Report(self._take)
        try:
            lines = lines_of(progress.hear, LONGEST, bench.program, "deadlocks", bench.trace.path)
            async with contextlib.aclosing(lines):
                async for line in lines:
                    report.line(line)
            report.end()
            facts = {"missing": report.missing} if report.missing else {}
            self.found(max(0, self.number - MOST_BLOCKS), counts=report.counts, **facts)
        except (Gone, *UNREAD) as why:
            self.failed(why)
        finally:
            progress.stop()

    def _take(self, block: Deadlock) -> None:
        self.number += 1
        if self.number <= MOST_BLOCKS:
            self.keep("deadlock", block, texts_of(block))

    def window(self, text: str, first: int, count: int) -> DeadlocksMessage:
        return cast(DeadlocksMessage, self.chosen(text, ["deadlock"], first, count))
