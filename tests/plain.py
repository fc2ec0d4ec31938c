"""A plain program that answers as `replay` and `info` do, written from docs/DEFINITIONS.md and docs/FORMATS.md;
and what the definitions say of a pair of events, for judges of `explain` and `witness`.

It goes over lists and over the trace, and has neither clocks nor tables nor steps back. Its log keeps the entries
alone: the rows of each log are folded anew of the commands that were not undone. What the headline of docs/PROMISES.md
claims for all logs is checked for each log here: if it does not hold, `Contradiction` is raised.
"""

from __future__ import annotations

from collections.abc import Callable, Iterable, Iterator, Mapping, Sequence
from typing import Any, Concatenate, NamedTuple, ParamSpec, TypeVar

import judging

LOG_LIMIT = 1_000_000
THREAD_LIMIT = 256
CANDIDATE_LIMIT = 1_000
BATCH_LIMIT = 64

# A list of events, by their numbers in the trace.
Listed = tuple[int, ...]
# A call: its word, and its arguments in the order of the script's line; a list of events is one argument, and so are
# the commands of a batch, each of which is the call that it is alone.
Call = tuple[Any, ...]
# A command or batch that was not undone: its number in the log, its client, and the call.
Live = tuple[int, int, Call]
# A row of a part that `merge` reads: an object of JSON.
ReportRow = Mapping[str, Any]


class Event(NamedTuple):
    """What one thread does: `word` is that of the trace text, `name` the variable, lock or thread."""

    thread: str
    word: str
    name: str


class Row(NamedTuple):
    """A schedule; its birth is the number of the entry that made it, and the place of the command in that entry."""

    birth: tuple[int, int]
    events: Listed


class Entry(NamedTuple):
    """`kind` is did, batch, proposed or undid. `what` is the call of a command, of a batch or of a proposal, and of an
    undo the number of the entry that it takes back."""

    client: int
    kind: str
    what: Any


Rows = dict[str, Row]
About = ParamSpec("About")
Answer = TypeVar("Answer")


class Contradiction(judging.Wrong):
    """Two of the definitions say different things."""


class Refused(Exception):
    """The number of a refusal and its words."""


def holds(events: Iterable[Event], thread: str, lock: str) -> int:
    """How often the thread holds the lock after these events."""
    own = [event.word for event in events if event.thread == thread and event.name == lock]
    return own.count("acq") - own.count("rel")


def breach(earlier: Sequence[Event], event: Event) -> int | None:
    """The number of the first rule that the event breaks after these events of a trace, or None."""
    thread, word, name = event
    done = [(other.word, other.name) for other in earlier]
    started = {other.thread for other in earlier}
    if ("join", thread) in done:
        return 16
    if word in ("fork", "join") and name == thread:
        return 15
    if word == "fork" and ("fork", name) in done:
        return 13
    if word == "fork" and (name in started or ("join", name) in done):
        return 14
    if word == "acq" and any(holds(earlier, other, name) for other in started - {thread}):
        return 12
    if word == "rel" and not holds(earlier, thread, name):
        return 11
    return None


def kept_answer(question: Callable[Concatenate[Trace, About], Answer]) -> Callable[Concatenate[Trace, About], Answer]:
    """The question to a trace, whose answer is kept: a trace never changes."""

    def answer(trace: Trace, /, *about: About.args, **named: About.kwargs) -> Answer:
        key = (question, *about)
        if key not in trace.asked:
            trace.asked[key] = question(trace, *about, **named)
        found: Answer = trace.asked[key]
        return found

    return answer


class Trace:
    """The events of a trace, and what the definitions say about events and about lists of their numbers (tuples)."""

    def __init__(self, events: Iterable[Event]) -> None:
        self.events = tuple(events)
        self.asked: dict[tuple[Any, ...], Any] = {}

    def line(self, event: int) -> str:
        """The line of the event, without its end."""
        thread, word, name = self.events[event]
        return f"{thread}|{word}({name})|"

    def location(self, event: int) -> str:
        """The source location of the event; drawn traces have none."""
        return ""

    def text(self) -> str:
        return "".join(self.line(event) + "\n" for event in range(len(self.events)))

    def thread(self, event: int) -> str:
        return self.events[event].thread

    def does(self, event: int, word: str, name: str) -> bool:
        return self.events[event].word == word and self.events[event].name == name

    def is_event(self, event: int) -> bool:
        return event < len(self.events)

    @kept_answer
    def events_of(self, thread: str) -> list[int]:
        return [event for event in range(len(self.events)) if self.thread(event) == thread]

    def threads(self) -> list[str]:
        """All threads in the order of their first uses, also those that are only forked or joined."""
        used = []
        for thread, word, name in self.events:
            used += [thread, name] if word in ("fork", "join") else [thread]
        return list(dict.fromkeys(used))

    @kept_answer
    def forks_of(self, thread: str) -> list[int]:
        return [event for event in range(len(self.events)) if self.does(event, "fork", thread)]

    def last_write(self, variable: str, events: Iterable[int]) -> int | None:
        """The last write of the variable among these events, or None."""
        writes = [event for event in events if self.does(event, "w", variable)]
        return writes[-1] if writes else None

    @kept_answer
    def last_writer(self, read: int) -> int | None:
        return self.last_write(self.events[read].name, range(read))

    def base(self, event: int) -> int | None:
        """The event before it in its thread; of the first one the thread's fork, or None."""
        earlier = [other for other in self.events_of(self.thread(event)) if other < event]
        if not earlier:
            earlier = self.forks_of(self.thread(event))
        return earlier[-1] if earlier else None

    def bases(self, *events: int) -> set[int]:
        """The bases of the events that have one."""
        return {base for base in map(self.base, events) if base is not None}

    def conflict(self, first: int, second: int) -> bool:
        one, other = self.events[first], self.events[second]
        operations = {one.word, other.word}
        return one.thread != other.thread and one.name == other.name and operations <= {"r", "w"} and "w" in operations

    def independent(self, first: int, second: int) -> bool:
        one, other = self.events[first], self.events[second]
        operations = {one.word, other.word}
        is_same = one.name == other.name
        return not (
            one.thread == other.thread
            or self.conflict(first, second)
            or (operations <= {"acq", "rel"} and is_same)
            or (one.word in ("fork", "join") and one.name == other.thread)
            or (other.word in ("fork", "join") and other.name == one.thread)
            or (operations == {"fork", "join"} and is_same)
        )

    # Correct reorderings.

    def keeps_thread_order(self, listed: Listed) -> bool:
        for thread in {self.thread(event) for event in listed}:
            own = [event for event in listed if self.thread(event) == thread]
            if own != self.events_of(thread)[: len(own)]:
                return False
        return True

    def may_stand(self, earlier: Listed, event: int) -> bool:
        """Whether the event keeps its writer, lock, fork and join if it comes after exactly these events."""
        thread, word, name = self.events[event]
        if any(fork not in earlier for fork in self.forks_of(thread)):
            return False
        if word == "r":
            return self.last_write(name, earlier) == self.last_writer(event)
        if word == "acq":
            done = [self.events[other] for other in earlier]
            return all(holds(done, other, name) == 0 for other in {one.thread for one in done} - {thread})
        if word == "join":
            return all(other in earlier for other in self.events_of(name) + self.forks_of(name))
        return True

    @kept_answer
    def is_reordering(self, listed: Listed) -> bool:
        return (
            all(self.is_event(event) for event in listed)
            and self.keeps_thread_order(listed)
            and all(self.may_stand(listed[:at], event) for at, event in enumerate(listed))
        )

    # Why an event may not come next, and why neighbours do not change places.

    @kept_answer
    def cause(self, listed: Listed, event: int) -> str | None:
        """The number and the text of the first cause for which the event may not come next, or None."""
        if not self.is_event(event):
            return "21 no such event"
        thread, word, name = self.events[event]
        if event in listed or any(other < event and other not in listed for other in self.events_of(thread)):
            return "22 not next"
        if any(fork not in listed for fork in self.forks_of(thread)):
            return "23 not forked"
        if word == "r":
            needs, has = self.last_writer(event), self.last_write(name, listed)
            texts = ["none" if write is None else write for write in (needs, has)]
            return None if needs == has else "24 wrong writer needs {} has {}".format(*texts)
        if word == "acq":
            done = [self.events[other] for other in listed]
            others = [one.thread for one in done if one.thread != thread and holds(done, one.thread, name)]
            return f"25 lock held by {others[0]}" if others else None
        if word == "join" and any(other not in listed for other in self.events_of(name) + self.forks_of(name)):
            return "26 join early"
        return None

    def extended(self, listed: Listed, event: int) -> Listed:
        """The list followed by the event, if that is a correct reordering."""
        cause = self.cause(listed, event)
        if self.is_reordering(listed + (event,)) != (cause is None):
            raise Contradiction(f"{event} after {listed} has the cause {cause}")
        if cause is not None:
            raise Refused(f"46 {cause}")
        return listed + (event,)

    def exchanged(self, listed: Listed, at: int) -> Listed:
        """The list with the events at this place and the next in each other's place."""
        if at + 1 >= len(listed):
            raise Refused("47 28 no such pair")
        if not self.independent(listed[at], listed[at + 1]):
            raise Refused("47 29 dependent")
        return listed[:at] + (listed[at + 1], listed[at]) + listed[at + 2 :]

    def first_fault(self, listed: Listed) -> int | None:
        """The first place at which the list stops being a correct reordering, or None."""
        for at in range(len(listed)):
            if not self.is_reordering(listed[: at + 1]):
                return at
        return None

    # Which pairs a list shows.

    def is_ready(self, listed: Listed, event: int) -> bool:
        earlier = [other for other in self.events_of(self.thread(event)) if other < event]
        return event not in listed and all(other in listed for other in earlier + self.forks_of(self.thread(event)))

    def shows(self, listed: Listed, first: int, second: int) -> bool:
        return (
            self.is_event(first)
            and self.is_event(second)
            and self.conflict(first, second)
            and self.is_ready(listed, first)
            and self.is_ready(listed, second)
        )

    @kept_answer
    def shown_pairs(self, listed: Listed) -> list[tuple[int, int]]:
        ready = [event for event in range(len(self.events)) if self.is_ready(listed, event)]
        return [(a, b) for a in ready for b in ready if a < b and self.shows(listed, a, b)]

    # SHB and candidates.

    def is_edge(self, first: int, second: int) -> bool:
        """Whether the first event comes before the second with nothing between them."""
        one, other = self.events[first], self.events[second]
        return (
            (first < second and one.thread == other.thread)
            or (first < second and one.word == "rel" and other.word == "acq" and one.name == other.name)
            or (one.word == "fork" and one.name == other.thread)
            or (other.word == "join" and one.thread == other.name)
            or (one.word == "fork" and other.word == "join" and one.name == other.name)
            or (other.word == "r" and self.last_writer(second) == first)
        )

    @kept_answer
    def chains(self) -> list[set[int]]:
        """For each event all to which a chain of edges leads from it, itself too."""
        numbers = range(len(self.events))
        after = [{first} | {second for second in numbers if self.is_edge(first, second)} for first in numbers]
        for between in numbers:
            for first in numbers:
                if between in after[first]:
                    after[first] |= after[between]
        return after

    def is_candidate(self, first: int, second: int) -> bool:
        """Whether the first of two conflicting events is neither the base of the second nor SHB-before it."""
        base = self.base(second)
        return base is None or base not in self.chains()[first]

    def conflicting(self) -> list[tuple[int, int]]:
        """All pairs of events that conflict, in rising order."""
        numbers = range(len(self.events))
        return [
            (first, second) for first in numbers for second in numbers[first + 1 :] if self.conflict(first, second)
        ]

    def candidates(self) -> list[tuple[int, int]]:
        """All candidates for a race, in rising order."""
        return [pair for pair in self.conflicting() if self.is_candidate(*pair)]

    def slice(self, first: int, second: int) -> Listed:
        """The events that are the base of one of the two, or from which a chain of edges leads to it."""
        bases = self.bases(first, second)
        return tuple(event for event, after in enumerate(self.chains()) if after & bases)

    # Must-before, and the kind of a pair.

    def section_end(self, acquire: int) -> int | None:
        """The release that ends the critical section of the acquire, after which its thread holds the lock as often as
        before it; or None."""
        thread, _, lock = self.events[acquire]
        for event in self.events_of(thread):
            if event > acquire and self.does(event, "rel", lock):
                if holds(self.events[: event + 1], thread, lock) == holds(self.events[:acquire], thread, lock):
                    return event
        return None

    def section_ends(self, acquires: Iterable[int]) -> set[int]:
        """The ends of the sections that these acquires begin, if they end."""
        return {end for end in map(self.section_end, acquires) if end is not None}

    def acquires(self, events: Iterable[int]) -> list[int]:
        """Those of the events that acquire a lock."""
        return [event for event in events if self.events[event].word == "acq"]

    def locks(self) -> list[str]:
        """All locks in the order of their first uses, which is that of their numbers."""
        return list(dict.fromkeys(event.name for event in self.events if event.word in ("acq", "rel")))

    @kept_answer
    def locks_before(self, event: int) -> list[str]:
        """The locks that the event's thread holds before it, in the order of their numbers."""
        return [lock for lock in self.locks() if holds(self.events[:event], self.thread(event), lock)]

    def held_since(self, event: int, lock: str) -> int:
        """The acquire since which the event's thread holds the lock before the event: of nested ones the outermost."""
        own = [
            other for other in self.events_of(self.thread(event)) if other < event and self.does(other, "acq", lock)
        ]
        return [acquire for acquire in own if not holds(self.events[:acquire], self.thread(event), lock)][-1]

    @kept_answer
    def links(self, event: int) -> set[int]:
        """What comes before the event with nothing between them: its base, the write that it reads, and what it
        joins."""
        _, word, name = self.events[event]
        before = [self.base(event)]
        if word == "r":
            before.append(self.last_writer(event))
        if word == "join":
            before += self.events_of(name) + self.forks_of(name)
        return {other for other in before if other is not None}

    def ends_first(self, acquire: int, event: int) -> bool:
        """Whether the section of the acquire must end before the event, given that the acquire comes before it: the
        event lies in a section of that lock in another thread, or begins one."""
        lock = self.events[acquire].name
        is_inside = lock in self.locks_before(event) or self.does(event, "acq", lock)
        return is_inside and self.thread(acquire) != self.thread(event) and self.section_end(acquire) is not None

    @kept_answer
    def must(self) -> list[set[int]]:
        """For each event all that are must-before it, itself too: the least sets with these that are closed under
        links and ends of sections."""
        numbers = range(len(self.events))
        before = [{event} for event in numbers]
        while True:
            grown = []
            for event in numbers:
                ends = self.section_ends(
                    acquire for acquire in self.acquires(before[event]) if self.ends_first(acquire, event)
                )
                grown.append(before[event].union(*[before[other] for other in self.links(event) | ends]))
            if grown == before:
                return before
            before = grown

    def is_forced(self, first: int, second: int) -> bool:
        """Whether the first event is the base of the second, or must-before that."""
        base = self.base(second)
        return base is not None and first in self.must()[base]

    def guard(self, first: int, second: int) -> str | None:
        """The least lock that both threads hold before the two events, or None."""
        common = [lock for lock in self.locks_before(first) if lock in self.locks_before(second)]
        return common[0] if common else None

    def kind(self, first: int, second: int) -> str:
        """Of which kind two conflicting events are, the earlier of which is the first."""
        if self.is_candidate(first, second):
            return "candidate"
        if self.is_forced(first, second):
            return "forced"
        return "open" if self.guard(first, second) is None else "guarded"

    # Schedules that show a pair.

    def needed(self, events: Iterable[int]) -> Listed:
        """The least set that has these events, with each event its links, and, of two acquires of one lock by
        different threads, the end of the section of the earlier; in the order of the trace."""
        needed = set(events)
        while True:
            grown = needed.union(*[self.links(event) for event in needed])
            taken = self.acquires(needed)
            for first in taken:
                for second in taken:
                    is_shared = self.events[first].name == self.events[second].name and self.thread(
                        first
                    ) != self.thread(second)
                    if first < second and is_shared:
                        grown |= self.section_ends([first])
            if grown == needed:
                return tuple(sorted(needed))
            needed = grown

    def in_order(self, first: int, second: int) -> Listed | None:
        """The least list in the order of the trace that shows the pair, or None if there is none."""
        listed = self.needed(self.bases(first, second))
        return None if first in listed or second in listed else listed

    def wanted(self, first: int, second: int) -> list[int]:
        """The least set that has the bases of both, with each event its links, and with each acquire the end of its
        section."""
        wanted = self.bases(first, second)
        while True:
            grown = wanted.union(self.section_ends(self.acquires(wanted)), *[self.links(event) for event in wanted])
            if grown == wanted:
                return sorted(wanted)
            wanted = grown

    def front(self, event: int) -> int:
        """The first acquire of the event's thread whose section is open before the event; else the event itself."""
        earlier = [other for other in self.events_of(self.thread(event)) if other < event]
        for acquire in self.acquires(earlier):
            end = self.section_end(acquire)
            if end is None or event < end:
                return acquire
        return event

    def greedy(self, listed: Listed, first: int, second: int) -> Listed | None:
        """What a search finds that begins with this list, and goes on by the first event that is wanted and may come
        next, and never goes back; or None."""
        wanted = [event for event in self.wanted(first, second) if event not in (first, second)]
        while not self.shows(listed, first, second):
            enabled = [event for event in wanted if self.cause(listed, event) is None]
            if not enabled:
                return None
            listed += (enabled[0],)
        return listed

    def turned(self, first: int, second: int) -> Listed | None:
        """What two searches find. The first begins with the least list in the order of the trace after which the
        second event is next. The second search begins with the least one that both threads need before the sections
        that are open before the two events."""
        found = self.greedy(self.needed(self.bases(second)), first, second)
        fronts = (self.front(first), self.front(second))
        if found is None and fronts != (first, second):
            found = self.greedy(self.needed(self.bases(*fronts)), first, second)
        return found

    @kept_answer
    def reorderings(self) -> list[Listed]:
        """All correct reorderings."""
        found: list[Listed] = [()]
        for listed in found:
            for event in range(len(self.events)):
                if self.cause(listed, event) is None:
                    found.append(self.extended(listed, event))
        return found

    def info(self) -> str:
        """What is printed of what the trace holds."""
        variables = {event.name for event in self.events if event.word in ("r", "w")}
        locks = {event.name for event in self.events if event.word in ("acq", "rel")}
        lines = [f"events {len(self.events)}", f"threads {len(self.threads())}"]
        lines += [f"variables {len(variables)}", f"locks {len(locks)}"]
        for number, thread in enumerate(self.threads()):
            lines.append(f"thread {number} {thread} {len(self.events_of(thread))}")
        pairs = self.candidates()[:CANDIDATE_LIMIT]
        lines.append(f"candidates {len(pairs)}")
        lines += [f"candidate {first} {second} {self.events[first].name}" for first, second in pairs]
        return "".join(line + "\n" for line in lines)


def is_on(lock: str, events: Iterable[Event]) -> int:
    """How many of the events are on the lock."""
    return sum(event.word in ("acq", "rel") and event.name == lock for event in events)


def prologue(events: Sequence[Event], start: int, end: int, name: str) -> list[Event]:
    """The events that take what is held at `start`, before the events up to `end`; `name` is that of their variable
    and lock."""
    trace, part = Trace(events), events[start:end]
    locks = list(dict.fromkeys(event.name for event in events if event.word in ("acq", "rel")))
    taken = [
        (thread, lock)
        for lock in locks
        for thread in trace.threads()
        for _ in range(min(holds(events[:start], thread, lock), 2 * is_on(lock, part)))
    ]
    made = []
    for thread, lock in taken:
        made += [
            Event(thread, "acq", name),
            Event(thread, "r", name),
            Event(thread, "rel", name),
            Event(thread, "acq", lock),
        ]
        made += [Event(thread, "acq", name), Event(thread, "w", name), Event(thread, "rel", name)]
    forked = {event.name for event in part if event.word == "fork"}
    own = {event.thread for event in part} - forked
    for thread in trace.threads() if taken else []:
        made += [Event(thread, word, name) for word in ("acq", "r", "rel") if thread in own]
    return made


def windows(length: int, most: int) -> list[tuple[int, int]]:
    """The first event of each window of a trace with this many events, and the first one after it: they overlap by
    half."""
    found: list[tuple[int, int]] = []
    for start in range(0, length, (most + 1) // 2):
        if not found or found[-1][1] < length:
            found.append((start, min(start + most, length)))
    return found


def threads_needed(events: Sequence[Event], start: int, end: int) -> int:
    """How many threads a window with these events has to know: those of its events, with those that they fork and join,
    those that hold a lock at its start, and those that forked and joined some of the first before, in its place."""
    before, part = events[:start], events[start:end]
    named = {event.thread for event in part} | {event.name for event in part if event.word in ("fork", "join")}
    seen = list(dict.fromkeys(event.thread for event in before))
    forked = {event.name for event in before if event.word == "fork"}
    joined = {event.name for event in before if event.word == "join"}
    depths: dict[tuple[str, str], int] = {}
    for event in before:
        if event.word in ("acq", "rel"):
            depths[event.thread, event.name] = depths.get((event.thread, event.name), 0) + (
                1 if event.word == "acq" else -1
            )
    needed = named | {thread for (thread, _), depth in depths.items() if depth}
    if named & forked:
        needed.add(seen[0])
    if named & joined:
        needed.add(next(thread for thread in seen if thread not in joined))
    return len(needed)


def narrow_windows(events: Sequence[Event], most: int) -> list[tuple[int, int]]:
    """The same where a window that would need more threads than a trace may have is halved until it does not."""
    found: list[tuple[int, int]] = []
    start, length = 0, len(events)
    while not found or found[-1][1] < length:
        half = most
        while threads_needed(events, start, min(start + half, length)) > THREAD_LIMIT:
            half //= 2
        count = min(half, length - start)
        found.append((start, start + count))
        start += (count + 1) // 2
    return found


def new_name(events: Iterable[Event]) -> str:
    """`window` with as few underscores as make it a name that no variable and no lock has."""
    used = {event.name for event in events if event.word not in ("fork", "join")}
    name = "window"
    while name in used:
        name += "_"
    return name


def call_text(call: Call) -> str:
    """The line of the call in a script, without its client."""
    if call[0] == "batch":
        return "batch " + " ; ".join(call_text(command) for command in call[1])
    fields: list[Any] = []
    for part in call:
        fields += part if isinstance(part, tuple) else [part]
    return " ".join(str(word) for word in fields)


def call_of(line: str) -> Call:
    """The call of a line of a script or a log. In a log each undo has the number of the entry that it took back."""
    word, *rest = line.split(" ")
    if word == "batch":
        return (word, tuple(call_of(part) for part in line.removeprefix("batch ").split(" ; ")))
    if word == "undo":
        return (word, *[int(number) for number in rest])
    if word == "propose":
        first, second, *listed = [int(number) for number in rest]
        return (word, first, second, tuple(listed))
    if word == "branch":
        return (word, rest[0], int(rest[1]), rest[2])
    return (word, *rest[:1], *[int(number) for number in rest[1:]])


def commands_of(call: Call) -> tuple[Call, ...]:
    """The commands of a batch, in their order, or the command that is alone."""
    return tuple(call[1]) if call[0] == "batch" else (call,)


def written(command: Call) -> str:
    """The name that a command alone writes."""
    return str(command[3] if command[0] == "branch" else command[1])


def writes(call: Call) -> list[str]:
    """The names that its commands write, each once, in the order in which they come first."""
    return list(dict.fromkeys(written(command) for command in commands_of(call)))


def touches(call: Call) -> set[str]:
    """The names that its commands write or copy."""
    return {name for command in commands_of(call) for name in (command[1], written(command))}


class Log:
    """The entries of a log, and what the definitions say about them."""

    def __init__(self, trace: Trace, entries: tuple[Entry, ...] = ()) -> None:
        self.trace = trace
        self.entries = entries
        self.board: list[Listed] = [entry.what[3] for entry in entries if entry.kind == "proposed"]
        undone = {entry.what for entry in entries if entry.kind == "undid"}
        # The commands and batches that were not undone, each with its number and client.
        self.live = [
            (number, entry.client, entry.what)
            for number, entry in enumerate(entries)
            if entry.kind in ("did", "batch") and number not in undone
        ]
        self.rows = self.fold(self.live)

    def fold(self, live: Iterable[Live]) -> Rows:
        """The rows that these make of none, in their order: none is refused, and each row is a correct reordering."""
        rows: Rows = {}
        for number, _, call in live:
            try:
                self.change(rows, number, call)
            except Refused as why:
                raise Contradiction(f"{number} {call_text(call)}, which was not undone, is refused: {why}") from why
        for name, row in rows.items():
            if not self.trace.is_reordering(row.events):
                raise Contradiction(f"{name} is no correct reordering: {row.events}")
        return rows

    def rows_after(self, rows: Rows, number: int, call: Call) -> Rows:
        """What this call of this number makes of the rows, which stay as they are."""
        after = dict(rows)
        self.change(after, number, call)
        return after

    def change(self, rows: Rows, number: int, call: Call) -> None:
        """Does the commands of this call of this number, one after another, up to the first that is refused."""
        for place, command in enumerate(commands_of(call)):
            try:
                row = self.row_after(rows, (number, place), command)
            except Refused as why:
                if call[0] == "batch":
                    raise Refused(f"70 at {place} {why}") from why
                raise
            rows.pop(written(command), None)
            if row is not None:
                rows[written(command)] = row

    def row_after(self, rows: Rows, birth: tuple[int, int], command: Call) -> Row | None:
        """What a command of this birth makes of the row that it writes; None where that goes."""
        word, name, *rest = command
        row = rows.get(name)
        if word == "new":
            if row is not None:
                raise Refused("43 name taken")
            return Row(birth, ())
        if row is None:
            raise Refused("42 no such schedule")
        if word == "drop":
            return None
        if word == "branch":
            length, to = rest
            if to in rows:
                raise Refused("43 name taken")
            if length > len(row.events):
                raise Refused("48 too short")
            return Row(birth, row.events[:length])
        return Row(row.birth, self.events_after(row.events, word, rest))

    def events_after(self, events: Listed, word: str, rest: Sequence[Any]) -> Listed:
        """The events of a row after a command that changes them."""
        if word == "add":
            return self.trace.extended(events, rest[0])
        if word == "swap":
            return self.trace.exchanged(events, rest[0])
        if word == "adopt":
            if rest[0] >= len(self.board):
                raise Refused("44 no such proposal")
            return self.board[int(rest[0])]
        if word != "back":
            raise ValueError(word)
        if not events:
            raise Refused("45 nothing to retract")
        return events[:-1]

    def names(self) -> list[str]:
        return sorted(self.rows, key=lambda name: self.rows[name].birth)

    def row(self, name: str) -> Row:
        if name not in self.rows:
            raise Refused("42 no such schedule")
        return self.rows[name]

    def answer(self, client: int, call: Call) -> tuple[str, Log]:
        """The line that the client's call is answered by, and the log after it."""
        answer, entry = self.reply(client, call)
        if entry is None:
            return answer, self
        after = Log(self.trace, self.entries + (entry,))
        if entry.kind == "undid":
            self.ask_undone(entry.what, after)
        return answer, after

    def reply(self, client: int, call: Call) -> tuple[str, Entry | None]:
        """The line that the client's call is answered by, and the entry that it makes, or None."""
        try:
            if call[0] in ("show", "list", "races"):
                return self.looked(call), None
            if len(self.entries) == LOG_LIMIT:
                raise Refused("55 log full")
            answer, entry = self.entered(client, call)
        except Refused as why:
            return f"refused {why}", None
        return f"{len(self.entries)}: {answer}", entry

    def looked(self, call: Call) -> str:
        """What a call that changes nothing is answered."""
        if call[0] == "list":
            return " ".join(["names"] + self.names())
        events = self.row(call[1]).events
        if call[0] == "show":
            return " ".join(["shown"] + [str(event) for event in events])
        return " ".join(["pairs"] + [f"{first}-{second}" for first, second in self.trace.shown_pairs(events)])

    def entered(self, client: int, call: Call) -> tuple[str, Entry]:
        """What a call that is logged is answered, after its number, and its entry."""
        if call[0] == "undo":
            undone = self.live_of_number(client, call[1]) if call[1:] else self.latest_live(client)
            self.ask_blocked(undone)
            return f"undone {undone}", Entry(client, "undid", undone)
        if call[0] == "propose":
            first, second, listed = call[1:]
            fault = self.trace.first_fault(listed)
            if fault is not None:
                raise Refused(f"53 not a reordering at {fault}")
            if not self.trace.shows(listed, first, second):
                raise Refused("54 not shown")
            return f"proposed {len(self.board)}", Entry(client, "proposed", call)
        if call[0] == "batch" and not 1 <= len(call[1]) <= BATCH_LIMIT:
            raise Refused("60 bad batch")
        self.rows_after(self.rows, len(self.entries), call)
        return "done", Entry(client, "batch" if call[0] == "batch" else "did", call)

    def latest_live(self, client: int) -> int:
        """The number of the client's latest command or batch that was not undone."""
        own = [number for number, whose, _ in self.live if whose == client]
        if not own:
            raise Refused("51 nothing to undo")
        return own[-1]

    def live_of_number(self, client: int, number: int) -> int:
        """The number, if it is that of a command or batch of the client that was not undone."""
        if number >= len(self.entries):
            raise Refused("57 no such entry")
        if self.entries[number].kind not in ("did", "batch") or self.entries[number].client != client:
            raise Refused("58 not own")
        if number not in [live for live, _, _ in self.live]:
            raise Refused("59 not live")
        return number

    def ask_blocked(self, undone: int) -> None:
        """Asks whether a later one that was not undone, of any client, touches a name that this one wrote."""
        for number, _, call in self.live:
            touched = [name for name in writes(self.entries[undone].what) if name in touches(call)]
            if number > undone and touched:
                raise Refused(f"52 rests on {number} {touched[0]}")

    def ask_undone(self, undone: int, after: Log) -> None:
        """Asks whether the undo gave the written names the rows that they had, and changed no other row."""
        before = self.fold([entry for entry in self.live if entry[0] < undone])
        names = writes(self.entries[undone].what)
        expected = {other: row for other, row in self.rows.items() if other not in names}
        expected.update((name, before[name]) for name in names if name in before)
        if after.rows != expected:
            raise Contradiction(f"the undo of {undone} leaves {after.rows} and not {expected}")

    def line(self, number: int) -> str:
        """The line of an entry in the printed log."""
        client, kind, what = self.entries[number]
        return f"{number} {client} {f'undo {what}' if kind == 'undid' else call_text(what)}"

    def text(self) -> str:
        lines = [f"log {len(self.entries)}"] + [self.line(number) for number in range(len(self.entries))]
        return "".join(line + "\n" for line in lines)


RANKS = ["race", "undecided", "apart"]


class Shown(NamedTuple):
    """A pair of places of a merged report: the row that is shown, its part, and in how many parts the pair is a race,
    undecided and apart."""

    rank: int
    part: str
    row: ReportRow
    counts: list[int]


def merged_pairs(parts: Mapping[str, Sequence[ReportRow]]) -> list[Shown]:
    """The pairs of places of the parts, in the order in which `merge` prints them."""
    rows = sorted(
        (
            *sorted(access["location"].encode() for access in row["accesses"]),
            RANKS.index(row["kind"]),
            row.get("events", 0),
            name.encode(),
            *(access["event"] for access in reversed(row["accesses"])),
            number,
        )
        for name, objects in parts.items()
        for number, row in enumerate(objects[1:])
    )
    places: dict[tuple[Any, ...], list[Any]] = {}
    for row in rows:
        places.setdefault(row[:2], []).append(row)
    pairs = []
    for found in places.values():
        name = found[0][4].decode()
        counts = [sum(row[2] == rank for row in found) for rank in range(3)]
        pairs.append(Shown(found[0][2], name, parts[name][1 + found[0][-1]], counts))
    return sorted(pairs, key=lambda pair: pair.rank)


def merged(parts: Mapping[str, Sequence[ReportRow]], with_apart: bool) -> str:
    """What `merge` prints of the parts, each a name with the objects of its lines, the counts first."""
    return merged_of(merged_pairs(parts), len(parts), with_apart)


def merged_of(pairs: Sequence[Shown], parts: int, with_apart: bool) -> str:
    """What `merge` prints for these pairs of this many parts."""
    lines = [f"parts {parts}"]
    lines += [
        f"{word} {sum(pair.rank == rank for pair in pairs)}"
        for rank, word in enumerate(["races", "undecided", "apart"])
    ]
    for pair in pairs:
        if with_apart or pair.rank < 2:
            lines += block(pair.row)
            races, undecided, apart = pair.counts
            lines.append(
                f"    parts race {races} undecided {undecided} apart {apart} unmet {parts - sum(pair.counts)}"
            )
            lines.append(f"    part {pair.part}")
    return "".join(line + "\n" for line in lines)


def block(row: ReportRow) -> Iterator[str]:
    """The lines of text of a row."""
    numbers = [f"{name} {row[name]}" for name in ["pairs", "variables", "events", "threads", "tried"] if name in row]
    yield " ".join(
        [
            row["kind"],
            *(str(access["event"]) for access in row["accesses"]),
            *([row["how"]] if "how" in row else []),
            *numbers,
        ]
    )
    for access in row["accesses"]:
        yield f"  {access['thread']}|{access['operation']}({access['variable']})|{access['location']}"
        yield from (f"    holds {lock}" for lock in access["holds"])
