"""Whether a schedule can still grow to one that shows an aim, a pair of events.

Each schedule that shows the pair has the events that must-before puts before it. So a schedule cannot get there any
more if such a read has lost its write, or if a lock that one of the pair's threads keeps must be taken by another
thread first. Beside that, a search goes on with the events of a known witness. If it comes to the pair, the aim can be
reached. It does not find each way there.
"""

from __future__ import annotations

from array import array
from collections import Counter, defaultdict
from collections.abc import Iterator, Sequence
from typing import NamedTuple

from .trace import ACQUIRE, JOIN, NONE, READ, RELEASE, WRITE, Trace

# A search may take this many steps: events that are left, times threads.
MOST = 1_000_000


class Bar(NamedTuple):
    """Why the aim is out of reach: an event that it needs, and the event that came too early."""

    needed: int
    early: int


class State:
    """What a schedule has done: events by thread, the last write of each variable, holders of locks."""

    def __init__(self, trace: Trace) -> None:
        self.trace = trace
        self.counts = [0] * len(trace.events_of)
        self.last: dict[int, int] = {}  # by variable, the write
        self.held: dict[int, list[int]] = {}  # by lock, the acquires of the thread that holds it

    def add(self, event: int) -> None:
        trace, name = self.trace, self.trace.name[event]
        kind = trace.word[event]
        self.counts[trace.thread[event]] += 1
        if kind == WRITE:
            self.last[name] = event
        elif kind == ACQUIRE:
            self.held.setdefault(name, []).append(event)
        elif kind == RELEASE:
            self.held[name].pop()
            if not self.held[name]:
                del self.held[name]

    def has(self, event: int) -> bool:
        return self.trace.index(event) < self.counts[self.trace.thread[event]]

    def may_add(self, event: int) -> bool:
        """Whether the event may come next. It is the next one of its thread."""
        trace, thread, name = self.trace, self.trace.thread[event], self.trace.name[event]
        kind = trace.word[event]
        if not self.counts[thread] and thread in trace.fork_of and not self.has(trace.fork_of[thread]):
            return False
        if kind == READ:
            return self.last.get(name, NONE) == trace.writer[event]
        if kind == ACQUIRE:
            return name not in self.held or trace.thread[self.held[name][0]] == thread
        if kind == JOIN:
            return self.counts[name] == len(trace.events_of[name])
        return True


def state_of(trace: Trace, events: Sequence[int]) -> State:
    state = State(trace)
    for event in events:
        state.add(event)
    return state


class Aim:
    """A pair of events, how much of each thread it needs, and how much a witness has."""

    def __init__(self, trace: Trace, pair: tuple[int, int], witness: Sequence[int]) -> None:
        self.trace, self.pair = trace, pair
        self.limits = {trace.thread[event]: trace.index(event) for event in pair}
        self.needs, self.kept = self._needs(), self._kept()
        self.place = {event: at for at, event in enumerate(witness)}
        self.wants = [0] * len(trace.events_of)
        for thread, count in Counter(map(trace.thread.__getitem__, witness)).items():
            self.wants[thread] = count

    def _needs(self) -> list[int]:
        """How many events of each thread come before the pair in each schedule that shows it."""
        trace = self.trace
        needs, done = [0] * len(trace.events_of), [0] * len(trace.events_of)
        for thread, limit in self.limits.items():
            needs[thread] = limit
        waiting = list(self.limits)
        for thread in self.limits:
            self._need(needs, waiting, trace.fork_of.get(thread, NONE))
        while waiting:
            thread = waiting.pop()
            while done[thread] < needs[thread]:
                event = trace.events_of[thread][done[thread]]
                done[thread] += 1
                for cause in self._causes(event, is_first=done[thread] == 1):
                    self._need(needs, waiting, cause)
        return needs

    def _need(self, needs: list[int], waiting: list[int], event: int) -> None:
        """Notes that an event is needed, and with it all earlier ones of its thread."""
        if event == NONE:
            return
        thread, count = self.trace.thread[event], self.trace.index(event) + 1
        if needs[thread] < count:
            needs[thread] = count
            waiting.append(thread)

    def _causes(self, event: int, is_first: bool) -> Iterator[int]:
        """Events of other threads that come before this one in each schedule."""
        trace = self.trace
        if is_first:
            yield trace.fork_of.get(trace.thread[event], NONE)
        if trace.word[event] == READ:
            yield trace.writer[event]
        elif trace.word[event] == JOIN and len(trace.events_of[trace.name[event]]):
            yield trace.events_of[trace.name[event]][-1]

    def left(self, counts: Sequence[int]) -> Iterator[int]:
        """The needed events that a schedule lacks."""
        for thread, count in enumerate(self.needs):
            yield from self.trace.events_of[thread][counts[thread] : count]

    def _kept(self) -> set[int]:
        """The acquires whose thread keeps the lock until the pair is next, or for ever."""
        kept: set[int] = set()
        for thread, events in enumerate(self.trace.events_of):
            held: dict[int, list[int]] = {}
            for event in events[: self.limits.get(thread, len(events))]:
                if self.trace.word[event] == ACQUIRE:
                    held.setdefault(self.trace.name[event], []).append(event)
                elif self.trace.word[event] == RELEASE and held.get(self.trace.name[event]):
                    held[self.trace.name[event]].pop()
            kept.update(acquires[0] for acquires in held.values() if acquires)
        return kept

    def bar(self, state: State) -> Bar | None:
        """Why no schedule that begins so shows the pair; None if nothing is known against it."""
        trace = self.trace
        for thread, limit in self.limits.items():
            if state.counts[thread] > limit:
                event = trace.events_of[thread][limit]
                return Bar(event, event)
        kept = {lock for lock, acquires in state.held.items() if acquires[0] in self.kept}
        for event in self.left(state.counts):
            name = trace.name[event]
            if trace.word[event] == READ and self._is_lost(state, event):
                return Bar(event, state.last[name])
            if trace.word[event] == ACQUIRE and name in kept:
                early = state.held[name][0]
                if trace.thread[early] != trace.thread[event]:
                    return Bar(event, early)
        return None

    def _is_lost(self, state: State, read: int) -> bool:
        """Whether another write has come after the one that a read to come has to see."""
        last, writer = state.last.get(self.trace.name[read], NONE), self.trace.writer[read]
        return last not in (NONE, writer) and (writer == NONE or state.has(writer))

    def steps(self, state: State, thread: int, end: int) -> tuple[int, Bar | None]:
        """How many events of a thread may be added, up to a place in it, before one that bars the aim; and why."""
        trace = self.trace
        reads: dict[int, list[int]] = defaultdict(list)
        acquires: dict[int, int] = {}
        for event in self.left(state.counts):
            if trace.thread[event] != thread and trace.word[event] == READ:
                reads[trace.name[event]].append(event)
            elif trace.thread[event] != thread and trace.word[event] == ACQUIRE:
                acquires.setdefault(trace.name[event], event)
        start, last = state.counts[thread], dict(state.last)
        events = trace.events_of[thread]
        own = self.limits.get(thread, len(events))
        for at in range(start, end):
            event, name, kind = events[at], trace.name[events[at]], trace.word[events[at]]
            if at >= own:
                return at - start, Bar(event, event)
            if kind == WRITE:
                for read in reads[name]:
                    if trace.writer[read] == last.get(name, NONE):
                        return at - start, Bar(read, event)
                last[name] = event
            elif kind == ACQUIRE and name in acquires and event in self.kept:
                return at - start, Bar(acquires[name], event)
        return end - start, None

    def completes(self, state: State) -> bool | None:
        """Whether the search comes from this state to the pair; None if that would take too long. The state is used
        up."""
        search = Search(self, state)
        return search.run() if search.cost <= MOST else None


class Search:
    """Goes on with a witness's events, the earliest one first, and never against a need of another one."""

    def __init__(self, aim: Aim, state: State) -> None:
        self.aim, self.state, self.trace = aim, state, aim.trace
        self.until = [max(pair) for pair in zip(aim.wants, state.counts)]
        self._end_sections()
        self.reads: Counter[tuple[int, int]] = Counter()  # by variable and write: reads to come
        self.acquires: Counter[int] = Counter()  # by lock: acquires to come
        self.own: Counter[tuple[int, int]] = Counter()  # by thread and lock, the same
        left = 0
        for thread, end in enumerate(self.until):
            for event in self.trace.events_of[thread][state.counts[thread] : end]:
                left += 1
                if self.trace.word[event] == READ:
                    self.reads[self.trace.name[event], self.trace.writer[event]] += 1
                elif self.trace.word[event] == ACQUIRE:
                    self.acquires[self.trace.name[event]] += 1
                    self.own[thread, self.trace.name[event]] += 1
        self.cost = left * len(self.until)

    def _end_sections(self) -> None:
        """Threads that hold a lock go on to its release, if the aim lets them."""
        trace, state = self.trace, self.state
        for lock, acquires in state.held.items():
            thread = trace.thread[acquires[0]]
            release = trace.release_after(thread, lock, state.counts[thread], len(acquires))
            if release is not None and trace.index(release) < self.aim.limits.get(thread, len(trace)):
                self.until[thread] = max(self.until[thread], trace.index(release) + 1)

    def run(self) -> bool:
        events_of, counts, place = self.trace.events_of, self.state.counts, self.aim.place
        late = len(self.trace)
        while True:
            ends = enumerate(self.until)
            heads = [events_of[thread][counts[thread]] for thread, end in ends if counts[thread] < end]
            if not heads:
                return True
            good = [event for event in heads if self.is_safe(event)]
            if not good:
                return self.is_there()
            self.take(min(good, key=lambda event: place.get(event, late + event)))

    def is_there(self) -> bool:
        """Whether both of the pair are next, though the witness may have more events."""
        forks = self.trace.fork_of
        return all(
            self.state.counts[thread] == limit and (thread not in forks or self.state.has(forks[thread]))
            for thread, limit in self.aim.limits.items()
        )

    def is_safe(self, event: int) -> bool:
        """Whether an event may come next, and takes nothing from events to come."""
        trace, name = self.trace, self.trace.name[event]
        if not self.state.may_add(event):
            return False
        if trace.word[event] == WRITE:
            return not self.reads[name, self.state.last.get(name, NONE)]
        if trace.word[event] == ACQUIRE and event in self.aim.kept:
            return self.acquires[name] == self.own[trace.thread[event], name]
        return True

    def take(self, event: int) -> None:
        name, kind = self.trace.name[event], self.trace.word[event]
        if kind == READ:
            self.reads[name, self.trace.writer[event]] -= 1
        elif kind == ACQUIRE:
            self.acquires[name] -= 1
            self.own[self.trace.thread[event], name] -= 1
        self.state.add(event)


class Loss(NamedTuple):
    """The longest beginning of a schedule from which the aim can be reached, and why it is out of reach now."""

    length: int
    bar: Bar | None


def loss_of(aim: Aim, events: array[int]) -> Loss | None:
    """What keeps a schedule from its aim; None if it can be reached, or if nothing is known against it."""
    state = state_of(aim.trace, events)
    bar = aim.bar(state)
    if bar is None and aim.completes(state) is not False:
        return None
    good, bad = 0, len(events)  # lengths: the empty schedule reaches each aim that has a witness
    while bad - good > 1:
        middle = (good + bad) // 2
        state = state_of(aim.trace, events[:middle])
        if aim.bar(state) is None and aim.completes(state) is not False:
            good = middle
        else:
            bad = middle
    return Loss(good, bar)


def before_refusal(state: State, events: Sequence[int]) -> Sequence[int]:
    """The first events of a thread, up to one that may not come next. The state is used up."""
    for at, event in enumerate(events):
        if not state.may_add(event):
            return events[:at]
        state.add(event)
    return events


def reach_of(aim: Aim, events: array[int], thread: int, end: int) -> tuple[int, Bar | None, bool]:
    """How many events of a thread may be added, up to a place in it, so that the aim stays in reach; what would bar
    it; and whether only the search says so. If one is refused, the aim is still in reach before it."""
    state = state_of(aim.trace, events)
    count, bar = aim.steps(state, thread, end)
    start = state.counts[thread]
    added = before_refusal(state_of(aim.trace, events), aim.trace.events_of[thread][start : start + count])
    if aim.completes(state_of(aim.trace, [*events, *added])) is not False or aim.completes(state) is False:
        return count, bar, False
    good, bad = 0, len(added)
    while bad - good > 1:
        middle = (good + bad) // 2
        if aim.completes(state_of(aim.trace, [*events, *added[:middle]])) is not False:
            good = middle
        else:
            bad = middle
    return good, None, True
