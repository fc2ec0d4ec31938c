"""A search for deadlocks of a trace, and for a schedule that leads to one. Nothing here is proved: racebench judges
each schedule by its replay. The search may miss deadlocks."""
from __future__ import annotations

from typing import Iterator, NamedTuple

from trace_index import TraceIndex

# The most times that a path of steps is made longer, and the most cycles of one pattern that are tried.
MOST_PATHS, MOST_CYCLES = 1 << 19, 64
# The most events that are visited in all, which takes some ten seconds.
MOST_VISITED = 1 << 20
# The most lists of requests of one cycle that are tried in another order than that of the trace.
MOST_TRIES = 16

Pattern = tuple[tuple[str, str], ...]


class Step(NamedTuple):
    """What a thread does again and again: it waits for a lock at a place, holding others since other places."""

    number: int
    thread: int
    lock: str
    location: str
    # The locks that it holds, each with the place where it took it.
    since: dict[str, str]
    events: list[int]


class Found(NamedTuple):
    """A deadlock: its requests, each before that of the thread that holds its lock, and a schedule."""

    requests: list[int]
    schedule: list[int]


Path = tuple[Step, ...]


def waits(location: str) -> bool:
    """Whether an acquire there waits: the recorder marks calls that only try, or that wait for a time."""
    inside = location.partition(" < ")[2]
    return inside != "try" and not inside.startswith(("try in ", "try < "))


def steps_of(trace: TraceIndex) -> list[Step]:
    """The steps of a trace, by their first events."""
    found: dict[object, list[int]] = {}
    for event, held in trace.held.items():
        if held and trace.is_outer(event) and waits(trace.location[event]):
            since = tuple(sorted((lock, trace.location[took]) for lock, took in held.items()))
            key = (trace.thread[event], trace.name[event], since, trace.location[event])
            found.setdefault(key, []).append(event)
    return [step_of(trace, number, events) for number, events in enumerate(found.values())]


def step_of(trace: TraceIndex, number: int, events: list[int]) -> Step:
    first = events[0]
    since = {lock: trace.location[took] for lock, took in trace.held[first].items()}
    return Step(number, trace.thread[first], trace.name[first], trace.location[first], since, events)


def in_circles(steps: list[Step]) -> list[Step]:
    """The steps without those that are in no cycle, since nobody holds what they wait for, or waits for what they
    hold."""
    while True:
        held = {lock for step in steps for lock in step.since}
        wanted = {step.lock for step in steps}
        left = [step for step in steps if step.lock in held and not wanted.isdisjoint(step.since)]
        if len(left) == len(steps):
            return steps
        steps = left


def may_follow(path: Path, step: Step) -> bool:
    """Whether a step of another thread goes on with a path."""
    if step.number <= path[0].number or step.lock in step.since:
        return False
    return all(step.thread != each.thread and not step.since.keys() & each.since.keys() for each in path)


def pattern_of(path: Path) -> Pattern:
    """The places of a cycle: where each thread took what it holds, and where it waits."""
    places = [(step.since[path[k - 1].lock], step.location) for k, step in enumerate(path)]
    return min(tuple(places[k:] + places[:k]) for k in range(len(places)))


class Needs:
    """What each correct reordering has after which the requests of a path are next."""

    def __init__(self, trace: TraceIndex, path: Path) -> None:
        self.trace, self.path, self.row = trace, path, [0] * len(trace.of)

    def take(self, event: int) -> None:
        self.row = [max(pair) for pair in zip(self.row, self.trace.rows()[event])]

    def close(self, requests: list[int]) -> bool:
        """False if nothing has that."""
        for event in requests:
            base = self.trace.base[event]
            if base is not None:
                self.take(base)
        again = True
        while again:
            again = False
            for step in self.path:
                for lock in step.since:
                    for end in self.trace.foreign_ends(lock, step.thread, self.row):
                        if end is None:
                            return False
                        if self.trace.place[end] >= self.row[self.trace.thread[end]]:
                            self.take(end)
                            again = True
        return True


class InOrder:
    """What a schedule in the order of the trace has after which the requests of a path are next."""

    def __init__(self, trace: TraceIndex, path: Path) -> None:
        self.trace, self.row = trace, [0] * len(trace.of)
        self.visited = [0] * len(trace.of)
        self.latest: dict[str, int] = {}
        self.behind: set[int] = set()

    def take(self, event: int | None) -> None:
        if event is not None and self.trace.place[event] >= self.row[self.trace.thread[event]]:
            self.row[self.trace.thread[event]] = self.trace.place[event] + 1
            self.behind.add(self.trace.thread[event])

    def close(self, requests: list[int]) -> bool:
        for event in requests:
            self.take(self.trace.base[event])
        while self.behind:
            thread = self.behind.pop()
            while self.visited[thread] < self.row[thread]:
                self.visit(self.trace.of[thread][self.visited[thread]])
                self.visited[thread] += 1
        return True

    def visit(self, event: int) -> None:
        trace = self.trace
        trace.visited += 1
        self.take(trace.base[event])
        self.take(trace.counterpart(event))
        if trace.word[event] == "join":
            self.take(trace.fork.get(trace.numbers[trace.name[event]]))
        if trace.word[event] == "acq" and trace.is_outer(event):
            lock = trace.name[event]
            earlier, latest = sorted((self.latest.get(lock, event), event))
            self.latest[lock] = latest
            if trace.thread[earlier] != trace.thread[latest]:
                self.take(trace.end.get(earlier))


def first_requests(closing: Needs | InOrder, trace: TraceIndex, path: Path, at: list[int]) -> list[int] | None:
    """The first requests of a path, from these places on, that are not among what they need; `at` goes there. What is
    needed only grows with the requests, so a request that is needed is in no later list either."""
    while True:
        requests = [step.events[k] for step, k in zip(path, at)]
        if not closing.close(requests):
            return None
        moved = False
        for place, step in enumerate(path):
            while trace.place[step.events[at[place]]] < closing.row[step.thread]:
                moved, at[place] = True, at[place] + 1
                if at[place] == len(step.events):
                    return None
        if not moved:
            return requests


class Run:
    """A schedule as it grows."""

    def __init__(self, trace: TraceIndex) -> None:
        self.trace, self.counts = trace, [0] * len(trace.of)
        self.last: dict[str, int] = {}
        self.holds: dict[str, tuple[int, int]] = {}
        self.done: list[int] = []

    def is_begun(self, thread: int) -> bool:
        fork = self.trace.fork.get(thread)
        return fork is None or self.counts[self.trace.thread[fork]] > self.trace.place[fork]

    def may_come(self, event: int) -> bool:
        trace, word, name = self.trace, self.trace.word[event], self.trace.name[event]
        if not self.is_begun(trace.thread[event]):
            return False
        if word == "r":
            return self.last.get(name) == trace.writer[event]
        if word == "acq":
            return self.holds.get(name, (trace.thread[event], 0))[0] == trace.thread[event]
        if word == "join":
            thread = trace.numbers[name]
            return self.counts[thread] == len(trace.of[thread]) and self.is_begun(thread)
        return True

    def take(self, event: int) -> None:
        thread, word, name = self.trace.thread[event], self.trace.word[event], self.trace.name[event]
        self.counts[thread] += 1
        self.done.append(event)
        if word == "w":
            self.last[name] = event
        elif word == "acq":
            self.holds[name] = thread, self.holds.get(name, (thread, 0))[1] + 1
        elif word == "rel" and name in self.holds:
            times = self.holds.pop(name)[1] - 1
            if times:
                self.holds[name] = thread, times


def late(trace: TraceIndex, path: Path, requests: list[int], row: list[int]) -> list[int] | None:
    """A schedule in another order: always the first needed event that may come, but the acquire of a section that stays
    open only after the needed sections of its lock by other threads."""
    before: dict[int, list[int]] = {}
    for event, step in zip(requests, path):
        for lock, since in trace.held[event].items():
            ends = trace.foreign_ends(lock, step.thread, row)
            before[since] = [end for end in ends if end is not None]
    run, left = Run(trace), sum(row)
    trace.visited += len(row) * left // 4
    done: set[int] = set()
    while left and trace.visited <= MOST_VISITED:
        nexts = sorted(
            trace.of[thread][run.counts[thread]] for thread in range(len(row)) if run.counts[thread] < row[thread]
        )
        chosen = next((one for one in nexts if done.issuperset(before.get(one, ())) and run.may_come(one)), None)
        if chosen is None:
            return None
        run.take(chosen)
        done.add(chosen)
        left -= 1
    return None if left else run.done


def turned(trace: TraceIndex, path: Path) -> Found | None:
    """A deadlock of a cycle by a schedule in another order than that of the trace."""
    starts, seen = [[0] * len(path)], set()
    for _ in range(MOST_TRIES):
        if not starts:
            return None
        at, closing = starts.pop(0), Needs(trace, path)
        requests = first_requests(closing, trace, path, at)
        if requests is None or tuple(at) in seen:
            continue
        seen.add(tuple(at))
        schedule = late(trace, path, requests, closing.row)
        if schedule is not None:
            return Found(requests, schedule)
        for place, step in enumerate(path):
            if at[place] + 1 < len(step.events):
                starts.append(at[:place] + [at[place] + 1] + at[place + 1 :])
    return None


def shown(trace: TraceIndex, path: Path) -> Found | None:
    """A deadlock of a cycle of steps, with its schedule: in the order of the trace if there is one."""
    closing = InOrder(trace, path)
    requests = first_requests(closing, trace, path, [0] * len(path))
    if requests is None:
        return turned(trace, path)
    return Found(requests, sorted(event for mine, n in zip(trace.of, closing.row) for event in mine[:n]))


class Search:
    """A search for the deadlocks of a trace. `is_whole` says whether it looked at all cycles."""

    def __init__(self, trace: TraceIndex) -> None:
        self.trace, self.is_whole = trace, True

    def cycles(self, longest: int) -> Iterator[Path]:
        """The cycles of steps, shorter ones first: each waits for a lock that the next one holds, and no two hold one
        lock. Each cycle comes once, from its first step on."""
        steps = in_circles(steps_of(self.trace))
        by_held: dict[str, list[Step]] = {}
        for step in steps:
            for lock in step.since:
                by_held.setdefault(lock, []).append(step)
        paths: list[Path] = [(step,) for step in steps]
        left = MOST_PATHS
        for _ in range(longest - 1):
            longer: list[Path] = []
            for path in paths:
                nexts = [path + (step,) for step in by_held.get(path[-1].lock, ()) if may_follow(path, step)]
                left -= len(nexts)
                yield from (each for each in nexts if each[-1].lock in path[0].since)
                longer += nexts
                if left < 0:
                    self.is_whole = False
                    return
            paths = longer

    def deadlocks(self, shortest: int, longest: int) -> list[Found]:
        """The deadlocks of this number of threads that the search finds, one of each pattern."""
        tried: dict[Pattern, int] = {}
        found: dict[Pattern, Found] = {}
        for path in self.cycles(longest):
            pattern = pattern_of(path)
            if len(path) < shortest or pattern in found:
                continue
            tried[pattern] = tried.get(pattern, 0) + 1
            if tried[pattern] > MOST_CYCLES or self.trace.visited > MOST_VISITED:
                self.is_whole = False
                continue
            one = shown(self.trace, path)
            if one:
                found[pattern] = one
        return list(found.values())


def schedule_of(trace: TraceIndex, requests: list[int]) -> list[int] | None:
    """A schedule after which these requests are next, if the search finds one."""
    one = shown(trace, tuple(step_of(trace, number, [event]) for number, event in enumerate(requests)))
    return one.schedule if one else None
