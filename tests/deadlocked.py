"""Small traces with nested locks, drawn by chance, and each deadlock of two threads that a correct reordering shows."""

from __future__ import annotations

import random
from collections import Counter
from collections.abc import Iterator

Event = tuple[int, str, str]
Pair = tuple[int, int]
Pattern = tuple[tuple[str, str], ...]
State = tuple[tuple[int, ...], tuple[int, ...]]
# The size of a schedule: its events and its threads. The last one says whether they may come in the order of the trace.
Size = tuple[int, int, bool]

# No write of the variable has come.
UNWRITTEN = -1


class Trace:
    """Events by number. A name is a lock, a variable, or the number of a thread."""

    def __init__(self, threads: int, events: list[Event], locations: list[str]) -> None:
        self.events, self.locations = events, locations
        self.of: list[list[int]] = [[] for _ in range(threads)]
        self.place: list[int] = []
        self.fork: dict[int, int] = {}
        self.writer: dict[int, int] = {}
        self.variables = sorted({name for _, op, name in events if op in "rw"})
        last = dict.fromkeys(self.variables, UNWRITTEN)
        for event, (thread, op, name) in enumerate(events):
            self.place.append(len(self.of[thread]))
            self.of[thread].append(event)
            if op == "r":
                self.writer[event] = last[name]
            elif op == "w":
                last[name] = event
            elif op == "fork":
                self.fork[int(name)] = event

    def line(self, event: int) -> str:
        """The event as the program reads and prints it."""
        thread, op, name = self.events[event]
        object_name = f"T{name}" if op in ("fork", "join") else name
        return f"T{thread}|{op}({object_name})|{self.locations[event]}"

    def text(self) -> str:
        """The trace as the program reads it."""
        return "".join(f"{self.line(event)}\n" for event in range(len(self.events)))

    def names(self) -> set[str]:
        """The names of its threads."""
        named = {name for _, op, name in self.events if op in ("fork", "join")}
        return named | {str(thread) for thread, _, _ in self.events}

    def held(self, thread: int, count: int) -> dict[str, int]:
        """The locks that the thread holds after its first events, and since which acquire."""
        depth, since = Counter[str](), dict[str, int]()
        for event in self.of[thread][:count]:
            _, op, name = self.events[event]
            if op == "acq":
                depth[name] += 1
                since.setdefault(name, event)
            elif op == "rel":
                depth[name] -= 1
                if not depth[name]:
                    del since[name]
        return since

    def held_at(self, event: int) -> dict[str, int]:
        """The locks that the event's thread holds before it, and since which acquire."""
        return self.held(self.events[event][0], self.place[event])

    def is_request(self, event: int) -> bool:
        """Whether the event acquires a lock that its thread does not hold, and may wait for ever."""
        _, op, name = self.events[event]
        return op == "acq" and name not in self.held_at(event) and " < try" not in self.locations[event]

    def nested(self) -> int:
        """How many requests there are whose thread holds another lock."""
        return sum(self.is_request(event) and bool(self.held_at(event)) for event in range(len(self.events)))

    def cycles(self) -> Iterator[Pair]:
        """The pairs of requests that wait for each other, whether a reordering shows them or not."""
        requests = [event for event in range(len(self.events)) if self.is_request(event)]
        for second in requests:
            for first in requests[: requests.index(second)]:
                (one, _, wanted), (other, _, lock) = self.events[first], self.events[second]
                if one != other and wanted in self.held_at(second) and lock in self.held_at(first):
                    yield first, second

    def request_lines(self, request: int, other: int) -> list[str]:
        """A request, and the locks that its thread holds. The lock that the other request acquires comes first."""
        wanted = self.events[other][2]
        since = self.held_at(request)[wanted]
        return [
            f"  {self.line(request)}",
            f"    holds {wanted} since {since}  {self.line(since)}",
            *(f"    holds {lock}" for lock in self.other_locks(request, wanted)),
        ]

    def other_locks(self, request: int, wanted: str) -> list[str]:
        """The other locks that the request's thread holds, in the order in which the trace first names them."""
        numbers = list(dict.fromkeys(name for _, op, name in self.events if op == "acq"))
        return sorted(self.held_at(request).keys() - {wanted}, key=numbers.index)

    def pattern(self, one: int, other: int) -> Pattern:
        """The locations of two requests that wait for each other, and of their holds."""
        parts = []
        for request, wanted in ((one, other), (other, one)):
            hold = self.held_at(request)[self.events[wanted][2]]
            parts.append((self.locations[hold], self.locations[request]))
        return tuple(sorted(parts))

    def is_begun(self, thread: int, counts: tuple[int, ...]) -> bool:
        """Whether the fork of the thread has come, if it has one."""
        fork = self.fork.get(thread)
        return fork is None or self.place[fork] < counts[self.events[fork][0]]

    def may_come(self, event: int, state: State, owners: dict[str, int]) -> bool:
        """Whether the event, the next one of its thread, may come."""
        counts, last = state
        thread, op, name = self.events[event]
        if not self.is_begun(thread, counts):
            return False
        if op == "r":
            return last[self.variables.index(name)] == self.writer[event]
        if op == "acq":
            return owners.get(name, thread) == thread
        if op == "join":
            return counts[int(name)] == len(self.of[int(name)]) and self.is_begun(int(name), counts)
        return True

    def after(self, event: int, state: State) -> State:
        """The state after the event."""
        counts, last = list(state[0]), list(state[1])
        thread, op, name = self.events[event]
        counts[thread] += 1
        if op == "w":
            last[self.variables.index(name)] = event
        return tuple(counts), tuple(last)

    def owners(self, counts: tuple[int, ...]) -> dict[str, int]:
        """Which thread holds each lock after this number of events of each thread."""
        return {lock: thread for thread, count in enumerate(counts) for lock in self.held(thread, count)}

    def pairs(self, counts: tuple[int, ...], owners: dict[str, int]) -> set[Pair]:
        """The pairs of requests that wait for each other in this state."""
        waits = {}
        for thread, count in enumerate(counts):
            if count < len(self.of[thread]) and self.is_begun(thread, counts):
                event = self.of[thread][count]
                if self.is_request(event) and owners.get(self.events[event][2], thread) != thread:
                    waits[thread] = (event, owners[self.events[event][2]])
        return {
            (min(event, waits[owner][0]), max(event, waits[owner][0]))
            for thread, (event, owner) in waits.items()
            if owner in waits and waits[owner][1] == thread
        }

    def first_state(self) -> State:
        """The state before all events."""
        return (0,) * len(self.of), (UNWRITTEN,) * len(self.variables)

    def size(self, counts: tuple[int, ...]) -> Size:
        """The size of a schedule with this number of events of each thread."""
        state, is_ordered = self.first_state(), True
        for event in sorted(event for thread, count in enumerate(counts) for event in self.of[thread][:count]):
            is_ordered = is_ordered and self.may_come(event, state, self.owners(state[0]))
            state = self.after(event, state)
        return sum(counts), sum(count > 0 for count in counts), is_ordered

    def shown(self, most: int) -> dict[Pair, set[Size]] | None:
        """Every pair of requests that a correct reordering shows, with the sizes of the schedules that show it; None if
        there are more states than this."""
        found: dict[Pair, set[Size]] = {}
        seen, todo = {self.first_state()}, [self.first_state()]
        while todo:
            state = todo.pop()
            owners = self.owners(state[0])
            for pair in self.pairs(state[0], owners):
                found.setdefault(pair, set()).add(self.size(state[0]))
            for thread, count in enumerate(state[0]):
                if count < len(self.of[thread]) and self.may_come(self.of[thread][count], state, owners):
                    new = self.after(self.of[thread][count], state)
                    if new not in seen:
                        seen.add(new)
                        todo.append(new)
            if len(seen) > most:
                return None
        return found


class Drawing:
    """A trace while it is drawn."""

    def __init__(self, chance: random.Random) -> None:
        self.chance = chance
        self.threads = chance.choice([2, 2, 3, 3, 4])
        self.locks = [f"l{k}" for k in range(chance.choice([2, 2, 3, 3, 4]))]
        self.variables = [f"x{k}" for k in range(chance.choice([0, 1, 1, 2]))]
        self.is_forking = chance.random() < 0.5
        self.alive = {0} if self.is_forking else set(range(self.threads))
        self.forked = set(self.alive)
        self.holds: dict[int, list[str]] = {t: [] for t in range(self.threads)}
        self.is_reentrant = chance.random() < 0.2
        self.events: list[Event] = []

    def fork_or_join(self, thread: int) -> None:
        """Forks a new thread from the first one, or joins another."""
        fresh = [u for u in range(self.threads) if u not in self.forked]
        others = sorted(self.alive - {thread})
        if fresh and thread == min(self.alive):
            self.events.append((thread, "fork", str(fresh[0])))
            self.forked.add(fresh[0])
            self.alive.add(fresh[0])
        elif others and self.chance.random() < 0.5:
            other = self.chance.choice(others)
            if not self.holds[other]:
                self.events.append((thread, "join", str(other)))
                self.alive.discard(other)

    def lock_or_release(self, thread: int) -> None:
        """Releases a lock of the thread, mostly the last one, or acquires one that is free."""
        mine = self.holds[thread]
        if mine and self.chance.random() > 0.75:
            lock = mine[-1] if self.chance.random() < 0.8 else self.chance.choice(mine)
            mine.remove(lock)
            self.events.append((thread, "rel", lock))
            return
        taken = {lock for u in self.holds for lock in self.holds[u] if u != thread}
        free = [lock for lock in self.locks if lock not in taken and (self.is_reentrant or lock not in mine)]
        if free:
            lock = self.chance.choice(free)
            mine.append(lock)
            self.events.append((thread, "acq", lock))

    def step(self) -> None:
        """Draws at most one event."""
        thread = self.chance.choice(sorted(self.alive))
        what = self.chance.random()
        if self.is_forking and what < 0.12:
            self.fork_or_join(thread)
        elif self.variables and what < 0.32:
            self.events.append((thread, self.chance.choice("rrw"), self.chance.choice(self.variables)))
        else:
            self.lock_or_release(thread)


def location(chance: random.Random, event: Event, places: int) -> str:
    """A location of the event. A few acquires are marked as a try."""
    line = f"f.c:{chance.randrange(places)}"
    return f"{line} < try in take" if event[1] == "acq" and chance.random() < 0.05 else line


def drawn(chance: random.Random) -> Trace:
    """A trace of up to 32 events, and mostly a release for each acquire."""
    drawing = Drawing(chance)
    size = chance.randrange(12, 33)
    for _ in range(4 * size):
        if len(drawing.events) < size:
            drawing.step()
    for thread in sorted(drawing.alive):
        while drawing.holds[thread] and chance.random() < 0.9:
            drawing.events.append((thread, "rel", drawing.holds[thread].pop()))
    places = chance.choice([4, len(drawing.events) + 1])
    return Trace(drawing.threads, drawing.events, [location(chance, event, places) for event in drawing.events])
