"""Which pairs some correct reordering of a small trace shows: all states that one reaches are gone over,
where `plain.py` goes over all lists."""

from __future__ import annotations

from collections.abc import Iterator

import plain

# How many events of each thread have come, and the last write of each variable.
Counts = tuple[int, ...]
Writes = tuple[int | None, ...]
State = tuple[Counts, Writes]
Pair = tuple[int, int]


class States:
    """The states of a trace."""

    def __init__(self, trace: plain.Trace) -> None:
        self.trace = trace
        self.threads = trace.threads()
        self.own = [trace.events_of(thread) for thread in self.threads]
        self.variables = sorted({event.name for event in trace.events if event.word in ("r", "w")})
        # The locks that a thread holds after its first events.
        self.held = [
            [self.locks_after(thread, events[:count]) for count in range(len(events) + 1)]
            for thread, events in zip(self.threads, self.own)
        ]

    def locks_after(self, thread: str, events: list[int]) -> set[str]:
        own = [self.trace.events[event] for event in events]
        return {event.name for event in own if plain.holds(own, thread, event.name)}

    def has_come(self, counts: Counts, event: int) -> bool:
        thread = self.threads.index(self.trace.thread(event))
        return event in self.own[thread][: counts[thread]]

    def next_events(self, counts: Counts) -> list[int]:
        """The next event of each thread that was forked, if it has a fork."""
        return [
            events[counts[at]]
            for at, events in enumerate(self.own)
            if counts[at] < len(events)
            and all(self.has_come(counts, fork) for fork in self.trace.forks_of(self.threads[at]))
        ]

    def may_come(self, event: int, state: State) -> bool:
        counts, writes = state
        _, word, name = self.trace.events[event]
        if word == "r":
            return writes[self.variables.index(name)] == self.trace.last_writer(event)
        if word == "acq":
            mine = self.threads.index(self.trace.thread(event))
            return not any(name in self.held[at][count] for at, count in enumerate(counts) if at != mine)
        if word == "join":
            needed = self.trace.events_of(name) + self.trace.forks_of(name)
            return all(self.has_come(counts, other) for other in needed)
        return True

    def after(self, event: int, state: State) -> State:
        thread, word, name = self.trace.events[event]
        counts, writes = list(state[0]), list(state[1])
        counts[self.threads.index(thread)] += 1
        if word == "w":
            writes[self.variables.index(name)] = event
        return tuple(counts), tuple(writes)

    def all(self) -> Iterator[State]:
        """Each state that a correct reordering reaches, once."""
        first: State = (tuple(0 for _ in self.threads), tuple(None for _ in self.variables))
        met, left = {first}, [first]
        while left:
            state = left.pop()
            yield state
            for event in self.next_events(state[0]):
                after = self.after(event, state)
                if after not in met and self.may_come(event, state):
                    met.add(after)
                    left.append(after)


def shown_by_any(trace: plain.Trace) -> set[Pair]:
    """The pairs that some correct reordering shows, the earlier event first."""
    states = States(trace)
    shown = set[Pair]()
    for counts, _ in states.all():
        ready = states.next_events(counts)
        shown.update((a, b) for a in ready for b in ready if a < b and trace.conflict(a, b))
    return shown
