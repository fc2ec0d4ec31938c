"""The plan of a run that is followed into a deadlock: who holds the locks of its requests after the schedule, and the
steps at which its threads wait."""
from typing import Dict, List, NamedTuple, Sequence, Tuple

import clocks
import plans
import raw as raw_file

TAKES = tuple(raw_file.KINDS[name] for name in ("ACQUIRE", "WRITER", "READER_IN"))
READS = raw_file.KINDS["READER_IN"]
# The bit of a lock's `order` that marks a call that waits for nobody, or not for ever.
BY_TRY = 2


class Hold(NamedTuple):
    """A lock that a thread has after a schedule: its name, the acquire since which, and the lock's address."""

    thread: int
    lock: str
    since: int
    at: int


def are_requests(clock: clocks.Clock, events: Sequence[int]) -> bool:
    """Whether these events are acquires. Others are accesses of a race."""
    return all(clock.record(event).kind in TAKES for event in events)


def name_of(lock: str, thread: int, kind: int) -> str:
    """The lock of a reader has the reader's name at its end: the program's lock has not."""
    return lock.removesuffix(f":T{thread}") if kind == READS else lock


def holds_after(clock: clocks.Clock, witness: plans.Witness, requests: Sequence[int]) -> List[Hold]:
    """The locks that threads hold after a schedule. What the call of a request took before it waits does not
    count: the real call takes all or nothing."""
    events, lines = witness
    ends = {clock.record_of[event] for event in requests}
    opened: Dict[Tuple[str, str], List[int]] = {}
    for event in events:
        thread, operation, _ = lines[event].split("|", 2)
        word, name = operation[:-1].split("(", 1)
        if word == "acq" and clock.record_of[event] not in ends:
            opened.setdefault((thread, name), []).append(event)
        elif word == "rel" and opened.get((thread, name)):
            opened[thread, name].pop()
    since = {key: found[0] for key, found in opened.items() if found}
    records = [(name, event, clock.record(event)) for (_, name), event in since.items()]
    return [Hold(one.thread, name_of(name, one.thread, one.kind), event, one.at) for name, event, one in records]


def wait_of(clock: clocks.Clock, request: int, holds: Sequence[Hold], threads: Sequence[int]) -> Hold:
    """The hold that a request waits for: that of another thread of the deadlock."""
    mine = clock.record(request)
    if mine.order & BY_TRY:
        raise plans.BadWitness(f"the call of event {request} does not wait for a lock: it tries, or waits for a time")
    for hold in holds:
        if hold.at == mine.at and hold.thread != mine.thread and hold.thread in threads:
            # A writer may hold the lock of this reader alone.
            return hold._replace(lock=name_of(hold.lock, mine.thread, mine.kind))
    raise plans.BadWitness(f"after this schedule no other thread of the deadlock holds the lock of event {request}")


def in_circle(clock: clocks.Clock, waits: Dict[int, Hold]) -> List[int]:
    """The requests from the least one on, each before that of the thread that holds its lock."""
    of_thread = {clock.record(request).thread: request for request in waits}
    found: List[int] = []
    for start in sorted(waits):
        while start not in found:
            found.append(start)
            start = of_thread[waits[start].thread]
    return found


class DeadlockPlan(plans.Plan):
    """A schedule of a recording, up to the requests of a deadlock."""

    def __init__(self, clock: clocks.Clock, witness: plans.Witness, requests: Sequence[int], patience: int) -> None:
        super().__init__(clock, witness, requests, patience)
        threads = [clock.record(request).thread for request in requests]
        holds = holds_after(clock, witness, requests)
        waits = {request: wait_of(clock, request, holds, threads) for request in requests}
        self.requests = in_circle(clock, waits)
        self.waits = [waits[request] for request in self.requests]
        # Where each thread waits, if the trace is known: it leaves out the headers of C++.
        self.places: Dict[int, str] = {}

    def take_places(self, lines: Sequence[str]) -> None:
        """Takes the places of the requests from the lines of the trace."""
        for request in self.requests:
            location = lines[request].split("|", 2)[2]
            self.places[self.clock.record(request).thread] = location.split(" < ")[0]

    def tail(self, accesses: str) -> List[plans.Row]:
        """After the steps each thread waits at its request."""
        records = [(self.clock.record(request), request) for request in self.requests]
        return [(record.thread, plans.WAIT, record.pos, request) for record, request in records]

    def lock_of(self, thread: int) -> str:
        """The name of the lock that a thread of the deadlock waits for."""
        names = {self.clock.record(request).thread: hold.lock for request, hold in zip(self.requests, self.waits)}
        return names[thread]
