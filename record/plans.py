"""The plan of a followed run: the steps of a schedule, each with what it needs done before, and the recording that
the run is compared with. runtime/plan.c has the same structures."""
import struct
from array import array
from typing import IO, Dict, Iterable, List, NamedTuple, Sequence, Set, Tuple

import clocks
import raw as raw_file

EVENT, STAND, LAST, WAIT = range(4)
WORDS_IN, WORDS_OUT = 17, 14
HEAD = struct.Struct(f"<{WORDS_IN + WORDS_OUT}Q")
FRAMES, TOLD, USES, MOST_REQUESTS = 64, 64, 16, 8
STANDING = struct.Struct(f"<{14 + 2 * FRAMES}Q")
USE = struct.Struct("<6Q")
REQUESTS, HOLDERS = struct.Struct("<2Q"), struct.Struct(f"<{MOST_REQUESTS}Q")
STEP = struct.Struct("<IIQQQQQQQ")
NUMBER = struct.Struct("<Q")
# Where the number of the thread's next step is in a step.
NEXT_AT = 24
# Where the parts of known sizes are, after the head.
TICKS_AT = HEAD.size + 2 * STANDING.size
USES_AT = TICKS_AT + 8 * TOLD
REQUESTS_AT = USES_AT + USES * USE.size
WAITING_AT = REQUESTS_AT + REQUESTS.size
HOLDERS_AT = WAITING_AT + MOST_REQUESTS * STANDING.size
TABLES_AT = HOLDERS_AT + HOLDERS.size
MAGIC = 0x3357464252524352
# For this many accesses a thread goes on alone, if nothing else is wanted.
ALONE = 1000


class Order(NamedTuple):
    """The accesses that the plan does, in their order; the thread that is held back afterwards, 1 for that of A and 2
    for that of B; whether the thread of the last access goes on alone; and its name in a text."""

    accesses: str
    held_back: int
    goes_alone: bool
    name: str
    hangs: bool = False


ORDERS = {
    "first": Order("ab", 0, False, "A first"),
    "second": Order("ba", 0, False, "B first"),
    "a-a": Order("a", 0, True, "A first (A goes on)"),
    "a-b": Order("ab", 0, True, "A first (B goes on)"),
    "b-b": Order("b", 0, True, "B first (B goes on)"),
    "b-a": Order("ba", 0, True, "B first (A goes on)"),
    "first-a": Order("ab", 2, False, "A first (without B)"),
    "first-b": Order("ab", 1, False, "A first (without A)"),
    "second-a": Order("ba", 2, False, "B first (without B)"),
    "second-b": Order("ba", 1, False, "B first (without A)"),
    "far-first": Order("a", 2, False, "A first (B waits)"),
    "far-second": Order("b", 1, False, "B first (A waits)"),
    "stop": Order("", 0, False, "no access"),
}
# What may follow when a deadlock stands.
ENDS = {"stop": ORDERS["stop"], "hang": Order("", 0, False, "hangs", True)}
Witness = Tuple[List[int], Dict[int, str]]
Pair = Tuple[int, int]
# A step as a row: its thread, type, clock and event.
Row = Tuple[int, int, int, int]


class BadWitness(Exception):
    """Why a witness does not fit this recording."""


def read_witness(file: Iterable[str], clock: clocks.Clock) -> Witness:
    """The events of a witness, as `racebench witness` prints it, with their lines."""
    events: List[int] = []
    lines: Dict[int, str] = {}
    for line in file:
        number, _, text = line.rstrip("\n").partition("  ")
        if not number.isdigit() or not clock.is_line(int(number), text):
            raise BadWitness(f"this is no witness of the recording's trace: {line.rstrip(chr(10))[:120]!r}")
        events.append(int(number))
        lines[int(number)] = text
    return events, lines


def check_next(clock: clocks.Clock, events: List[int], ends: Sequence[int], finding: str = "race") -> None:
    """The events at the end of a schedule must be next in their threads after it."""
    there = set(events)
    threads = {clock.record(event).thread: event for event in ends}
    next_ones: Dict[int, int] = {}
    for event in range(max(ends) + 1):
        thread = clock.record(event).thread
        if thread in threads and event not in there:
            next_ones.setdefault(thread, event)
    if len(threads) < len(ends) or any(next_ones.get(thread) != event for thread, event in threads.items()):
        raise BadWitness(f"this is a witness of another {finding} than {' '.join(map(str, ends))}")


def places_of(clock: clocks.Clock, events: List[int], lines: Dict[int, str]) -> Dict[int, int]:
    """For each record the place of the event at which it is done: the last, and for a try that was refused the last
    read."""
    last: Dict[int, int] = {}
    for place, event in enumerate(events):
        is_read = lines[event].split("|", 2)[1].startswith("r(")
        if is_read or clock.record_of[event] not in last or clock.record(event).kind != raw_file.KINDS["TRIED"]:
            last[clock.record_of[event]] = place
    return last


def steps_of(clock: clocks.Clock, witness: Witness, ends: Sequence[int]) -> Tuple[List[int], int]:
    """Events of one record are one step; the records of the ends are none. Also how many records have events of others
    in between: of a record of the ends also before its access that is an end."""
    events, lines = witness
    records = {clock.record_of[event] for event in ends}
    last = places_of(clock, events, lines)
    steps: List[int] = []
    split = 0
    for place, event in enumerate(events):
        record, is_last = clock.record_of[event], last[clock.record_of[event]] == place
        is_part = last[record] > place or (
            record in records and lines[event].split("|", 2)[1].startswith(("r(", "w("))
        )
        split += is_part and place + 1 < len(events) and clock.record_of[events[place + 1]] != record
        if is_last and record not in records:
            steps.append(event)
    return steps, split


class Needs:
    """For each step the steps that must be done before: the writer of what it reads, what was read or written
    before what it writes, the release before an acquire, the fork, the last of a thread that is joined."""

    def __init__(self, clock: clocks.Clock, witness: Witness, steps: List[int]) -> None:
        events, lines = witness
        number = {clock.record_of[event]: place for place, event in enumerate(steps)}
        self.writer: Dict[str, int] = {}
        self.readers: Dict[str, Dict[str, int]] = {}
        self.release: Dict[str, int] = {}
        self.fork: Dict[str, int] = {}
        self.last: Dict[str, int] = {}
        self.begun: Set[str] = set()
        self.of: List[Set[int]] = [set() for _ in steps]
        for event in events:
            step = number.get(clock.record_of[event])
            if step is not None:
                thread, operation, _ = lines[event].split("|", 2)
                word, name = operation[:-1].split("(", 1)
                self.of[step] |= self.before(thread, word, name) - {step}
                self.note(step, thread, word, name)

    def before(self, thread: str, word: str, name: str) -> Set[int]:
        found = {self.fork[thread]} if thread in self.fork and thread not in self.begun else set()
        if word in ("r", "w") and name in self.writer:
            found.add(self.writer[name])
        if word == "w":
            found |= set(self.readers.get(name, {}).values())
        last = {"acq": self.release, "join": self.last}.get(word, {})
        return found | ({last[name]} if name in last else set())

    def note(self, step: int, thread: str, word: str, name: str) -> None:
        self.begun.add(thread)
        self.last[thread] = step
        if word == "r":
            self.readers.setdefault(name, {})[thread] = step
        elif word == "w":
            self.writer[name] = step
            self.readers.pop(name, None)
        elif word in ("rel", "fork"):
            (self.release if word == "rel" else self.fork)[name] = step


class Steps:
    """The steps of a schedule, packed once for all orders of a race: only what comes after them differs."""

    def __init__(self, rows: List[Row], needs: List[Set[int]]) -> None:
        self.rows, self.flat = rows, array("Q")
        self.packed = bytearray()
        self.first: Dict[int, int] = {}
        self.last: Dict[int, int] = {}
        following: Dict[int, int] = {}
        next_steps = [0] * len(rows)
        for place in range(len(rows) - 1, -1, -1):
            thread = rows[place][0]
            next_steps[place], following[thread] = following.get(thread, 0), place
            self.last.setdefault(thread, place)
        self.first = following
        for place, row in enumerate(rows):
            wanted = sorted(needs[place])
            self.packed += STEP.pack(*row, next_steps[place], len(self.flat), len(wanted), 0, 0)
            self.flat.extend(wanted)

    def before(self, tail: List[Row]) -> Tuple[bytes, Dict[int, int]]:
        """All steps if these rows come after them, and the first step of each thread."""
        end = len(self.rows) + len(tail)
        first_of_tail: Dict[int, int] = {}
        packed_tail: List[bytes] = []
        for place in range(len(tail) - 1, -1, -1):
            row = tail[place]
            next_step = first_of_tail.get(row[0], end)
            packed_tail.append(STEP.pack(*row, next_step, len(self.flat), 0, 0, 0))
            first_of_tail[row[0]] = len(self.rows) + place
        packed = bytearray(self.packed)
        for thread, place in self.last.items():
            NUMBER.pack_into(packed, place * STEP.size + NEXT_AT, first_of_tail.get(thread, end))
        return bytes(packed) + b"".join(reversed(packed_tail)), {**first_of_tail, **self.first}


class Plan:
    """A schedule of a recording, up to the `ends`: a pair of accesses, or the requests of a deadlock. `alone` is how
    long a thread goes on alone after a pair."""

    def __init__(
        self, clock: clocks.Clock, witness: Witness, ends: Sequence[int], patience: int, alone: int = ALONE
    ) -> None:
        self.clock, self.ends, self.patience, self.alone = clock, ends, patience, alone
        self.events, self.lines = witness
        self.requests: Sequence[int] = ()
        self.steps, self.split = steps_of(clock, witness, ends)
        self.needs = Needs(clock, witness, self.steps).of
        self.threads = max([*clock.ticks, *(child for _, _, child in clock.forks), 0]) + 1
        records = ((clock.record(event), event) for event in self.steps)
        self.packed = Steps([(record.thread, EVENT, record.pos, event) for record, event in records], self.needs)

    def tail(self, accesses: str) -> List[Row]:
        """After the steps both threads come to the race, and then their accesses are done in that order."""
        last = [self.ends["ab".index(letter)] for letter in accesses]
        kinds = [(STAND, event) for event in self.ends] + [(EVENT, event) for event in last]
        records = [(self.clock.record(event), kind, event) for kind, event in kinds]
        rows = [(record.thread, kind, record.pos, event) for record, kind, event in records]
        return rows + ([(self.clock.record(last[-1]).thread, LAST, 0, last[-1])] if last else [])

    def ticks(self) -> Tuple[bytes, bytes]:
        """Where the ticks of each thread are, and the ticks."""
        known: List[bytes] = []
        ticks = array("Q")
        for thread in range(self.threads):
            mine = self.clock.ticks.get(thread, array("Q"))
            known.append(struct.pack("<QQ", len(ticks) // 3, len(mine) // 3))
            ticks.extend(mine)
        return b"".join(known), ticks.tobytes()

    def tables(self, tail: List[Row]) -> List[bytes]:
        """The parts after the head: threads, forks, steps, needs, first steps, ticks, modules."""
        known, ticks = self.ticks()
        steps, first_of = self.packed.before(tail)
        end = len(self.packed.rows) + len(tail)
        first = array("Q", [first_of.get(thread, end) for thread in range(self.threads)])
        forks = b"".join(struct.pack("<QQQ", *fork) for fork in self.clock.forks)
        start = raw_file.WORDS.size
        modules = self.clock.raw[start : start + self.clock.head.module_count * raw_file.MODULE.size]
        return [known, forks, steps, self.packed.flat.tobytes(), first.tobytes(), ticks, modules]

    def write(self, file: IO[bytes], order: Order) -> List[Row]:
        """Writes the plan for an order; its rows."""
        tail = self.tail(order.accesses)
        rows = self.packed.rows + tail
        parts, places, end = self.tables(tail), [], TABLES_AT
        for part in parts:
            places.append(end)
            end += len(part)
        threads_at, forks_at, steps_at, needs_at, first_at, ticks_at, modules_at = places
        frees, modules = int(self.clock.fields["free"]), self.clock.head.module_count
        alone = self.alone if order.goes_alone else 0
        counts = [self.threads, len(rows), len(self.clock.forks), len(parts[5]) // 24, frees]
        how = [order.held_back, alone, self.patience]
        where = [threads_at, forks_at, steps_at, ticks_at, needs_at, first_at, modules_at, modules]
        head = HEAD.pack(MAGIC, *counts, *how, *where, *[0] * WORDS_OUT)
        requests = REQUESTS.pack(len(self.requests), order.hangs)
        file.write((head.ljust(REQUESTS_AT, b"\0") + requests).ljust(places[0], b"\0"))
        for part in parts:
            file.write(part)
        file.flush()
        return rows
