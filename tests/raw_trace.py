"""raw_trace.py RAW prints the trace of a raw file, computed by another way than the decoder's: byte by byte, with every
record in memory. It is for small programs in C without relaxed atomics, and needs Debian's python3-pyelftools.

With --frames, each frame is an object, and so are the variables of each thread: `frame:N` and `thread:N`, with the
offset from the frame's end. With --all, nothing is left out.
"""

from __future__ import annotations

import sys
from collections import defaultdict
from collections.abc import Iterator
from typing import NamedTuple

import leaving
import raw_records
from raw_channels import CHANNEL, MADE, Posts, Stream, inside, met
from raw_records import Record

READS = ("READ", "ATOMIC_READ", "ATOMIC_UPDATE")
WRITES = ("WRITE", "ATOMIC_WRITE", "ATOMIC_UPDATE", "FREED")
MEETINGS = ("ARRIVED", "WENT_ON")
LOCKS = ("ACQUIRE", "RELEASE", "PASS", "WRITER", "TRIED", "READER_IN", "READER_OUT")
KINDS_OF_OBJECTS = ("memory", "fd", "channel", "chance", "team")


class Step(NamedTuple):
    """A record with what it is of: the name of an object, a place in it, and how many bytes."""

    record: Record
    name: str
    place: int
    size: int

    @property
    def key(self) -> tuple[str, int]:
        return self.name, self.place


def is_making(record: Record) -> bool:
    """Whether a record makes a semaphore."""
    return record.kind == "WRITE" and record.order == MADE


def is_taking(record: Record) -> bool:
    return record.kind in ("ACQUIRE", "WRITER", "READER_IN") or (record.kind == "PASS" and record.order == 1)


class Inside:
    """What is in stacks: frames, and the variables of threads. The last piece that has an address counts."""

    def __init__(self, own_size: int) -> None:
        self.own_size = own_size
        self.pieces: list[tuple[int, int, Record | None, str]] = []
        self.count = 0

    def piece_at(self, address: int) -> tuple[int, int, Record | None, str] | None:
        return next((piece for piece in reversed(self.pieces) if piece[0] <= address < piece[1]), None)

    def see(self, record: Record) -> None:
        end = record.at + record.size
        if record.kind == "FRAME":
            known = self.piece_at(end - 1)
            is_more = record.order and known and known[2] and (known[1], known[2].pc) == (end, record.pc)
            name = known[3] if known and is_more else f"frame:{self.count}"
            self.count += not is_more
            self.pieces = [piece for piece in self.pieces if piece[0] < record.at or piece[1] > end]
            self.pieces.append((record.at, end, record, name))
        elif record.kind in ("STACK", "ALLOCATED"):
            self.pieces = [piece for piece in self.pieces if piece[0] < record.at or piece[1] > end]
            self.pieces.append((record.at, max(end, record.at + 1), None, ""))
            if record.kind == "STACK" and record.answer and self.own_size:
                self.count += 1
                start = record.answer - self.own_size
                self.pieces.append((start, record.answer, None, f"thread:{self.count}"))

    def object_at(self, address: int) -> tuple[str, int] | None:
        piece = self.piece_at(address)
        if not piece or not piece[3]:
            return None
        return piece[3], address - (piece[1] if piece[2] else piece[0])


class Interpreter:
    def __init__(self, path: str, has_frames: bool = False) -> None:
        self.raw = raw_records.read(path)
        if any(record.kind.startswith("ATOMIC") and not record.order for record in self.raw.records):
            sys.exit("relaxed atomics are not known here")
        self.places = raw_records.Places(self.raw)
        self.inside = Inside(self.places.module.own_size) if has_frames else None
        self.users: dict[tuple[int, int], set[int]] = defaultdict(set)
        for record in self.raw.records:
            self.users[record.of, record.at].add(record.thread)
        self.steps = list(self.resolved())
        self.find_bytes()

    def resolved(self) -> Iterator[Step]:
        """Each record that may be written, with the object that has its address at that time."""
        living: dict[int, tuple[int, str]] = {}
        count: dict[str, int] = defaultdict(int)
        for record in self.raw.records:
            if self.inside:
                self.inside.see(record)
            if record.kind in ("ALLOCATED", "STACK"):
                end = record.at + max(record.size, 1)
                for start in [s for s in living if s < end and record.at < s + max(living[s][0], 1)]:
                    del living[start]
                name = f"stack:T{record.thread}"
                if record.kind == "ALLOCATED":
                    place = self.places.stack(record.pc, record.node)[0][1]
                    count[place] += 1
                    name = f"heap:{place}#{count[place]}"
                living[record.at] = record.size, name
            elif record.kind == "RESIZED" and record.at in living:
                living[record.at] = record.size, living[record.at][1]
            elif record.kind in ("FORK", "JOIN"):
                yield Step(record, f"T{record.at}", 0, 0)
            elif raw_records.is_end(record):
                yield Step(record, *self.object_at(record, living), record.size)
            elif record.kind == "FREED":
                if record.at in living:
                    yield Step(record, living[record.at][1], 0, living[record.at][0])
            elif record.kind in READS + WRITES + MEETINGS + LOCKS:
                if record.of and len(self.users[record.of, record.at]) == 1:
                    continue
                yield Step(record, *self.object_at(record, living), record.size)

    def object_at(self, record: Record, living: dict[int, tuple[int, str]]) -> tuple[str, int]:
        if record.of:
            return f"{KINDS_OF_OBJECTS[record.of]}:{record.at}", 0
        found = self.inside.object_at(record.at) if self.inside else None
        if found:
            return found
        for start, (size, name) in living.items():
            if start <= record.at < start + max(size, 1):
                return name, record.at - start
        variable = self.places.variable(record.at)
        if variable:
            return variable[1], record.at - variable[0]
        return f"memory:{record.at >> 20 << 20:x}", record.at & 0xFFFFF

    def find_bytes(self) -> None:
        """Of each byte who came to it and who wrote it, and where accesses of shared objects begin or end."""
        threads: dict[str, set[int]] = defaultdict(set)
        written = set()
        for step in self.accesses():
            threads[step.name].add(step.record.thread)
            if step.record.kind in WRITES:
                written.add(step.name)
        self.came: dict[tuple[str, int], set[int]] = defaultdict(set)
        self.written: set[tuple[str, int]] = set()
        self.edges: set[tuple[str, int]] = set()
        for step in self.accesses():
            if len(threads[step.name]) < 2 or step.name not in written:
                continue
            self.edges |= {(step.name, step.place), (step.name, step.place + step.size)}
            for place in range(step.place, step.place + step.size):
                self.came[step.name, place].add(step.record.thread)
                if step.record.kind in WRITES:
                    self.written.add((step.name, place))

    def accesses(self) -> Iterator[Step]:
        return (step for step in self.steps if step.record.kind in READS + WRITES)

    def parts(self, step: Step) -> Iterator[str]:
        """The names of the parts of an access that are written."""
        for place in range(step.place, step.place + step.size):
            at = (step.name, place)
            if at in self.edges and at in self.written and len(self.came[at]) > 1:
                yield named(at)

    def lines(self, is_whole: bool) -> Iterator[str]:
        """The lines of the trace, whole or without what no verdict needs."""
        for step in self.whole() if is_whole else leaving.without(self.whole()):
            yield from map(leaving.line_of, step.events)

    def whole(self) -> Iterator[leaving.Step]:
        """What each record becomes if nothing is left out."""
        uses = [step for step in self.steps if step.record.kind in LOCKS + MEETINGS or is_making(step.record)]
        locks = {key: Lock([use.record for use in uses if use.key == key]) for key in {use.key for use in uses}}
        for step in self.steps:
            record = step.record
            if record.kind in ("FORK", "JOIN"):
                operations = [f"{record.kind.lower()}({step.name})"]
            elif record.kind in READS + WRITES:
                operations = accessed(record, list(self.parts(step)))
            else:
                operations = locks[step.key].operations(named(step.key), record)
            where = self.places.location(record) if operations else ""
            events = [leaving.event_of(f"T{record.thread}|{operation}|{where}") for operation in operations]
            may_look = record.kind in ("ATOMIC_READ", "TRIED") and not record.of
            yield leaving.Step(events, (record.pc, record.node), may_look)


def named(at: tuple[str, int]) -> str:
    return f"{at[0]}+{at[1]}" if at[1] else at[0]


def accessed(record: Record, names: list[str]) -> list[str]:
    letters = "r" * (record.kind in READS) + "w" * (record.kind in WRITES)
    operations = [f"{word}({name})" for name in names for word in letters]
    return inside(f"atomic:{names[0]}", operations) if names and record.kind.startswith("ATOMIC") else operations


class Lock:
    """A lock or semaphore by all of its records."""

    def __init__(self, all_records: list[Record]) -> None:
        self.posts = Posts([one for one in all_records if not one.of])
        self.stream = Stream([one for one in all_records if one.of == CHANNEL and one.kind not in MEETINGS])
        records = [one for one in all_records if not is_making(one)]
        self.readers = sorted({one.thread for one in records if one.kind.startswith("READER")})
        self.tried = any(one.kind == "TRIED" for one in records)
        passes = any(one.kind == "PASS" for one in records)
        others = any(one.kind in ("ACQUIRE", "RELEASE", "WRITER", "READER_IN") for one in records)
        is_uneven = self.is_uneven(records)
        is_many = is_uneven or self.posts.first_value > 1
        self.is_counted = self.posts.is_whole and not others and not self.tried and is_many
        self.is_chain = is_uneven or (passes and others)
        self.has_writer = False

    @staticmethod
    def is_uneven(records: list[Record]) -> bool:
        """Whether a thread lets it go that does not have it, or takes it while another has it."""
        holders: list[int] = []
        for one in records:
            if one.kind in ("TRIED", "READER_IN", "READER_OUT", *MEETINGS):
                continue
            if one.kind == "PASS" and not one.order:
                return True
            if is_taking(one):
                if holders and (holders[-1] != one.thread or one.kind == "PASS"):
                    return True
                holders.append(one.thread)
            elif not holders or holders.pop() != one.thread:
                return True
        return False

    def operations(self, name: str, record: Record) -> list[str]:
        if record.kind in MEETINGS:
            return met(name, record.answer, record.kind == "ARRIVED")
        if self.is_counted:
            return self.posts.operations(name, record)
        if self.stream.is_whole:
            return self.stream.operations(name, record)
        if self.is_chain:
            return inside(name, [f"r(sync:{name})", *([f"w(sync:{name})"] if record.kind != "TRIED" else [])])
        others = [f"{name}:T{reader}" for reader in self.readers if reader != record.thread]
        if record.kind == "TRIED":
            return state([name, *([] if record.size else others)], "r")
        if record.kind.startswith("READER"):
            return self.section([f"{name}:T{record.thread}"], is_taking(record))
        all_readers = record.kind == "WRITER" or self.has_writer
        self.has_writer = record.kind == "WRITER"
        return self.section([name, *(others if all_readers else [])], is_taking(record))

    def section(self, names: list[str], takes: bool) -> list[str]:
        states = state(names[:1], "w") if self.tried else []
        if takes:
            return [*(f"acq({name})" for name in names), *states]
        return [*states, *(f"rel({name})" for name in reversed(names))]


def state(names: list[str], word: str) -> list[str]:
    operations = [f"{word}(held:{name})" for name in names]
    for name in reversed(names):
        operations = inside(f"atomic:held:{name}", operations)
    return operations


if __name__ == "__main__":
    judge = Interpreter(sys.argv[-1], "--frames" in sys.argv)
    sys.stdout.writelines(f"{line}\n" for line in judge.lines("--all" in sys.argv))
