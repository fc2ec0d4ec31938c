"""Judges the names of a recording by its raw addresses: no two objects share a name, one object keeps its name, and a
frame or a block that is there again is a new object.

It reads the records by another way than the decoder, and no debug information. So it knows the objects of each program
of each compiler: a block from its allocation on, one activation of a function, the variables of one thread; and all
that lasts as one object, whose places are addresses. What a name says is judged by `recorded_names.py`.

    raw_objects.py RAW TRACE NUMBERS     TRACE and NUMBERS are what the decoder wrote of RAW
"""

from __future__ import annotations

import bisect
import os
import re
import sys
from array import array
from collections import defaultdict
from collections.abc import Iterable, Iterator
from typing import NamedTuple

import raw_records
from elftools.elf.elffile import ELFFile  # type: ignore[import]
from raw_records import Record

OPERATION = re.compile(r"T\d+\|(\w+)\((.*)\)\|", re.DOTALL)
# What has a name that is made of another one: the lock of an atomic, the state of a lock, a meeting, a reader's lock.
DERIVED = ("atomic:", "sync:", "held:", "order:")
READER = re.compile(r":T\d+$")
LOCKS = ("ACQUIRE", "RELEASE")
ACCESSES = ("READ", "WRITE", "FREED", "ATOMIC_READ", "ATOMIC_WRITE", "ATOMIC_UPDATE", *LOCKS)
READS = ("READ", "ATOMIC_READ")
LASTS = -1


class WrongName(Exception):
    """What is wrong with the names of a recording."""


class Access(NamedTuple):
    """What a record is of: an object by its number, and the bytes in it."""

    thing: int
    start: int
    end: int


class Pieces:
    """Ranges of addresses that do not overlap, each with an object, and what its places are counted from."""

    def __init__(self) -> None:
        self.starts: list[int] = []
        self.rest: list[tuple[int, int, int]] = []

    def cut(self, start: int, end: int) -> int:
        """Takes the range out of all others; returns where one that begins there has its place."""
        first = bisect.bisect_left(self.starts, start)
        if first and self.rest[first - 1][0] > start:
            first -= 1
        last, kept = first, []
        while last < len(self.starts) and self.starts[last] < end:
            its, (its_end, thing, base) = self.starts[last], self.rest[last]
            kept += [(its, (start, thing, base))] if its < start else []
            kept += [(end, (its_end, thing, base))] if its_end > end else []
            last += 1
        self.starts[first:last] = [its for its, _ in kept]
        self.rest[first:last] = [rest for _, rest in kept]
        return bisect.bisect_left(self.starts, start)

    def put(self, start: int, end: int, thing: int, base: int) -> None:
        place = self.cut(start, end)
        self.starts.insert(place, start)
        self.rest.insert(place, (end, thing, base))

    def drop(self, start: int, end: int) -> None:
        """Takes each range out that has one of these addresses."""
        first = bisect.bisect_left(self.starts, start)
        if first and self.rest[first - 1][0] > start:
            first -= 1
        last = bisect.bisect_left(self.starts, end)
        if first < last:
            del self.starts[first:last]
            del self.rest[first:last]

    def at(self, address: int) -> tuple[int, int, int] | None:
        place = bisect.bisect_right(self.starts, address) - 1
        return self.rest[place] if place >= 0 and address < self.rest[place][0] else None


class Objects:
    """The objects of a recording, as its records go by."""

    def __init__(self, own_size: int) -> None:
        self.own_size, self.count = own_size, 0
        self.blocks, self.inside = Pieces(), Pieces()
        self.frames: dict[int, tuple[int, int]] = {}

    def new(self) -> int:
        self.count += 1
        return self.count

    def see(self, record: Record) -> None:
        start, end = record.at, record.at + max(record.size, 1)
        if record.kind in ("ALLOCATED", "STACK"):
            self.blocks.drop(start, end)
            self.blocks.put(start, end, self.new(), start)
            self.inside.cut(start, end)
        elif record.kind == "RESIZED" and (known := self.blocks.at(start)) and known[2] == start:
            self.blocks.put(start, max(end, known[0]), known[1], start)
            self.blocks.cut(end, max(end, known[0]))
        elif record.kind == "FRAME":
            known = self.inside.at(end - 1)
            is_more = record.order and known and self.frames.get(known[1]) == (end, record.pc)
            thing = known[1] if known and is_more else self.new()
            self.frames[thing] = end, record.pc
            self.inside.put(start, end, thing, end)
        if record.kind == "STACK" and record.answer and self.own_size:
            first = record.answer - self.own_size
            self.inside.put(first, record.answer, self.new(), first)

    def of(self, record: Record) -> Access:
        """What the record is of."""
        found = self.inside.at(record.at) or self.blocks.at(record.at) or (0, LASTS, 0)
        start, size = record.at - found[2], max(record.size, 1)
        if record.kind == "FREED" and not raw_records.is_end(record):
            block = self.blocks.at(record.at)
            found, start, size = (block, 0, block[0] - record.at) if block else (found, start, size)
        return Access(found[1], start, start + size)


def own_size(path: str) -> int:
    """How many bytes the variables take that a program has for each thread."""
    try:
        with open(path, "rb") as file:
            segments = ELFFile(file).iter_segments("PT_TLS")
            return next((one["p_memsz"] + -one["p_memsz"] % (one["p_align"] or 1) for one in segments), 0)
    except OSError:
        return 0


def names_in(lines: Iterable[str], wanted: str) -> tuple[str, ...]:
    """The variables or locks that events of one record have, in their order."""
    found = [match.groups() for match in map(OPERATION.match, lines) if match]
    kept = [name for word, name in found if word == wanted and not name.startswith(DERIVED)]
    return tuple(name for name in kept if not READER.search(name))


class Parts:
    """The parts of each object: it is cut where an access begins or ends. Those that two threads access, one of them
    writing, have names."""

    def __init__(self, accesses: list[tuple[Record, Access]]) -> None:
        edges: dict[int, set[int]] = defaultdict(set)
        for _, access in accesses:
            edges[access.thing] |= {access.start, access.end}
        self.edges = {thing: sorted(places) for thing, places in edges.items()}
        self.threads: dict[tuple[int, int], set[int]] = defaultdict(set)
        self.written: set[tuple[int, int]] = set()
        for record, access in accesses:
            for part in self.all_of(access):
                self.threads[part].add(record.thread)
                if record.kind not in READS:
                    self.written.add(part)

    def all_of(self, access: Access) -> list[tuple[int, int]]:
        places = self.edges.get(access.thing, [])
        first, last = bisect.bisect_left(places, access.start), bisect.bisect_left(places, access.end)
        return [(access.thing, place) for place in places[first:last]]

    def named_of(self, access: Access) -> list[tuple[int, int]]:
        return [part for part in self.all_of(access) if part in self.written and len(self.threads[part]) > 1]


class Judge:
    """Names and objects, as the events go by."""

    def __init__(self, parts: Parts) -> None:
        self.parts = parts
        self.owner: dict[str, int] = {}
        self.bytes: dict[str, tuple[int, int]] = {}
        self.names_at: dict[tuple[int, ...], tuple[str, ...]] = {}
        self.count = 0

    def see(self, access: Access, is_lock: bool, names: tuple[str, ...]) -> None:
        """The names of the parts of an access. The first byte of a lock may be a part too: then there are more."""
        parts = [] if is_lock else self.parts.named_of(access)
        if len(parts) == len(names):
            for part, name in zip(parts, names):
                self.keeps(part, (name,))
        self.keeps((*access, is_lock), names)
        for name in names:
            self.see_name(access, name)

    def keeps(self, place: tuple[int, ...], names: tuple[str, ...]) -> None:
        known = self.names_at.setdefault(place, names)
        if known != names:
            raise WrongName(f"one place of an object is {' '.join(known)} and {' '.join(names)}")

    def see_name(self, access: Access, name: str) -> None:
        self.count += 1
        if self.owner.setdefault(name, access.thing) != access.thing:
            raise WrongName(f"two objects are {name}")
        start, end = self.bytes.get(name, (access.start, access.end))
        self.bytes[name] = max(start, access.start), min(end, access.end)
        if self.bytes[name][0] >= self.bytes[name][1]:
            raise WrongName(f"two places of an object are {name}")


def events_by_record(lines: list[str], numbers: array[int]) -> Iterator[tuple[int, list[str]]]:
    """The events of each record that has some."""
    first = 0
    while first < len(lines):
        last = first
        while last < len(lines) and numbers[last] == numbers[first]:
            last += 1
        yield numbers[first], lines[first:last]
        first = last


def accesses_in(raw: raw_records.Raw) -> list[tuple[Record, Access]]:
    """The records of memory, each with what it is of."""
    things, found = Objects(own_size(raw.modules[0][2]) if raw.modules else 0), []
    for record in raw.records:
        things.see(record)
        if not record.of and record.kind in ACCESSES:
            found.append((record, things.of(record)))
    return found


def judge(path: str, lines: list[str], numbers: array[int]) -> int:
    """Judges the events of a recording, of which `numbers` has the records; how many names were judged."""
    if len(lines) != len(numbers):
        raise WrongName(f"{len(lines)} events have {len(numbers)} records")
    accesses = accesses_in(raw_records.read(path))
    found = Judge(Parts([one for one in accesses if one[0].kind not in LOCKS]))
    events = dict(events_by_record(lines, numbers))
    for record, access in accesses:
        mine, is_lock = events.get(record.number, []), record.kind in LOCKS
        for word in ("acq", "rel") if is_lock else ("r", "w"):
            if names := names_in(mine, word):
                found.see(access, is_lock, names)
    return found.count


def main(path: str, trace: str, numbers_path: str) -> None:
    with open(trace, encoding="utf-8", errors="surrogateescape", newline="\n") as file:
        lines = [line for line in file.read().split("\n") if line and not line.startswith("recording|")]
    numbers = array("Q")
    with open(numbers_path, "rb") as file:
        numbers.frombytes(file.read(os.path.getsize(numbers_path)))
    try:
        print(judge(path, lines, numbers))
    except WrongName as wrong:
        sys.exit(str(wrong))


if __name__ == "__main__":
    main(*sys.argv[1:])
