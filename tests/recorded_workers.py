#!/usr/bin/env python3
"""Judges the text that several workers of the decoder make side by side: it must be that of one worker, with the same
numbers of records and the same facts. The records are drawn by chance.

    recorded_workers.py [COUNT [FIRST]]      draws this many recordings (3000), from this seed on (1)

What no other judge sees: a line that a worker makes with the count of a semaphore, the place in a stream, the state of
a lock or the name of a variable that another worker knows; a stretch of text that is written in parts; damaged records
of locks or channels that several workers take for others than one does.
"""

import os
import random
import subprocess
import sys
import tempfile
from collections import Counter
from typing import NamedTuple

if __name__ == "__main__":
    sys.dont_write_bytecode = True
import names_of_runs
from judging import Case, Wrong
from recorded_leaving import ATOMIC, Drawn
from recorded_places import PATIENCE, RECORD

if sys.path[0] != RECORD:
    sys.path.insert(0, RECORD)
import raw as raw_file

FEW, MOST_WORKERS = 40, 9
# How many bytes of a damaged recording are other ones, at most.
MOST_DAMAGE = 12
# What is drawn beside what Drawn has: semaphores, reader-writer locks, channels.
SEMAPHORES, SHARED, CHANNELS = [0x10003000, 0x10003040], [0x10004000, 0x10004040], [1, 2]
ORDERS, BY_TRY, MODULE_AT = range(6), 2, 0x400000
WAITED, POSTED = raw_file.WAYS["WAITED"], raw_file.WAYS["POSTED"]
OF_CHANNEL = raw_file.OBJECTS["OF_CHANNEL"]
# A block whose words two threads access one by one and then whole: how many bytes it has, and how often that happens.
# The text is then longer than the 16 stretches of two workers may be, of 2 MB each.
WIDE, TIMES, LEAST_TEXT = 512, 14_000, 16 << 21
# What several of the drawn traces must have, by a part of their lines.
WANTED = {"a count": b"#2)", "a stream": b"sync:received:", "a writer of readers": b":T1)", "a refused try": b"held:"}


class Busy(Drawn):
    """Records of a run whose threads also use semaphores, channels, reader-writer locks and relaxed atomics."""

    def __init__(self, seed: int) -> None:
        super().__init__(seed)
        self.counts = dict.fromkeys(SEMAPHORES, 0)
        self.sent = dict.fromkeys(CHANNELS, 0)
        # Of each reader-writer lock who has it: threads that read, or one that writes.
        self.readers: dict[int, list[int]] = {lock: [] for lock in SHARED}
        self.writers: dict[int, int] = {}

    def add(self, thread: int, kind: str, at: int, **more: int) -> None:
        """A record with other fields than Drawn has."""
        self.clock += 1
        number = raw_file.KINDS[kind]
        place = (number << 20 | (at & 0x1FFF) << 4 | more.get("order", 0) << 1) + MODULE_AT
        fields = more.get("answer", 0), more.get("size", 0), 0, thread, number, 1, more.get("order", 0)
        row = raw_file.RECORD.pack(at, place, self.clock << 16, *fields, more.get("of", 0), 0)
        self.records.append(raw_file.LONG.to_bytes(raw_file.WORD, "little") + row)

    def step(self) -> None:
        alive = [thread for thread in self.threads if thread not in self.joined]
        others = [self.semaphore, self.message, self.read_lock, self.write_lock, self.atomic]
        if self.chance.random() < 0.4:
            super().step()
        else:
            self.chance.choice(others)(self.chance.choice(alive))

    def semaphore(self, thread: int) -> None:
        at = self.chance.choice(SEMAPHORES)
        posts = not self.counts[at] or self.chance.random() < 0.5
        self.counts[at] += 1 if posts else -1
        self.add(thread, "PASS", at, order=POSTED if posts else WAITED)

    def message(self, thread: int) -> None:
        channel, size = self.chance.choice(CHANNELS), self.chance.randint(1, 9)
        sends = not self.sent[channel] or self.chance.random() < 0.5
        answer = size if sends else min(size, self.sent[channel])
        self.sent[channel] += answer if sends else -answer
        self.add(thread, "PASS", channel, order=POSTED if sends else WAITED, of=OF_CHANNEL, answer=answer)

    def read_lock(self, thread: int) -> None:
        at = self.chance.choice(SHARED)
        if thread in self.readers[at]:
            self.readers[at].remove(thread)
            self.add(thread, "READER_OUT", at)
        elif at not in self.writers:
            self.readers[at].append(thread)
            self.add(thread, "READER_IN", at, order=self.chance.choice([0, BY_TRY]))
        elif self.writers[at] != thread:
            self.add(thread, "TRIED", at, size=1)

    def write_lock(self, thread: int) -> None:
        at = self.chance.choice(SHARED)
        if self.writers.get(at) == thread:
            del self.writers[at]
            self.add(thread, "RELEASE", at)
        elif at not in self.writers and not self.readers[at]:
            self.writers[at] = thread
            self.add(thread, "WRITER", at)
        elif thread not in self.readers[at]:
            self.add(thread, "TRIED", at)

    def atomic(self, thread: int) -> None:
        kind = self.chance.choice(["ATOMIC_READ", "ATOMIC_WRITE", "ATOMIC_UPDATE", "FENCE"])
        at = 0 if kind == "FENCE" else self.chance.choice(ATOMIC)
        self.add(thread, kind, at, size=4, order=self.chance.choice(ORDERS))

    def wide(self, size: int, times: int) -> None:
        """Two threads access each word of a block, and then both all of it again and again."""
        block = 0x10020000
        self.put(0, "ALLOCATED", block, size)
        self.put(0, "FORK", 1)
        self.put(0, "FORK", 2)
        for place in range(0, size, 8):
            self.put(1 + place // 8 % 2, "WRITE", block + place, 8)
        for _ in range(times):
            self.put(self.chance.randint(1, 2), "READ", block, size)


class Decoded(NamedTuple):
    """What the decoder writes of drawn.raw: the trace, the numbers of its records, and the facts."""

    status: int
    trace: bytes
    numbers: bytes
    facts: bytes


def decoded(decoder: str, workers: int, *options: str) -> Decoded:
    command = [decoder, *options, "--workers", str(workers), "--numbers", "numbers", "drawn.raw"]
    done = subprocess.run(command, capture_output=True, timeout=PATIENCE, check=False)
    if done.returncode not in (0, 1):
        raise Wrong(f"the decoder ended with status {done.returncode}: {done.stderr.decode(errors='replace')[:600]}")
    with open("numbers", "rb") as file:
        return Decoded(done.returncode, done.stdout, file.read(), done.stderr)


def judge_same(decoder: str, what: str, workers: int, *options: str) -> Decoded:
    """Several workers write what one does."""
    one, several = decoded(decoder, 1, *options), decoded(decoder, workers, *options)
    for name, mine, other in zip(one._fields, one, several):
        if mine != other:
            raise Wrong(f"{what}: the {name} of {workers} workers with {options} is not that of one")
    if not one.status and len(one.numbers) != 8 * (one.trace.count(b"\n") - 2):
        raise Wrong(f"{what}: there are not as many numbers as events")
    return one


def judge_drawn(decoder: str, count: int = FEW, first: int = 1) -> Counter[str]:
    """Drawn recordings, by several workers and with options of the decoder. Some have what is wanted."""
    met: Counter[str] = Counter()
    for seed in range(first, first + count):
        drawn = Busy(seed)
        drawn.write("drawn.raw", drawn.chance.choice([60, 200, 600]))
        options = [word for word in ("--all", "--raw-names", "--no-free") if drawn.chance.random() < 0.3]
        found = judge_same(decoder, f"seed {seed}", drawn.chance.randint(2, MOST_WORKERS), *options)
        if found.status:
            raise Wrong(f"seed {seed} is refused: {found.facts.decode(errors='replace')[:600]}")
        met.update(name for name, form in WANTED.items() if form in found.trace)
    if set(met) != set(WANTED):
        raise Wrong(f"of {count} traces none has {set(WANTED) - set(met)}")
    return met


def damage(chance: random.Random) -> None:
    """Changes some bytes of the records of drawn.raw."""
    with open("drawn.raw", "r+b") as file:
        size = file.seek(0, os.SEEK_END)
        for _ in range(chance.randint(1, MOST_DAMAGE)):
            file.seek(chance.randrange(raw_file.HEAD_SIZE + raw_file.NODE.size, size))
            file.write(bytes([chance.choice([0, 1, 2, chance.randrange(256)])]))


def judge_damaged(decoder: str, count: int = FEW, first: int = 1) -> None:
    """Damaged recordings: several workers write what one does, or say what it says. Some are decoded, some refused."""
    refused = 0
    for seed in range(first, first + count):
        drawn = Busy(seed)
        drawn.write("drawn.raw", drawn.chance.choice([60, 200]))
        damage(drawn.chance)
        found = judge_same(decoder, f"damaged, seed {seed}", drawn.chance.randint(2, MOST_WORKERS))
        if found.status and b"of the records is damaged" not in found.facts:
            raise Wrong(f"damaged, seed {seed}: {found.facts.decode(errors='replace')[:600]}")
        refused += found.status
    if not 0 < refused < count:
        raise Wrong(f"of {count} damaged recordings {refused} are refused")


def judge_damages() -> None:
    judge_damaged(names_of_runs.decoder())


def judge_draws() -> None:
    judge_drawn(names_of_runs.decoder())


def judge_wide() -> None:
    """Stretches with much text are written in parts."""
    drawn = Busy(1)
    drawn.wide(WIDE, TIMES)
    drawn.write("drawn.raw", 0)
    found = judge_same(names_of_runs.decoder(), "wide accesses", 2)
    if found.status or len(found.trace) < LEAST_TEXT:
        raise Wrong(f"the trace has only {len(found.trace)} bytes")


def cases() -> list[Case]:
    judges = ("drawn", judge_draws), ("damaged", judge_damages), ("wide", judge_wide)
    return [(f"text by several workers, {name}", judge, ()) for name, judge in judges]


def main() -> None:
    count, first = (int(word) for word in [*sys.argv[1:3], "3000", "1"][:2])
    made = names_of_runs.decoder()
    with tempfile.TemporaryDirectory() as folder:
        os.chdir(folder)
        met = judge_drawn(made, count, first)
        judge_damaged(made, count, first)
        judge_wide()
        os.chdir("/")
    print(", ".join(f"{kind} {number}" for kind, number in sorted(met.items())))
    print(f"{count} passed, 0 failed")


if __name__ == "__main__":
    main()
