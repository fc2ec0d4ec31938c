#!/usr/bin/env python3
"""Judges what the recorder leaves out, since it can't change a verdict: by traces of records that are drawn by chance.
Each is decoded whole and without what is left out. The second must be the first without what the definitions of
leaving.py leave out, and triage has to say the same of both. Several workers have to write the same trace as one.

    recorded_leaving.py PROGRAM [COUNT [FIRST]]      draws this many traces (3000), from this seed on (1)

What no other judge sees: a verdict that hangs on an access that was left out.
"""

import json
import os
import random
import re
import subprocess
import sys
import tempfile
from collections import Counter, defaultdict
from collections.abc import Iterable, Sequence

if __name__ == "__main__":
    sys.dont_write_bytecode = True
import leaving
import names_of_runs
from judging import Case, Wrong
from recorded_places import PATIENCE, RECORD, SOURCES, events_in, ran

if sys.path[0] != RECORD:
    sys.path.insert(0, RECORD)
import raw as raw_file

# How many traces the tests draw, and by how many workers each is decoded at most, beside one.
FEW, MOST_WORKERS = 60, 9
SEQ_CST, MODULE_AT, KINDS = 5, 0x400000, raw_file.KINDS
# The main thread, and how many others there may be.
MAIN, MOST_THREADS = 0, 5
# Addresses: what all threads access plainly, what they access by atomics, locks, and the first block.
PLAIN = [0x10000000 + 8 * k for k in range(8)]
ATOMIC, LOCKS, BLOCKS = [0x10001000, 0x10001008], [0x10002000, 0x10002040], 0x10010000


# Two accesses, each with its operation and its location; and the verdict on such a pair, with the events that are
# named.
Places = tuple[tuple[str, str], ...]
Verdict = tuple[tuple[str, str | None], list[int]]


class Drawn:
    """Records of a run that is drawn: threads that fork and join one another, access memory, take locks and poll."""

    def __init__(self, seed: int) -> None:
        self.chance, self.clock = random.Random(seed), 0
        self.records: list[bytes] = []
        self.threads = [MAIN]
        self.joined: set[int] = set()
        # The thread that holds a lock, and the locks that a thread holds.
        self.holders: dict[int, int] = {}
        self.held: defaultdict[int, list[int]] = defaultdict(list)
        self.blocks: list[int] = []
        self.freed: set[int] = set()
        # A loop that polls, of a thread: what it does, of what, and how often it does so again.
        self.polls: dict[int, tuple[str, int, int]] = {}
        self.busy = self.chance.choice(["forks", "locks", "polls"])

    def put(self, thread: int, kind: str, at: int, size: int = 0, order: int = 0, site: int = 0) -> None:
        """A record. Its place in the code hangs on what it is and of what, so a place is of one variable."""
        self.clock += 1
        place = (KINDS[kind] << 20 | (at & 0x1FFF) << 4 | site << 1) + MODULE_AT
        row = raw_file.RECORD.pack(at, place, self.clock << 16, 0, size, 0, thread, KINDS[kind], 1, order, 0, 0)
        self.records.append(raw_file.LONG.to_bytes(raw_file.WORD, "little") + row)

    def step(self) -> None:
        alive = [thread for thread in self.threads if thread not in self.joined]
        thread = self.chance.choice(alive)
        kind, at, left = self.polls.pop(thread, ("", 0, 0))
        if left and (kind == "ATOMIC_READ" or self.holders.get(at, thread) != thread):
            self.poll(thread, kind, at, left)
        else:
            weights = {"forks": [6, 3, 2, 1, 1], "locks": [6, 2, 6, 2, 1], "polls": [3, 1, 2, 2, 6]}[self.busy]
            steps = [self.access, self.fork_or_join, self.lock, self.change, self.begin_poll]
            self.chance.choices(steps, weights)[0](thread)

    def poll(self, thread: int, kind: str, at: int, left: int) -> None:
        self.put(thread, kind, at, 4 if kind == "ATOMIC_READ" else 0, SEQ_CST if kind == "ATOMIC_READ" else 0)
        if left > 1:
            self.polls[thread] = kind, at, left - 1

    def begin_poll(self, thread: int) -> None:
        taken = [lock for lock in LOCKS if self.holders.get(lock, thread) != thread]
        if taken and self.chance.random() < 0.5:
            self.poll(thread, "TRIED", self.chance.choice(taken), self.chance.randint(1, 6))
        else:
            self.poll(thread, "ATOMIC_READ", self.chance.choice(ATOMIC), self.chance.randint(1, 6))

    def access(self, thread: int) -> None:
        living = [block for block in self.blocks if block not in self.freed]
        if self.chance.random() < 0.1:
            self.put(thread, "ALLOCATED", BLOCKS + 64 * len(self.blocks), 16)
            self.blocks.append(BLOCKS + 64 * len(self.blocks))
        elif living and self.chance.random() < 0.15:
            self.freed.add(self.chance.choice(living))
            self.put(thread, "FREED", max(self.freed))
        else:
            places = PLAIN + [block + 8 * k for block in self.blocks[-2:] for k in range(2)]
            at = self.chance.choice(places + ATOMIC * (self.chance.random() < 0.1))
            wide = at in PLAIN[:-1] and self.chance.random() < 0.1
            kind = self.chance.choice(["READ", "READ", "WRITE"])
            self.put(thread, kind, at, 16 if wide else 8, 0, self.chance.randint(0, 1) + 2 * wide)

    def change(self, thread: int) -> None:
        self.put(thread, self.chance.choice(["ATOMIC_WRITE", "ATOMIC_UPDATE"]), self.chance.choice(ATOMIC), 4, SEQ_CST)

    def lock(self, thread: int) -> None:
        free = [lock for lock in LOCKS if lock not in self.holders]
        if self.held[thread] and self.chance.random() < 0.6:
            lock = self.held[thread].pop()
            del self.holders[lock]
            self.put(thread, "RELEASE", lock)
        elif free:
            lock = self.chance.choice(free)
            self.holders[lock] = thread
            self.held[thread].append(lock)
            self.put(thread, "ACQUIRE", lock)

    def fork_or_join(self, thread: int) -> None:
        others = [t for t in self.threads[1:] if t not in self.joined | {thread} and not self.held[t]]
        if others and self.chance.random() < 0.5:
            other = self.chance.choice(others)
            self.joined.add(other)
            self.polls.pop(other, None)
            self.put(thread, "JOIN", other)
        elif len(self.threads) <= MOST_THREADS:
            self.threads.append(len(self.threads))
            self.put(thread, "FORK", self.threads[-1])

    def write(self, path: str, count: int) -> None:
        for _ in range(count):
            self.step()
        numbers, size = [0] * (raw_file.WORDS.size // 8), len(self.records)
        used = raw_file.LONG_WORDS * size
        numbers[:7] = raw_file.MAGIC, size, used, 1, 1, raw_file.HEAD_SIZE, raw_file.HEAD_SIZE + raw_file.NODE.size
        numbers[10] = 1
        head = raw_file.WORDS.pack(*numbers) + raw_file.MODULE.pack(MODULE_AT, 0x8000000, b"/nowhere/drawn")
        with open(path, "wb") as out:
            out.write(head.ljust(raw_file.HEAD_SIZE + raw_file.NODE.size, b"\0") + b"".join(self.records))


def decoded(decoder: str, *options: str) -> str:
    done = subprocess.run([decoder, *options, "drawn.raw"], capture_output=True, timeout=PATIENCE, check=False)
    if done.returncode:
        raise Wrong(f"the decoder ended with status {done.returncode}: {done.stderr.decode(errors='replace')[:600]}")
    return done.stdout.decode()


def steps_of(events: Iterable[leaving.Event]) -> list[leaving.Step]:
    """The events of one record are one step: those of an atomic access are next to each other."""
    steps: list[leaving.Step] = []
    depth = 0
    for event in events:
        if depth:
            steps[-1].events.append(event)
        else:
            steps.append(leaving.Step([event], (event.location,), event.name.startswith("atomic:")))
        is_atomic = event.name.startswith("atomic:")
        depth += {"acq": 1, "rel": -1}.get(event.word, 0) if is_atomic else 0
    return steps


def rows_of(program: str, trace: str) -> dict[Places, Verdict]:
    """The verdicts on pairs of places, each with the events that are named."""
    with open("judged.std", "w", encoding="utf-8") as out:
        out.write(trace)
    rows = [json.loads(line) for line in ran([program, "triage", "judged.std", "--json", "--apart"]).splitlines()]
    found: dict[Places, Verdict] = {}
    for row in rows:
        if row["kind"] == "counts":
            continue
        accesses = [(access["operation"], access["location"]) for access in row["accesses"]]
        how = row["kind"], row.get("how")
        found[tuple(sorted(accesses))] = how, [access["event"] for access in row["accesses"]]
    return found


def conflict(events: Sequence[leaving.Event], pair: Places) -> bool:
    """Whether two events at these places conflict."""
    at = [[e for e in events if e.word in ("r", "w") and (e.word, e.location) == place] for place in pair]
    return any(a.thread != b.thread and a.name == b.name and "w" in (a.word, b.word) for a in at[0] for b in at[1])


def judge_rows(program: str, whole: str, less: str, numbers: Sequence[int]) -> Counter[str]:
    """Triage says the same of the whole trace and of the one with less; `numbers` are the events' numbers in the whole
    one."""
    before, after = rows_of(program, whole), rows_of(program, less)
    kept = [leaving.event_of(line) for line in events_in(less)]
    for pair in before.keys() | after.keys():
        if pair not in after:
            if before[pair][0][0] != "apart" or conflict(kept, pair):
                raise Wrong(f"the verdict {before[pair]} on {pair} is lost")
            continue
        if pair not in before or before[pair][0] != after[pair][0]:
            raise Wrong(f"the verdict on {pair} was {before.get(pair)} and is {after[pair]}")
        named = [numbers[event] for event in after[pair][1]]
        if after[pair][0][0] == "race" and named != before[pair][1]:
            raise Wrong(f"the race {pair} was named by {before[pair][1]} and is by {named}")
    return Counter(how[0] for how, _ in after.values())


def judge_one(program: str, decoder: str, seed: int) -> Counter[str]:
    """One drawn trace; how many events were left out, by their kind, and how many verdicts there are."""
    drawn = Drawn(seed)
    drawn.write("drawn.raw", drawn.chance.choice([20, 40, 80]))
    whole, less = decoded(decoder, "--all"), decoded(decoder)
    workers = drawn.chance.randint(2, MOST_WORKERS)
    if decoded(decoder, "--workers", str(workers)) != less:
        raise Wrong(f"seed {seed}: {workers} workers write another trace")
    steps = steps_of([leaving.event_of(line) for line in events_in(whole)])
    kept = leaving.without(steps)
    expected = [leaving.line_of(event) for step in kept for event in step.events]
    if events_in(less) != expected:
        raise Wrong(f"seed {seed}: the decoder leaves out something else: {events_in(less)}, and not {expected}")
    numbers: list[int] = []
    number = 0
    for step, rest in zip(steps, kept):
        numbers += [number + k for k, event in enumerate(step.events) if event in rest.events]
        number += len(step.events)
    try:
        found = judge_rows(program, whole, less, numbers)
    except Wrong as wrong:
        raise Wrong(f"seed {seed}: {wrong}") from wrong
    found["polls"] = sum(1 for step, rest in zip(steps, kept) if len(step.events) > 2 and not rest.events)
    found["ordered"] = len(events_in(whole)) - len(events_in(less)) - 3 * found["polls"]
    return found


def judge_drawn(program: str, decoder: str, count: int = FEW, first: int = 1) -> Counter[str]:
    """Drawn traces, among them some of which something is left out, and some with races."""
    met: Counter[str] = Counter()
    for seed in range(first, first + count):
        met += judge_one(program, decoder, seed)
    if not all(met[kind] for kind in ("ordered", "polls", "race", "apart")):
        raise Wrong(f"of {count} traces nothing was left out, or there is no race: {met}")
    return met


def judge_draws(racebench: str) -> None:
    judge_drawn(racebench, names_of_runs.decoder())


# The seeds of polls.c, of which one has loops of this many looks at least, by its kind.
SEEDS, LEAST_LOOKS = range(1, 11), 5
LOOKS = {"the flag": r"T1\|r\(go\)", "the mutex": r"T1\|r\(held:mutex\)"}


def looks_in(trace: str, form: str) -> int:
    return len(re.findall(form, trace))


def judge_loops(racebench: str, c: str) -> None:
    """Of a loop that polls at most the first and the last look at one value are written, and the race that comes after
    is followed to its accesses as before."""
    ran(
        [os.path.join(RECORD, "cc"), "-O1", os.path.join(SOURCES, "polls.c"), "-o", "program"],
        env=dict(os.environ, RECORD_CC=c),
    )
    met: set[str] = set()
    for seed in SEEDS:
        run = [os.path.join(RECORD, "run"), "--seed", str(seed)]
        whole, less = ran([*run, "--all", "./program"]), ran([*run, "--clock", "clock", "./program"])
        # The flag has two values, and the mutex is locked and then free.
        for name, form in LOOKS.items():
            if looks_in(less, form) > min(4, looks_in(whole, form)):
                raise Wrong(f"seed {seed}: {looks_in(less, form)} looks at {name} are written")
            met |= {name} if looks_in(whole, form) >= looks_in(less, form) + LEAST_LOOKS else set()
        with open("trace.std", "w", encoding="utf-8") as out:
            out.write(less)
        follow(racebench, seed)
        if len(met) == len(LOOKS):
            return
    raise Wrong(f"no seed has loops of {LEAST_LOOKS} looks at each of {list(LOOKS)}: {met}")


def follow(racebench: str, seed: int) -> None:
    """The race that triage lists stands on the program."""
    race = re.search(r"^race (\d+) (\d+) ", ran([racebench, "triage", "trace.std"]), re.MULTILINE)
    if not race:
        raise Wrong(f"seed {seed}: the race after the loops is lost")
    with open("witness", "w", encoding="utf-8") as out:
        out.write(ran([racebench, "witness", "trace.std", *race.groups()]))
    with open("witness", encoding="utf-8") as file:
        command = [os.path.join(RECORD, "follow"), "clock", *race.groups(), "./program"]
        done = subprocess.run(command, stdin=file, capture_output=True, timeout=PATIENCE, check=False)
    errors = done.stderr.decode(errors="replace")
    if done.returncode or "record/follow: the race stands" not in errors:
        raise Wrong(f"seed {seed}: the race after the loops does not stand: {errors}")


def cases(racebench: str, c: str) -> list[Case]:
    return [
        ("what no verdict needs, drawn records", judge_draws, (racebench,)),
        (f"what no verdict needs, loops that poll, {c}", judge_loops, (racebench, c)),
    ]


def main() -> None:
    program = os.path.abspath(sys.argv[1])
    count, first = (int(word) for word in [*sys.argv[2:4], "3000", "1"][:2])
    made = names_of_runs.decoder()
    with tempfile.TemporaryDirectory() as folder:
        os.chdir(folder)
        met = judge_drawn(program, made, count, first)
        os.chdir("/")
    print(", ".join(f"{kind} {number}" for kind, number in sorted(met.items())))
    print(f"{count} passed, 0 failed")


if __name__ == "__main__":
    main()
