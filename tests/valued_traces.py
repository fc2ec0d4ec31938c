"""Small traces with values, drawn by chance, and the pairs of locations that all reorderings by value show. Written
from the definition in docs/CONFIRM.md alone, so that record/by_value.py and the decoder's search are judged by it."""

import random
from typing import NamedTuple

Lines = list[str]
# The value of an event, if it is known.
Values = dict[int, str]
Pair = frozenset[str]


class Drawn(NamedTuple):
    lines: Lines
    values: Values


class Drawer:
    """Draws a trace: what each thread holds, and what each variable holds."""

    def __init__(self, seed: int) -> None:
        self.random = random.Random(seed)
        self.threads = self.random.randint(2, 3)
        self.memory = {f"x{k}": 0 for k in range(self.random.randint(1, 3))}
        self.locks = [f"l{k}" for k in range(self.random.randint(0, 2))]
        self.held: dict[str, int] = {}
        self.mine: list[list[str]] = [[] for _ in range(self.threads)]
        self.lines = [f"T0|fork(T{k})|fork:{k}" for k in range(1, self.threads)]
        self.values: Values = {}

    def put(self, thread: int, word: str, name: str) -> None:
        self.lines.append(f"T{thread}|{word}({name})|{word}{thread}:{self.random.randrange(4)}")

    def lock(self, thread: int) -> None:
        if self.mine[thread] and self.random.random() < 0.6:
            name = self.mine[thread].pop()
            del self.held[name]
            self.put(thread, "rel", name)
            return
        name = self.random.choice(self.locks)
        if name not in self.held:
            self.held[name] = thread
            self.mine[thread].append(name)
            self.put(thread, "acq", name)

    def access(self, thread: int) -> None:
        """A read or write. One in ten has no value, and one read in twenty has a value that nothing here wrote."""
        name = self.random.choice(list(self.memory))
        word = self.random.choice("rw")
        if word == "w":
            self.memory[name] = self.random.randint(0, 1)
        value = self.memory[name] if word == "w" or self.random.random() < 0.95 else 7
        if self.random.random() < 0.9:
            self.values[len(self.lines)] = str(value)
        self.put(thread, word, name)

    def draw(self) -> Drawn:
        for _ in range(self.random.randint(6, 16)):
            thread = self.random.randrange(self.threads)
            if self.locks and self.random.random() < 0.25:
                self.lock(thread)
            else:
                self.access(thread)
        for thread, names in enumerate(self.mine):
            for name in reversed(names):
                if self.random.random() < 0.7:
                    self.put(thread, "rel", name)
        if self.random.random() < 0.5:
            self.put(0, "join", "T1")
        return Drawn(self.lines, self.values)


class Oracle:
    """All reorderings of a small trace. Without values each read keeps its writer."""

    def __init__(self, drawn: Drawn, by_value: bool = True) -> None:
        self.values, self.by_value = drawn.values, by_value
        parts = [line.split("|") for line in drawn.lines]
        self.thread = [int(thread[1:]) for thread, _, _ in parts]
        self.word = [operation.partition("(")[0] for _, operation, _ in parts]
        self.name = [operation.partition("(")[2][:-1] for _, operation, _ in parts]
        self.location = [location for _, _, location in parts]
        self.of: dict[int, list[int]] = {thread: [] for thread in range(max(self.thread) + 1)}
        self.fork = {int(name[1:]): e for e, name in enumerate(self.name) if self.word[e] == "fork"}
        for thread in self.fork:
            self.of.setdefault(thread, [])
        for event, thread in enumerate(self.thread):
            self.of[thread].append(event)
        self.writer = {e: self.last_write(list(range(e)), name) for e, name in enumerate(self.name)}

    def last_write(self, events: list[int], name: str) -> int | None:
        return next((e for e in reversed(events) if self.word[e] == "w" and self.name[e] == name), None)

    def value_before_all(self, name: str) -> str | None:
        """What all reads agree on that see no write."""
        reads = [e for e, word in enumerate(self.word) if word == "r" and self.name[e] == name]
        seen = {self.values.get(e) for e in reads if self.writer[e] is None}
        return seen.pop() if len(seen) == 1 else None

    def value_of(self, name: str, write: int | None) -> str | None:
        return self.value_before_all(name) if write is None else self.values.get(write)

    def may_see(self, read: int, write: int | None) -> bool:
        if write == self.writer[read]:
            return True
        if not self.by_value or self.values.get(read) is None:
            return False
        left = self.value_of(self.name[read], self.writer[read])
        return left == self.values[read] == self.value_of(self.name[read], write)

    def next_of(self, thread: int, done: list[int]) -> int | None:
        """The next event of a thread that has begun."""
        if thread in self.fork and self.fork[thread] not in done:
            return None
        return next((e for e in self.of[thread] if e not in done), None)

    def holds(self, thread: int, name: str, done: list[int]) -> bool:
        words = [self.word[e] for e in done if self.thread[e] == thread and self.name[e] == name]
        return words.count("acq") > words.count("rel")

    def may_come(self, event: int, done: list[int]) -> bool:
        word, name = self.word[event], self.name[event]
        if word == "r":
            return self.may_see(event, self.last_write(done, name))
        if word == "acq":
            return not any(self.holds(other, name, done) for other in self.of if other != self.thread[event])
        if word == "join":
            ended = all(e in done for e in self.of[int(name[1:])])
            return ended and self.fork[int(name[1:])] in done
        return True

    def is_shown(self, pair: tuple[int, int], done: list[int]) -> bool:
        one, other = pair
        words = {self.word[one], self.word[other]}
        conflict = self.name[one] == self.name[other] and words <= {"r", "w"} and "w" in words
        return conflict and all(self.next_of(self.thread[e], done) == e for e in pair)

    def is_by_value(self, schedule: list[int], pair: tuple[int, int]) -> bool:
        """Whether a schedule is a reordering by value that shows a pair."""
        done: list[int] = []
        for event in schedule:
            if self.next_of(self.thread[event], done) != event or not self.may_come(event, done):
                return False
            done.append(event)
        return self.thread[pair[0]] != self.thread[pair[1]] and self.is_shown(pair, done)

    def all_shown(self) -> set[Pair]:
        """The pairs of locations that some reordering shows. Equal states are gone through once."""
        shown: set[Pair] = set()
        known: set[tuple[object, ...]] = set()
        stack: list[list[int]] = [[]]
        while stack:
            done = stack.pop()
            state = (frozenset(done), *(self.last_write(done, name) for name in sorted(set(self.name))))
            if state in known:
                continue
            known.add(state)
            ends = [e for e in (self.next_of(thread, done) for thread in self.of) if e is not None]
            pairs = [(one, other) for k, one in enumerate(ends) for other in ends[k + 1 :]]
            shown |= {frozenset(self.location[e] for e in pair) for pair in pairs if self.is_shown(pair, done)}
            stack += [done + [e] for e in ends if self.may_come(e, done)]
        return shown


def drawn(seed: int) -> Drawn:
    return Drawer(seed).draw()
