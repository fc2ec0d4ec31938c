"""Traces for tests: a small one, hostile names, many threads, and big ones."""

import random
from collections.abc import Callable

COUNT = """T0|fork(T1)|count.c:17
T0|fork(T2)|count.c:17
T1|w(value)|count.c:5
T1|acq(m)|count.c:6
T1|w(ready)|count.c:6
T1|rel(m)|count.c:6
T1|r(hits)|count.c:7
T1|w(hits)|count.c:7
T2|acq(m)|count.c:11
T2|r(ready)|count.c:11
T2|rel(m)|count.c:11
T2|r(value)|count.c:12
T2|r(hits)|count.c:13
T2|w(hits)|count.c:13
T0|join(T1)|count.c:18
T0|join(T2)|count.c:18
T0|r(hits)|count.c:18
"""
# Two threads take two locks in two orders, as examples/abba.c does. T1 waits at event 3, and T2 at event 9.
ABBA = """T0|fork(T1)|abba.c:24 < main
T0|fork(T2)|abba.c:25 < main
T1|acq(a)|abba.c:7 < first
T1|acq(b)|abba.c:8 < first
T1|r(sum)|abba.c:9 < first
T1|w(sum)|abba.c:9 < first
T1|rel(b)|abba.c:10 < first
T1|rel(a)|abba.c:11 < first
T2|acq(b)|abba.c:15 < second
T2|acq(a)|abba.c:16 < second
T2|r(sum)|abba.c:17 < second
T2|w(sum)|abba.c:17 < second
T2|rel(a)|abba.c:18 < second
T2|rel(b)|abba.c:19 < second
T0|join(T1)|abba.c:26 < main
T0|join(T2)|abba.c:26 < main
T0|r(sum)|abba.c:27 < main
"""
# Two races of a list that is filtered, and a pair that a lock keeps apart.
SEVERAL = """T1|w(x)|one.c:1
T1|acq(l)|one.c:2
T1|w(guarded)|one.c:3
T1|rel(l)|one.c:4
T1|w(another_variable_of_a_long_name)|one.c:5
T2|w(x)|two.c:5
T2|r(another_variable_of_a_long_name)|two.c:1
T2|acq(l)|two.c:2
T2|w(guarded)|two.c:3
T2|rel(l)|two.c:4
"""
# Events without any order between them, an event a thread.
FREE = "".join(f"T{thread}|w(a{thread})|a:{thread}\n" for thread in range(8))

HOSTILE = [
    "<script>window.hacked=1</script>",
    "<img src=x onerror=window.hacked=1>",
    "\u202egnp.exe",
    "a\x00b\x1b[31mc",
    "\"'`><b>",
    "&lt;i&gt;",
    "x" * 255,
    "javascript:window.hacked=1",
    "{{constructor}}",
    "🙂é\u0301",
    "-->",
    "__proto__",
]


def write(path: str, text: str) -> None:
    with open(path, "w", encoding="utf-8") as file:
        file.write(text)


def hostile(path: str) -> None:
    lines = []
    for number, name in enumerate(HOSTILE):
        lines += [
            f"<b>T{number % 3}</b>|w({name})|</td><script>window.hacked=1</script>{number}.c:{number}",
            f"__proto__|r({name})|../../../etc/passwd:1",
            f"<b>T{number % 3}</b>|acq({name})|%00:{number}",
            f"<b>T{number % 3}</b>|rel({name})|file:///etc/passwd:{number} < <i>",
        ]
    raw = "\n".join(lines).encode() + b"\n\xff\xfe|w(\xff\xfe)|\xc3\x28:3\nT9|w(\xff\xfe)|z:1\n"
    with open(path, "wb") as file:
        file.write(raw)


class Workers:
    """Threads that work under locks, read what they wrote, and now and then meet at a counter without one."""

    def __init__(self, threads: int, seed: int) -> None:
        self.draw = random.Random(seed)
        self.held: list[int | None] = [None] * threads
        self.taken: set[int] = set()
        self.lines: list[str] = []

    def put(self, thread: int, operation: str, place: str) -> None:
        self.lines.append(f"T{thread}|{operation}|src/{place}")

    def release(self, thread: int, lock: int) -> None:
        self.held[thread] = None
        self.taken.remove(lock)
        self.put(thread, f"rel(l{lock})", f"work.c:{200 + lock}")

    def step(self, thread: int) -> None:
        draw, lock, roll = self.draw, self.held[thread], self.draw.random()
        if lock is None and roll < 0.06:
            lock = draw.randrange(64)
            if lock not in self.taken:
                self.taken.add(lock)
                self.held[thread] = lock
                self.put(thread, f"acq(l{lock})", f"work.c:{100 + lock}")
        elif lock is not None and roll < 0.2:
            self.release(thread, lock)
        elif lock is not None and roll < 0.6:
            self.put(thread, f"{draw.choice('rw')}(shared{lock})", f"work.c:{300 + lock}")
        elif roll > 0.9995:
            self.put(thread, f"w(hits{draw.randrange(5)})", f"stats.c:{draw.randrange(40)}")
        else:
            self.put(thread, f"{draw.choice('rrw')}(own{thread}_{draw.randrange(50)})", f"own.c:{draw.randrange(900)}")


def big(path: str, events: int = 1_048_576, threads: int = 16, seed: int = 1) -> None:
    made = Workers(threads, seed)
    while len(made.lines) < events - 2 * threads:
        thread = made.draw.randrange(threads)
        for _ in range(made.draw.choice((1, 2, 3, 5, 8, 40))):
            made.step(thread)
    for thread, lock in enumerate(made.held):
        if lock is not None:
            made.release(thread, lock)
    while len(made.lines) < events:
        made.put(0, "w(own0_0)", "own.c:1")
    write(path, "\n".join(made.lines[:events]) + "\n")


def long_witness(path: str, events: int = 1_048_576) -> None:
    """One race, at the end of the trace, whose schedule needs nearly all of it."""
    lines = [
        f"T{0 if at % 7 else 2}|{'w' if at % 3 else 'r'}(own{0 if at % 7 else 2}_{at % 50})|own.c:{at % 900}"
        for at in range(events - 4)
    ]
    write(path, "\n".join([*lines, "T2|w(flag)|c.c:1", "T0|r(flag)|a.c:1", "T0|w(x)|a.c:2", "T1|w(x)|b.c:1"]) + "\n")


def many_threads(path: str, threads: int = 200) -> None:
    lines = [f"T0|fork(W{number})|main.c:{number % 50}" for number in range(threads)]
    for number in range(threads):
        lines += [f"W{number}|{operation}|w.c:1" for operation in ("acq(m)", "w(x)", "rel(m)", "w(y)")]
    lines += [f"T0|join(W{number})|main.c:99" for number in range(threads)]
    write(path, "\n".join(lines) + "\n")


def crossed(pairs: int, spell: Callable[[int, int], str] = lambda pair, lock: f"{'ab'[lock]}{pair}") -> str:
    """A trace in which two threads take each pair of locks in two orders, so each pair makes one deadlock."""
    lines = []
    for thread, order in (("T1", (0, 1)), ("T2", (1, 0))):
        for pair in range(pairs):
            one, other = (spell(pair, lock) for lock in order)
            for number, step in enumerate((f"acq({one})", f"acq({other})", f"rel({other})", f"rel({one})")):
                lines.append(f"{thread}|{step}|{thread}.c:{4 * pair + number}\n")
    return "".join(lines)
