"""Traces for the judge of pages: with names that look like markup, with many races, and with schedules of as many runs,
events and parts under locks as the bounds of a page need.
"""

from __future__ import annotations

import random
from collections.abc import Iterable


def named(names: Iterable[bytes]) -> bytes:
    """A trace with these names and places, of threads that race, and of such that hold a lock."""
    lines = []
    lock = b"'&<b>\""
    for number, name in enumerate(names):
        guarded = b"w(g%d)|" % number + name
        lines += [b"A|w(" + name + b")|" + name, b"A|acq(" + lock + b")|1", b"A|" + guarded, b"A|rel(" + lock + b")|2"]
        lines += [
            b"B|acq(" + lock + b")|3",
            b"B|" + guarded,
            b"B|rel(" + lock + b")|4",
            b"B|w(" + name + b")|'" + name,
        ]
    return b"\n".join(lines) + b"\n"


NAMES = [
    b"<script>alert(1)</script>",
    b'"onload="',
    b"]]>",
    b"\xff" * 255,
    "\u200f\u202eabc".encode(),
    b"&lt;&#39;&amp;",
    b"--><!--",
    b"\x01\x7f\x1b[2J",
    "ä€😀".encode(),
]


def many(races: int) -> bytes:
    """A trace with this many races, each at its own places."""
    return b"".join(
        b"%s|w(x%d)|%s%d\n" % (thread, number, thread, number) for thread in (b"A", b"B") for number in range(races)
    )


def guarded(pairs: int) -> bytes:
    """A trace with this many pairs of places that one lock keeps apart."""
    lines = []
    for thread in ("A", "B"):
        accesses = [f"{thread}|w(x{number})|{thread}{number}" for number in range(pairs)]
        lines += [f"{thread}|acq(l)|", *accesses, f"{thread}|rel(l)|"]
    return "".join(f"{line}\n" for line in lines).encode()


def in_turns(runs: int) -> bytes:
    """A trace in which the schedule of the last two accesses has this many runs: each reads what the last wrote."""
    lines = ["A|w(x0)|1"]
    for number in range(runs - 1):
        thread = "BA"[number % 2]
        lines += [f"{thread}|r(x{number})|1", f"{thread}|w(x{number + 1})|1"]
    return "".join(f"{line}\n" for line in [*lines[:-1], "A|w(last)|2", "B|w(last)|2"]).encode()


def in_long_turns(runs: int, events: int) -> bytes:
    """The same, and the schedule has this many events, most of which are in the first run."""
    lines = in_turns(runs).splitlines()
    return b"".join(line + b"\n" for line in [b"A|w(own)|1"] * (events - 2 * runs + 2) + lines)


def with_locks(shades: int) -> bytes:
    """A trace in which the schedule of the last two accesses has 25 runs, with this many parts under a lock."""
    lines = []
    for number in range(25):
        thread = "AB"[number % 2]
        lines += [f"{thread}|r(x{number - 1})|1"] * (number > 0)
        for _ in range(shades // 25 + (number < shades % 25)):
            lines += [f"{thread}|acq({thread})|1", f"{thread}|rel({thread})|1", f"{thread}|w(own{thread})|1"]
        lines.append(f"{thread}|w(x{number})|1")
    return "".join(f"{line}\n" for line in [*lines, "A|w(last)|2", "B|r(x24)|1", "B|w(last)|2"]).encode()


def long_schedules(races: int, events: int, run: int) -> bytes:
    """A trace with this many races at the end, whose schedules have this many events of four threads, in runs of some
    events each. Parts of each run are under locks, and each location has two calls."""
    chance = random.Random(run)
    files = ["common/threadpool.c", "encoder/encoder.c", "common/frame.c"]
    calls = ["threadpool_run", "encoder_encode", "frame_end", "slicetype_decide"]

    def location() -> str:
        named = [f" < {chance.choice(calls)} {chance.choice(files)}:{chance.randrange(4000)}" for _ in range(2)]
        return f"{chance.choice(files)}:{chance.randrange(4000)}" + "".join(named)

    lines: list[str] = []
    thread = runs = 0
    while len(lines) < events - 2:
        lines += [f"T{thread}|r(sync{runs})|{location()}"] * (runs > 0)
        runs += 1
        for _ in range(chance.randint(0, run // 2)):
            lines.append(f"T{thread}|w(context{thread})|{location()}")
            if chance.random() < 0.2:
                lines += [f"T{thread}|{word}(mutex{thread})|{location()}" for word in ("acq", "rel")]
        lines.append(f"T{thread}|w(sync{runs})|{location()}")
        thread = (thread + chance.randint(1, 3)) % 4
    lines += [f"T{thread}|r(sync{runs})|{location()}", f"T{thread}|w(go)|{location()}"]
    for word, accesses in (("w", thread), ("r", (thread + 1) % 4)):
        lines += [f"T{accesses}|r(go)|{location()}"] * (word == "r")
        lines += [f"T{accesses}|{word}(field{race})|{word}.c:{race}" for race in range(races)]
    return "".join(f"{line}\n" for line in lines).encode()


# Locations as the recorder writes them, with functions, with the places of calls, and with a block that is given back.
FRAMED = b"""T0|w(t)|a.c:1 < make < main a.c:9
T0|w(u)|a.c:1 < make < main a.c:9
T1|r(t)|b.c:2 < look
T1|r(u)|b.c:2 < look
T1|w(t)|c.c:3 < b.c:7
T0|w(t)|d.c:4 < free in drop < main d.c:8
T1|w(v)|e.c:? < ns::f(int)
T0|w(v)|
T1|w(v)|g.c < g
"""

# An open pair, which stays undecided without tries.
UNDECIDED = b"A|w(x)|1\nA|acq(l)|2\nA|rel(l)|3\nB|acq(l)|4\nB|rel(l)|5\nB|w(x)|6\n"


def write(name: str, text: bytes) -> None:
    with open(name, "wb") as out:
        out.write(text)
