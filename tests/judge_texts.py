#!/usr/bin/env python3
"""Judges what `info` says of trace texts in two tables: all that it prints of one, or where and for what it is refused.

These are worked examples of the checks of a line and of the rules of a trace (docs/FORMATS.md), up to their limits.
Each number of a refusal there must be in a table. What is printed about the events of a text is computed by
tests/plain.py. Takes the program's path. Says what is wrong, if something is, and ends with status 1 then.
"""

import re
import subprocess
import sys
from collections.abc import Sequence

if __name__ == "__main__":
    sys.dont_write_bytecode = True
import judging
import plain
import running
from judging import Wrong

# What the program refuses a text or a trace for.
NUMBERS = {1, 2, 3, 4, 5, 6, 7, 8, 11, 12, 13, 14, 15, 16}
ONE_LOCK = "T1|w(x)|1\nT1|acq(l)|2\nT1|rel(l)|3\nT2|acq(l)|4\nT2|rel(l)|5\nT2|w(x)|6"
THREADS = [f"T{number}|w(x)|\n" for number in range(256)]
NAMES = {length: "x" * length for length in (255, 256)}
# What follows `T|w(x)|` in a line of 4,096 bytes.
REST = "1" * 4_089
WRITE = "T1|w(x)|1\n"
LARGEST = WRITE * 1_048_576
# All that the formats count in 16 bits and one more, and a read that sees the last write.
PAST_16_BITS = WRITE * 65_537
READ_BEHIND = WRITE * 65_536 + "T2|r(x)|2\n"

# What is printed for the texts after it: the text itself, or what tests/plain.py prints for these events.
ACCEPTED = [
    ([], "", "\n \t\r\n", "|begin|", "|end()|", "T1|begin|3", f"\t T|begin|{REST[1:]} \r\n"),
    (["T1 w x"], "T1|w(x)", "T1|w(x)|", "T1|w(x)|1"),
    (["T1 w \0"], "T1|w(\0)|"),
    (["T1 w f(x)"], "T1|w(f(x))|"),
    (["T w x"], f"\t T|w(x)|{REST} \r\n"),
    ([f"T w {NAMES[255]}"], f"\nT|w({NAMES[255]})|"),
    ([f"{NAMES[255]} w x"], f"\n{NAMES[255]}|w(x)|"),
    (["T1 join T2"], "T1|join(T2)|"),
    (["T1 w x", "T2 r x"], "T1|w(x)|1\r\n\r\nT1|begin(b)|2\r\nT2| r( x ) "),
    (["T1 acq l", "T2 acq m"], "T1|acq(l)|\nT2|acq(m)|"),
    (["T2 w x", "T1 join T2"], "T2|w(x)|\nT1|join(T2)|"),
    (["T1 acq l", "T1 acq l", "T1 rel l", "T1 rel l"], "T1|acq(l)\nT1|acq(l)\nT1|rel(l)\nT1|rel(l)"),
    (["M fork W", "W w x", "M join W", "M r x"], "M|fork(W)|1\nW|w(x)|2\nM|join(W)|3\nM|r(x)|4"),
    (
        ["T1 fork T2", "T1 join T2", "T1 join T2", "T3 join T2"],
        "T1|fork(T2)|\nT1|join(T2)|\nT1|join(T2)|\nT3|join(T2)|",
    ),
    (
        ["T1 acq l", "T1 acq l", "T1 rel l", "T1 rel l", "T2 acq l", "T2 rel l"],
        "T1|acq(l)|\nT1|acq(l)|\nT1|rel(l)|\nT1|rel(l)|\nT2|acq(l)|\nT2|rel(l)|",
    ),
    (["T1 w x", "T1 acq l", "T1 rel l", "T2 acq l", "T2 rel l", "T2 w x"], ONE_LOCK),
    (["T1 w x", "T2 r x", "T2 w z", "T1 w z"], "T1|w(x)|1\nT2|r(x)|2\nT2|w(z)|3\nT1|w(z)|4"),
    (["M w x", "M fork W", "W r x"], "M|w(x)|1\nM|fork(W)|2\nW|r(x)|3"),
    # the event before the fork of a thread that does nothing comes before that after its join
    (["A w x", "A fork W", "B join W", "B w x"], "A|w(x)|\nA|fork(W)|\nB|join(W)|\nB|w(x)|"),
    (["A w x", "B w x", "C w x", "A w x"], "A|w(x)|\nB|w(x)|\nC|w(x)|\nA|w(x)|"),
    ([f"T{number} w x" for number in range(65)], "".join(THREADS[:65])),
    ([f"T{number} w x" for number in range(256)], "".join(THREADS)),
    ("events 65537\nthreads 1\nvariables 1\nlocks 0\nthread 0 T1 65537\ncandidates 0\n", PAST_16_BITS),
    (
        "events 65537\nthreads 2\nvariables 1\nlocks 0\nthread 0 T1 65536\nthread 1 T2 1\ncandidates 1000\n"
        + "".join(f"candidate {first} 65536 x\n" for first in range(1_000)),
        READ_BEHIND,
    ),
    ("events 1048576\nthreads 1\nvariables 1\nlocks 0\nthread 0 T1 1048576\ncandidates 0\n", LARGEST),
]

# What the texts after it are refused for.
REFUSED = [
    ("line 1: 1 no bar", "T", "T1", "begin"),
    ("line 1: 2 bad parentheses", "T1|", "T1|w", "T1|w(", "T1|w(x", "T1|w x|2", "T1|w)(|1", "T1|w(x)y|"),
    ("line 1: 2 bad parentheses", "T1|begin(x|", "T1|w(a|b)|1"),
    ("line 1: 3 unknown operation", "T1|inc(x)|2", "T1|)w(x)|", "T1|R(x)|", "|inc()|"),
    ("line 1: 4 empty name", "T1|w()|2", "T1|w( )|2", "|w(x)|2", " \t\r|w(x)|2"),
    ("line 2: 5 name too long", f"\nT|w({NAMES[256]})|", f"\n{NAMES[256]}|w(x)|"),
    ("line 1: 6 line too long", f"\t T|w(x)|{REST}1 \r\n", f"\t T|begin|{REST} \r\n", "1" * 4_097),
    ("line 1048577: 7 too many events", LARGEST + WRITE),
    ("line 257: 8 too many names", "".join(THREADS) + "new|w(x)|\n", "".join(THREADS) + "T0|join(new)|\n"),
    ("line 256: 8 too many names", "".join(THREADS[:255]) + "new|join(newer)|\n"),
    ("event 0: 11 release not held", "T1|rel(l)|1"),
    ("event 1: 11 release not held", "T1|acq(l)|\nT2|rel(l)|", "T1|acq(l)|\nT1|rel(m)|"),
    ("event 2: 11 release not held", "T1|acq(l)|\nT1|rel(l)|\nT1|rel(l)|"),
    ("event 1: 12 acquire held", "T1|acq(l)|\nT2|acq(l)|"),
    ("event 3: 12 acquire held", "T1|acq(l)|\nT1|acq(l)|\nT1|rel(l)|\nT2|acq(l)|"),
    ("event 1: 13 fork twice", "T1|fork(T2)|\nT1|fork(T2)|"),
    ("event 2: 13 fork twice", "T1|fork(T2)|\nT2|w(x)|\nT1|fork(T2)|", "T1|fork(T2)|\nT1|join(T2)|\nT3|fork(T2)|"),
    ("event 1: 14 fork late", "T2|w(x)|\nT1|fork(T2)|", "T1|join(T2)|\nT1|fork(T2)|"),
    ("event 0: 15 own thread", "T1|fork(T1)|", "T1|join(T1)|"),
    ("event 1: 15 own thread", "T1|w(x)|\nT1|fork(T1)|"),
    ("event 1: 16 after join", "T1|join(T2)|\nT2|r(x)|", "T1|join(T2)|\nT2|fork(T2)|"),
    ("event 1: 16 after join", "T1|join(T2)|\nT2|rel(l)|\nT1|rel(l)|"),
    ("event 3: 16 after join", "T1|fork(T2)|1\nT2|w(x)|2\nT1|join(T2)|3\nT2|w(x)|4"),
]


def note_of(events: str | Sequence[str]) -> str:
    """What is printed for a trace of these events; a text is printed as it is."""
    if isinstance(events, str):
        return events
    return plain.Trace(plain.Event(*event.split(" ")) for event in events).info()


def judge(program: str, text: str, wanted: tuple[int, str, str]) -> None:
    """Whether the program ends so and prints this of the text."""
    running.write("trace", text)
    done = subprocess.run([program, "info", "trace"], capture_output=True, timeout=running.PATIENCE, check=False)
    found = (done.returncode, done.stdout.decode("ascii", "replace"), done.stderr.decode("ascii", "replace"))
    if found != wanted:
        raise Wrong(f"{found}, and to be {wanted}, of {text[:200]!r}, a text of {len(text)} bytes")


def judged(run: judging.Run) -> str:
    rows = [(text, (0, note_of(row[0]), "")) for row in ACCEPTED for text in row[1:] if isinstance(text, str)]
    accepted = len(rows)
    rows += [(text, (1, "", f"racebench: trace {fault}\n")) for fault, *texts in REFUSED for text in texts]
    missing = NUMBERS - {int(number) for fault, *_ in REFUSED for number in re.findall(r": (\d+) ", fault)[:1]}
    if missing or not accepted:
        raise Wrong(f"no text is refused for {missing}, or none is accepted")
    for text, wanted in rows:
        judge(run.program, text, wanted)
        run.tally["texts"] += 1
    return f"info: {len(rows)} texts are judged as the formats say, {len(rows) - accepted} of them refused"


if __name__ == "__main__":
    sys.exit(judging.main("info", judged))
