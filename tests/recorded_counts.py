"""Judges what record/run says of a run that is not in its trace as it was: each count by a program that makes it.

What no other judge sees: a trace that lacks records, orders or turns without a message.
"""

import os
import re
import subprocess

from judging import Case, Wrong
from recorded_places import PATIENCE, RECORD, SOURCES, ran

# The word for counts.c, the options, and the line that says what was counted.
COUNTED: list[tuple[str, list[str], str]] = [
    ("sections", [], r"1 locks were let go by another thread than took them; they are written as semaphores"),
    ("order", [], r"6 atomic accesses are written with more order than they have, at counts\.c:32, counts\.c:41"),
    ("parts", [], r"some accesses have more than 64 parts, and the rest of these was left out"),
    ("strangers", [], r"[1-9]\d* threads were not made by pthread_create, so they have no fork"),
    (
        "turns",
        ["--room", "100"],
        r"[1-9]\d* records left out after the first 100 \(--room, or a limit of the process\)",
    ),
    ("force", [], r"recorded \d+ events, \d+ turns, [1-9]\d* taken by force"),
]
# What a run says in which nothing of that happened.
PLAIN = (
    r"record/run: the program ended with status 0\nrecord/run: recorded \d+ events, (\d+) turns, \d+ taken by force\n"
)


def notes_of(*arguments: str) -> str:
    """What record/run says of a run of `program`."""
    command = [os.path.join(RECORD, "run"), "--partial", "--all", *arguments]
    done = subprocess.run(command, capture_output=True, timeout=PATIENCE, check=False)
    notes = done.stderr.decode(errors="replace")
    if done.returncode or not done.stdout:
        raise Wrong(f"record/run {' '.join(arguments)}: status {done.returncode}: {notes[:600]}")
    return notes


def judge_counts(c: str) -> None:
    """Each count is printed by a run that has it, and by no other."""
    command = [os.path.join(RECORD, "cc"), "-O1", os.path.join(SOURCES, "counts.c"), "-o", "program"]
    ran(command, env=dict(os.environ, RECORD_CC=c))
    for word, options, line in COUNTED:
        notes = notes_of(*options, "./program", word)
        if not re.search(rf"^record/run: {line}$", notes, re.MULTILINE):
            raise Wrong(f"{word} is not counted: {notes}")
    judge_turns()


# One thread goes over a block at once, and another one over each of its bytes.
WIDE = """#include <pthread.h>
#include <stdio.h>
#include <string.h>
static char block[700];
static volatile int x;
static void *work(void *p) { memset(block, 1, sizeof block); return p; }
int main(void) {
    pthread_t t;
    pthread_create(&t, 0, work, 0);
    for (int k = 0; k < 700; k++) x += block[k];
    return pthread_join(t, 0);
}
"""


def judge_wide(c: str) -> None:
    """An access of many parts gives all parts if there is room for them."""
    with open("wide.c", "w", encoding="ascii") as source:
        source.write(WIDE)
    ran([os.path.join(RECORD, "cc"), "-O1", "wide.c", "-o", "wide"], env=dict(os.environ, RECORD_CC=c))
    trace = ran([os.path.join(RECORD, "run"), "./wide"])
    names = set(re.findall(r"^T1\|w\((block[^)]*)\)", trace, re.MULTILINE))
    if len(names) != 700 or "block[699]" not in names:
        raise Wrong(f"of 700 parts of an access {len(names)} are there")


def judge_turns() -> None:
    """With --yield 1 turns are short, and with a large one long, except those of young threads; neither run prints
    anything else."""
    turns = []
    for most in ("1", "100000"):
        notes = notes_of("--yield", most, "./program", "turns")
        plain = re.fullmatch(PLAIN, notes)
        if not plain:
            raise Wrong(f"of a run in which nothing is left out it is said: {notes}")
        turns.append(int(plain[1]))
    if turns[0] < 50 or turns[1] > 25:
        raise Wrong(f"there are {turns} turns with --yield 1 and 100000")


def cases(c: str) -> list[Case]:
    return [
        (f"what is counted of a run, {c}", judge_counts, (c,)),
        (f"an access of many parts, {c}", judge_wide, (c,)),
    ]
