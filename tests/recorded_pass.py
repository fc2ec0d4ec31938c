"""Judges our passes of gcc and clang, which add hooks where ThreadSanitizer puts none.

What no other judge sees: a write without a hook under a lock, by which triage turns sections of the lock round, and an
access of a line of assembly that hides a race.
"""

from __future__ import annotations

import os
import re
import sys

from judging import Case, Wrong
from recorded_places import RECORD, TOP, ran

SOURCE = os.path.join(TOP, "tests", "recorded", "handed_over.c")
SEEDS = (1, 2)
OPTIONS = ("-O0", "-O1", "-O2")


def has_headers(c: str) -> bool:
    """Whether a compiler's headers for plugins are here."""
    sys.path.insert(0, RECORD)
    import plugins

    return plugins.headers_of(plugins.CLANG if c == "clang" else plugins.GCC, c) is not None


def lines_of_hands() -> set[str]:
    """The places of the program that hand something over."""
    with open(SOURCE, encoding="utf-8") as text:
        return {f"handed_over.c:{number}" for number, line in enumerate(text, start=1) if line.startswith("HAND(")}


def races(racebench: str, seed: int) -> set[tuple[str, str]]:
    """The pairs of places of the races of a recording."""
    trace = ran([os.path.join(RECORD, "run"), "--seed", str(seed), "./program"])
    with open("trace.std", "w", encoding="utf-8") as text:
        text.write(trace)
    places = re.findall(r"^  T\d+\|[^|]*\|(\S+)", ran([racebench, "triage", "trace.std"]), re.MULTILINE)
    return set(zip(places[::2], places[1::2]))


def judge_hands(racebench: str, c: str, option: str) -> None:
    """What is handed over under a lock is no race. What is written after that is one."""
    environment = dict(os.environ, RECORD_CC=c)
    for is_racy in (False, True):
        wanted = {(place, place) for place in lines_of_hands()} if is_racy else set()
        ran([os.path.join(RECORD, "cc"), option, *["-DRACY"] * is_racy, SOURCE, "-o", "program"], env=environment)
        for seed in SEEDS:
            found = races(racebench, seed)
            if found != wanted:
                raise Wrong(
                    f"{option}, RACY {is_racy}, seed {seed}: the races are {sorted(found)}, and not {sorted(wanted)}"
                )


def cases(racebench: str, c: str) -> list[Case]:
    if not has_headers(c):
        print(f"record/: our pass is not tested with {c}, since its headers for plugins are not here")
        return []
    return [(f"what our pass adds, {c} {option}", judge_hands, (racebench, c, option)) for option in OPTIONS]
