"""Judges the marks of tries: the location of a lock that was taken by a call that waits for nobody, or not for ever.

What no other judge sees: a try that looks like a lock that waits, as which it could be in a deadlock.
"""

import os
import re

import names_of_runs
from judging import Case, Wrong
from recorded_places import PATIENCE, RECORD, SOURCES, ran

FOLDER = os.path.join(SOURCES, "deadlocks")


def compiled(source: str, c: str, cxx: str | None, *options: str) -> None:
    """Compiles a source of the folder, or else of the examples, in the current folder."""
    name, ending = os.path.splitext(source)
    path = os.path.join(FOLDER, source)
    path = path if os.path.exists(path) else os.path.join(os.path.dirname(RECORD), "examples", source)
    by, options = ("c++", ("-std=c++17", *options)) if ending == ".cpp" else ("cc", options)
    environment = dict(os.environ, RECORD_CC=c, RECORD_CXX=cxx or "")
    ran([os.path.join(RECORD, by), "-O1", *options, path, "-o", name], env=environment)


def run(*arguments: str) -> tuple[int, str, str]:
    """The status of a recording, its trace, and what is said of it."""
    command = [os.path.join(RECORD, "run"), *arguments]
    done = names_of_runs.run(command, PATIENCE)
    return done.returncode, done.stdout.decode(), done.stderr.decode(errors="replace")


def lines_that_say(source: str, word: str) -> set[int]:
    with open(os.path.join(FOLDER, source), encoding="ascii") as text:
        return {number for number, line in enumerate(text, 1) if re.search(rf"; /[/*] {word}\b", line)}


def acquires(trace: str, source: str) -> list[tuple[int, str]]:
    """The line and the rest of the location of each acquire at a line of the source."""
    places = re.findall(rf"^T\d+\|acq\(.*\)\|{re.escape(source)}:(\d+)(.*)$", trace, re.MULTILINE)
    return [(int(line), rest) for line, rest in places]


def judge_marks(source: str, c: str, cxx: str | None) -> None:
    """Each lock that was taken by a try is marked, with calls and without, and no other one is."""
    compiled(source, c, cxx, *([] if source.endswith(".cpp") else ["-fopenmp"]))
    tries, waits = lines_that_say(source, "TRY"), lines_that_say(source, "WAITS")
    for has_calls, mark in ((True, " < try in "), (False, " < try")):
        status, trace, notes = run(*["--frames", "0"] * (not has_calls), f"./{source.partition('.')[0]}")
        found = acquires(trace, source)
        marked = {line for line, rest in found if rest.startswith(mark)}
        others = {line for line, rest in found if " < try" not in rest}
        if status or marked != tries or not waits <= others or others & tries:
            wrong = f"{sorted(marked ^ tries)} {sorted(waits - others)}"
            raise Wrong(f"{source}, with calls {has_calls}: status {status}: {wrong}: {notes}")


def cases(c: str, cxx: str | None) -> list[Case]:
    found: list[Case] = [("marks of tries, C", judge_marks, ("marks.c", c, cxx))] if c == "gcc" else []
    return found + ([(f"marks of tries, C++, {c}", judge_marks, ("marks.cpp", c, cxx))] if cxx else [])
