"""Judges the locations that record/ writes: lines that are in their files, two files of one name, the calls that
led to an access, blocks that are given back, and programs without lines.

What no other judge sees: a line that its file does not have (addr2line said `shop.cpp:200` of a file of 156 lines),
and two places of one name.
"""

import functools
import os
import re
from collections.abc import Mapping, Sequence

import names_of_runs
from judging import Case, Wrong

TOP = os.path.dirname(os.path.dirname(os.path.abspath(__file__)))
RECORD = os.path.join(TOP, "record")
SOURCES = os.path.join(TOP, "tests", "recorded")
PLACE = re.compile(r"(.+):(\d+)$")
AT_END = re.compile(r"\+0x[0-9a-f]+$")
# How long a command may take, on a machine that does much else.
PATIENCE = 900
# A recording is made again so often if the machine was so busy that a thread lost its turn by force.
AGAIN = 5
# The calls around both accesses of p/util.c, as far as they are the same in both threads.
COMMON = ["p_work", "both main.c:8", "down main.c:15", "down main.c:13"]


def events_in(trace: str) -> list[str]:
    """The lines of a trace that are events: the first and the last say whether the recording is whole."""
    return [line for line in trace.splitlines() if not line.startswith("recording|")]


def ran(command: Sequence[str], wanted: int = 0, env: Mapping[str, str] | None = None, cwd: str | None = None) -> str:
    done = names_of_runs.run(command, PATIENCE, env, cwd)
    if done.returncode != wanted:
        raise Wrong(f"{' '.join(command)}: status {done.returncode}: {done.stderr.decode(errors='replace')[:600]}")
    return done.stdout.decode()


def locations(*options: str) -> list[tuple[str, str, list[str]]]:
    """The locations of a recording of `program`: operation, first place, and what is after it."""
    found = []
    for line in events_in(ran([os.path.join(RECORD, "run"), "--all", *options, "./program"])):
        _, operation, location = line.split("|", 2)
        place, *calls = location.split(" < ")
        found.append((operation, place, calls))
    if not found:
        raise Wrong("nothing was recorded")
    return found


def judge_names() -> None:
    """Two files of one name are two places; the calls stand after them, those in their place too; recursion is
    written once."""
    found = locations()
    places = {place for operation, place, _ in found if operation.startswith(("r(p_", "w(p_", "r(q_", "w(q_"))}
    if places != {"p/util.c:1", "q/util.c:1"}:
        raise Wrong(f"the places of the two files are {sorted(places)}")
    calls = [calls for operation, place, calls in found if place == "p/util.c:1"]
    ends = {tuple(each[len(COMMON) :]) for each in calls}
    if any(each[: len(COMMON)] != COMMON for each in calls) or ends != {("go main.c:18",), ("give_back main.c:22",)}:
        raise Wrong(f"the calls around the accesses of p/util.c are {calls}")


def judge_free() -> None:
    """A block that is given back is written at `free in FUNCTION`, and with --no-free it is not."""
    frees = [(place, calls) for _, place, calls in locations() if calls and calls[0].startswith("free")]
    if frees != [("main.c:23", ["free in give_back"])]:
        raise Wrong(f"the block that is given back is written at {frees}")
    if any(calls and calls[0].startswith("free") for _, _, calls in locations("--no-free")):
        raise Wrong("with --no-free a block is written where it is given back")


def judge_frames() -> None:
    """--frames says how many calls a location has."""
    for most in (0, 1, 3, 8):
        longest = max(len(calls) for _, _, calls in locations("--frames", str(most)))
        if longest != min(most, 5):
            raise Wrong(f"with --frames {most} a location has {longest} calls")


@functools.cache
def files_by_name() -> dict[str, list[str]]:
    """The sources of the tests, and the headers of the compilers that are here."""
    found: dict[str, list[str]] = {}
    for folder in (
        SOURCES,
        "/usr/include/c++",
        "/usr/include/x86_64-linux-gnu",
        "/usr/lib/gcc",
        "/usr/lib/llvm-14/include/c++",
    ):
        for at, _, files in os.walk(folder):
            for name in files:
                found.setdefault(name, []).append(os.path.join(at, name))
    return found


def lines_in(path: str) -> list[str]:
    with open(path, encoding="utf-8", errors="replace") as file:
        return file.read().splitlines()


def lines_of(name: str) -> int | None:
    """How many lines the file of a place has; None where it is found nowhere."""
    for path in files_by_name().get(os.path.basename(name), []):
        if path.endswith("/" + name):
            return len(lines_in(path))
    return None


def is_within(calls: Sequence[str]) -> bool:
    """Whether the calls after the function of the access are those of each_kind.cpp."""
    return all(call.split(" ")[-1].startswith("each_kind.cpp:") for call in calls[1:])


def judge_lines(cxx: str) -> None:
    """Each line of a location is in its file; what the program does to its own variables is in its own file, and
    not in the library's."""
    source = os.path.join(SOURCES, "each_kind.cpp")
    ran(
        [os.path.join(RECORD, "c++"), "-std=c++17", "-O2", source, "-o", "program"],
        env=dict(os.environ, RECORD_CXX=cxx),
    )
    found = locations()
    own = {place for operation, place, _ in found if operation.startswith(("r(by_", "w(by_", "r(racy", "w(racy"))}
    if not own or not all(place.startswith("each_kind.cpp:") for place in own):
        raise Wrong(f"the places of the program's own variables are {sorted(own)}")
    for word, text in (("fork", "emplace_back("), ("join", ".join()")):
        wanted = {f"each_kind.cpp:{number}" for number, line in enumerate(lines_in(source), start=1) if text in line}
        threads = {place for operation, place, _ in found if operation.startswith(word)}
        if threads != wanted:
            raise Wrong(
                f"the library of C++ makes the call of {word}, and its places are {sorted(threads)} "
                f"in place of {sorted(wanted)}"
            )
    outside = [calls for _, place, calls in found if place.startswith("each_kind.cpp:") and not is_within(calls)]
    if outside:
        raise Wrong(f"calls of the library stand beside the program's: {outside[0]}")
    # The library of C ends a global condition variable when no code of the program runs.
    ended = [
        (operation, place) for operation, place, calls in found if calls in ([], ["_start"]) and AT_END.search(place)
    ]
    if len(ended) > 1 or any(operation != "w(news)" for operation, _ in ended):
        raise Wrong(f"places without a line: {ended}")
    found = [one for one in found if (one[0], one[1]) not in ended]
    places = {place.split(" ")[-1] for _, place, calls in found for place in [place, *calls[1:]]}
    for place in sorted(places):
        parts = PLACE.match(place)
        most = lines_of(parts[1]) if parts else None
        if parts is None or most is None or not 1 <= int(parts[2]) <= most:
            raise Wrong(f"{place}: the file has {most} lines")


def judge_stripped() -> None:
    """A program without lines has places all the same, and two accesses have two."""
    ran(["strip", "program"])
    places = {place for operation, place, _ in locations() if operation.startswith(("r(", "w("))}
    if len(places) < 4 or not all(re.match(r"program\+0x[0-9a-f]+$", place) for place in places):
        raise Wrong(f"the places of a program without lines are {sorted(places)}")


def judge_places(c: str) -> None:
    sources = [os.path.join(SOURCES, "places", name) for name in ("main.c", "p/util.c", "q/util.c")]
    for form in ("-gdwarf-4", "-gz", "-g"):
        command = [os.path.join(RECORD, "cc"), "-O1", form, *sources, "-o", "program"]
        ran(command, env=dict(os.environ, RECORD_CC=c))
        judge_names()
    judge_free()
    judge_frames()
    judge_stripped()


NO_LINE = """#include <pthread.h>
static volatile int x, y;
static void *work(void *p) {
    x = 1;
#line 0
    y++;
#line 8
    return p;
}
int main(void) {
    pthread_t t;
    pthread_create(&t, 0, work, 0);
    x++, y++;
    return pthread_join(t, 0);
}
"""


def judge_no_line(c: str) -> None:
    """Code of line 0, as compilers have it for what they made themselves, has the line before it."""
    with open("made.c", "w", encoding="ascii") as source:
        source.write(NO_LINE)
    ran([os.path.join(RECORD, "cc"), "-O1", "made.c", "-o", "program"], env=dict(os.environ, RECORD_CC=c))
    trace = ran([os.path.join(RECORD, "run"), "--all", "./program"]).splitlines()
    places = {line.split("|")[2] for line in trace if line.startswith("T1|")}
    if places != {"made.c:4 < work"}:
        raise Wrong(f"the places of line 0 are {sorted(places)}")


def cases(c: str, cxx: str | None) -> list[Case]:
    """The cases for a C compiler, and for its C++ compiler where there is one."""
    found: list[Case] = [(f"places, {c}", judge_places, (c,)), (f"code without a line, {c}", judge_no_line, (c,))]
    return found + ([(f"lines of places, {cxx}", judge_lines, (cxx,))] if cxx else [])
