"""Judges record/reported: real reports of ThreadSanitizer, Helgrind and DRD, made here, lead to the race of
examples/count.c; a message names reports that are cut, of another form or of another program.

What no other judge sees: a report that is answered by another race, and one that is cut and taken for whole.
"""

import os
import re
import shutil
import subprocess
import sys
from collections.abc import Sequence

from judging import Case, Wrong
from recorded_places import PATIENCE, RECORD, SOURCES, TOP, ran

if RECORD not in sys.path:
    sys.path.append(RECORD)
import matching

# What a report calls the variable that has a name in a trace; nothing if the trace names none.
VARIABLES = {
    "hosts[12].state": "hosts",
    "shop::pool.stopping_": "pool",
    "atomic:held:shop::pool.mutex_": "pool",
    "main:job.pairs[1].b": "job",
    "shop::Table::find#T12.5:row[4]+2": "row",
    "round_of#2:sum": "sum",
    "counter:count": "count",
    "mine#T1": "mine",
    "flags.0+4": "flags",
    "libshop.so.1:shelf+8": "shelf",
    "text@40~1": "text",
    "heap:shop.cpp:40 Item#T3[3].price": "",
    "stack:worker#2-40": "",
    "memory:7ffff7d00000+16": "",
}
SOURCE = os.path.join(TOP, "examples", "count.c")
# How often a program runs until its race is reported.
RUNS = 200
# How Helgrind and DRD begin a report of a race, as text and as XML.
RACE = re.compile(rb"Possible data race|Conflicting (load|store)|<kind>(Race|ConflictingAccess)</kind>")


def reported(racebench: str, report: str, trace: str = "count.std") -> tuple[int, str, str]:
    done = subprocess.run(
        [os.path.join(RECORD, "reported"), "--racebench", racebench, report, trace],
        capture_output=True,
        timeout=PATIENCE,
        check=False,
    )
    out, err = done.stdout.decode(errors="replace"), done.stderr.decode(errors="replace")
    if "Traceback" in err or done.returncode not in (0, 1) or (done.returncode == 1 and not err):
        raise Wrong(f"record/reported {report}: status {done.returncode}: {err[-600:]}")
    return done.returncode, out, err


def record(*sources: str) -> None:
    ran([os.path.join(RECORD, "cc"), "-g", *sources, "-o", "program"])
    with open("count.std", "w", encoding="ascii") as file:
        file.write(ran([os.path.join(RECORD, "run"), "./program"]))


def tsan_report(c: str, source: str = SOURCE) -> bytes:
    """A report of the program by ThreadSanitizer; addresses are not drawn, which its older versions can't bear."""
    ran([c, "-g", "-O0", "-fsanitize=thread", "-pthread", source, "-o", "watched"])
    for _ in range(RUNS):
        done = subprocess.run(
            ["setarch", "-R", "./watched"], capture_output=True, timeout=PATIENCE, check=False
        ).stderr
        if b"WARNING: ThreadSanitizer: data race" in done:
            return done
    raise Wrong(f"ThreadSanitizer of {c} reports no race in {RUNS} runs")


def valgrind_report(tool: str, arguments: Sequence[str]) -> bytes:
    """A report of the program; which thread is first is the system's choice, and in one order there is nothing to
    report."""
    ran(["gcc", "-g", "-O0", "-pthread", SOURCE, "-o", "plain"])
    for _ in range(RUNS):
        done = subprocess.run(
            ["valgrind", f"--tool={tool}", *arguments, "./plain"], capture_output=True, timeout=PATIENCE, check=False
        )
        report = done.stderr
        if arguments:
            with open("report.xml", "rb") as file:
                report = file.read()
        if RACE.search(report):
            return report
    raise Wrong(f"{tool} reports no race in {RUNS} runs")


def judge_report(racebench: str, report: bytes) -> None:
    """The report leads to the race: the events that `triage` lists, and nothing else is answered."""
    with open("report", "wb") as file:
        file.write(report)
    status, out, err = reported(racebench, "report")
    race = re.search(r"^race (\d+) (\d+) ", ran([racebench, "triage", "count.std"]), re.MULTILINE)
    if race is None:
        raise Wrong("the recording of count.c has no race")
    wanted = f"racebench explain count.std {race[1]} {race[2]}"
    counts = re.search(r"^(\d+) reports: (\d+) a race here, 0 apart, 0 undecided, 0 not met$", out, re.MULTILINE)
    if status or wanted not in out or not counts or counts[1] != counts[2] or counts[1] == "0":
        raise Wrong(f"the report is answered by {out}{err}")


def judge_cuts(racebench: str, report: bytes) -> None:
    """A cut report leads to a message, wherever it was cut."""
    ends = range(0, len(report), max(1, len(report) // 12))
    for end in ends:
        with open("cut", "wb") as file:
            file.write(report[:end])
        status, out, err = reported(racebench, "cut")
        if status == 0 and "0 reports" in out or status == 1 and not re.search(r"cut|is no report", err):
            raise Wrong(f"a report that was cut at byte {end}: {out}{err}")


def judge_other_forms(racebench: str) -> None:
    """What is no report is refused; names that would change a terminal are printed with `?`; another program's
    race is not met."""
    for text in (b"", b"hello\n", b"\0\xff" * 100, b"<valgrindoutput><!DOCTYPE x []>"):
        with open("other", "wb") as file:
            file.write(text)
        status, _, err = reported(racebench, "other")
        if status != 1 or "is no report" not in err and "defines entities" not in err:
            raise Wrong(f"{text[:40]!r} is taken: {err}")
    hostile = tsan_report("gcc").replace(b"reader", b"\x1b[2J\x1b]0;x\x07").replace(b"count.c", b"other\x1b.c")
    with open("hostile", "wb") as file:
        file.write(hostile)
    status, out, err = reported(racebench, "hostile")
    if "\x1b" in out + err or status or "1 not met" not in out:
        raise Wrong(f"a report with hostile names: {out!r}{err!r}")


def judge_blanks(racebench: str, c: str) -> None:
    """Folders and files whose names have blanks, quotes and parentheses."""
    source = 'a folder (1) of/my "count".c'
    os.makedirs(os.path.dirname(source))
    shutil.copy(SOURCE, source)
    record(source)
    judge_report(racebench, tsan_report(c, source))
    os.rename(os.path.dirname(source), "gone")


# A report that lost the calls of one access, as ThreadSanitizer prints it.
LOST = """WARNING: ThreadSanitizer: data race (pid=1)
  Read of size 4 at 0x1 by thread T2:
    #0 reader %s:13 (w+0x1)

  Previous write of size 4 at 0x1 by thread T1:
    [failed to restore the stack]

  Location is global 'hits' of size 4 at 0x1 (w+0x1)

SUMMARY: ThreadSanitizer: data race count.c:13 in reader
"""
# A report whose innermost call has no line: its caller has one, at which the trace has other accesses.
NAMELESS = """WARNING: ThreadSanitizer: data race (pid=1)
  Write of size 4 at 0x1 by thread T1:
    #0 %s <null> (w+0x1)
    #1 main count.c:21 (w+0x1)

  Previous write of size 4 at 0x1 by thread T2:
    #0 writer count.c:7 (w+0x1)

SUMMARY: ThreadSanitizer: data race count.c:7 in writer
"""


def judge_lost(racebench: str) -> None:
    """A report without the calls of one access is answered by the other. A call without a line is met by its name
    alone, and not by its caller's."""
    record(SOURCE)
    wanted = {
        LOST % SOURCE: "a race here (by one access, since the report lost the place of the other)",
        LOST.replace("reader %s:13", "main %s:90") % SOURCE: "not met: no access at count.c:90 is in this recording",
        NAMELESS % "reader": "a race here (by the functions, since the lines differ)",
        NAMELESS % "Other::call() const": "not met: no access at Other::call() is in this recording",
    }
    for text, answer in wanted.items():
        with open("report", "w", encoding="ascii") as report:
            report.write(text)
        status, out, err = reported(racebench, "report")
        if status or answer not in out:
            raise Wrong(f"{text}is answered {out}{err}")


def judge_apart(racebench: str, c: str) -> None:
    """A block that is published without a lock: the race of the pointer is shown. The report on the block names the
    line of its malloc, but the trace has no access there, so that pair is not called apart."""
    source = os.path.join(SOURCES, "published.c")
    record(source)
    with open("report", "wb") as file:
        file.write(tsan_report(c, source))
    status, out, err = reported(racebench, "report")
    named = "not met: no pair here is at both lines of the report, and those of the same functions are apart"
    if status or named not in out or "reports: 1 a race here, 0 apart, 0 undecided, 1 not met" not in out:
        raise Wrong(f"the report of a block that is published without a lock is answered by {out}{err}")


# A program whose accesses are ordered by forks and joins, and a report on two accesses.
ORDERED = """#include <pthread.h>
static int table[8];
static void *fill(void *p) { table[3] = 1; return p; }
int main(void) {
    pthread_t t;
    pthread_create(&t, 0, fill, 0);
    pthread_join(t, 0);
    return table[3] - 1;
}
"""
ON_ORDERED = """WARNING: ThreadSanitizer: data race (pid=1)
  Read of size 4 at 0x1 by main thread:
    #0 main ordered.c:8 (w+0x1)

  Previous write of size 4 at 0x1 by thread T1:
    #0 fill ordered.c:3 (w+0x1)

SUMMARY: ThreadSanitizer: data race ordered.c:8 in main
"""


def judge_ordered(racebench: str) -> None:
    """The trace lacks what forks and joins order. A report on it is apart by the file beside the trace, and not met
    without; the file of another trace is refused."""
    with open("ordered.c", "w", encoding="ascii") as source, open("report", "w", encoding="ascii") as report:
        source.write(ORDERED)
        report.write(ON_ORDERED)
    ran([os.path.join(RECORD, "cc"), "-g", "ordered.c", "-o", "program"])
    with open("ordered.std", "w", encoding="ascii") as file:
        file.write(ran([os.path.join(RECORD, "run"), "--ordered", "ordered.std.ordered", "./program"]))
    _, out, err = reported(racebench, "report", "ordered.std")
    lines = ["  T0|r|ordered.c:8 < main", "  T1|w|ordered.c:3 < fill"]
    if "apart in this recording: ordered by forks and joins" not in out or not all(line in out for line in lines):
        raise Wrong(f"a report on accesses that forks and joins order is answered by {out}{err}")
    os.rename("ordered.std.ordered", "other")
    _, out, err = reported(racebench, "report", "ordered.std")
    if "1 not met" not in out:
        raise Wrong(f"without the file beside the trace: {out}{err}")
    os.rename("other", "count.std.ordered")
    status, out, err = reported(racebench, "report")
    if status != 1 or err != "record/reported: count.std.ordered is of another trace than count.std\n":
        raise Wrong(f"the file of another trace: status {status}, {out}{err}")
    os.unlink("count.std.ordered")


def judge_reports(racebench: str, c: str) -> None:
    judge_blanks(racebench, c)
    record(SOURCE)
    report = tsan_report(c)
    judge_report(racebench, report)
    judge_cuts(racebench, report)
    judge_apart(racebench, c)
    judge_lost(racebench)
    record(SOURCE)
    judge_ordered(racebench)
    if c == "gcc":
        judge_other_forms(racebench)
        record(os.path.join(SOURCES, "freed.c"))
        with open("report", "wb") as file:
            file.write(report)
        if "1 not met" not in reported(racebench, "report")[1]:
            raise Wrong("a report is answered by the trace of another program")


def judge_valgrind(racebench: str) -> None:
    record(SOURCE)
    as_xml = ["--xml=yes", "--xml-file=report.xml"]
    judge_report(racebench, valgrind_report("helgrind", []))
    for tool in ("helgrind", "drd"):
        judge_report(racebench, valgrind_report(tool, as_xml))
    in_header = rb"   at \1: push_back (stl_vector.h:1278)\n==1==    by \1: \2"
    report = re.sub(rb"   at (0x\w+): (\w+ \(count.c:\d+\))", in_header, valgrind_report("helgrind", []))
    judge_report(racebench, report)
    judge_cuts(racebench, valgrind_report("helgrind", as_xml))


def judge_variables() -> None:
    for name, wanted in VARIABLES.items():
        if matching.variable_of(name) != wanted:
            raise Wrong(f"the variable of {name} is {matching.variable_of(name)!r}, and not {wanted!r}")
    for variable in ("shop::pool", "pool"):
        if not matching.Recording.is_of({"variable": "shop::pool.stopping_"}, variable):
            raise Wrong(f"a report of {variable} is not one of shop::pool.stopping_")


def cases(racebench: str, c: str) -> list[Case]:
    """The cases of a compiler; those of valgrind come with gcc's."""
    found: list[Case] = [(f"reports of ThreadSanitizer, {c}", judge_reports, (racebench, c))]
    found += [("variables of reports", judge_variables, ())] if c == "gcc" else []
    if c == "gcc" and shutil.which("valgrind"):
        found.append(("reports of Helgrind and DRD", judge_valgrind, (racebench,)))
    elif c == "gcc":
        print("record/reported: reports of Helgrind and DRD are not tested, since valgrind is not here")
    return found
