"""Judges values of accesses and races by value: `record/run --values`, the search, its judge, and `record/confirm
--by-value`.

What no other judge sees: a wrong value, a trace that values change, a wrong schedule by value, a pair of
locations that the search misses, a race that is listed although the program departs, a damaged values file that is
read.
"""

import json
import os
import re
import subprocess
import sys
import zlib
from collections.abc import Callable, Iterator
from typing import Any

import valued_traces
from judging import Case, Wrong
from recorded_places import PATIENCE, RECORD, SOURCES, events_in

if RECORD not in sys.path:
    sys.path.append(RECORD)
import by_value
import clocks
import values

FOLDER = os.path.join(SOURCES, "by_value")
LIMITS = ["--timeout", str(PATIENCE), "--patience", "60000"]
# Recordings of a program are made until one has the order that its judge needs.
SEEDS = range(1, 60)
# How many traces are drawn, and how many pairs of locations only values show in these at least.
DRAWN, LEAST_BY_VALUE, LEAST_MUTANTS = 500, 100, 300
# The limits of the search: with the search through all orders, and without it.
WAYS: list[list[str]] = [[], ["states=0"]]
# The schedules of one trace in ONE_IN are changed a little, and judged.
ONE_IN = 10
MEMBERS = {
    "by value": {"ended", "events", "liberties", "locations", "places", "text"},
    "departed": {"at", "ended", "events", "locations", "places", "text"},
}
Found = dict[str, Any]


def ran(command: list[str], wanted: int = 0) -> tuple[str, str]:
    done = subprocess.run(command, capture_output=True, timeout=PATIENCE, check=False)
    out, errors = done.stdout.decode("utf-8", "surrogateescape"), done.stderr.decode(errors="replace")
    if done.returncode != wanted or "Traceback" in errors:
        raise Wrong(f"{' '.join(command)}: status {done.returncode}, and not {wanted}: {out}{errors[-900:]}")
    return out, errors


def source_of(name: str) -> str:
    path = os.path.join(FOLDER, f"{name}.c")
    return path if os.path.exists(path) else os.path.join(os.path.dirname(RECORD), "examples", f"{name}.c")


def compiled(name: str) -> None:
    ran([os.path.join(RECORD, "cc"), "-O1", source_of(name), "-o", name])


def recorded(name: str, *options: str) -> list[str]:
    """Records a program: NAME.std, NAME.clock, NAME.values. Returns the events."""
    files = ["--clock", f"{name}.clock", "--values", f"{name}.values"]
    trace, _ = ran([os.path.join(RECORD, "run"), *files, *options, f"./{name}"])
    with open(f"{name}.std", "w", encoding="utf-8") as file:
        file.write(trace)
    return events_in(trace)


def recorded_as(name: str, is_wanted: Callable[[list[str]], bool], *options: str) -> list[str]:
    """A recording whose events come in a wanted order."""
    for seed in SEEDS:
        events = recorded(name, *options, "--seed", str(seed))
        if is_wanted(events):
            return events
    raise Wrong(f"{name}: no seed of {SEEDS.start} to {SEEDS.stop - 1} gives the order that is needed")


def has_order(*texts: str) -> Callable[[list[str]], bool]:
    """Whether events that have these texts come in this order."""

    def is_wanted(events: list[str]) -> bool:
        rest = iter(events)
        return all(any(text in event for event in rest) for text in texts)

    return is_wanted


def read_values(name: str) -> dict[int, bytes]:
    return values.read(f"{name}.values", clocks.digest_of(f"{name}.std"))


def confirmed(racebench: str, name: str, wanted: int = 0, *options: str) -> tuple[str, list[Found]]:
    """What record/confirm --by-value prints, and what it found."""
    command = [os.path.join(RECORD, "confirm"), "--racebench", racebench, "--json", "found.json", *LIMITS]
    out, _ = ran([*command, *options, "--by-value", f"{name}.values", f"{name}.std", f"{name}.clock"], wanted)
    with open("found.json", encoding="ascii") as lines:
        found: list[Found] = [json.loads(line) for line in lines]
    for one in found:
        if set(one) != MEMBERS[one["ended"]]:
            raise Wrong(f"{name}: a line of JSON: {one}")
    return out, found


def lines_of(one: Found) -> list[int]:
    return sorted(int(place.rsplit(":", 1)[1]) for place in one["places"])


def line_with(name: str, text: str) -> int:
    with open(source_of(name), encoding="ascii") as source:
        return next(number for number, line in enumerate(source, 1) if text in line)


def judge_values() -> None:
    """Each access of values.c has the value that the source says."""
    compiled("values")
    events, known = recorded("values", "--all"), read_values("values")
    found: dict[int, list[str]] = {}
    for number, event in enumerate(events):
        _, operation, location = event.split("|", 2)
        line = int(location.split(" < ")[0].rsplit(":", 1)[1])
        if operation.startswith(("r(", "w(")) and not operation.startswith(("r(sync:", "w(sync:")):
            value = known.get(number, b"none").decode()
            found.setdefault(line, []).append(re.sub(r"^b\d+\+", "block+", value))
    checked = 0
    with open(os.path.join(FOLDER, "values.c"), encoding="ascii") as source:
        for number, text in enumerate(source, 1):
            wanted = re.search(r";\s+/\* ([a-z0-9+ ]+) \*/$", text)
            if wanted and found.get(number) != wanted[1].split():
                raise Wrong(f"values.c:{number} has {found.get(number)}, and not {wanted[1]}")
            checked += bool(wanted)
    if checked < 20:
        raise Wrong(f"values.c says the values of {checked} lines alone")


def judge_traces() -> None:
    """A recording has the same trace with values and without, and each read that keeps no writer sees its value."""
    for name in ("looks", "deciding", "unseen", "values"):
        compiled(name)
        for seed in ("1", "2", "3"):
            events = recorded(name, "--seed", seed)
            plain, _ = ran([os.path.join(RECORD, "run"), "--seed", seed, f"./{name}"])
            if events_in(plain) != events:
                raise Wrong(f"{name}, seed {seed}: values change the trace")
            if not read_values(name):
                raise Wrong(f"{name}, seed {seed}: there are no values")


def judge_hidden(racebench: str) -> None:
    """A look whose value does not matter hides a race: triage calls it apart, and the program comes to it."""
    compiled("looks")
    recorded_as("looks", has_order("T1|r(now)", "T1|w(looks)", "T2|r(looks)", "T2|w(now)"))
    lines = [line_with("looks", "seen = now"), line_with("looks", "now = 1")]
    verdicts, _ = ran([racebench, "triage", "--apart", "looks.std"])
    if f"T1|r(now)|looks.c:{lines[0]}" not in verdicts.partition("\napart ")[2]:
        raise Wrong(f"looks.c: the pair is not apart: {verdicts}")
    out, found = confirmed(racebench, "looks")
    if [(one["ended"], lines_of(one)) for one in found] != [("by value", lines)]:
        raise Wrong(f"looks.c: {found}")
    row = rf"^looks.c:{lines[0]}  looks.c:{lines[1]}  by value\n    \d+ \d+: the race stands: T1 at .*, T2 at .*\n"
    if not re.search(row, out, re.MULTILINE) or not out.endswith(
        "\nraces by value 1, departed 0, no schedule found 0\n"
    ):
        raise Wrong(f"looks.c: {out}")


def judge_deciding(racebench: str) -> None:
    """A look whose value decides the way hides nothing. With a wrong value the search is led astray, and the run is
    not: it departs."""
    compiled("deciding")
    events = recorded_as("deciding", has_order("T1|r(now)", "T1|w(is_done)", "T2|r(is_done)", "T2|w(now)"))
    out, found = confirmed(racebench, "deciding")
    if found or not out.endswith("\nraces by value 0, departed 0, no schedule found 0\n"):
        raise Wrong(f"deciding.c: {out}")
    known = read_values("deciding")
    for number, event in enumerate(events):
        if "(is_done)" in event:
            known[number] = b"0"
    write_values("deciding", known, len(events))
    # The thread ends without its write: the run waits for it as long as its patience lasts.
    out, found = confirmed(racebench, "deciding", 1, "--patience", "3000")
    if [one["ended"] for one in found] != ["departed"] or not out.endswith(
        "\nraces by value 0, departed 1, no schedule found 0\n"
    ):
        raise Wrong(f"deciding.c with wrong values: {out}")


def judge_unseen(racebench: str) -> None:
    """What has no hooks decides the way: the program departs, and nothing is listed as a race."""
    compiled("unseen")
    recorded_as("unseen", has_order("T1|r(now)", "T1|w(looks)", "T2|r(looks)", "T2|w(now)"))
    out, found = confirmed(racebench, "unseen", 1)
    wanted = rf"T2 came to a write at unseen.c:{line_with('unseen', 'other = 2')}, where the recording has a write"
    if [one["ended"] for one in found] != ["departed"] or wanted not in found[0]["text"] or " by value\n" in out:
        raise Wrong(f"unseen.c: {out}")


def write_values(name: str, known: dict[int, bytes], events: int) -> None:
    """Writes a values file that is whole."""
    digest = clocks.digest_of(f"{name}.std").encode()
    text = b"values 1 %s %d\n" % (digest, events)
    text += b"".join(b"%d %s\n" % (event, known[event]) for event in sorted(known))
    with open(f"{name}.values", "wb") as file:
        file.write(text + b"end %d %08x\n" % (len(known), zlib.crc32(text)))


def damages(text: bytes) -> Iterator[tuple[bytes, str]]:
    """Values files that are wrong, and what record/confirm says of each."""
    lines = text.splitlines(keepends=True)
    head, first, second, end = lines[0], lines[1], lines[2], lines[-1]
    body, count = b"".join(lines[1:-1]), len(lines)
    yield b"", "line 1: this is no values file of record/run --values"
    yield b"values 2" + head[8:] + body + end, "line 1: this is no values file of record/run --values"
    yield head.replace(head[9:19], b"0123456789") + body + end, "line 1: the values are of another trace"
    yield head + body, f"line {count}: the file is cut: it has no line `end`"
    yield text[: len(head + first)], "line 3: the file is cut: it has no line `end`"
    yield text[: len(head + first) - 1], "line 2: this is no value: "
    yield text[:-2], f"line {count}: this is no value: 'end "
    yield head + b"x" + body + end, "line 2: this is no value: 'x"
    yield head + second + first + end, "line 3: event "
    yield head + b"999999 1\n" + body + end, "line 2: event 999999 comes after event -1, and the trace has "
    yield head + b"".join(
        lines[2:-1]
    ) + end, f"line {count - 1}: {count - 2} values were written, and the file has {count - 3}"
    other = b"%s %d\n" % (first.split()[0], 77)
    yield head + other + b"".join(lines[2:]), f"line {count}: the checksum is of other lines: the file is damaged"
    yield text + b"0", f"line {count + 1}: there is something after the line `end`"


def judge_refusals(racebench: str) -> None:
    """A values file that is cut, damaged or of another trace is refused, with its line; so are options that do not go
    together."""
    compiled("looks")
    compiled("deciding")
    recorded("deciding")
    recorded("looks")
    with open("looks.values", "rb") as file:
        whole = file.read()
    confirm = [os.path.join(RECORD, "confirm"), "--racebench", racebench, *LIMITS]
    pair = ["looks.std", "looks.clock"]
    for text, why in damages(whole):
        with open("wrong.values", "wb") as file:
            file.write(text)
        out, errors = ran([*confirm, "--by-value", "wrong.values", *pair], 3)
        if out or f"record/confirm: wrong.values, {why}" not in errors:
            raise Wrong(f"{why}: {out}{errors}")
    _, errors = ran([*confirm, "--by-value", "deciding.values", *pair], 3)
    if "deciding.values, line 1: the values are of another trace" not in errors:
        raise Wrong(f"values of another program: {errors}")
    for words, why in (
        (["--by-value", "looks.values", "--deadlocks"], "--by-value goes with neither"),
        (["--by-value", "looks.values", "--triage=--apart"], "--by-value goes with neither"),
        (["--search", "5"], "--search is for --by-value"),
    ):
        if why not in ran([*confirm, *words, *pair], 2)[1]:
            raise Wrong(f"{words} are taken")
    _, errors = ran([os.path.join(RECORD, "run"), "--values", "x.values", "--from", "3", "./looks"], 2)
    if "--values is of a whole run: --from has none" not in errors:
        raise Wrong(f"--values with --from: {errors}")


def searched(drawn: valued_traces.Drawn, *limits: str) -> by_value.Search:
    """What the search finds in a drawn trace."""
    with open("drawn.std", "w", encoding="ascii") as file:
        file.write("".join(f"{line}\n" for line in drawn.lines))
    write_values("drawn", {event: value.encode() for event, value in drawn.values.items()}, len(drawn.lines))
    return by_value.Search("drawn.std", "drawn.values", [], limits)


def mutants(schedule: by_value.Schedule) -> Iterator[by_value.Schedule]:
    """Schedules that differ from this one a little."""
    events = schedule.events
    for k in range(len(events) - 1):
        yield schedule._replace(events=[*events[:k], events[k + 1], events[k], *events[k + 2 :]])
    for k in range(len(events)):
        yield schedule._replace(events=events[:k] + events[k + 1 :])
    yield schedule._replace(events=events + [schedule.pair[0]])
    yield schedule._replace(events=events + events[-1:])


def judge_drawn() -> None:
    """On small traces the search finds what all reorderings show, and nothing else. The judge takes exactly the
    schedules that the definition takes."""
    only_by_value = refused = 0
    for seed in range(DRAWN):
        drawn = valued_traces.drawn(seed)
        oracle, judge = valued_traces.Oracle(drawn), by_value.Judge(
            drawn.lines, {event: value.encode() for event, value in drawn.values.items()}
        )
        shown = oracle.all_shown()
        only_by_value += len(shown - valued_traces.Oracle(drawn, False).all_shown())
        for limits in WAYS:
            schedules = by_value.judged(judge, searched(drawn, *limits))
            found = {frozenset(oracle.location[event] for event in one.pair) for one in schedules}
            if found - shown or (not limits and found != shown):
                raise Wrong(f"trace {seed}, {limits}: found {[sorted(pair) for pair in found ^ shown]} more or less")
        for mutant in (each for one in schedules if seed % ONE_IN == 0 for each in mutants(one)):
            is_right = oracle.is_by_value(mutant.events, mutant.pair)
            refused += not is_right
            if is_right == bool(judge.why_not(mutant)):
                raise Wrong(f"trace {seed}: {mutant} is judged {judge.why_not(mutant)!r}")
    if only_by_value < LEAST_BY_VALUE or refused < LEAST_MUTANTS:
        raise Wrong(f"{only_by_value} pairs by value alone, {refused} schedules refused: too few")


def judge_wrong_search() -> None:
    """A wrong schedule stops record/confirm, however it came about."""
    drawn = valued_traces.drawn(0)
    search = searched(drawn)
    judge = by_value.Judge(drawn.lines, {event: value.encode() for event, value in drawn.values.items()})
    search.schedules = [search.schedules[0]._replace(events=search.schedules[0].events[1:])]
    try:
        by_value.judged(judge, search)
    except by_value.BadSchedule:
        return
    raise Wrong("a schedule without its first event is taken")


def cases(racebench: str) -> list[Case]:
    return [
        ("values of accesses", judge_values, ()),
        ("values leave the trace as it is", judge_traces, ()),
        ("a race by value that stands", judge_hidden, (racebench,)),
        ("a value that decides the way", judge_deciding, (racebench,)),
        ("a race by value that departs", judge_unseen, (racebench,)),
        ("values files that are refused", judge_refusals, (racebench,)),
        ("races by value of drawn traces", judge_drawn, ()),
        ("a wrong schedule by value", judge_wrong_search, ()),
    ]
