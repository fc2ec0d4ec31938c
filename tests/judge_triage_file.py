#!/usr/bin/env python3
"""Judges `triage --triage` and `--init-triage` by a second reader of triage files, Python's tomllib, and the rules of
docs/FORMATS.md.

Draws traces with locations that resemble one another and triage files that resemble their races. The races that are
printed must be those of `triage` without the file that no entry leaves out, and the notes must name the entries that
these rules name. With workers the text is the same. A file that `--init-triage` wrote must leave out each race. A file
that is changed by chance must be refused exactly if tomllib or the table of keys refuses it, at the same line if the
mistake is a key's.

    judge_triage_file.py PROGRAM [TRACES [SEED]]      this many drawn traces, the first of this seed

Says what is wrong, if something is, and ends with status 1 then, also if a kind of entry was never met.
"""

import datetime
import itertools
import json
import os
import random
import re
import subprocess
import sys
import tomllib
from collections import Counter
from collections.abc import Callable
from typing import Any

if __name__ == "__main__":
    sys.dont_write_bytecode = True
import judging
import running
from judging import Wrong
from plain_names import without_number

TRACES = 120
TOOLS = os.path.join(judging.HERE, "..", "tools")
TODAY = datetime.date(2027, 6, 1)
PATHS = ["p/u.c", "q/u.c", "u.c", "a b.c"]
FUNCTIONS = ["add", "get", "operator new", ""]
VARIABLES = [
    "x",
    "y",
    "heap:u.c:3#1+8",
    f"heap:u.c:3#T{2}.4+8",
    "heap:u.c:3 item[3].next",
    "heap:u.c:3 item#2[3].next",
    "heap:u.c:3 item#2[4].next",
    "add:n",
    "add#T1:n",
    "own#T1",
    "own#T2",
    "stack:add#2-8",
    "memory:7ffff7c00000+8",
    'q"t',
    "back\\slash",
]
VERDICTS = ["known", "benign", "false", "fixed"]
KEYS = {"paths", "functions", "variables", "lines", "verdict", "reason", "author", "expires"}
REACHED = [
    "left out",
    "printed",
    "by line",
    "by function",
    "other variable",
    "unmet",
    "fixed",
    "written",
    "refused TOML",
    "refused entry",
    "expired",
    "more than entries",
    "more behind entries",
    "no TOML at a column",
    "days of the clock",
    "days of other clocks",
    "no day",
]
# Years whose days are compared: with and without a leap day, and the longest number of a year that the format takes.
YEARS = [1970, 1972, 1999, 2000, 2023, 2024, 2027, 2099, 2100, 2101, 2399, 2400, 2401, 9999]
DAY = datetime.timedelta(days=1)
WORDS = {
    "table": "is no table",
    "unknown": "has an unknown key",
    "paths": "needs `paths`, two texts",
    "functions": "has `functions` other than two texts",
    "variables": "has `variables` other than texts",
    "lines": "has `lines` other than two numbers",
    "verdict": "needs `verdict`: known, benign, false or fixed",
    "reason": "has a `reason` other than a text",
    "author": "has an `author` other than a text",
    "expires": "has an `expires` other than a date",
}


def drawn_trace(chance: random.Random) -> list[str]:
    """Lines of a trace: three threads that access a few variables at a few locations."""
    lines = ["T0|fork(T1)|m.c:1 < main", "T0|fork(T2)|m.c:2 < main"]
    for _ in range(chance.choice([4, 8, 14])):
        place = chance.choice([f"{chance.choice(PATHS)}:{chance.randint(1, 3)}"] * 5 + ["7", "007", "u.c:007"])
        function = chance.choice(FUNCTIONS)
        calls = f" < {function} < main m.c:{chance.randint(1, 2)}" if function else ""
        lines.append(f"T{chance.randint(1, 2)}|{chance.choice('rw')}({chance.choice(VARIABLES)})|{place}{calls}")
    return lines


def parts(line: str) -> tuple[str, str | None, str]:
    """The thread, the variable (none if it is no access) and the location of a line."""
    thread, operation, location = line.split("|", 2)
    found = re.fullmatch(r"[rw]\((.*)\)", operation)
    return thread, found[1] if found else None, location


def side_of(location: str) -> tuple[str, str, str]:
    """The path, the line and the function of a location."""
    place, *calls = location.split(" < ")
    found = re.fullmatch(r"(.+):([0-9]+)", place, re.DOTALL)
    path, line = (found[1], found[2]) if found else (place, "")
    function = calls[0] if calls else ""
    head, _, tail = function.rpartition(" ")
    if re.fullmatch(r".+:[0-9]+", tail):
        function = head
    return path, line, function


def pair_at(entry: dict[str, Any], key: str, at: int, missing: str | None) -> int | str | None:
    return entry[key][at] if key in entry else missing


def fits(entry: dict[str, Any], at: int, location: str) -> bool:
    path, line, function = side_of(location)
    named = pair_at(entry, "functions", at, "")
    if pair_at(entry, "paths", at, "") != path or (named and named != function):
        return False
    if named and "variables" in entry:
        return True
    number = pair_at(entry, "lines", at, None)
    return line == "" if number is None or (number == 0 and line == "") else str(number) == line


def is_about(entry: dict[str, Any], lines: list[str], first: int, second: int) -> bool:
    one, other = (parts(lines[event])[2] for event in (first, second))
    if not (fits(entry, 0, one) and fits(entry, 1, other) or fits(entry, 0, other) and fits(entry, 1, one)):
        return False
    if "variables" not in entry:
        return True
    return any(
        all(
            without_number(used) in map(without_number, entry["variables"])
            for _, used, where in map(parts, lines)
            if used is not None and where == location
        )
        for location in (one, other)
    )


def mistake_of(entry: dict[str, Any]) -> str | None:
    """The first mistake of an entry, in the order of the format."""

    def texts(value: object) -> bool:
        return isinstance(value, list) and all(isinstance(item, str) for item in value)

    def numbers(value: object) -> bool:
        return isinstance(value, list) and len(value) == 2 and all(type(item) is int for item in value)

    def two(value: object) -> bool:
        return isinstance(value, list) and texts(value) and len(value) == 2

    tests: list[tuple[str, Callable[[Any], bool]]] = [
        ("functions", two),
        ("variables", lambda value: texts(value) and bool(value)),
        ("lines", numbers),
    ]
    last: list[tuple[str, Callable[[Any], bool]]] = [
        ("reason", lambda value: isinstance(value, str)),
        ("author", lambda value: isinstance(value, str)),
        ("expires", lambda value: type(value) is datetime.date),
    ]
    if not isinstance(entry, dict):
        return "table"
    if set(entry) - KEYS:
        return "unknown"
    if not two(entry.get("paths", [])):
        return "paths"
    for key, test in tests:
        if key in entry and not test(entry[key]):
            return key
    if entry.get("verdict") not in VERDICTS:
        return "verdict"
    for key, test in last:
        if key in entry and not test(entry[key]):
            return key
    return None


def expired(entry: dict[str, Any]) -> str | None:
    return "expired" if entry.get("expires", TODAY) < TODAY else None


def refusal_of(text: str) -> str | None:
    """What standard error must begin with; the line alone if it is no TOML; nothing if the file is taken."""
    try:
        table = tomllib.loads(text)
    except tomllib.TOMLDecodeError:
        return "not TOML"
    lines = text.split("\n")
    if set(table) - {"race"} or not isinstance(table.get("race", []), list):
        key = min(set(table) - {"race"}, default="race")
        line = next((n for n, line in enumerate(lines) if re.match(rf"\[?\[?{key}(?![A-Za-z0-9_-])", line)), 0)
        return f"racebench: triage file line {line + 1} column 1: not a `[[race]]` entry"
    heads = [at for at, line in enumerate(lines) if line.startswith("[[")]
    for wrong in (mistake_of, expired):
        for at, entry in enumerate(table.get("race", [])):
            found = wrong(entry)
            if found:
                start, end = heads[at], (heads + [len(lines)])[at + 1]
                key = "expires" if found == "expired" else found
                spot = next(
                    (n for n in range(start + 1, end) if re.match(rf"{key}(?![A-Za-z0-9_-])", lines[n])), start
                )
                refusal = "has expired" if found == "expired" else WORDS[found]
                return f"racebench: triage file line {spot + 1} column 1: entry {at + 1} {refusal}"
    return None


# The two sides of an entry, each with path, line and function, and the variable if it has one.
Written = tuple[tuple[str, str, str], tuple[str, str, str], str | None]


def entry_written(lines: list[str], first: int, second: int) -> Written:
    """What `--init-triage` writes of a race, but for its line: the accesses in an order of their own, and the variable
    without its number if the source has it and one of the two locations accesses no other."""
    _, used, one = parts(lines[first])
    assert used is not None
    other = parts(lines[second])[2]
    name = without_number(used)
    others = [
        {without_number(name) for _, name, where in map(parts, lines) if name is not None and where == location}
        for location in (one, other)
    ]
    is_alone = {name} in others and not used.startswith(("stack:", "memory:"))
    first_side, second_side = sorted(map(side_of, (one, other)))
    return first_side, second_side, name if is_alone else None


def entry_read(entry: dict[str, Any]) -> Written:
    """The same of an entry that is read. A line that is no number of TOML is 0."""
    sides = zip(entry["paths"], map(str, entry["lines"]), entry["functions"], strict=True)
    one, other = sorted(sides)
    (variable,) = entry.get("variables", [None])
    return one, other, variable


def plain_line(side: tuple[str, str, str]) -> tuple[str, str, str]:
    path, line, function = side
    return path, line if re.fullmatch(r"[1-9][0-9]{0,17}", line) else "0", function


def judge_written(lines: list[str], races: list[tuple[int, int]], text: str) -> None:
    """Each race has an entry, no entry is there twice, and each is that of a race."""
    entries = list(map(entry_read, tomllib.loads(text).get("race", [])))
    wanted = {
        (*sorted(map(plain_line, (one, other))), name)
        for one, other, name in (entry_written(lines, *race) for race in races)
    }
    demand(len(entries) == len(set(entries)), "an entry is written twice")
    demand(set(entries) == wanted, f"the entries {set(entries) ^ wanted} are written, or are missing")


def literal(value: datetime.date | int | list[int | str] | str) -> str:
    if isinstance(value, list):
        return "[" + ", ".join(map(literal, value)) + "]"
    if isinstance(value, str):
        return '"' + value.replace("\\", "\\\\").replace('"', '\\"') + '"'
    return str(value)


def drawn_entry(chance: random.Random, lines: list[str], races: list[tuple[int, int]]) -> dict[str, Any]:
    """An entry that resembles a race, or anything."""
    locations = (
        [side_of(parts(lines[event])[2]) for event in chance.choice(races)]
        if races and chance.random() < 0.85
        else [side_of(parts(chance.choice(lines))[2]) for _ in range(2)]
    )
    if chance.random() < 0.4:
        locations.reverse()
    entry: dict[str, Any] = {"paths": [path for path, _, _ in locations]}
    if chance.random() < 0.7:
        entry["functions"] = [function if chance.random() < 0.9 else "" for _, _, function in locations]
    if chance.random() < 0.6:
        entry["variables"] = chance.sample(VARIABLES, chance.randint(1, 9))
    if chance.random() < 0.7:
        entry["lines"] = [int(line or 0) + chance.choice([0, 0, 0, 1]) for _, line, _ in locations]
    entry["verdict"] = chance.choice(VERDICTS)
    if chance.random() < 0.3:
        entry["reason"] = chance.choice(["", "seen", "a \t tab"])
    if chance.random() < 0.3:
        entry["expires"] = TODAY + datetime.timedelta(
            days=chance.choice([0, 1, 400] if chance.random() < 0.9 else [-1])
        )
    return entry


def text_of(entries: list[dict[str, Any]]) -> str:
    return "\n".join(
        "[[race]]\n" + "".join(f"{key} = {literal(value)}\n" for key, value in entry.items()) for entry in entries
    )


def spoiled(chance: random.Random, text: str) -> str:
    """The text with a mistake, perhaps."""
    changes: list[Callable[[], str]] = [
        lambda: text.replace('verdict = "', 'verdict = "un', 1),
        lambda: text.replace("paths = [", "paths = [3, ", 1),
        lambda: text.replace("paths = ", "path = ", 1),
        lambda: text.replace("[[race]]", "[race]", 1),
        lambda: "version = 1\n" + text,
        lambda: text + "lines = 3\n",
        lambda: text + 'expires = "soon"\n',
        lambda: text + "expires = 2027-06-02T00:00:00\n",
        lambda: text + "expires = 2027-05-31\n",
        lambda: text + "author = 3\n",
        lambda: text + f"{chance.choice(['[owner]', '[[owner]]', '[path]', '[verdicts]', '[owner.verdict]'])}\n",
        lambda: text[: chance.randint(0, len(text))],
    ]
    return chance.choice(changes)()


def run(program: str, folder: str, *args: str) -> subprocess.CompletedProcess[bytes]:
    return subprocess.run(
        [program, "triage", "t.std", *args], cwd=folder, capture_output=True, timeout=running.PATIENCE
    )


def blocks(output: bytes) -> list[tuple[int, int]]:
    """Each race that is printed: its two events."""
    return [(int(one), int(two)) for one, two in re.findall(rb"^race (\d+) (\d+) ", output, re.MULTILINE)]


def write(folder: str, name: str, text: str) -> None:
    with open(os.path.join(folder, name), "w", encoding="utf-8", newline="") as file:
        file.write(text)


def demand(holds: bool | re.Match[bytes], what: bytes | str) -> None:
    if not holds:
        raise Wrong(what)


def judge_forms(program: str, folder: str, kept: list[tuple[int, int]], races: int, notes: bytes) -> None:
    """In each form the same races are left out and counted, and the same notes are written."""
    arguments = ["--triage", "f.toml", "--today", TODAY.isoformat()]
    made = {form: run(program, folder, form, *arguments) for form in ("--json", "--lines", "--page", "--sarif")}
    demand(all((done.returncode, done.stderr) == (0, notes) for done in made.values()), "another form has other notes")
    objects = [json.loads(line) for line in made["--json"].stdout.splitlines()]
    pairs = [tuple(access["event"] for access in row["accesses"]) for row in objects if row["kind"] == "race"]
    left = [row["count"] for row in objects if row["kind"] == "known"]
    demand((pairs, left) == (kept, [races - len(kept)]), f"the JSON has {pairs} and {left}")
    log = json.loads(made["--sarif"].stdout)["runs"][0]
    results = [result for result in log["results"] if result["ruleId"] == "data-race"]
    demand((len(results), log["properties"]) == (len(kept), {"known": races - len(kept)}), "the log has other races")
    warned = re.findall(rb"\[data-race\]$", made["--lines"].stdout, re.MULTILINE)
    rows = re.findall(rb'<details id="race-(\d+)-(\d+)">', made["--page"].stdout)
    demand(len(warned) == len(kept), f"there are lines for {len(warned)} races, and not {len(kept)}")
    demand([tuple(map(int, row)) for row in rows] == kept, f"the page has {rows}, and not {kept}")


def judge_file(
    program: str, folder: str, lines: list[str], races: list[tuple[int, int]], text: str, reached: Counter[str]
) -> None:
    """One run with a triage file."""
    write(folder, "f.toml", text)
    day = TODAY.isoformat()
    done = run(program, folder, "--triage", "f.toml", "--today", day)
    refusal = refusal_of(text)
    if refusal == "not TOML":
        demand(
            done.returncode == 1
            and bool(re.fullmatch(rb"racebench: triage file line \d+ column \d+: not TOML\n", done.stderr)),
            f"no TOML is taken: {done.stderr!r}",
        )
        reached["refused TOML"] += 1
        return
    if refusal:
        demand(
            done.returncode == 1 and done.stdout == b"" and done.stderr.decode() == refusal + "\n",
            f"{done.stderr.decode()} in place of {refusal}",
        )
        reached[
            "expired"
            if refusal.endswith("expired")
            else "more than entries"
            if "not a" in refusal
            else "refused entry"
        ] += 1
        reached["more behind entries"] += "not a" in refusal and " line 1 " not in refusal
        return
    entries = tomllib.loads(text).get("race", [])
    kept = [
        race
        for race in races
        if not any(entry["verdict"] != "fixed" and is_about(entry, lines, *race) for entry in entries)
    ]
    demand(done.returncode == 0 and blocks(done.stdout) == kept, f"printed {blocks(done.stdout)} in place of {kept}")
    demand(f"known {len(races) - len(kept)}\n" in done.stdout.decode(), "another number of known races")
    notes = ""
    for number, entry in enumerate(entries, 1):
        met = any(is_about(entry, lines, *race) for race in races)
        if entry["verdict"] == "fixed" and met:
            notes += f"racebench: f.toml: entry {number} says fixed, and there is a race\n"
            reached["fixed"] += 1
        if entry["verdict"] != "fixed" and not met:
            notes += f"racebench: f.toml: entry {number} is about no race\n"
            reached["unmet"] += 1
        bare = {key: value for key, value in entry.items() if key != "variables"}
        reached["other variable"] += not met and any(is_about(bare, lines, *race) for race in races)
        reached["by function"] += met and "functions" in entry and "variables" in entry
        reached["by line"] += met and "lines" in entry and "functions" not in entry
    demand(done.stderr.decode() == notes, f"{done.stderr.decode()} in place of {notes}")
    judge_forms(program, folder, kept, len(races), done.stderr)
    with_workers = run(program, folder, "--triage", "f.toml", "--today", day, "--workers", "3")
    demand(
        (with_workers.stdout, with_workers.stderr) == (done.stdout, done.stderr), "three workers print another text"
    )
    reached["left out"] += len(races) - len(kept)
    reached["printed"] += len(kept)


def judge_trace(program: str, folder: str, seed: int, reached: Counter[str]) -> None:
    """One trace, its written file, and some drawn files."""
    chance = random.Random(seed)
    lines = drawn_trace(chance)
    write(folder, "t.std", "\n".join(lines) + "\n")
    plain = run(program, folder)
    demand(plain.returncode == 0, plain.stderr)
    races = blocks(plain.stdout)
    written = run(program, folder, "--init-triage")
    text = written.stdout.decode()
    demand(written.returncode == 0, "no triage file is written")
    judge_written(lines, races, text)
    write(folder, "i.toml", text)
    again = run(program, folder, "--triage", "i.toml")
    plainly = [
        race for race in races if all(not re.match(r"0\d", side_of(parts(lines[event])[2])[1]) for event in race)
    ]
    demand(
        not set(blocks(again.stdout)) & set(plainly),
        f"a written entry does not leave out its race: {blocks(again.stdout)}",
    )
    reached["written"] += len(races)
    for _ in range(4):
        text = text_of([drawn_entry(chance, lines, races) for _ in range(chance.randint(1, 3))])
        judge_file(program, folder, lines, races, text, reached)
        judge_file(program, folder, lines, races, spoiled(chance, text), reached)


def judge_columns(program: str, folder: str, chance: random.Random, reached: Counter[str]) -> None:
    """A text that stops to be TOML after a key and its value is refused at that character."""
    begin = text_of([{"paths": ["u.c", "u.c"], "verdict": "known"}] * chance.randint(0, 3))
    value = "".join(chance.choices("aä€\U0001f600", k=chance.randint(0, 9)))
    write(folder, "f.toml", f'{begin}other = "{value}" ?\n')
    place = f"line {begin.count(chr(10)) + 1} column {len(value) + 12}"
    done = run(program, folder, "--triage", "f.toml")
    wanted = (1, b"", f"racebench: triage file {place}: not TOML\n".encode())
    demand((done.returncode, done.stdout, done.stderr) == wanted, f"{done.stderr!r} in place of {wanted[2]!r}")
    reached["no TOML at a column"] += 1


def judge_clock(program: str, folder: str, reached: Counter[str]) -> None:
    """Without `--today` an entry is in force up to its last day by the system's clock in UTC."""

    def clock() -> datetime.date:
        return datetime.datetime.now(datetime.timezone.utc).date()

    for days in (0, 1, 40, 400, -1, -2, -40, -400):
        while True:
            today = clock()
            entry = {"paths": ["no.c", "no.c"], "verdict": "known", "expires": today + datetime.timedelta(days=days)}
            write(folder, "f.toml", text_of([entry]))
            done = run(program, folder, "--triage", "f.toml")
            if clock() == today:
                break
        place = "racebench: triage file line 4 column 1"
        expected = f"{place}: entry 1 has expired\n" if days < 0 else "racebench: f.toml: entry 1 is about no race\n"
        demand(
            (done.returncode, done.stderr.decode()) == (int(days < 0), expected),
            f"{days} days from {today}: {done.stderr.decode()} in place of {expected}",
        )
        reached["days of the clock"] += 1


def at_clock(program: str, folder: str, clock: int | str, *arguments: str) -> tuple[int, bytes, bytes]:
    """A run at these seconds of the clock of the day, by tools/clock.c."""
    path = os.path.abspath(os.path.join(folder, "clock.so"))
    return running.ended(program, ["triage", *arguments], {"LD_PRELOAD": path, "CLOCK_AT": str(clock)})


def judge_day(program: str, folder: str, day: datetime.date, seconds: int, reached: Counter[str]) -> None:
    """At this many seconds of a day, an entry that expires on it is in force, and one of the day before is not."""
    clock = (day - datetime.date(1970, 1, 1)).days * 86400 + seconds
    for last in (day, day - DAY):
        write(folder, "f.toml", text_of([{"paths": ["no.c", "no.c"], "verdict": "known", "expires": last}]))
        found = at_clock(program, folder, clock, "t.std", "--triage", "f.toml")
        wanted = at_clock(program, folder, clock, "t.std", "--triage", "f.toml", "--today", day.isoformat())
        demand(found == wanted, f"the clock at {clock}, {day}: {found} in place of {wanted}")
        demand(found[0] == int(last < day), f"the clock at {clock}, {day}: status {found[0]} of an entry up to {last}")
    reached["days of other clocks"] += 1


def judge_other_clocks(program: str, folder: str, reached: Counter[str]) -> None:
    """The first or the last second of the first and last days of months; and clocks that have no date."""
    running.library(os.path.join(folder, "clock.so"), os.path.join(TOOLS, "clock.c"))
    for year in YEARS:
        for month in range(1, 13):
            first = datetime.date(year, month, 1)
            for day in [first, first - DAY, *[first + 27 * DAY, first + 28 * DAY] * (month == 2)]:
                if day >= datetime.date(1970, 1, 1):
                    judge_day(program, folder, day, 86399 * (month % 2), reached)
    for clock, arguments in itertools.product(["none", "-1", "-86400"], [["t.std"], ["t.std", "--windows=2"]]):
        found = at_clock(program, folder, clock, *arguments, "--triage", "f.toml")
        wanted = (1, b"", b"racebench: the clock has no date: pass one with `--today`\n")
        demand(found == wanted, f"{arguments} with the clock at {clock}: {found}")
        reached["no day"] += 1


def judged(run: judging.Run) -> str:
    for seed in run.seeds():
        with judging.about(f"seed {seed}"):
            judge_trace(run.program, ".", seed, run.tally)
            judge_columns(run.program, ".", random.Random(seed), run.tally)
    judge_clock(run.program, ".", run.tally)
    judge_other_clocks(run.program, ".", run.tally)
    return ", ".join(f"{what} {run.tally[what]}" for what in REACHED)


if __name__ == "__main__":
    sys.exit(judging.main("triage file", judged, REACHED, {"TRACES": TRACES, "SEED": 1}))
