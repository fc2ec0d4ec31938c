#!/usr/bin/env python3
"""Compares the windows that `cut --into` writes, and the report of `triage --windows`, of traces drawn by chance with
tests/plain.py.

Takes the program's path, how many traces to draw, and the first seed. Each window must have the events that it says,
after a prologue that takes what is held, in any order of its locks and threads. `triage --windows` must print
what `merge` makes of `triage --json` of each window, with the numbers that the events have in the trace, with and
without workers, of a file and of standard input. Each race of it is shown by a correct reordering of the whole trace
that begins as recorded up to its window; and each pair with two accesses in one window that such a reordering shows,
before the window's end, is there as a race or undecided. A window of more threads than a trace may have is cut
shorter, which is counted. A trace with a line that is refused, an event that breaks a rule, or an event that needs a
thread too many beside those that hold a lock, is judged up to there. The windows of a recording with marks have them,
and the report says what is missing. Says what is wrong, if something is, and ends with status 1 then, also if something
that must be seen was never met.
"""

import json
import os
import random
import re
import resource
import shutil
import signal
import subprocess
import sys
from typing import Any

if __name__ == "__main__":
    sys.dont_write_bytecode = True
import by_chance
import judging
import missing
import plain
import running
from judge_cut import shown_from
from judge_triage import Located
from judging import Wrong

TRACES = 60
REACHED = [
    "held",
    "several holds",
    "one window",
    "many windows",
    "race",
    "apart",
    "standard input",
    "workers",
    "refused line",
    "broken rule",
    "full folder",
    "no events",
    "shown",
    "one at a time",
    "skipped line",
    "taken name",
    "no last line feed",
    "carriage returns",
    "failed",
    "progress",
    "many threads",
    "lines of code",
    "workers before a fault",
    "many windows before a fault",
    "file too long",
    "mark",
    "shorter",
    "threads that come and go",
    "whole",
    "not whole",
]
# The arguments for a log with the code in a folder.
WITH_CODE = ["--sarif", "--source", "code"]
# The lock of a window's prologue: underscores make its name one that the recording lacks.
LOCK = re.compile(rb"\(window_*\)")
# What is printed of no window.
NO_PARTS = b"parts 0\nraces 0\nundecided 0\napart 0\n"
# Lines that are no events.
SKIPPED = ["\n", " \t\n", "\r\n", "T1|begin(block)|\n", " T2 | end(block) | 7\n"]


def blocks_of(lines: list[str], name: str) -> list[tuple[str, ...]]:
    """The parts of a prologue with this name in any order: what takes a lock, and what waits for that."""
    made = []
    at = 0
    while at < len(lines):
        size = 7 if at + 3 < len(lines) and f"|acq({name})" not in lines[at + 3] else 3
        made.append(tuple(lines[at : at + size]))
        at += size
    return sorted(made)


def with_taken_name(chance: random.Random, trace: plain.Trace) -> plain.Trace:
    """The trace, whose variables or whose locks all have the name that a prologue takes if it may."""
    operations = chance.choice([("r", "w"), ("acq", "rel")])
    events: list[plain.Event] = []
    for event in trace.events:
        event = event._replace(name="window") if event.word in operations else event
        if plain.breach(events, event) is None:
            events.append(event)
    return plain.Trace(events)


def crossed_trace(chance: random.Random, most: int) -> plain.Trace:
    """A trace of writes around sections of one lock: many of its pairs are open, since only the order of the sections
    keeps them apart."""
    events: list[plain.Event] = []
    while len(events) < most:
        one, other = chance.sample(["A", "B", "C"], 2)
        variable = chance.choice(["x", "y"])
        events += [plain.Event(one, "w", variable), plain.Event(one, "acq", "l"), plain.Event(one, "rel", "l")]
        events += [plain.Event(other, "acq", "l"), plain.Event(other, "rel", "l"), plain.Event(other, "w", variable)]
    return plain.Trace(events)


def coming_trace(chance: random.Random, count: int) -> plain.Trace:
    """A trace of this many threads that come and go: each may be forked, does a little, and may be joined. Some hold a
    lock for a while, and some for ever."""
    events: list[plain.Event] = []
    here: list[str] = []
    holders: dict[str, list[str]] = {}

    def work(thread: str) -> None:
        word, name = chance.choice(
            [("r", "x"), ("w", "x"), ("w", "y"), ("acq", "l"), ("acq", "m"), ("rel", "l"), ("rel", "m")]
        )
        depth = holders.setdefault(name, [])
        if word == "rel" and (not depth or depth[-1] != thread) or word == "acq" and depth and depth[-1] != thread:
            return
        events.append(plain.Event(thread, word, name))
        if word in ("acq", "rel"):
            depth.append(thread) if word == "acq" else depth.pop()

    def leave(thread: str) -> None:
        for lock, depth in holders.items():
            while depth and depth[-1] == thread and chance.random() < 0.99:
                events.append(plain.Event(thread, "rel", lock))
                depth.pop()
        if chance.random() < 0.6:
            events.append(plain.Event("main", "join", thread))

    for number in range(count):
        here.append(f"T{number}")
        if chance.random() < 0.8:
            events.append(plain.Event("main", "fork", here[-1]))
        for _ in range(chance.randint(1, 3)):
            work(chance.choice([*here, "main"]))
        while len(here) > chance.randint(1, 12):
            leave(here.pop(chance.randrange(len(here))))
    return plain.Trace(events)


def with_skipped(chance: random.Random, lines: list[str]) -> list[str]:
    """The lines with some before, between and after them that are no events."""
    made = []
    for line in [*lines, ""]:
        while chance.random() < 0.2:
            made.append(chance.choice(SKIPPED))
        made.append(line)
    return made[:-1]


def wanted_blocks(events: tuple[plain.Event, ...], start: int, end: int, name: str) -> list[tuple[str, ...]]:
    return blocks_of(
        [f"{thread}|{word}({what})|" for thread, word, what in plain.prologue(events, start, end, name)], name
    )


def place_in(line: str) -> tuple[int, int, int]:
    """Where a window lies, by its first line."""
    numbers = line.removeprefix("window|begin(").removesuffix(")|").split(" ")
    if numbers[::2] != ["FROM", "TO", "PROLOGUE"]:
        raise Wrong(f"the first line of a window is {line}")
    start, end, prologue = map(int, numbers[1::2])
    return start, end, prologue


def places_in(folder: str) -> dict[int, tuple[int, int, int]]:
    """Where each window in a folder lies, by its first event, in their order."""
    places = {}
    for name in sorted(os.listdir(folder)):
        with open(f"{folder}/{name}", encoding="utf-8") as text:
            place = place_in(text.readline().rstrip("\n"))
        places[place[0]] = place
    return places


def moved(part: str, place: tuple[int, int, int]) -> str:
    """A part with the numbers that events have in the trace, and without pairs of events of the prologue."""
    start, _, prologue = place
    head, *rows = [json.loads(line) for line in part.splitlines()]
    kept = [row for row in rows if row["accesses"][0]["event"] >= prologue]
    moved_rows = [head | {"apart": head["apart"] - len(rows) + len(kept)}, *kept]
    for row in kept:
        for access in row["accesses"]:
            access["event"] += start - prologue
    return "".join(
        json.dumps(row, sort_keys=True, separators=(",", ":"), ensure_ascii=False) + "\n" for row in moved_rows
    )


class Judge:
    def __init__(self, run: judging.Run) -> None:
        self.program, self.seen = run.program, run.tally

    def windows(self, located: Located, most: int, folder: str) -> dict[int, tuple[int, int, int]]:
        """The windows that are written, as texts by their first events; each must be that of the trace."""
        events, wanted = located.trace.events, plain.narrow_windows(located.trace.events, most)
        shutil.rmtree(folder, ignore_errors=True)
        if most % 2:
            os.mkdir(folder)
        printed = running.printed(self.program, ["cut", "trace", "--windows", str(most), "--into", folder]).decode()
        shorter = sum(end - start < most and end < len(events) for start, end in wanted)
        self.seen["shorter"] += shorter > 0
        counts = (
            f"windows {len(wanted)}\nshorter {shorter}\nevents {len(events)}\nthreads {len(located.trace.threads())}\n"
        )
        if printed != counts:
            raise Wrong(f"cut --into prints {printed!r} and not {counts!r}")
        if sorted(os.listdir(folder)) != [f"window-{start:09}.std" for start, _ in wanted]:
            raise Wrong(f"the folder has {sorted(os.listdir(folder))}, for windows {wanted}")
        return {start: self.window(located, start, end, f"{folder}/window-{start:09}.std") for start, end in wanted}

    def window(self, located: Located, start: int, end: int, path: str) -> tuple[int, int, int]:
        """The place of the window in this file, which must be right."""
        with open(path, encoding="utf-8") as text:
            head, *lines = text.read().splitlines()
        place = place_in(head)
        own = [located.line(event) for event in range(start, end)]
        front = lines[: len(lines) - len(own)]
        if place != (start, end, len(front)) or lines[len(front) :] != own:
            raise Wrong(f"the window at {start} is\n{head}\n" + "\n".join(lines))
        name = front[0].split("(")[1].split(")")[0] if front else "window"
        if front and (
            name.rstrip("_") != "window" or name in {event.name for event in located.trace.events[start:end]}
        ):
            raise Wrong(f"the window at {start} has a prologue with the name {name}")
        self.seen["taken name"] += name != "window"
        if blocks_of(front, name) != wanted_blocks(located.trace.events, start, end, name):
            raise Wrong(f"the prologue at {start} is\n" + "\n".join(front))
        self.seen["held"] += bool(front)
        self.seen["several holds"] += len(front) > 20
        return place

    def report(
        self, places: dict[int, tuple[int, int, int]], most: int, flags: list[str], tries: list[str]
    ) -> list[bytes]:
        """What `merge` makes of the windows that were written: as JSON, as a page, as a log and as text."""
        forms = [["--json"], ["--page", *flags], ["--sarif", *flags], [*WITH_CODE, *flags], flags]
        return self.merged(places, most, [*flags, *tries], forms, "trace", "whole")

    def merged(
        self,
        places: dict[int, tuple[int, int, int]],
        most: int,
        flags: list[str],
        forms: list[list[str]],
        trace: str,
        folder: str,
    ) -> list[bytes]:
        """What `merge` makes, in each form, of the windows of a trace that are in a folder."""
        names = [f"{trace} --windows {most} --window {start:09}" for start in places]
        for name, (start, place) in zip(names, places.items()):
            part = running.printed(self.program, ["triage", f"{folder}/window-{start:09}.std", "--json", *flags])
            running.write(name, moved(part.decode(), place))
        made = [running.printed(self.program, ["merge", *names, *form]) for form in forms]
        for name in names:
            os.remove(name)
        return made

    def same(self, arguments: list[str], wanted: bytes, stdin: None = None) -> None:
        done = subprocess.run(
            [self.program, *arguments], capture_output=True, check=False, stdin=stdin, timeout=running.PATIENCE
        )
        if (done.returncode, done.stderr) != (0, b"") or done.stdout != wanted:
            raise Wrong(
                f"{arguments} ends with {done.returncode} and prints\n{done.stdout.decode()}{done.stderr.decode()}and "
                f"not\n{wanted.decode()}"
            )

    def judge_report(
        self, chance: random.Random, located: Located, places: dict[int, tuple[int, int, int]], most: int
    ) -> tuple[list[dict[str, Any]], bool]:
        """The report of `triage --windows`, which is returned as objects."""
        none: list[str] = []
        flags = chance.choice([none, ["--apart"]])
        tries = chance.choice([none, none, ["--tries", "0"]])
        json_text, page, log, coded, text = self.report(places, most, flags, tries)
        events, threads = len(located.trace.events), len(located.trace.threads())
        head = f"windows {len(places)}\nshorter 0\nevents {events}\nthreads {threads}\n".encode()
        arguments = ["triage", "trace", f"--windows={most}", *flags, *tries]
        self.same([*arguments, "--json"], json_text)
        self.same([*arguments, "--page"], page)
        self.same([*arguments, "--sarif"], log)
        self.same([*arguments, *WITH_CODE], coded)
        self.seen["lines of code"] += coded != log
        self.same(arguments, head + text)
        workers = chance.choice([1, 2, 5])
        self.same([*arguments, "--workers", str(workers)], head + text)
        self.seen["workers"] += 1
        self.judge_status(chance, arguments, head + text)
        with open("trace", "rb") as stdin:
            of_input = json_text.replace(b'"name":"trace ', b'"name":"- ')
            again = [self.program, "triage", "-", *arguments[2:], "--json"]
            found = subprocess.run(again, capture_output=True, check=False, stdin=stdin, timeout=running.PATIENCE)
            if found.stdout.replace(b'"part":"trace ', b'"part":"- ') != of_input.replace(
                b'"part":"trace ', b'"part":"- '
            ):
                raise Wrong(f"of standard input it prints\n{found.stdout.decode()}and not\n{of_input.decode()}")
        self.seen["standard input"] += 1
        self.seen["one window" if len(places) == 1 else "many windows"] += 1
        return [json.loads(line) for line in json_text.splitlines()], bool(flags)

    def judge_status(self, chance: random.Random, arguments: list[str], wanted: bytes) -> None:
        """`--fail` gives the status and `--progress` lines on standard error, beside the same output."""
        races = not wanted.split(b"\nraces ")[1].startswith(b"0\n")
        if running.ended(self.program, [*arguments, "--fail"]) != (3 if races else 0, wanted, b""):
            raise Wrong(f"{arguments} --fail ends otherwise, with {'a race' if races else 'no race'}")
        self.seen["failed"] += races
        if chance.random() < 0.3:
            self.judge_progress(arguments, wanted)

    def judge_progress(self, arguments: list[str], wanted: bytes) -> None:
        """`--progress` counts each window, and how many events come before the next one; at the end all."""
        status, out, err = running.ended(self.program, [*arguments, "--progress"])
        found = [re.fullmatch(rb"windows (\d+) events (\d+)", line) for line in err.splitlines()]
        matches = [line for line in found if line]
        if (status, out) != (0, wanted) or len(matches) < len(found):
            raise Wrong(f"{arguments} --progress ends with {status}, {err!r}, or prints something else")
        windows, events = ([int(line[at]) for line in matches] for at in (1, 2))
        counts = {line.split()[0]: int(line.split()[1]) for line in wanted.splitlines()[:4]}
        if windows != list(range(1, counts[b"windows"] + 1)) or events[-1:] != [counts[b"events"]] * bool(windows):
            raise Wrong(f"{arguments} --progress tells of {err!r} beside\n{wanted.decode()}")
        if any(later <= one for one, later in zip(events, events[1:])):
            raise Wrong(f"{arguments} --progress tells of no more events behind a window: {err!r}")
        self.seen["progress"] += bool(err)

    def rows(self, objects: list[dict[str, Any]]) -> dict[int, list[dict[str, Any]]]:
        """The rows of each part, by the first event of its window."""
        parts = {int(row["name"].rsplit(" ", 1)[1]): row["text"] for row in objects if row["kind"] == "part"}
        return {start: [json.loads(line) for line in text.splitlines()[1:]] for start, text in parts.items()}

    def judge_races(
        self, located: Located, places: dict[int, tuple[int, int, int]], objects: list[dict[str, Any]]
    ) -> None:
        """Each race is one of the whole trace; what a reordering shows from a window on is a race or undecided."""
        for start, rows in self.rows(objects).items():
            shown = shown_from(located.trace, start, places[start][1])
            if shown is None:
                continue
            kinds = {}
            for row in rows:
                pair = tuple(sorted(access["event"] for access in row["accesses"]))
                kinds[tuple(sorted(located.places[event] for event in pair))] = row["kind"]
                self.seen[row["kind"]] += 1
                if row["kind"] == "race" and pair not in shown:
                    raise Wrong(f"{pair} is a race of the window at {start}, and no reordering shows it")
                if row["kind"] == "apart" and pair in shown:
                    raise Wrong(f"{pair} is apart in the window at {start}, and a reordering shows it")
            for pair in shown & set(located.trace.conflicting()):
                if min(pair) >= start and kinds.get(tuple(sorted(located.places[event] for event in pair))) not in (
                    "race",
                    "undecided",
                ):
                    raise Wrong(f"{pair} is shown from {start} on, and the window has no race there")
                self.seen["shown"] += 1

    def judge_one(self, places: dict[int, tuple[int, int, int]], most: int, chance: random.Random) -> None:
        """A window alone is the one that was written, or has the same events after a prologue in another order."""
        start = chance.choice(list(places))
        found = running.printed(
            self.program, ["cut", "trace", "--windows", str(most), "--window", str(start)]
        ).decode()
        with open(f"whole/window-{start:09}.std", encoding="utf-8") as text:
            wanted = text.read()
        size = places[start][2] + 1
        if [found.splitlines()[0], *found.splitlines()[size:]] != [
            wanted.splitlines()[0],
            *wanted.splitlines()[size:],
        ]:
            raise Wrong(f"cut --window {start} prints\n{found}and not\n{wanted}")
        self.seen["one at a time"] += 1

    def refused(self, arguments: list[str], fault: str) -> bytes:
        """What is printed before this fault."""
        status, out, err = running.ended(self.program, arguments)
        if (status, err) != (1, f"racebench: {fault}\n".encode()):
            raise Wrong(f"{arguments} ends with {status}, {err.decode()!r} and not with {fault!r}")
        return out

    def judge_faults(self, chance: random.Random, located: Located, most: int) -> None:
        """A trace with a refused line, or an event that breaks a rule, is judged up to there."""
        lines = with_skipped(chance, located.text().splitlines(keepends=True))
        at = chance.randint(0, len(lines))
        events = len([line for line in lines[:at] if line not in SKIPPED])
        wrong = [
            ("T9|w(x)\n|\n", f"trace line {at + 2}: 2 bad parentheses", "refused line"),
            ("T9|rel(other)|\n", f"trace event {events}: 11 release not held", "broken rule"),
        ]
        line, fault, kind = chance.choice(wrong)
        running.write("wrong", "".join(lines[:at] + [line] + lines[at:]))
        before = events + (kind == "refused line")
        running.write("trace", "".join(lines[:at] + ([line.splitlines()[0] + "\n"] if kind == "refused line" else [])))
        shutil.rmtree("some", ignore_errors=True)
        self.refused(["cut", "wrong", "--windows", str(most), "--into", "some"], fault)
        places = places_in("some")
        if max((place[1] for place in places.values()), default=0) != before:
            raise Wrong(f"windows before event {before} lie at {places}")
        out = self.refused(["triage", "wrong", f"--windows={most}"], fault)
        wanted = self.merged(places, most, [], [[]], "wrong", "some")[0] if places else NO_PARTS
        if out.split(b"\n", 4)[4:] != [wanted]:
            raise Wrong(f"before the fault it prints\n{out.decode()}and not\n{wanted.decode()}")
        races = [line for line in out.splitlines() if line.startswith(b"race ")]
        for more in (["--workers", str(chance.choice([1, 2, 5]))], ["--fail"]):
            if self.refused(["triage", "wrong", f"--windows={most}", *more], fault) != out:
                raise Wrong(f"{more} print another text before a fault than\n{out.decode()}")
        running.write("told", self.refused(["triage", "wrong", f"--windows={most}", "--json"], fault).decode())
        if out and running.printed(self.program, ["merge", "told"]) != out.split(b"\n", 4)[4]:
            raise Wrong(f"the JSON before a fault is not that of\n{out.decode()}")
        self.seen["workers before a fault"] += races != []
        self.seen["many windows before a fault"] += races != [] and len(places) > 1
        self.seen[kind] += 1

    def judge_threads(self, chance: random.Random) -> None:
        """An event that needs a thread too many, beside those that hold a lock, is refused with its line; windows
        before it are written."""
        most, skipped = chance.randint(2, 40), chance.randint(0, 5)
        before = [f"T{number}|acq(l{number})|{number}\n" for number in range(plain.THREAD_LIMIT)]
        running.write("wrong", "\n" * skipped + "".join(before) + "T0|w(x)|\nmain|w(x)|\n" + "|\n")
        shutil.rmtree("some", ignore_errors=True)
        fault = f"trace line {skipped + len(before) + 2}: 8 too many names"
        self.refused(["cut", "wrong", "--windows", str(most), "--into", "some"], fault)
        ends = sorted(place[1] for place in places_in("some").values())
        if ends[-1:] != [len(before) + 1]:
            raise Wrong(f"windows before a thread too many end at {ends}")
        self.seen["many threads"] += 1

    def judge_coming(self, chance: random.Random) -> None:
        """A trace of more threads than one may have at once is cut into windows of as many as fit."""
        located = Located(coming_trace(chance, chance.randint(300, 2000)), chance)
        running.write("trace", located.text())
        most = chance.choice([400, 1000, 3000])
        places = self.windows(located, most, "whole")
        self.judge_one(places, most, chance)
        self.seen["threads that come and go"] += 1

    def judge_folder(self, most: int) -> None:
        """A folder with a file is refused, and stays as it was."""
        before = {name: os.stat(f"whole/{name}").st_mtime_ns for name in os.listdir("whole")}
        self.refused(["cut", "trace", "--windows", str(most), "--into", "whole"], "the folder has files: whole")
        if before != {name: os.stat(f"whole/{name}").st_mtime_ns for name in os.listdir("whole")}:
            raise Wrong("a folder with files was changed")
        os.makedirs("odd", exist_ok=True)
        with open(b"odd/\xff", "wb"):
            pass
        self.refused(["cut", "trace", "--windows", str(most), "--into", "odd"], "the folder has files: odd")
        self.seen["full folder"] += 1

    def judge_limit(self) -> None:
        """If the file of a window is not written whole, no part of it is left."""

        def limit() -> None:
            signal.signal(signal.SIGXFSZ, signal.SIG_IGN)
            resource.setrlimit(resource.RLIMIT_FSIZE, (60, 60))

        running.write("trace", "A|w(x)|a long place\n" * 3)
        command = [self.program, "cut", "trace", "--windows", "2", "--into", "limited"]
        done = subprocess.run(command, capture_output=True, preexec_fn=limit, timeout=running.PATIENCE, check=False)
        found = done.returncode, done.stdout, done.stderr, os.listdir("limited")
        if found != (1, b"", b"racebench: write failed\n", []):
            raise Wrong(f"a window whose file may not be so long ends with {found}")
        self.seen["file too long"] += 1

    def judge_mark(self) -> None:
        """A byte order mark is part of the first thread's name, and no note is written."""
        text = "\ufeffA|w(x)|\nB|w(x)|\n"
        running.write("trace", text)
        found = running.ended(self.program, ["cut", "trace", "--into", "marked"], {"RACEBENCH_NOTES": "1"})
        with open("marked/window-000000000.std", encoding="utf-8") as window:
            read_window = window.read()
        if (found, read_window) != (
            (0, b"windows 1\nshorter 0\nevents 2\nthreads 2\n", b""),
            f"window|begin(FROM 0 TO 2 PROLOGUE 0)|\n{text}",
        ):
            raise Wrong(f"cut --into of a marked trace ends with {found}, and the window is\n{read_window}")
        self.seen["mark"] += 1

    def write(self, chance: random.Random, text: str) -> None:
        """Writes the trace, sometimes with other ends of lines."""
        if chance.random() < 0.2:
            text = text.removesuffix("\n")
            self.seen["no last line feed"] += 1
        if chance.random() < 0.2:
            text = text.replace("\n", "\r\n")
            self.seen["carriage returns"] += 1
        with open("trace", "w", encoding="ascii", newline="") as out:
            out.write(text)

    def judge(self, seed: int) -> bool:
        chance = random.Random(seed)
        length = chance.choice([8, 14, 30, 60])
        draw = crossed_trace if seed % 5 == 0 else by_chance.locked_trace if seed % 2 else by_chance.trace
        drawn = draw(chance, length)
        drawn = with_taken_name(chance, drawn) if chance.random() < 0.2 else drawn
        located = Located(drawn, chance)
        lines = with_skipped(chance, located.text().splitlines(keepends=True))
        self.write(chance, "".join(lines))
        self.seen["skipped line"] += any(line in SKIPPED for line in lines)
        events = len(drawn.events)
        most = chance.choice([1, 2, 3, max(1, events // 3), max(1, events // 2), events + 1])
        places = self.windows(located, most, "whole")
        objects, has_apart = self.judge_report(chance, located, places, most)
        self.judge_races(located, places, objects)
        self.judge_one(places, most, chance)
        self.judge_folder(most)
        self.judge_marks(chance, most)
        self.judge_faults(chance, located, most)
        return has_apart

    def judge_marks(self, chance: random.Random, most: int) -> None:
        """Judges the windows of a recording with marks, whole or not, by those of the trace without marks."""
        with open("trace", encoding="ascii", newline="") as trace:
            text = trace.read()
        form = chance.choice(["", "--page", "--sarif"])
        arguments = ["triage", "-" if chance.random() < 0.5 else "trace", f"--windows={most}", *[form] * bool(form)]
        plain = self.fed(arguments, text)[1]
        end, absent = chance.choice(missing.ENDS)
        marked = missing.BEGIN + text + "\n" * (not text.endswith("\n")) + end
        running.write("trace", marked)
        status, out, _ = self.fed([*arguments, "--fail"], marked)
        if missing.sorted_log(form, absent, out) != missing.missing_line(form, absent, plain):
            raise Wrong(f"{arguments} of a recording with the end {end!r} prints {out!r}")
        if status not in (3, 4 if absent else 0):
            raise Wrong(f"{arguments} --fail of a recording with the end {end!r} ends with {status}")
        self.judge_marked_parts(arguments, absent, marked)
        self.judge_marked_windows(chance, most, end, absent)
        running.write("trace", text)
        self.seen["not whole" if absent else "whole"] += 1

    def fed(self, arguments: list[str], text: str) -> tuple[int, bytes, bytes]:
        """What the program answers if it is fed with this text."""
        done = subprocess.run(
            [self.program, *arguments], input=text.encode(), capture_output=True, timeout=running.PATIENCE, check=False
        )
        return done.returncode, done.stdout, done.stderr

    def judge_marked_parts(self, arguments: list[str], absent: str, marked: str) -> None:
        """Each part of the report says what is missing, and so the merged report does."""
        out = self.fed([*arguments[:3], "--json"], marked)[1]
        head, *objects = map(json.loads, out.splitlines())
        parts = [json.loads(line["text"].splitlines()[0]) for line in objects if line["kind"] == "part"]
        if {line.get("absent", "") for line in [head, *parts]} != {absent}:
            raise Wrong(f"{arguments} --json says of what is missing, {absent!r}: {out!r}")

    def judge_marked_windows(self, chance: random.Random, most: int, end: str, absent: str) -> None:
        """Each window of the recording has its marks, printed or in a file."""
        last = end.rstrip("\n") + "\n" if not absent or absent.startswith("left") else ""
        shutil.rmtree("marks", ignore_errors=True)
        running.printed(self.program, ["cut", "trace", "--windows", str(most), "--into", "marks"])
        for name in os.listdir("marks"):
            with open(f"whole/{name}", encoding="ascii") as window, open(f"marks/{name}", encoding="ascii") as marked:
                found, wanted = marked.read(), missing.BEGIN + window.read() + last
            if found != wanted:
                raise Wrong(f"{name} of a recording is {found!r}, and not {wanted!r}")
        name = chance.choice(os.listdir("marks"))
        number = str(int(name.removeprefix("window-").removesuffix(".std")))
        out = running.printed(self.program, ["cut", "trace", "--windows", str(most), "--window", number])
        with open(f"marks/{name}", "rb") as marked:
            # Either may have chosen another name for the lock of the prologue.
            if [LOCK.sub(b"(window)", text) for text in (out, marked.read())].count(LOCK.sub(b"(window)", out)) != 2:
                raise Wrong(f"cut of a recording at {number} prints {out!r}")

    def judge_empty(self, text: str) -> None:
        """A trace without events has no window, and nothing of it is judged."""
        running.write("trace", text)
        shutil.rmtree("none", ignore_errors=True)
        self.same(["cut", "trace", "--into", "none"], b"windows 0\nshorter 0\nevents 0\nthreads 0\n")
        if os.listdir("none"):
            raise Wrong("a trace without events has a window")
        self.refused(["cut", "trace", "--window", "0"], "no such event")
        head = b"windows 0\nshorter 0\nevents 0\nthreads 0\n"
        self.same(["triage", "trace", "--windows"], head + NO_PARTS)
        status, out, err = running.ended(self.program, ["triage", "trace", "--windows", "--fail"])
        if status != 4 or b"no events" not in err:
            raise Wrong(f"with --fail a trace without events ends with {status}, {err!r}, and prints {out!r}")
        self.seen["no events"] += 1


def write_code() -> None:
    """Writes a folder with the code of which places of drawn traces name lines."""
    os.mkdir("code")
    for number in range(6):
        running.write(f"code/p{number}.c", "".join(f"  line {line} of {number};\n" for line in range(1, 7)))


def judged(run: judging.Run) -> str:
    judge = Judge(run)
    write_code()
    for seed in run.seeds():
        with judging.about(f"seed {seed}", "trace"):
            judge.judge(seed)
    for text in ["", "\n", "".join(SKIPPED)] if run.numbers[0] else []:
        judge.judge_empty(text)
    if run.numbers[0]:
        judge.judge_threads(random.Random(run.numbers[1]))
        judge.judge_limit()
        judge.judge_mark()
        judge.judge_coming(random.Random(run.numbers[1]))
    return f"{run.numbers[0]} traces: " + ", ".join(f"{what} {count}" for what, count in sorted(run.tally.items()))


if __name__ == "__main__":
    sys.exit(judging.main("windows", judged, REACHED, {"TRACES": TRACES, "SEED": 0}))
