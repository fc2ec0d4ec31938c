#!/usr/bin/env python3
"""Judges the questions of a session, lines that begin with `?`, on traces and scripts drawn by chance: each answer is
compared with what plain.py, a plain program of the definitions, says of the log at that moment. A question makes no
entry; a faulty one is named with its line.

Takes the program's path, and how many sessions are drawn, by default 60. Says what is wrong, if something
is, and ends with status 1.
"""

import os
import random
import subprocess
import sys
from collections import Counter

if __name__ == "__main__":
    sys.dont_write_bytecode = True
import by_chance
import judging
import plain
import running
from judging import Wrong

SESSIONS = 60
EVENTS = 14
CALLS = 30
# Lines that ask nothing.
FAULTY = [
    "?",
    "? what A",
    "? next",
    "? next A B",
    "? next A/B",
    "? rows A",
    "? entry",
    "? entry x",
    "? part A 0",
    "? run A",
    "? run A -1",
    "? witness 0",
    "?  ",
]
# What must be reached.
REACHED = [
    "next",
    "23",
    "24",
    "25",
    "26",
    "free",
    "run",
    "stopped",
    "part",
    "rows",
    "live",
    "undone",
    "42",
    "57",
    "21",
    "22",
    "faulty",
    "race",
    "98",
    "99",
]


class Asked:
    """The questions of a log, and what they are answered."""

    def __init__(self, log: plain.Log, chance: random.Random, tally: Counter[str]) -> None:
        self.log = log
        self.trace = log.trace
        self.chance = chance
        self.tally = tally

    def cause(self, events: plain.Listed, event: int) -> str:
        """The item of an event: its number, and why it may not come next."""
        answer = self.trace.cause(events, event)
        if answer is None:
            self.tally["free"] += 1
            return str(event)
        fields = answer.split(" ")
        self.tally[fields[0]] += 1
        more = (
            [fields[4], fields[6]]
            if fields[0] == "24"
            else [str(self.trace.threads().index(fields[-1]))]
            if fields[0] == "25"
            else []
        )
        return ":".join([str(event), fields[0], *more])

    def next_events(self, events: plain.Listed) -> list[int]:
        """The first event of each thread that is not among these."""
        firsts = []
        for thread in self.trace.threads():
            left = [event for event in self.trace.events_of(thread) if event not in events]
            firsts += left[:1]
        return firsts

    def events_at(self, name: str) -> plain.Listed:
        return self.log.rows[name].events

    def next(self, name: str) -> str:
        events = self.events_at(name)
        self.tally["next"] += 1
        return " ".join(
            [
                "next",
                str(len(self.log.entries)),
                str(len(events)),
                *(self.cause(events, event) for event in self.next_events(events)),
            ]
        )

    def run(self, name: str, event: int) -> str:
        events = self.events_at(name)
        if not self.trace.is_event(event):
            self.tally["21"] += 1
            return "refused 46 21 no such event"
        if event in events:
            self.tally["22"] += 1
            return "refused 46 22 not next"
        self.tally["run"] += 1
        left = [
            other for other in self.trace.events_of(self.trace.thread(event)) if other not in events and other <= event
        ]
        for count, other in enumerate(left):
            if self.trace.cause(events, other) is not None:
                self.tally["stopped"] += 1
                return f"run {len(self.log.entries)} {count} {self.cause(events, other)}"
            events = events + (other,)
        return f"run {len(self.log.entries)} {len(left)}"

    def part(self, name: str, start: int, count: int) -> str:
        events = self.events_at(name)
        self.tally["part"] += 1
        return " ".join(
            ["part", *map(str, (len(self.log.entries), len(events), start, *events[start : start + count]))]
        )

    def rows(self) -> str:
        self.tally["rows"] += 1
        listed = [(name, self.log.rows[name]) for name in self.log.names()]
        items = [
            f"{name}:{len(row.events)}:{row.birth[0]}:{self.log.entries[row.birth[0]].client}" for name, row in listed
        ]
        return " ".join(["rows", str(len(self.log.entries)), *items])

    def entry(self, number: int) -> str:
        entries = self.log.entries
        if number >= len(entries):
            self.tally["57"] += 1
            return "refused 57 no such entry"
        undo = [at for at, entry in enumerate(entries) if entry.kind == "undid" and entry.what == number]
        self.tally["undone" if undo else "live"] += 1
        return f"entry {len(entries)} {number} {f'undone {undo[0]}' if undo else 'live'} {self.log.line(number)}"

    def drawn(self, names: list[str]) -> tuple[str, str]:
        """A question drawn by chance, and its answer; None where only its form is judged."""
        word = self.chance.choice(["next", "run", "part", "rows", "entry", "entry", "next"])
        if word == "rows":
            return "? rows", self.rows()
        if word == "entry":
            number = self.chance.randint(0, len(self.log.entries))
            return f"? entry {number}", self.entry(number)
        name = self.chance.choice(names)
        about = {
            "next": (),
            "run": (self.chance.randint(0, len(self.trace.events)),),
            "part": (self.chance.randint(0, 6), self.chance.randint(0, 6)),
        }[word]
        line = " ".join(["?", word, name, *map(str, about)])
        if name not in self.log.rows:
            self.tally["42"] += 1
            return line, "refused 42 no such schedule"
        return line, getattr(self, word)(name, *about)


def judge_witness(trace: plain.Trace, first: int, second: int, answer: str, tally: Counter[str]) -> bool:
    """The answer to `? witness`: a schedule that shows the pair, or why no schedule does."""
    if not (trace.is_event(first) and trace.is_event(second) and trace.conflict(first, second)):
        wanted = "refused 98 no such pair"
        tally["98"] += answer == wanted
        return answer == wanted
    kind = trace.kind(*sorted((first, second)))
    if answer.startswith("refused 99 not shown: "):
        tally["99"] += 1
        return answer == f"refused 99 not shown: {kind}" and kind != "candidate"
    word, how, *events = answer.split(" ")
    listed = tuple(map(int, events))
    tally["race"] += 1
    right = trace.is_reordering(listed) and trace.shows(listed, first, second)
    return (
        word == "witness"
        and how in ("candidate", "beyond", "turned")
        and right
        and (how == "candidate") == (kind == "candidate")
    )


def session(program: str, lines: list[str]) -> list[str]:
    done = subprocess.run(
        [program, "session", "trace", "log"],
        input="".join(line + "\n" for line in lines).encode("ascii"),
        capture_output=True,
        timeout=running.PATIENCE,
        check=False,
    )
    if done.returncode != 0 or done.stderr:
        raise Wrong(f"status {done.returncode}: {done.stderr[:300]!r}")
    return done.stdout.decode("ascii").split("\n")[:-1]


def judge_session(program: str, seed: int, tally: Counter[str]) -> None:
    chance = random.Random(seed)
    trace = by_chance.trace(chance, EVENTS)
    calls, log = by_chance.script(chance, trace, CALLS)
    running.write("trace", trace.text())
    if os.path.exists("log"):
        os.remove("log")
    lines: list[str] = []
    wanted: list[str | None] = []
    pairs: dict[int, tuple[int, int]] = {}
    for client, call, answered, before in [*calls, (0, (), "", log)]:
        for _ in range(2):
            question, answer = Asked(before, chance, tally).drawn(by_chance.SCHEDULES[:5])
            lines.append(question)
            wanted.append(answer)
        if chance.random() < 0.1:
            lines.append(chance.choice(FAULTY))
            wanted.append(f"line {len(lines)}: 87 bad question")
            tally["faulty"] += 1
        if call:
            lines.append(f"{client} {plain.call_text(call)}")
            wanted.append(answered)
    for _ in range(6):
        first, second = (chance.randint(0, len(trace.events)) for _ in range(2))
        pairs[len(wanted)] = (first, second)
        lines.append(f"? witness {first} {second}")
        wanted.append(None)
    answers = session(program, lines)
    if len(answers) != len(wanted):
        raise Wrong(f"{len(answers)} answers to {len(wanted)} lines")
    for at, (line, one, other) in enumerate(zip(lines, answers, wanted)):
        if not (judge_witness(trace, *pairs[at], one, tally) if at in pairs else one == other):
            raise Wrong(f"`{line}` is answered `{one}`, and not `{other}`")
    if len(running.printed(program, ["log", "log"]).splitlines()) != len(log.entries):
        raise Wrong("a question has made a line of the log")


def judged(run: judging.Run) -> str:
    for seed in range(run.numbers[0]):
        with judging.about(f"seed {seed}", "trace"):
            judge_session(run.program, seed, run.tally)
    kinds = ", ".join(
        f"{run.tally[what]} {what}" for what in ("next", "run", "part", "rows", "live", "undone", "race", "faulty")
    )
    return f"questions: {run.numbers[0]} sessions, {kinds}"


if __name__ == "__main__":
    sys.exit(judging.main("questions", judged, REACHED, {"SESSIONS": SESSIONS}))
