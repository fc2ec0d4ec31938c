#!/usr/bin/env python3
"""Compares all that `triage` prints of traces drawn by chance with a plain program that goes over all pairs of events,
by tests/plain.py.

Takes the program's path, how many traces to draw, and the first seed. Each trace is listed with what is apart and a
drawn number of tries; again with its own output as what is known, which leaves no race; with texts that blocks need or
must not have; with a status for races; as a recording with marks; and by workers, as JSON and as lines for editors
(tests/compiled.py), which must have the same. Says what is wrong, if something is, and ends with status 1
then, also where something that must be seen was never met.
"""

import collections
import concurrent.futures
import json
import os
import random
import sys
import tempfile
from collections.abc import Iterable

if __name__ == "__main__":
    sys.dont_write_bytecode = True
import by_chance
import compiled
import judging
import missing
import plain
import running
import states
from judging import Wrong

TRACES = 3_000
MOST_EVENTS = [8, 16, 28, 40]
TRIES = [0, 1, 2, 16, 16, 16]
# The calls of locations: most have none.
CALLS = [""] * 6 + [
    " < f",
    " < f < main m.c:3 < m.c:9",
    " < operator< <int> p.cc:7 < main m+0x1 < x.c:",
    " < f < g :7 <  h.c:1",
]
# What `--fail` prints for a trace without events.
NO_EVENTS = b"racebench: the trace has no events: nothing was judged\n"
# The numbers in JSON, in the order of the text.
COUNTS = "events threads pairs candidates open guarded forced places races undecided apart".split()
NUMBERS = "pairs variables events threads tried".split()
REACHED = [
    "candidate",
    "beyond",
    "turned",
    "contradicted",
    "apart",
    "untried",
    "known",
    "hidden",
    "failed",
    "holds",
    "one place",
    "more variables",
    "called",
    "whole",
    "not whole",
    "unjudged",
]


# A conflicting pair: its later event, its earlier one, and its kind.
Pair = tuple[int, int, str]


class Located:
    """A trace with a drawn location for each event."""

    def __init__(self, trace: plain.Trace, chance: random.Random, places: list[str] | None = None) -> None:
        self.trace = trace
        drawn = [f"p{number}.c:{number}" + chance.choice(CALLS) for number in range(chance.randint(1, 6))]
        self.places = places or [chance.choice(drawn) for _ in trace.events]

    def line(self, event: int) -> str:
        return self.trace.line(event) + self.places[event]

    def text(self) -> str:
        return "".join(self.line(event) + "\n" for event in range(len(self.places)))

    def groups(self) -> dict[tuple[str, str], list[Pair]]:
        """The conflicting pairs by pair of places, each by its later event and then its earlier one, with its kind."""
        groups: dict[tuple[str, str], list[Pair]] = collections.defaultdict(list)
        for first, second in self.trace.conflicting():
            one, other = sorted((self.places[first], self.places[second]))
            groups[one, other].append((second, first, self.trace.kind(first, second)))
        return {places: sorted(pairs) for places, pairs in groups.items()}


def tries_of(trace: plain.Trace, pairs: list[Pair]) -> list[tuple[int, int]]:
    """The least open pair of each variable and two threads, in rising order."""
    least: dict[tuple[str, str, str], tuple[int, int]] = {}
    for second, first, kind in pairs:
        if kind == "open":
            least.setdefault((trace.events[first].name, trace.thread(first), trace.thread(second)), (second, first))
    return sorted(least.values())


def size(trace: plain.Trace, listed: plain.Listed) -> str:
    return f"events {len(listed)} threads {len({trace.thread(event) for event in listed})}"


def variables(trace: plain.Trace, pairs: list[Pair]) -> int:
    return len({trace.events[first].name for _, first, kind in pairs if kind in ("candidate", "open")})


def verdict(trace: plain.Trace, pairs: list[Pair], tries: int) -> tuple[int, tuple[int, int], str]:
    """The order of the block among others, its first line, and the two events. The size of a schedule in another
    order than the trace's is left out. What no correct reordering shows is apart."""
    counted = collections.Counter(kind for _, _, kind in pairs)
    of_open = f"variables {variables(trace, pairs)}"
    if counted["candidate"]:
        second, first = next((second, first) for second, first, kind in pairs if kind == "candidate")
        return (
            0,
            (second, first),
            f"race {first} {second} candidate pairs {counted['candidate']} {of_open} "
            f"{size(trace, trace.in_order(first, second) or ())}",
        )
    if not counted["open"]:
        second, first, _ = pairs[0]
        return 2, (second, first), f"apart {first} {second} pairs {len(pairs)}"
    all_tries = tries_of(trace, pairs)
    for second, first in all_tries[:tries]:
        listed = trace.in_order(first, second)
        if listed is not None:
            return (
                0,
                (second, first),
                f"race {first} {second} beyond pairs {counted['open']} {of_open} {size(trace, listed)}",
            )
        if trace.turned(first, second) is not None:
            return 0, (second, first), f"race {first} {second} turned pairs {counted['open']} {of_open}"
    second, first = all_tries[0]
    if tries and not states.shown_by_any(trace) & {(first, second) for second, first, kind in pairs if kind == "open"}:
        return 2, (second, first), f"apart {first} {second} pairs {len(pairs)}"
    return (
        1,
        (second, first),
        f"undecided {first} {second} pairs {counted['open']} {of_open} tried {min(tries, len(all_tries))}",
    )


def text_of(objects: Iterable[str]) -> list[str]:
    """The lines of text that tell what these objects tell."""
    lines: list[str] = []
    for fields in map(json.loads, objects):
        kind = fields.pop("kind")
        if kind == "counts":
            lines += [f"{name} {fields.pop(name)}" for name in COUNTS]
        elif kind in ("known", "hidden"):
            lines.append(f"{kind} {fields.pop('count')}")
        else:
            accesses = fields.pop("accesses")
            numbers = [f"{name} {fields.pop(name)}" for name in NUMBERS if name in fields]
            lines.append(
                " ".join(
                    [
                        kind,
                        *[str(access["event"]) for access in accesses],
                        *([fields.pop("how")] if kind == "race" else []),
                        *numbers,
                    ]
                )
            )
            for access in accesses:
                lines.append(f"  {access['thread']}|{access['operation']}({access['variable']})|{access['location']}")
                lines += [f"    holds {lock}" for lock in access["holds"]]
        if fields:
            raise Wrong(f"more is told of a {kind}: {fields}")
    return lines


class Judge:
    def __init__(self, program: str) -> None:
        self.program = program
        self.tally: collections.Counter[str] = collections.Counter()

    def turned_size(self, trace: plain.Trace, first: int, second: int) -> str:
        """The size of the schedule that `witness` prints of the pair, which must be a correct reordering that shows
        it. The events are counted here."""
        lines = (
            running.printed(self.program, ["witness", "trace", str(first), str(second)]).decode("ascii").splitlines()
        )
        listed = tuple(int(line.split(" ", 1)[0]) for line in lines)
        if not trace.is_reordering(listed) or not trace.shows(listed, first, second):
            raise Wrong(f"witness prints {listed}, which does not show {first} and {second}")
        return size(trace, listed)

    def access(self, located: Located, event: int) -> list[str]:
        holds = [f"    holds {lock}" for lock in located.trace.locks_before(event)]
        self.tally["holds"] += len(holds)
        return ["  " + located.line(event), *holds]

    def wanted(self, located: Located, tries: int) -> tuple[list[str], list[list[str]]]:
        """The counts, and the blocks in their order, each as its lines."""
        trace = located.trace
        groups = located.groups()
        kinds = collections.Counter(kind for pairs in groups.values() for _, _, kind in pairs)
        found = sorted((*verdict(trace, pairs, tries), places) for places, pairs in groups.items())
        parts = collections.Counter(part for part, _, _, _ in found)
        counts = [
            *(f"events {len(trace.events)}", f"threads {len(trace.threads())}", f"pairs {sum(kinds.values())}"),
            *(
                f"{word} {kinds[kind]}"
                for word, kind in [
                    ("candidates", "candidate"),
                    ("open", "open"),
                    ("guarded", "guarded"),
                    ("forced", "forced"),
                ]
            ),
            *(f"places {len(groups)}", f"races {parts[0]}", f"undecided {parts[1]}", f"apart {parts[2]}"),
        ]
        blocks = []
        for part, (second, first), head, places in found:
            self.tally[
                "untried" if head.endswith(" tried 0") else head.split(" ")[3] if part == 0 else head.split(" ")[0]
            ] += 1
            if head.startswith(f"race {first} {second} turned "):
                head += " " + self.turned_size(trace, first, second)
            self.tally["contradicted"] += head.startswith("apart ") and any(
                kind == "open" for *_, kind in groups[places]
            )
            self.tally["one place"] += places[0] == places[1]
            self.tally["more variables"] += part == 0 and " variables 1 " not in head
            blocks.append([head, *self.access(located, first), *self.access(located, second)])
        return counts, blocks

    def compare(self, wanted: list[str], out: bytes) -> None:
        lines = out.decode("ascii").split("\n")[:-1]
        if len(lines) != len(wanted):
            raise Wrong(f"{len(lines)} lines are printed, and not {len(wanted)}: {lines}, and not {wanted}")
        for line, want in zip(lines, wanted):
            if line != want:
                raise Wrong(f"`{line}` is printed, and not `{want}`")

    def judge_trace(self, located: Located, chance: random.Random, is_usual: bool) -> None:
        """Judges what is printed of the trace, with as many tries as are usual, or as are drawn."""
        running.write("trace", located.text())
        tries = 16 if is_usual else chance.choice(TRIES)
        counts, blocks = self.wanted(located, tries)
        flag = [] if is_usual else ["--tries", str(tries)]
        out = running.printed(self.program, ["triage", "trace", "--apart", *flag])
        self.compare(counts + sum(blocks, []), out)
        self.judge_json(out, "--apart", *flag)
        workers = str(chance.choice([1, 2, 16]))
        if running.printed(self.program, ["triage", "trace", "--apart", "--workers", workers, *flag]) != out:
            raise Wrong(f"{workers} workers print another text")
        self.tally["workers"] += 1
        races = [block for block in blocks if block[0].startswith("race ")]
        rest = [block for block in blocks if not block[0].startswith("apart ")]
        self.compare(counts + sum(rest, []), running.printed(self.program, ["triage", "trace", *flag]))
        running.write("known", out.decode("ascii"))
        kept = [block for block in rest if block not in races]
        status, out, err = running.ended(self.program, ["triage", "trace", "--known", "known", *flag])
        fault = b"" if races else b"racebench: known has no block `race`: no race is known\n"
        if (status, err) != (0, fault):
            raise Wrong(
                f"status {status} with {len(races)} known races, and on standard error {err!r}, and not {fault!r}"
            )
        self.compare(counts + sum(kept, []) + [f"known {len(races)}"], out)
        if races:
            self.judge_json(out, "--known", "known", *flag)
        self.tally["known"] += len(races)
        self.judge_filters(counts, rest, flag, chance)
        forms: list[list[str]] = [[], ["--json"], ["--lines"], ["--page"], ["--sarif"]]
        arguments = ["triage", "trace", *chance.choice(forms), *flag]
        status, out, err = running.ended(self.program, [*arguments, "--fail"])
        wanted = (3, b"") if races else (0, b"") if located.trace.events else (4, NO_EVENTS)
        if (status, err) != wanted or out != running.printed(self.program, arguments):
            raise Wrong(
                f"{arguments} --fail ends with {status} and {err!r} at {len(races)} races, or prints something else"
            )
        self.tally["failed"] += bool(races)
        self.judge_marks(located, races, arguments, out, chance)
        self.tally["traces"] += 1
        self.tally["pairs"] += int(counts[2].split(" ")[1])

    def judge_marks(
        self, located: Located, races: list[list[str]], arguments: list[str], out: bytes, chance: random.Random
    ) -> None:
        """Judges the report on a recording of the trace with marks, whole or not, by the report without marks."""
        end, absent = chance.choice(missing.ENDS)
        running.write("trace", missing.BEGIN + located.text() + end)
        form = next((word for word in arguments if word in ("--json", "--lines", "--page", "--sarif")), "")
        status, printed, err = running.ended(self.program, [*arguments, "--fail"])
        running.write("trace", located.text())
        wanted = missing.missing_line(form, absent, out)
        if missing.sorted_log(form, absent, printed) != wanted:
            raise Wrong(f"{arguments} with the end {end!r} prints {printed!r}, and not {wanted!r}")
        has_events = bool(located.trace.events)
        fault = b"" if races else b"" if has_events else NO_EVENTS
        fault += f"racebench: not whole: {absent}\n".encode() if absent and not races else b""
        if (status, err) != (missing.status_of(bool(races), has_events, absent), fault):
            raise Wrong(f"{arguments} --fail with the end {end!r} ends with {status} and {err!r}")
        self.tally["not whole" if absent else "whole"] += 1
        self.tally["unjudged"] += status == 4 and has_events

    def judge_json(self, out: bytes, *arguments: str) -> None:
        """Compares the objects that are printed with the text for the same words."""
        printed = running.printed(self.program, ["triage", "trace", "--json", *arguments]).decode("utf-8").splitlines()
        from_json = text_of(printed)
        if from_json != out.decode("utf-8").splitlines():
            raise Wrong(f"JSON tells {from_json}, and the text {out!r}")
        self.tally["objects"] += len(from_json)
        lines = running.printed(self.program, ["triage", "trace", "--lines", *arguments]).decode("utf-8").splitlines()
        wanted = compiled.lines_of(json.loads(line) for line in printed)
        if lines != wanted:
            raise Wrong(f"lines for editors tell {lines}, and not {wanted}")
        self.tally["called"] += sum(" note: in " in line for line in lines)

    def judge_filters(self, counts: list[str], rest: list[list[str]], flag: list[str], chance: random.Random) -> None:
        text = chance.choice(["p0.c", "|w(", "|r(x)", "T1|", "p1.c:1"])
        word = chance.choice(["--only", "--hide"])
        has = [
            block
            for block in rest
            if any(text in line for line in block[1:] if line.startswith("  ") and not line.startswith("    "))
        ]
        kept = [block for block in rest if (block in has) == (word == "--only")]
        out = running.printed(self.program, ["triage", "trace", word, text, *flag])
        self.compare(counts + sum(kept, []) + [f"hidden {len(rest) - len(kept)}"], out)
        self.judge_json(out, word, text, *flag)
        self.tally["hidden"] += len(rest) - len(kept)


def made(*lines: str) -> plain.Trace:
    return plain.Trace(plain.Event(*line.split(" ")) for line in lines)


def undecided(variables: int) -> tuple[plain.Trace, list[str]]:
    """A trace and the places of its events: two places that have this many open pairs, of as many variables, none of
    which is shown."""
    names = range(variables)
    reads = [line for name in names for line in (f"A r {name}", f"A w {name}")]
    writes = [f"B w {name}" for name in names]
    trace = made("A acq l", *reads, "A rel l", "B acq l", *writes, "B rel l", *writes)
    return trace, ["l", *["1", "2"] * variables, "l", "l", *["3"] * variables, "l", *["4"] * variables]


# What chance draws seldom, with places if they matter: a pair that sections in another order show; more open pairs
# than are tried without `--tries`.
MADE = [
    (made("A acq l", "A fork W", "A w x", "A rel l", "B acq l", "B r y", "B rel l", "B r x"), None),
    (made("A w x", "A acq l", "A rel l", "B acq l", "B rel l", "B w x"), None),
    (made("A acq l", "A r x", "A w y", "A w x", "A rel l", "B acq l", "B w x", "B rel l", "B w x"), None),
    undecided(17),
]


def judge_some(program: str, first: int, numbers: Iterable[int]) -> collections.Counter[str]:
    """Judges the traces with these numbers in its own folder, and returns what was seen."""
    judge = Judge(program)
    with tempfile.TemporaryDirectory() as folder:
        os.chdir(folder)
        for number in numbers:
            chance = random.Random(first + number)
            draw = chance.choice([by_chance.trace, by_chance.locked_trace])
            trace, places = MADE[number] if number < 0 else (draw(chance, chance.choice(MOST_EVENTS)), None)
            with judging.about(f"seed {first + number}", "trace"):
                judge.judge_trace(Located(trace, chance, places), chance, number < 0 or chance.random() < 0.2)
    return judge.tally


def judged(run: judging.Run) -> str:
    traces, first = run.numbers
    processors = len(os.sched_getaffinity(0))
    shares = [range(-len(MADE) + share, traces, processors) for share in range(processors)]
    with concurrent.futures.ProcessPoolExecutor(processors) as pool:
        for seen in pool.map(judge_some, [run.program] * processors, [first] * processors, shares):
            run.tally += seen
    tally = run.tally
    kinds = ", ".join(
        f"{tally[kind]} {kind}"
        for kind in ["candidate", "beyond", "turned", "undecided", "untried", "contradicted", "apart"]
    )
    return (
        f"triage: {tally['traces']} traces with {tally['pairs']} pairs, seeds {first} to {first + traces - 1}, are "
        f"listed as the definitions say ({kinds})"
    )


if __name__ == "__main__":
    sys.exit(judging.main("triage", judged, REACHED, {"TRACES": TRACES, "SEED": 0}))
