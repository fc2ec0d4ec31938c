#!/usr/bin/env python3
"""Judges `--known`, `--triage`, `--only` and `--hide` of `merge` and of `triage --windows` by a second answer.

Draws lists of parts, texts of known races, triage files and filters. Of the pairs of locations that tests/plain.py
finds those stay that this file says; then the text, the JSON, the page and the log must have exactly these, standard
error must name the entries that are about no race, and `--fail` must end with 3 only if a race is printed. The JSON is
merged again, and must have all parts whole. `triage --windows` must print what `merge` prints of its windows.

    judge_left.py PROGRAM [LISTS [SEED]]      this many lists of parts, the first of this seed

Says what is wrong, if something is, and ends with status 1 then, also if a kind was never met.
"""

import collections
import json
import os
import random
import sys
import tempfile
from collections.abc import Sequence
from typing import Any

if __name__ == "__main__":
    sys.dont_write_bytecode = True
import by_chance
import compiled
import judge_merge
import judge_merged_sarif
import judge_triage_file
import judging
import plain
import running
from judging import Wrong
from judge_merge import Parts
from judge_triage_file import side_of
from plain_names import without_number

# An entry of a triage file.
Entry = dict[str, Any]
LISTS = 120
DAY = judge_triage_file.TODAY.isoformat()
REACHED = [
    "page without a race",
    "known",
    "known and undecided",
    "known alone",
    "undecided that is named",
    "decided",
    "other variable",
    "several variables",
    "unmet",
    "fixed",
    "hidden",
    "only",
    "without a block",
    "failed",
    "not failed",
    "no events",
    "merged again",
    "windows",
    "page",
    "line of code",
]


def places_of(pair: plain.Shown) -> tuple[bytes, ...]:
    """The two locations of a pair, the lesser first."""
    return tuple(sorted(access["location"].encode() for access in pair.row["accesses"]))


def named_in(text: str) -> set[tuple[bytes, ...]]:
    """The pairs of locations that the blocks `race` of a text name."""
    found: set[tuple[bytes, ...]] = set()
    lines: list[str] | None = None
    for line in text.split("\n"):
        if line.startswith("race "):
            lines = []
        elif lines is not None and line.startswith("  ") and not line.startswith("   "):
            lines.append(line.strip(" \t\r"))
            if len(lines) == 2:
                found.add(tuple(sorted(line.split("|", 2)[2].strip(" \t\r").encode() for line in lines)))
                lines = None
    return found


def is_about(entry: Entry, pair: plain.Shown, parts: Parts) -> bool:
    """Whether the entry is about the races of a pair: each race is on one variable, which the entry names."""
    one, other = (access["location"] for access in pair.row["accesses"])
    fits = judge_triage_file.fits
    if not (fits(entry, 0, one) and fits(entry, 1, other) or fits(entry, 0, other) and fits(entry, 1, one)):
        return False
    if "variables" not in entry:
        return True
    rows = [row for objects in parts.values() for row in objects[1:] if places_in(row) == places_of(pair)]
    rows = [row for row in rows if row["kind"] == "race"]
    names = [without_number(name) for name in entry["variables"]]
    return all(row["variables"] == 1 and without_number(row["accesses"][0]["variable"]) in names for row in rows)


def places_in(row: plain.ReportRow) -> tuple[bytes, ...]:
    return tuple(sorted(access["location"].encode() for access in row["accesses"]))


class Wanted:
    """What is left out: a text of known races, the entries of a triage file, and filters."""

    def __init__(self, chance: random.Random, parts: Parts, seen: collections.Counter[str]) -> None:
        pairs = plain.merged_pairs(parts)
        self.known = known_text(chance, pairs) if chance.random() < 0.6 else None
        entries = [drawn_entry(chance, pairs) for _ in range(chance.randint(1, 3))]
        self.entries = entries if chance.random() < 0.6 else None
        self.only = [drawn_word(chance, pairs) for _ in range(chance.choice([0, 0, 1, 2]))]
        self.hide = [drawn_word(chance, pairs) for _ in range(chance.choice([0, 0, 1, 2]))]
        self.seen = seen

    def arguments(self) -> list[str]:
        """The flags, after the files that they name were written."""
        arguments = [word for text in self.only for word in ("--only", text)]
        arguments += [word for text in self.hide for word in ("--hide", text)]
        if self.known is not None:
            judge_merge.write("known.txt", self.known.encode())
            arguments += ["--known", "known.txt"]
        if self.entries is not None:
            judge_merge.write("triage.toml", judge_triage_file.text_of(self.entries).encode())
            arguments += ["--triage", "triage.toml", "--today", DAY]
        return arguments

    def keeps(self, pair: plain.Shown) -> bool:
        """Whether the filters keep the block of a pair."""
        lines = [
            f"{access['thread']}|{access['operation']}({access['variable']})|{access['location']}"
            for access in pair.row["accesses"]
        ]

        def has(text: str) -> bool:
            return any(text in line for line in lines)

        return not any(map(has, self.hide)) and (not self.only or any(map(has, self.only)))

    def left(self, parts: Parts) -> tuple[list[plain.Shown], int | None, int | None]:
        """The pairs that stay, and how many are known and hidden; None if that is not told."""
        named = named_in(self.known or "")
        known, kept = [], []
        for pair in plain.merged_pairs(parts):
            is_named = places_of(pair) in named
            decided = any(entry["verdict"] != "fixed" and is_about(entry, pair, parts) for entry in self.entries or [])
            if pair.rank == 0 and (is_named or decided):
                known.append(pair)
                self.seen["known and undecided"] += pair.counts[1] > 0
                self.seen["known"] += is_named
                self.seen["decided"] += decided
            else:
                kept.append(pair)
                self.seen["undecided that is named"] += is_named
        stay = [pair for pair in kept if self.keeps(pair)]
        self.seen["hidden"] += len(kept) > len(stay) and bool(self.hide)
        self.seen["only"] += len(kept) > len(stay) and bool(self.only)
        self.seen["known alone"] += bool(known) and all(pair.rank for pair in stay)
        counts_known = self.known is not None or self.entries is not None
        return stay, len(known) if counts_known else None, len(kept) - len(stay) if self.only or self.hide else None

    def notes(self, parts: Parts) -> bytes:
        """What standard error must have."""
        lines = []
        races = [pair for pair in plain.merged_pairs(parts) if pair.rank == 0]
        for number, entry in enumerate(self.entries or [], 1):
            met = any(is_about(entry, pair, parts) for pair in races)
            bare = {key: value for key, value in entry.items() if key != "variables"}
            near = [pair for pair in races if is_about(bare, pair, parts)] if not met else []
            self.seen["other variable"] += bool(near)
            self.seen["several variables"] += any(pair.row["variables"] > 1 for pair in near)
            if entry["verdict"] == "fixed" and met:
                lines.append(f"racebench: triage.toml: entry {number} says fixed, and there is a race\n")
                self.seen["fixed"] += 1
            if entry["verdict"] != "fixed" and not met:
                lines.append(f"racebench: triage.toml: entry {number} is about no race\n")
                self.seen["unmet"] += 1
        if self.known is not None and not named_in(self.known):
            lines.append("racebench: known.txt has no block `race`: no race is known\n")
            self.seen["without a block"] += 1
        return "".join(lines).encode()


def known_text(chance: random.Random, pairs: Sequence[plain.Shown]) -> str:
    """A text with the blocks of some pairs, of which some say that they are races."""
    blocks = []
    for pair in chance.sample(pairs, chance.randint(0, len(pairs))):
        row = dict(pair.row)
        accesses = chance.sample(row["accesses"], 2)
        head, *lines = plain.block({**row, "accesses": accesses})
        if chance.random() < 0.3:
            head = "race " + head
        more = chance.choice(["", "    part b.json", "known 3"])
        blocks.append("\n".join([head, *lines, *[more] * bool(more)]) + "\n")
    return "races 3\n" * chance.randint(0, 1) + "".join(blocks)


def drawn_entry(chance: random.Random, pairs: Sequence[plain.Shown]) -> Entry:
    """An entry that resembles a pair, or anything."""
    pair = chance.choice(pairs) if pairs and chance.random() < 0.9 else None
    accesses = (
        pair.row["accesses"] if pair else [{"location": place} for place in chance.sample(judge_merge.PLACES, 2)]
    )
    locations = [access["location"] for access in accesses]
    sides = [side_of(location) for location in locations]
    if chance.random() < 0.4:
        sides.reverse()
    entry: Entry = {"paths": [path for path, _, _ in sides]}
    if chance.random() < 0.6:
        entry["functions"] = [function if chance.random() < 0.9 else "" for _, _, function in sides]
    if chance.random() < 0.5:
        entry["variables"] = chance.sample(["x", "y", "<i>x"], chance.randint(1, 3))
    if chance.random() < 0.8:
        entry["lines"] = [int(line or 0) + chance.choice([0, 0, 0, 0, 1]) for _, line, _ in sides]
    return entry | {"verdict": chance.choice(judge_triage_file.VERDICTS)}


def drawn_word(chance: random.Random, pairs: Sequence[plain.Shown]) -> str:
    """A text that a block may have."""
    if not pairs:
        return "x"
    access = chance.choice(chance.choice(pairs).row["accesses"])
    words: list[str] = ["(x)", "T1|", "w(", access["location"][:5] or "T2", access["variable"], "nowhere"]
    return chance.choice(words)


class Judge(judge_merge.Judge):
    def __init__(self, run: judging.Run) -> None:
        super().__init__(run)
        self.sarif = judge_merged_sarif.Judge(run.program)
        self.sarif.tally = collections.Counter()

    def ends(self, arguments: list[str], status: int, out: bytes, err: bytes) -> None:
        """The program ends so."""
        found = running.ended(self.program, arguments)
        if found != (status, out, err):
            printed, wanted = (found[1] + found[2]).decode(), (out + err).decode()
            raise Wrong(f"{arguments} ends with {found[0]}, and prints\n{printed}and not\n{wanted}")

    def texts(self, parts: Parts, wanted: Wanted, arguments: list[str]) -> None:
        """The text, with its notes and its status."""
        stay, known, hidden = wanted.left(parts)
        races = any(pair.rank == 0 for pair in stay)
        counts = [("known", known), ("hidden", hidden)]
        tail = "".join(f"{word} {count}\n" for word, count in counts if count is not None)
        for flags in [*judge_merge.FORMS, ["--fail"]]:
            text = plain.merged_of(stay, len(parts), "--apart" in flags) + tail
            status, line = judge_merge.failed(parts, races) if flags == ["--fail"] else (0, b"")
            self.ends(["merge", *parts, *arguments, *flags], status, text.encode(), wanted.notes(parts) + line)
            self.seen["no events"] += status == 4
        self.seen["failed" if races else "not failed"] += 1

    def lines(self, parts: Parts, wanted: Wanted, arguments: list[str]) -> None:
        """The JSON: what stays, how much is left out, and all parts whole."""
        stay, known, hidden = wanted.left(parts)
        head: judge_merge.Row = {"kind": "merged", "parts": len(parts), "pairs": len(stay), "version": 1}
        head |= {name: count for name, count in [("known", known), ("hidden", hidden)] if count is not None}
        _, out, err = running.ended(self.program, ["merge", *parts, *arguments, "--json"])
        objects = [json.loads(line) for line in out.decode().splitlines()]
        if err != wanted.notes(parts) or not out.startswith(judge_merge.line(head).encode()):
            raise Wrong(f"the first line is {objects[0]} and not {head}; {err.decode()}")
        whole = running.printed(self.program, ["merge", *parts, "--json"]).split(b"\n")
        if out.split(b"\n")[1 : 1 + len(parts)] != whole[1 : 1 + len(parts)]:
            raise Wrong("the parts are not whole")
        named = {places_of(pair) for pair in stay}

        def ends(line: bytes) -> tuple[bytes, ...]:
            return tuple(json.loads(line)[name].encode() for name in ("first", "second"))

        pairs = [line for line in whole[1 + len(parts) : -1] if ends(line) in named]
        if out.split(b"\n")[1 + len(parts) : -1] != pairs:
            raise Wrong(f"the pairs are {objects[1 + len(parts) :]} and not {pairs}")
        judge_merge.write("left.json", out)
        if running.printed(self.program, ["merge", "left.json", "--json"]).split(b"\n") != whole:
            raise Wrong("what was left out is not there when the report is merged again")
        self.seen["merged again"] += 1

    def logs(self, parts: Parts, wanted: Wanted, arguments: list[str]) -> None:
        """The log: a result for each pair that stays, and how much is left out."""
        stay, known, hidden = wanted.left(parts)
        left = {name: count for name, count in [("known", known), ("hidden", hidden)] if count is not None}
        without_apart, with_apart = judge_merge.FORMS
        for flags, folder in [(without_apart, ""), (with_apart, ""), (with_apart, "code")]:
            code = ["--source", folder] if folder else []
            _, out, err = running.ended(self.program, ["merge", *parts, *arguments, *flags, "--sarif", *code])
            if err != wanted.notes(parts):
                raise Wrong(f"with the log standard error has {err.decode()}")
            shown = [pair for pair in stay if flags or pair.rank < 2]
            self.sarif.check_run(json.loads(out)["runs"][0], parts, shown, folder, left)
        self.seen["line of code"] = self.sarif.tally["line of code"]

    def pages(self, parts: Parts, wanted: Wanted, arguments: list[str]) -> None:
        """The page: a row for each pair that stays, and how much is left out."""
        stay, known, hidden = wanted.left(parts)
        counts = f"; {compiled.counted(known, 'known race')} left out" if known is not None else ""
        if hidden is not None:
            counts += f"; {compiled.counted(hidden, 'pair')} left out by --only and --hide"
        self.page([*parts, *arguments], parts, stay, counts)
        self.seen["page without a race"] += bool(known) and all(pair.rank for pair in stay)

    def printed(self, arguments: list[str]) -> bytes:
        """As in judge_merge, except for the notes."""
        status, out, err = running.ended(self.program, ["merge", *arguments])
        if status != 0 or any(not line.startswith(b"racebench: ") for line in err.splitlines()):
            raise Wrong(f"merge {arguments} ends with {status}: {err.decode()}")
        return out

    def windows(self, chance: random.Random) -> None:
        """`triage --windows` prints what `merge` prints of the report of its windows."""
        running.write("trace", by_chance.trace(chance, chance.choice([8, 14, 20])).text())
        most = f"--windows={chance.choice([4, 6, 9])}"
        report = running.printed(self.program, ["triage", "trace", most, "--json"])
        objects = [json.loads(line) for line in report.splitlines()]
        texts = {part["name"]: part["text"] for part in objects if part["kind"] == "part"}
        parts = {name: [json.loads(line) for line in text.splitlines()] for name, text in texts.items()}
        arguments = Wanted(chance, parts, self.seen).arguments()
        if not arguments:
            return
        code = ["--sarif", "--source", "code"]
        for flags in [*judge_merge.FORMS, ["--json"], ["--page"], ["--sarif"], code, ["--fail"]]:
            if flags == ["--apart"]:
                apart = running.printed(self.program, ["triage", "trace", most, "--json", *flags])
                judge_merge.write("windows.json", apart)
            else:
                judge_merge.write("windows.json", report)
            status, out, err = running.ended(self.program, ["triage", "trace", most, *arguments, *flags])
            wanted = running.ended(self.program, ["merge", "windows.json", *arguments, *flags])
            if flags in ([], ["--apart"], ["--fail"]):
                out = out.split(b"\n", 4)[4]
            wanted = (*wanted[:2], wanted[2].replace(b": no part has events:", b": the trace has no events:"))
            if (status, out, err) != wanted:
                printed = (out + err).decode()
                raise Wrong(
                    f"triage {most} {arguments} {flags} ends with {status}, and prints\n{printed}and not\n{wanted}"
                )
        self.seen["windows"] += 1

    def judge(self, seed: int) -> None:
        chance = random.Random(seed)
        parts = self.list_of(chance, seed)
        write_code()
        for _ in range(3):
            wanted = Wanted(chance, parts, self.seen)
            arguments = wanted.arguments()
            if arguments:
                self.texts(parts, wanted, arguments)
                self.lines(parts, wanted, arguments)
                self.logs(parts, wanted, arguments)
                self.pages(parts, wanted, arguments)
        self.windows(chance)


def write_code() -> None:
    """Writes a folder with the code of places that drawn parts name."""
    os.mkdir("code")
    for place in judge_merge.PLACES:
        path, line, _ = side_of(place)
        if line.isdecimal() and "/" not in path:
            judge_merge.write(f"code/{path}", b"".join(b"  line %d;\n" % number for number in range(1, 40)))


def judged(run: judging.Run) -> str:
    judge = Judge(run)
    for seed in run.seeds():
        with tempfile.TemporaryDirectory() as folder, judging.about(f"seed {seed}"):
            os.chdir(folder)
            judge.judge(seed)
            os.chdir("/")
    counts = ", ".join(f"{what} {count}" for what, count in sorted(run.tally.items()))
    return f"{run.numbers[0]} lists of parts: {counts}"


if __name__ == "__main__":
    sys.exit(judging.main("left", judged, REACHED, {"LISTS": LISTS, "SEED": 0}))
