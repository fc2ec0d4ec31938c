#!/usr/bin/env python3
"""Compares what `merge` prints of parts drawn by chance with tests/plain.py.

Takes the program's path, how many lists of parts to draw, and the first seed. The parts are merged at once; in another
order, with some parts twice; and in groups whose merged reports are merged. Each must print the same text, and the
same JSON. With odd names the JSON has each part as it is, and is read as the same parts. The page is read as a
browser's parser would read it, and has a row for each pair of locations. A part that is cut anywhere is refused, and so
are lines that are no line of a report, another version, and two parts of one name. Some parts are what `triage --json`
prints of drawn traces. Says what is wrong, if something is, and ends with status 1 then, also if something that must be
seen was never met.
"""

import collections
import json
import os
import pathlib
import random
import sys
import tempfile
from collections.abc import Sequence
from typing import Any

if __name__ == "__main__":
    sys.dont_write_bytecode = True
import by_chance
import page_texts
import page_tree
import judging
import missing
import plain
import running
from judging import Wrong
from page_tree import Element

# An object of a report that is made here.
Row = dict[str, Any]
# The parts by their names, each with its objects.
Parts = dict[str, list[Row]]
# The texts of a row of the page: its title, its facts, its accesses, and what the parts say.
RowTexts = tuple[str, str, list[tuple[int, str, list[str]]], list[str]]
# The options for a report without the pairs that are apart, and with them.
FORMS: list[list[str]] = [[], ["--apart"]]
LISTS = 150
PLACES = ["a.c:1 < f", "a.c:2", "b.c:10", "b.c:9", "é.c:3", "", 'q"\\.c:4', "<b>&.c:5 < </td>"]
NAMES = ["a|b.json", 'q"\\.json', "t\tab", "l\nf", "\x01\x7f", "é", "\U0001f600", "\u2028", "{}", " ", "\ufffd"]
REACHED = [
    "race",
    "undecided",
    "apart",
    "least",
    "unmet",
    "twice",
    "grouped",
    "cut",
    "cut at a line",
    "refused",
    "other version",
    "clash",
    "clash behind others",
    "spoiled",
    "failed",
    "no events",
    "triage",
    "no parts apart",
    "page",
    "escaped",
    "not whole",
    "odd names",
]


def access(chance: random.Random, place: str) -> Row:
    holds = chance.sample(["m", "n", "mü"], chance.choice([0, 0, 1, 2]))
    return {
        "event": chance.randint(0, 40),
        "holds": holds,
        "location": place,
        "operation": chance.choice("rw"),
        "thread": chance.choice(["T1", "T2"]),
        "variable": chance.choice(["x", "y", "<i>x"]),
    }


def row(chance: random.Random, places: Sequence[str]) -> Row:
    kind = chance.choice(plain.RANKS)
    found = {"accesses": [access(chance, place) for place in places], "kind": kind, "pairs": chance.randint(1, 9)}
    if kind != "apart":
        found["variables"] = chance.randint(1, 3)
    if kind == "race":
        found |= {
            "events": chance.randint(0, 4),
            "how": chance.choice(["candidate", "beyond", "turned"]),
            "threads": chance.randint(2, 3),
        }
    if kind == "undecided":
        found["tried"] = chance.randint(0, 16)
    return found


def part(chance: random.Random) -> list[Row]:
    """The objects of a part."""
    pairs = [(one, other) for one in PLACES for other in PLACES if one <= other]
    rows = [row(chance, chance.sample(pair, 2)) for pair in chance.sample(pairs, chance.choice([0, 1, 2, 5, 12]))]
    rows.sort(key=lambda one: plain.RANKS.index(one["kind"]))
    counts = {
        word: sum(one["kind"] == kind for one in rows)
        for word, kind in [("races", "race"), ("undecided", "undecided"), ("apart", "apart")]
    }
    if chance.random() < 0.2:
        rows = [one for one in rows if one["kind"] != "apart"]
    events = 0 if not rows and chance.random() < 0.9 else chance.randint(0, 99)
    return [{"kind": "counts", "events": events, "threads": 3, **counts}, *rows]


def line(row: plain.ReportRow) -> str:
    return json.dumps(row, sort_keys=True, separators=(",", ":"), ensure_ascii=False) + "\n"


def write(name: str, text: bytes) -> None:
    with open(name, "wb") as out:
        out.write(text)


def outcome_of(row: plain.ReportRow) -> str:
    """What the page says of a row in short."""
    if row["kind"] == "race":
        return f"{row['how']}, a schedule with events: {row['events']}, threads: {row['threads']}"
    return f"undecided, tried: {row['tried']}" if row["kind"] == "undecided" else "apart"


def row_of(pair: plain.Shown, parts: Parts) -> RowTexts:
    """The texts of a row of the page: its title, its facts, its two accesses, and what the parts say."""
    row, counts, name = pair.row, pair.counts, pair.part
    uses = [
        f"{'read' if access['operation'] == 'r' else 'write'} at {access['location'].split(' < ')[0]}"
        for access in row["accesses"]
    ]
    first, second = (access["event"] for access in row["accesses"])
    accesses = [
        (
            access["event"],
            f"{access['thread']}|{access['operation']}({access['variable']})|{access['location']}",
            access["holds"],
        )
        for access in row["accesses"]
    ]
    races, undecided, apart = counts
    tally = f"Race: {races}, undecided: {undecided}, apart: {apart}, not met: {len(parts) - sum(counts)}."
    return (
        f"{row['accesses'][0]['variable']}: {uses[0]}, {uses[1]}",
        f"Events {first} and {second}: {outcome_of(row)}",
        accesses,
        [tally, f"This row is of the part {name}."],
    )


def row_in(details: Element) -> RowTexts:
    """The same of an element of the page."""
    summary = details.one("summary")
    facts = [span.text() for span in summary.all("span") if span.attributes.get("class") == "facts"]
    lines = [line for line in details.one("tbody").all("tr")]
    return (
        summary.one("h3").text(),
        " ".join(facts),
        [page_texts.access_of(line, lambda locks: "".join(f"{lock} " for lock in locks)) for line in lines],
        [paragraph.text() for paragraph in details.all("p")],
    )


def failed(parts: Parts, races: bool) -> tuple[int, bytes]:
    """The status of `--fail` if races are printed or not, and what standard error has beside notes."""
    if races:
        return 3, b""
    if any(objects[0]["events"] for objects in parts.values()):
        return 0, b""
    return 4, b"racebench: no part has events: nothing was judged\n"


class Judge:
    def __init__(self, run: judging.Run) -> None:
        self.program, self.seen = run.program, run.tally

    def printed(self, arguments: list[str]) -> bytes:
        return running.printed(self.program, ["merge", *arguments])

    def refused(self, arguments: list[str], text: str) -> None:
        """The arguments lead to this fault, and nothing is written before it."""
        if running.ended(self.program, ["merge", *arguments]) != (1, b"", f"racebench: {text}\n".encode()):
            raise Wrong(
                f"merge {arguments} does not end with `{text}`, "
                f"but {running.ended(self.program, ['merge', *arguments])}"
            )
        self.seen["refused"] += 1

    def list_of(self, chance: random.Random, seed: int) -> Parts:
        """The parts by their names, as objects; each is written into a file of its name."""
        parts = {f"{chance.choice('abc')}{number}.json": part(chance) for number in range(chance.randint(1, 5))}
        for name, objects in parts.items():
            if seed % 3 == 0:
                running.write("trace", by_chance.trace(chance, chance.choice([8, 14])).text())
                text = running.printed(self.program, ["triage", "trace", "--json", *chance.choice(FORMS)])
                parts[name] = [json.loads(row) for row in text.splitlines()]
                write(name, text)
                self.seen["triage"] += 1
            else:
                write(name, "".join(map(line, objects)).encode())
        return parts

    def note(self, parts: Parts) -> None:
        for objects in parts.values():
            self.seen.update(row["kind"] for row in objects[1:])
            self.seen["no parts apart"] += objects[0]["apart"] > sum(row["kind"] == "apart" for row in objects[1:])
        met = collections.Counter(
            tuple(sorted(access["location"] for access in row["accesses"]))
            for objects in parts.values()
            for row in objects[1:]
        )
        self.seen["least"] += any(count > 1 for count in met.values())
        self.seen["unmet"] += any(count < len(parts) for count in met.values())

    def same(self, arguments: list[str], parts: Parts) -> None:
        """Both texts for these arguments are those of the parts."""
        for flags in FORMS:
            wanted = plain.merged(parts, bool(flags)).encode()
            found = self.printed([*arguments, *flags])
            if found != wanted:
                raise Wrong(f"merge {arguments} {flags} prints\n{found.decode()}and not\n{wanted.decode()}")

    def page(
        self, arguments: list[str], parts: Parts, pairs: Sequence[plain.Shown] | None = None, left: str = ""
    ) -> None:
        """The page for these arguments has the rows of all pairs of the parts, or of `pairs`, and names what was left
        out."""
        with_apart = bool(self.seen["page"] % 2)
        found = self.printed([*arguments, "--page", *(["--apart"] if with_apart else [])])
        root = page_tree.read(found)
        pairs = plain.merged_pairs(parts) if pairs is None else pairs
        kinds = [pair.row["kind"] for pair in pairs]
        races, count = kinds.count("race"), len(parts)
        begin = f"{races or 'No'} race{'' if races == 1 else 's'} in {count} part{'' if count == 1 else 's'}{left}"
        if root.one("h1").text() != begin or root.one("title").text() != begin:
            raise Wrong(f"the page begins with {root.one('h1').text()!r} and not {begin!r}")
        sections = list(root.all("section"))
        headings = ["Races", "Undecided", *(["Apart"] if with_apart else [])]
        if [section.one("h2").text() for section in sections] != [*headings, "What the words mean"]:
            raise Wrong("the page has other sections")
        for section, kind in zip(sections, plain.RANKS):
            rows = [row_in(details) for details in section.all("details")]
            wanted = [row_of(pair, parts) for pair in pairs if pair.row["kind"] == kind]
            if kind != "apart" or with_apart:
                if rows != wanted:
                    raise Wrong(f"the page has the rows {rows} and not {wanted}")
                if not wanted and "None." not in section.text():
                    raise Wrong("the page does not say that there are none")
        self.seen["page"] += 1
        self.seen["escaped"] += any("<b>" in str(row_of(pair, parts)) for pair in pairs)

    def judge_groups(self, chance: random.Random, parts: Parts) -> None:
        names = list(parts)
        whole = self.printed([*names, "--json"])
        shuffled = chance.sample(names, len(names)) + chance.sample(names, chance.randint(0, len(names)))
        self.seen["twice"] += len(shuffled) > len(names)
        self.same(shuffled, parts)
        self.page(shuffled, parts)
        if self.printed([*shuffled, "--json"]) != whole:
            raise Wrong(f"merge {shuffled} --json prints other lines than {names}")
        groups: list[str] = []
        for number in range(chance.randint(1, 3)):
            group = chance.sample(shuffled + groups, chance.randint(1, len(names)))
            write(f"group{number}", self.printed([*group, "--json"]))
            groups.append(f"group{number}")
        self.seen["grouped"] += 1
        again = chance.sample(groups + names, len(groups + names))
        self.same(again, parts)
        if self.printed([*again, "--json"]) != whole:
            raise Wrong(f"merge {again} --json prints other lines than {names}")
        write("whole", whole)
        if self.printed(["whole", "--json"]) != whole:
            raise Wrong("a merged report that is merged alone is another one")

    def judge_names(self, chance: random.Random, parts: Parts) -> None:
        """Whatever its names are, the report has each part as it is, and is read as the same parts."""
        texts = {new: pathlib.Path(name).read_bytes() for name, new in zip(parts, chance.sample(NAMES, len(parts)))}
        for name, text in texts.items():
            write(name, text)
        whole = self.printed([*texts, "--json"])
        lines = [json.loads(line) for line in whole.decode().split("\n")[1 : len(texts) + 1]]
        told = [(line["name"], line["text"].encode()) for line in lines]
        if told != sorted(texts.items(), key=lambda one: one[0].encode()):
            raise Wrong(f"the report of {list(texts)} has the parts {told}")
        write("odd", whole)
        if self.printed(["odd", "--json"]) != whole:
            raise Wrong(f"the report of {list(texts)} is read as another one")
        self.seen["odd names"] += 1

    def judge_refusals(self, chance: random.Random, parts: Parts) -> None:
        name = chance.choice(list(parts))
        with open(name, "rb") as source:
            text = source.read()
        objects = parts[name]
        ends = [place + 1 for place in range(len(text) - 1) if text[place : place + 1] == b"\n"]
        at = chance.choice(ends) if ends and chance.random() < 0.5 else chance.randrange(len(text))
        lines = text[:at].count(b"\n")
        kept = objects[:lines]
        write("cut", text[:at])
        whole = text[:at].endswith(b"\n") and all(
            sum(row["kind"] == kind for row in kept) == objects[0][word]
            for word, kind in [("races", "race"), ("undecided", "undecided")]
        )
        if whole and not any(row["kind"] == "apart" for row in kept):
            self.same(["cut"], {"cut": kept})
        else:
            self.refused(["cut"], f"cut line {lines + 1}: no line of a report")
            self.seen["cut"] += 1
            self.seen["cut at a line"] += text[:at].endswith(b"\n")
        index = chance.randrange(len(objects))
        other = [*objects[:index], {**objects[index], "kind": "reported"}, *objects[index + 1 :]]
        write("other", "".join(map(line, other)).encode())
        self.refused([*parts, "other"], f"other line {index + 1}: no line of a report")
        write("newer", "".join(map(line, [{**objects[0], "version": 2}, *objects[1:]])).encode())
        self.refused(["newer"], "newer: another version of the format")
        self.seen["other version"] += 1
        self.refused(["other", "newer"], f"other line {index + 1}: no line of a report")
        self.refused(["newer", "other"], "newer: another version of the format")
        write("cut", b"")
        self.refused([*parts, "cut"], "cut line 1: no line of a report")
        self.judge_spoiled(chance, list(parts))
        write("one", self.printed([name, "--json"]))
        changed = part(chance)
        if changed != objects:
            write(name, "".join(map(line, changed)).encode())
            self.judge_clash(chance, name, [other for other in parts if other != name])

    def judge_spoiled(self, chance: random.Random, names: Sequence[str]) -> None:
        """A merged report that is cut anywhere, or in which a part is no part, is refused at that line."""
        whole = self.printed([*names, "--json"])
        at = chance.randrange(len(whole))
        write("cut", whole[:at])
        number = whole[:at].count(b"\n") + 1
        self.refused(["cut"], f"cut line {number}: no line of a report")
        lines = whole.decode().splitlines(keepends=True)
        index = chance.randint(1, len(names))
        row = json.loads(lines[index])
        lines[index] = line({**row, "text": row["text"][:-1]})
        write("spoiled", "".join(lines).encode())
        self.refused(["spoiled"], f"spoiled line {index + 1}: no line of a report")
        self.seen["spoiled"] += 1

    def judge_clash(self, chance: random.Random, name: str, others: Sequence[str]) -> None:
        """The fault names the two files that have the two parts of one name, in any position among the others."""
        one, other = chance.sample(["one", name], 2)
        before, between = (chance.sample(others, chance.randint(0, len(others))) for _ in range(2))
        self.refused([*before, one, *between, other], f"{one} and {other}: two different parts of one name")
        self.seen["clash"] += 1
        self.seen["clash behind others"] += before != []

    def judge(self, seed: int) -> None:
        chance = random.Random(seed)
        parts = self.list_of(chance, seed)
        self.note(parts)
        self.same(list(parts), parts)
        self.judge_groups(chance, parts)
        self.judge_names(chance, parts)
        races = plain.merged(parts, False).split("\n")[1] != "races 0"
        status, line = failed(parts, races)
        for form in ["", "--json", "--page", "--sarif"]:
            flags = [form] * bool(form)
            found, _, err = running.ended(self.program, ["merge", *parts, "--fail", *flags])
            if (found, err) != (status, line):
                raise Wrong(f"--fail {flags} ends with {found} and {err!r} and not with {status} and {line!r}")
        self.seen["failed"] += races
        self.seen["no events"] += status == 4
        self.judge_absent(chance, parts, races)
        self.judge_refusals(chance, parts)

    def judge_absent(self, chance: random.Random, parts: Parts, races: bool) -> None:
        """Judges the report if some parts say that their recordings are not whole, by the one if none does."""
        form = chance.choice(["", "--page", "--sarif"])
        arguments = [*parts, *[form] * bool(form)]
        plain_report = self.printed(arguments)
        names = chance.sample(list(parts), chance.randint(1, len(parts)))
        texts = {name: pathlib.Path(name).read_bytes() for name in names}
        for name, text in texts.items():
            write(name, missing.missing_line("--json", chance.choice(missing.ENDS[2:])[1], text))
        absent = f"{len(names)} of {len(parts)} part" + "s" * (len(parts) != 1)
        status, out, err = running.ended(self.program, ["merge", *arguments, "--fail"])
        if missing.sorted_log(form, absent, out) != missing.missing_line(form, absent, plain_report):
            raise Wrong(f"{arguments} with {absent} not whole prints {out!r}")
        _, line = failed(parts, races)
        line += b"" if races else f"racebench: not whole: {absent}\n".encode()
        if (status, err) != (3 if races else 4, line):
            raise Wrong(f"--fail with {absent} not whole ends with {status} and {err!r}")
        report = self.printed([*parts, "--json"])
        head = json.loads(report.splitlines()[0])
        if head.get("absent") != absent:
            raise Wrong(f"JSON says {head}, and {absent} are not whole")
        write("whole", report)
        if self.printed(["whole", "--json"]) != report:
            raise Wrong("a merged report of parts that are not whole is read as another one")
        for name, text in texts.items():
            write(name, text)
        self.seen["not whole"] += 1


def judged(run: judging.Run) -> str:
    judge = Judge(run)
    for seed in run.seeds():
        with tempfile.TemporaryDirectory() as folder, judging.about(f"seed {seed}"):
            os.chdir(folder)
            judge.judge(seed)
            os.chdir("/")
    return f"{run.numbers[0]} lists of parts: " + ", ".join(
        f"{what} {count}" for what, count in sorted(run.tally.items())
    )


if __name__ == "__main__":
    sys.exit(judging.main("merge", judged, REACHED, {"LISTS": LISTS, "SEED": 0}))
