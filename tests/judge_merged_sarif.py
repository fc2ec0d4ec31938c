#!/usr/bin/env python3
"""Judges `merge --sarif` by the rules of SARIF 2.1.0 (tests/sarif_rules.py), by the rows of tests/plain.py, and by the
fingerprints of `triage --sarif`.

Takes parts drawn by chance and parts that `triage --json` prints of drawn traces. Each log must have a result for each
pair of locations, in the order of the text, with the accesses and their calls of the row that is shown, and with how
many parts say what. No result has a code flow. A race of one trace must have the fingerprint that `triage --sarif` of
that trace gives it, with the folder of the code and without it.

    judge_merged_sarif.py PROGRAM [LISTS [SEED]]      this many lists of parts, the first of this seed

Says what is wrong, if something is, and ends with status 1 then.
"""

import collections
import json
import os
import random
import sys
import tempfile
from collections.abc import Mapping, Sequence

if __name__ == "__main__":
    sys.dont_write_bytecode = True
import code_folders
import compiled
import judge_merge
import judge_sarif
import judging
import plain
import running
import sarif_rules
from code_folders import CodeFolder
from judge_merge import Parts, Row
from plain_names import without_number

LISTS = 60
NAMES = ["a.json", "b c.json", "é.json", "t.std --windows 9 --window 000000004", "t.std --windows 9 --window"]
CODE = {"a/u.c": "  x = 1;", "b/u.c": "y(x);  ", "src/u v.c": "\n\n  return x;", "./k#?%.c": ""}
REACHED = [
    "race",
    "undecided",
    "apart",
    "window",
    "no window",
    "several parts",
    "one fingerprint",
    "line of code",
    "frame",
    "other verb",
    "no results",
]


class Access(judge_sarif.Event):
    """An access of a row."""

    def __init__(self, fields: plain.ReportRow) -> None:
        self.thread, self.word, self.name = fields["thread"], fields["operation"], fields["variable"]
        self.location = fields["location"]

    def text(self) -> str:
        verb = {"r": "reads", "w": "writes"}.get(self.word, self.word)
        return f"{self.thread} {verb} {self.name} at {self.place() or '?'}"


def side(access: Access, root: CodeFolder | None) -> str:
    """What a fingerprint has of an access. `root` is the folder of the code, if there is one."""
    file, number = judge_sarif.place_parts(access.place())
    shown = access.place() if file is None else file
    shown = root.path_of(shown) if root else shown
    line = root.line_at(file, number) if root and file else ""
    return f"{shown}\n{judge_sarif.calls_of(access.location)[0]}\n{without_number(access.name)}\n{line}"


def print_of(accesses: Sequence[Access], root: CodeFolder | None) -> str:
    return "\n".join(sorted((side(access, root) for access in accesses), key=str.encode))


def message_of(pair: plain.Shown, accesses: Sequence[Access], parts: int) -> str:
    """What a result has to say of a pair of places."""
    first, second = accesses
    kind = pair.row["kind"]
    found = f"{judge_sarif.FOUND[kind]} on {second.name}"
    head = f"{found}: {second.text()}, and {first.text()}; {compiled.why(pair.row)}"
    races, undecided, apart = pair.counts
    tally = f"Of {compiled.counted(parts, 'part')}, race in {races}, undecided in {undecided}, apart in {apart}"
    events = " and ".join(str(access["event"]) for access in pair.row["accesses"])
    origin = f"{'Shortest schedule' if kind == 'race' else 'Shown'}: events {events} of part {pair.part}"
    is_window = pair.part.split(" ")[-2:-1] == ["--window"]
    return f"{head}. {tally}. {origin}" + (f". Window: racebench cut {pair.part}" if is_window else "")


class Judge(judge_sarif.Judge):
    def check_pair(self, result: Row, pair: plain.Shown, parts: int, root: CodeFolder | None) -> None:
        kind = pair.row["kind"]
        self.tally[kind] += 1
        self.tally["several parts"] += sum(pair.counts) > 1
        self.tally["window" if "Window:" in result["message"]["text"] else "no window"] += 1
        self.equal((result["ruleId"], result["kind"], result["level"]), judge_sarif.RULES[kind], "the rule")
        accesses = first, second = [Access(access) for access in pair.row["accesses"]]
        self.tally["other verb"] += first.word not in "rw"
        self.equal(result["message"]["text"], message_of(pair, accesses, parts), "the message")
        self.check_access(result["locations"][0], second, root)
        self.check_access(result["relatedLocations"][0], first, root)
        counts = [len(result[name]) for name in ("locations", "relatedLocations", "stacks")]
        self.equal(counts, [1, 1, 2], "the number of accesses")
        self.check_stack(result["stacks"][0], second, root)
        self.check_stack(result["stacks"][1], first, root)
        self.equal("codeFlows" in result, False, "a code flow of a merged row")
        print_ = result["partialFingerprints"]["racePair/v1"]
        self.equal(print_, print_of(accesses, root), "the fingerprint")
        self.tally["line of code"] += root is not None and any(line.endswith(";") for line in print_.split("\n"))

    def run_of(self, arguments: Sequence[str]) -> Row:
        out = running.printed(self.program, arguments)
        self.equal((out[-1:], out.count(b"\n")), (b"\n", 1), "the end of the log")
        log = json.loads(out.decode("utf-8"))
        sarif_rules.check(log)
        run: Row = log["runs"][0]
        return run

    def check_log(self, parts: Parts, flags: Sequence[str], folder: str) -> list[Row]:
        """Judges the log of the parts; its results."""
        run = self.run_of(["merge", *parts, "--sarif", *flags, *(["--source", folder] if folder else [])])
        pairs = [pair for pair in plain.merged_pairs(parts) if flags or pair.rank < 2]
        return self.check_run(run, parts, pairs, folder)

    def check_run(
        self, run: Row, parts: Parts, pairs: Sequence[plain.Shown], folder: str, left: Mapping[str, int] | None = None
    ) -> list[Row]:
        """The run has a result for each pair, and counts what was left out."""
        self.equal(len(run["results"]), len(pairs), "the number of results")
        self.tally["no results"] += not pairs
        code = code_folders.CodeFolder(folder) if folder else None
        for result, pair in zip(run["results"], pairs):
            self.check_pair(result, pair, len(parts), code)
        self.equal(run["properties"], left or {}, "what was left out")
        self.equal(run["originalUriBaseIds"], judge_sarif.base_of(code), "the folder of the code")
        results: list[Row] = run["results"]
        return results

    def check_same(self, name: str, folder: str) -> None:
        """The results of one trace and of its part have the same fingerprints."""
        source = ["--source", folder] if folder else []
        of_trace = self.run_of(["triage", "trace", "--sarif", *source])["results"]
        of_part = self.run_of(["merge", name, "--sarif", *source])["results"]
        prints = [
            sorted(result["partialFingerprints"]["racePair/v1"] for result in results)
            for results in (of_trace, of_part)
        ]
        self.equal(prints[1], prints[0], "the fingerprints of a part")
        self.tally["one fingerprint"] += len(of_part)

    def part_of(self, chance: random.Random, seed: int, name: str) -> list[Row]:
        """Writes a part of this name, and answers its objects."""
        if seed % 2:
            objects = judge_merge.part(chance)
            for row in objects[1:]:
                row["accesses"][0]["operation"] = chance.choice(["r", "w", "frees"])
            judge_merge.write(name, "".join(map(judge_merge.line, objects)).encode())
            return objects
        with open("trace", "w", encoding="utf-8") as out:
            out.write("".join(line + "\n" for line in judge_sarif.drawn(chance, seed)))
        text = running.printed(self.program, ["triage", "trace", "--json", *chance.choice(judge_merge.FORMS)])
        judge_merge.write(name, text)
        for folder in ("", "code"):
            self.check_same(name, folder)
        return [json.loads(row) for row in text.splitlines()]

    def judge(self, seed: int) -> None:
        chance = random.Random(seed)
        for name, text in CODE.items():
            os.makedirs(os.path.dirname(f"code/{name}"), exist_ok=True)
            with open(f"code/{name}", "w", encoding="utf-8") as out:
                out.write(text)
        parts = {
            name: self.part_of(chance, seed, name) for name in chance.sample(NAMES, chance.randint(1, len(NAMES)))
        }
        for flags in judge_merge.FORMS:
            for folder in ("", "code", os.path.abspath("code")):
                self.check_log(parts, flags, folder)
        judge_merge.write("whole", running.printed(self.program, ["merge", *parts, "--json"]))
        whole = running.printed(self.program, ["merge", "whole", "--sarif"])
        self.equal(whole, running.printed(self.program, ["merge", *parts, "--sarif"]), "the log of a merged report")


def judged(run: judging.Run) -> str:
    judge = Judge(run.program)
    judge.tally = run.tally = collections.Counter()
    for seed in run.seeds():
        with tempfile.TemporaryDirectory() as folder, judging.about(f"seed {seed}"):
            os.chdir(folder)
            judge.judge(seed)
            os.chdir("/")
    counts = ", ".join(f"{what} {count}" for what, count in sorted(run.tally.items()))
    return f"{run.numbers[0]} lists of parts: {counts}"


if __name__ == "__main__":
    sys.exit(judging.main("judge_merged_sarif", judged, REACHED, {"LISTS": LISTS, "SEED": 0}))
