#!/usr/bin/env python3
"""Judges `triage --sarif` by the rules of SARIF 2.1.0 (tests/sarif_rules.py), by `triage --json`, and by the schedules
that `witness` prints.

Takes traces with calls, hostile names and long schedules, and traces drawn by chance. Each log must have a result for
each object of JSON, in their order, with its accesses, their calls as stacks, and, for a race, its schedule as a code
flow: every step once, in the order of the schedule, and at its end the two accesses. Moves lines of code: the
fingerprints must stay; and changes a line: they must differ. Names files below the folder of the code, which
code_folders.py finds as well.

    judge_sarif.py PROGRAM [TRACES [SEED]]      this many drawn traces, the first of this seed

Says what is wrong, if something is, and ends with status 1 then.
"""

import collections
import json
import os
import random
import re
import sys
import urllib.parse
from collections.abc import Mapping, Sequence
from typing import Any

if __name__ == "__main__":
    sys.dont_write_bytecode = True
import by_chance
import code_folders
import compiled
import judging
import plain_names
import running
import sarif_rules
from judging import Wrong

TRACES = 60
MOST_EVENTS = [8, 16, 28]
MOST_STEPS = 200
MOST_CALLS = 64
MOST_FLOWS = 200
MOST_LINE = 10**9
PLACES = [
    "a/u.c:1",
    "b/u.c:1",
    "/usr/include/x.h:12",
    "src/u v.c:3",
    "a:b.c:7",
    "./k#?%.c:9",
    "9",
    "u.c:0",
    "u.c:9999999999999",
    "\u00fc.c:2",
    "",
]
# Names of files that exist below the folder `tree`, or seem to.
NAMED = [
    "one.c",
    "src/one.c",
    "./src/two.c",
    "../src/two.c",
    "/elsewhere/a/src/both.c",
    "/elsewhere/c/src/both.c",
    "both.c",
    "b/src/both.c",
    "src/both.c",
    "lib/one.c",
    "top.c",
    "./top.c",
    "gone.c",
    "q.c",
    "p.c",
    "out.c",
    "in.c",
    "out/q.c",
    "k#? %.c",
    "/usr/include/stdio.h",
    "tree/top.c",
]
CALLS = ["", " < put", " < put < main m.c:3", " < m.c:3 < main", " < operator< p.cc:7 < go < main m.c:4"]
RULES = {
    "race": ("data-race", "fail", "error"),
    "undecided": ("undecided-pair", "fail", "warning"),
    "apart": ("apart", "pass", "none"),
}
VERBS = {"r": "reads", "w": "writes", "acq": "acquires", "rel": "releases", "fork": "forks", "join": "joins"}
DRAWS = [by_chance.locked_trace, by_chance.trace]
FOUND = {"race": "Data race", "undecided": "Undecided pair", "apart": "No race"}
REACHED = [
    "race",
    "apart",
    "flow",
    "cut flow",
    "frame",
    "no file",
    "absolute",
    "within the folder",
    "path below",
    "several fit",
    "uri of a folder",
    "other line",
    "no line",
    "moved",
    "changed",
    "bound",
    "without a folder",
]


def place_parts(place: str) -> tuple[str | None, int]:
    """The file and the line of a place, if it has them."""
    own = re.fullmatch(r"(?s)(.+):([0-9]+)", place)
    return (own[1], int(own[2])) if own else (None, 0)


def calls_of(location: str) -> tuple[str, list[tuple[str, str]]]:
    """The function in which a location is, and the calls that led to it, each as a function and a place."""
    calls = []
    for call in location.split(" < ")[1:]:
        own = re.fullmatch(r"(?s)(?:(.*) )?([^ ]+:[0-9]+)", call)
        calls.append((own[1] or "", own[2]) if own else (call, ""))
    if calls and not calls[0][1]:
        return calls[0][0], calls[1 : MOST_CALLS + 1]
    return "", calls[:MOST_CALLS]


class Event:
    """What a trace has of an event."""

    def __init__(self, line: str) -> None:
        self.thread, operation, self.location = line.split("|", 2)
        self.word, _, name = operation.partition("(")
        self.name = name.removesuffix(")")

    def place(self) -> str:
        return self.location.split(" < ")[0]

    def text(self) -> str:
        return f"{self.thread} {VERBS[self.word]} {self.name} at {self.place() or '?'}"


def coded_line(line: str, code: code_folders.CodeFolder | None) -> str:
    """A line for editors, with the paths of files in the folder of the code."""
    found = re.fullmatch(r"(.+?): (warning|note): (.*)", line)
    if not found:
        raise Wrong(f"a line for editors is {line}")
    place, kind, text = found.groups()
    other = re.fullmatch(r"(.*, .* at )(.+)( \[[a-z-]+\])", text)
    if other:
        text = other[1] + coded_place(other[2], code) + other[3]
    return f"{coded_place(place, code)}: {kind}: {text}"


def coded_place(place: str, code: code_folders.CodeFolder | None) -> str:
    file, _ = place_parts(place)
    return code.path_of(file) + place[len(file) :] if code and file else place


def base_of(code: code_folders.CodeFolder | None) -> dict[str, dict[str, str]]:
    """What a log says of the folder of the code, if there is one."""
    return {"SRCROOT": {"uri": code.uri()}} if code else {}


def printed_without_code(pair: Sequence[Event]) -> str:
    """The fingerprint of two accesses if no folder has their code: four lines each, the lesser four first."""
    lines = [
        "\n".join(
            [
                place_parts(event.place())[0] or event.place(),
                calls_of(event.location)[0],
                plain_names.without_number(event.name),
                "",
            ]
        )
        for event in pair
    ]
    return "\n".join(sorted(lines, key=lambda text: text.encode("utf-8")))


class Judge:
    def __init__(self, program: str) -> None:
        self.program = program
        self.tally: collections.Counter[str] = collections.Counter()

    def equal(
        self,
        found: object,
        wanted: object,
        what: str,
    ) -> None:
        if found != wanted:
            raise Wrong(f"{what} is {found!r}, and not {wanted!r}")

    def check_location(
        self, location: dict[str, Any], place: str, function: str, text: str, root: code_folders.CodeFolder | None
    ) -> None:
        """Judges that a location has the place, the function and the text. `root` is the folder of the code, if there
        is one."""
        self.equal(location["message"]["text"], text, "the message of a location")
        self.equal(
            [one["fullyQualifiedName"] for one in location.get("logicalLocations", [])],
            [function] if function else [],
            "the function",
        )
        file, line = place_parts(place)
        if file is None:
            self.tally["no file"] += 1
            self.equal("physicalLocation" in location, False, "a file of a place without one")
            return
        physical = location["physicalLocation"]
        artifact = physical["artifactLocation"]
        path = root.path_of(file) if root else file
        self.tally["path below"] += path != file
        if path.startswith("/"):
            self.tally["absolute"] += 1
            self.equal(artifact, {"uri": "file://" + urllib.parse.quote(path, safe="/")}, "the file")
        else:
            self.tally["within the folder"] += root is not None
            base = {"uriBaseId": "SRCROOT"} if root else {}
            self.equal(artifact, {"uri": urllib.parse.quote(path, safe="/"), **base}, "the file")
        if 1 <= line <= MOST_LINE:
            self.equal(physical["region"], {"startLine": line}, "the line")
        else:
            self.tally["no line"] += 1
            self.equal("region" in physical, False, "a line that is none")

    def check_access(self, location: dict[str, Any], event: Event, root: code_folders.CodeFolder | None) -> None:
        self.check_location(location, event.place(), calls_of(event.location)[0], event.text(), root)

    def check_stack(self, stack: dict[str, Any], event: Event, root: code_folders.CodeFolder | None) -> None:
        self.equal(stack["message"]["text"], event.text(), "the message of a stack")
        own, *frames = [frame["location"] for frame in stack["frames"]]
        self.check_access(own, event, root)
        calls = calls_of(event.location)[1]
        self.equal(len(frames), len(calls), "the number of frames")
        for frame, (function, place) in zip(frames, calls):
            self.tally["frame"] += 1
            self.check_location(frame, place, function, function or "a call", root)

    def check_flow(
        self,
        flow: dict[str, list[dict[str, Any]]],
        events: Sequence[Event],
        pair: Sequence[int],
        root: code_folders.CodeFolder | None,
    ) -> None:
        """Each step of the schedule is there once, but the first ones of a thread with many; at its end are the two
        accesses."""
        self.tally["flow"] += 1
        listed = running.printed(self.program, ["witness", "trace", *map(str, pair)]).decode("utf-8").splitlines()
        steps = [int(line.split(" ", 1)[0]) for line in listed if line[:1].isdigit()] + list(pair)
        threads: dict[str, list[tuple[int, int]]] = {}
        for order, event in enumerate(steps, start=1):
            threads.setdefault(events[event].thread, []).append((order, event))
        self.equal({thread["id"] for thread in flow["threadFlows"]}, set(threads), "the threads of a flow")
        for thread in flow["threadFlows"]:
            wanted = threads[thread["id"]]
            kept = wanted[-MOST_STEPS:]
            self.tally["cut flow"] += len(kept) < len(wanted)
            note = (
                f"steps: {len(wanted)}"
                if len(kept) == len(wanted)
                else f"steps: the last {MOST_STEPS} of {len(wanted)}"
            )
            self.equal(thread["message"]["text"], note, "the note of a thread")
            self.equal(
                [step["executionOrder"] for step in thread["locations"]],
                [order for order, _ in kept],
                "the order of steps",
            )
            for step, (order, event) in zip(thread["locations"], kept):
                self.equal(
                    step["importance"],
                    "essential" if order > len(steps) - 2 else "important",
                    "the importance of a step",
                )
                self.check_access(step["location"], events[event], root)

    def check_result(
        self,
        result: dict[str, Any],
        row: dict[str, Any],
        events: Sequence[Event],
        root: code_folders.CodeFolder | None,
        is_drawn: bool,
    ) -> None:
        kind = row["kind"]
        self.tally[kind] += 1
        self.equal((result["ruleId"], result["kind"], result["level"]), RULES[kind], "the rule")
        pair = [access["event"] for access in row["accesses"]]
        first, second = (events[event] for event in pair)
        head = f"{FOUND[kind]} on {second.name}: {second.text()}, and {first.text()}; "
        wanted = f"{head}{compiled.why(row)}. More: racebench explain TRACE {pair[0]} {pair[1]}"
        self.equal(result["message"]["text"], wanted, "the message")
        self.equal(
            (len(result["locations"]), len(result["relatedLocations"]), len(result["stacks"])),
            (1, 1, 2),
            "the number of accesses",
        )
        self.check_access(result["locations"][0], second, root)
        self.check_access(result["relatedLocations"][0], first, root)
        self.check_stack(result["stacks"][0], second, root)
        self.check_stack(result["stacks"][1], first, root)
        if kind == "race" and is_drawn:
            self.equal(len(result["codeFlows"]), 1, "the number of code flows")
            self.check_flow(result["codeFlows"][0], events, pair, root)
        else:
            self.equal("codeFlows" in result, False, "a code flow of what is not drawn")

    def log_of(self, arguments: list[str]) -> dict[str, Any]:
        out = running.printed(self.program, ["triage", "trace", "--sarif", *arguments])
        if not out.endswith(b"\n") or out.count(b"\n") != 1:
            raise Wrong("the log is no line")
        log: dict[str, Any] = json.loads(out.decode("utf-8"))
        sarif_rules.check(log)
        rules = log["runs"][0]["tool"]["driver"]["rules"]
        found = [(rule["id"], rule["defaultConfiguration"]["level"]) for rule in rules]
        self.equal(found, [(rule, level) for rule, _, level in RULES.values()], "the rules, and the level of each")
        return log

    def check_lines(self, folder: str) -> None:
        """Judges that `--lines` with the folder of the code has the lines that it has without, with the paths of files
        in the folder."""
        code = code_folders.CodeFolder(folder)
        plain = running.printed(self.program, ["triage", "trace", "--lines"]).decode("utf-8")
        coded = running.printed(self.program, ["triage", "trace", "--lines", "--source", folder]).decode("utf-8")
        self.equal(coded.splitlines(), [coded_line(line, code) for line in plain.splitlines()], "the lines")
        self.tally["other line"] += coded != plain

    def check(self, lines: list[str], arguments: list[str], root: str | None = None) -> list[str]:
        """Judges the log of a trace with these lines. Returns the fingerprints of its results."""
        with open("trace", "w", encoding="utf-8") as out:
            out.write("".join(line + "\n" for line in lines))
        events = [Event(line) for line in lines]
        run = self.log_of(arguments + (["--source", root] if root else []))["runs"][0]
        rows = [
            json.loads(line)
            for line in running.printed(self.program, ["triage", "trace", "--json", *arguments]).splitlines()
        ]
        blocks = [one for one in rows if one["kind"] in RULES]
        self.equal(len(run["results"]), len(blocks), "the number of results")
        code = code_folders.CodeFolder(root) if root else None
        for at, (result, block) in enumerate(zip(run["results"], blocks)):
            self.check_result(result, block, events, code, at < MOST_FLOWS)
        self.equal(
            run["properties"],
            {one["kind"]: one["count"] for one in rows if one["kind"] in ("known", "hidden")},
            "what was left out",
        )
        self.equal(run["originalUriBaseIds"], base_of(code), "the folder of the code")
        prints = [result["partialFingerprints"]["racePair/v1"] for result in run["results"]]
        if root is None:
            pairs = [[events[access["event"]] for access in block["accesses"]] for block in blocks]
            self.equal(prints, [printed_without_code(pair) for pair in pairs], "the fingerprints without a folder")
            self.tally["without a folder"] += len(prints)
        return prints


def drawn(chance: random.Random, number: int) -> list[str]:
    """The lines of a trace drawn by chance, with locations."""
    trace = chance.choice(DRAWS)(chance, chance.choice(MOST_EVENTS))
    few = [place and place + chance.choice(CALLS) for place in chance.choices(PLACES, k=chance.randint(1, 5))]
    return [trace.line(event) + chance.choice(few) for event in range(len(trace.events))] if number >= 0 else []


def racy(gap: int, place: str, other: str) -> list[str]:
    """A race between a writer and a reader, with this many events of the writer before."""
    return [
        "main|fork(T1)|m.c:1",
        "main|fork(T2)|m.c:2",
        *["T1|w(own)|a.c:1 < fill"] * gap,
        f"T1|w(x)|{place}",
        f"T2|r(x)|{other}",
    ]


def check_long(judge: Judge) -> None:
    """Schedules with up to, and more than, the steps that a thread may have."""
    # (the writer has the events before, and the access itself)
    for gap in (MOST_STEPS - 2, MOST_STEPS - 1, MOST_STEPS, 3 * MOST_STEPS):
        judge.check(racy(gap, "a.c:5", "b.c:6") + ["T2|w(own)|b.c:9"], [])


def check_many(judge: Judge) -> None:
    """More races than there are code flows."""
    judge.check([f"T{1 + at % 2}|w(v{at // 2})|c.c:{at}" for at in range(2 * (MOST_FLOWS + 5))], [])


def check_hostile(judge: Judge) -> None:
    """Names with quotes, braces, markup and line ends of other systems; calls without end."""
    for name in ['"', "\\", "{0}", "[a](http://b)", "\u2028", "</script>", "%s"]:
        lines = [f"T1|w({name})|a{name}.c:1 < f{name}", f"T2|w({name})|b.c:2 < g{name} < h a{name}.c:3"]
        judge.check(lines, [])
    judge.check(["T1|w(x)|a.c:1" + " < f a.c:2" * 100, "T2|w(x)|b.c:1 < main" + " < g b.c:3" * 70], [])


def write_code(texts: Mapping[str, Sequence[str]]) -> None:
    os.makedirs("code/sub", exist_ok=True)
    for name, lines in texts.items():
        with open(os.path.join("code", name), "w", encoding="utf-8") as out:
            out.write("".join(line + "\n" for line in lines))


def check_moved(judge: Judge) -> None:
    """A moved line keeps its fingerprint; another line, function, variable or file has another one. The order of the
    accesses does not matter."""
    code = {"p.c": ["int x;", "", "    x = 1;", "return x;"], "sub/p.c": ["", "x = 1;"]}
    for root in ("code", os.path.abspath("code")):
        write_code(code)
        before = judge.check(["T1|w(x)|p.c:3 < put", "T2|r(x)|p.c:4 < get"], [], root)
        turned = judge.check(["T2|r(x)|p.c:4 < get", "T1|w(x)|p.c:3 < put"], [], root)
        judge.equal(turned, before, "the fingerprint of two accesses in the other order")
        whole = judge.check([f"T1|w(x)|{os.path.abspath('code')}/p.c:3 < put", "T2|r(x)|p.c:4 < get"], [], root)
        judge.equal(whole, before, "the fingerprint of a path within the folder")
        write_code({"p.c": ["// one", "// two", *code["p.c"]]})
        judge.equal(
            judge.check(["T1|w(x)|p.c:5 < put", "T2|r(x)|p.c:6 < get"], [], root),
            before,
            "the fingerprint of moved lines",
        )
        write_code({"p.c": ["", "  x = 1;  \r", "return x;"]})
        judge.equal(
            judge.check(["T1|w(x)|p.c:2 < put", "T2|r(x)|p.c:3 < get"], [], root),
            before,
            "the fingerprint of lines with other blanks",
        )
        judge.tally["moved"] += 1
        write_code(code)
        names = [f"heap:p.c:1 item{number}[3]" for number in ("", "#2", "#T3", f"#T{3}.12")]
        blocks = [judge.check([f"T1|w({name})|p.c:3", f"T2|r({name})|p.c:4"], [], root) for name in names]
        judge.equal(blocks, [blocks[0]] * 4, "the fingerprint of a block with another number")
        others = {
            "line": ["T1|w(x)|p.c:1 < put", "T2|r(x)|p.c:4 < get"],
            "function": ["T1|w(x)|p.c:3 < push", "T2|r(x)|p.c:4 < get"],
            "variable": ["T1|w(y)|p.c:3 < put", "T2|r(y)|p.c:4 < get"],
            "copy of a variable": ["T1|w(x#T1)|p.c:3 < put", "T2|r(x#T1)|p.c:4 < get"],
            "file": ["T1|w(x)|sub/p.c:2 < put", "T2|r(x)|p.c:4 < get"],
        }
        for what, lines in others.items():
            if judge.check(lines, [], root) == before:
                raise Wrong(f"another {what} has the same fingerprint")
            judge.tally["changed"] += 1
        gone = judge.check(["T1|w(x)|gone.c:3", "T2|r(x)|p.c:99999"], [], root)
        judge.equal(gone, ["gone.c\n\nx\n\np.c\n\nx\n"], "the fingerprint of lines that are not there")


def check_below(judge: Judge) -> None:
    """A file below the folder is found by the parts of its path. If two fit equally well, neither is written."""
    write_code({"p.c": ["int x;", "x = 1;"], "sub/p.c": ["int y;", "y = 1;"], "q.c": ["return x;"]})
    os.makedirs("tree/a/src", exist_ok=True)
    os.makedirs("tree/b/src", exist_ok=True)
    os.makedirs("tree/.hidden", exist_ok=True)
    texts = {"a/src/one.c": "one;", "b/src/two.c": "two;", "a/src/both.c": "A;", "b/src/both.c": "B;"}
    for name, text in {**texts, "top.c": "top;", ".hidden/gone.c": "gone;", "a/src/k#? %.c": "odd;"}.items():
        with open(os.path.join("tree", name), "w", encoding="utf-8") as out:
            out.write(text + "\n")
    write_links()
    for here in ("tree", "tree/", "tree/a", "tree/a/../../tree", os.path.abspath("tree"), "linked"):
        for name in NAMED:
            made = judge.check([f"T1|w(x)|{name}:1 < put", f"T2|r(x)|top.c:1 < get {name}:2"], [], here)
            judge.tally["several fit"] += "both.c" in name and "both.c\nput" in made[0]
            judge.check_lines(here)
    name = "tree/a b%\u00fc"
    os.makedirs(name, exist_ok=True)
    judge.check(["T1|w(x)|p.c:1", "T2|r(x)|p.c:2"], [], name)
    judge.tally["uri of a folder"] += 1


def write_links() -> None:
    """Links in the folder `tree`: round it, out of it, and within it; and one to it."""
    links = {"tree/a/loop": "..", "tree/a/self": "self", "tree/out": "../code", "tree/out.c": "../code/q.c"}
    for link, target in {**links, "tree/in.c": "b/src/two.c", "linked": "tree"}.items():
        if not os.path.islink(link):
            os.symlink(target, link)
    for raw in (b"tree/\xff.c", b"tree/a/\xfe"):
        os.makedirs(raw, exist_ok=True)


def check_bounds(judge: Judge) -> None:
    """A fingerprint has a line of code whole up to 256 bytes; files up to 16,777,216 bytes are read, and 65,536
    lines."""

    def judged_as(lines: list[str], line: str) -> None:
        made = judge.check([*lines, "T1|w(x)|p.c:1", "T2|r(x)|q.c:1"], [], "code")
        judge.equal(made, [f"p.c\n\nx\n{line}\nq.c\n\nx\nint y;"], "the fingerprint at a bound")
        judge.tally["bound"] += 1

    for length in (255, 256, 257):
        text = ("0123456789" * 26)[:length]
        write_code({"p.c": ["  " + text], "q.c": ["int y;"]})
        judged_as([], text[:256])
    for size, line in ((16_777_216, "int x;"), (16_777_217, "")):
        write_code({"p.c": ["int x;"]})
        os.truncate("code/p.c", size)
        judged_as([], line)
    write_code({"p.c": ["int x;"], "o.c": ["int o;"] * 65_534})
    judged_as([f"T1|w(o)|o.c:{at}" for at in range(1, 65_535)], "int x;")


def check_filters(judge: Judge) -> None:
    judge.check(["T1|w(x)|a.c:1", "T2|w(x)|b.c:2", "T1|w(y)|a.c:3", "T2|w(y)|b.c:4"], ["--hide", "(y)"])
    judge.check(["T1|w(x)|a.c:1"], [])
    judge.check(
        [f"{thread}|{word}|{thread}.c:1" for thread in ("T1", "T2") for word in ("acq(l)", "w(x)", "rel(l)")],
        ["--apart"],
    )


def judged(run: judging.Run) -> str:
    judge = Judge(run.program)
    for part in (check_filters, check_hostile, check_moved, check_below, check_bounds, check_long, check_many):
        with judging.about(part.__name__):
            part(judge)
    for seed in run.seeds():
        chance = random.Random(seed)
        with judging.about(f"trace {seed}"):
            judge.check(drawn(chance, seed), chance.choice([[], ["--apart"], ["--tries", "0"]]))
    run.tally = judge.tally
    return "judge_sarif: " + ", ".join(f"{count} {what}" for what, count in sorted(run.tally.items()))


if __name__ == "__main__":
    sys.exit(judging.main("judge_sarif", judged, REACHED, {"TRACES": TRACES, "SEED": 1}))
