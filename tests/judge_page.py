#!/usr/bin/env python3
"""Compares the page that `triage --page` writes with the text that `triage` prints, and judges it as HTML.

Takes the program's path, how many traces to draw, and the first seed. Each page is read by page_tree.py. Its first
line, its counts, its rows with their titles, accesses and locks, and its runs are those of the texts that `triage` and
`explain` print, neither more nor fewer (page_texts.py). Each picture is judged by pictured.py: it draws the schedule
that `witness` prints, which by plain.py is a correct reordering that shows the row's pair. With a file of followed
races, each race has beside it what the file's first line on its two locations says, and no other race's. The traces
are those of examples/, those that page_traces.py makes, and such that are drawn by chance. Says what is wrong, if
something is, and ends with status 1 then, also where something that must be seen was never met.
"""

import collections
import json
import os
import random
import re
import shutil
import sys
from collections.abc import Iterable, Sequence

if __name__ == "__main__":
    sys.dont_write_bytecode = True
import by_chance
import judging
import pictured
import plain
import running
from explained import Pair
from judging import Wrong

from page_texts import (
    ACCESSES, ALL_TOLD, BESIDE, BESIDE_RACES, COUNTED, DRAWN, ELSEWHERE, FOLLOWED, LAST_TOLD, MEANINGS, MOST_PICTURES,
    MOST_ROWS, UNLISTED, UNTRIED, WHY, Block, Followed, beside, blocks_of, commands_of, counted, entry_on, facts_of,
    left_out, locations_of, more_of, access_of, reasons_of, shown, title_of,
)  # fmt: skip
from page_traces import (
    FRAMED, NAMES, UNDECIDED, guarded, in_long_turns, in_turns, long_schedules, many, named, with_locks, write,
)  # fmt: skip
from page_tree import Element, heads_of, read, texts_in

TRACES = 40
MOST_EVENTS = [8, 16, 28]
REACHED = [
    "race",
    "undecided",
    "untried",
    "apart",
    "picture",
    "locks",
    "replaced",
    "known",
    "hidden",
    "left out",
    "apart left out",
    "runs told in part",
    "runs left out",
    "words of 16,384 bytes",
    "words of 16,385 bytes",
    "last runs of 4,096 bytes",
    "last runs of 4,097 bytes",
    "pictures of other names",
    "pictures of 2,000 events",
    "pictures of 2,001 events",
    "pictures of 100 shades",
    "pictures of 101 shades",
    "long schedules",
    "undrawn",
    "pictures",
    "arrows",
    "schedules",
    "raced",
    "functions",
    "callers",
    "freed",
    "more variables",
    "pictures with earlier runs",
    "pictures with a shared column",
    "order matters",
    "same in both orders",
    "order not known",
    "other memory",
    "departed",
    "not followed",
    "of these events",
    "of other events",
    "turned round",
    "told twice",
]
# A trace with this many events at most is small enough for a plain program to go over its schedules.
SMALL = 60


class Placed(plain.Trace):
    """A trace whose events have locations."""

    def __init__(self, events: Iterable[plain.Event], locations: Sequence[str]) -> None:
        super().__init__(events)
        self.locations = locations

    def location(self, event: int) -> str:
        return self.locations[event]


def numbered_trace(name: str) -> plain.Trace:
    """The trace in the file, whose names may have any bytes: each name is the number of the first event that has it.
    Locations are left out."""
    numbers: dict[tuple[bytes, bytes], int] = {}
    events = []
    with open(name, "rb") as file:
        lines = file.read().split(b"\n")[:-1]
    for at, line in enumerate(lines):
        found = re.fullmatch(rb"([^|]*)\|(\w+)\((.*)\)\|[^|]*", line, re.DOTALL)
        if not found:
            raise Wrong(f"line {at + 1} of {name} is no event")
        thread, word, object_name = found.groups()
        own = numbers.setdefault((b"thread", thread), at)
        kind = b"thread" if word in (b"fork", b"join") else b"lock" if word in (b"acq", b"rel") else b"variable"
        events.append(plain.Event(str(own), word.decode(), str(numbers.setdefault((kind, object_name), at))))
    return plain.Trace(events)


def plain_trace(name: str) -> plain.Trace | None:
    """The trace in the file, for a plain program; None where its names are not plain."""
    with open(name, "rb") as file:
        text = file.read()
    if not text.isascii() or re.search(rb"[\x00-\x09\x0b-\x1f\x7f]", text):
        return None
    events, locations = [], []
    for line in text.decode("ascii").splitlines():
        parts = re.fullmatch(r"([^|]*)\|(\w+)\((.*)\)\|([^|]*)", line)
        if parts is None:
            raise Wrong(f"no line of a trace: {line!r}")
        events.append(plain.Event(parts[1], parts[2], parts[3]))
        locations.append(parts[4])
    return Placed(events, locations)


def pictures_of(page: bytes) -> dict[Pair, str]:
    """The pictures of the page's rows, by their events."""
    found = {}
    for row in re.findall(rb'<details id="race-(\d+)-(\d+)">\n(.*?)</details>\n', page, re.DOTALL):
        svg = re.search(rb"<svg .*</svg>", row[2], re.DOTALL)
        if svg:
            found[int(row[0]), int(row[1])] = svg[0].decode("utf-8")
    return found


# Up to this many runs are all printed. With more runs or events, all are printed up to a number of bytes; else the
# last runs with this many bytes.
FEW_RUNS = 11
MOST_RUNS = 100
MOST_LISTED = 2000
MOST_BYTES = 16384
LAST_BYTES = 4096
# How many rectangles a picture has at most. A row of a long schedule has this many bytes, if its names are short.
MOST_BOXES = 200
MOST_ROW = 65536


def bytes_of(lines: Sequence[bytes]) -> int:
    """How many bytes these lines have, with their ends."""
    return sum(len(line) + 1 for line in lines)


def classes_of(element: Element) -> list[str]:
    return (element.attributes.get("class") or "").split()


class Judge:
    def __init__(self, program: str) -> None:
        self.program = program
        self.tally: collections.Counter[str] = collections.Counter()
        self.pictures: dict[Pair, str] = {}
        self.trace: plain.Trace | None = None
        self.followed: list[Followed] | None = None
        self.locations: dict[Pair, list[bytes]] = {}

    def raw_explained(self, name: str, block: Block, *arguments: str) -> list[bytes]:
        out = running.printed(self.program, ["explain", name, str(block.first), str(block.second), *arguments])
        return out.split(b"\n")[:-1]

    def explained(self, name: str, block: Block, *arguments: str) -> list[str]:
        return [shown(line) for line in self.raw_explained(name, block, *arguments)]

    def judge_picture(self, name: str, block: Block) -> plain.Listed:
        """Judges the picture of the row of a race: it is that of the schedule which `witness` prints, and that shows
        the pair. Answers the schedule."""
        pair = (block.first, block.second)
        if pair not in self.pictures:
            raise Wrong(f"no picture of {pair}")
        out = running.printed(self.program, ["witness", name, str(block.first), str(block.second)])
        listed = tuple(int(line.split(b" ")[0]) for line in out.split(b"\n")[:-1])
        if self.trace is None:
            picture = pictured.Picture(self.pictures[pair])
            title = f"A schedule that shows {pair[0]} and {pair[1]}"
            if picture.one("title") != title or picture.one("desc") != pictured.described(listed):
                raise Wrong(f"the picture of {pair} is {picture.one('title')!r}, {picture.one('desc')!r}")
            pictured.judge_shapes(numbered_trace(name), picture, pair, listed)
            self.tally["pictures of other names"] += 1
            return listed
        if len(self.trace.events) <= SMALL:
            if not self.trace.is_reordering(listed) or not self.trace.shows(listed, *pair):
                raise Wrong(f"{listed} is no correct reordering that shows {pair}")
            self.tally["schedules"] += 1
        pictured.judge_picture(self.trace, self.tally, self.pictures[pair], pair, listed)
        return listed

    def judge_followed(self, row: Element, block: Block) -> int:
        """Judges what the row of a race says of having been followed. Answers how many of its tables and texts are
        about that."""
        seen = [span.text() for span in row.one("summary").all("span") if "seen" in classes_of(span)]
        heads = [head.text() for head in row.all("h4")]
        if self.followed is None or block.sort != "race":
            if seen or "Seen in a run, not proved" in heads:
                raise Wrong(f"beside {block}: {seen}")
            return 0
        pair = (block.first, block.second)
        locations = self.locations[pair]
        entry = entry_on(self.followed, locations)
        word = beside(entry)
        texts = [paragraph.text() for paragraph in row.all("p")]
        if seen != [word] or heads[1] != "Seen in a run, not proved":
            raise Wrong(f"{seen} beside {pair}, and plainly {word}")
        self.tally[word] += 1
        if entry is None:
            if texts != [WHY[word]]:
                raise Wrong(f"{texts} beside {pair}")
            return 0
        why = shown(entry.get("why", "").encode())
        wanted = [WHY[word] + (f": {why}" if why else "") + "."] + [ELSEWHERE] * (entry["events"] != list(pair))
        if texts != wanted:
            raise Wrong(f"{texts} beside {pair}, and plainly {wanted}")
        table = list(row.all("table"))[1]
        if heads_of(table) != FOLLOWED[: 3 if word == "departed" else 4]:
            raise Wrong(f"over the columns beside {pair} stand {heads_of(table)}")
        lines = [[cell.text() for cell in line.elements()] for line in table.one("tbody").all("tr")]
        ends = (
            [[], []] if word == "departed" else [[shown(entry.get(name, "").encode())] for name in ("first", "second")]
        )
        places = [shown(text.encode().split(b" < ")[0]) for text in entry["locations"]]
        rows = [
            [letter, str(event), place, *end] for letter, event, place, end in zip("AB", entry["events"], places, ends)
        ]
        if lines != rows:
            raise Wrong(f"{lines} beside {pair}, and plainly {rows}")
        if list(row.all("pre"))[0].text() != shown(entry.get("text", "").encode()) + "\n":
            raise Wrong(f"the text beside {pair}")
        self.tally["of other events" if entry["events"] != list(pair) else "of these events"] += 1
        self.tally["turned round"] += [text.encode() for text in entry["locations"]] != locations
        self.tally["told twice"] += entry_on(self.followed[self.followed.index(entry) + 1 :], locations) is not None
        return 1

    def listed_runs(self, name: str, block: Block, listed: plain.Listed) -> tuple[list[bytes], bool]:
        """The lines about the schedule of a race, and whether they have all runs."""
        whole = self.raw_explained(name, block, "--all")
        counts = re.findall(rb" in (\d+) runs? both are next$", whole[0])
        if not counts:
            raise Wrong(f"no count of runs: {whole[0]!r}")
        runs = int(counts[0])
        is_short = runs <= MOST_RUNS and len(listed) <= MOST_LISTED and bytes_of(whole) <= MOST_BYTES
        if runs <= FEW_RUNS or is_short:
            self.tally["words of 16,384 bytes"] += bytes_of(whole) == MOST_BYTES
            return whole, True
        self.tally["runs told in part"] += 1
        self.tally["words of 16,385 bytes"] += bytes_of(whole) == MOST_BYTES + 1
        lines = self.raw_explained(name, block)
        starts = [at for at, line in enumerate(lines) if line.startswith(b"run")]
        first = next((at for at in starts if bytes_of(lines[at:]) <= LAST_BYTES), len(lines))
        self.tally["last runs of 4,096 bytes"] += bytes_of(lines[starts[0] :]) == LAST_BYTES
        self.tally["last runs of 4,097 bytes"] += bytes_of(lines[starts[0] :]) == LAST_BYTES + 1
        if first == starts[0]:
            return lines, False
        self.tally["runs left out"] += 1
        left = runs - sum(line.startswith(b"run ") for line in lines[first:])
        note = f"runs 1 to {left} are left out here; racebench witness prints all events"
        return [*lines[: starts[0]], note.encode(), *lines[first:]], False

    def judge_schedule(self, row: Element, runs: Element, block: Block, name: str) -> None:
        """Judges the picture of the row of a race, what is over it, and the runs of the schedule in words."""
        listed = self.judge_picture(name, block)
        lines, are_all = self.listed_runs(name, block, listed)
        wanted = f"After {counted(str(len(listed)), 'event')} both are next: {block.first} and {block.second}. "
        wanted += f"{DRAWN} {ALL_TOLD if are_all else LAST_TOLD}"
        if row.one("figcaption").text() != wanted:
            raise Wrong(f"the caption is {row.one('figcaption').text()!r}, and plainly {wanted!r}")
        if runs.text().split("\n")[:-1] != [shown(line) for line in lines]:
            raise Wrong(f"{runs.text()}, and not {lines}")
        boxes = len(list(row.one("svg").all("rect")))
        if boxes > MOST_BOXES:
            raise Wrong(f"the picture has {boxes} rectangles")

    def judge_row(self, row: Element, block: Block, name: str, is_drawn: bool) -> None:
        if row.attributes != {"id": f"{block.sort}-{block.first}-{block.second}"}:
            raise Wrong(f"a row {row.attributes}, and not {block}")
        facts = [span.text() for span in row.one("summary").all("span") if classes_of(span) == ["facts"]]
        followed = self.judge_followed(row, block)
        explained = self.explained(name, block, "--all")
        is_untried = facts_of(block).endswith(" 0 tried")
        reasons = [UNTRIED] if is_untried else reasons_of(explained) if block.sort == "apart" else explained[:1]
        wanted = [[facts_of(block), reason] for reason in reasons] if block.sort != "race" else [[facts_of(block)]]
        if facts not in wanted:
            raise Wrong(f"{facts}, and none of {wanted}")
        if row.one("h3").text() != title_of(block, self.tally):
            raise Wrong(f"the title is {row.one('h3').text()!r}, and plainly {title_of(block, self.tally)!r}")
        self.tally["raced"] += block.sort == "apart" and reasons != explained[:1]
        table = next(row.all("table"))
        if heads_of(table) != ACCESSES:
            raise Wrong(f"over the columns stand {heads_of(table)}")
        lines = [access_of(line) for line in table.one("tbody").all("tr")]
        accesses = [(event, *access) for event, access in zip((block.first, block.second), block.accesses)]
        if lines != accesses:
            raise Wrong(f"{lines}, and not {accesses}")
        pictures = list(row.all("svg"))
        if len(pictures) != is_drawn:
            raise Wrong(f"{len(pictures)} pictures")
        if is_drawn:
            self.judge_schedule(row, list(row.all("pre"))[followed], block, name)
        heads = [
            "The two accesses",
            *["Seen in a run, not proved"] * (self.followed is not None and block.sort == "race"),
        ]
        heads += ["A schedule that shows them", "Its runs in words"] * is_drawn + ["To go on"]
        if [head.text() for head in row.all("h4")] != heads:
            raise Wrong(f"the headings of a row are not {heads}")
        commands = list(row.all("pre"))[-1].text()
        if commands != commands_of(block, name):
            raise Wrong(f"the commands are {commands!r}, and plainly {commands_of(block, name)!r}")
        self.tally[block.sort] += 1
        self.tally["untried"] += is_untried
        self.tally["picture"] += len(pictures)
        self.tally["locks"] += sum(len(access[1]) for access in block.accesses)
        self.tally["replaced"] += any("\ufffd" in access[0] for access in block.accesses)

    def judge(self, name: str, arguments: list[str], followed: list[Followed] | None = None) -> None:
        """Judges the page that these words give, with the lines of followed races if there are such."""
        lines = running.printed(self.program, ["triage", name, *arguments]).split(b"\n")[:-1]
        if followed is not None:
            running.write("followed", "".join(json.dumps(entry, sort_keys=True) + "\n" for entry in followed))
            arguments = [*arguments, "--confirmed", "followed"]
        page = running.printed(self.program, ["triage", name, "--page", *arguments])
        self.followed = followed
        self.locations = locations_of(lines)
        root = read(page)
        self.pictures = pictures_of(page)
        if [marker.attributes.get("id") for marker in root.all("marker")] != ["tip"]:
            raise Wrong("the page does not have one tip for all arrows")
        self.trace = plain_trace(name)
        blocks = blocks_of(lines[11:])
        races = sum(block.sort == "race" for block in blocks)
        first = f"{counted(str(races), 'race') if races else 'No races'} in {shown(os.path.basename(name).encode())}"
        first += left_out(lines[11:])
        if root.one("h1").text() != first or root.one("head").one("title").text() != first:
            raise Wrong(f"the first line is {root.one('h1').text()!r}, and plainly {first!r}")
        sections = list(root.one("main").all("section"))
        self.judge_counts(sections[-2].one("tbody"), lines[:11])
        sorts = ["race", "undecided"] + ["apart"] * ("--apart" in arguments)
        headings = ["Races", "Undecided", "Apart"][: len(sorts)] + ["Counts", "What the words mean"]
        if [section.one("h2").text() for section in sections] != headings:
            raise Wrong("other sections")
        for sort, section in zip(sorts, sections):
            self.judge_section(section, sort, [block for block in blocks if block.sort == sort], name)
        self.judge_notes(root.one("main"), sections[-1], lines[11:], "--apart" in arguments)

    def judge_counts(self, table: Element, lines: Sequence[bytes]) -> None:
        """Judges the table of counts: each line has a word, its number and what it means."""
        rows = [tuple(cell.text() for cell in line.elements()) for line in table.all("tr")]
        fields = [line.decode("ascii").split(" ") for line in lines]
        wanted = [(word, number, COUNTED[word]) for word, number in fields]
        if rows != wanted:
            raise Wrong(f"the counts are {rows}, and plainly {wanted}")

    def judge_notes(self, main: Element, meanings: Element, left: Sequence[bytes], is_apart: bool) -> None:
        """Judges what is between the rows and the counts, and the meanings of words."""
        texts = [UNLISTED] * (not is_apart)
        for line in left:
            if re.fullmatch(rb"(known|hidden) [1-9]\d*", line):
                word, number = line.decode("ascii").split(" ")
                end = " left out as known before." if word == "known" else " left out by --only and --hide."
                texts.append(counted(number, "row") + end)
                self.tally[word] += 1
        if texts_in(main, "p", "pre") != texts:
            raise Wrong(f"over the counts stands {texts_in(main, 'p', 'pre')}, and plainly {texts}")
        wanted = [begin + rest for begin, rest in MEANINGS.items()] + [BESIDE_RACES] * (self.followed is not None)
        if [paragraph.text() for paragraph in meanings.all("p")] != wanted:
            raise Wrong("the words mean something else")

    def judge_section(self, section: Element, sort: str, blocks: Sequence[Block], name: str) -> None:
        rows = list(section.all("details"))
        if len(rows) != min(len(blocks), MOST_ROWS):
            raise Wrong(f"{len(rows)} rows of {len(blocks)}")
        texts = ["None."] * (not blocks)
        if self.followed is not None and sort == "race" and blocks:
            texts.append(BESIDE + counted(str(len(self.followed)), "line") + ".")
        texts += more_of(sort, len(blocks), name)
        if texts_in(section, "p", "pre") != texts:
            raise Wrong(f"a section has {texts_in(section, 'p', 'pre')}, and plainly {texts}")
        self.tally["left out"] += len(blocks) > MOST_ROWS
        self.tally["apart left out"] += len(blocks) > MOST_ROWS and sort == "apart"
        pictures = len(list(section.all("svg")))
        if pictures != (min(len(blocks), MOST_PICTURES) if sort == "race" else 0):
            raise Wrong(f"{pictures} pictures of {len(blocks)} rows")
        self.tally["undrawn"] += pictures > 0 and len(blocks) > MOST_PICTURES
        for number, (row, block) in enumerate(zip(rows, blocks)):
            if number < 20 or number >= len(rows) - 3 or number in (199, 200):
                self.judge_row(row, block, name, block.sort == "race" and number < MOST_PICTURES)


TEXTS = [
    "",
    "status 0",
    "signal 11 (SIGSEGV)",
    "hangs",
    "</td><script>alert(1)</script>",
    '"\u0007\u202e<!--',
    "the endings differ",
    "&lt;]]>\U0001f600",
]


def followed_line(chance: random.Random, events: list[int], locations: list[str]) -> Followed:
    """A line on these events and locations, with texts of all kinds."""
    entry = {
        "events": events,
        "locations": locations,
        "places": [text.split(" < ")[0] for text in locations],
        "text": chance.choice(TEXTS),
    }
    if chance.random() < 0.2:
        return {**entry, "ended": "departed", "at": chance.choice([None, events[0]])}
    texts = {name: chance.choice(TEXTS) for name in ("first", "second", "why")}
    flags = {"matters": chance.choice([True, False, None]), "same_memory": chance.random() < 0.8}
    return {**entry, **texts, **flags, "ended": "stands", "liberties": []}


def followed_lines(chance: random.Random, judge: Judge, name: str) -> list[Followed]:
    """Lines on some of the races of a trace, with other events, the locations turned round, or twice; and on races
    that it does not have."""
    lines = running.printed(judge.program, ["triage", name]).split(b"\n")[:-1]
    entries = [followed_line(chance, [3, 1048575], ["no.c:1", "such.c:2 < location"])]
    for pair, locations in locations_of(lines).items():
        texts = [text.decode() for text in locations]
        for _ in range(chance.choice([0, 1, 1, 1, 2])):
            events = list(pair) if chance.random() < 0.7 else [pair[0] + 1, pair[1] + 2]
            entries.append(followed_line(chance, events, texts if chance.random() < 0.7 else texts[::-1]))
    chance.shuffle(entries)
    return entries


def judge_padded(judge: Judge, lines: Sequence[bytes], at: int, size: int) -> None:
    """A page of this trace, after the location of one event was made so long that words have this many bytes."""
    text = b"".join(line + b"\n" for line in lines)
    write("padded", text)
    arguments = ["--all"] if size > LAST_BYTES + 1 else []
    blocks = blocks_of(running.printed(judge.program, ["triage", "padded"]).split(b"\n")[11:-1])
    explained = judge.raw_explained("padded", blocks[-1], *arguments)
    start = 0 if arguments else next(at for at, line in enumerate(explained) if line.startswith(b"run"))
    more = size - bytes_of(explained[start:])
    write("padded", b"".join(line + b"p" * (more * (number == at)) + b"\n" for number, line in enumerate(lines)))
    judge.judge("padded", [])


def judge_bounds(judge: Judge) -> None:
    """Schedules at the bounds of what a page shows."""
    for runs in (FEW_RUNS, FEW_RUNS + 1, MOST_RUNS, MOST_RUNS + 1):
        write("turns", in_turns(runs))
        judge.judge("turns", [])
    for runs in (FEW_RUNS, FEW_RUNS + 1):
        for events in (MOST_LISTED, MOST_LISTED + 1):
            write("turns", in_long_turns(runs, events))
            judge.judge("turns", [])
    for shades in (pictured.MOST_SHADES, pictured.MOST_SHADES + 1):
        write("shaded", with_locks(shades))
        judge.judge("shaded", [])
    for runs, size, length in (
        (MOST_RUNS, MOST_BYTES, 20),
        (MOST_RUNS + 1, LAST_BYTES, 60),
        (FEW_RUNS, MOST_BYTES, 400),
    ):
        lines = [line.replace(b")|1", b")|" + b"l" * length) for line in in_turns(runs).splitlines()]
        for more in (0, 1):
            judge_padded(judge, lines, len(lines) - 4, size + more)


def judge_sizes(judge: Judge) -> None:
    """Pages of races with schedules of up to 50,000 events have at most 64 KiB a race."""
    for run in (8, 100, 2000, 20000):
        write("long", long_schedules(98, 50000, run))
        page = running.printed(judge.program, ["triage", "long", "--page"])
        rows = re.findall(rb'<details id="race-.*?</details>\n', page, re.DOTALL)
        if not rows or max(map(len, rows)) > MOST_ROW:
            raise Wrong(f"{len(rows)} rows, of {max(map(len, rows))} bytes at most")
        judge.tally["long schedules"] += 1
    judge.judge("long", [])


def judge_made(judge: Judge, here: str) -> None:
    """The traces that are not drawn."""
    for name in ["count.std", "pdsh.std", "two_pairs.std"]:
        shutil.copy(os.path.join(here, "..", "examples", name), name)
        judge.judge(name, ["--apart"])
        judge.judge(name, [])
    for number, names in enumerate([NAMES, *([name] for name in NAMES)]):
        write(f"named{number}", named(names))
        judge.judge(f"named{number}", ["--apart"])
    for name in ["'; echo '\"<b>&", "-dash"]:
        write(name, named(NAMES[:1]))
    judge.judge("'; echo '\"<b>&", ["--apart"])
    write("many", many(2003))
    judge.judge("many", [])
    judge.judge("many", ["--only", "|A12|", "--only", "A7"])
    for races in (MOST_PICTURES, MOST_ROWS):
        write("many", many(races))
        judge.judge("many", [])
    judge_bounds(judge)
    write("guarded", guarded(MOST_ROWS + 1))
    judge.judge("guarded", ["--apart"])
    write("undecided", UNDECIDED)
    judge.judge("undecided", ["--tries", "0"])
    write("framed", FRAMED)
    judge.judge("framed", ["--apart"])
    os.mkdir("folder")
    shutil.copy("framed", os.path.join("folder", "copy.std"))
    judge.judge(os.path.join("folder", "copy.std"), [])
    write("raced", b"T1|w(x)|1\nT1|w(y)|2\nT2|r(y)|3\nT2|r(x)|4\n")
    judge.judge("raced", ["--apart"])
    write("empty", b"")
    judge.judge("empty", ["--apart"])
    for name in ["count.std", "pdsh.std", "framed", "empty", "many"]:
        judge.judge(name, ["--apart"] if name != "many" else [], followed_lines(random.Random(name), judge, name))
    judge.judge("count.std", [], [])
    judge_sizes(judge)


def judge_drawn(judge: Judge, chance: random.Random) -> None:
    """A trace that is drawn by chance, with drawn words and perhaps with followed races."""
    draw = chance.choice([by_chance.trace, by_chance.locked_trace])
    trace = draw(chance, chance.choice(MOST_EVENTS))
    places = [f"p{place}.c" for place in range(chance.randint(1, 6))]
    running.write(
        "trace", "".join(trace.line(event) + chance.choice(places) + "\n" for event in range(len(trace.events)))
    )
    known = running.printed(judge.program, ["triage", "trace"]).decode("ascii")
    running.write("known", known)
    # A text without a race would be said on standard error.
    choices: list[list[str]] = [
        [],
        ["--apart"],
        ["--known", "known"] if "\nrace " in known else [],
        ["--hide", "p0.c"],
    ]
    arguments = ["--tries", chance.choice(["0", "1", "16"]), *chance.choice(choices)]
    with judging.about(str(arguments), "trace"):
        judge.judge("trace", arguments, followed_lines(chance, judge, "trace") if chance.random() < 0.5 else None)


def judged(run: judging.Run) -> str:
    judge, tally = Judge(run.program), run.tally
    judge_made(judge, os.path.dirname(os.path.abspath(__file__)))
    for seed in run.seeds():
        with judging.about(f"seed {seed}"):
            judge_drawn(judge, random.Random(seed))
    tally.update(judge.tally)
    count, first = run.numbers
    kinds = (
        f"{tally['race']} races, {tally['undecided']} undecided, {tally['apart']} apart, {tally['picture']} pictures"
    )
    return (
        f"page: {count} traces, seeds {first} to {first + count - 1}, and {len(NAMES)} names: {kinds}, as the "
        f"texts say"
    )


if __name__ == "__main__":
    sys.exit(judging.main("page", judged, REACHED, {"TRACES": TRACES, "SEED": 0}))
