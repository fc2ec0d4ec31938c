"""What the screen reads and lays out, judged by chance and without a browser."""

import hashlib
import os
import random
import subprocess
from array import array
from collections.abc import Iterator

import traces
from comparing import same
from screen_app.layout import Layout
from screen_app.messages import SourceLines
from screen_app.mirror import Mirror
from screen_app.row import Row
from screen_app.sheet import Sheet
from screen_app.source import Source
from screen_app.text import clean
from screen_app.trace import NONE, READ, WRITE, Trace

# Lines as the format allows them, and their canonical text.
ODD = b"""  T1 |\tw( x )| a:1 \r

T1|begin(start)|a:0
T2 | end
T2|r(x)
 T1|w(x)|b|c | d:2
T3|acq((m))|a:3
T3|rel((m))|
T1|fork(T4)|a:1\r
T4|r( x)|a:1
   \t
T1|join( T4 )|a:1
T5|w(y)|a:9"""
CANONICAL = b"""T1|w(x)|a:1
T2|r(x)|
T1|w(x)|b|c | d:2
T3|acq((m))|a:3
T3|rel((m))|
T1|fork(T4)|a:1
T4|r(x)|a:1
T1|join(T4)|a:1
T5|w(y)|a:9
"""


def test_a_trace_with_odd_lines(program: str) -> None:
    with open("odd", "wb") as file:
        file.write(ODD)
    trace = Trace("odd").read_at_once()
    same(len(trace), 9)
    same([*trace.digests()][-1], hashlib.sha256(CANONICAL).hexdigest())
    same(trace.threads.raw, [b"T1", b"T2", b"T3", b"T4", b"T5"])
    same(list(trace.writer), [NONE, 0, NONE, NONE, NONE, NONE, 2, NONE, NONE])
    same([list(trace.readers(write)) for write in (0, 2, 8)], [[1], [6], []])
    same([list(own) for own in trace.events_of], [[0, 2, 5, 7], [1], [3, 4], [6], [8]])
    same(trace.fork_of, {3: 5})
    done = subprocess.run([program, "info", "odd"], capture_output=True)
    if done.returncode or done.stdout:  # a fake program prints nothing
        assert b"events 9" in done.stdout, done


ROUNDS = 6


def changed(draw: random.Random, trace: Trace, events: "array[int]") -> "array[int]":
    """The list with two neighbours of other threads and variables exchanged, or another beginning of the trace."""
    if draw.random() < 0.3 and len(events) > 2:
        at = draw.randrange(len(events) - 1)
        one, two = events[at], events[at + 1]
        if trace.thread[one] != trace.thread[two] and max(trace.word[one], trace.word[two]) <= WRITE:
            if trace.name[one] != trace.name[two]:
                events = events[:]
                events[at], events[at + 1] = two, one
        return events
    return array("I", range(draw.randrange(3000)))


def session(program: str, text: str) -> list[str]:
    done = subprocess.run([program, "session", "trace", "log"], input=text.encode(), capture_output=True, check=True)
    return done.stdout.decode().splitlines()


CALLS = 300
NAMES = ["A", "B", "C", "D"]


def command(draw: random.Random, events: int) -> str:
    name, event = draw.choice(NAMES), draw.randrange(events)
    return draw.choice(
        [
            f"new {name}",
            f"add {name} {event}",
            f"add  {name}\t00{event}",
            f"add {name} {draw.randrange(8)}",
            f"back {name}",
            f"swap {name} {draw.randrange(6)}",
            f"branch {name} {draw.randrange(6)} {draw.choice(NAMES)}",
            f"drop {name}",
            f"adopt {name} {draw.randrange(3)}",
            f"add {name} {event % 12}",
            f"add {name} {event % 5}",
        ]
    )


WITNESS = "7 12 0 2 3 4 5 6 1 8 9 10 11"


def calls(draw: random.Random, events: int) -> Iterator[str]:
    """Lines of a script, of three clients, with odd blanks."""
    for _ in range(CALLS):
        name = draw.choice(NAMES)
        one, two, three = (command(draw, events) for _ in range(3))
        adds = " ; ".join(f"add {name} {number}" for number in range(draw.randrange(1, 12)))
        yield f"{draw.randrange(1, 4)}  " + draw.choice(
            [
                one,
                one,
                one,
                "undo",
                f"undo {draw.randrange(60)}",
                f"batch {one} ; {two}  ;  {three}",
                f"propose {WITNESS}",
                "propose 7 12",
                f"batch new {name} ; {adds}",
            ]
        )


def mirrored(program: str, draw: random.Random, trace: Trace) -> Mirror:
    """The mirror of a log that came in two parts."""
    text = "\n".join(calls(draw, len(trace))) + "\n"
    half = text.find("\n", len(text) // 2) + 1
    mirror = Mirror("log", trace)
    for part in (text[:half], text[half:]):
        session(program, part)
        mirror.sync()
        same(mirror.fault, None)
    return mirror


def grown(path: str, lines: list[bytes]) -> Iterator[int]:
    """The file as it grows, a line at a time: the gate after its last line is closed."""
    with open(path, "wb") as file:
        for number in range(len(lines)):
            file.seek(0)
            file.write(b"\n ".join(lines[: number + 1]) + b"\n!")
            file.flush()
            yield number


def test_a_schedule_as_it_was(program: str) -> None:
    """What the mirror keeps of changes leads back to the events of each schedule, however long ago."""
    for seed in range(ROUNDS):
        traces.write("trace", traces.COUNT)
        trace = Trace("trace").read_at_once()
        mirrored(program, random.Random(seed), trace)
        with open("log", "rb") as file:
            lines = file.read().rstrip(b"!").rstrip(b"\n").split(b"\n ")
        mirror = Mirror("part", trace)
        was: list[tuple[int, Row, list[int]]] = []
        mirror.is_followed = True
        for number in grown("part", lines):
            mirror.sync()
            same((mirror.fault, len(mirror.entries)), (None, number))
            was += [(number, row, list(row.events)) for row in mirror.rows.values()]
        for number, row, events in was:
            same(row.events_at(number), events)
        assert len(was) > 50, len(was)
        touches = {entry for _, row, _ in was for entry in row.touches}
        changed = [entry.number for entry in mirror.entries if entry.kind not in ("propose", "drop", "undo")]
        same([entry for entry in changed if entry not in touches and mirror.entries[entry].undone is None], [])
        os.remove("log")


def test_the_mirror_is_the_log(program: str) -> None:
    entries = 0
    for seed in range(ROUNDS):
        traces.write("trace", traces.COUNT)
        trace = Trace("trace").read_at_once()
        mirror = mirrored(program, random.Random(seed), trace)
        names = [row["name"] for row in mirror.schedule_messages() if row]
        answers = session(program, "1 list\n" + "".join(f"1 show {name}\n" for name in names))
        same(answers[0], " ".join(["names", *names]))
        for name, line in zip(names, answers[1:]):
            row = mirror.rows[name]
            same(line, " ".join(["shown", *map(str, row.events)]))
            same(len(row.since), len(row.events))
            for entry, event in zip(row.since, row.events):  # what put it there names it, or took it from elsewhere
                text = " ".join(mirror.entries[entry].fields)
                same(mirror.entries[entry].undone, None)
                assert f" {event}" in text or "adopt" in text or "00" in text, (event, text)
        same([*trace.digests(7)][-1], mirror.digest)
        entries += len(mirror.entries)
        os.remove("log")
    assert entries > ROUNDS * 50, entries


def test_a_log_that_cannot_be_followed(program: str) -> None:
    traces.write("trace", traces.COUNT)
    session(program, "1 new A\n1 add A 0\n")
    with open("log", "rb") as file:
        text = file.read()
    foreign = (text[:-1] + b" 1 add B 7\n!", "no call")
    for changed, why in ((text[:90], "shorter"), foreign, (text[:-1] + b" x\n!", "no call")):
        mirror = Mirror("log", Trace("trace").read_at_once())
        mirror.sync()
        same(mirror.fault, None)
        with open("other", "wb") as file:
            file.write(changed)
        mirror.path = "other"
        mirror.sync()
        assert why in (mirror.fault or ""), (why, mirror.fault)
    os.remove("log")
    mirror = Mirror("log", Trace("trace").read_at_once())
    mirror.sync()
    assert "cannot be read" in (mirror.fault or ""), mirror.fault


def test_another_log_of_the_same_length(program: str) -> None:
    """It is looked into, though it is no longer than what was read. One with the same end is taken for the same."""
    traces.write("trace", traces.COUNT)
    session(program, "1 new A\n1 add A 0\n")
    with open("log", "rb") as file:
        text = file.read()
    mirror = Mirror("log", Trace("trace").read_at_once())
    mirror.sync()
    same((mirror.grew(), mirror.fault), (False, None))
    foreign = (text.replace(b"add A 0", b"add A 2"), "the log is not the one that was read before")
    for changed, fault in ((text, None), foreign):
        with open("other", "wb") as file:
            file.write(changed)
        os.replace("other", "log")
        same(mirror.grew(), True)
        mirror.sync()
        same(mirror.fault, fault)
        same(mirror.grew(), False)


def last_writes(trace: Trace, events: "array[int]") -> Iterator[tuple[int, int]]:
    """Of each read the position of the write that it sees, by going over the list."""
    last: dict[int, int] = {}
    for position, event in enumerate(events):
        if trace.word[event] == READ:
            yield position, last.get(trace.name[event], NONE)
        elif trace.word[event] == WRITE:
            last[trace.name[event]] = position


def test_a_sheet_grows_and_shrinks() -> None:
    """A sheet that became another list, again and again, is the one that is made of that list at once."""
    for seed in range(4):
        draw = random.Random(seed)
        traces.big("bigger", 3000, 6, seed)
        trace = Trace("bigger").read_at_once()
        sheet, events = Sheet(trace), array("I")
        for _ in range(20):
            events = changed(draw, trace, events)
            sheet.become(events)
            other = Sheet(trace)
            other.become(events)
            other.expanded = sheet.expanded
            for field in ("events", "counts", "run_start", "run_thread", "run_before", "run_row", "position"):
                same(getattr(sheet, field), getattr(other, field))
            same(Layout(sheet).window(0, 10**6), Layout(other).window(0, 10**6))
            for position, write in last_writes(trace, events):
                same(sheet.seen(position), write)
            if len(events) > 10 and draw.random() < 0.5:
                sheet.toggle(draw.randrange(len(events)))


def test_windows_are_parts_of_the_whole() -> None:
    traces.big("bigger", 3000, 6, 5)
    trace = Trace("bigger").read_at_once()
    sheet = Sheet(trace)
    sheet.become(array("I", range(2900)))
    for position in (0, 700, 1500):
        sheet.toggle(position)
    layout = Layout(sheet)
    whole = layout.window(0, 10**6)["rows"]
    same([row for first in range(0, layout.total, 37) for row in layout.window(first, 37)["rows"]], whole)
    assert any("size" in row for row in whole) and len(whole) == layout.total
    at = 0
    for number, row in enumerate(whole):
        same((row["position"], layout.row_of(at)), (at, number))
        at += row.get("size", 1)
    same(at, 2900)
    row_of = [number for number, row in enumerate(whole) for _ in range(row.get("size", 1))]
    for number in range(0, layout.total, 11):  # locks of a window are those that a look over all events finds
        last = min(layout.total, number + 11)
        low, high = row_of.index(number), 2899 - row_of[::-1].index(last - 1)
        held = {
            (
                section.lock,
                section.begin,
                row_of[section.begin] if section.begin >= low else number - 1,  # else right above the window
                row_of[section.end] if section.end is not None and section.end <= high else last,
                section.end is None,
            )
            for section in sheet.sections.all
            if section.begin <= high and (section.end is None or section.end >= low)
        }
        rows = {
            (lock["lock"], sheet.position[lock["event"]], lock["from"], lock["to"], lock["open"])
            for lock in layout.window(number, 11)["locks"]
        }
        same(rows, held)


def test_the_reads_of_a_write_that_are_named() -> None:
    """As many as a line has room for; the page shows whether there are others."""
    traces.write("reads", "T0|w(x)|a:0\n" + "".join(f"T{at}|r(x)|b:{at}\n" for at in range(1, 27)))
    for reads, others in ((0, False), (1, False), (24, False), (25, True), (26, True)):
        sheet = Sheet(Trace("reads").read_at_once())
        sheet.become(array("I", range(reads + 1)))
        (write, *_) = Layout(sheet).window(0, 100)["rows"]
        same((write["readers"], "more_readers" in write), ([*range(1, min(reads, 24) + 1)], others))


def test_names_are_made_harmless() -> None:
    same(clean("a\u202eb\x1b[31m\x00"), "a\\u{202e}b\\u{1b}[31m\\u{0}")
    same(clean(b"\xff\xfe"), "\ufffd\ufffd")
    same(clean("é🙂"), "é🙂")
    for sign in (0xAD, 0x7F, 0x85, 0x2028, 0x2029, 0x2066, 0xD800, 0xE000, 0xFEFF, 0x378, 0xE0001, 0x10FFFF):
        same(clean(f"a{chr(sign)}b"), f"a\\u{{{sign:x}}}b")


def found_in(source: Source, place: str, around: int = 0) -> SourceLines:
    """The lines of a place that is found."""
    lines = source.around(place, around)
    assert lines is not None, place
    return lines


def test_source_lines_of_one_folder_alone() -> None:
    os.makedirs("project/src")
    os.makedirs("outside")
    traces.write("project/src/a.c", "one\ntwo\n\tthree\n")
    traces.write("outside/secret.c", "secret\n")
    os.symlink(os.path.abspath("outside/secret.c"), "project/src/secret.c")
    os.symlink(os.path.abspath("outside"), "project/linked")
    source = Source("project")
    same(found_in(source, "a.c:2", 1)["lines"], [[1, "one"], [2, "two"], [3, "    three"]])
    same(found_in(source, "other/src/a.c:1")["file"], "src/a.c")
    for place in (
        "secret.c:1",
        "linked/secret.c:1",
        "../outside/secret.c:1",
        "/etc/passwd:1",
        "a.c:0",
        "a.c:9",
        "a.c",
        "src/../src/:1",
        "\0:1",
    ):
        same(source.around(place), None)
    os.makedirs("project/.git")
    traces.write("project/.git/kept.c", "one\n")
    traces.write("project/wide.c", "x" * 500 + "\n" + "y\u202ez\n" * 200)
    source = Source("project")
    same(source.around("kept.c:1"), None)  # folders whose names begin with a dot are passed over
    same(found_in(source, "wide.c:1")["lines"], [[1, "x" * 400]])
    same(source.of_places({"wide.c:2", "a.c:3", "none.c:1"}), {"wide.c:2": "y\\u{202e}z", "a.c:3": "three"})
    same([at for at, _ in found_in(source, "wide.c:100", 99)["lines"]], list(range(60, 141)))
    os.makedirs("project/deep/er")
    traces.write("project/deep/er/a.c", "another\n")
    source = Source("project")
    lines = [found_in(source, f"{path}a.c:1")["lines"][0][1] for path in ("", "src/", "er/", "x/deep/er/", "deep/")]
    same(lines, ["one", "one", "another", "another", "one"])  # the longest end in common, and then the shortest path
    os.remove("project/deep/er/a.c")
    os.remove("project/src/a.c")
    os.symlink(os.path.abspath("outside/secret.c"), "project/src/a.c")
    same(Source("project").around("a.c:1"), None)
    source = Source("outside")
    os.rename("outside/secret.c", "moved.c")
    os.symlink(os.path.abspath("moved.c"), "outside/secret.c")
    same(source.around("secret.c:1"), None)  # it became a link after the walk
