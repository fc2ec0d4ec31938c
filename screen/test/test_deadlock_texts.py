"""The text of `racebench deadlocks` as the screen reads it: what is taken, and what is refused and why."""

import random

import traces
from comparing import same, within
from fake_programs import script
from screen_app.bench import Bench
from screen_app.deadlocks import Deadlocks, Report
from screen_app.messages import Deadlock
from screen_app.pairs import events_of
from screen_app.text import Odd
from screen_app.trace import Trace

# How long a program may take, in seconds.
PATIENCE = 600
COUNTS = "events {}\nthreads 3\nnested 2\npatterns {}\ndeadlocks {}\nundecided {}\napart {}\nwhole 2\n"
BLOCK = """{head}
  T1|acq({b})|abba.c:8 < first
    holds {a} since 2  T1|acq({a})|abba.c:7 < first
  T2|acq({a})|abba.c:16 < second
    holds {b} since 8  T2|acq({b})|abba.c:15 < second
"""
FOUND, OPEN = "deadlock 3 9 ordered events 4 threads 3", "undecided 3 9 tried 16"
ABBA = COUNTS.format(17, 1, 1, 0, 0) + BLOCK.format(head=FOUND, a="a", b="b")
BOTH = COUNTS.format(17, 5, 1, 1, 3) + "".join(BLOCK.format(head=head, a="a", b="b") for head in (FOUND, OPEN))


def read(text: str | bytes) -> tuple[list[Deadlock], Report]:
    """The deadlocks of a text."""
    found: list[Deadlock] = []
    report = Report(found.append)
    for line in (text.encode() if isinstance(text, str) else text).removesuffix(b"\n").split(b"\n"):
        report.line(line)
    report.end()
    return found, report


def refusal(text: str | bytes) -> str:
    """Why a text is refused."""
    try:
        read(text)
    except Odd as why:
        return str(why)
    raise AssertionError(f"it is not refused: {text!r}")


def test_a_deadlock_is_read() -> None:
    found, report = read(ABBA)
    one: dict[str, object] = {"event": 3, "thread": "T1", "lock": "b", "location": "abba.c:8 < first", "holds": []}
    one["hold"] = {"event": 2, "lock": "a", "location": "abba.c:7 < first"}
    other: dict[str, object] = {"event": 9, "thread": "T2", "lock": "a", "location": "abba.c:16 < second", "holds": []}
    other["hold"] = {"event": 8, "lock": "b", "location": "abba.c:15 < second"}
    same(found, [{"how": "ordered", "events": 4, "threads": 3, "requests": [one, other]}])
    same((report.counts["patterns"], report.counts["whole"], report.missing), (1, 2, None))


def test_patterns_that_are_no_deadlocks_are_counted() -> None:
    """A block of an undecided one is read and left out."""
    found, report = read(BOTH)
    same((len(found), report.counts["undecided"], report.counts["apart"]), (1, 1, 3))
    found, report = read("not whole: left out 3 from 7: DEADLOCK\n" + COUNTS.format(0, 0, 0, 0, 0))
    same((found, report.missing), ([], "left out 3 from 7: DEADLOCK"))


ODD_NAMES = [
    "a since 3  T1",
    "x) y (z",
    " ".join("since 2  T1" for _ in range(9)),
    "<script>alert(1)</script>",
    "\"'`",
    "holds b",
    "\x0b\x00",
    "\u202e",
    "x" * 255,
]


def test_a_lock_may_have_any_name() -> None:
    """Also one that looks like the rest of its line: the acquire has the name once more."""
    for name in ODD_NAMES:
        for a, b in ((name, "b"), ("a", name)):
            text = COUNTS.format(17, 1, 1, 0, 0) + BLOCK.format(head=FOUND, a=a, b=b)
            other = f"    holds {ODD_NAMES[0]}\n    holds m\n"
            ((block,), _) = read(text.replace("first\n  T2", f"first\n{other}  T2"))
            one = block["requests"][0]
            shown = (one["lock"], one["hold"]["lock"], one["hold"]["event"], one["holds"])
            plain = name.replace("\x0b\x00", "\\u{b}\\u{0}").replace("\u202e", "\\u{202e}")
            same(shown, (plain if b == name else b, plain if a == name else a, 2, [ODD_NAMES[0], "m"]))


def test_a_location_may_have_any_bytes() -> None:
    """Bars, none at all, and bytes that are no UTF-8."""
    for place, shown in ((b"", ""), (b"|a||  T1|acq(b)|", "|a||  T1|acq(b)|"), (b"\xff\xfe\r", "\ufffd\ufffd\\u{d}")):
        ((block,), _) = read(ABBA.encode().replace(b"abba.c:8 < first", place))
        same(block["requests"][0]["location"], shown)


def test_why_a_text_is_refused() -> None:
    """The number of the line, and what is there."""
    for old, new, why in (
        ("events 17", "events 017", "line 1 is events 017"),
        ("threads 3\nnested", "nested", "line 2 is nested 2"),
        ("nested 2", "nested 99999999999", "line 3 is nested 99999999999"),
        ("ordered", "<b>ordered</b>", "line 9 is deadlock 3 9 <b>ordered</b> events 4 threads 3"),
        ("deadlock 3 9", "deadlock 9 3", "line 9 is deadlock 9 3 ordered events 4 threads 3"),
        ("deadlock 3 9", "deadlock 3 17", "line 9 is deadlock 3 17 ordered events 4 threads 3"),
        ("  T1|acq(b)", " T1|acq(b)", "the block before line 10 is not whole"),
        ("    holds b since 8  T2|acq(b)|abba.c:15 < second\n", "", "the block before line 13 is not whole"),
        ("    holds b since 8", "  T2", "line 13 is   T2  T2|acq(b)|abba.c:15 < second"),
        ("  T1|acq(b)", "  T1|rel(b)", "line 10 is   T1|rel(b)|abba.c:8 < first"),
        ("  T1|acq(b)", "  T3|acq(b)", "line 11 is     holds a since 2  T1|acq(a)|abba.c:7 < first"),
        ("  T1|acq(b)", "  T1|acq(c)", "line 10 is   T1|acq(c)|abba.c:8 < first"),
        ("holds a since 2", "holds a since 3", "line 10 is   T1|acq(b)|abba.c:8 < first"),
        ("holds a since 2", "holds a", "line 11 is     holds a  T1|acq(a)|abba.c:7 < first"),
        ("whole 2", "whole 5", "it counts whole 5"),
        ("deadlocks 1", "deadlocks 2", "it counts 2 deadlocks, and has 1"),
        ("patterns 1", "patterns 2", "it counts 2 patterns, and the kinds are others"),
        (ABBA, "", "line 1 is "),
        (ABBA, "events 17\nthreads 3\n", "it ends after 2 lines"),
        (FOUND, "y" * 10_000, "line 9 is " + "y" * 80 + "…"),
        (FOUND, "\x1b[31m" + "\u202e" * 500, "line 9 is " + ("\\u{1b}[31m" + "\\u{202e}" * 9)[:80] + "…"),
    ):
        assert old in ABBA, old
        same((new[:40], refusal(ABBA.replace(old, new, 1))), (new[:40], why))
    lines = BOTH.splitlines(keepends=True)
    same(refusal("".join(lines[:8] + lines[13:] + lines[8:13])), f"line 14 is {FOUND}")


def test_a_line_that_is_lost_is_missed() -> None:
    """Each line of the text is needed, once and in its place."""
    lines = BOTH.splitlines(keepends=True)
    for at in range(len(lines)):
        refusal("".join(lines[:at] + lines[at + 1 :]))
        refusal("".join(lines[: at + 1] + lines[at:]))
        refusal("".join(lines[:at])) if at else None
    for at in range(len(lines) - 1):
        refusal("".join([*lines[:at], lines[at + 1], lines[at], *lines[at + 2 :]]))


def test_damage_by_chance() -> None:
    """However its bytes are changed, a text is read or refused, and nothing else comes of it."""
    draw, met = random.Random(20261201), {"read": 0, "refused": 0}
    for _ in range(4_000):
        text = bytearray(BOTH.encode())
        for _ in range(draw.randrange(1, 4)):
            at = draw.randrange(len(text))
            cut = draw.randrange(0, 12)
            text[at : at + cut] = bytes(draw.choice(b"\n 019|()abT\x00\xff") for _ in range(draw.randrange(0, 6)))
        try:
            read(bytes(text))
            met["read"] += 1
        except Odd:
            met["refused"] += 1
    assert min(met.values()) > 100, met


async def listed(text: str) -> Deadlocks:
    """The list that a program's output makes."""
    traces.write("trace", traces.ABBA)
    bench = Bench(script("program", text), Trace("trace").read_at_once(), "log", 1)
    made = Deadlocks()
    await within(PATIENCE, made.look(bench, lambda: None))
    return made


async def test_what_a_program_may_do_instead() -> None:
    """It fails, is killed, prints nothing or another text, or goes on for ever after a wrong line."""
    unread = "the list of deadlocks cannot be read: "
    for text, why in (
        ("echo 'racebench: too many patterns' >&2; exit 1", "racebench: too many patterns"),
        ("exit 3", "deadlocks ended with status 3"),
        ("kill -9 $$", "deadlocks ended with status -9"),
        ("exit 0", f"{unread}it ends after 0 lines"),
        ("printf 'events 17'", f"{unread}it ends after 1 lines"),
        ("echo '<script>alert(1)</script>'", f"{unread}line 1 is <script>alert(1)</script>"),
        ("while echo no; do :; done", f"{unread}line 1 is no"),
        ("head -c 70000 /dev/zero; echo", f"{unread}line 1 is longer than 65,536 bytes"),
        ("head -c 70000 /dev/zero", f"{unread}line 1 is longer than 65,536 bytes"),
    ):
        made = await listed(f"#!/bin/sh\n{text}\n")
        shown = made.window("", 0, 9)
        same((text, shown["state"], shown["total"], shown["blocks"]), (text, "failed", 0, []))
        same((text, shown["why"]), (text, why))


async def test_a_window_of_many_deadlocks() -> None:
    """A filter looks at places, threads, locks and events; each word must be there."""
    blocks = [
        BLOCK.format(head=f"deadlock 3 {at} turned events 4 threads 3", a=f"a{at}", b="b") for at in range(9, 39)
    ]
    traces.write("out", COUNTS.format(99, 30, 30, 0, 0) + "".join(blocks))
    made = await listed("#!/bin/sh\ncat out\n")
    same((made.state["state"], made.state["kept"], made.state["more"]), ("found", 30, 0))
    for text, first, total, events in (
        ("", 28, 30, [37, 38]),
        ("", 99, 30, []),
        ("A17", 0, 1, [17]),
        ("abba.c:16 second turned", 0, 30, list(range(9, 14))),
        ("t1 a20", 0, 1, [20]),
        ("ordered", 0, 0, []),
    ):
        shown = made.window(text, first, 5)
        found = [block["requests"][1]["event"] for block in shown["blocks"]]
        same((text, shown["total"], shown["from"], found), (text, total, first, events))


def test_a_schedule_of_the_program_is_read() -> None:
    same(list(events_of(b"0  T0|fork(T1)|a\n2  T1|acq(a)|b\n", 3)), [0, 2])
    same(list(events_of(b"", 3)), [])
    for text, why in (
        (b"0  a\n3  b\n", "line 2 is 3  b"),
        (b"0  a\n0  b\n", "line 2 is 0  b"),
        (b"no\n", "line 1 is no"),
        (b"0  a\n-1  b\n", "line 2 is -1  b"),
    ):
        try:
            events_of(text, 3)
        except Odd as found:
            same(str(found), why)
        else:
            raise AssertionError(f"it is not refused: {text!r}")
