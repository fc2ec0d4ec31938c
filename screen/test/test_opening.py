"""How a page opens, without a browser: a long trace is read in sections, and what others did is counted once."""

import os
import random
import re
import shutil
import subprocess
from typing import Any

import pytest

import traces
from comparing import same
from screen_app import news, readers, session
from screen_app.entries import Entry
from screen_app.trace import Part, Trace


def columns(trace: Trace) -> tuple[object, ...]:
    """All that a trace that was read consists of."""
    names = [numbers.raw for numbers in (trace.threads, trace.variables, trace.locks)]
    places = [trace.places.raw[place] for place in trace.place]
    return names, places, trace.thread, trace.word, trace.name, trace.events_of, trace.fork_of


LINES = [
    "T{0}|w(x{1})|a.c:{1}",
    "T{0}|r(x{1})|a.c:{0} < b.c:{1}",
    " T{0} | acq( m{1} ) | ",
    "T{0}|rel(m{1})|c:1\r",
    "T{0}|fork(U{1})|d:{0}",
    "T{0}|join(T{1})|d:1",
    "U{1}|w(x{0})",
    "",
    "no event",
    "T{0}|begin(x)|a",
    "T{0}|w(\u202e{1}|)|é|{0}",
]


def joined(path: str, number: int) -> Trace:
    trace = Trace(path)
    for _ in trace.join([readers.section_of(path, *section) for section in readers.sections(path, number)]):
        pass
    return trace


def test_sections_make_the_whole_trace() -> None:
    for seed in range(60):
        draw = random.Random(seed)
        lines = [draw.choice(LINES).format(draw.randrange(4), draw.randrange(6)) for _ in range(draw.randrange(60))]
        traces.write("odd", "\n".join(lines) + draw.choice(["", "\n"]))
        whole = columns(Trace("odd").read_at_once())
        for number in (1, 2, 3, 7):
            same(columns(joined("odd", number)), whole)


def test_processes_read_sections() -> None:
    traces.big("bigger", 9000, 6, 3)
    trace, whole = Trace("bigger"), Trace("bigger").read_at_once()
    helpers = [readers.Helper("bigger", *section) for section in readers.sections("bigger", 3)]
    for _ in trace.join([Part(*helper.answer()) for helper in helpers]):
        pass
    same(columns(trace), columns(whole))


async def test_a_helper_that_fails() -> None:
    """Then the screen reads all by itself."""
    traces.big("bigger", 9000, 6, 3)
    read = readers.Readers("bigger")
    same(read.helpers, [])  # a short trace is read by one process
    read.helpers = [readers.Helper("bigger", 0, 100), readers.Helper("none", 100, 200)]
    same(await read.parts(), [])
    same(read.helpers, [])


async def test_what_others_did_is_counted_once(monkeypatch: pytest.MonkeyPatch) -> None:
    """A step of this analyst does not count again what others did before it."""
    entries = [Entry(number, 2 + number % 2, ["add", "A", str(number)]) for number in range(1000)]
    taken: list[int] = []
    take = news.Count.take

    def counted(count: news.Count, entry: Entry) -> None:
        taken.append(entry.number)
        take(count, entry)

    monkeypatch.setattr(news.Count, "take", counted)
    counter = news.News(2)
    first = [{"client": 3, "name": "A", "last": 999, "counts": {"add": 500}}]
    same(await counter.since(0, entries), first)
    entries += [Entry(1000, 2, ["back", "A"])]
    same(await counter.since(0, entries), first)
    same(len(taken), 500)
    entries += [Entry(1001, 3, ["batch", "new", "B", ";", "add", "B", "7", ";", "add", "B", "8"])]
    other = {"client": 3, "name": "B", "last": 1001, "counts": {"new": 1, "add": 2}}
    same(await counter.since(0, entries), [other, *first])
    same(await counter.since(1001, entries), [other])


STATIC = os.path.join(os.path.dirname(os.path.dirname(os.path.abspath(__file__))), "static")


def test_the_page_asks_for_its_modules_at_once() -> None:
    """Else each would be requested as soon as the one that imports it was read."""
    with open(os.path.join(STATIC, "index.html"), encoding="utf-8") as file:
        modules = re.findall(r'(?:modulepreload" href|script type="module" src)="/([a-z]+\.js)"', file.read())
    same(sorted(modules), sorted(name for name in os.listdir(STATIC) if name.endswith(".js")))


SCREEN = os.path.join(os.path.dirname(os.path.dirname(os.path.abspath(__file__))), "screen")


def test_wrong_arguments_are_refused_in_a_line(program: str) -> None:
    traces.write("trace", traces.COUNT)
    os.mkfifo("pipe")
    for arguments, why in (
        (["--client", "33"], "'33' is no number from 1 to 32"),
        (["--client", "0"], "'0' is no number"),
        (["--client", "x"], "'x' is no number"),
        (["--port", "65536"], "'65536' is no number from 0 to 65535"),
        (["--port", "-1"], "'-1' is no number"),
        (["--source", "none"], "none is no folder"),
        (["--known", "none"], "none is no file that can be read"),
        (["--triage", "."], ". is no file that can be read"),
        (["none", "log"], "none is no file that can be read"),
        (["pipe", "log"], "pipe is no file that can be read"),
        (["trace", "."], ". is a folder, and no log"),
        (["trace", "none/log"], "none is no folder for a log"),
        (["--program", "none"], "none is no program; name one with --program"),
    ):
        files = ["trace", "log"] if arguments[0].startswith("--") else []
        done = subprocess.run(
            ["/usr/bin/python3", SCREEN, *files, "--program", program, *arguments], capture_output=True, text=True
        )
        same(done.returncode, 2)
        assert why in done.stderr and len(done.stderr) < 400, done.stderr


def test_the_program_is_found_beside_the_screen() -> None:
    """Of three programs $RACEBENCH comes first, then the one that was built here, then the one on the path."""
    shutil.copytree(os.path.dirname(SCREEN), "own/screen", ignore=shutil.ignore_patterns("test", "__pycache__"))
    traces.write("trace", traces.COUNT)
    here = os.path.abspath(".")
    for name in ("path/racebench", "own/crates/racebench/out/racebench", "chosen/racebench"):
        os.makedirs(os.path.dirname(name))
        traces.write(name, f"#!/bin/sh\necho {name} > {here}/called\nexit 1\n")
    command = ["/usr/bin/python3", "-B", "own/screen/screen", "trace", "log"]
    usual = {name: value for name, value in os.environ.items() if name != "RACEBENCH"}
    for environment, runnable in (
        ({"RACEBENCH": f"{here}/chosen/racebench"}, "chosen/racebench"),
        ({"PATH": f"{here}/path"}, "own/crates/racebench/out/racebench"),
        ({"PATH": f"{here}/path"}, "path/racebench"),
    ):
        os.chmod(runnable, 0o755)
        subprocess.run(command, capture_output=True, check=False, env={**usual, **environment})
        with open("called", encoding="utf-8") as called:
            same(called.read(), f"{runnable}\n")
        os.chmod(runnable, 0o644)
    done = subprocess.run(command, capture_output=True, text=True, check=False, env={**usual, "PATH": f"{here}/path"})
    assert done.returncode == 2 and "racebench was not built here and is not on the path" in done.stderr, done.stderr


def test_a_log_that_may_not_be_written() -> None:
    """The screen names it. The program would only say that a write failed."""
    shutil.copytree(os.path.dirname(SCREEN), "own", ignore=shutil.ignore_patterns("test", "__pycache__"))
    os.chmod(".", 0o755)
    os.mkdir("there", 0o755)
    traces.write("trace", traces.COUNT)
    traces.write("there/log", "")
    for path, mode in (("trace", 0o644), ("there/log", 0o444), ("there", 0o555)):
        os.chmod(path, mode)
    user = 65534 if os.geteuid() == 0 else None  # root may do all
    groups = None if user is None else [user]
    for log, why in (
        ("there/log", "you may not write there/log; name another LOG"),
        ("there/new", "you may not make there/new; name a LOG in a folder of yours"),
    ):
        command = ["/usr/bin/python3", "-B", "own/screen", "trace", log, "--program", "/bin/true"]
        done = subprocess.run(command, capture_output=True, text=True, user=user, group=user, extra_groups=groups)
        same((done.returncode, done.stderr.splitlines()[-1]), (2, f"screen: error: {why}"))
    os.chmod("there", 0o755)


async def test_a_list_that_is_longer_than_is_kept(program: str, monkeypatch: pytest.MonkeyPatch) -> None:
    """The first pairs of places are kept, and the rest is counted."""
    lines = [f"T{thread}|w(v{at})|{thread}.c:{at}\n" for thread in (1, 2) for at in range(30)]
    traces.write("trace", "".join(lines))
    heard: list[str] = []
    blocks: list[dict[str, Any]] = []
    monkeypatch.setattr(session, "MOST_BLOCKS", 20)
    counts, more = await session.triage(program, "trace", heard.append, blocks.append)
    same((counts["races"], len(blocks), more), (30, 20, 10))
    same({block["kind"] for block in blocks}, {"race"})
    assert all(session.PROGRESS.fullmatch(line) for line in heard), heard
