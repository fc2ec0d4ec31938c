"""Judges what record/run writes of a run: that the decoder writes the trace that its judge computes from the records,
where a trace begins and ends, which variables it has, and that one of any length is whole.

What no other judge sees: a trace that begins in the midst of a run and releases a lock that nobody took, a variable
of which a part of the accesses is missing, a limit without a message.
"""

import os
import re
import subprocess
from collections.abc import Iterable, Sequence

from judging import Case, Wrong
from names_of_runs import decoder, python
from recorded_places import PATIENCE, RECORD, SOURCES, TOP, events_in, ran

MOST_EVENTS = 1_048_576
# How many threads many_threads.c makes.
THREADS = 600


def run(*arguments: str) -> tuple[list[str], str]:
    """The events that record/run writes of `program`, and what it says. The recording may be not whole."""
    done = subprocess.run(
        [os.path.join(RECORD, "run"), *arguments], capture_output=True, timeout=PATIENCE, check=False
    )
    if done.returncode not in (0, 4):
        raise Wrong(
            f"record/run {' '.join(arguments)}: status {done.returncode}: {done.stderr.decode(errors='replace')[:600]}"
        )
    return events_in(done.stdout.decode()), done.stderr.decode(errors="replace")


# Programs of tests/recorded whose traces the judge computes. They are small, in C, and have no relaxed atomics.
INTERPRETED = (
    "count each_kind barrier rounds semaphore_lock read_lock between_writers freed signals sockets frames named "
    "returned frame_pointer"
).split()


# How many workers decode a recording: each has a piece of it, however short it is.
WORKERS = (1, 2, 5)


def written_by(workers: int, options: Sequence[str]) -> list[bytes]:
    """What so many workers write of `kept.raw`: the trace, the facts, and the files that options name."""
    command = [decoder(), "--workers", str(workers), *options, "kept.raw"]
    done = subprocess.run(command, capture_output=True, timeout=PATIENCE, check=False)
    if done.returncode:
        raise Wrong(f"{workers} workers end with status {done.returncode}: {done.stderr[:600]!r}")
    found = [done.stdout, done.stderr]
    for path in options[1::2]:
        with open(path, "rb") as file:
            found.append(file.read())
    return found


def judge_workers() -> None:
    """The trace of `kept.raw`, its facts and the files beside it are the same however many workers decode it."""
    choices: list[list[str]] = [[], ["--all"], ["--ordered", "ordered", "--numbers", "numbers"]]
    for options in choices:
        found = [written_by(workers, options) for workers in WORKERS]
        if not found[0][0] or any(other != found[0] for other in found):
            raise Wrong(f"{options}: {WORKERS} workers do not write the same")


def decoded(*options: str) -> tuple[list[str], str]:
    """The trace of the records in `kept.raw`, and the facts of it."""
    done = subprocess.run([decoder(), *options, "kept.raw"], capture_output=True, timeout=PATIENCE, check=False)
    if done.returncode:
        raise Wrong(f"the decoder ended with status {done.returncode}: {done.stderr.decode(errors='replace')[:600]}")
    return events_in(done.stdout.decode()), done.stderr.decode(errors="replace")


def interpreted(*options: str) -> list[str]:
    """The trace of `kept.raw` as its judge computes it."""
    return ran([python(), os.path.join(TOP, "tests", "raw_trace.py"), *options, "kept.raw"]).splitlines()


def judge_decoder(source: str, options: Sequence[str], c: str) -> None:
    """The trace of a run is the one of the records that were kept, and the one that its judge computes from them. The
    pyelftools of Debian 12 do not know the checksums in clang's tables of lines."""
    run = [os.path.join(RECORD, "run"), *options, "--partial", "--names", "raw", "--raw", "kept.raw", "./program"]
    trace = events_in(ran(run))
    again, _ = decoded("--raw-names", *[option for option in options if option == "--no-free"])
    if not trace or trace != again:
        raise Wrong("the trace is not the one of the records that were kept")
    judge_workers()
    stem, ending = os.path.splitext(os.path.basename(source))
    if c != "gcc" or ending != ".c" or stem not in INTERPRETED or "--no-free" in options:
        return
    expected = interpreted()
    if trace != expected:
        first = next((pair for pair in zip(trace, expected) if pair[0] != pair[1]), (len(trace), len(expected)))
        raise Wrong(f"the decoder differs from its judge: {first}")
    judge_objects(decoded()[0], interpreted("--frames"))


def judge_objects(lines: Sequence[str], expected: Sequence[str]) -> None:
    """The names of the source match the objects and places that the judge finds, one to one: no two share a name, and
    each keeps its own."""
    if len(lines) != len(expected):
        raise Wrong(f"with names of the source there are {len(lines)} events, and the judge finds {len(expected)}")
    named: dict[str, str] = {}
    places: dict[str, str] = {}
    for line, other in zip(lines, expected):
        (name, rest), (place, wanted) = operand(line), operand(other)
        if rest != wanted or named.setdefault(place, name) != name or places.setdefault(name, place) != place:
            raise Wrong(
                f"{line} is {other} for the judge; {place} is {named[place]}, and {name} is {places.get(name)}"
            )


def operand(line: str) -> tuple[str, tuple[str, str]]:
    """What an event is of, and the line without it."""
    before, _, rest = line.partition("(")
    name, _, after = rest.partition(")|")
    return name, (before, after)


def held_wrongly(lines: Iterable[str]) -> str | None:
    """The first release of a lock that its thread does not have."""
    held: dict[tuple[str, str], int] = {}
    for line in lines:
        thread, operation, _ = line.split("|", 2)
        word, name = operation.split("(", 1)
        held.setdefault((thread, name), 0)
        held[thread, name] += {"acq": 1, "rel": -1}.get(word, 0)
        if held[thread, name] < 0:
            return line
    return None


def judge_beginning() -> None:
    """A trace from an event on has what comes after it; before that it has the acquires of the locks that are held
    there, and nothing else."""
    run("--raw", "kept.raw", "./program")
    whole, _ = decoded()
    for first in range(1, len(whole), 197):
        rest, facts = decoded("--from", str(first))
        before = int("".join(re.findall(r"^fact before (\d+)$", facts, re.MULTILINE)))
        added, tail = rest[: len(rest) - len(whole) + before], whole[before:]
        if not first <= before < first + 40 or rest[len(added) :] != tail:
            raise Wrong(f"--from {first}: the trace does not end as the whole one does")
        if any("|acq(" not in line or line not in whole[:before] for line in added) or held_wrongly(rest):
            raise Wrong(f"--from {first}: begins with {added}, and {held_wrongly(rest)} lets go what nobody has")


def judge_only() -> None:
    """The trace has the variables that the file accesses, with all their accesses; everything else is as in the
    whole trace."""
    whole, _ = run("--raw", "kept.raw", "./program")
    some, notes = decoded("--only", "p/util.c")
    wanted = [line for line in whole if not re.search(r"\|[rw]\(", line) or "(p_count)" in line]
    if some != wanted or "fact not_chosen 3" not in notes:
        raise Wrong(f"--only p/util.c: {some}, and {notes}")


def judge_length() -> None:
    """A trace may have more events than are read at once, and a line says how it is read; --max limits it, and --for
    ends it while the program goes on."""
    whole, notes = run("--yield", "5000", "./program", str(MOST_EVENTS // 4 + 100))
    if len(whole) <= MOST_EVENTS or "left out" in notes or f"recorded {len(whole)} events" not in notes:
        raise Wrong(f"without --max: {len(whole)} events, and {notes}")
    if "read it with `racebench triage --windows`" not in notes:
        raise Wrong(f"a trace that is too long to be read at once: {notes}")
    limited, notes = run("--max", "1000", "./program", "1000")
    if len(limited) != 1000 or "events left out after the first 1000" not in notes:
        raise Wrong(f"--max 1000: {len(limited)} events, and {notes}")
    judge_seconds()


def judge_threads(racebench: str, c: str) -> None:
    """A trace has threads without a limit, and `triage --windows` reads it; with --max it ends before the 257th."""
    compile_with(c, "many_threads.c")
    whole, notes = run("./program")
    threads = {line.split("|", 1)[0] for line in whole}
    if len(threads) != THREADS + 1 or "left out" in notes or "triage --windows" not in notes:
        raise Wrong(f"without --max: {len(threads)} threads, and {notes}")
    with open("long.std", "w", encoding="utf-8") as text:
        text.writelines(f"{line}\n" for line in whole)
    counts = ran([racebench, "triage", "--windows", "long.std"]).splitlines()[:4]
    if counts[2:] != [f"events {len(whole)}", f"threads {THREADS + 1}"]:
        raise Wrong(f"triage --windows reads {counts}, of {len(whole)} events")
    short, notes = run("--max", str(MOST_EVENTS), "./program")
    if len({line.split("|", 1)[0] for line in short}) > 256 or "since a trace has at most 256 threads" not in notes:
        raise Wrong(f"with --max: {len(short)} events, and {notes}")


def judge_seconds() -> None:
    """--for ends the trace early, and the program goes on. A turn of its loop pauses for 10 ms at least, so with four
    times as many turns as fit into the time a part is left out. On a slow machine the time may be over before much is
    recorded, or the end may come late, when the program has ended: then the time is longer, up to a minute."""
    for seconds in (0.3, 1, 3, 10, 60):
        turns = int(400 * seconds)
        short, notes = run("--for", str(seconds), "./program", str(turns), "10000")
        if len(short) > 4 * turns + 4 or "ended with status 0" not in notes:
            break
        if len(short) > 4 and "(--for)" in notes:
            return
    raise Wrong(f"--for {seconds}: {len(short)} events, and {notes}")


def compile_with(c: str, *sources: str) -> None:
    ran(
        [os.path.join(RECORD, "cc"), "-O1", *[os.path.join(SOURCES, name) for name in sources], "-o", "program"],
        env=dict(os.environ, RECORD_CC=c),
    )


def judge_options(c: str) -> None:
    compile_with(c, "each_kind.c")
    judge_beginning()
    os.unlink("kept.raw")
    compile_with(c, "places/main.c", "places/p/util.c", "places/q/util.c")
    judge_only()
    compile_with(c, "long.c")
    judge_length()


def refused(*arguments: str) -> list[str]:
    """The lines that record/run says if it writes no event and ends with status 1."""
    command = [os.path.join(RECORD, "run"), *arguments]
    done = subprocess.run(command, capture_output=True, timeout=PATIENCE, check=False)
    if done.returncode != 1 or events_in(done.stdout.decode()):
        raise Wrong(f"{list(arguments)}: status {done.returncode}, {done.stdout[:300]!r}")
    return done.stderr.decode(errors="replace").splitlines()


def judge_refusals(c: str) -> None:
    """A file that can't be written is refused before the program runs; what is no program is called so; and if the
    options leave out all events, it is not said that there are none."""
    decoder()
    compile_with(c, "each_kind.c")
    for option in ("--raw", "--clock"):
        notes = refused(option, "no_folder/file", "./program")
        if notes != ["record/run: no_folder/file: No such file or directory"]:
            raise Wrong(f"{option} in a folder that is not there: {notes}")
        if refused(option, ".", "./program") != ["record/run: .: Is a directory"]:
            raise Wrong(f"{option} of a folder is not refused")
    source = os.path.join(SOURCES, "each_kind.c")
    if refused(source) != [f"record/run: {source}: Permission denied; it is not a program: record/cc makes one"]:
        raise Wrong(f"a source: {refused(source)}")
    for options in (["--from", "1000000"], ["--max", "0"]):
        notes = refused(*options, "./program")
        if "record/run: no event was written: the options leave out all of them" not in notes or "thread" in notes[-2]:
            raise Wrong(f"{options}: {notes}")
    judge_no_decoder()


def judge_no_decoder() -> None:
    """If the decoder can't be compiled, one line says what to install, and the program does not run."""
    for compiler, reason in (("false", "false failed"), ("no-such-compiler", "there is no no-such-compiler")):
        environment = dict(os.environ, RECORD_CXX=compiler, XDG_CACHE_HOME=os.path.join(os.getcwd(), "cache"))
        command = [os.path.join(RECORD, "run"), "./program"]
        done = subprocess.run(command, capture_output=True, timeout=PATIENCE, env=environment, check=False)
        lines = done.stderr.decode(errors="replace").splitlines()
        advice = "install g++ and libdw-dev, or name a compiler in RECORD_CXX"
        if (
            done.returncode != 1
            or done.stdout
            or lines[-1] != (f"record/run: the decoder can't be compiled: {reason}; {advice}")
        ):
            raise Wrong(f"the compiler {compiler}: status {done.returncode}: {lines}")


def judge_versions(racebench: str) -> None:
    """The commands of the recorder print the version of racebench."""
    for command in ("run", "follow", "confirm", "check", "reported"):
        if ran([os.path.join(RECORD, command), "--version"]) != ran([racebench, "--version"]):
            raise Wrong(f"record/{command} --version prints another version than racebench")


def cases(racebench: str, c: str) -> list[Case]:
    versions: Case = ("versions of the recorder", judge_versions, (racebench,))
    refusals: Case = (f"refusals of options, {c}", judge_refusals, (c,))
    threads: Case = (f"more threads than a trace has, {c}", judge_threads, (racebench, c))
    return [versions, refusals, (f"beginning, files and length of a trace, {c}", judge_options, (c,)), threads]
