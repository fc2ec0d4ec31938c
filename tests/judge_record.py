#!/usr/bin/env python3
"""Judges record/: programs of tests/recorded and examples/count.c are compiled, run and recorded, and `info` and
`replay` of the program have to accept each trace and to find the one race that is in it, and no other.

    judge_record.py PROGRAM [CASE ..]      with texts, only the cases whose names contain one

Says what is wrong; the last line is `N passed, M failed`. A case that fails is tried once more, when all others have
ended; one that passes then is a defect to be mended, and the last line names it. If no C compiler with the hooks is
there, nothing is judged, and a line says so.
"""

import multiprocessing
import os
import re
import signal
import subprocess
import sys
import tempfile
from collections.abc import Callable, Iterable, Iterator, Mapping, Sequence

if __name__ == "__main__":
    sys.dont_write_bytecode = True
import judging
import names_of_runs
import recorded_chance
import recorded_ci
import recorded_counts
import recorded_deadlocks
import recorded_deadlocks_followed
import recorded_drawn
import recorded_follow
import recorded_go
import recorded_java
import recorded_labelled
import recorded_leaving
import recorded_names
import recorded_options
import recorded_pass
import recorded_places
import recorded_planted
import recorded_raw
import recorded_reports
import recorded_runs
import recorded_rust
import recorded_strangers
import recorded_tries
import recorded_values
import recorded_whole
import recorded_workers
import second_tries
from judging import Case, Wrong

TOP = os.path.dirname(os.path.dirname(os.path.abspath(__file__)))
RECORD = os.path.join(TOP, "record")
# How long a command may take, on a machine that does much else.
PATIENCE = recorded_places.PATIENCE
# Runs of each program; every further compiler makes one.
SEEDS = (1, 2, 3)
# Runs of each program where locks come between, so that each order of the locks is met.
MANY = tuple(range(1, 21))
# A recording is made again so often if the machine was so busy that a thread lost its turn by force.
AGAIN = recorded_places.AGAIN
# Two lines of a source, the lesser first.
Lines = tuple[str, ...]
# Each program, the options of the recorder, and the pairs of lines that race in it: RACE are the lines marked so, and
# TRIAGED the same if locks come between, so that no candidate but a schedule shows it.
PROGRAMS: list[tuple[str, list[str], set[Lines | str]]] = [
    ("examples/count.c", [], {("count.c:13", "count.c:7")}),
    ("tests/recorded/each_kind.c", [], {"RACE"}),
    ("tests/recorded/each_kind.c", ["--yield", "1"], {"RACE"}),
    ("tests/recorded/each_kind.cpp", [], {"RACE"}),
    ("tests/recorded/barrier.c", [], set()),
    ("tests/recorded/polls.c", [], {"RACE"}),
    ("tests/recorded/rounds.c", [], {"RACE"}),
    ("tests/recorded/semaphore_lock.c", [], {"TRIAGED"}),
    ("tests/recorded/relaxed.c", [], {"RACE"}),
    ("tests/recorded/read_lock.c", [], {"RACE"}),
    ("tests/recorded/between_writers.c", [], {"TRIAGED"}),
    ("tests/recorded/read_often.c", [], {"TRIAGED"}),
    ("tests/recorded/freed.c", ["--no-free"], set()),
    ("tests/recorded/freed.c", [], {("freed.c:11", "freed.c:6")}),
    ("tests/recorded/returned.c", [], {"RACE"}),
    ("tests/recorded/returned.c", ["--no-free"], set()),
    ("tests/recorded/frame_pointer.c", [], {"RACE"}),
    ("tests/recorded/signals.c", [], {"RACE"}),
    ("tests/recorded/sockets.c", [], {"RACE"}),
    ("tests/recorded/openmp.c", [], {"RACE"}),
    ("tests/recorded/teams.c", [], {"RACE"}),
    ("tests/recorded/region.c", [], {"RACE"}),
    ("tests/recorded/taskloop.c", [], set()),
    ("tests/recorded/rust_locks.c", [], {"TRIAGED"}),
]
# Those with OpenMP, of which the recorder knows the one of GCC.
OPENMP = ("openmp.c", "teams.c", "region.c", "taskloop.c")
# The program that has a child process, so that its recording is not whole.
FORKS = "each_kind.c"


def done(command: Sequence[str], wanted: int = 0, env: Mapping[str, str] | None = None) -> tuple[str, str]:
    """What a command wrote on standard output and on standard error."""
    ran = names_of_runs.run(command, PATIENCE, env)
    if ran.returncode != wanted:
        raise Wrong(f"{' '.join(command)}: status {ran.returncode}: {ran.stderr.decode(errors='replace')[:600]}")
    return ran.stdout.decode(), ran.stderr.decode(errors="replace")


def compilers() -> Iterator[tuple[str, str | None]]:
    """The pairs of a C and a C++ compiler that are here and have the hooks; the second may be missing (None)."""
    for c, cxx in (("gcc", "g++"), ("clang", "clang++")):
        if has_hooks(c, "c"):
            yield c, cxx if has_hooks(cxx, "c++") else None


def has_hooks(compiler: str, language: str) -> bool:
    try:
        command = [compiler, "-fsanitize=thread", "-pthread", "-x", language, "-", "-c", "-o", os.devnull]
        text = "#include <pthread.h>\nint main() { return 0; }\n"
        return subprocess.run(command, input=text.encode(), capture_output=True, check=False).returncode == 0
    except OSError:
        return False


def lines_at_race(source: str) -> Lines:
    """The pair of lines of a source that say RACE after their code; one line is a pair with itself."""
    with open(os.path.join(TOP, source), encoding="utf-8") as text:
        found = [
            f"{os.path.basename(source)}:{number}"
            for number, line in enumerate(text, start=1)
            if re.search(r"; /[/*] RACE", line)
        ]
    return tuple(sorted(found * 2 if len(found) == 1 else found))


def candidates(racebench: str, trace: str) -> set[Lines]:
    """The pairs of lines of the candidates of a trace, as `info` prints them."""
    with open(trace, encoding="utf-8", errors="surrogateescape") as text:
        places = [line.split("|", 2)[2].split(" < ")[0] for line in recorded_places.events_in(text.read())]
    printed, _ = done([racebench, "info", trace])
    pairs = re.findall(r"^candidate (\d+) (\d+) ", printed, re.MULTILINE)
    return {tuple(sorted((places[int(first)], places[int(second)]))) for first, second in pairs}


def shown(racebench: str, trace: str) -> set[Lines]:
    """The pairs of lines of the races of a trace, as `triage` prints them, and no undecided ones."""
    printed, _ = done([racebench, "triage", trace])
    blocks = re.findall(r"^race \d.*\n((?:  .*\n)+)", printed, re.MULTILINE)
    places = [re.findall(r"^  T\d+\|[^|]*\|(\S+)", block, re.MULTILINE) for block in blocks]
    return {tuple(sorted(pair)) for pair in places}


def compiled(source: str, c: str, cxx: str | None) -> None:
    """Compiles a source, in one call or in two, to `program`."""
    environment = dict(os.environ, RECORD_CC=c, RECORD_CXX=cxx or "")
    path, language = os.path.join(TOP, source), os.path.join(RECORD, "c++" if source.endswith(".cpp") else "cc")
    flags = ["-std=c++17"] if source.endswith(".cpp") else ["-fopenmp"] if source.endswith(OPENMP) else []
    if c == "gcc":
        done([language, "-O1", *flags, path, "-o", "program"], env=environment)
    else:
        done([language, "-O1", *flags, "-c", path, "-o", "part.o"], env=environment)
        done([language, "part.o", "-o", "program"], env=environment)


def recorded(options: list[str], seed: int, forks: bool = False) -> str:
    """Records `program`; the trace is in `trace.std`. It is whole, if the program does not fork."""
    for _ in range(AGAIN):
        run = [os.path.join(RECORD, "run"), "--seed", str(seed), *options, "./program"]
        trace, errors = done(run, wanted=4 if forks else 0)
        if errors.endswith(", 0 taken by force\n"):
            break
    if not re.search(r"^record/run: recorded \d+ events, \d+ turns, \d+ taken by force$", errors, re.MULTILINE):
        raise Wrong(f"the recorder did not say what it recorded: {errors[:600]}")
    if "left out" in errors or "not made by pthread_create" in errors:
        raise Wrong(f"something was left out, or has no fork: {errors[:600]}")
    last = "LEFT OUT 1 FROM 0: FORK" if forks else "WHOLE"
    if not trace.startswith("recording|begin(RECORDED)|\n") or not trace.endswith(f"\nrecording|end({last})|\n"):
        raise Wrong(f"the first and the last line do not say {last}: {trace[:40]!r} {trace[-60:]!r}")
    with open("trace.std", "w", encoding="utf-8") as text:
        text.write(trace)
    return trace


def judge_program(
    racebench: str,
    source: str,
    options: list[str],
    races: set[Lines | str],
    c: str,
    cxx: str | None,
    seeds: Iterable[int],
) -> None:
    wanted = {lines_at_race(source) if isinstance(pair, str) else pair for pair in races}
    found_in = shown if "TRIAGED" in races else candidates
    compiled(source, c, cxx)
    for seed in seeds:
        trace = recorded(options, seed, source.endswith(FORKS))
        found = found_in(racebench, "trace.std")
        if found != wanted:
            raise Wrong(f"seed {seed}: the races are {sorted(found)}, and not {sorted(wanted)}")
        if source.endswith("barrier.c"):
            judge_barrier(racebench, trace)
    recorded_options.judge_decoder(source, [*options, "--seed", "1"], c)


def judge_barrier(racebench: str, trace: str) -> None:
    """Each thread's first read at the barrier that saw the other's coming may not come before it."""
    events = [line.split("|")[:2] for line in recorded_places.events_in(trace)]
    writer = None
    for number, (thread, operation) in enumerate(events):
        if operation.startswith("r(sync:meeting") and writer not in (None, thread):
            own = [k for k, (other, _) in enumerate(events[:number]) if other == thread]
            script = ["new A"] + [f"add A {k}" for k in [0, 1] + own + [number]]
            with open("script.txt", "w", encoding="ascii") as text:
                text.write("".join(f"1 {line}\n" for line in script))
            answers, _ = done([racebench, "replay", "trace.std", "script.txt"])
            refused = [line for line in answers.splitlines() if line.startswith("refused")]
            if not refused or not refused[0].startswith("refused 46 24 wrong writer"):
                raise Wrong(f"event {number} may come before what it has to come after: {answers}")
        if operation.startswith("w(sync:meeting"):
            writer = thread
    if writer is None:
        raise Wrong("nobody came to the barrier")


def judge_example(c: str, cxx: str | None) -> None:
    """examples/count.std is what the page says that it is: the trace of count.c with the first seed, without calls."""
    compiled("examples/count.c", c, cxx)
    with open(os.path.join(TOP, "examples/count.std"), encoding="ascii") as text:
        if recorded_places.events_in(recorded(["--frames", "0"], 1)) != text.read().splitlines():
            raise Wrong("the trace of examples/count.c is another than examples/count.std")


def judge_stranger() -> None:
    """A program that was not compiled so is refused, and nothing is written."""
    out, errors = done([os.path.join(RECORD, "run"), "true"], wanted=1)
    if out or "was not compiled with record/cc" not in errors:
        raise Wrong(f"a program without the recorder: {out}{errors}")


def cases_of(racebench: str, pairs: Sequence[tuple[str, str | None]]) -> list[Case]:
    """Each case: its name, the function that judges it, and its arguments."""
    cases: list[Case] = [("a program without the recorder", judge_stranger, ()), *recorded_java.all_cases(racebench)]
    for place, (c, cxx) in enumerate(pairs):
        seeds = SEEDS if place == 0 else SEEDS[:1]
        cases.append((f"count.std, {c}", judge_example, (c, cxx)))
        cases += recorded_names.cases(c, cxx) + recorded_pass.cases(racebench, c)
        cases += recorded_places.cases(c, cxx) + recorded_reports.cases(racebench, c)
        cases += recorded_planted.cases(racebench, c, cxx) + recorded_tries.cases(c, cxx)
        cases += recorded_deadlocks_followed.cases(racebench, c, cxx)
        if place == 0:
            cases += recorded_options.cases(racebench, c) + recorded_runs.cases(c) + recorded_follow.cases(racebench)
            cases += recorded_chance.cases(racebench) + recorded_ci.cases(racebench) + recorded_counts.cases(c)
            cases += recorded_drawn.cases() + recorded_whole.cases(racebench, c) + recorded_labelled.cases(racebench)
            cases += recorded_deadlocks.cases(racebench, c, cxx)
            cases += recorded_leaving.cases(racebench, c) + recorded_raw.cases(c)
            cases += recorded_strangers.cases(racebench, c, cxx) + recorded_go.cases(racebench)
            cases += recorded_rust.cases(racebench) + recorded_workers.cases() + recorded_values.cases(racebench)
        else:
            cases += recorded_strangers.more_cases(racebench, c, cxx)
        if cxx:
            cases.append((f"regions of OpenMP, {c}", recorded_strangers.judge_regions, (c, cxx)))
        for source, options, races in PROGRAMS:
            if source.endswith(OPENMP) and c != "gcc":
                continue
            if source.endswith(".cpp") and cxx is None:
                print(f"record/: {source} is not tested with {c}, since its C++ compiler is not here")
                continue
            runs = MANY if place == 0 and "TRIAGED" in races else seeds
            cases.append(
                (" ".join([source, *options, c]), judge_program, (racebench, source, options, races, c, cxx, runs))
            )
    return cases


def wrong_of(judge: Callable[..., None], about: Sequence[object]) -> list[str]:
    """What is wrong with a case, which is judged in its own folder."""
    with tempfile.TemporaryDirectory() as folder:
        os.chdir(folder)
        try:
            judge(*about)
            return []
        except Wrong as wrong:
            return [str(wrong)]
        except judging.UNREADABLE as what:
            return [judging.unreadable(what)]
        finally:
            os.chdir(TOP)


# The cases of this run. Workers have them by a fork, since not every judge can be sent to one.
cases: list[Case] = []


def wrong_with(number: int) -> list[str]:
    _, judge, about = cases[number]
    return wrong_of(judge, about)


def workers() -> int:
    """How many cases are judged side by side: three for four processors."""
    return max(1, len(os.sched_getaffinity(0)) * 3 // 4)


def judged(run: judging.Run) -> str | None:
    pairs = list(compilers())
    if not pairs:
        run.tally["no compiler"] += 1
        return (
            "record/: not tested, since no C compiler with the hooks of -fsanitize=thread is here\n0 passed, 0 failed"
        )
    cases.extend(
        case for case in cases_of(run.program, pairs) if not run.texts or any(text in case[0] for text in run.texts)
    )
    judge_cases(run)
    return None


def judge_cases(run: judging.Run) -> None:
    """Judges all cases side by side, and then those that failed once more, one after another: threads and real
    programs depend on what else the machine does. A case that passes at its second try is a defect to be mended, of
    the recorder or of the case."""
    # A job that a shell starts by `&` ignores control-C, and what a case starts would ignore it too.
    signal.signal(signal.SIGINT, signal.default_int_handler)
    context = multiprocessing.get_context("fork")
    failed: list[int] = []
    with context.Pool(workers()) as pool:
        for number, wrong in enumerate(pool.imap(wrong_with, range(len(cases)))):
            if wrong:
                failed.append(number)
                print("".join(f"first try: {cases[number][0]}: {what}\n" for what in wrong), end="", flush=True)
            else:
                run.case(cases[number][0], wrong)
    if failed:
        second_tries.wait_until_alone()
    for number in failed:
        with context.Pool(1) as pool:
            run.case(cases[number][0], pool.apply(wrong_with, (number,)), is_second=True)


if __name__ == "__main__":
    sys.exit(judging.main("record", judged, texts="CASE"))
