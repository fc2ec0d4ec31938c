"""Judges record/follow and record/confirm. On small programs each race is shown, and its consequence comes in one of
the two orders. A run that is no run of the recording departs. Files that do not fit together are refused.

What no other judge sees: a schedule that the program does not take, a departure without a message, accesses in another
order than the requested one.
"""

import contextlib
import functools
import itertools
import json
import os
import random
import re
import shutil
import signal
import subprocess
import sys
import tempfile
from collections.abc import Iterator, Mapping, Sequence
from typing import Any

from judging import Case, Wrong
from recorded_places import PATIENCE, events_in

if (RECORD := os.path.join(os.path.dirname(os.path.dirname(os.path.abspath(__file__))), "record")) not in sys.path:
    sys.path.append(RECORD)
import verdicts

TOP = os.path.dirname(RECORD)

SOURCES = os.path.join(TOP, "tests", "recorded", "races")
# A slow machine has time for a run, and for what comes between two hooks.
LIMITS = ["--timeout", str(PATIENCE), "--patience", "60000"]
FOLLOW = [os.path.join(RECORD, "follow"), *LIMITS]
OKAY, ASSERTION, FAULT = "status 0", "signal 6 (SIGABRT)", "signal 11 (SIGSEGV)"
ANY = (OKAY, ASSERTION, FAULT)
BAD = (ASSERTION, FAULT)
ENDING = re.compile(r"status \d+|signal \d+ \(\w+\)|hangs|departed")
# The lines of a race's two accesses, the lower first, and how the program may end in each of four orders.
Endings = tuple[str, ...]
Race = tuple[int, int, Endings, Endings, Endings, Endings]
# For each program the options of the recorder, and for each of its races: the lines of both accesses, the lower first,
# and how the program may end in each of four orders. Those are: the lower access first, and its thread goes on; the
# same, and the other thread goes on; the higher access first, and its thread goes on; the same, and the other thread
# goes on. Of two accesses in one line either is the lower.
PROGRAMS: dict[str, tuple[list[str], list[Race]]] = {
    "lost.c": ([], [(6, 6, (OKAY,), (OKAY,), (ASSERTION,), (ASSERTION,))]),
    "checked_twice.c": (
        [],
        [(10, 13, ANY, (OKAY,), (OKAY,), (FAULT,)), (15, 23, (OKAY,), (OKAY,), (FAULT,), (FAULT,))],
    ),
    "stopping.c": (
        [],
        [
            (13, 13, ANY, ANY, BAD, BAD),
            (13, 26, ANY, ANY, BAD, BAD),
            (13, 26, BAD, BAD, ANY, ANY),
            (10, 27, ANY, ANY, ANY, ANY),
            (12, 27, ANY, ANY, ANY, ANY),
        ],
    ),
    "freed_early.c": (
        [],
        [
            (11, 18, (OKAY,), (FAULT,), (OKAY,), (OKAY,)),
            (11, 19, (OKAY,), (OKAY,), (FAULT,), ANY),
            (11, 20, (FAULT,), (FAULT,), (FAULT,), (FAULT,)),
        ],
    ),
    "aba.c": (["--yield", "2"], [(14, 20, (OKAY,), (ASSERTION,), (OKAY,), (OKAY,))]),
    "bank.c": ([], [(8, 10, (ASSERTION,), (ASSERTION,), (OKAY,), (OKAY,))]),
    "ring.c": (
        [],
        [
            (11, 13, (ASSERTION,), (ASSERTION,), ANY, ANY),
            (12, 12, (ASSERTION,), (ASSERTION,), (ASSERTION,), (ASSERTION,)),
            (13, 13, (ASSERTION,), (ASSERTION,), (ASSERTION,), (ASSERTION,)),
        ],
    ),
    "counted_twice.cpp": ([], [(11, 11, (OKAY,), (OKAY,), BAD, BAD)]),
    "passed.c": ([], [(14, 22, (ASSERTION,), (ASSERTION,), ANY, ANY)]),
    "asked_again.c": ([], [(8, 17, (OKAY,), (OKAY,), (OKAY,), (OKAY,))]),
    "halves.c": (
        [],
        [(6, 11, (OKAY,), (ASSERTION,), (OKAY,), (ASSERTION,)), (7, 12, (OKAY,), (OKAY,), (ASSERTION,), (ASSERTION,))],
    ),
    "account.c": ([], [(6, 11, (OKAY,), (ASSERTION,), (OKAY,), (ASSERTION,))]),
    "torn_list.c": (
        [],
        [
            (9, 14, (OKAY,), (ASSERTION,), (OKAY,), (ASSERTION,)),
            (10, 15, (OKAY,), (OKAY,), (ASSERTION,), (ASSERTION,)),
        ],
    ),
}
# How many races are shown at least in all programs together: ring.c waits by the time, so it has one or more.
ALL_RACES = 23
DIFFER = "the order matters: the outputs differ: 1 with A first, 0 with B first"
NO_DIFFERENCE = "it makes no difference"
# The members of a line of JSON for a race that is shown and for one that departed, as docs/FORMATS.md has them.
BOTH = {"ended", "events", "locations", "places", "text"}
MEMBERS = {
    "stands": BOTH | {"endings", "first", "liberties", "matters", "runs", "same_memory", "second", "uses", "why"},
    "departed": BOTH | {"at"},
}
UNKNOWN = "whether the order matters is not known: the outputs vary by themselves"
# What outputs.c shows, how many tries, whether the order matters, and the message: a value that depends on the order,
# alone and beside others that do not; nothing; one of two values that come in both orders; values that are others in
# each run.
OUTPUTS = [
    ("seen", 1, True, DIFFER),
    ("seen order", 1, True, DIFFER),
    ("seen order", 3, True, DIFFER),
    ("", 3, False, NO_DIFFERENCE),
    ("half", 6, None, UNKNOWN),
    ("order", 3, None, UNKNOWN),
    ("process", 1, None, UNKNOWN),
]
# For each program the first use of a freed block that the recorder sees, in an order that comes to it, and in how many
# of the orders it does not.
FREED = {
    "freed_twice.c": ("T2 frees a block that T1 has freed: at freed_twice.c:7, freed at freed_twice.c:7", 2),
    "stale.c": ("T1 reads 1 byte of a block that T2 has freed: at stale.c:11, freed at stale.c:19", 3),
}
# How many draws there are of orders that share one distribution of endings, by the number of orders, and the highest
# allowed rate of a wrong `matters`.
DRAWN, MOST_WRONG = {2: 100_000, 4: 30_000, 6: 30_000}, 0.001
ORDERS = ["a-a", "a-b", "b-b", "b-a", "far-first", "far-second"]


# What record/confirm found of a race: an object of JSON.
Found = dict[str, Any]


def ran(
    command: Sequence[str], wanted: int | None = 0, text: str | None = None, env: Mapping[str, str] | None = None
) -> tuple[str, str]:
    stdin = text.encode("utf-8", "surrogateescape") if text is not None else None
    done = subprocess.run(command, input=stdin, capture_output=True, timeout=PATIENCE, check=False, env=env)
    out, errors = done.stdout.decode("utf-8", "surrogateescape"), done.stderr.decode(errors="replace")
    if wanted is not None and done.returncode != wanted:
        raise Wrong(f"{' '.join(command)}: status {done.returncode}, and not {wanted}: {errors[-900:]}")
    return out, errors


def recorded(
    source: str, options: Sequence[str], name: str = "program", flags: Sequence[str] = (), args: Sequence[str] = ()
) -> None:
    """Compiles and records a program: NAME, NAME.std and NAME.clock."""
    compiler = "c++" if source.endswith(".cpp") else "cc"
    ran([os.path.join(RECORD, compiler), "-O1", *flags, source, "-o", name])
    trace, _ = ran(
        [os.path.join(RECORD, "run"), "--partial", "--clock", name + ".clock", *options, "./" + name, *args]
    )
    with open(name + ".std", "w", encoding="utf-8", errors="surrogateescape") as file:
        file.write(trace)


def confirmed(
    racebench: str, name: str = "program", *options: str, wanted: int | None = 0, env: Mapping[str, str] | None = None
) -> list[Found]:
    """What record/confirm found of each race."""
    out, _ = ran(
        [
            os.path.join(RECORD, "confirm"),
            "--racebench",
            racebench,
            "--json",
            name + ".json",
            *LIMITS,
            *options,
            name + ".std",
            name + ".clock",
        ],
        wanted,
        env=env,
    )
    with open(name + ".json", encoding="ascii") as lines:
        found: list[Found] = [json.loads(line) for line in lines]
    if not out.splitlines()[-1].startswith(f"races {len(found)}, stand "):
        raise Wrong(f"the last line counts other races than there are: {out}")
    with open(name + ".std", encoding="utf-8", errors="surrogateescape") as file:
        there = [line.split("|", 2)[2] for line in events_in(file.read())]
    for one in found:
        locations = [there[event] for event in one["events"]]
        if (
            set(one) != MEMBERS[one["ended"]]
            or one["locations"] != locations
            or one["places"] != [each.split(" < ")[0] for each in locations]
        ):
            raise Wrong(f"a line of JSON: {one}")
    return found


def judge_races(racebench: str) -> None:
    """Each race is shown, and each order leads to the endings of the table."""
    stood = 0
    for source, (options, _) in PROGRAMS.items():
        recorded(os.path.join(SOURCES, source), options)
        found = confirmed(racebench)
        wrong = [one for one in found if why_wrong(source, one)]
        if not found or wrong:
            raise Wrong(f"{source}: of {len(found)} races: {why_wrong(source, wrong[0]) if wrong else 'none'}")
        stood += len(found)
    if stood < ALL_RACES:
        raise Wrong(f"{stood} races stood, and {ALL_RACES} have to")


def why_wrong(source: str, one: Found) -> str:
    """Why a race is not what it must be; nothing if it is."""
    if one["ended"] != "stands" or not one["same_memory"]:
        return f"does not stand: {one['text']}"
    lines = [int(place.rsplit(":", 1)[1]) for place in one["places"]]
    endings = [set(ENDING.findall(one["endings"][order])) for order in ("a-a", "a-b", "b-b", "b-a")]
    ways = [endings, endings[2:] + endings[:2]]
    ways = ways[: 1 + (lines[0] == lines[1])] if lines[0] <= lines[1] else ways[1:]
    for low, high, *allowed in PROGRAMS[source][1]:
        if [low, high] == sorted(lines) and any(
            all(ending <= set(may) for ending, may in zip(way, allowed)) for way in ways
        ):
            return ""
    return f"lines {lines}: {one['endings']}"


def witness_of(racebench: str, name: str) -> tuple[tuple[str, str], str]:
    out, _ = ran([racebench, "triage", name + ".std"])
    race = re.search(r"^race (\d+) (\d+) ", out, re.MULTILINE)
    if race is None:
        raise Wrong(f"{name} has no race: {out}")
    pair = (race[1], race[2])
    return pair, ran([racebench, "witness", name + ".std", *pair])[0]


def judge_orders(racebench: str) -> None:
    """The two accesses of count.c come in the requested order: the value after both shows which was last."""
    recorded(os.path.join(TOP, "examples", "count.c"), [])
    pair, witness = witness_of(racebench, "program")
    out, errors = ran([*FOLLOW, "--then", "both", "program.clock", *pair, "./program"], text=witness)
    if (
        "the race stands: T1 at count.c:7, T2 at count.c:13" not in errors
        or "the order matters: the outputs differ" not in errors
    ):
        raise Wrong(f"count.c in both orders: {errors}")
    for then, printed in (("first", "42\n2\n"), ("second", "42\n1\n")):
        _, errors = ran([*FOLLOW, "--then", then, "program.clock", *pair, "./program"], text=witness)
        if not errors.startswith(printed):
            raise Wrong(f"count.c, {then}: {errors}")


def judge_outputs(racebench: str) -> None:
    """The order matters if outputs depend on it alone; it is not known whether it matters if they vary by
    themselves."""
    recorded(os.path.join(SOURCES, "outputs.c"), [])
    pair, witness = witness_of(racebench, "program")
    follow = ["--then", "both", "program.clock", *pair]
    for shown, tries, matters, verdict in OUTPUTS:
        env = dict(os.environ, SHOWN=shown)
        found = confirmed(racebench, "program", "--tries", str(tries), env=env)
        if [one["matters"] for one in found] != [matters]:
            raise Wrong(f"outputs that show {shown}, {tries} tries: {found}")
        _, errors = ran([*FOLLOW, "--tries", str(tries), *follow], text=witness, env=env)
        if errors.splitlines()[-1] != f"record/follow: {verdict}":
            raise Wrong(f"outputs that show {shown}, {tries} tries: {errors}")


def judge_freed(racebench: str) -> None:
    """The recorder reports each use of a freed block, also if nothing else shows it. It reports none in a program that
    frees nothing too early."""
    for source, (text, without) in FREED.items():
        recorded(os.path.join(SOURCES, source), [])
        found = confirmed(racebench)
        if [one["matters"] for one in found] != [True] or found[0]["uses"] != [text]:
            raise Wrong(f"{source}: {found}")
        if sum("freed" not in ending for ending in found[0]["endings"].values()) != without:
            raise Wrong(f"{source}: {found[0]['endings']}")
    for source in ("halves.c", "asked_again.c", "passed.c"):
        recorded(os.path.join(SOURCES, source), [])
        used = [one["uses"] for one in confirmed(racebench) if one["uses"]]
        if used:
            raise Wrong(f"{source}: {used}")


def drawn_verdict(
    chances: random.Random, endings: Sequence[str], rates: Sequence[float], orders: Sequence[str]
) -> tuple[verdicts.Verdict, int]:
    """The verdict on orders that share one distribution of endings, and how many runs each had."""
    names = dict(zip(orders, orders))
    runs: dict[str, list[verdicts.Outcome]] = {order: [] for order in orders}
    while True:
        for order in orders:
            runs[order].append(verdicts.Outcome(chances.choices(endings, rates)[0], b""))
        verdict = verdicts.verdict(runs, names, 2)
        if not verdict.wants_more:
            return verdict, len(runs[orders[0]])


def judge_rule(racebench: str) -> None:
    """Orders that lead to the same hardly ever `matter`: with two, four and six orders, one to four endings
    and any rates. Two orders with one ending each that differ `matter` after six runs."""
    for count, draws in DRAWN.items():
        chances, wrong = random.Random(count), 0
        for _ in range(draws):
            endings = [f"status {k}" for k in range(chances.randint(1, 4))]
            rates = [chances.expovariate(1) for _ in endings] if chances.random() < 0.8 else [1] * len(endings)
            verdict, runs = drawn_verdict(chances, endings, rates, ORDERS[:count])
            wrong += verdict.matters is True
            if runs > 8 or (verdict.matters is not False and len(endings) == 1):
                raise Wrong(f"{count} orders with the endings {endings}: {verdict} after {runs} runs")
        if wrong > MOST_WRONG * draws:
            raise Wrong(f"{count} orders that lead to the same: {wrong} of {draws} matter")
    judge_known_verdicts()


def judge_known_verdicts() -> None:
    """Verdicts on runs of two orders: how often each came, the endings and outputs, and what must be said."""
    good, bad, endless = (verdicts.Outcome(text, b"") for text in (OKAY, FAULT, "hangs"))
    gone = verdicts.Outcome("departed", b"")
    seen_runs = [verdicts.Outcome(OKAY, b"seen %d of %d" % (seen, of)) for seen in (0, 1) for of in range(9)]
    cases = [
        ([good] * 6, [bad] * 6, True, verdicts.ENDINGS_DIFFER, False),
        ([good] * 5, [bad] * 5, None, verdicts.ENDINGS_VARY, True),
        ([good] * 5 + [bad], [bad] * 6, None, verdicts.ENDINGS_VARY, False),
        ([good] * 2, [good] * 2, False, "", False),
        ([good], [good], False, "", True),
        ([endless] * 2, [endless] * 2, None, verdicts.IS_ENDLESS, False),
        ([endless] * 6, [good] * 6, True, verdicts.ENDINGS_DIFFER, False),
        ([good] * 6, [good] * 5 + [gone], None, verdicts.IS_GONE, False),
        (seen_runs[:9], seen_runs[9:], True, "the outputs differ: 0 with A, 1 with B", False),
        (seen_runs[:2], seen_runs[9:11], None, verdicts.OUTPUTS_VARY, True),
        (seen_runs[:9] + seen_runs[9:], seen_runs, None, verdicts.OUTPUTS_VARY, False),
    ]
    for first, second, *wanted in cases:
        found = verdicts.verdict({"first": first, "second": second}, {"first": "A", "second": "B"}, 2)
        if list(found) != wanted:
            raise Wrong(f"{first} and {second}: {found}, and not {wanted}")


def judge_ended(racebench: str) -> None:
    """A signal ends record/confirm and its program. The rows that were known stay, and no other has a verdict."""
    recorded(os.path.join(SOURCES, "eight.c"), [])
    command = [os.path.join(RECORD, "confirm"), "--racebench", racebench, *LIMITS]
    for number in (signal.SIGTERM, signal.SIGINT):
        with subprocess.Popen(
            [*command, "--json", "eight.json", "program.std", "program.clock"],
            stdout=subprocess.PIPE,
            stderr=subprocess.PIPE,
            text=True,
            preexec_fn=lambda: signal.signal(signal.SIGINT, signal.default_int_handler),
        ) as started:
            assert started.stdout
            rows = [started.stdout.readline(), started.stdout.readline()]
            started.send_signal(number)
            out, errors = started.communicate(timeout=PATIENCE)
        rows += out.splitlines()
        with open("eight.json", encoding="ascii") as file:
            found = [json.loads(line) for line in file]
        counts = f"races {len(found)}, stand {len(found)}, departed 0, order matters 0"
        expected = f"record/confirm: {8 - len(found)} races have no verdict\nrecord/confirm: ended by {number.name}\n"
        if started.returncode != -number or errors != expected or rows[-1] != counts or len(rows) != len(found) + 2:
            raise Wrong(f"ended by {number.name}: {started.returncode} {rows} {errors}")
        if not 1 <= len(found) < 8:
            raise Wrong(f"ended by {number.name}: {len(found)} races are known")


def judge_beside(racebench: str) -> None:
    """A command runs beside each run: here it is the client that ends a server."""
    recorded(os.path.join(SOURCES, "served.c"), [])
    os.mkfifo("pipe")
    confirm = [os.path.join(RECORD, "confirm"), "--racebench", racebench, *LIMITS]
    command = [*confirm, "--beside", "echo > pipe", "program.std", "program.clock", "./program", "pipe"]
    out, _ = ran(command)
    if " is the same" not in out:
        raise Wrong(f"a server with a client: {out}")


def judge_program(racebench: str) -> None:
    """racebench is named by either option or by the variable."""
    recorded(os.path.join(SOURCES, "lost.c"), [])
    confirm = [os.path.join(RECORD, "confirm"), *LIMITS, "program.std", "program.clock"]
    ways = [("--racebench", racebench), ("--program", racebench), ()]
    env = dict(os.environ, RACEBENCH="/nowhere")
    texts = [
        ran([confirm[0], *way, *confirm[1:]], env=env if way else dict(env, RACEBENCH=racebench))[0] for way in ways
    ]
    if "stand 1" not in texts[0] or texts != [texts[0]] * 3:
        raise Wrong(f"three ways to name racebench: {texts}")


def judge_departs(racebench: str) -> None:
    """A run with other addresses goes another way: the message has the places of both ways."""
    recorded(os.path.join(SOURCES, "departs.c"), [])
    if [one["ended"] for one in confirmed(racebench)] != ["stands"]:
        raise Wrong("the race of departs.c does not stand with the addresses of the recording")
    pair, witness = witness_of(racebench, "program")
    command = [*FOLLOW, "program.clock", *pair, "./program"]
    _, errors = ran(command, 1, witness, env=dict(os.environ, SIZE_BEFORE="72"))
    if (
        not re.search(r"departed at event \d+ .*\(step \d+ of \d+\): T[12] .*departs\.c:\d+", errors)
        or "the race stands" in errors
    ):
        raise Wrong(f"a run with other addresses: {errors}")


def judge_teams(racebench: str) -> None:
    """Races of OpenMP teams are shown: who comes first has the next part of a loop, a section, and what one thread
    does."""
    for source, seed in itertools.product(("region.c", "teams.c", "openmp.c"), ("1", "2")):
        recorded(os.path.join(TOP, "tests", "recorded", source), ["--seed", seed, "--yield", "5"], flags=["-fopenmp"])
        found = confirmed(racebench, "program", "--tries", "1")
        if [one["ended"] for one in found] != ["stands"] or not found[0]["same_memory"]:
            raise Wrong(f"{source}, seed {seed}: {found}")


def judge_debugger(racebench: str) -> None:
    """Under gdb the program gets its recorded arguments, and both threads wait at their accesses."""
    if not shutil.which("gdb"):
        return
    odd = ["h[1-8] %h", "", "it's"]
    recorded(os.path.join(SOURCES, "words.c"), [], args=odd)
    pair, witness = witness_of(racebench, "program")
    with open("witness", "w", encoding="utf-8") as file:
        file.write(witness)
    command = [*FOLLOW, "--gdb", "--witness", "witness", "program.clock", *pair]
    out, errors = ran(command, text="bt\nkill\nquit\n")
    if "the race stands: T1 at words.c:8, T2 at words.c:8" not in errors or "in work (" not in out:
        raise Wrong(f"under gdb: {out}{errors}")


def judge_waits(racebench: str) -> None:
    """A thread that waits right before its access is not at the access."""
    recorded(os.path.join(SOURCES, "waits.c"), [])
    found = confirmed(racebench, wanted=1)
    expected = "came to an atomic read at waits.c:12, where the recording has a read at waits.c:13"
    if [one["ended"] for one in found] != ["departed"] or expected not in found[0]["text"]:
        raise Wrong(f"a thread that waits for a relaxed flag: {found}")


# Programs that keep one processor busy, and the longest time of a run in seconds: works_on.c needs half of it.
BUSY, LONGEST = 5, "1"


@contextlib.contextmanager
def busy_processor() -> Iterator[None]:
    """On the first processor programs compute without end."""
    command = ["taskset", "-c", str(min(os.sched_getaffinity(0))), sys.executable, "-c", "while True: pass"]
    started = [subprocess.Popen(command) for _ in range(BUSY)]
    try:
        yield
    finally:
        for each in started:
            each.kill()
            each.wait()


def judge_busy(racebench: str) -> None:
    """The time of a run is that of the program: on a busy processor it takes longer, and a program that waits for ever
    is ended there too."""
    recorded(os.path.join(SOURCES, "works_on.c"), [])
    pair, witness = witness_of(racebench, "program")
    follow = [FOLLOW[0], "--patience", "60000", "--timeout", LONGEST, "program.clock", *pair, "./program"]
    with busy_processor():
        for argument, end in (("", "the program ended with status 7"), ("waits", "the program hangs")):
            _, errors = ran([*follow, *argument.split()], text=witness)
            if errors.splitlines()[-1] != f"record/follow: {end}":
                raise Wrong(f"{argument} on a busy processor: {errors}")


def judge_recorded_order(racebench: str) -> None:
    """A schedule from which the run departs is tried again in the order of the recording."""
    recorded(os.path.join(SOURCES, "told_relaxed.cpp"), [])
    found = confirmed(racebench, wanted=1)
    ended = {tuple(sorted(int(place.rsplit(":", 1)[1]) for place in one["places"])): one["ended"] for one in found}
    if ended != {(17, 24): "departed", (36, 39): "stands"}:
        raise Wrong(f"a ring with a relaxed tail: {ended}")
    witness = ran([racebench, "witness", "program.std", *map(str, found[1]["events"])])[0]
    _, errors = ran([*FOLLOW, "program.clock", *map(str, found[1]["events"]), "./program"], 1, witness)
    if "departed at event" not in errors:
        raise Wrong(f"the printed schedule was to be departed from: {errors}")
    lines = sorted(witness.splitlines(), key=lambda line: int(line.split()[0]))
    ran([*FOLLOW, "program.clock", *map(str, found[1]["events"]), "./program"], text="\n".join(lines) + "\n")


def judge_refusals(racebench: str) -> None:
    """A witness, a clock, a trace and a program of other recordings are refused with 3."""
    recorded(os.path.join(SOURCES, "lost.c"), [])
    recorded(os.path.join(SOURCES, "bank.c"), [], "other")
    (pair, witness), (_, other) = witness_of(racebench, "program"), witness_of(racebench, "other")
    follow = [os.path.join(RECORD, "follow"), "program.clock", *pair]
    with open("program.clock", "rb") as file:
        whole = file.read()
    for size in (0, 7, 100, len(whole) // 3, len(whole) - 1):
        with open(f"cut{size}.clock", "wb") as file:
            file.write(whole[:size])
    cases = [
        (follow, other),
        (follow, ""),
        (follow, "hello\n"),
        (follow + ["./other"], witness),
        (follow[:2] + ["0", "999999"], witness),
    ]
    cases += [
        ([follow[0], f"cut{size}.clock", *pair], witness) for size in (0, 7, 100, len(whole) // 3, len(whole) - 1)
    ]
    cases.append(([os.path.join(RECORD, "confirm"), "--racebench", racebench, "other.std", "program.clock"], ""))
    second = str(int(pair[1]) - 1)
    cases.append(([*follow[:2], pair[0], second], witness))
    for command, text in cases:
        _, errors = ran(command, 3, text)
        if "Traceback" in errors or len(errors.splitlines()) != 1:
            raise Wrong(f"{' '.join(command)}: {errors}")
    _, errors = ran([os.path.join(RECORD, "confirm"), "--racebench", racebench, "nothing.std", "program.clock"], 1)
    if errors != "record/confirm: nothing.std: No such file or directory\n":
        raise Wrong(f"a trace that is not there: {errors}")


JUDGES = [
    ("races stand", judge_races),
    ("both orders", judge_orders),
    ("outputs", judge_outputs),
    ("freed blocks", judge_freed),
    ("the rule", judge_rule),
    ("a signal", judge_ended),
    ("a client beside", judge_beside),
    ("the program's name", judge_program),
    ("a departure", judge_departs),
    ("a thread that waits", judge_waits),
    ("a busy processor", judge_busy),
    ("the order of the recording", judge_recorded_order),
    ("teams of OpenMP", judge_teams),
    ("gdb", judge_debugger),
    ("refusals", judge_refusals),
]


def soak(racebench: str) -> int:
    """Follows the races of all programs in recordings of several seeds and lengths of turns; how many departed, or led
    to something else."""
    stood = departed = 0
    with tempfile.TemporaryDirectory() as folder:
        os.chdir(folder)
        for source in PROGRAMS:
            for seed, turns in itertools.product(range(1, 7), (40, 5)):
                recorded(os.path.join(SOURCES, source), ["--seed", str(seed), "--yield", str(turns)])
                found = confirmed(racebench, wanted=None)
                wrong = [why for why in (why_wrong(source, one) for one in found) if why]
                stood, departed = stood + len(found) - len(wrong), departed + len(wrong)
                for why in wrong:
                    print(f"{source}, --seed {seed} --yield {turns}: {why}", flush=True)
        os.chdir(TOP)
    print(f"soak: {stood} races stood and led to what they have to, {departed} did not")
    return 1 if departed or not stood else 0


def cases(racebench: str) -> list[Case]:
    return [(name, functools.partial(judge, racebench), ()) for name, judge in JUDGES]
