#!/usr/bin/env python3
"""Judges what `explain` and `witness` print of each pair of events, by tests/plain.py, which answers from the
definitions.

Of each conflicting pair of traces drawn by chance, and of some that were made for what chance draws seldom: the
verdict, with all that follows it (explained.py); that the schedule is a correct reordering which shows the pair,
and has exactly the events of the least list in the order of the trace, if there is one, and else of what the search
finds; that `replay` of its script prints the pair, and `info` of its trace has it as a candidate; and its picture
(pictured.py). On small traces all correct reorderings are gone over: none shows a pair that is forced or guarded, and
each list in the order of the trace that shows a pair has all events of the least one.

    judge_explain.py PROGRAM [TRACES [SEED]]      this many drawn traces, the first of this seed

Says what is wrong, if something is, and ends with status 1 then.
"""

import random
import re
import sys
from collections.abc import Iterable, Sequence

if __name__ == "__main__":
    sys.dont_write_bytecode = True
import by_chance
import contradicted
import crowded
import explained
import judging
import pictured
import plain
import running
import states

TRACES = 120
# How many events a drawn trace has at most; those of the first number are gone over whole. Most have locks.
MOST_EVENTS = [8, 8, 14, 22]
SMALL = 8
DRAWS = [by_chance.locked_trace, by_chance.locked_trace, by_chance.trace]
# How many pairs without a conflict are tried, of each trace.
NO_PAIRS = 3
FORMS: list[list[str]] = [[], ["--script"], ["--std"], ["--svg"]]

# What must be reached: each verdict, what a small trace has, folded runs, each kind of link, and a chain on which a
# chain rests on which one rests.
REACHED = [
    *"none candidate beyond turned forced guarded contradicted undecided small folded links|section".split(),
    *[f"step|{rule}" for rule in "base must through overwritten enters ends".split()],
    *"chains|2 pictures arrows".split(),
    *["as many runs as are told", "one run more"],
    *["pictures with earlier runs", "pictures of 40 runs", "pictures of 41 runs"],
    *["pictures of 4 threads", "pictures of 5 threads", "lines that are cut", "shades"],
    *["accesses under 8 locks", "accesses under more locks"],
    "reads that race",
    "reads that do not race",
    *[f"links|{arguments}" for arguments in explained.LINKS],
    *["SHB|and later in its thread", "SHB|lets the lock go that is taken by"],
    *[f"waits|{arguments}" for arguments in explained.WAITS if not arguments.startswith("forks")],
]


class Judge:
    """Runs the program in this folder, and compares."""

    def __init__(self, run: judging.Run) -> None:
        self.program, self.tally = run.program, run.tally

    def printed(self, *arguments: str) -> str:
        """What the program prints, where it ends well."""
        status, out, err = running.ended(self.program, arguments)
        if status != 0 or err:
            raise judging.Wrong(f"{' '.join(arguments)}: status {status}: {err[:300]!r}")
        return out.decode("utf-8")

    def expect(self, text: str, *arguments: str) -> None:
        """Compares what the program prints with this text."""
        printed = self.printed(*arguments)
        if printed != text:
            raise judging.Wrong(f"{' '.join(arguments)} printed\n{printed}--- and plainly\n{text}")

    def expect_fault(self, fault: str, *arguments: str) -> None:
        """Compares why the program stops with this text; it has to print nothing else."""
        status, out, err = running.ended(self.program, arguments)
        if (status, out, err) != (1, b"", f"racebench: {fault}\n".encode("ascii")):
            raise judging.Wrong(
                f"{' '.join(arguments)}: status {status}, printed {out[:300]!r}, and {err[:300]!r}, "
                f"which is not {fault!r}"
            )

    def judge_trace(self, trace: plain.Trace, chance: random.Random) -> None:
        """Judges all conflicting pairs of the trace, and a few others."""
        running.write("trace", trace.text())
        pairs = trace.conflicting()
        for pair in pairs:
            self.judge_pair(trace, pair, chance)
        numbers = [*range(len(trace.events) + 2), 2**32 - 1]
        for _ in range(NO_PAIRS):
            first, second = chance.choice(numbers), chance.choice(numbers)
            if (min(first, second), max(first, second)) not in pairs:
                self.expect_fault("no such pair", "explain", "trace", str(first), str(second))
                self.expect_fault("no such pair", "witness", "trace", str(first), str(second), *chance.choice(FORMS))
                self.tally["none"] += 1
        if len(trace.events) <= SMALL:
            judge_reorderings(trace, pairs)
            self.tally["small"] += 1
            self.tally["reorderings"] += len(trace.reorderings())
        self.tally["traces"] += 1

    def judge_pair(self, trace: plain.Trace, pair: explained.Pair, chance: random.Random) -> None:
        """Judges what is printed of a conflicting pair, given in either order."""
        verdict, listed = verdict_of(trace, pair)
        self.tally[verdict] += 1
        self.tally["pairs"] += 1
        arguments = [str(event) for event in (pair if chance.random() < 0.5 else pair[::-1])]
        is_all = chance.random() < 0.3
        text = self.printed("explain", "trace", *arguments, *["--all"] * is_all)
        try:
            if verdict in ("candidate", "beyond", "turned"):
                shown = self.judge_witness(trace, pair, arguments, listed)
                explained.judge_race(trace, self.tally, text, verdict, pair, shown, is_all)
                return
            if verdict == "forced":
                explained.judge_forced(trace, self.tally, text, pair)
            elif verdict == "guarded":
                explained.judge_guarded(trace, text, pair, trace.guard(*pair) or "no lock")
            elif verdict == "contradicted":
                contradicted.judge_contradicted(trace, self.tally, text, pair)
            else:
                explained.judge_undecided(trace, self.tally, text, pair)
        except judging.Wrong as what:
            raise judging.Wrong(f"{what}\n--- explain {' '.join(arguments)}, which is {verdict}\n{text}") from what
        kind = trace.kind(*pair)
        self.expect_fault(f"not shown: {kind}", "witness", "trace", *arguments, *chance.choice(FORMS))

    def judge_witness(
        self, trace: plain.Trace, pair: explained.Pair, arguments: Sequence[str], listed: plain.Listed | None
    ) -> plain.Listed:
        """The schedule that is printed, where it shows the pair, and has the events of this list, if one is given."""
        lines = explained.Lines(self.printed("witness", "trace", *arguments))
        events: list[int] = []
        while lines.next() is not None:
            events.append(explained.event_of(trace, lines.take(), 0))
        shown = tuple(events)
        if not trace.is_reordering(shown) or not trace.shows(shown, *pair):
            raise judging.Wrong(f"this list does not show the pair: {shown}")
        if listed is not None and tuple(sorted(shown)) != listed:
            raise judging.Wrong(f"the schedule is {shown}, and its events are to be {listed}")
        self.judge_script(trace, pair, arguments, shown)
        self.judge_std(trace, arguments, shown + pair)
        picture = self.printed("witness", "trace", *arguments, "--svg")
        pictured.judge_picture(trace, self.tally, picture, pair, shown)
        if re.findall(r'<marker id="([^"]*)"', picture) != ["tip"]:
            raise judging.Wrong("the picture does not have one tip for its arrows")
        return shown

    def judge_script(
        self, trace: plain.Trace, pair: explained.Pair, arguments: Sequence[str], shown: plain.Listed
    ) -> None:
        """Judges the script of the schedule, and what `replay` answers to it."""
        script = "".join(["1 new S\n", *[f"1 add S {event}\n" for event in shown], "1 races S\n"])
        self.expect(script, "witness", "trace", *arguments, "--script")
        running.write("script", script)
        pairs = trace.shown_pairs(shown)
        if pair not in pairs:
            raise judging.Wrong(f"the pair is none of those that are shown: {pairs}")
        answers = [f"{number}: done\n" for number in range(len(shown) + 1)]
        self.expect(
            "".join(answers) + " ".join(["pairs", *[f"{a}-{b}" for a, b in pairs]]) + "\n", "replay", "trace", "script"
        )

    def judge_std(self, trace: plain.Trace, arguments: Sequence[str], events: Sequence[int]) -> None:
        """Judges the trace with these events, the pair last, and what `info` prints about it."""
        std = plain.Trace(trace.events[event] for event in events)
        self.expect(std.text(), "witness", "trace", *arguments, "--std")
        running.write("std", std.text())
        if (len(events) - 2, len(events) - 1) not in std.candidates():
            raise judging.Wrong(f"the pair is no candidate of the schedule's trace\n{std.text()}")
        self.expect(std.info(), "info", "std")


def verdict_of(trace: plain.Trace, pair: explained.Pair) -> tuple[str, plain.Listed | None]:
    """What is to be said of a conflicting pair, and the events of the schedule that shows it, rising: those of the
    least list in the order of the trace, or of what the search finds; or None."""
    kind = trace.kind(*pair)
    listed = trace.in_order(*pair)
    if kind == "candidate":
        if listed is None:
            raise plain.Contradiction(f"no list in the order of the trace shows the candidate {pair}")
        return kind, listed
    if kind != "open":
        return kind, None
    if listed is not None:
        return "beyond", listed
    turned = trace.turned(*pair)
    if turned is not None:
        return "turned", tuple(sorted(turned))
    return ("undecided" if pair in states.shown_by_any(trace) else "contradicted"), None


def judge_reorderings(trace: plain.Trace, pairs: Iterable[explained.Pair]) -> None:
    """Compares the kinds and lists of the pairs with all correct reorderings of a small trace."""
    for first, second in pairs:
        showing = [listed for listed in trace.reorderings() if trace.shows(listed, first, second)]
        kind = verdict_of(trace, (first, second))[0]
        if kind in ("forced", "guarded", "contradicted") and showing:
            raise plain.Contradiction(f"{first} and {second} are {kind}, and {showing[0]} shows them")
        least = trace.in_order(first, second)
        rising = [listed for listed in showing if list(listed) == sorted(listed)]
        if (least is None and rising) or (least is not None and least not in rising):
            raise plain.Contradiction(f"the least list of {first} and {second} is {least}, and {rising} show them")
        if least is not None and any(not set(least) <= set(listed) for listed in rising):
            raise plain.Contradiction(f"{least} is not the least list of {first} and {second}: {rising}")


def made(*lines: str) -> plain.Trace:
    """A trace; each line is an event with its thread, operation and name."""
    return plain.Trace(plain.Event(*line.split(" ")) for line in lines)


def in_turns(times: int) -> plain.Trace:
    """Two threads that each read what the other wrote, in turns, and then write one variable."""
    turns = []
    for turn in range(times):
        one, other = ("A", "B") if turn % 2 else ("B", "A")
        turns += [f"{one} w {turn}", f"{other} r {turn}"]
    return made(*turns, "A w last", "B w last")


def under(locks: int) -> plain.Trace:
    """A write under this many locks, and one under none."""
    return made(*[f"A acq l{lock}" for lock in range(locks)], "A w x", "B w x")


def named(thread: str, variable: str) -> plain.Trace:
    """Two writes of this variable, the first by this thread."""
    return made(f"{thread} acq {variable}", f"{thread} w {variable}", f"B w {variable}")


# A pair, of events 3 and 8, that no correct reordering shows, since the reads and the critical sections forbid it.
CONTRADICTED = made("A acq l", "A r x", "A w y", "A w x", "A rel l", "B acq l", "B w x", "B rel l", "B w x")

# The same of events 9 and 16, where a write comes before another one, which a later read sees.
OVERWRITTEN = made(
    *("T r y", "W r x", "T acq m", "V w x", "T acq l", "T r x", "T rel l", "W w x", "W w y", "T w y", "T rel m"),
    *("V acq m", "V w y", "V r x", "V rel m", "V w x", "V w y"),
)

# What chance draws seldom: many runs; a thread without an event, and one that is forked and joined; accesses that stay
# before others; a pair that SHB orders and a list in the order of the trace shows, one that is shown by sections in
# another order, and one of which no schedule is found; a chain that rests on one that rests on another; a section that
# has to end before another thread, which holds its lock, takes another lock; two locks that both threads hold, one of
# them twice; as many locks and threads as a picture names, and more; names as long as it shows, and longer ones that
# can't be cut everywhere.
MADE = [
    in_turns(14),
    in_turns(70),
    made("A w x", "A fork W", "B join W", "B w x"),
    made("A w x", "A fork B", "B w x", "A join B", "A w x", "C w x"),
    made("A r x", "A w v", "B w x", "B w v", "C w x", "C w v"),
    made("A w x", "A acq l", "A rel l", "B acq l", "B rel l", "B w x"),
    made("A acq l", "A fork W", "A w x", "A rel l", "B acq l", "B r y", "B rel l", "B r x"),
    CONTRADICTED,
    OVERWRITTEN,
    made(
        "A acq m",
        "A w x",
        "A acq l",
        "A rel m",
        "A w v",
        "A rel l",
        "B acq l",
        "B acq m",
        "B r x",
        "B rel m",
        "B w v",
        "B rel l",
    ),
    made(
        "A acq m",
        "A w x",
        "A acq l",
        "A rel m",
        "A w v",
        "A rel l",
        "B r x",
        "B acq l",
        "B acq m",
        "B w v",
        "B rel m",
        "B rel l",
    ),
    made("A acq l", "A acq m", "A w x", "A rel m", "A rel l", "B acq m", "B acq l", "B acq m", "B w x", "B rel m"),
    *[under(8), under(9), under(10)],
    made("C w a", "A r a", "D w b", "B r b", "A w x", "B w x"),
    made("C w a", "A r a", "D w b", "B r b", "E w c", "B r c", "A w x", "B w x"),
    made("A acq l", "A rel l", "A w a", "A acq l", "A w b", "A rel l", "A w x", "B r a", "B r b", "B w x"),
    *[named("A" * 46, "x"), named("A" * 47, "x"), named("aä" * 16, "y" + "ä" * 40)],
    *[named("a" * size + "\U0001f600" * 12, "z" * size + "\U0001f600" * 12) for size in range(4)],
]


def drawn(run: judging.Run) -> list[tuple[str, plain.Trace]]:
    """The traces to be judged, each with a name."""
    traces = [(f"made {number}", trace) for number, trace in enumerate(MADE)]
    for seed in run.seeds():
        chance = random.Random(seed)
        traces.append((f"seed {seed}", chance.choice(DRAWS)(chance, chance.choice(MOST_EVENTS))))
    return traces


def judge_crowded(judge: Judge) -> None:
    """Judges a pair that is never shown, in a trace that is too large for its contradiction to be found."""
    early = crowded.before("A")
    trace = plain.Trace([*early, *CONTRADICTED.events])
    running.write("trace", trace.text())
    pair = (len(early) + 3, len(early) + 8)
    text = judge.printed("explain", "trace", str(pair[0]), str(pair[1]))
    explained.judge_undecided(trace, judge.tally, text, pair)
    judge.tally["undecided"] += 1


def judged(run: judging.Run) -> str:
    judge, tally = Judge(run), run.tally
    for name, trace in drawn(run):
        with judging.about(name, "trace"):
            judge.judge_trace(trace, random.Random(name))
    judge_crowded(judge)
    count, first = run.numbers
    verdicts = ", ".join(
        f"{tally[verdict]} {verdict}"
        for verdict in ["candidate", "beyond", "turned", "forced", "guarded", "contradicted", "undecided"]
    )
    links = sum(number for kind, number in tally.items() if kind.startswith(("links|", "SHB|", "waits|")))
    return (
        f"explain: {tally['pairs']} pairs of {tally['traces']} traces, seeds {first} to {first + count - 1}, are told "
        f"as the definitions say ({verdicts}), "
        f"with {links} links and {tally['pictures']} pictures; {tally['none']} others are none; on {tally['small']} "
        f"small traces with all {tally['reorderings']} correct reorderings"
    )


if __name__ == "__main__":
    sys.exit(judging.main("explain", judged, REACHED, {"TRACES": TRACES, "SEED": 0}))
