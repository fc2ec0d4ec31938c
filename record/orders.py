"""A race in several orders: the runs of each, what each leads to, and whether the order matters."""
import random
import sys
import tempfile
from typing import Callable, Dict, List, NamedTuple, Optional, Sequence

import following
import plans
import raw as raw_file
import run_messages
import verdicts

BOTH = ("first", "second")
ALL = ("a-a", "a-b", "b-b", "b-a")
FAR = ("far-first", "far-second")
# The orders in which A comes first, and those in which B does.
COLUMNS = (("first", ("first", "a-a", "a-b", "far-first")), ("second", ("second", "b-b", "b-a", "far-second")))
USES = {
    "READ": "reads",
    "WRITE": "writes",
    "ATOMIC_READ": "reads",
    "ATOMIC_WRITE": "writes",
    "ATOMIC_UPDATE": "updates",
}
VERBS = {raw_file.KINDS[name]: verb for name, verb in USES.items()}


class Run(NamedTuple):
    """A followed run, and what it printed."""

    result: following.Result
    output: bytes


def use_text(use: following.Use) -> str:
    """What a thread does with a freed block."""
    if use.kind == raw_file.KINDS["FREED"]:
        return f"T{use.thread} frees a block that T{use.freed_by} has freed"
    size = f"{use.size} byte" if use.size == 1 else f"{use.size} bytes"
    return f"T{use.thread} {VERBS.get(use.kind, 'uses')} {size} of a block that T{use.freed_by} has freed"


def ending_of(result: following.Result) -> str:
    """How a run ended, and its first use of a freed block."""
    used = [use_text(use) for use in result.uses[:1]]
    return ", then ".join([*used, run_messages.ending(result)])


def kind_of_ending(result: following.Result) -> str:
    """The same without the threads and sizes, which may vary where the fault does not."""
    verb = "frees" if result.uses and result.uses[0].kind == raw_file.KINDS["FREED"] else "uses"
    return run_messages.ending(result) if not result.uses else f"{verb} a freed block, {run_messages.ending(result)}"


class Tried:
    """The runs of one order."""

    def __init__(self) -> None:
        self.runs: List[Run] = []

    @property
    def outcomes(self) -> List[verdicts.Outcome]:
        return [verdicts.Outcome(kind_of_ending(run.result), run.output) for run in self.runs]

    def text(self) -> str:
        """The endings, and how often each came if there are several."""
        kinds = [kind_of_ending(run.result) for run in self.runs]
        seen = {kind: ending_of(run.result) for kind, run in reversed(list(zip(kinds, self.runs)))}
        ordered = sorted(seen, key=kinds.index)
        if len(ordered) == 1:
            return seen[ordered[0]]
        return ", ".join(f"{seen[kind]} in {kinds.count(kind)} of {len(kinds)}" for kind in ordered)


class Found:
    """What came of a race in several orders."""

    def __init__(self, tried: Dict[str, Tried], verdict: verdicts.Verdict) -> None:
        self.tried, self.verdict = tried, verdict

    @property
    def results(self) -> List[following.Result]:
        return [run.result for tried in self.tried.values() for run in tried.runs]

    @property
    def departed(self) -> Optional[following.Result]:
        """The first result that departed before the race stood."""
        return next((result for result in self.results if not result.stands), None)

    def column(self, names: Sequence[str]) -> str:
        """What these orders led to: one text if they led to the same."""
        ways = by_text({name: self.tried[name].text() for name in names if name in self.tried})
        return (
            next(iter(ways)) if len(ways) == 1 else "; ".join(f"{way_of(each)}: {text}" for text, each in ways.items())
        )

    def columns(self) -> List[str]:
        return [self.column(names) for _, names in COLUMNS]


def by_text(endings: Dict[str, str]) -> Dict[str, List[str]]:
    """The orders that led to each text."""
    found: Dict[str, List[str]] = {}
    for name, text in endings.items():
        found.setdefault(text, []).append(name)
    return found


def way_of(names: Sequence[str]) -> str:
    """How the program goes on in these orders, which have one access first."""
    return ", ".join(plans.ORDERS[name].name.partition(" (")[2].rstrip(")") for name in names)


def name_of(names: Sequence[str]) -> str:
    """The name of orders that have one access first."""
    return f"{plans.ORDERS[names[0]].name.partition(' (')[0]} ({way_of(names)})"


def names_of(orders: Sequence[str]) -> Dict[str, str]:
    return {name: plans.ORDERS[name].name for name in orders}


def sequence(orders: Sequence[str], round_number: int) -> List[str]:
    """The orders of a round, mixed, so that a program that ends in turn in one way and another does not end in one way
    for each order."""
    return random.Random(round_number).sample(list(orders), len(orders))


def tried_in(orders: Sequence[str], seed: int, tries: int, follow: Callable[[str, int], Run]) -> Found:
    """Follows a race in these orders, a round of all orders for each seed, until the verdict wants no more. It ends at
    the first run that departs before both threads are at the race."""
    tried = {name: Tried() for name in orders}
    round_number = 0
    while True:
        for name in orders if round_number == 0 else sequence(orders, round_number):
            run = follow(name, seed + round_number)
            tried[name].runs.append(run)
            if not run.result.stands:
                return Found(tried, verdicts.Verdict(None, "", False))
        verdict = verdicts.verdict({name: one.outcomes for name, one in tried.items()}, names_of(orders), tries)
        if not verdict.wants_more:
            return Found(tried, verdict)
        round_number += 1


def run_of(
    runner: following.Runner, plan: plans.Plan, settings: following.Settings, echo: bool
) -> Callable[[str, int], Run]:
    """What follows a plan in an order by a seed. `echo` prints what the program prints."""

    def follow(name: str, seed: int) -> Run:
        with tempfile.TemporaryFile(prefix="record") as out:
            result = following.followed(runner, plan, plans.ORDERS[name], seed, settings, out)
            out.seek(0)
            output = out.read()
        if echo:
            sys.stderr.buffer.write(output)
            sys.stderr.flush()
        return Run(result, output)

    return follow
