"""Following each race of a trace: the schedules that are tried, and their outcome as an object for JSON."""
import argparse
import io
import re
import shlex
import subprocess
from typing import Any, Dict, List, NamedTuple, Sequence, Tuple

import clocks
import following
import orders
import plans
import run_messages

# What came of a race, as an object for JSON: docs/FORMATS.md has its members.
Found = Dict[str, Any]


class Race(NamedTuple):
    """A race that `racebench triage` prints: its events, how it was found, and the locations of both."""

    pair: plans.Pair
    how: str
    locations: List[str]

    @property
    def places(self) -> List[str]:
        return [location.split(" < ")[0] for location in self.locations]


def answer_of(command: Sequence[str]) -> str:
    """What racebench prints, or why it does not."""
    ran = subprocess.run(command, capture_output=True, check=False, start_new_session=True)
    if ran.returncode:
        raise following.OtherProgram(ran.stderr.decode(errors="replace").strip() or f"{command[0]} failed")
    return ran.stdout.decode("utf-8", "surrogateescape")


def races_of(racebench: str, trace: str, triage_options: str) -> List[Race]:
    """The races of a trace."""
    text = answer_of([racebench, "triage", *shlex.split(triage_options), trace])
    found = re.findall(r"^race (\d+) (\d+) (\w+) ", text, re.MULTILINE)
    with open(trace, encoding="utf-8", errors="surrogateescape", newline="\n") as file:
        lines = dict(enumerate(event_lines(file.read())))
    pairs = [((int(first), int(second)), how) for first, second, how in found]
    return [Race(pair, how, [lines[event].split("|", 2)[2] for event in pair]) for pair, how in pairs]


def event_lines(text: str) -> List[str]:
    """The lines of a trace that are events."""
    return [line for line in text.split("\n") if not line.startswith("recording|")]


def check_trace(trace: str, path: str, clock: clocks.Clock) -> None:
    if clocks.digest_of(trace) != clock.fields["trace"]:
        raise clocks.Bad(f"{path} is the clock of another trace than {trace}")


class Confirmer:
    """Follows races of a recording."""

    def __init__(
        self, chosen: argparse.Namespace, clock: clocks.Clock, runner: following.Runner, settings: following.Settings
    ) -> None:
        self.settings = following.with_heap_of(clock, settings)
        self.chosen, self.clock, self.runner = chosen, clock, runner
        self.messages = run_messages.RunMessages(clock)

    def attempts(self, race: Race) -> List[Tuple[plans.Witness, following.Settings]]:
        """The schedules to try until a run does not depart. First the one that racebench prints. Then its events in the
        order of the recording, which is a schedule too if the race was not turned: there a thread finds more of what
        relaxed atomics and the world gave it. Last the first one, with the heap of the recording."""
        printed = answer_of([self.chosen.racebench, "witness", self.chosen.trace, *map(str, race.pair)])
        events, lines = plans.read_witness(io.StringIO(printed), self.clock)
        found = [((events, lines), self.settings)]
        if race.how != "turned" and events != sorted(events):
            found.append(((sorted(events), lines), self.settings))
        if self.settings.filled_heap:
            found.append(((events, lines), self.settings._replace(filled_heap=False)))
        return found

    def orders_of(self, race: Race) -> Sequence[str]:
        """The orders to follow: the four endings, and the far ones if an access is a free or a block is freed later."""
        record = self.clock.record_of[min(race.pair)]
        return (*orders.ALL, *orders.FAR) if record <= self.clock.last_free else orders.ALL

    def follow(self, race: Race) -> orders.Found:
        first = None
        for witness, settings in self.attempts(race):
            plan = plans.Plan(self.clock, witness, race.pair, self.chosen.patience, self.chosen.alone)
            follow = orders.run_of(self.runner, plan, settings, self.chosen.verbose)
            found = orders.tried_in(self.orders_of(race), self.chosen.seed, self.chosen.tries, follow)
            if not found.departed:
                return found
            first = first or found
        assert first
        return first

    def confirmed(self, race: Race) -> Found:
        """What came of a race, as an object for JSON."""
        found = self.follow(race)
        head: Found = {
            "events": list(race.pair),
            "ended": "departed" if found.departed else "stands",
            "locations": race.locations,
            "places": race.places,
        }
        if found.departed:
            return {**head, "at": found.departed.event, "text": self.messages.departure(found.departed)}
        result, (first, second) = found.results[0], found.columns()
        return {
            **head,
            "text": self.messages.title(result),
            "same_memory": result.is_same_memory,
            "first": first,
            "second": second,
            "endings": {name: tried.text() for name, tried in found.tried.items()},
            "runs": min(len(tried.runs) for tried in found.tried.values()),
            "uses": self.uses_of(found),
            "matters": found.verdict.matters,
            "why": found.verdict.why,
            "liberties": list(self.messages.liberties(result)),
        }

    def uses_of(self, found: orders.Found) -> List[str]:
        """The first use of a freed block in each order, with its lines, each text once."""
        first = [result.uses[0] for result in found.results if result.uses]
        lines = [(orders.use_text(use), self.messages.line(use.pc), self.messages.line(use.freed_at)) for use in first]
        return list(dict.fromkeys(f"{text}: at {at}, freed at {freed}" for text, at, freed in lines))


def readable(found: object) -> object:
    """The same with U+FFFD for bytes that are no UTF-8, since JSON has no lone surrogates."""
    if isinstance(found, str):
        return found.encode("utf-8", "surrogateescape").decode("utf-8", "replace")
    if isinstance(found, list):
        return [readable(one) for one in found]
    if isinstance(found, dict):
        return {name: readable(one) for name, one in found.items()}
    return found
