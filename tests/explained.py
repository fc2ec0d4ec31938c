"""Judges what `explain` printed of a pair, by tests/plain.py, which answers from the definitions.

A schedule is printed by its runs, a pair that is apart by a chain of reasons or by a lock, and an undecided one by a
chain of SHB. Each link of a chain must be one of the definition, and what no definition fixes may be any of what is
true.
"""

from __future__ import annotations

from collections import Counter
from collections.abc import Callable, Mapping, Sequence
from typing import NamedTuple

import plain
from judging import Wrong
from plain import Listed

# How many runs are printed one by one, and how many of the last where there are more.
MOST_RUNS = 11
LAST_RUNS = 10

# Two events: a pair that is judged, or the ends of a chain.
Pair = tuple[int, int]
# The event that begins a section, and the event before which that section has to end.
Section = tuple[int, int]
# Whether a reason holds between two events: in the trace, or in a list of events.
Link = Callable[[plain.Trace, int, int], bool]
ListedLink = Callable[[plain.Trace, Listed, int, int], bool]


class Chain(NamedTuple):
    """A chain of a forced pair: the printed events, in order, and the reasons between each two."""

    events: list[int]
    reasons: list[str]


class Lines:
    """The lines of a text, which are taken one after another."""

    def __init__(self, text: str) -> None:
        if text and not text.endswith("\n"):
            raise Wrong("the text ends within a line")
        self.lines = text.split("\n")[:-1]
        self.at = 0

    def next(self) -> str | None:
        """The line that comes next, or None after the last."""
        return self.lines[self.at] if self.at < len(self.lines) else None

    def take(self) -> str:
        """Takes the line that comes next."""
        line = self.next()
        if line is None:
            raise Wrong("the text ends early")
        self.at += 1
        return line

    def expect(self, *lines: str) -> None:
        """Takes these lines."""
        for line in lines:
            found = self.take()
            if found != line:
                raise Wrong(f"line {self.at} is {found!r}, and plainly {line!r}")

    def end(self) -> None:
        if self.next() is not None:
            raise Wrong(f"line {self.at + 1} is one too many: {self.next()!r}")


def numbered(trace: plain.Trace, event: int) -> str:
    return f"{event}  {trace.line(event)}"


def with_locks(trace: plain.Trace, event: int) -> list[str]:
    """The line of the event, and those of the locks that its thread holds before it."""
    return [numbered(trace, event)] + [f"    holds {lock}" for lock in trace.locks_before(event)]


def count(number: int, word: str) -> str:
    return f"{number} {word}" if number == 1 else f"{number} {word}s"


def blanks_of(line: str) -> int:
    """How many blanks the line begins with."""
    return len(line) - len(line.lstrip(" "))


def event_of(trace: plain.Trace, line: str, blanks: int) -> int:
    """The number of the event whose line this is, after this many blanks."""
    number = line[blanks:].split(" ")[0]
    event = int(number) if number.isdecimal() else None
    if event is None or not trace.is_event(event) or line != " " * blanks + numbered(trace, event):
        raise Wrong(f"no line of an event behind {blanks} blanks: {line!r}")
    return event


# The reasons between two events. A part of a chain along one thread is drawn together.


def is_later(trace: plain.Trace, first: int, second: int) -> bool:
    return first < second and trace.thread(first) == trace.thread(second)


def begins_thread(trace: plain.Trace, first: int, second: int) -> bool:
    return trace.base(second) == first and trace.thread(first) != trace.thread(second)


def is_read_by(trace: plain.Trace, first: int, second: int) -> bool:
    return trace.events[second].word == "r" and trace.last_writer(second) == first


def ends_thread(trace: plain.Trace, first: int, second: int) -> bool:
    return trace.does(second, "join", trace.thread(first)) and trace.events_of(trace.thread(first))[-1] == first


def forks_joined(trace: plain.Trace, first: int, second: int) -> bool:
    name = trace.events[second].name
    return trace.does(second, "join", name) and trace.does(first, "fork", name) and not trace.events_of(name)


def lets_go(trace: plain.Trace, first: int, second: int) -> bool:
    lock = trace.events[first].name
    return first < second and trace.does(first, "rel", lock) and trace.does(second, "acq", lock)


LINKS: dict[str, Link] = {
    "and later in its thread": is_later,
    "begins the thread of": begins_thread,
    "is read by": is_read_by,
    "ends the thread that is joined by": ends_thread,
    "forks the thread that is joined by": forks_joined,
}
SHB_LINKS = {**LINKS, "lets the lock go that is taken by": lets_go}
READ = "is read by"


def without_note(trace: plain.Trace, tally: Counter[str], first: int, reason: str, second: int) -> str:
    """The reason of a link without the note that a write and its read race. The note must be there exactly if the two
    are a candidate."""
    if not reason.startswith(READ):
        return reason
    is_race = trace.conflict(first, second) and trace.is_candidate(first, second)
    wanted = READ + (f" (these two race: explain {first} {second})" if is_race else "")
    if reason != wanted:
        raise Wrong(f"of {first} and {second} the words are {reason!r}, and plainly {wanted!r}")
    tally["reads that race" if is_race else "reads that do not race"] += 1
    return READ


# Races.


def runs_of(trace: plain.Trace, listed: Listed) -> list[list[int]]:
    """The longest parts of the list that are of one thread."""
    runs: list[list[int]] = []
    for event in listed:
        if runs and trace.thread(runs[-1][-1]) == trace.thread(event):
            runs[-1].append(event)
        else:
            runs.append([event])
    return runs


def folded(trace: plain.Trace, runs: Sequence[Sequence[int]]) -> list[str]:
    """The lines of the first runs of many: of each thread, in the order of their numbers, how many events they have,
    and the last."""
    events = [event for run in runs for event in run]
    lines = [f"runs 1 to {len(runs)}, {count(len(events), 'event')}"]
    for thread in trace.threads():
        own = [event for event in events if trace.thread(event) == thread]
        if own:
            lines.append(f"  {count(len(own), 'event')} to {numbered(trace, own[-1])}")
    return lines


def is_before_write(word: str) -> ListedLink:
    """Whether the first event, which does `word`, comes before the second, a write of its variable, in each list:
    no write of it is between."""

    def is_before(trace: plain.Trace, listed: Listed, first: int, second: int) -> bool:
        variable = trace.events[first].name
        between = listed[listed.index(first) + 1 : listed.index(second)]
        return (
            trace.does(first, word, variable)
            and trace.does(second, "w", variable)
            and trace.last_write(variable, between) is None
        )

    return is_before


def is_last_release(trace: plain.Trace, listed: Listed, first: int, second: int) -> bool:
    lock = trace.events[first].name
    between = listed[listed.index(first) + 1 : listed.index(second)]
    return (
        trace.does(first, "rel", lock)
        and trace.does(second, "acq", lock)
        and not any(trace.does(event, "rel", lock) for event in between)
    )


def of_trace(link: Link) -> ListedLink:
    return lambda trace, _, first, second: link(trace, first, second)


# Why an event of a list waits for an earlier one of another thread.
WAITS = {
    "begins the thread of": of_trace(begins_thread),
    "is read by": of_trace(is_read_by),
    "ends the thread that is joined by": of_trace(ends_thread),
    "forks the thread that is joined by": of_trace(forks_joined),
    "lets the lock go that is taken by": is_last_release,
    "reads before": is_before_write("r"),
    "writes before": is_before_write("w"),
}


def waiters_of(trace: plain.Trace, listed: Listed) -> dict[int, int]:
    """Of each event for which one of another thread waits the first that does."""
    waiters: dict[int, int] = {}
    forks: dict[str, int] = {}
    lasts: dict[str, int] = {}
    writes: dict[str, int] = {}
    releases: dict[str, int] = {}
    reads: dict[str, list[int]] = {}
    for event in listed:
        thread, word, name = trace.events[event]
        needs = [] if thread in lasts else [forks.get(thread)]
        if word in ("r", "w"):
            needs += [*(reads.pop(name, []) if word == "w" else []), writes.get(name)]
        if word == "acq":
            needs.append(releases.get(name))
        if word == "join":
            needs.append(lasts.get(name, forks.get(name)))
        for need in needs:
            if need is not None and trace.thread(need) != thread:
                waiters.setdefault(need, event)
        if word == "r":
            reads.setdefault(name, []).append(event)
        lasts[thread] = event
        if word in (latest := {"w": writes, "rel": releases, "fork": forks}):
            latest[word][name] = event
    return waiters


def judge_wait(trace: plain.Trace, tally: Counter[str], listed: Listed, last: int, waiter: int, line: str) -> None:
    """Judges a line: this event waits for the last one of a run, for the printed reason."""
    reason = line.removesuffix(f" {numbered(trace, waiter)}").removeprefix("  ")
    if line != f"  {reason} {numbered(trace, waiter)}" or reason not in WAITS:
        raise Wrong(f"no line that says for what {waiter} waits: {line!r}")
    if not WAITS[reason](trace, listed, last, waiter):
        raise Wrong(f"of {last} that is not so: {line!r}")
    tally[f"waits|{reason}"] += 1


def judge_race(
    trace: plain.Trace, tally: Counter[str], text: str, how: str, pair: Pair, listed: Listed, is_all: bool
) -> None:
    """Judges the text on a pair that this list shows."""
    runs = runs_of(trace, listed)
    lines = Lines(text)
    lines.expect(f"race {how}: after {count(len(listed), 'event')} in {count(len(runs), 'run')} both are next")
    lines.expect(*with_locks(trace, pair[0]), *with_locks(trace, pair[1]))
    first = 0 if is_all or len(runs) <= MOST_RUNS else len(runs) - LAST_RUNS
    tally["as many runs as are told"] += len(runs) == MOST_RUNS and not is_all
    tally["one run more"] += len(runs) == MOST_RUNS + 1 and not is_all
    waiters = waiters_of(trace, listed)
    if first:
        lines.expect(*folded(trace, runs[:first]))
        tally["folded"] += 1
    for number, run in enumerate(runs[first:], start=first + 1):
        lines.expect(
            f"run {number} of {trace.thread(run[0])}, {count(len(run), 'event')}", f"  {numbered(trace, run[0])}"
        )
        lines.expect(*["  .."] * (len(run) > 2), *[f"  {numbered(trace, run[-1])}"] * (len(run) > 1))
        if run[-1] in waiters:
            judge_wait(trace, tally, listed, run[-1], waiters[run[-1]], lines.take())
    lines.end()


# Forced pairs.


def chain_of(trace: plain.Trace, lines: Lines, depth: int) -> Chain:
    """The chain that comes next, so deep."""
    blanks = 2 * depth
    chain = Chain([event_of(trace, lines.take(), blanks)], [])
    while (line := lines.next()) is not None and blanks_of(line) == blanks + 2:
        chain.reasons.append(lines.take()[blanks + 2 :])
        chain.events.append(event_of(trace, lines.take(), blanks))
    return chain


def section_begun(trace: plain.Trace, release: int) -> int:
    """The acquire that begins the section which the release ends."""
    return next(acquire for acquire in trace.acquires(range(release)) if trace.section_end(acquire) == release)


def judge_link(trace: plain.Trace, tally: Counter[str], first: int, reason: str, second: int) -> Section | None:
    """Judges a link of a chain. Of one that ends a section, the event that begins it and the event before which it has
    to end; else None."""
    reason = without_note(trace, tally, first, reason, second)
    if reason in LINKS:
        if not LINKS[reason](trace, first, second):
            raise Wrong(f"of {first} and {second} that is not so: {reason}")
        tally[f"links|{reason}"] += 1
        return None
    lock = trace.events[first].name
    if not trace.does(first, "rel", lock) or reason != f"ends a section of {lock} that comes before the one of":
        raise Wrong(f"no words of a link from {first}: {reason!r}")
    acquire = section_begun(trace, first)
    if not trace.ends_first(acquire, second):
        raise Wrong(f"{second} lies in no section of {lock} in another thread than {first}")
    tally["links|section"] += 1
    return (acquire, second)


def cause_line(trace: plain.Trace, begun: Section, depth: int) -> list[str]:
    """The lines that may come before the chain that shows why this section began first."""
    acquire, event = begun
    lock = trace.events[acquire].name
    verbs = []
    if lock in trace.locks_before(event):
        verbs.append("holds")
    if trace.does(event, "acq", lock):
        verbs.append("takes")
    blanks = "  " * (depth - 1)
    return [
        f"{blanks}for {trace.thread(event)} {word} {lock} at {event}, and that section began before:" for word in verbs
    ]


def judge_causes(needs: Mapping[Pair, Sequence[Section]]) -> None:
    """Judges that each needed chain was printed, and rests on no chain that rests on it. `needs` has for each chain,
    by its ends, the ends of the chains that it needs."""
    ended: set[Pair] = set()
    while True:
        next_ended = {ends for ends, needed in needs.items() if ended.issuperset(needed)}
        if next_ended == ended:
            break
        ended = next_ended
    if ended != set(needs):
        raise Wrong(
            f"these chains rest on themselves, or on chains that are not printed: {sorted(set(needs) - ended)}"
        )


def judge_forced(trace: plain.Trace, tally: Counter[str], text: str, pair: Pair) -> None:
    """Judges the text on a forced pair."""
    lines = Lines(text)
    lines.expect(f"apart: {pair[0]} comes before {pair[1]} in every correct reordering")
    lines.expect(*with_locks(trace, pair[0]), *with_locks(trace, pair[1]), "since")
    needs: dict[Pair, list[Section]] = {}
    # For each depth what the last chain there needs.
    open_needs: list[list[Section]] = []
    depth = 0
    while True:
        chain = chain_of(trace, lines, depth)
        ends = (chain.events[0], chain.events[-1])
        if ends in needs:
            raise Wrong(f"the chain from {ends[0]} to {ends[1]} is printed twice")
        if depth and ends not in open_needs[depth - 1]:
            raise Wrong(f"no chain above needs the one from {ends[0]} to {ends[1]}")
        links = zip(chain.events, chain.reasons, chain.events[1:])
        begun = [judge_link(trace, tally, *link) for link in links]
        needs[ends] = [section for section in begun if section]
        open_needs[depth:] = [needs[ends]]
        tally[f"chains|{depth}"] += 1
        if not depth and (
            ends != pair or chain.reasons[-1] not in ("and later in its thread", "begins the thread of")
        ):
            raise Wrong(f"the first chain does not lead from {pair[0]} to the base of {pair[1]}, and on")
        if lines.next() is None:
            break
        line = lines.take()
        depth = blanks_of(line) // 2 + 1
        waiting = (
            [section for section in open_needs[depth - 1] if section not in needs] if depth <= len(open_needs) else []
        )
        if not waiting or line not in cause_line(trace, waiting[0], depth):
            raise Wrong(f"that is not for the next chain that is needed: {line!r}")
    judge_causes(needs)


# Guarded and undecided pairs.


def judge_guarded(trace: plain.Trace, text: str, pair: Pair, lock: str) -> None:
    """Judges the text on a pair whose threads both hold this lock, the least."""
    lines = Lines(text)
    lines.expect(f"apart: both threads hold {lock}", *with_locks(trace, pair[0]), *with_locks(trace, pair[1]))
    for event in pair:
        acquire = trace.held_since(event, lock)
        release = trace.section_end(acquire)
        lines.expect(f"{trace.thread(event)} holds it from {numbered(trace, acquire)}")
        lines.expect("  to the end" if release is None else f"  to {numbered(trace, release)}")
    lines.end()


def judge_undecided(trace: plain.Trace, tally: Counter[str], text: str, pair: Pair) -> None:
    """Judges the text on a pair of which nothing is known but that SHB orders it."""
    lines = Lines(text)
    lines.expect("undecided: no schedule was found, and neither order nor lock forbids one")
    lines.expect(*with_locks(trace, pair[0]), *with_locks(trace, pair[1]), "in SHB")
    chain = chain_of(trace, lines, 0)
    lines.end()
    if (chain.events[0], chain.events[-1]) != pair:
        raise Wrong(f"the chain leads from {chain.events[0]} to {chain.events[-1]}")
    for first, noted, second in zip(chain.events, chain.reasons, chain.events[1:]):
        reason = without_note(trace, tally, first, noted, second)
        if reason not in SHB_LINKS or not SHB_LINKS[reason](trace, first, second):
            raise Wrong(f"of {first} and {second} that is not so: {reason}")
        tally[f"SHB|{reason}"] += 1
