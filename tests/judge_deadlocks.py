#!/usr/bin/env python3
"""Judges `deadlocks` on small traces drawn by chance, by going over every state that a correct reordering reaches.

Each two requests that wait for each other have a block on their pattern. A reordering of the printed size shows each
deadlock, and none shows what is apart. The rest of the text follows from the trace and is compared with it. `witness`
prints a correct reordering of the printed size that shows the deadlock, and `explain` says the same. `--known`,
`--only` and `--hide` leave out the blocks that they should. `--json` has the same counts and blocks, member by member,
and `--lines` the same blocks. Takes the program's path, how many traces are drawn, and the first seed.
"""

from __future__ import annotations

import json
import random
import sys
from collections import Counter
from collections.abc import Sequence
from typing import NamedTuple

if __name__ == "__main__":
    sys.dont_write_bytecode = True
import compiled
import deadlocked
import judging
import pictured
import plain
import running
from judging import Run, Wrong

TRACES = 1_000
# States of a trace beyond which it is left out.
MOST_STATES = 20_000
REACHED = [
    *["deadlock", "apart", "ordered", "turned", "real", "held by both", "forced", "no requests"],
    *["pictures", "arrows", "kept", "hidden", "known", "objects", "other locks", "lines", "calls"],
]
KINDS = ["deadlock", "undecided", "apart"]
HEADS = {"deadlock": "warning: deadlock", "undecided": "warning: undecided deadlock", "apart": "note: apart"}
RULES = {"deadlock": "deadlock", "undecided": "undecided-deadlock", "apart": "apart-deadlock"}

Shown = dict[deadlocked.Pair, set[deadlocked.Size]]


class Block:
    """The first line of a block: its verdict, the two requests, and what was found."""

    def __init__(self, line: str) -> None:
        self.line = line
        self.verdict, first, second, *self.found = line.split(" ")
        self.pair = (int(first), int(second))

    def place(self) -> tuple[int, int, int]:
        """Blocks are printed in this order."""
        return KINDS.index(self.verdict), self.pair[1], self.pair[0]

    def check(self, sizes: set[deadlocked.Size]) -> None:
        """Whether a schedule of this size shows the deadlock, and whether it is in order if it says so."""
        how, _, events, _, threads = self.found
        fitting = {size[2] for size in sizes if size[:2] == (int(events), int(threads))}
        if self.line != f"deadlock {self.pair[0]} {self.pair[1]} {how} events {events} threads {threads}":
            raise Wrong(f"not a block of a deadlock: {self.line}")
        if not fitting or (how == "ordered" and True not in fitting):
            raise Wrong(f"no such schedule shows it: {self.line}")


def blocks_of(text: str) -> list[Block]:
    """The blocks of a text."""
    return [Block(line) for line in text.splitlines() if line.split(" ")[0] in KINDS and line.count(" ") > 1]


def lines_of(trace: deadlocked.Trace, block: Block) -> list[str]:
    """The lines of a block below its first one."""
    return [*trace.request_lines(*block.pair), *trace.request_lines(*reversed(block.pair))]


class Choice(NamedTuple):
    """The texts of `--only` and `--hide`, and the blocks that the file of `--known` names; None without a file."""

    only: Sequence[str] = ()
    hide: Sequence[str] = ()
    known: Sequence[Block] | None = None

    def options(self) -> list[str]:
        """The arguments of the choice."""
        options = [word for text in self.only for word in ("--only", text)]
        options += [word for text in self.hide for word in ("--hide", text)]
        return options + ["--known", "known"] * (self.known is not None)

    def keeps(self, lines: list[str]) -> bool:
        """Whether the filters keep a block with these lines."""

        def mention(texts: Sequence[str]) -> bool:
            return any(text in line for text in texts for line in lines)

        return (mention(self.only) or not self.only) and not mention(self.hide)


class Chosen(NamedTuple):
    """The counts of all blocks, the chosen blocks, and how many are left out, by why."""

    counts: dict[str, int]
    kept: list[Block]
    left_out: dict[str, int]


def chosen(trace: deadlocked.Trace, blocks: list[Block], is_apart_wanted: bool, choice: Choice) -> Chosen:
    """What is printed with this choice."""
    tally = Counter(block.verdict for block in blocks)
    counts = {"events": len(trace.events), "threads": len(trace.names()), "nested": trace.nested()}
    counts |= {"patterns": len(blocks), "deadlocks": tally["deadlock"], "undecided": tally["undecided"]}
    counts |= {"apart": tally["apart"], "whole": 2}
    wanted = [block for block in sorted(blocks, key=Block.place) if is_apart_wanted or block.verdict != "apart"]
    known = [block for block in wanted if block.verdict == "deadlock" and block in (choice.known or [])]
    kept = [block for block in wanted if block not in known and choice.keeps(lines_of(trace, block))]
    left_out = {"known": len(known)} if choice.known is not None else {}
    if choice.only or choice.hide:
        left_out["hidden"] = len(wanted) - len(known) - len(kept)
    return Chosen(counts, kept, left_out)


def expected(trace: deadlocked.Trace, blocks: list[Block], is_apart_wanted: bool, choice: Choice = Choice()) -> str:
    """The text with the chosen blocks, the counts before them, and after them how many are left out."""
    counts, kept, left_out = chosen(trace, blocks, is_apart_wanted, choice)
    lines = [f"{word} {count}" for word, count in counts.items()]
    for block in kept:
        lines += [block.line, *lines_of(trace, block)]
    lines += [f"{word} {count}" for word, count in left_out.items()]
    return "".join(f"{line}\n" for line in lines)


def request_object(trace: deadlocked.Trace, request: int, other: int) -> dict[str, object]:
    """A request, and the locks that its thread holds, as the JSON has them."""
    thread, _, lock = trace.events[request]
    wanted = trace.events[other][2]
    since = trace.held_at(request)[wanted]
    return {
        "event": request,
        "hold": {"event": since, "location": trace.locations[since], "lock": wanted},
        "holds": trace.other_locks(request, wanted),
        "location": trace.locations[request],
        "lock": lock,
        "thread": f"T{thread}",
    }


def block_object(trace: deadlocked.Trace, block: Block) -> dict[str, object]:
    """A block, as the JSON has it. What was found is a number after its word, and the order of a schedule."""
    how, numbers = (block.found[:1], block.found[1:]) if block.verdict == "deadlock" else ([], block.found)
    found = {word: int(number) for word, number in zip(numbers[::2], numbers[1::2], strict=True)}
    requests = [request_object(trace, *block.pair), request_object(trace, *reversed(block.pair))]
    return {"kind": block.verdict, "requests": requests, **found, **{"how": word for word in how}}


def expected_json(trace: deadlocked.Trace, blocks: list[Block], choice: Choice) -> str:
    """The text with `--apart` as JSON: an object a line, its members in the order of their names."""
    counts, kept, left_out = chosen(trace, blocks, True, choice)
    first: dict[str, object] = {"kind": "counts", **counts}
    objects = [first, *(block_object(trace, block) for block in kept)]
    objects += [{"kind": word, "count": count} for word, count in left_out.items()]
    return "".join(json.dumps(value, sort_keys=True, separators=(",", ":")) + "\n" for value in objects)


def place_of(trace: deadlocked.Trace, event: int) -> str:
    """The place of an event."""
    return trace.locations[event].split(" < ")[0]


def call_lines(trace: deadlocked.Trace, event: int) -> list[str]:
    """The lines of the calls that led to an event."""
    return [compiled.call_line(place_of(trace, event), call) for call in trace.locations[event].split(" < ")[1:]]


def request_notes(trace: deadlocked.Trace, request: int, other: int) -> list[str]:
    """The lines of a request: for what it waits, what its thread holds, and the calls that led to both."""
    thread, _, lock = trace.events[request]
    wanted = trace.events[other][2]
    since = trace.held_at(request)[wanted]
    return [
        f"{place_of(trace, request)}: note: event {request}: T{thread} waits for {lock}",
        *(f"{place_of(trace, request)}: note: holds {held}" for held in trace.other_locks(request, wanted)),
        *call_lines(trace, request),
        f"{place_of(trace, since)}: note: event {since}: T{thread} acquires {wanted}",
        *call_lines(trace, since),
    ]


def block_notes(trace: deadlocked.Trace, block: Block) -> list[str]:
    """The lines of a block, those of its later request first."""
    first, second = block.pair
    (one, _, lock), (other, _, later) = trace.events[first], trace.events[second]
    waits = f"T{other} holds {lock} and waits for {later}, T{one} holds {later} and waits for {lock}"
    row = block_object(trace, block)
    row["kind"] = block.verdict.replace("deadlock", "race")
    place = place_of(trace, second)
    return [
        f"{place}: {HEADS[block.verdict]}: {waits} [{RULES[block.verdict]}]",
        *request_notes(trace, second, first),
        *request_notes(trace, first, second),
        f"{place}: note: {compiled.why(row)}: racebench explain TRACE {first} {second}",
    ]


def expected_lines(trace: deadlocked.Trace, blocks: list[Block], choice: Choice) -> str:
    """The chosen blocks with `--apart` as lines for editors."""
    kept = chosen(trace, blocks, True, choice).kept
    return "".join(f"{line}\n" for block in kept for line in block_notes(trace, block))


def check_choice(run: Run, trace: deadlocked.Trace, blocks: list[Block], choice: Choice, note: bytes = b"") -> None:
    """Whether the choice leaves out the right blocks, with this note, and whether `--fail` counts the printed ones."""
    for is_apart in (False, True):
        options = [*choice.options(), *["--apart"] * is_apart]
        status, out, err = running.ended(run.program, ["deadlocks", "trace", "--fail", *options])
        text = out.decode("ascii")
        if err != note or text != expected(trace, blocks, is_apart, choice):
            raise Wrong(f"with {options}, it prints another text:\n{text}")
        printed = any(block.verdict == "deadlock" for block in blocks_of(text))
        if status != (3 if printed else 0):
            raise Wrong(f"with {options}, --fail ends with status {status}")
        run.tally["kept"] += len(blocks_of(text))
        run.tally["hidden"] += bool(choice.only or choice.hide) and not text.endswith("hidden 0\n")
    check_json(run, trace, blocks, choice, note)
    check_lines(run, trace, blocks, choice, note)


def check_json(run: Run, trace: deadlocked.Trace, blocks: list[Block], choice: Choice, note: bytes) -> None:
    """Whether the JSON has the same counts and blocks as the text, and `--fail` ends in the same way."""
    options = ["--apart", *choice.options()]
    status, out, err = running.ended(run.program, ["deadlocks", "trace", "--json", "--fail", *options])
    text = out.decode("ascii")
    if err != note or text != expected_json(trace, blocks, choice):
        raise Wrong(f"with {options}, it prints other JSON:\n{text}")
    if status != (3 if '"kind":"deadlock"' in text else 0):
        raise Wrong(f"with --json and {options}, --fail ends with status {status}")
    run.tally["objects"] += text.count('"kind":"deadlock"')
    run.tally["other locks"] += text.count('"holds":["')


def check_lines(run: Run, trace: deadlocked.Trace, blocks: list[Block], choice: Choice, note: bytes) -> None:
    """Whether the lines for editors have the same blocks as the text, and `--fail` ends in the same way."""
    options = ["--apart", *choice.options()]
    status, out, err = running.ended(run.program, ["deadlocks", "trace", "--lines", "--fail", *options])
    text = out.decode("ascii")
    if err != note or text != expected_lines(trace, blocks, choice):
        raise Wrong(f"with {options}, it prints other lines:\n{text}")
    if status != (3 if "[deadlock]" in text else 0):
        raise Wrong(f"with --lines and {options}, --fail ends with status {status}")
    run.tally["lines"] += text.count("[deadlock]")
    run.tally["calls"] += text.count(": note: in ")


def check_filters(run: Run, trace: deadlocked.Trace, blocks: list[Block]) -> None:
    """Whether `--only` and `--hide` leave out the right blocks."""
    lines = [line for block in blocks for line in lines_of(trace, block)]
    if not lines:
        return
    location, held, nowhere = lines[0].split("|")[2], lines[-1].strip(), "no such text"
    check_choice(run, trace, blocks, Choice(only=[location]))
    check_choice(run, trace, blocks, Choice(hide=[location]))
    check_choice(run, trace, blocks, Choice(only=[location, nowhere], hide=[held]))
    check_choice(run, trace, blocks, Choice(only=[nowhere]))
    check_choice(run, trace, blocks, Choice(hide=[held]))


def turned(trace: deadlocked.Trace, block: Block) -> list[str]:
    """The block as another run may have it: the other request first, and other threads, locks and events."""
    lines = [*trace.request_lines(*reversed(block.pair)), *trace.request_lines(*block.pair)]
    located = [line.split("|", 2) for line in lines if "|" in line]
    request, hold, other, other_hold = (location for _, _, location in located)
    return [
        "deadlock 7 8 ordered events 9 threads 9",
        *[f"  T8|acq(p)|{request}", f"    holds q since 6  T8|acq(q)|{hold}", "    holds r"],
        *[f"  T9|acq(q)|{other}", f"    holds p since 5  T9|acq(p)|{other_hold}"],
    ]


def check_known(run: Run, trace: deadlocked.Trace, blocks: list[Block]) -> None:
    """Whether `--known` leaves out the deadlocks of a file, and nothing else."""
    deadlocks = [block for block in blocks if block.verdict == "deadlock"]
    running.write("known", expected(trace, blocks, is_apart_wanted=True))
    note = b"" if deadlocks else b"racebench: known has no block `deadlock`: no deadlock is known\n"
    check_choice(run, trace, blocks, Choice(known=deadlocks), note)
    if not deadlocks:
        return
    lines = turned(trace, deadlocks[-1])
    running.write("known", "".join(f"{line}\n" for line in lines))
    check_choice(run, trace, blocks, Choice(known=deadlocks[-1:]))
    check_choice(run, trace, blocks, Choice(hide=[lines[1].split("|")[2]], known=deadlocks[-1:]))
    lines[2] += " elsewhere"
    running.write("known", "".join(f"{line}\n" for line in lines))
    check_choice(run, trace, blocks, Choice(known=[]))
    run.tally["known"] += len(deadlocks)


def check_verdicts(run: Run, trace: deadlocked.Trace, blocks: list[Block], shown: Shown) -> None:
    """Compares the verdicts with the pairs that reorderings show."""
    real = {trace.pattern(*pair): pair for pair in shown}
    cycles = set(trace.cycles())
    for block in blocks:
        pattern = trace.pattern(*block.pair) if block.pair in cycles else None
        if pattern is None:
            raise Wrong(f"these do not wait for each other: {block.line}")
        if block.verdict == "deadlock":
            block.check(shown.get(block.pair, set()))
        if block.verdict == "apart" and pattern in real:
            raise Wrong(f"a reordering shows {real[pattern]}, and yet: {block.line}")
        run.tally.update([block.verdict, *block.found[:1]])
    listed = [trace.pattern(*block.pair) for block in blocks]
    if sorted(listed) != sorted({trace.pattern(*pair) for pair in cycles}):
        raise Wrong("a pattern has no block, or two")
    run.tally["real"] += len(real)


def walked(trace: deadlocked.Trace, events: list[int]) -> deadlocked.State:
    """The state after these events. Raises Wrong if an event may not come."""
    state = trace.first_state()
    for event in events:
        thread = trace.events[event][0]
        is_next = trace.place[event] == state[0][thread]
        if not is_next or not trace.may_come(event, state, trace.owners(state[0])):
            raise Wrong(f"event {event} may not come: {events}")
        state = trace.after(event, state)
    return state


def run_count(trace: deadlocked.Trace, events: list[int]) -> int:
    """How many runs the schedule has."""
    threads = [trace.events[event][0] for event in events]
    return sum(at == 0 or threads[at - 1] != thread for at, thread in enumerate(threads))


def many(count: int, noun: str) -> str:
    """The number and the noun."""
    return f"{count} {noun}" + "s" * (count != 1)


def requests_text(trace: deadlocked.Trace, pair: deadlocked.Pair) -> list[str]:
    """The lines of both requests, each after its number."""
    one, other = trace.request_lines(*pair), trace.request_lines(*reversed(pair))
    return [f"{pair[0]}{one[0]}", *one[1:], f"{pair[1]}{other[0]}", *other[1:]]


def wait_line(trace: deadlocked.Trace, request: int, other: int) -> str:
    """For which lock a request waits."""
    lock = trace.events[request][2]
    since = trace.held_at(other)[lock]
    return f"T{trace.events[request][0]} waits for {lock}, which T{trace.events[other][0]} holds since {since}"


def check_schedule(run: Run, trace: deadlocked.Trace, block: Block) -> None:
    """Whether `witness` prints a schedule of the printed size that shows the deadlock, and `explain` the same one."""
    first, second = (str(event) for event in block.pair)
    lines = running.printed(run.program, ["witness", "trace", first, second]).decode("ascii").splitlines()
    events = [int(line.split("  ")[0]) for line in lines]
    if lines != [f"{event}  {trace.line(event)}" for event in events]:
        raise Wrong("witness prints other lines")
    counts = walked(trace, events)[0]
    if block.pair not in trace.pairs(counts, trace.owners(counts)):
        raise Wrong(f"this schedule does not show {block.pair}: {events}")
    threads = {trace.events[event][0] for event in events}
    how = "ordered" if events == sorted(events) else "turned"
    if block.found != [how, "events", str(len(events)), "threads", str(len(threads))]:
        raise Wrong(f"the schedule has another size than {block.line}: {events}")
    text = running.printed(run.program, ["explain", "trace", first, second, "--all"]).decode("ascii").splitlines()
    size = f"{many(len(events), 'event')} in {many(run_count(trace, events), 'run')}"
    head = [f"deadlock {how}: after {size} each of 2 threads waits for the next", *requests_text(trace, block.pair)]
    waits = [wait_line(trace, *block.pair), wait_line(trace, *reversed(block.pair))]
    if text[: len(head)] != head or text[-2:] != waits:
        raise Wrong("explain says something else:\n" + "\n".join(text))


class Located(plain.Trace):
    """The trace as the judge of pictures reads it."""

    def __init__(self, trace: deadlocked.Trace) -> None:
        named = [f"T{name}" if op in ("fork", "join") else name for _, op, name in trace.events]
        super().__init__(
            plain.Event(f"T{thread}", op, name) for (thread, op, _), name in zip(trace.events, named, strict=True)
        )
        self.locations = trace.locations

    def location(self, event: int) -> str:
        return self.locations[event]


def check_picture(run: Run, trace: deadlocked.Trace, block: Block) -> None:
    """Whether the picture has the schedule that `witness` prints, and the two requests."""
    words = ["witness", "trace", *(str(event) for event in block.pair)]
    lines = running.printed(run.program, words).decode("ascii").splitlines()
    listed = tuple(int(line.split("  ")[0]) for line in lines)
    picture = running.printed(run.program, [*words, "--svg"]).decode("utf-8")
    pictured.judge_picture(Located(trace), run.tally, picture, block.pair, listed)


def check_forms(run: Run, trace: deadlocked.Trace, block: Block) -> None:
    """Whether the forms of `witness` have the same schedule: a trace, and a script that ends with two refusals."""
    first, second = (str(event) for event in block.pair)
    lines = running.printed(run.program, ["witness", "trace", first, second]).decode("ascii").splitlines()
    trace_form = running.printed(run.program, ["witness", "trace", first, second, "--std"]).decode("ascii")
    if trace_form.splitlines() != [line.split("  ", 1)[1] for line in lines]:
        raise Wrong("witness --std has other lines")
    script = running.printed(run.program, ["witness", "trace", first, second, "--script"])
    running.write("script", script.decode("ascii"))
    answers = running.printed(run.program, ["replay", "trace", "script"]).decode("ascii").splitlines()
    refusals = [f"refused 46 25 lock held by T{trace.events[other][0]}" for other in (block.pair[1], block.pair[0])]
    if answers[-2:] != refusals or any("refused" in line for line in answers[:-2]):
        raise Wrong("the script is answered otherwise:\n" + "\n".join(answers))


def check_reason(run: Run, trace: deadlocked.Trace, block: Block) -> None:
    """Whether `witness` and `explain` say that no schedule shows the two requests, and why."""
    words = ["trace", *(str(event) for event in block.pair)]
    found = running.ended(run.program, ["witness", *words], {"RACEBENCH_NOTES": "0"})
    if found != (1, b"", f"racebench: not shown: {block.verdict}\n".encode()):
        raise Wrong(f"witness answers {found}")
    head, *rest = running.printed(run.program, ["explain", *words]).decode("ascii").splitlines()
    held = set(trace.held_at(block.pair[0])) & set(trace.held_at(block.pair[1]))
    begins = f"{block.verdict}: "
    if held:
        run.tally["held by both"] += 1
        is_right = head.split("apart: both threads hold ")[-1] in held
    else:
        forced = f"apart: {block.pair[0]} comes before {block.pair[1]} in every correct reordering"
        run.tally["forced"] += head == forced
        is_right = head.startswith(begins) and (head == forced or "comes before" not in head)
    if not is_right or rest != requests_text(trace, block.pair):
        raise Wrong(f"explain says something else of {block.line}: {head}")


def check_others(run: Run, trace: deadlocked.Trace) -> None:
    """Whether two acquires that do not wait for each other are refused."""
    acquires = [event for event, (_, op, _) in enumerate(trace.events) if op == "acq"]
    cycles = set(trace.cycles())
    others = [(one, other) for one in acquires for other in acquires if one < other and (one, other) not in cycles]
    for one, other in others[:2]:
        for command in ("explain", "witness"):
            found = running.ended(run.program, [command, "trace", str(other), str(one)], {"RACEBENCH_NOTES": "0"})
            if found != (1, b"", b"racebench: no such pair\n"):
                raise Wrong(f"{command} {one} {other} answers {found}")
        run.tally["no requests"] += 1


def judge_trace(run: Run, trace: deadlocked.Trace, shown: Shown) -> None:
    """Compares what is printed of one trace with what reorderings show."""
    running.write("trace", trace.text())
    text = running.printed(run.program, ["deadlocks", "trace", "--apart"]).decode("ascii")
    blocks = blocks_of(text)
    check_verdicts(run, trace, blocks, shown)
    if text != expected(trace, blocks, is_apart_wanted=True):
        raise Wrong(f"with --apart, it prints another text:\n{text}")
    check_choice(run, trace, blocks, Choice())
    for block in blocks:
        if block.verdict == "deadlock":
            check_schedule(run, trace, block)
            check_forms(run, trace, block)
            check_picture(run, trace, block)
        else:
            check_reason(run, trace, block)
    check_filters(run, trace, blocks)
    check_known(run, trace, blocks)
    check_others(run, trace)


def judged(run: Run) -> str:
    """Judges traces of as many seeds as the arguments say."""
    for seed in run.seeds():
        trace = deadlocked.drawn(random.Random(seed))
        shown = trace.shown(MOST_STATES)
        if shown is None:
            continue
        with judging.about(f"seed {seed}", "trace"):
            judge_trace(run, trace, shown)
        run.tally["traces"] += 1
    tally = run.tally
    return (
        f"deadlocks: {tally['traces']} traces: {tally['deadlock']} deadlocks, {tally['turned']} turned, "
        f"{tally['apart']} patterns apart, {tally['undecided']} undecided"
    )


if __name__ == "__main__":
    sys.exit(judging.main("deadlocks", judged, REACHED, {"TRACES": TRACES, "FIRST": 0}))
