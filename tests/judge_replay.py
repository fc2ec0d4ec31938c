#!/usr/bin/env python3
"""Judges what `replay` and `info` print, by tests/plain.py, which answers from the definitions.

The traces and scripts are drawn by chance, always the same ones. Whole outputs must be alike. It also tries every
order in which several clients can undo a few commands. Each kind of answer must be reached, so that no draw can go
stale unseen. Takes the program's path. Says what is wrong, if something is, and ends with status 1 then.
"""

import collections
import itertools
import random
import re
import sys
from collections import Counter
from collections.abc import Sequence
from collections.abc import Iterable

if __name__ == "__main__":
    sys.dont_write_bytecode = True
import by_chance
import judging
import plain
import running
from judging import Wrong

# How many traces are drawn; how many scripts on each, and how many calls in one.
TRACES = 400
SCRIPTS = 2
CALLS = (20, 200)
MOST_EVENTS = 40
# How many traces are probed, and how many events they have before that.
PROBED = 100
MOST_PROBED = 12
# How many scripts are judged with the log that they lead to.
LOGS = 60
# How many scripts are run on a trace with a thread that has no event.
IDLE_SCRIPTS = 12
# This many clients undo this many times, in every order; one script has this many orders. And the number of lists of
# commands drawn by chance, with fewer undos.
UNDOING = 3
UNDOS = 7
ORDERS = 4
PROBLEMS = 20

# What must be reached. A number after a word is that of a refusal.
REACHED = """
    new|done add|done back|done swap|done branch|done drop|done adopt|done propose|proposed
    show|shown list|names races|none races|pairs
    undo|new undo|add undo|back undo|swap undo|branch undo|drop undo|adopt undo|batch undo|last undo|past-undone
    undo|past-others
    undo|into-the-middle undo|batch-past-others undo|batch-numbered
    batch|done batch|longest batch|made-and-dropped batch|dropped-and-made batch|twice-on-one
    batch|copies-its-own batch|alone
    batch|60 batch|70-42 batch|70-43 batch|70-44 batch|70-45 batch|70-46 batch|70-47 batch|70-48 batch|70-first
    batch|70-later
    new|43 add|42 add|46-21 add|46-22 add|46-23 add|46-24 add|46-25 add|46-26
    needs-none needs-other needs-missing back|42 back|45 swap|42 swap|47-28 swap|47-29 swap|fork-join
    branch|42 branch|43 branch|48 drop|42 adopt|42 adopt|44 adopt|anothers
    undo|numbered undo|past-own undo|51 undo|52 undo|52-by-source undo|52-by-own undo|52-by-batch
    undo|52-of-batch undo|52-later-name undo|57 undo|58 undo|58-undid undo|59 propose|53 propose|54 show|42
    races|42
""".split()


class Tally(collections.Counter[str]):
    """How often each kind of answer was compared."""

    def note(self, log: plain.Log, client: int, call: plain.Call, answer: str) -> None:
        word = call[0]
        parts = answer.split(" ")
        if parts[0] == "refused":
            behind = {"46": parts[2:3], "47": parts[2:3], "70": parts[4:5]}.get(parts[1], [])
            self["|".join([word, "-".join(parts[1:2] + behind)])] += 1
            self.note_refusal(log, client, call, parts)
        elif word == "undo":
            self.note_undo(log, client, int(parts[2]))
            self["undo|numbered"] += len(call) > 1
            self["undo|batch-numbered"] += len(call) > 1 and log.entries[call[1]].kind == "batch"
        elif word == "races":
            self["races|pairs" if parts[1:] else "races|none"] += 1
            self["pairs"] += len(parts) - 1
        else:
            self[f"{word}|{parts[0] if word in ('show', 'list') else parts[1]}"] += 1
        if word == "swap" and parts[1] == "47":
            operations = [log.trace.events[event].word for event in log.rows[call[1]].events[call[2] : call[2] + 2]]
            self["swap|fork-join"] += operations == ["fork", "join"]
        if word == "adopt" and parts[1] == "done":
            whose = [entry.client for entry in log.entries if entry.kind == "proposed"][call[2]]
            self["adopt|anothers"] += whose != client
        if word == "batch" and parts[1] == "done":
            self.note_batch(call[1])
        self["calls"] += 1
        self["refused"] += parts[0] == "refused"

    def note_refusal(self, log: plain.Log, client: int, call: plain.Call, parts: list[str]) -> None:
        if parts[2] == "24":
            needs, has = parts[6], parts[8]
            self["needs-none" if needs == "none" else "needs-missing" if has == "none" else "needs-other"] += 1
        if parts[1] == "52":
            blocker = log.entries[int(parts[4])].what
            self["undo|52-by-source"] += blocker[0] == "branch" and blocker[1] == parts[5]
            self["undo|52-by-own"] += log.entries[int(parts[4])].client == client
            self["undo|52-by-batch"] += blocker[0] == "batch"
            undone = log.entries[call[1] if call[1:] else log.latest_live(client)].what
            self["undo|52-of-batch"] += undone[0] == "batch"
            self["undo|52-later-name"] += plain.writes(undone)[0] != parts[5]
        if parts[1] == "58":
            self["undo|58-undid"] += log.entries[call[1]].kind == "undid"
        if parts[1] == "70":
            self["batch|70-first" if parts[3] == "0" else "batch|70-later"] += 1

    def note_batch(self, commands: plain.Call) -> None:
        """What an accepted batch has."""
        kinds = [command[0] for command in commands]
        for at, name in enumerate(plain.written(command) for command in commands):
            later = [command for command in commands[at + 1 :] if name in plain.touches(command)]
            self["batch|twice-on-one"] += bool(later)
            self["batch|made-and-dropped"] += kinds[at] in ("new", "branch") and ("drop", name) in later
            self["batch|dropped-and-made"] += kinds[at] == "drop" and name in [plain.written(other) for other in later]
            self["batch|copies-its-own"] += kinds[at] in ("new", "branch") and any(
                other[:2] == ("branch", name) for other in later
            )
        self["batch|longest"] += len(commands) == plain.BATCH_LIMIT
        self["batch|alone"] += len(commands) == 1
        self["in batches"] += len(commands)

    def note_undo(self, log: plain.Log, client: int, undone: int) -> None:
        what = log.entries[undone].what
        self[f"undo|{what[0]}"] += 1
        self["undone"] += 1
        if undone == len(log.entries) - 1:
            self["undo|last"] += 1
        later = [entry for entry in log.entries[undone + 1 :] if entry.kind in ("did", "batch")]
        # Later commands that touched a name were undone themselves, and those that were not touch other names.
        self["undo|past-undone"] += any(
            name in plain.touches(entry.what) for entry in later for name in plain.writes(what)
        )
        past = [other for number, _, other in log.live if number > undone]
        self["undo|past-others"] += bool(past)
        self["undo|batch-past-others"] += what[0] == "batch" and bool(past)
        self["undo|past-own"] += any(whose == client for number, whose, _ in log.live if number > undone)
        # A row that comes back is before those that were made since.
        self["undo|into-the-middle"] += what[0] == "drop" and any(other[0] in ("new", "branch") for other in past)


class Judge:
    """Runs the program in this folder, and compares."""

    def __init__(self, program: str) -> None:
        self.program = program
        self.tally = Tally()

    def compare(self, expected: str, *arguments: str) -> None:
        """Ends with the first line that the program prints otherwise, if there is such a line, and with the program's
        input."""
        printed = running.printed(self.program, arguments)
        if printed == expected.encode("ascii"):
            return
        pairs = itertools.zip_longest(expected.encode("ascii").split(b"\n"), printed.split(b"\n"))
        at, (wanted, found) = next((at, pair) for at, pair in enumerate(pairs, start=1) if pair[0] != pair[1])
        raise Wrong(f"{arguments[0]}, line {at}: {found!r}, and plainly {wanted!r}{judging.texts_of(arguments[1:])}")

    def judge_info(self, trace: plain.Trace) -> None:
        running.write("trace", trace.text())
        expected = trace.info()
        self.compare(expected, "info", "trace")
        self.tally["candidates"] += expected.count("\ncandidate ")
        self.tally["traces"] += 1

    def judge_script(self, trace: plain.Trace, calls: list[by_chance.Made], log: plain.Log | None = None) -> None:
        """Judges the script by `replay`, or, if a log is expected, by `threads`."""
        running.write("trace", trace.text())
        running.write("script", "".join(f"{client} {plain.call_text(call)}\n" for client, call, _, _ in calls))
        answers = "".join(line + "\n" for _, _, line, _ in calls)
        if log is None:
            self.compare(answers, "replay", "trace", "script")
        else:
            self.compare(f"client 1\n{answers}{log.text()}", "threads", "trace", "script")
            self.tally["entries"] += len(log.entries)
        for client, call, line, before in calls:
            self.tally.note(before, client, call, line)
        self.tally["scripts"] += 1


def seen(log: plain.Log) -> list[plain.Call]:
    """Calls that show all that the log has come to."""
    names = log.names()
    return [("list",), *(("show", name) for name in names), *(("races", name) for name in names)]


def looked_at(calls: list[by_chance.Made], log: plain.Log, chance: random.Random) -> list[by_chance.Made]:
    """The calls, and after some calls all that the log has come to then, seen by the same client."""
    longer: list[by_chance.Made] = []
    for (client, call, answer, before), after in zip(calls, [before for _, _, _, before in calls[1:]] + [log]):
        longer.append((client, call, answer, before))
        if call[0] == "undo" or chance.random() < 0.1:
            longer += [(client, look, after.answer(client, look)[0], after) for look in seen(after)]
    return longer


def probes(trace: plain.Trace, log: plain.Log) -> list[by_chance.Made]:
    """Each event, and a number without an event, put to each schedule, and taken off if it could come next."""
    calls = []
    for name in log.names():
        for event in range(len(trace.events) + 1):
            for call in [("add", name, event), ("back", name)]:
                answer, after = log.answer(1, call)
                calls.append((1, call, answer, log))
                log = after
                if answer.startswith("refused"):
                    break
    return calls


def judge_by_chance(judge: Judge) -> None:
    for seed in range(TRACES):
        chance = random.Random(seed)
        trace = by_chance.trace(chance, MOST_EVENTS)
        judge.judge_info(trace)
        for _ in range(SCRIPTS):
            calls, log = by_chance.script(chance, trace, chance.randint(*CALLS))
            calls = looked_at(calls, log, chance)
            judge.judge_script(trace, calls + probes(trace, log))


def judge_idle(judge: Judge) -> None:
    """A thread's fork and join, by two others, without an event of the thread between them."""
    trace = plain.Trace(plain.Event(*event) for event in IDLE_THREAD)
    judge.judge_info(trace)
    for seed in range(IDLE_SCRIPTS):
        chance = random.Random(seed)
        judge.judge_script(trace, by_chance.script(chance, trace, chance.randint(*CALLS))[0])


def judge_probed(judge: Judge) -> None:
    for seed in range(PROBED):
        judge.judge_info(by_chance.probed(by_chance.trace(random.Random(seed), MOST_PROBED)))
    # More candidates than are printed.
    one = plain.Event("one", "w", "x")
    judge.judge_info(plain.Trace([one] * 40 + [one._replace(thread="other")] * 40))


def judge_logs(judge: Judge) -> None:
    """Scripts of client 1 alone, run by `threads`, which prints the log too."""
    for seed in range(LOGS):
        chance = random.Random(seed)
        trace = by_chance.trace(chance, MOST_EVENTS)
        calls, log = by_chance.script(chance, trace, chance.randint(*CALLS), [1])
        judge.judge_script(trace, calls, log)


IDLE_THREAD = [("A", "w", "x"), ("A", "fork", "W"), ("B", "join", "W"), ("B", "w", "x")]
# Schedules that grow, are copied, go and come again, on a trace of two threads that use one lock.
ONE_LOCK = [
    ("T1", "w", "x"),
    ("T1", "acq", "l"),
    ("T1", "rel", "l"),
    ("T2", "acq", "l"),
    ("T2", "rel", "l"),
    ("T2", "w", "x"),
]
COMMANDS = [
    (0, ("new", "A")),
    (1, ("new", "B")),
    (0, ("add", "A", 0)),
    (2, ("branch", "A", 1, "C")),
    (1, ("add", "B", 3)),
    (0, ("drop", "A")),
    (2, ("add", "C", 3)),
    (1, ("new", "A")),
    (2, ("swap", "C", 0)),
]
# Batches on the same schedules, two commands of one on one schedule, and one that makes a schedule anew.
IN_BATCHES = [
    (0, ("batch", (("new", "A"), ("add", "A", 0), ("new", "B")))),
    (1, ("batch", (("add", "B", 3), ("branch", "B", 1, "C")))),
    (2, ("batch", (("drop", "A"), ("new", "A")))),
    (0, ("add", "C", 0)),
    (1, ("batch", (("drop", "C"), ("new", "D"), ("drop", "D")))),
    (2, ("new", "C")),
    (0, ("batch", (("add", "A", 0), ("add", "A", 3), ("swap", "A", 0), ("back", "B")))),
    (1, ("new", "D")),
]


def drawn_commands(chance: random.Random, trace: plain.Trace, mood: dict[str, int]) -> list[tuple[int, plain.Call]]:
    """Accepted commands of three clients on three schedules."""
    log = plain.Log(trace)
    commands: list[tuple[int, plain.Call]] = []
    while len(commands) < UNDOS:
        client = chance.randrange(UNDOING)
        command = by_chance.call(chance, log, ["A", "B", "C"], mood)
        after = log.answer(client, command)[1]
        if after is not log:
            commands.append((client, command))
            log = after
    return commands


def with_names(renamed: dict[str, str], call: plain.Call) -> plain.Call:
    """The command or batch with other names."""
    if call[0] == "batch":
        return (call[0], tuple(with_names(renamed, command) for command in call[1]))
    return tuple(renamed.get(part, part) for part in call)


def in_order(
    log: plain.Log, group: int, commands: Sequence[tuple[int, plain.Call]], order: Iterable[int]
) -> tuple[list[by_chance.Made], plain.Log]:
    """The commands and then the undos of the clients, all with names and clients of this group alone; and the log
    after all."""
    names = sorted({name for _, command in commands for name in plain.touches(command)})
    renamed = {name: f"{name}.{group}" for name in names}
    steps: list[tuple[int, plain.Call]] = [(client, with_names(renamed, command)) for client, command in commands]
    for client in order:
        steps += [(client, ("undo",)), (client, ("list",))]
    steps += [(0, ("show", name)) for name in renamed.values()]
    calls: list[by_chance.Made] = []
    for client, call in steps:
        number = group * UNDOING + client + 1
        answer, after = log.answer(number, call)
        calls.append((number, call, answer, log))
        log = after
    return calls, log


def judge_orders(judge: Judge, trace: plain.Trace, commands: Sequence[tuple[int, plain.Call]], undos: int) -> None:
    """Each order in which the clients can undo so often."""
    orders = list(itertools.product(range(UNDOING), repeat=undos))
    for first in range(0, len(orders), ORDERS):
        log = plain.Log(trace)
        all_calls: list[by_chance.Made] = []
        for group, order in enumerate(orders[first : first + ORDERS]):
            calls, log = in_order(log, group, commands, order)
            all_calls += calls
        judge.judge_script(trace, all_calls)
    judge.tally["orders"] += len(orders)


def judge_undo(judge: Judge) -> None:
    one_lock = plain.Trace(plain.Event(*event) for event in ONE_LOCK)
    judge_orders(judge, one_lock, COMMANDS, UNDOS)
    judge_orders(judge, one_lock, IN_BATCHES, UNDOS - 2)
    for seed in range(PROBLEMS):
        chance = random.Random(seed)
        trace = by_chance.trace(chance, MOST_PROBED)
        mood = by_chance.BATCHES if seed % 2 else by_chance.COMMANDS
        judge_orders(judge, trace, drawn_commands(chance, trace, mood), UNDOS - 2)


def summary(tally: Counter[str]) -> str:
    """What was compared, with how often each refusal was, by its number and that of its cause."""
    refusals: collections.Counter[str] = collections.Counter()
    for kind, count in tally.items():
        number = kind.partition("|")[2]
        if re.fullmatch(r"\d+(-\d+)?", number):
            refusals[number.replace("-", " ")] += count
    by_number = ", ".join(f"{number}: {count}" for number, count in sorted(refusals.items()))
    return (
        f"replay: {tally['scripts']} scripts with {tally['calls']} calls are answered as the definitions say, with "
        f"{tally['undone']} "
        f"undos done, {tally['in batches']} commands in batches, {tally['pairs']} pairs shown, {tally['entries']} "
        f"lines of logs and {tally['refused']} refusals ({by_number}); "
        f"{tally['orders']} orders of undos\n"
        f"info: {tally['traces']} traces with {tally['candidates']} candidates"
    )


def judged(run: judging.Run) -> str:
    judge = Judge(run.program)
    for part in (judge_by_chance, judge_idle, judge_probed, judge_logs, judge_undo):
        part(judge)
    run.tally = judge.tally
    return summary(judge.tally)


if __name__ == "__main__":
    sys.exit(judging.main("replay", judged, REACHED))
