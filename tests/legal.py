"""Judges one run of scripts at once, by tests/plain.py, which answers from the definitions.

The log must be one that calls build one after another, and each client must be told what it is told there: the
calls that made an entry are answered as at that entry, in the client's order, and each other call as after some number
of entries that lies between its neighbours'.
"""

from __future__ import annotations

import collections
import re
from collections.abc import Iterable, Sequence

import plain
from judging import Wrong

Tally = collections.Counter[str]


def history(trace: plain.Trace, entries: Iterable[tuple[int, str]]) -> list[plain.Log]:
    """The logs of the first 0, 1 .. entries, where each is accepted and is the one that its call makes."""
    logs = [plain.Log(trace)]
    for number, (client, call) in enumerate(entries):
        answer, after = logs[-1].answer(client, plain.call_of(call))
        if after is logs[-1] or after.line(number) != f"{number} {client} {call}":
            raise Wrong(f"entry {number} of the log is {client} {call}, and plainly {answer}")
        logs.append(after)
    return logs


def place_of(logs: Sequence[plain.Log], client: int, call: plain.Call, line: str, place: int) -> int:
    """After how many entries the call is answered so, at least `place`."""
    numbered = re.match(r"(\d+): ", line)
    places: Iterable[int] = [int(numbered.group(1))] if numbered else range(place, len(logs))
    for at in places:
        if place <= at < len(logs) and logs[at].reply(client, call)[0] == line:
            return at
    raise Wrong(
        f"client {client} was told {line} for {plain.call_text(call)}, "
        f"after {place} of {len(logs) - 1} entries or later"
    )


def judge_client(
    tally: Tally, logs: Sequence[plain.Log], client: int, calls: Sequence[plain.Call], lines: Sequence[str]
) -> None:
    """Counts what the client was told, where it is right."""
    if len(lines) != len(calls):
        raise Wrong(f"client {client} was told {len(lines)} lines for {len(calls)} calls")
    last = logs[-1]
    place = 0
    own = []
    for call, line in zip(calls, lines):
        at = place_of(logs, client, call, line, place)
        tally["later"] += at > place
        tally["blocked"] += line.startswith("refused 52 ")
        place = at
        if re.match(r"\d+: ", line):
            tally[call[0]] += 1
            own.append(at)
            place += 1
    logged = [number for number, entry in enumerate(last.entries) if entry.client == client]
    if own != logged:
        raise Wrong(f"client {client} was told of {own}, and the log has {logged}")


def judge(
    trace: plain.Trace,
    drawn: Sequence[Sequence[plain.Call]],
    answers: Sequence[Sequence[str]],
    entries: Sequence[tuple[int, str]],
) -> Tally:
    """What the run had, counted by its kind: the calls of each client, the lines that it was told, and the log."""
    tally: Tally = collections.Counter()
    logs = history(trace, entries)
    for client, (calls, lines) in enumerate(zip(drawn, answers, strict=True), start=1):
        judge_client(tally, logs, client, calls, lines)
    turns = [client for client, _ in entries]
    changes = sum(one != other for one, other in zip(turns, turns[1:]))
    tally["mixed"] += changes >= len(set(turns))
    tally["changes"] += changes
    tally["calls"] += sum(len(calls) for calls in drawn)
    tally["entries"] += len(entries)
    return tally
