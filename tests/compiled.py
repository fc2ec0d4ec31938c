"""The lines of `triage --lines`, made of the objects of `triage --json` by docs/FORMATS.md."""

import re
from collections.abc import Iterable, Mapping
from typing import Any

# An object of JSON.
Json = Mapping[str, Any]
HEADS = {"race": "warning: data race", "undecided": "warning: undecided pair", "apart": "note: apart"}
RULES = {"race": "data-race", "undecided": "undecided-pair", "apart": "apart"}
VERBS = {"r": "reads", "w": "writes"}
MOST_CALLS = 64


def place_of(access: Json) -> str:
    return str(access["location"].split(" < ")[0] or "?")


def use_of(access: Json) -> str:
    return f"{access['thread']} {VERBS[access['operation']]}"


def call_line(place: str, call: str) -> str:
    own = re.fullmatch(r"(?s)(?:(.*) )?([^ ]+:[0-9]+)", call)
    function = (own[1] or "") if own else call
    return f"{own[2] if own else place}: note: " + (f"in {function}" if function else "called from here")


def access_lines(access: Json) -> list[str]:
    place = place_of(access)
    calls = access["location"].split(" < ")[1 : MOST_CALLS + 1]
    return [
        f"{place}: note: event {access['event']}: {use_of(access)} {access['variable']}",
        *(f"{place}: note: holds {lock}" for lock in access["holds"]),
        *(call_line(place, call) for call in calls),
    ]


def counted(count: int, word: str) -> str:
    """A number and what is counted."""
    return f"{count} {word}" if count == 1 else f"{count} {word}s"


def why(row: Json) -> str:
    if row["kind"] == "race":
        return f"a schedule of {counted(row['events'], 'event')} of {counted(row['threads'], 'thread')} shows it"
    if row["kind"] == "undecided":
        return f"no schedule was found for {counted(row['tried'], 'pair')} of events"
    return "every correct reordering of this trace keeps the two apart"


def lines_of(objects: Iterable[Json]) -> list[str]:
    """The lines for these objects."""
    lines: list[str] = []
    for row in objects:
        if row["kind"] not in HEADS:
            continue
        first, second = row["accesses"]
        lines.append(
            f"{place_of(second)}: {HEADS[row['kind']]} on {second['variable']}: {use_of(second)}, {use_of(first)}"
            f" at {place_of(first)} [{RULES[row['kind']]}]"
        )
        lines += access_lines(second) + access_lines(first)
        events = f"{first['event']} {second['event']}"
        lines.append(f"{place_of(second)}: note: {why(row)}: racebench explain TRACE {events}")
    return lines
