"""What a page of a report has to say, made from the texts that `triage` and `explain` print: the title, the facts and
the accesses of each row, the commands with which a reader goes on, and the texts that are the same on each page.
"""

from __future__ import annotations

import re
from collections import Counter
from collections.abc import Callable, Iterable, Sequence
from typing import Any, NamedTuple

from explained import Pair
from judging import Wrong
from page_tree import Element

# A line of a file of followed races: an object of JSON.
Followed = dict[str, Any]
# The text if no open pair was tried; `explain` would try the shown one.
UNTRIED = "undecided: no pair was tried, and neither order nor lock forbids a schedule"


def shown(line: bytes) -> str:
    """The text as which bytes are seen: what is no UTF-8, and what markup has not, is replaced."""
    return re.sub("[\x00-\x1f\ufffe\uffff]", "\ufffd", line.decode("utf-8", "replace"))


class Block(NamedTuple):
    """A block of a text: its sort, its events, the numbers after them, and the accesses with their locks."""

    sort: str
    first: int
    second: int
    facts: list[str]
    accesses: list[tuple[str, list[str]]]


def blocks_of(lines: Iterable[bytes]) -> list[Block]:
    blocks: list[Block] = []
    for line in lines:
        if line.startswith(b"    holds "):
            blocks[-1].accesses[-1][1].append(shown(line[len(b"    holds ") :]))
        elif line.startswith(b"  "):
            blocks[-1].accesses.append((shown(line[2:]), []))
        elif re.match(rb"(race|undecided|apart) \d+ \d+ ", line):
            sort, first, second, *facts = line.decode("ascii").split(" ")
            blocks.append(Block(sort, int(first), int(second), facts, []))
    return blocks


def counted(number: str, word: str) -> str:
    return f"{number} {word}{'' if number == '1' else 's'}"


def left_out(lines: Sequence[bytes]) -> str:
    """What the first line of the page says of rows that the text counts after its blocks."""
    matches = [re.fullmatch(r"(known|hidden) (\d+)", line.decode("utf-8", "replace"), re.ASCII) for line in lines]
    counts = {found[1]: found[2] for found in matches if found}
    text = f"; {counted(counts['known'], 'known race')} left out" if "known" in counts else ""
    return text + (
        f"; {counted(counts['hidden'], 'pair')} left out by --only and --hide" if "hidden" in counts else ""
    )


def facts_of(block: Block) -> str:
    """What the page says in short of a block."""
    facts = dict(zip(block.facts[block.sort == "race" :: 2], block.facts[1 + (block.sort == "race") :: 2]))
    begin = f"Events {block.first} and {block.second}: "
    if block.sort == "apart":
        return begin + f"apart, {counted(facts['pairs'], 'pair')}"
    of = f"{counted(facts['pairs'], 'pair')} of {counted(facts['variables'], 'variable')}"
    if block.sort == "undecided":
        return begin + f"undecided, {of}, {facts['tried']} tried"
    return (
        begin + f"{block.facts[0]}, {of}, a schedule of {counted(facts['events'], 'event')} of "
        f"{counted(facts['threads'], 'thread')}"
    )


def access_title(line: str, tally: Counter[str]) -> str:
    """The title of an access: what it does, in which function, and where. After ` < ` comes the function, or the place
    of a call."""
    _, what, location = line.split("|", 2)
    place, _, callers = location.partition(" < ")
    caller = callers.partition(" < ")[0]
    word = {"r(": "read", "w(": "write"}[what[:2]]
    if word == "write" and caller.startswith("free in "):
        word, caller = "freed", caller[len("free in ") :]
        tally["freed"] += 1
    at = f" at {place}" if place else ""
    if re.search(r":(\d+|\?)$", caller, re.ASCII):
        tally["callers"] += 1
        return f"{word}{at} from {caller}"
    tally["functions"] += caller != ""
    return word + (f" in {caller}" if caller else "") + at


def title_of(block: Block, tally: Counter[str]) -> str:
    """The title of the row of a block."""
    lines = [line for line, _ in block.accesses]
    variables = re.findall(r"^[^|]*\|[rw]\((.*?)\)\|", lines[0], re.DOTALL)
    if not variables:
        raise Wrong(f"no access: {lines[0]!r}")
    facts = dict(zip(block.facts[block.sort == "race" :: 2], block.facts[1 + (block.sort == "race") :: 2]))
    more = int(facts.get("variables", "1")) - 1
    tally["more variables"] += more > 0
    others = f" and {counted(str(more), 'more variable')}" if more > 0 else ""
    return f"{variables[0]}{others}: {access_title(lines[0], tally)}, {access_title(lines[1], tally)}"


def access_of(line: Element, joined: Callable[[list[str]], str] = ", ".join) -> tuple[int, str, list[str]]:
    """The event, the line of the trace and the locks in a line of a table, which joins their names so."""
    event, code, locks = line.elements()
    found = [lock.text() for lock in locks.all("bdi")]
    if locks.text() != (joined(found) if found else "none"):
        raise Wrong(f"the locks are {locks.text()!r}")
    return int(event.text()), code.text(), found


def is_read_that_races(line: str) -> tuple[str, str] | None:
    """The write and the read of a link that says that the two race, or None."""
    note = re.fullmatch(r" *is read by \(these two race: explain (\d+) (\d+)\)", line)
    return (note[1], note[2]) if note else None


def reasons_of(explained: list[str]) -> list[str]:
    """What the row of a pair that is no race may say: the first line of what `explain` prints, and where a read on the
    way races, one such."""
    notes = [note for note in map(is_read_that_races, explained) if note]
    return [
        f"{explained[0]}, since {read} reads {write} (these two race: explain {write} {read})" for write, read in notes
    ] or explained[:1]


def shell_word(name: str) -> str:
    plain = re.fullmatch(r"[A-Za-z0-9./_+,:@%-]+", name)
    return ("./" if name.startswith("-") else "") + (name if plain else "'" + name.replace("'", "'\\''") + "'")


def commands_of(block: Block, name: str) -> str:
    """The commands with which a reader of a row goes on."""
    word = shell_word(name)
    lines = [f"racebench explain {word} {block.first} {block.second} --all"]
    if block.sort == "race":
        lines += [
            f"racebench witness {word} {block.first} {block.second} --script > script.txt",
            f"racebench replay {word} script.txt",
            f"racebench session {word} session.log < script.txt",
        ]
    if block.sort == "undecided":
        lines.append(f"racebench triage {word} --tries 4096")
    return "".join(f"{line}\n" for line in lines)


def more_of(sort: str, kept: int, name: str) -> list[str]:
    """What is under this many rows of a sort, of which not all are there, or not all have a picture."""
    lines, word = [], shell_word(name)
    if sort == "race" and kept > MOST_PICTURES:
        left = counted(str(kept - MOST_PICTURES), "race")
        lines += [
            f"Without a picture here: {left}. The picture of one, by its two events:",
            f"racebench witness {word} FIRST SECOND --svg > picture.svg\n",
        ]
    if kept > MOST_ROWS:
        left = counted(str(kept - MOST_ROWS), "row")
        option = " --apart" if sort == "apart" else ""
        lines += [f"Left out here: {left}. All of them, as text:", f"racebench triage {word}{option}\n"]
    return lines


def locations_of(lines: Sequence[bytes]) -> dict[Pair, list[bytes]]:
    """The two locations of each race of a text, as bytes, by its two events."""
    found: dict[Pair, list[bytes]] = {}
    block: list[bytes] = []
    for line in lines:
        if re.match(rb"(race|undecided|apart) \d+ \d+ ", line):
            block = []
            if line.startswith(b"race "):
                first, second = map(int, line.split(b" ")[1:3])
                found[first, second] = block
        elif re.match(rb"  \S", line):
            block.append(line.split(b"|", 2)[2])
    return found


def entry_on(entries: Iterable[Followed], locations: list[bytes]) -> Followed | None:
    """The first entry that has these locations, in one order or the other."""
    for entry in entries:
        if [text.encode() for text in entry["locations"]] in (locations, locations[::-1]):
            return entry
    return None


WHY = {
    "not followed": "No line of the file has these two locations, so nothing is known of this race on the real "
    "program.",
    "departed": "The run went another way than the schedule, so the race did not stand",
    "other memory": "Both threads were at their accesses, on different memory",
    "order matters": "The order matters",
    "same in both orders": "The program ended the same with either access first",
    "order not known": "Whether the order matters is not known",
}

ELSEWHERE = (
    "The two locations are those of this race, and the events are not. The file is of another recording, or "
    "of another triage of this one."
)

BESIDE = (
    "The word beside a race is what following it on the real program came to, once with each access first. Runs "
    "showed it, and it is not proved. The file has "
)

UNLISTED = "Pairs of places that are apart have no rows here; with --apart they have."

ACCESSES = ["Event", "Line of the trace", "Locks held before it"]

FOLLOWED = ["Access", "Event", "Place", "How the program ended with it first"]

DRAWN = (
    "A column is a thread, a box is a run of its events, and time goes downwards. Of a long schedule the picture "
    "has the last runs, and the last of those that they waited for."
)

ALL_TOLD = "All runs are listed in words below."

LAST_TOLD = "The last runs are listed in words below, and the command under them prints all."

# How many rows of each sort and pictures a page has at most.
MOST_ROWS = 2000

MOST_PICTURES = 200

# What the words at the end of a page mean, after how it begins.
# What each count means, word by word.
COUNTED = {
    "events": "lines of the trace",
    "threads": "threads of the trace",
    "pairs": "pairs of events that conflict: two threads access one variable, and one of them writes",
    "candidates": "pairs that no lock, fork, join or read in the trace keeps apart: a schedule shows each",
    "open": "pairs that only the order of critical sections keeps apart: the search tries some of them",
    "guarded": "pairs whose two threads hold one lock: no schedule shows them",
    "forced": "pairs whose order every schedule keeps: no schedule shows them",
    "places": "pairs of places where a pair of events has its two accesses",
    "races": "pairs of places for which a schedule was found",
    "undecided": "pairs of places that the search left open",
    "apart": "pairs of places whose pairs of events are all guarded or forced",
}

MEANINGS = {
    "A place is ": "the location of an access in the source. Two places are a race if a schedule brings an access at "
    "each of them next in its thread. A schedule is an order of events of this trace that the program "
    "could have taken too.",
    "An access is next in its thread ": "if all that comes before it there has happened, and it has not. If two "
    "accesses of one variable are both next and one of them writes, nothing keeps "
    "the two threads from making them at once. That is a data race.",
    "Two places are apart ": "if no schedule of this trace shows a race of them, and undecided if the search found "
    "neither. A read keeps the write that it saw, so places that are apart here may race in "
    "another run.",
}

BESIDE_RACES = (
    "Beside a race: order matters, if the program ended or printed otherwise with the other access first; "
    "same in both orders; order not known, if its output varies by itself; other memory, if the two "
    "accesses were on different memory; departed, if the run went another way than the schedule; not "
    "followed, if the file has no line on it. This is what runs showed, and no proof rests on it."
)


def beside(entry: Followed | None) -> str:
    """What is beside a race with this entry."""
    if entry is None:
        return "not followed"
    if entry["ended"] == "departed":
        return "departed"
    if entry.get("same_memory") is False:
        return "other memory"
    return {True: "order matters", False: "same in both orders", None: "order not known"}[entry.get("matters")]
