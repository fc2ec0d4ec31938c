"""The races of a merged report, in the order of what they may do, and what following them showed."""
import re
from typing import Any, Dict, List, NamedTuple, Sequence

HEAD = re.compile(r"race (\d+) (\d+) (\w+) pairs \d+ variables \d+ events (\d+) threads \d+")
PARTS = re.compile(r"    parts race (\d+) ")
ACCESS = re.compile(r"  T[^|]*\|([rw])\([^|]*\|(.*)")
# What a race may do, by its accesses: the worst first.
KINDS = ("a block is freed and used", "a frame ends and is used", "two writes", "a write and a read")
# The end of a block or a frame in a location.
ENDS = re.compile(r" < (?:(free)|return)(?: in |$)")
Found = Dict[str, Any]


class Row(NamedTuple):
    """A race of a merged report: its events in the trace of a part, how it was found, the operations and locations of
    both accesses, in how many parts it is a race, the length of its schedule, and the part."""

    pair: "tuple[int, int]"
    how: str
    operations: List[str]
    locations: List[str]
    races: int
    events: int
    part: str

    @property
    def kind(self) -> int:
        """Its number in KINDS."""
        ends = [found for found in map(ENDS.search, self.locations) if found]
        if ends:
            return 0 if any(found[1] for found in ends) else 1
        return 2 if self.operations == ["w", "w"] else 3

    @property
    def is_of_seed(self) -> bool:
        """Whether its events are those of a whole trace, which can be followed: the part is no window."""
        return re.fullmatch(r"seed-\d+\.json", self.part) is not None

    @property
    def trace(self) -> str:
        """The name of its trace. The part of a window begins with the path of the trace."""
        found = re.search(r"seed-\d+(?=\.(?:json|std)\b)", self.part)
        return f"{found[0]}.std" if found else self.part

    @property
    def places(self) -> str:
        return " and ".join(location.split(" < ")[0] for location in self.locations)


def rows_of(text: str) -> List[Row]:
    """The races of a merged report, by harm: the kind, in how many parts, and the shortest schedule."""
    rows: List[Row] = []
    for block in re.split(r"^(?=race \d)", text, flags=re.MULTILINE):
        lines = block.splitlines()
        head = HEAD.match(lines[0]) if lines else None
        if not head:
            continue
        accesses = [found for found in map(ACCESS.match, lines[1:]) if found][:2]
        parts = next(found for found in map(PARTS.match, lines) if found)
        part = next(line for line in lines if line.startswith("    part "))[len("    part ") :]
        pair = (int(head[1]), int(head[2]))
        operations, locations = [found[1] for found in accesses], [found[2] for found in accesses]
        rows.append(Row(pair, head[3], operations, locations, int(parts[1]), int(head[4]), part))
    return sorted(rows, key=lambda row: (row.kind, -row.races, row.events))


def badness(found: Found) -> int:
    """How bad what came of a race is: 0 is worst."""
    endings = " ".join(found.get("endings", {}).values())
    is_crash = "signal" in endings or "freed" in endings or "hangs" in endings
    if found.get("matters"):
        return 0 if is_crash else 1
    if found["ended"] == "departed":
        return 5
    return 2 if is_crash else 3 if found.get("matters") is None else 4


def worst_ending(found: Found) -> str:
    """The worst of what a race led to, as a text."""
    endings: Sequence[str] = list(found.get("endings", {}).values())
    for sign in ("freed", "signal", "hangs"):
        for ending in endings:
            if sign in ending:
                return ending
    if found["ended"] == "departed":
        return str(found["text"])
    return str(found["why"]) or "the same in all orders"
