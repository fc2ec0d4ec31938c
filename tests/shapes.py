"""Judges where the shapes of a picture of a schedule stand, pixel by pixel: the rectangle of each run, of each access
and of each bar, and the whole path of each arrow.

The places follow from the schedule alone. Columns stand side by side, from the left edge. Boxes stand one below the
other, each as high as its lines need. An arrow begins in the middle of the lower edge of its box, and ends on the upper
edge of the other box: at a quarter of the width from the side that it comes from.
"""

from __future__ import annotations

import xml.etree.ElementTree
from collections.abc import Sequence
from typing import NamedTuple

from judging import Wrong

import plain

SVG = "{http://www.w3.org/2000/svg}"
# Where the first column and the first box begin, and what is between the accesses.
MARGIN = 12
TOP = 62
# How far a column is from the next, how wide a box is, and what is between two boxes.
COLUMN = 320
BOX = 296
GAP = 22
# How high a line of a box is, and what a box needs besides.
LINE = 13
FREE = 9
# How wide the bar at the left edge of a box is.
BAR = 6
# How far an arrow leads straight down, at both ends.
BEND = 18
# Of more threads all but the two of the pair share the third column.
MOST_COLUMNS = 4
SHARED = 2
# How many locks of an access have a line.
MOST_LOCKS = 8
# The classes of rectangles whose places are known to the pixel. A shade of a bar is judged by its share of the run.
EXACT = ("box", "race", "edge")
LOOSE = ("held", "paper")


class Shape(NamedTuple):
    """A rectangle: its class, and where it stands."""

    kind: str
    left: int
    top: int
    width: int
    height: int


class Run(NamedTuple):
    """A run that has a box of its own: its events, and the event that waits for the last of them, if one does."""

    events: Sequence[int]
    waiter: int | None


class Schedule(NamedTuple):
    """What is drawn of a schedule: the pair, the runs with boxes, and whether earlier runs share one more box."""

    pair: tuple[int, int]
    runs: Sequence[Run]
    has_earlier: bool


def height_of(lines: int) -> int:
    """How high a box of so many lines is."""
    return LINE * lines + FREE


def columns_of(trace: plain.Trace, schedule: Schedule) -> tuple[dict[str, int], int]:
    """The left edge of the column of each thread, and how many columns there are."""
    threads = dict.fromkeys(trace.thread(event) for event in schedule.pair)
    threads.update(dict.fromkeys(trace.thread(run.events[0]) for run in schedule.runs))
    places = list(range(len(threads)))
    if len(threads) > MOST_COLUMNS:
        places = [min(place, SHARED) for place in places]
    return {thread: MARGIN + COLUMN * place for thread, place in zip(threads, places)}, max(places) + 1


def boxes_of(trace: plain.Trace, schedule: Schedule, lefts: dict[str, int]) -> tuple[list[Shape], int]:
    """The box of each run, and where what is below them begins."""
    boxes, top = [], TOP + (height_of(2) + GAP) * schedule.has_earlier
    for run in schedule.runs:
        height = height_of((2 if len(run.events) == 1 else 3) + (run.waiter is not None))
        boxes.append(Shape("box", lefts[trace.thread(run.events[0])], top, BOX, height))
        top += height + GAP
    return boxes, top


def accesses_of(trace: plain.Trace, schedule: Schedule, top: int) -> list[Shape]:
    """The boxes of the two accesses."""
    boxes, top = [], top + GAP
    for event in schedule.pair:
        height = height_of(2 + min(len(trace.locks_before(event)), MOST_LOCKS + 1))
        boxes.append(Shape("race", MARGIN, top, BOX, height))
        top += height + MARGIN
    return boxes


def arrow_between(box: Shape, other: Shape) -> str:
    """The path of the arrow from the box of a run to that of another."""
    start, bottom = box.left + BOX // 2, box.top + box.height
    end = other.left + (BOX // 4 if box.left < other.left else BOX - BOX // 4)
    return f"M{start} {bottom}C{start} {bottom + BEND} {end} {other.top - BEND} {end} {other.top}"


def arrows_of(schedule: Schedule, boxes: list[Shape]) -> list[str]:
    """The paths of the arrows: from each run to the one with the event that waits for it, if that is drawn."""
    return [
        arrow_between(box, other)
        for run, box in zip(schedule.runs, boxes)
        for later, other in zip(schedule.runs, boxes)
        if run.waiter in later.events
    ]


def found_shapes(root: xml.etree.ElementTree.Element) -> list[Shape]:
    """The rectangles of a picture whose places are known."""
    shapes = []
    for rect in root.iter(SVG + "rect"):
        kind = rect.get("class", "")
        if kind not in (*EXACT, *LOOSE):
            raise Wrong(f"a rectangle of the class {kind!r}")
        if kind in EXACT:
            left, top, width, height = (int(rect.get(name, "-1")) for name in ("x", "y", "width", "height"))
            shapes.append(Shape(kind, left, top, width, height))
    return shapes


def found_arrows(root: xml.etree.ElementTree.Element) -> list[str]:
    """The paths of the arrows of a picture; each has a tip at its end."""
    tips = {path for marker in root.iter(SVG + "marker") for path in marker}
    arrows = [path for path in root.iter(SVG + "path") if path not in tips]
    if wrong := [
        path.attrib for path in arrows if (path.get("class"), path.get("marker-end")) != ("arrow", "url(#tip)")
    ]:
        raise Wrong(f"lines that are no arrows, or have no tip: {wrong}")
    return [path.get("d", "") for path in arrows]


def difference(found: Sequence[Shape | str], wanted: Sequence[Shape | str]) -> str:
    """What is there and should not be, and the other way round."""
    return f"{sorted(set(found) - set(wanted))}, and plainly {sorted(set(wanted) - set(found))}"


def judge_shapes(trace: plain.Trace, root: xml.etree.ElementTree.Element, schedule: Schedule) -> None:
    """Judges all rectangles but shades, all arrows, and how large the picture is."""
    lefts, columns = columns_of(trace, schedule)
    boxes, top = boxes_of(trace, schedule, lefts)
    accesses = accesses_of(trace, schedule, top)
    edges = [box._replace(kind="edge", width=BAR) for box in boxes]
    earlier = [Shape("box", MARGIN, TOP, BOX, height_of(2))] * schedule.has_earlier
    wanted = sorted([*earlier, *boxes, *accesses, *edges])
    found = sorted(found_shapes(root))
    if found != wanted:
        raise Wrong(f"the boxes stand at {difference(found, wanted)}")
    arrows, plainly = sorted(found_arrows(root)), sorted(arrows_of(schedule, boxes))
    if arrows != plainly:
        raise Wrong(f"the arrows are {difference(arrows, plainly)}")
    size = f"0 0 {MARGIN + COLUMN * columns} {accesses[-1].top + accesses[-1].height + MARGIN}"
    if root.get("viewBox") != size:
        raise Wrong(f"the picture is {root.get('viewBox')} large, and plainly {size}")
