"""Judges the picture of a schedule that `witness --svg` prints, by tests/plain.py and explained.py.

The file must be well formed, with no tag, no attribute and no address but those of a drawing. It is then read as a
reader sees it: which lines of text lie in which box, in which order the boxes come, whether each line fits into its
box, and where the arrows lead. Then shapes.py judges each box and arrow to the pixel.
"""

from __future__ import annotations

import xml.etree.ElementTree
from collections import Counter
from collections.abc import Sequence, Set
from typing import NamedTuple
from xml.etree.ElementTree import Element

import plain
import shapes
from explained import WAITS, Pair, count, runs_of, waiters_of
from judging import Wrong
from plain import Listed

SVG = "{http://www.w3.org/2000/svg}"
# A line of text has at most this many bytes, and takes this many pixels for each character.
MOST_BYTES = 46
CHARACTER = 6
# How many runs are drawn one by one. If there are more, this many of the last are, and as many as are left that the
# last ones waited for.
MOST_RUNS = 40
LAST_RUNS = 20
# Of more threads all but the two of the pair share a column; no picture is shown wider than this.
MOST_COLUMNS = 4
WIDEST = 1600
# How far a column is from the next, and where their names stand.
COLUMN = 320
NAMES = 48
# How many locks of an access are named.
MOST_LOCKS = 8
# How wide the bar at the left edge of a box is.
BAR = 6
# How many shades of a picture are drawn one by one; if there are more, a bar with more than this many is shaded by its
# quarters.
MOST_SHADES = 100
FEW_SHADES = 2
# How many events are listed in the description.
MOST_LISTED = 2000
# A picture is shown a fifth larger than it is drawn; this many pixels are seen of it where the page is 400 wide.
SHOWN = 1.2
NARROW = 376
# The tags of a picture with what each may have.
TAGS: dict[str, set[str]] = {
    "svg": {"viewBox", "width", "height"},
    **{name: set() for name in ["title", "desc", "style", "defs"]},
    "marker": {"id", "viewBox", "refX", "refY", "markerWidth", "markerHeight", "markerUnits", "orient"},
    "path": {"class", "d", "marker-end"},
    "rect": {"class", "x", "y", "width", "height"},
    "text": {"class", "x", "y"},
}

# A line of text in a box: its class, and the text.
Drawn = tuple[str | None, str]
# The edges of a shade, as they are computed.
Shade = tuple[float, float, float, float]


class Box(NamedTuple):
    left: int
    top: int
    right: int
    bottom: int


def cut(text: str) -> str:
    """The text as it is drawn."""
    begin = text.encode()[: MOST_BYTES - 1].decode("utf-8", "ignore")
    return text if len(text.encode()) <= MOST_BYTES else begin + "…"


def described(listed: Listed) -> str:
    """The description of a picture of this schedule."""
    if len(listed) > MOST_LISTED:
        return f"Its {len(listed)} events are those that racebench witness prints"
    return " ".join(["Its events:", *map(str, listed)])


def label(trace: plain.Trace, event: int) -> str:
    _, word, name = trace.events[event]
    return cut(f"{event}  {word}({name}) {trace.location(event)}")


def attribute(element: Element, name: str) -> str:
    found = element.get(name)
    if found is None:
        raise Wrong(f"an element of the picture has no {name}: {element.tag} with {sorted(element.attrib)}")
    return found


def number(element: Element, name: str) -> int:
    return int(attribute(element, name))


class Picture:
    """The boxes, lines and arrows of a picture."""

    def __init__(self, text: str) -> None:
        try:
            self.root = xml.etree.ElementTree.fromstring(text)
        except xml.etree.ElementTree.ParseError as what:
            raise Wrong(f"the picture is not well formed: {what}") from what
        for element in self.root.iter():
            name = element.tag.removeprefix(SVG)
            if not element.tag.startswith(SVG) or not set(element.attrib) <= TAGS.get(name, set()):
                raise Wrong(f"no part of a picture: {element.tag} with {sorted(element.attrib)}")
        _, _, self.width, self.height = map(int, attribute(self.root, "viewBox").split(" "))
        self.boxes = {kind: [box_of(rect) for rect in self.all("rect", kind)] for kind in ["box", "race"]}

    def all(self, name: str, kind: str) -> list[Element]:
        return [element for element in self.root.iter(SVG + name) if element.get("class") == kind]

    def one(self, name: str) -> str | None:
        (found,) = self.root.iter(SVG + name)
        return found.text

    def lines_in(self, box: Box) -> list[Drawn]:
        """The lines of text in the box from top to bottom, each with its class; each has to fit into it."""
        lines = []
        for element in self.root.iter(SVG + "text"):
            left, base = number(element, "x"), number(element, "y")
            if box.left <= left < box.right and box.top <= base <= box.bottom:
                if left + CHARACTER * len(element.text or "") > box.right:
                    raise Wrong(f"a line runs over its box: {element.text!r}")
                lines.append((base, element.get("class"), element.text or ""))
        bases = [base for base, _, _ in sorted(lines)]
        if any(below - above < 10 for above, below in zip(bases, bases[1:])):
            raise Wrong(f"two lines of a box overlap: {sorted(lines)}")
        return [(kind, line) for _, kind, line in sorted(lines)]


def box_of(rect: Element) -> Box:
    left, top, width, height = (number(rect, name) for name in ["x", "y", "width", "height"])
    return Box(left, top, left + width, top + height)


def judge_waiter(trace: plain.Trace, listed: Listed, last: int, waiter: int, line: str) -> None:
    """Judges the line that this event waits for the last one of a run, and why."""
    text, _, number = line.rpartition(" ")
    if number != str(waiter) or text not in WAITS or not WAITS[text](trace, listed, last, waiter):
        raise Wrong(f"for {last} waits {waiter}, and the line is {line!r}")


def drawn_of(trace: plain.Trace, listed: Listed, runs: Sequence[Sequence[int]]) -> list[int]:
    """The numbers, from 0, of the runs that are drawn one by one: all of a few; else the last, and the last for which
    an event of the last ones waited."""
    if len(runs) <= MOST_RUNS:
        return list(range(len(runs)))
    waiters = waiters_of(trace, listed)
    last = list(range(len(runs) - LAST_RUNS, len(runs)))
    late = {event for number in last for event in runs[number]}
    waited = [number for number, run in enumerate(runs[: last[0]]) if any(waiters.get(event) in late for event in run)]
    return waited[LAST_RUNS - MOST_RUNS :] + last


def judge_run(
    trace: plain.Trace, listed: Listed, number: int, run: Sequence[int], waiter: int | None, lines: Sequence[Drawn]
) -> None:
    """Judges the lines of a run's box, for which this event waits if one does."""
    wanted = [
        ("note", cut(f"run {number}, {count(len(run), 'event')} of {trace.thread(run[0])}")),
        *[("event", label(trace, run[0]))] * (len(run) > 1),
        ("event", label(trace, run[-1])),
    ]
    if lines[: len(wanted)] != wanted or len(lines) != len(wanted) + (waiter is not None):
        raise Wrong(f"the box of run {number} has {lines}, and plainly {wanted}, and {waiter} waits for it")
    if waiter is not None:
        kind, line = lines[-1]
        if kind != "note":
            raise Wrong(f"the line {line!r} looks like {kind}")
        judge_waiter(trace, listed, run[-1], waiter, line)


def has_locks(trace: plain.Trace, listed: Listed) -> set[int]:
    """The events of the list before or after which their threads hold a lock."""
    holds: set[int] = set()
    depths: Counter[str] = Counter()
    for event in listed:
        thread, word, _ = trace.events[event]
        before = depths[thread]
        depths[thread] += {"acq": 1, "rel": -1}.get(word, 0)
        if max(before, depths[thread]):
            holds.add(event)
    return holds


def shades_of(run: Sequence[int], holds: Set[int]) -> list[tuple[int, int]]:
    """From which event of the run to which its thread holds a lock, by their places in it; several times, if it holds
    none between."""
    shades: list[tuple[int, int]] = []
    for place, event in enumerate(run):
        if event in holds and place and run[place - 1] in holds:
            shades[-1] = (shades[-1][0], place + 1)
        elif event in holds:
            shades.append((place, place + 1))
    return shades


def quarters_of(run: Sequence[int], holds: Set[int]) -> list[tuple[float, float]]:
    """The quarters of the run in which its thread holds a lock, neighbours as one, by their places in the run."""
    bounds = [len(run) * quarter // 4 for quarter in range(5)]
    shades: list[tuple[int, int]] = []
    for quarter, (start, end) in enumerate(zip(bounds, bounds[1:])):
        if any(event in holds for event in run[start:end]):
            if shades and shades[-1][1] == quarter:
                shades[-1] = (shades[-1][0], quarter + 1)
            else:
                shades.append((quarter, quarter + 1))
    return [(start * len(run) / 4, end * len(run) / 4) for start, end in shades]


def all_shades(
    runs: Sequence[Sequence[int]], holds: Set[int], tally: Counter[str]
) -> Sequence[Sequence[tuple[float, float]]]:
    """The shades of each run: all; or if all runs have too many, the quarters of a run with more than two."""
    shades = [shades_of(run, holds) for run in runs]
    if sum(map(len, shades)) <= MOST_SHADES:
        tally["pictures of 100 shades"] += sum(map(len, shades)) == MOST_SHADES
        return shades
    tally["pictures of 101 shades"] += sum(map(len, shades)) == MOST_SHADES + 1
    few: list[Sequence[tuple[float, float]]] = []
    for run, found in zip(runs, shades):
        if len(found) > FEW_SHADES:
            few.append(quarters_of(run, holds))
        else:
            few.append(found)
    return few


def judge_bars(
    picture: Picture, boxes: Sequence[Box], runs: Sequence[Sequence[int]], holds: Set[int], tally: Counter[str]
) -> int:
    """Judges the bars at the left edges of the boxes: each is as high as its box, beside the lines, and shaded from
    and to where the parts of a height that has one part for each event begin and end."""
    bars = [box_of(rect) for rect in picture.all("rect", "edge")]
    if sorted(bars) != sorted(Box(box.left, box.top, box.left + BAR, box.bottom) for box in boxes):
        raise Wrong(f"the bars stand at {bars}, and the boxes at {boxes}")
    found = sorted(box_of(rect) for rect in picture.all("rect", "held"))
    wanted = []
    for box, run, shades in zip(boxes, runs, all_shades(runs, holds, tally)):
        part = (box.bottom - box.top) / len(run)
        for start, end in shades:
            wanted.append((box.left, box.top + start * part, box.left + BAR, box.top + end * part))
    wanted.sort()

    def is_near(shade: Box, plain: Shade) -> bool:
        return all(abs(one - other) <= 1 for one, other in zip(shade, plain))

    if len(found) != len(wanted) or not all(map(is_near, found, wanted)):
        raise Wrong(f"the bars are shaded at {found}, and plainly at {wanted}")
    if any(shade.top >= shade.bottom for shade in found):
        raise Wrong(f"a shade is not seen: {found}")
    return len(found)


def judge_earlier(trace: plain.Trace, picture: Picture, boxes: Sequence[Box], runs: Sequence[Sequence[int]]) -> None:
    """Judges the box of the runs that are not drawn one by one."""
    found = [picture.lines_in(box) for box in boxes]
    threads = {trace.thread(run[0]) for run in runs}
    heading = f"{count(len(runs), 'earlier run')} of {count(len(threads), 'thread')}"
    wanted = [[("note", heading), ("note", count(sum(map(len, runs)), "event"))]] if runs else []
    if found != wanted:
        raise Wrong(f"the box of earlier runs has {found}, and plainly {wanted}")


def judge_places(
    trace: plain.Trace, picture: Picture, boxes: Sequence[Box], runs: Sequence[Sequence[int]], pair: Pair
) -> bool:
    """Judges that the boxes stand in columns, those of the pair first, downwards, and within the picture, which is not
    too wide."""
    columns: dict[str, int] = {}
    for box, run in zip(boxes, runs):
        if columns.setdefault(trace.thread(run[0]), box.left) != box.left:
            raise Wrong(f"the thread of {run[0]} has two columns")
    own = [trace.thread(event) for event in pair]
    threads = list(dict.fromkeys([*own, *(trace.thread(run[0]) for run in runs)]))
    is_shared = len(threads) > MOST_COLUMNS
    lefts = sorted({box.left for box in [*boxes, *picture.boxes["race"]]})
    wide = {thread: 2 if is_shared and thread not in own else threads.index(thread) for thread in threads}
    step = COLUMN
    if any(columns[thread] != lefts[0] + wide[thread] * step for thread in columns):
        raise Wrong(f"the columns are {columns}, and plainly {wide}")
    names = sorted(
        (number(line, "x"), line.text or "") for line in picture.all("text", "name") if number(line, "y") == NAMES
    )
    heads = [(lefts[0] + wide[thread] * step, cut(thread)) for thread in threads if not is_shared or thread in own]
    if names != sorted(heads + [(lefts[0] + 2 * step, "other threads")] * is_shared):
        raise Wrong(f"over the columns stand {names}")
    if any(below.top < above.bottom for above, below in zip(boxes, boxes[1:])):
        raise Wrong("a run does not stand below the one before")
    for box in [*picture.boxes["box"], *picture.boxes["race"]]:
        if box.left < 0 or box.top < 0 or box.right > picture.width or box.bottom > picture.height:
            raise Wrong(f"{box} lies beyond the picture")
    if number(picture.root, "width") > WIDEST:
        raise Wrong(f"the picture is {picture.root.get('width')} wide")
    shown = [number(picture.root, name) for name in ("width", "height")]
    if shown != [size + size // 5 for size in (picture.width, picture.height)]:
        raise Wrong(f"of {picture.width} and {picture.height} the picture is shown {shown} large")
    return is_shared


def judge_arrows(
    trace: plain.Trace,
    picture: Picture,
    boxes: Sequence[Box],
    runs: Sequence[Sequence[int]],
    waiters: Sequence[int | None],
) -> None:
    """Judges that an arrow leads from each run to the box of the event that waits for it."""
    wanted = []
    for box, waiter in zip(boxes, waiters):
        if waiter is not None:
            wanted += [
                (box.left, box.bottom, other.left, other.top) for other, run in zip(boxes, runs) if waiter in run
            ]
    found = []
    for path in picture.all("path", "arrow"):
        start, _, ends = attribute(path, "d")[1:].partition("C")
        numbers = list(map(int, (start + " " + ends).split(" ")))
        wide = boxes[0].right - boxes[0].left
        starts = [
            next(box.left for box in boxes if box.left <= x <= box.left + wide) for x in (numbers[0], numbers[-2])
        ]
        found.append((starts[0], numbers[1], starts[1], numbers[-1]))
    if sorted(found) != sorted(wanted):
        raise Wrong(f"the arrows lead {sorted(found)}, and plainly {sorted(wanted)}")


def judge_accesses(trace: plain.Trace, picture: Picture, pair: Pair) -> None:
    """Judges the boxes of the two accesses: they stand one below the other, under all runs, and at the left edge."""
    boxes = sorted(picture.boxes["race"], key=lambda box: box.top)
    found = [picture.lines_in(box) for box in boxes]
    wanted = []
    for event in pair:
        locks = trace.locks_before(event)
        more = [("note", f"and {count(len(locks) - MOST_LOCKS, 'lock')} more")] * (len(locks) > MOST_LOCKS)
        wanted.append(
            [
                ("name", cut(trace.thread(event))),
                ("access", label(trace, event)),
                *[("event", cut(f"holds {lock}")) for lock in locks[:MOST_LOCKS]],
                *more,
            ]
        )
    if found != wanted:
        raise Wrong(f"the boxes of the accesses have {found}, and plainly {wanted}")
    above = max((box.bottom for box in picture.boxes["box"]), default=0)
    if len(boxes) != 2 or not above < boxes[0].top < boxes[0].bottom < boxes[1].top or boxes[0].left != boxes[1].left:
        raise Wrong(f"the boxes of the accesses stand at {boxes}")
    if max(box.right for box in boxes) * SHOWN > NARROW:
        raise Wrong(f"the boxes of the accesses are not both seen on a narrow page: {boxes}")


def judge_texts(
    picture: Picture, pair: Pair, listed: Listed, runs: Sequence[Sequence[int]], boxes: Sequence[Box]
) -> None:
    """Judges the line on top and the one over the accesses, and that no line stands outside of the boxes but these and
    the names."""
    after = f"after {count(len(listed), 'event')} in {count(len(runs), 'run')}"
    under = max((box.bottom for box in boxes), default=0)
    over = min(box.top for box in picture.boxes["race"])
    wanted = [f"{pair[0]} and {pair[1]}: {after} both are next", "then both are next:"]
    names = sorted((number(line, "y"), line.text or "") for line in picture.all("text", "name"))
    alone = [(base, text) for base, text in names if base < NAMES or under < base < over and base != NAMES]
    if [text for _, text in alone] != wanted or not alone[0][0] < NAMES < alone[1][0]:
        raise Wrong(f"alone stand {alone}, and plainly {wanted}")
    lines = sum(len(picture.lines_in(box)) for kind in picture.boxes.values() for box in kind)
    heads = sum(base == NAMES for base, _ in names)
    if len(list(picture.root.iter(SVG + "text"))) != lines + heads + len(alone):
        raise Wrong("a line stands in no box")


def note_kinds(
    trace: plain.Trace, tally: Counter[str], pair: Pair, runs: Sequence[Sequence[int]], drawn: Sequence[Sequence[int]]
) -> None:
    """Counts what kind of picture it is."""
    threads = {trace.thread(event) for event in [*pair, *(run[0] for run in drawn)]}
    texts = [text.encode() for event in pair for text in [trace.thread(event), label(trace, event)]]
    tally["pictures"] += 1
    tally["pictures with earlier runs"] += len(drawn) < len(runs)
    tally["pictures of 40 runs"] += len(runs) == MOST_RUNS
    tally["pictures of 41 runs"] += len(runs) == MOST_RUNS + 1
    tally["pictures of 2,000 events"] += sum(map(len, runs)) == MOST_LISTED
    tally["pictures of 2,001 events"] += sum(map(len, runs)) == MOST_LISTED + 1
    tally["pictures of 4 threads"] += len(threads) == MOST_COLUMNS
    tally["pictures of 5 threads"] += len(threads) == MOST_COLUMNS + 1
    tally["lines that are cut"] += any(text.endswith("…".encode()) for text in texts)
    for event in pair:
        tally["accesses under 8 locks"] += len(trace.locks_before(event)) == MOST_LOCKS
        tally["accesses under more locks"] += len(trace.locks_before(event)) > MOST_LOCKS


def judge_shapes(trace: plain.Trace, picture: Picture, pair: Pair, listed: Listed) -> None:
    """Judges the place of each box and arrow of the picture of this schedule. Of names only equality counts."""
    runs, waiters = runs_of(trace, listed), waiters_of(trace, listed)
    drawn = [runs[number] for number in drawn_of(trace, listed, runs)]
    boxes = [shapes.Run(run, waiters.get(run[-1])) for run in drawn]
    shapes.judge_shapes(trace, picture.root, shapes.Schedule(pair, boxes, len(drawn) < len(runs)))


def judge_picture(trace: plain.Trace, tally: Counter[str], text: str, pair: Pair, listed: Listed) -> None:
    """Judges the picture of this schedule, which shows the pair."""
    picture = Picture(text)
    runs = runs_of(trace, listed)
    if picture.one("title") != f"A schedule that shows {pair[0]} and {pair[1]}":
        raise Wrong(f"the title is {picture.one('title')!r}")
    if picture.one("desc") != described(listed):
        raise Wrong(f"the description is {picture.one('desc')!r}")
    numbers = drawn_of(trace, listed, runs)
    drawn = [runs[number] for number in numbers]
    earlier = [run for number, run in enumerate(runs) if number not in numbers]
    boxes = sorted(picture.boxes["box"], key=lambda box: box.top)
    split = len(boxes) - len(drawn)
    if split < 0:
        raise Wrong(f"{len(boxes)} boxes are drawn of {len(runs)} runs")
    judge_earlier(trace, picture, boxes[:split], earlier)
    boxes = boxes[split:]
    first = waiters_of(trace, listed)
    waiters = [first.get(run[-1]) for run in drawn]
    for number, box, run, waiter in zip(numbers, boxes, drawn, waiters):
        judge_run(trace, listed, number + 1, run, waiter, picture.lines_in(box))
    tally["pictures with a shared column"] += judge_places(trace, picture, boxes, drawn, pair)
    judge_arrows(trace, picture, boxes, drawn, waiters)
    judge_accesses(trace, picture, pair)
    judge_texts(picture, pair, listed, runs, picture.boxes["box"])
    tally["shades"] += judge_bars(picture, boxes, drawn, has_locks(trace, listed), tally)
    judge_shapes(trace, picture, pair, listed)
    tally["arrows"] += sum(waiter is not None for waiter in waiters)
    note_kinds(trace, tally, pair, runs, drawn)
