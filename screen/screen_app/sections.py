"""Critical sections of a schedule: which thread holds which lock from where to where."""

from bisect import bisect_right

from .trace import ACQUIRE

STRIDE = 256


class Section:
    __slots__ = ("thread", "lock", "begin", "end", "depth")

    def __init__(self, thread: int, lock: int, begin: int) -> None:
        self.thread, self.lock, self.begin = thread, lock, begin
        self.end: int | None = None
        self.depth = 1  # a lock may be taken again by its holder


class Sections:
    """Grows and shrinks with its schedule. `marks` has the sections that are open before each STRIDE-th position."""

    def __init__(self) -> None:
        self.all: list[Section] = []  # in rising order of their beginnings
        self.held: dict[int, Section] = {}  # by lock
        self.ended: dict[int, list[Section]] = {}  # by lock, in rising order of their ends
        self.marks: list[list[Section]] = []

    def push(self, position: int, kind: int, thread: int, lock: int) -> None:
        while len(self.marks) * STRIDE <= position:
            self.marks.append(list(self.held.values()))
        section = self.held.get(lock)
        if kind == ACQUIRE:
            if section:
                section.depth += 1
            else:
                self.held[lock] = made = Section(thread, lock, position)
                self.all.append(made)
        elif section:
            section.depth -= 1
            if section.depth == 0:
                section.end = position
                self.ended.setdefault(lock, []).append(self.held.pop(lock))

    def pop(self, position: int, kind: int, lock: int) -> None:
        """Takes back the push of this position, which was the last."""
        section = self.held.get(lock)
        if kind == ACQUIRE and section:
            section.depth -= 1
            if section.depth == 0:
                del self.held[lock]
                self.all.pop()
        elif section:
            section.depth += 1
        else:
            section = self.held[lock] = self.ended[lock].pop()
            section.end, section.depth = None, 1
        del self.marks[position // STRIDE + 1 :]

    def meeting(self, low: int, high: int) -> list[Section]:
        """The sections that have a position from low to high."""
        mark = low // STRIDE
        if mark >= len(self.marks):  # since the last mark no lock was taken or let go
            return list(self.held.values())
        met = list(self.marks[mark])
        at = bisect_right(self.all, mark * STRIDE - 1, key=lambda section: section.begin)
        while at < len(self.all) and self.all[at].begin <= high:
            met.append(self.all[at])
            at += 1
        return [section for section in met if section.end is None or section.end >= low]
