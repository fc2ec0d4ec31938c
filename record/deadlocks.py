"""The deadlocks of a trace, and their schedules: those that racebench has. For what it does not have there is a search,
whose schedules racebench judges."""
from __future__ import annotations

import re
import subprocess
import tempfile
from typing import NamedTuple, Sequence

import deadlock_search
import following
from trace_index import TraceIndex

# What racebench ends with if it does not know a command, and how it answers a request in a schedule.
NO_COMMAND = 2
REFUSED = "refused 46 25 lock held by "
BLOCK = re.compile(
    r"^(deadlock|undecided|apart) (\d+(?: \d+)*)(?: \w+ events (\d+) threads (\d+)| tried (\d+))?\n((?:  .*\n)+)",
    re.MULTILINE,
)
WHOLE = re.compile(r"^whole (\d+)$", re.MULTILINE)
HOLD = re.compile(r"^    holds .* since (\d+)  ", re.MULTILINE)


class Deadlock(NamedTuple):
    """Requests, each before that of the thread that holds its lock, and the acquires since which the threads hold
    those. `kind` is the verdict; a deadlock has the size of its schedule, and what is undecided the number of tries.
    """

    kind: str
    events: list[int]
    holds: list[int]
    sizes: list[int]


def event_lines(path: str) -> list[str]:
    """The lines of a trace that are events."""
    with open(path, encoding="utf-8", errors="surrogateescape", newline="\n") as file:
        lines = file.read().split("\n")
    return [line for line in lines if line and not line.startswith("recording|")]


def asked(*command: str) -> tuple[int, str, str]:
    """The status of a command, and what it prints on both outputs."""
    ran = subprocess.run(command, capture_output=True, check=False, start_new_session=True)
    return ran.returncode, ran.stdout.decode("utf-8", "surrogateescape"), ran.stderr.decode(errors="replace").strip()


class Deadlocks:
    """The deadlocks of a trace."""

    def __init__(self, racebench: str, path: str) -> None:
        self.racebench, self.path = racebench, path
        self.lines = event_lines(path)
        self.kept_index: TraceIndex | None = None
        # Up to how many threads racebench has looked at all patterns, and whether the search looked at all others.
        self.known, self.is_whole = 1, True
        self.kept: dict[tuple[int, ...], list[int]] = {}

    @property
    def index(self) -> TraceIndex:
        if self.kept_index is None:
            self.kept_index = TraceIndex(self.lines)
        return self.kept_index

    def verdicts(self, longest: int) -> list[Deadlock]:
        """All verdicts of racebench, and then longer deadlocks that the search finds."""
        status, text, errors = asked(self.racebench, "deadlocks", "--apart", self.path)
        if status not in (0, NO_COMMAND):
            raise following.OtherProgram(errors or f"{self.racebench} failed")
        listed = [] if status else [self.read(*block) for block in BLOCK.findall(text)]
        whole = WHOLE.search(text)
        self.known = int(whole[1]) if whole and not status else 1
        return listed + (self.found(self.known + 1, longest) if self.known < longest else [])

    def all(self, longest: int) -> list[Deadlock]:
        """The deadlocks of at most this number of threads."""
        return [one for one in self.verdicts(longest) if one.kind == "deadlock"]

    @staticmethod
    def read(kind: str, requests: str, *sizes_and_lines: str) -> Deadlock:
        """A block of `racebench deadlocks`."""
        *sizes, lines = sizes_and_lines
        holds = [int(number) for number in HOLD.findall(lines)]
        return Deadlock(kind, [int(word) for word in requests.split()], holds, [int(size) for size in sizes if size])

    def found(self, shortest: int, longest: int) -> list[Deadlock]:
        """Those that the search finds, and racebench judges."""
        found, search = [], deadlock_search.Search(self.index)
        for one in search.deadlocks(shortest, longest):
            if self.is_shown(one.requests, one.schedule):
                first = one.requests.index(min(one.requests))
                requests = one.requests[first:] + one.requests[:first]
                self.kept[tuple(requests)] = one.schedule
                threads = {self.index.thread[event] for event in one.schedule}
                sizes = [len(one.schedule), len(threads)]
                found.append(Deadlock("deadlock", requests, self.holds_of(requests), sizes))
        self.is_whole = search.is_whole
        return found

    def holds_of(self, requests: Sequence[int]) -> list[int]:
        locks = [self.index.name[event] for event in requests]
        return [self.index.held[event][locks[k - 1]] for k, event in enumerate(requests)]

    def witness(self, requests: Sequence[int]) -> str | None:
        """A schedule that leads to these requests, as `racebench witness` prints it; None without one."""
        events = self.kept.get(tuple(requests))
        if events is None:
            status, text, _ = asked(self.racebench, "witness", self.path, *map(str, requests))
            if not status and text:
                return text
            events = self.searched(requests)
        return None if events is None else "".join(f"{event}  {self.lines[event]}\n" for event in events)

    def searched(self, requests: Sequence[int]) -> list[int] | None:
        """A schedule that the search finds, and racebench judges."""
        if any(event not in self.index.held for event in requests):
            return None
        events = deadlock_search.schedule_of(self.index, list(requests))
        return events if events is not None and self.is_shown(requests, events) else None

    def is_shown(self, requests: Sequence[int], schedule: Sequence[int]) -> bool:
        """Whether racebench takes each event of a schedule, and then refuses each request, since another thread
        of the deadlock holds its lock."""
        with tempfile.NamedTemporaryFile("w", prefix="record", suffix=".txt", encoding="ascii") as script:
            script.write("1 new S\n" + "".join(f"1 add S {event}\n" for event in [*schedule, *requests]))
            script.flush()
            status, text, errors = asked(self.racebench, "replay", self.path, script.name)
        if status:
            raise following.OtherProgram(errors or f"{self.racebench} failed")
        threads = {REFUSED + self.lines[event].split("|", 1)[0] for event in requests}
        answers = text.splitlines()
        taken, refused = answers[: len(schedule) + 1], answers[len(schedule) + 1 :]
        return all(answer.endswith(": done") for answer in taken) and set(refused) <= threads and len(refused) > 1
