"""Entries of the log, and the messages about them to the browser."""

from . import messages
from .trace import Trace

# Words of an entry that are longer are cut for the browser.
LONG = 300


class Entry:
    """A line of the log: a call that the program accepted there."""

    __slots__ = ("number", "client", "kind", "text", "undone", "steps", "proposal")

    def __init__(self, number: int, client: int, fields: list[str]) -> None:
        self.number, self.client, self.kind, self.text = number, client, fields[0], " ".join(fields)
        self.undone: int | None = None  # the entry that took it back
        self.steps: list[tuple[object, ...]] | None = None  # how it is taken back
        self.proposal: int | None = None

    @property
    def fields(self) -> list[str]:
        """They are kept as one text, which needs a tenth of the memory."""
        return self.text.split()

    def parts(self) -> list[list[str]]:
        """Its commands, each as its words."""
        if self.kind in ("undo", "propose"):
            return []
        if self.kind != "batch":
            return [self.fields]
        return [part.split() for part in self.text.partition(" ")[2].split(" ; ")]


def schedule_of(part: list[str]) -> str:
    """The schedule that a command makes or changes."""
    return part[3] if part[0] == "branch" else part[1]


def add_batch(message: messages.Entry, entry: Entry, trace: Trace) -> None:
    parts = entry.parts()
    kinds = {part[0] for part in parts}
    is_of_one = len(set(map(schedule_of, parts))) == 1
    message["count"], message["name"] = len(parts), schedule_of(parts[0])
    if kinds == {"add"} and is_of_one:
        events = [int(part[2]) for part in parts]
        message["run"] = [events[0], events[-1]]
        message["threads"] = list(dict.fromkeys(trace.thread[event] for event in events))
    elif [part[0] for part in parts] == ["new", "adopt"]:
        message["took"] = int(parts[1][2])
    elif kinds == {"swap"} and is_of_one:
        message["swaps"] = True


def add_kind(message: messages.Entry, entry: Entry, trace: Trace) -> None:
    """Adds what the browser says of the entry by its kind."""
    fields = entry.fields
    if entry.kind == "batch":
        add_batch(message, entry, trace)
    elif entry.kind == "propose":
        message["proposal"], message["count"] = entry.proposal, len(fields) - 3
        message["pair"] = [int(fields[1]), int(fields[2])]
    elif entry.kind == "undo":
        message["of"] = int(fields[1])
    elif entry.kind == "branch":
        message["name"], message["source"], message["at"] = fields[3], fields[1], int(fields[2])
    elif entry.kind == "add":
        message["name"], message["event"] = fields[1], trace.event_message(int(fields[2]))
    else:
        message["name"], message["at"] = fields[1], int(fields[2]) if len(fields) > 2 else None


def entry_message(entry: Entry, trace: Trace) -> messages.Entry:
    """An entry for the browser."""
    text = entry.text
    answer: messages.Entry = {
        "number": entry.number,
        "client": entry.client,
        "kind": entry.kind,
        "text": text if len(text) <= LONG else text[:LONG] + " …",
    }
    add_kind(answer, entry, trace)
    if entry.undone is not None:
        answer["undone_by"] = entry.undone
    return answer
