"""What the program lists of the trace, in windows: a filter chooses blocks, and the page shows some at a time."""

from __future__ import annotations

import asyncio
import json
import sys
from collections.abc import Callable, Iterable, Mapping

from .session import Gone
from .text import JsonObject, Odd, clean

# Seconds between two messages about the progress of the program.
OFTEN = 0.5
# What comes of a line that is no part of a list.
UNREAD = (ValueError, KeyError, TypeError, AttributeError, RecursionError)


class Progress:
    """Says how far the program is, and no more often than a page can draw it."""

    def __init__(self, state: JsonObject, changed: Callable[[], None]) -> None:
        self.state, self.changed = state, changed
        self.due: asyncio.TimerHandle | None = None

    def hear(self, progress: str) -> None:
        self.state["progress"] = progress
        # sends the last one too, though nothing comes after it
        self.due = self.due or asyncio.get_running_loop().call_later(OFTEN, self._tell)

    def _tell(self) -> None:
        self.due = None
        self.changed()

    def stop(self) -> None:
        if self.due:
            self.due.cancel()


class Findings:
    """A list that the program makes of the trace. `what` are its lines in words."""

    def __init__(self, what: str) -> None:
        self.what = what
        self.state: JsonObject = {"state": "searching"}
        self.kinds: list[str] = []  # of each block
        self.blocks: list[str] = []  # as JSON, which takes a third of the memory that its parts would
        self.hays: list[str] = []  # what a filter looks in

    def keep(self, kind: str, block: Mapping[str, object], texts: Iterable[str]) -> None:
        """Keeps a block, in whose texts a filter looks."""
        self.kinds.append(sys.intern(kind))
        self.blocks.append(json.dumps(block, separators=(",", ":")))
        self.hays.append(" ".join(texts).lower())

    def found(self, more: int, **facts: object) -> None:
        """The list is whole, or its first part is: there are more blocks than these."""
        self.state = {"state": "found", "kept": len(self.blocks), "more": more, **facts}

    def failed(self, why: Exception) -> None:
        """The program ended, or what it printed cannot be read."""
        reason = str(why) if isinstance(why, (Gone, Odd)) else repr(why)
        text = reason if isinstance(why, Gone) else f"the list of {self.what} cannot be read: {reason}"
        self.state = {"state": "failed", "why": clean(text)}

    def chosen(self, text: str, kinds: list[str], first: int, count: int) -> JsonObject:
        """A window of the blocks that have one of the kinds, and each word of the text."""
        if self.state["state"] != "found":
            return {**self.state, "total": 0, "from": 0, "blocks": []}
        words = text.lower().split()
        found = [
            at for at, kind in enumerate(self.kinds) if kind in kinds and all(word in self.hays[at] for word in words)
        ]
        blocks = [json.loads(self.blocks[at]) for at in found[first : first + count]]
        return {**self.state, "total": len(found), "from": first, "blocks": blocks}
