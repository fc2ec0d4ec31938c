"""What others did since an analyst last looked."""

import asyncio
from collections import Counter

from .entries import Entry, schedule_of
from .messages import NewsLine

# How many entries are counted before others get a turn, and this many counts are kept: one for each tab that looks.
PORTION, KEPT = 200, 8


class Count:
    """What others did from an entry on: for each client and each schedule, how often they did what."""

    def __init__(self, first: int) -> None:
        self.upto = first
        self.found: dict[tuple[int, str | None], NewsLine] = {}

    def take(self, entry: Entry) -> None:
        steps: list[tuple[str, str | None]] = [(part[0], schedule_of(part)) for part in entry.parts()]
        for (word, name), number in Counter(steps or [(entry.kind, None)]).items():
            fresh: NewsLine = {"client": entry.client, "name": name, "last": 0, "counts": {}}
            one = self.found.setdefault((entry.client, name), fresh)
            one["counts"][word] = one["counts"].get(word, 0) + number
            one["last"] = entry.number


class News:
    """Counts go on from where they were, so what a step costs does not grow with what others did before."""

    def __init__(self, client: int) -> None:
        self.client = client
        self.counts: dict[int, Count] = {}  # by their first entry

    async def since(self, first: int, entries: list[Entry]) -> list[NewsLine]:
        """Of the entries from the first on, the latest first."""
        count = self.counts.pop(first, None) or Count(first)
        self.counts[first] = count  # the last one used is last
        if len(self.counts) > KEPT:
            self.counts.pop(next(iter(self.counts)))
        while count.upto < len(entries):
            portion = entries[count.upto : count.upto + PORTION]
            count.upto += len(portion)
            for entry in portion:
                if entry.client != self.client:
                    count.take(entry)
            await asyncio.sleep(0)
        return sorted(count.found.values(), key=lambda one: -one["last"])
