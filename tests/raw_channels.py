"""Semaphores that count and streams of bytes, for the judge of the decoder: which post or send each wait or receive
comes after."""

from __future__ import annotations

from raw_records import Record

WAITED, POSTED, MADE = 1, 2, 3
CHANNEL = 2


def inside(lock: str, operations: list[str]) -> list[str]:
    return [f"acq({lock})", *operations, f"rel({lock})"]


def met(name: str, number: int, comes: bool) -> list[str]:
    """Who comes to a meeting reads and writes, and who goes on reads."""
    name = f"{name}#{number}" if number else name
    return inside(name, [f"r(sync:{name})", *([f"w(sync:{name})"] if comes else [])])


class Posts:
    """A semaphore whose K-th wait comes after its K-th post. The first waits need none: as many as its value, or as
    waits came before posts."""

    def __init__(self, records: list[Record]) -> None:
        passes = [one for one in records if one.kind == "PASS"]
        values = [one.answer for one in records if one.order == MADE]
        self.first_value = values[-1] if values else 0
        self.is_whole = bool(passes) and len(values) <= 1
        self.is_whole &= all(one.kind in ("PASS", "WRITE") and one.order for one in records)
        deficit, self.ahead = 0, max([0, *values])
        for one in passes:
            deficit += 1 if one.order == WAITED else -1
            self.ahead = max(self.ahead, deficit)
        self.posts = self.waits = 0

    def operations(self, name: str, record: Record) -> list[str]:
        if record.order == POSTED:
            self.posts += 1
            return met(name, self.posts, True)
        self.waits += 1
        return met(name, self.waits - self.ahead, False) if self.waits > self.ahead else []


class Stream:
    """A channel of bytes: each byte has the number of the send that it came by."""

    def __init__(self, records: list[Record]) -> None:
        sends, sent, taken, self.is_whole = 0, 0, 0, bool(records)
        by_byte: list[int] = []
        self.needed: set[int] = set()
        self.before: list[int] = []
        for one in records:
            if one.kind == "PASS" and one.order == POSTED:
                sends, sent = sends + 1, sent + one.answer
                by_byte += [sends] * one.answer
                self.before.append(sends)
                continue
            last = taken + (1 if one.kind == "TRIED" else one.answer) - 1
            is_end = one.kind == "PASS" and not one.answer
            send = sends if is_end or last >= len(by_byte) else by_byte[last]
            self.needed.add(send)
            self.before.append(send)
            taken += one.answer if one.kind == "PASS" else 0
            is_known = one.kind == "TRIED" or (one.kind == "PASS" and one.order == WAITED)
            self.is_whole &= is_known and taken <= sent
        self.at = 0

    def operations(self, name: str, record: Record) -> list[str]:
        send, sends = self.before[self.at], record.kind == "PASS" and record.order == POSTED
        self.at += 1
        chain = f"sync:{name}" if sends else f"sync:received:{name}"
        operations = [f"r({chain})", *([f"w({chain})"] if record.kind == "PASS" else [])]
        if send and (send in self.needed or not sends):
            operations.append(f"{'w' if sends else 'r'}(sync:{name}#{send})")
        return inside(name, operations)
