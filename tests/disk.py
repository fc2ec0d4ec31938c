"""Judges the calls that a session makes on its log's file, by the notes of tools/disk.c: what a crash after each may
leave.

Nothing is read or written without the lock. After each write and each cut a crash leaves the lines that the file had
when the lock was taken, or these and those of the turn. That holds for any part of what is not yet synced that came to
the disk. A file gets its name once it is whole and synced. An answer is written once the lock is free and the file and
its folder are synced, since the lock was taken and since the last write.
"""

from __future__ import annotations

import itertools
from collections.abc import Iterable, Iterator
from typing import NamedTuple

from judging import Wrong

# The bytes of the first line of a log's file.
HEAD = 81
# How many contents are tried after a call.
MOST_LEFT = 3000


class Note(NamedTuple):
    """A call on a log's file: its name, the file's number, its argument, its result, and the written bytes."""

    call: str
    file: str
    argument: str
    result: int
    data: bytes


def kept_lines(file: bytes | None) -> list[bytes] | None:
    """The lines that count in a log's file, or None of what is no such file."""
    if file is None or file[HEAD - 1 : HEAD] != b"\n":
        return None
    lines = file[HEAD:].split(b"\n")[:-1]
    return [line[1:] for line in itertools.takewhile(lambda line: line.startswith(b" "), lines)]


def notes_of(text: str) -> Iterator[Note]:
    """The notes: a call, the file's number, its arguments, its result, and the bytes that were written."""
    for line in text.splitlines():
        call, *fields = line.split()
        if call == "answer":
            yield Note(call, "", "", 0, b"")
        elif call in ("fsync", "link"):
            yield Note(call, fields[0], "", int(fields[1]), b"")
        else:
            yield Note(call, fields[0], fields[1], int(fields[2]), bytes.fromhex("".join(fields[3:])))


def written(old: bytes, place: int, data: bytes) -> bytes:
    return old[:place].ljust(place, b"\0") + data + old[place + len(data) :]


def parts_of(size: int) -> Iterable[int]:
    """Where a write of this many bytes may be cut short."""
    return range(size + 1) if size <= 40 else sorted({0, 1, 2, size // 2, size - 2, size - 1, size})


def after(old: bytes, note: Note) -> Iterator[bytes]:
    """What may be left where this call is not yet synced: as it was, a part of it, or any bytes in its range."""
    place = int(note.argument)
    yield old
    if note.call == "ftruncate":
        yield from (old[:size] for size in {place, (place + len(old)) // 2, max(place, len(old) - 1)})
        return
    for size in parts_of(len(note.data)):
        yield written(old, place, note.data[:size])
        yield written(old, place + len(note.data) - size, note.data[len(note.data) - size :])
    for bytes_there in [b" x\n", b"\0", b"!"]:
        yield written(old, place, (bytes_there * len(note.data))[: len(note.data)])


def left_by_crash(durable: bytes, pending: Iterable[Note]) -> set[bytes]:
    """The contents that a crash may leave: of the one that is synced, and the calls that are not."""
    contents = {durable}
    for note in pending:
        more = (new for old in sorted(contents) for new in after(old, note))
        contents = set(itertools.islice(more, MOST_LEFT))
    return contents


class Disk:
    """One session and its log's file, which held these bytes before."""

    def __init__(self, before: bytes | None) -> None:
        self.seen = self.durable = before or b""
        self.pending: list[Note] = []
        self.is_named = before is not None
        self.is_held = self.is_synced = self.is_folder_synced = False
        self.stood: list[bytes] = []
        self.crashes: list[tuple[str, list[bytes]]] = []
        self.turns = self.answers = 0

    def lock(self, note: Note) -> None:
        if note.argument == "freed":
            self.end_turn()
            return
        self.is_held, self.is_synced = True, False
        self.stood = kept_lines(self.seen) or []
        self.crashes = []
        self.turns += 1

    def end_turn(self) -> None:
        if self.pending:
            raise Wrong(f"the lock is free, and {self.pending[0].call} is not synced")
        lines = kept_lines(self.seen) or []
        if lines[: len(self.stood)] != self.stood:
            raise Wrong(f"lines were lost: {self.stood} stood, and now {lines} do")
        for call, left in self.crashes:
            if left not in (self.stood, lines):
                raise Wrong(
                    f"a crash after {call} leaves {left}; {self.stood} stood, and the turn makes {lines} of it"
                )
        self.is_held = False

    def change(self, note: Note) -> None:
        if not self.is_held:
            raise Wrong(f"{note.call} without the lock")
        self.pending.append(note)
        place = int(note.argument)
        self.seen = written(self.seen, place, note.data) if note.call == "pwrite" else self.seen[:place]
        for content in left_by_crash(self.durable, self.pending):
            left = kept_lines(content)
            if left is None and self.is_named:
                raise Wrong(f"a crash after {note.call} leaves no log")
            self.crashes.append((note.call, left or []))

    def sync(self, note: Note) -> None:
        if note.file.startswith("/"):
            self.is_folder_synced = True
            return
        self.durable, self.pending, self.is_synced = self.seen, [], True

    def name(self) -> None:
        if self.pending or kept_lines(self.seen) != []:
            raise Wrong("a file gets its name before it is whole and synced")
        self.is_named, self.is_folder_synced = True, False

    def answer(self) -> None:
        self.answers += 1
        if self.is_held:
            raise Wrong("an answer is written under the lock")
        if self.pending or not self.is_synced:
            raise Wrong("an answer is written, and what it tells of is not synced")
        if not self.is_folder_synced:
            raise Wrong("an answer is written, and the file's name is not synced")

    def take(self, note: Note) -> None:
        if note.result < 0:
            return
        if note.call == "flock":
            self.lock(note)
        elif note.call == "pread":
            if not self.is_held:
                raise Wrong("the file is read without the lock")
        elif note.call in ("pwrite", "ftruncate"):
            self.change(note)
        elif note.call == "fsync":
            self.sync(note)
        elif note.call == "link":
            self.name()
        elif note.call == "answer":
            self.answer()


def judge(text: str, before: bytes | None, left: bytes | None) -> int:
    """How many turns a session made that ended well: its log's file held the bytes `before`, and now holds `left`."""
    disk = Disk(before)
    for note in notes_of(text):
        disk.take(note)
    if not disk.turns or not disk.answers:
        raise Wrong("no lock was taken, or nothing was answered: there is nothing to judge")
    if disk.is_held:
        raise Wrong("the lock is held to the end")
    if disk.seen != left:
        raise Wrong(f"the file holds {left!r}, and by the calls on it {disk.seen!r}")
    return disk.turns
