"""The raw file of a run, as the recorder in runtime/ writes it. Its numbers are read from runtime/format.h."""
from __future__ import annotations

import io
import os
import re
import struct
from typing import IO, Iterator, NamedTuple

HERE = os.path.dirname(os.path.realpath(__file__))


def header() -> str:
    with open(os.path.join(HERE, "runtime", "format.h"), encoding="ascii") as file:
        return file.read()


def names_of(text: str, place: int) -> dict[str, int]:
    """The names of the enumeration at that place, by their numbers: the header counts them from 0."""
    names = re.findall(r"^enum \{(.*?)\};", text, re.MULTILINE | re.DOTALL)[place]
    return {name: number for number, name in enumerate(re.findall(r"\w+", names))}


def number_of(text: str, name: str) -> int:
    """What the header says of a name, as a number: digits, or `1u << digits`."""
    found = re.search(rf"^#define {name} \(?(0x[0-9a-f]+|\d+)u?l*( << (\d+))?\)?$", text, re.MULTILINE)
    if not found:
        raise ValueError(f"format.h has no {name}")
    return int(found[1], 0) << int(found[3] or 0)


def fields_of(text: str, name: str) -> list[str]:
    """The names of the numbers that a structure of the header begins with."""
    fields = re.search(rf"^struct {name} \{{\s+u64 ([^;]*);", text, re.MULTILINE)
    if not fields:
        raise ValueError(f"format.h has no {name}")
    return re.findall(r"\w+", fields[1])


HEADER = header()
KINDS = names_of(HEADER, 0)
OBJECTS = names_of(HEADER, 1)
WAYS = names_of(HEADER, 2)
MAGIC = number_of(HEADER, "MAGIC")
MOST_MODULES = number_of(HEADER, "MOST_MODULES")
WORDS = struct.Struct(f"<{len(fields_of(HEADER, 'head'))}Q")
MODULE = struct.Struct(f"<QQ{number_of(HEADER, 'MODULE_PATH')}s")
NODE = struct.Struct("<QQII")
RECORD = struct.Struct("<QQQQIIHBBBBH")
# What the low 16 bits of a word say, and the numbers of words and slots.
NOTHING, LONG, TURN, TAKEN_BACK, VALUE = range(5)
FIRST_SLOT, SLOTS, LONG_WORDS = (number_of(HEADER, name) for name in ("FIRST_SLOT", "SLOTS", "LONG_WORDS"))
WORD = 8
# How many bytes are copied at once.
AT_ONCE = 1 << 22
HEAD_SIZE = WORDS.size + MOST_MODULES * MODULE.size


class Record(NamedTuple):
    """A record, as runtime/format.h has it."""

    at: int
    pc: int
    pos: int
    answer: int
    size: int
    stack: int
    thread: int
    kind: int
    done: int
    order: int
    of: int
    unused: int


class Call:
    """A call that the hooks saw begin: a place in the function, where it was called, and the call around it."""

    def __init__(self, numbers: tuple[int, ...]) -> None:
        self.body, self.site, self.outer, self.same = numbers


class Numbers:
    """The numbers at the head of the file, which may be cut."""

    def __init__(self, raw: bytes) -> None:
        numbers = WORDS.unpack_from(raw.ljust(WORDS.size, b"\0"), 0)
        (
            magic,
            _,
            self.used,
            self.stack_room,
            self.stacks,
            self.stacks_at,
            self.words_at,
            self.turns,
            self.forced,
            self.strangers,
            self.module_count,
            self.units,
            self.full,
            self.kept,
            self.lost,
            self.forks,
            self.programs,
            self.unrecorded,
            self.deadlock,
            _,
        ) = numbers
        self.there = magic == MAGIC and len(raw) >= HEAD_SIZE


def packed_head(used: int, modules: int) -> bytes:
    """The numbers of a file without calls: the records come after the modules."""
    values = {"magic": MAGIC, "room": used, "used": used, "stacks_at": HEAD_SIZE, "words_at": HEAD_SIZE}
    values["modules"] = modules
    names = fields_of(HEADER, "head")
    return WORDS.pack(*(values.get(name, 0) for name in names))


class Head(Numbers):
    """All that comes before the records."""

    def __init__(self, raw: bytes) -> None:
        super().__init__(raw[:HEAD_SIZE])
        self.modules: list[tuple[int, int, str, bool]] = []
        for k in range(min(self.module_count, MOST_MODULES)):
            base, end, path = MODULE.unpack_from(raw, WORDS.size + k * MODULE.size)
            self.modules.append((base, end, os.fsdecode(path.split(b"\0")[0]), k == 0))
        self.modules.sort()
        self.calls = [Call(NODE.unpack_from(raw, self.stacks_at + k * NODE.size)) for k in range(self.stacks)]
        self.all_calls = self.stacks < self.stack_room


def numbers_of(file: IO[bytes]) -> Numbers:
    """The numbers at the head of an open raw file."""
    file.seek(0)
    return Numbers(file.read(HEAD_SIZE))


def write_compact(file: IO[bytes], out: IO[bytes]) -> None:
    """Writes the head, the nodes and the records of a raw file, one after another, in pieces."""
    file.seek(0)
    first = file.read(HEAD_SIZE)
    head = Numbers(first)
    numbers = list(WORDS.unpack_from(first))
    numbers[5], numbers[6] = HEAD_SIZE, HEAD_SIZE + head.stacks * NODE.size
    out.write(WORDS.pack(*numbers) + first[WORDS.size :])
    for start, size in ((head.stacks_at, head.stacks * NODE.size), (head.words_at, head.used * WORD)):
        file.seek(start)
        while size and (piece := file.read(min(size, AT_ONCE))):
            out.write(piece)
            size -= len(piece)


def compact(file: IO[bytes]) -> bytes:
    """What write_compact writes, as bytes."""
    out = io.BytesIO()
    write_compact(file, out)
    return out.getvalue()


class Damaged(ValueError):
    """A word that the recorder does not write."""


class Reader:
    """Reads the records of a raw file. They have the numbers of their first machine words."""

    def __init__(self, raw: bytes, head: Numbers) -> None:
        there = memoryview(raw)[head.words_at : head.words_at + head.used * WORD]
        self.words = there[: len(there) // WORD * WORD].cast("Q")
        self.forms: dict[int, Record] = {}
        self.thread = self.tick = 0

    def long(self, place: int, slot: int) -> Record | None:
        """The record in the machine words after a place, if it was written whole."""
        there = self.words[place + 1 : place + LONG_WORDS]
        record = Record._make(RECORD.unpack(there)) if len(there) == LONG_WORDS - 1 else None
        if not record or not record.done:
            return None
        if slot:
            self.forms[slot] = record
        if record.pos:
            self.thread, self.tick = record.thread, record.pos >> 16
        return record if record.done == 1 else record._replace(kind=KINDS["VOID"])

    def short(self, slot: int, at: int) -> Record:
        """A record of a slot's form."""
        form = self.forms.get(slot)
        if form is None:
            raise Damaged
        if form.kind == KINDS["FRAME"]:
            return form._replace(at=at, answer=at, thread=self.thread, pos=0, done=1)
        self.tick += 1
        return form._replace(at=at, answer=0, thread=self.thread, pos=self.tick << 16, done=1)

    def all(self) -> Iterator[tuple[int, Record]]:
        place, count = 0, len(self.words)
        while place < count:
            at, kind = divmod(self.words[place], SLOTS)
            record = None
            if kind >= FIRST_SLOT:
                record = self.short(kind, at)
            elif kind == LONG:
                record = self.long(place, at)
            elif kind == TURN:
                self.thread, self.tick = at, self.words[place + 1] if place + 1 < count else 0
            elif kind == TAKEN_BACK:
                record = self.short(at, 0)._replace(kind=KINDS["VOID"])
            elif kind not in (NOTHING, VALUE):
                raise Damaged
            if record:
                yield place, record
            place += LONG_WORDS if kind == LONG else 2 if kind in (TURN, VALUE) else 1


def all_records(raw: bytes, head: Numbers) -> Iterator[tuple[int, Record]]:
    """All records, each with its number, with those that did not happen: they are VOID."""
    return Reader(raw, head).all()


def records(raw: bytes, head: Numbers) -> Iterator[tuple[int, Record]]:
    """The records that happened, each with its number."""
    void = KINDS["VOID"]
    for number, record in all_records(raw, head):
        if record.kind != void:
            yield number, record
