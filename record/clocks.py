"""The clock of a recording, beside its trace: of each event the record that it is of, and the records, so that each has
the clock of its thread. Following never looks at a name or an address: an event has a record, and that a thread and a
tick.

The file: `RBCLOCK2`, the size of the settings (4 bytes) and the settings as JSON; for each event the number of its
record (8 bytes) and the CRC-32 of its line (4 bytes); then the raw records. All numbers are little-endian.
"""
from __future__ import annotations

import argparse
import hashlib
import json
import os
import shutil
import struct
import zlib
from array import array
from typing import IO, Any, Protocol

import raw as raw_file
import running

MAGIC = b"RBCLOCK2"
# How the first and the last line of a trace begin, which are no events.
MARK = b"recording|"
SIZE = struct.Struct("<I")


class Bad(Exception):
    """Why a clock is of no use."""


class Kept:
    """A file that the trace is written to, with the checksums of its lines."""

    def __init__(self, out: IO[bytes]) -> None:
        self.out, self.whole, self.lines = out, hashlib.sha256(), array("I")

    def write(self, line: bytes) -> None:
        self.whole.update(line)
        if not line.startswith(MARK):
            self.lines.append(zlib.crc32(line[:-1]))
        self.out.write(line)


def digest_of(path: str) -> str:
    with open(path, "rb") as file:
        return hashlib.sha256(file.read()).hexdigest()


def program_of(word: str) -> str | None:
    """The file that a word runs, or None."""
    path = running.path_of(word)
    return shutil.which(path) if "/" not in path else path


class Recorded(Protocol):
    """A recording: its raw file, the head of that, and for each event the number of its record."""

    file: IO[bytes]
    head: Any
    record_of: Any


def write(options: argparse.Namespace, recorded: Recorded, kept: Kept) -> None:
    """Writes the clock of a trace that was written to `kept`."""
    main = next((path for _, _, path, is_main in recorded.head.modules if is_main), "")
    with open(options.clock, "wb") as file:
        write_fields(file, options, kept, main)
        recorded.record_of.tofile(file)
        kept.lines.tofile(file)
        raw_file.write_compact(recorded.file, file)


def write_fields(file: IO[bytes], options: argparse.Namespace, kept: Kept, main: str, go_root: str = "") -> None:
    """Writes the beginning of a clock. A Go program has the root of its Go."""
    program = program_of(options.program)
    fields = {
        "argv": [options.program] + options.args,
        "cwd": os.getcwd(),
        "free": options.free,
        "yield": getattr(options, "yield"),
        "room": options.room,
        "seed": options.seed,
        **about_trace(kept),
        "program": digest_of(program) if program else "",
        "main": digest_of(main) if os.path.exists(main) else "",
        "go": go_root,
    }
    write_head(file, fields)


def about_trace(kept: Kept) -> dict[str, Any]:
    """What a clock has of the whole trace."""
    return {"trace": kept.whole.hexdigest(), "events": len(kept.lines)}


def write_head(file: IO[bytes], fields: dict[str, Any]) -> None:
    text = json.dumps(fields).encode()
    file.write(MAGIC + SIZE.pack(len(text)) + text)


def read_fields(file: IO[bytes], path: str) -> dict[str, Any]:
    begin = file.read(len(MAGIC) + SIZE.size)
    if len(begin) < len(MAGIC) + SIZE.size or not begin.startswith(MAGIC):
        raise Bad(f"{path} is no clock of record/run --clock")
    try:
        fields: dict[str, Any] = json.loads(file.read(SIZE.unpack(begin[len(MAGIC) :])[0]))
    except ValueError:
        raise Bad(f"{path} is cut or damaged") from None
    return fields


class Clock:
    """A recording as it is followed: of each event its thread and clock, and of each thread the ticks that it made."""

    def __init__(self, path: str) -> None:
        self.ticks: dict[int, array[int]] = {}
        self.forks: list[tuple[int, int, int]] = []
        self.of: dict[int, raw_file.Record] = {}
        # The number of the last record of a free, or -1.
        self.last_free = -1
        try:
            with open(path, "rb") as file:
                self.fields = read_fields(file, path)
                self.record_of, self.lines = array("Q"), array("I")
                self.record_of.frombytes(file.read(8 * self.fields["events"]))
                self.lines.frombytes(file.read(4 * self.fields["events"]))
                self.raw = file.read()
            self.head = raw_file.Head(self.raw)
            self.read_records()
        except OSError as error:
            raise Bad(f"{path}: {error.strerror}") from None
        except (struct.error, ValueError, KeyError, TypeError, IndexError):
            raise Bad(f"{path} is cut or damaged") from None

    def read_records(self) -> None:
        events = set(self.record_of)
        # The looks of loops that poll: those between the first and the last are no events, and are done in their turn.
        looks: set[tuple[int, int, int]] = set()
        if not self.head.there or len(self.raw) < self.head.words_at + self.head.used * raw_file.WORD:
            raise ValueError
        for number, record in raw_file.all_records(self.raw, self.head):
            if number in events:
                self.of[number] = record
            if record.kind == raw_file.KINDS["FORK"]:
                self.forks.append((record.thread, record.pos, record.at))
            if record.kind == raw_file.KINDS["FREED"] and not record.order:
                self.last_free = number
            if record.kind in LOOKS and number in events:
                looks.add((record.thread, record.at, record.pc))
            if record.kind not in NO_TICKS:
                is_event = number in events or (record.thread, record.at, record.pc) in looks
                self.put_tick(record, 128 if is_event else 0)
        if events - self.of.keys():
            raise ValueError

    def put_tick(self, record: raw_file.Record, flag: int) -> None:
        mine, end = self.ticks.setdefault(record.thread, array("Q")), 3 * (record.pos >> 16)
        if end > len(mine):
            mine.extend([0] * (end - len(mine)))
        mine[end - 3 : end] = array("Q", (record.pc << 16 | flag | record.kind, record.at, record.answer))

    def record(self, event: int) -> raw_file.Record:
        return self.of[self.record_of[event]]

    def is_line(self, event: int, line: str) -> bool:
        """Whether this is the event's line in the trace."""
        text = line.encode("utf-8", "surrogateescape")
        return 0 <= event < len(self.lines) and zlib.crc32(text) == self.lines[event]


LOOKS = raw_file.KINDS["ATOMIC_READ"], raw_file.KINDS["TRIED"]
NO_TICKS = tuple(raw_file.KINDS[name] for name in "ALLOCATED FREED RESIZED STACK FRAME REQUEST".split())
