"""The values file of a recording: what the accesses of its trace read and wrote.

The first line is `values 1 TRACE EVENTS`: the SHA-256 of the trace, and how many events it has. Then `EVENT VALUE` for
each event whose value is known, in rising order. A value is a number, or `bN+PLACE`, a pointer into block N of the
recording. The last line is `end COUNT SUM`: how many values there are, and the CRC-32 of all lines before it.
"""
from __future__ import annotations

import re
import zlib
from typing import IO

import clocks

HEAD = re.compile(rb"values 1 ([0-9a-f]{64}) (\d{1,19})\n")
LINE = re.compile(rb"(\d{1,19}) (\d{1,20}|b\d{1,10}\+\d{1,19})\n")
END = re.compile(rb"end (\d{1,19}) ([0-9a-f]{8})\n")


class BadValues(Exception):
    """Why a values file is of no use."""


def write(path: str, trace: clocks.Kept, lines: IO[bytes]) -> None:
    """Writes the values that the decoder found of a trace."""
    lines.seek(0)
    text = b"values 1 %s %d\n" % (trace.whole.hexdigest().encode(), len(trace.lines)) + lines.read()
    with open(path, "wb") as file:
        file.write(text + b"end %d %08x\n" % (text.count(b"\n") - 1, zlib.crc32(text)))


class Reader:
    """Reads a values file, line by line."""

    def __init__(self, path: str) -> None:
        self.path, self.number, self.sum = path, 0, 0
        self.values: dict[int, bytes] = {}

    def refuse(self, why: str) -> BadValues:
        return BadValues(f"{self.path}, line {self.number}: {why}")

    def read(self, file: IO[bytes], digest: str) -> dict[int, bytes]:
        """The value of each event that has one, if the file is of the trace with this digest."""
        self.number = 1
        first = file.readline(200)
        head = HEAD.fullmatch(first)
        if not head:
            raise self.refuse("this is no values file of record/run --values")
        if head[1].decode() != digest:
            raise self.refuse("the values are of another trace")
        self.sum = zlib.crc32(first)
        self.read_lines(file, int(head[2]))
        return self.values

    def read_lines(self, file: IO[bytes], events: int) -> None:
        last = -1
        for line in file:
            self.number += 1
            end = END.fullmatch(line)
            if end:
                return self.check_end(file, int(end[1]), int(end[2], 16))
            found = LINE.fullmatch(line)
            if not found:
                raise self.refuse(f"this is no value: {line[:60].decode(errors='replace').rstrip()!r}")
            event = int(found[1])
            if not last < event < events:
                raise self.refuse(f"event {event} comes after event {last}, and the trace has {events} events")
            last = event
            self.sum = zlib.crc32(line, self.sum)
            self.values[event] = found[2]
        self.number += 1
        raise self.refuse("the file is cut: it has no line `end`")

    def check_end(self, file: IO[bytes], count: int, expected: int) -> None:
        if count != len(self.values):
            raise self.refuse(f"{count} values were written, and the file has {len(self.values)}")
        if expected != self.sum:
            raise self.refuse("the checksum is of other lines: the file is damaged")
        self.number += 1
        if file.readline(1):
            raise self.refuse("there is something after the line `end`")


def read(path: str, digest: str) -> dict[int, bytes]:
    """The values of the trace with this digest."""
    with open(path, "rb") as file:
        return Reader(path).read(file, digest)
