"""The records of a raw file, read by its layout in record/runtime/format.h by another way than the decoder's."""

from __future__ import annotations

import os
import re
import struct
from collections.abc import Iterator

TOP = os.path.dirname(os.path.dirname(os.path.abspath(__file__)))
WORDS, RECORD = struct.Struct("<20Q"), struct.Struct("<QQQQIIHBBBBH")
# Words that are no slot, and how many words each begins.
NOTHING, LONG, TURN, TAKEN_BACK, VALUE = range(5)
COUNTS = {LONG: 7, TURN: 2, VALUE: 2}
# The places of some words of the head: of the records' words, how many there are, and of the turns by force.
USED_AT, WORDS_AT, FORCED_AT = 2, 6, 8


def kinds() -> list[str]:
    """The names of the kinds of records, in the order of their numbers."""
    with open(os.path.join(TOP, "record/runtime/format.h"), encoding="ascii") as file:
        return re.findall(r"\w+", file.read().split("enum {")[1].split("}")[0])


def pieces(raw: bytes, used: int) -> Iterator[tuple[int, int, int, bytes]]:
    """What the words are: of each piece its first word, the low 16 bits, the rest, and the words after the first."""
    k = 0
    while k < used:
        (word,) = struct.unpack_from("<Q", raw, 8 * k)
        end = k + COUNTS.get(word & 0xFFFF, 1)
        if end <= used and word:
            yield k, word & 0xFFFF, word >> 16, raw[8 * k + 8 : 8 * end]
        k = end


def rows(raw: bytes, used: int) -> Iterator[tuple[int, ...]]:
    """The records that happened, in whole, of so many words."""
    return (row for _, row in numbered_rows(raw, used))


def numbered_rows(raw: bytes, used: int) -> Iterator[tuple[int, tuple[int, ...]]]:
    """The same, each with the number of its first word."""
    shapes: dict[int, tuple[int, ...]] = {}
    frame, thread, hooks = kinds().index("FRAME"), 0, 0
    for number, piece, rest, more in pieces(raw, used):
        if piece == LONG:
            row = RECORD.unpack(more)
            if not row[8]:
                continue
            shapes[rest] = row
            if row[2]:
                thread, hooks = row[6], row[2] >> 16
            if row[7] and row[8] == 1:
                yield number, row
        elif piece == TURN:
            thread, hooks = rest, int.from_bytes(more, "little")
        elif piece == TAKEN_BACK:
            hooks += 1
        elif piece != VALUE:
            _, pc, _, _, size, node, _, kind, _, order, of, unused = shapes[piece]
            hooks += kind != frame
            answer, clock = (rest, 0) if kind == frame else (0, hooks << 16)
            yield number, (rest, pc, clock, answer, size, node, thread, kind, 1, order, of, unused)
