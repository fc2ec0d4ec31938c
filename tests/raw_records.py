"""What a raw file of record/run has, read by its layout in record/runtime/format.h: for the judge of the decoder, which
computes the trace by another way."""

from __future__ import annotations

import bisect
import functools
import os
import struct
from collections.abc import Iterator
from typing import Any, NamedTuple

from elftools.elf.elffile import ELFFile  # type: ignore[import]
from raw_words import USED_AT, WORDS, WORDS_AT, kinds, numbered_rows

MODULE, NODE = struct.Struct("<QQ240s"), struct.Struct("<QQII")
# The way of a wait at a semaphore, and the bit of a lock that was taken by a try.
WAITED, BY_TRY = 1, 2


class Record(NamedTuple):
    kind: str
    at: int
    pc: int
    answer: int
    size: int
    node: int
    thread: int
    order: int
    of: int
    # Which of the file's words it begins with, from 0 on.
    number: int


def is_try(record: Record) -> bool:
    """Whether a call took a lock that waits for nobody, or not for ever."""
    if record.kind == "PASS":
        return record.order == WAITED and record.answer == BY_TRY
    return record.kind in ("ACQUIRE", "WRITER", "READER_IN") and record.order & BY_TRY > 0


def is_end(record: Record) -> bool:
    """Whether it is the end of an activation whose frame another thread used."""
    return record.kind == "FREED" and record.order > 0


class Node(NamedTuple):
    body: int
    site: int
    parent: int
    same: int


class Raw(NamedTuple):
    modules: list[tuple[int, int, str]]
    nodes: list[Node]
    records: list[Record]


def read(path: str) -> Raw:
    with open(path, "rb") as file:
        raw = file.read()
    numbers = WORDS.unpack_from(raw)
    nodes, nodes_at, count = numbers[4], numbers[5], numbers[10]
    modules = [MODULE.unpack_from(raw, WORDS.size + k * MODULE.size) for k in range(count)]
    names, records = kinds(), []
    for number, row in numbered_rows(raw[numbers[WORDS_AT] :], numbers[USED_AT]):
        at, pc, _, answer, size, node, thread, kind, _, order, of, _ = row
        records.append(Record(names[kind], at, pc, answer, size, node, thread, order, of, number))
    return Raw(
        [(base, end, name.split(b"\0")[0].decode()) for base, end, name in modules],
        [Node(*NODE.unpack_from(raw, nodes_at + k * NODE.size)) for k in range(nodes)],
        records,
    )


def ranges_of(die: Any) -> list[tuple[int, int]]:
    """The ranges of code of an entry, by pyelftools."""
    low, high, listed = (die.attributes.get(name) for name in ("DW_AT_low_pc", "DW_AT_high_pc", "DW_AT_ranges"))
    if low and high:
        return [(low.value, high.value + (0 if high.form == "DW_FORM_addr" else low.value))]
    if not listed:
        return []
    top, found = die.cu.get_top_DIE().attributes.get("DW_AT_low_pc"), []
    first = top.value if top else 0
    for entry in die.dwarfinfo.range_lists().get_range_list_at_offset(listed.value, cu=die.cu):
        if hasattr(entry, "base_address"):
            first = entry.base_address
            continue
        base = 0 if getattr(entry, "is_absolute", False) else first
        found.append((base + entry.begin_offset, base + entry.end_offset))
    return found


def name_of(die: Any) -> str:
    while "DW_AT_name" not in die.attributes:
        origin = next(n for n in ("DW_AT_abstract_origin", "DW_AT_specification") if n in die.attributes)
        die = die.get_DIE_from_attribute(origin)
    return str(die.attributes["DW_AT_name"].value.decode())


class Module:
    """The lines, functions and variables of a program in C, by pyelftools."""

    def __init__(self, path: str) -> None:
        elf = ELFFile(open(path, "rb"))
        self.units = list(elf.get_dwarf_info().iter_CUs()) if elf.has_dwarf_info() else []
        self.dwarf = elf.get_dwarf_info() if self.units else None
        self.variables = sorted(self.read_variables(elf))
        own = [part["p_memsz"] + -part["p_memsz"] % (part["p_align"] or 1) for part in elf.iter_segments("PT_TLS")]
        # How many bytes the variables take that each thread has.
        self.own_size = own[0] if own else 0
        self.rows = [row for unit in self.units for row in self.read_rows(unit)]
        self.rows.sort(key=lambda row: row[:2])
        self.paths = {path for unit in self.units for path in self.files(unit)}

    @staticmethod
    def read_variables(elf: Any) -> Iterator[tuple[int, int, str]]:
        table = elf.get_section_by_name(".symtab")
        found = [
            (symbol["st_value"], symbol["st_size"], symbol.name)
            for symbol in (table.iter_symbols() if table else ())
            if symbol["st_info"]["type"] == "STT_OBJECT" and symbol["st_size"] and symbol["st_shndx"] != "SHN_UNDEF"
        ]
        names = [name for _, _, name in dict((one[0], one) for one in sorted(found, reverse=True)).values()]
        for start, size, name in found:
            yield start, size, name if names.count(name) == 1 else f"{name}@{start:x}"

    def files(self, unit: Any) -> list[str]:
        """The paths of the files of a unit, by their numbers in DWARF 5."""
        header = self.dwarf.line_program_for_CU(unit).header
        folders = [os.fsdecode(folder) for folder in header["include_directory"]]
        return [
            os.path.normpath(os.path.join(folders[0], folders[entry.dir_index], os.fsdecode(entry.name)))
            for entry in header["file_entry"]
        ]

    def read_rows(self, unit: Any) -> Iterator[tuple[int, int, str, int]]:
        """Which addresses are of which line: from, to, file, line."""
        paths, last = self.files(unit), None
        for entry in self.dwarf.line_program_for_CU(unit).get_entries():
            state = entry.state
            if state is None:
                continue
            if last and last.address < state.address and last.line:
                yield last.address, state.address, paths[last.file], last.line
            last = None if state.end_sequence else state

    def around(self, die: Any, place: int) -> list[Any]:
        """The functions that a place is in, below an entry: the innermost is the last."""
        for child in die.iter_children():
            is_body = child.tag in ("DW_TAG_subprogram", "DW_TAG_inlined_subroutine")
            if is_body and any(low <= place < high for low, high in ranges_of(child)):
                return [child, *self.around(child, place)]
            if not is_body and (found := self.around(child, place)):
                return found
        return []

    def frames(self, place: int) -> list[tuple[str, str, int]]:
        """Function, file and line of a place, then those of the calls in its function, from the inside."""
        row = next((row for row in self.rows if row[0] <= place < row[1]), None)
        chain = [found for unit in self.units for found in self.around(unit.get_top_DIE(), place)]
        if not row:
            return []
        (_, _, path, line), found = row, []
        for die in reversed(chain):
            found.append((name_of(die), path, line))
            if die.tag == "DW_TAG_inlined_subroutine":
                path = self.files(die.cu)[die.attributes["DW_AT_call_file"].value]
                line = die.attributes["DW_AT_call_line"].value
        return found


class Places:
    """Locations and variables of the recorded program, the first module."""

    def __init__(self, raw: Raw) -> None:
        self.raw, (self.base, self.end, path) = raw, raw.modules[0]
        self.module = Module(path)

    def short(self, path: str) -> str:
        """As much of the end of a path as no other path ends in."""
        parts = path.split("/")
        for count in range(1, len(parts)):
            end = "/".join(parts[-count:])
            if sum(f"/{other.lstrip('/')}".endswith(f"/{end}") for other in self.module.paths) == 1:
                return end
        return path

    @functools.cache
    def frames(self, address: int) -> list[tuple[str, str]]:
        if not self.base <= address - 1 < self.end:
            return []
        found = self.module.frames(address - 1 - self.base)
        return [(function, f"{self.short(path)}:{line}") for function, path, line in found]

    @functools.cache
    def stack(self, pc: int, node: int) -> list[tuple[str, str]]:
        found = self.frames(pc) or self.frames(self.raw.nodes[node].body)
        while node:
            found = found + self.frames(self.raw.nodes[node].site)
            node = self.raw.nodes[node].parent
        return found[:8]

    def location(self, record: Record) -> str:
        (function, place), *calls = self.stack(record.pc, record.node)
        freed = "return in " if is_end(record) else "free in " if record.kind == "FREED" else ""
        inside = "try in " if is_try(record) else freed
        return " < ".join([place, inside + function, *map(" ".join, calls)])

    def variable(self, address: int) -> tuple[int, str] | None:
        starts = [start for start, _, _ in self.module.variables]
        k = bisect.bisect_right(starts, address - self.base) - 1
        if k < 0 or address - self.base >= starts[k] + self.module.variables[k][1]:
            return None
        return self.base + starts[k], self.module.variables[k][2]
