"""Reading a trace: its lines as columns of numbers."""

from __future__ import annotations

import sys
from collections.abc import Iterator
from typing import TYPE_CHECKING, BinaryIO

from .text import clean

if TYPE_CHECKING:
    from .trace import Trace

WORDS = (b"r", b"w", b"acq", b"rel", b"fork", b"join")
BLANKS = b" \t\r\n"
# How many bytes are read before others get a turn.
PORTION = 1 << 17
# The kind of an operation is in the lowest bits of its number, and the number of its name above them.
KINDS, KINDS_AT = 7, 3
SKIPPED = -1


class Numbers(dict[bytes, int]):
    """Numbers by first use. A spelling with blanks round it has the number of the one without."""

    def __init__(self) -> None:
        super().__init__()
        self.raw: list[bytes] = []

    def __missing__(self, spelling: bytes) -> int:
        name = spelling.strip(BLANKS)
        if name == spelling:
            number = len(self.raw)
            self.raw.append(name)
        else:
            number = self[name]
        self[spelling] = number
        return number

    def text(self, number: int) -> str:
        return clean(self.raw[number])


class Odd(Exception):
    """Lines that are not all of two bars, or that are no event."""


class New(Exception):
    """A thread or an operation that no line before had."""


class Known(dict[bytes, int]):
    """Numbers of threads or operations, by the bytes of the text."""

    def __missing__(self, field: bytes) -> int:
        raise New


class Places(dict[bytes, int]):
    """Numbers of last fields of lines that have two bars, by the bytes of the text."""

    def __init__(self, numbers: Numbers) -> None:
        super().__init__()
        self.numbers = numbers

    def __missing__(self, field: bytes) -> int:
        if b"\n" in field:
            raise Odd
        number = self[field] = self.numbers[field]
        return number


class Reader:
    """Fills the columns of a trace.

    Most portions have lines of two bars alone. Such a portion is cut at all bars at once, and each kind of field is
    looked up by itself, so a million events take half a second. The line feed stays with the thread, so a field
    that is not where it should be is known by it. What is odd is read line by line.
    """

    def __init__(self, trace: Trace) -> None:
        self.trace = trace
        self.threads = Known()  # with the line feed before it
        self.operations = Known()  # kind and name in one
        self.places = Places(trace.places)
        self.lines = Lines(trace)

    def read(self, file: BinaryIO, length: int | None = None) -> Iterator[None]:
        """Reads this many bytes, or all."""
        rest, end = b"", sys.maxsize if length is None else file.tell() + length
        while text := file.read(max(0, min(PORTION, end - file.tell()))):
            kept, feed, rest = (rest + text).rpartition(b"\n")
            if feed:
                self._take(kept)
                yield
        if rest:
            self._take(rest)

    def _take(self, text: bytes) -> None:
        fields = (b"\n" + text).replace(b"\n", b"|\n")[1:].split(b"|")
        try:
            if len(fields) % 3:
                raise Odd
            places = [*map(self.places.__getitem__, fields[2::3])]
            threads, numbers = self._numbers(fields[0::3], fields[1::3])
        except Odd:
            self.lines.take(text.split(b"\n"))
            return
        kinds, names = [number & KINDS for number in numbers], [number >> KINDS_AT for number in numbers]
        self.trace.add(bytes(threads), bytes(kinds), names, places)

    def _numbers(self, threads: list[bytes], operations: list[bytes]) -> tuple[list[int], list[int]]:
        try:
            return [*map(self.threads.__getitem__, threads)], [*map(self.operations.__getitem__, operations)]
        except New:
            self._meet(threads, operations)
            return self._numbers(threads, operations)

    def _meet(self, threads: list[bytes], operations: list[bytes]) -> None:
        """Numbers what is new, in the order of the lines, as the program does."""
        new_threads = set(threads).difference(self.threads)
        new = set(operations).difference(self.operations)
        if any(not thread.startswith(b"\n") for thread in new_threads) or any(map(is_odd, new)):
            raise Odd
        for thread, operation in zip(threads, operations):
            if thread in new_threads or operation in new:
                self.threads[thread] = self.trace.threads[thread[1:]]
                self.operations[operation] = number_of(self.trace, operation)


def parsed(operation: bytes) -> tuple[int, bytes]:
    """The kind of an operation and its name; SKIPPED if it is no event."""
    word, bracket, rest = operation.strip(BLANKS).partition(b"(")
    if not bracket or word.strip(BLANKS) not in WORDS:
        return SKIPPED, b""
    return WORDS.index(word.strip(BLANKS)), rest[: rest.rfind(b")")].strip(BLANKS)


def is_odd(operation: bytes) -> bool:
    return b"\n" in operation or parsed(operation)[0] == SKIPPED


def number_of(trace: Trace, operation: bytes) -> int:
    """The kind and the number of the name in one."""
    kind, name = parsed(operation)
    return trace.names_of(kind)[name] << KINDS_AT | kind


class Lines:
    """Reads lines one by one. What is before the location is parsed once and looked up from then on."""

    def __init__(self, trace: Trace) -> None:
        self.trace = trace
        self.known: dict[bytes, tuple[int, int]] = {}  # of `thread|operation` the thread, and the kind and name

    def take(self, lines: list[bytes]) -> None:
        for line in lines:
            thread, *rest = line.split(b"|", 2)
            if not rest:
                continue
            head = thread + b"|" + rest[0]
            if head not in self.known:
                self.known[head] = self._numbers(thread, rest[0])
            number, operation = self.known[head]
            if number != SKIPPED:
                place = self.trace.places[rest[1] if len(rest) > 1 else b""]
                self.trace.add(bytes([number]), bytes([operation & KINDS]), [operation >> KINDS_AT], [place])

    def _numbers(self, thread: bytes, operation: bytes) -> tuple[int, int]:
        """Numbers a thread and then the name of its operation, as the trace format says."""
        if parsed(operation)[0] == SKIPPED:
            return SKIPPED, SKIPPED
        return self.trace.threads[thread], number_of(self.trace, operation)
