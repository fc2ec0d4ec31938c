"""The accesses that a trace lacks since forks and joins alone order them: what record/run --ordered writes.

The file: a line `recording|ordered(BYTES)|` with the size of the trace; then for each set of accesses of one variable
an empty line and lines `T1|r|LOCATION`."""
from __future__ import annotations

import os
import re
from typing import NamedTuple

import matching

HEAD = re.compile(r"recording\|ordered\((\d+)\)\|")
# What the file of a trace is called if no other name is given.
ENDING = ".ordered"


class Bad(Exception):
    """Why a file is of no use."""


class Access(NamedTuple):
    thread: str
    word: str
    text: str
    location: matching.Location

    @property
    def line(self) -> str:
        return f"{self.thread}|{self.word}|{self.text}"


def access_of(path: str, line: str) -> Access:
    found = re.fullmatch(r"(T\d+)\|([rw])\|(.+)", line)
    if not found:
        raise Bad(f"{path}: this is no line of record/run --ordered: {line[:80]!r}")
    return Access(found[1], found[2], found[3], matching.Location(found[3]))


def read(path: str, trace: str) -> list[list[Access]]:
    """The sets of accesses of one variable. The file must be of this trace."""
    try:
        with open(path, encoding="utf-8", errors="replace") as file:
            head, *lines = file.read().split("\n")
    except OSError as error:
        raise Bad(f"{path}: {error.strerror}") from None
    found = HEAD.fullmatch(head)
    if not found:
        raise Bad(f"{path} is no file of record/run --ordered")
    if int(found[1]) != os.path.getsize(trace):
        raise Bad(f"{path} is of another trace than {trace}")
    sets: list[list[Access]] = [[]]
    for line in lines:
        if line:
            sets[-1].append(access_of(path, line))
        else:
            sets.append([])
    return [each for each in sets if each]


def beside(trace: str) -> str:
    """The file that is beside a trace, or an empty text."""
    path = trace + ENDING
    return path if os.path.exists(path) else ""
