"""Reading a long trace by several processes at once: each reads a section of the file."""

from __future__ import annotations

import asyncio
import marshal
import os
import signal
import threading
from typing import Any, BinaryIO

from .reader import PORTION, Reader
from .trace import Part, Trace

# A shorter file is read as fast by one process; more processes than this have to wait for the program beside them.
LONG, MOST = 4 << 20, 3


def sections(path: str, number: int) -> list[tuple[int, int]]:
    """Where this many sections of whole lines begin and end, all about as long."""
    with open(path, "rb") as file:
        size = file.seek(0, os.SEEK_END)
        ends = [0]
        for at in range(1, number):
            file.seek(max(ends[-1], size * at // number))
            file.readline()
            ends.append(file.tell())
    return list(zip(ends, [*ends[1:], size]))


def lines_before(file: BinaryIO, end: int) -> int:
    """How many lines end before this place. The file is at the place afterwards."""
    found = 0
    while (left := end - file.tell()) > 0 and (text := file.read(min(left, PORTION))):
        found += text.count(b"\n")
    return found


def section_of(path: str, start: int, end: int) -> Part:
    read = Trace(path)
    with open(path, "rb") as file:
        read.before = lines_before(file, start)
        for _ in Reader(read).read(file, end - start):
            pass
    return read.as_part()


class Helper:
    """A process that reads one section, and sends what it found through a pipe."""

    def __init__(self, path: str, start: int, end: int) -> None:
        self.is_done = False
        self.ending = threading.Lock()
        self.output, into = os.pipe()
        try:
            self.number = os.fork()
        except OSError:
            os.close(self.output)
            os.close(into)
            raise
        if self.number == 0:
            try:
                os.close(self.output)
                with open(into, "wb") as file:
                    marshal.dump(tuple(section_of(path, start, end)), file)
            finally:
                os._exit(0)  # after any failure: then the answer is not whole
        os.close(into)

    def answer(self) -> Any:
        """What it sent; an exception if that is not whole."""
        try:
            with open(self.output, "rb") as file:
                return marshal.load(file)
        finally:
            self._take()

    def _take(self) -> None:
        """Waits for its end. Its number stays its own until it is taken under the lock."""
        os.waitid(os.P_PID, self.number, os.WEXITED | os.WNOWAIT)
        with self.ending:
            os.waitpid(self.number, 0)
            self.is_done = True

    def kill(self) -> None:
        """Ends this process, or none: after its end another one may have its number."""
        with self.ending:
            if not self.is_done:
                os.kill(self.number, signal.SIGKILL)

    def drop(self) -> None:
        """Ends it if nobody takes its answer."""
        self.kill()
        os.close(self.output)
        self._take()


class Readers:
    """Begins before all else, so that a trace is read while modules are loaded and the program reads it too."""

    def __init__(self, path: str) -> None:
        self.helpers: list[Helper] = []
        number = min(MOST, (os.cpu_count() or 1) - 1)
        try:
            if number > 1 and os.path.isfile(path) and os.path.getsize(path) >= LONG:
                self._begin(path, number)
        except OSError:
            for helper in self.helpers:
                helper.drop()
            self.helpers = []

    def _begin(self, path: str, number: int) -> None:
        for section in sections(path, number):
            self.helpers.append(Helper(path, *section))

    async def parts(self) -> list[Part]:
        """The sections in their order; empty if one process has to read all."""
        loop = asyncio.get_running_loop()
        answers = [loop.run_in_executor(None, helper.answer) for helper in self.helpers]
        try:
            return [Part(*answer) for answer in await asyncio.gather(*answers)]
        except (OSError, EOFError, ValueError, TypeError):
            self.stop()
            return []

    def stop(self) -> None:
        for helper in self.helpers:
            helper.kill()
        self.helpers = []
