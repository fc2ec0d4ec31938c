"""The proved program, spoken to through pipes."""

import asyncio
import contextlib
import json
import re
from collections import deque
from collections.abc import AsyncGenerator, Callable
from typing import Any

from .text import Odd

# The longest line that is read from the program: `show` of a million events.
LINE_LIMIT = 1 << 28
# A list of races is kept up to this many blocks.
MOST_BLOCKS = 200_000
# A line about the progress of the program. If the program fails, this many of its last lines are shown.
PROGRESS = re.compile(r"events \d+|pairs of places \d+ of \d+")
LAST_LINES = 20
# How many bytes of a session's last output are shown. How many seconds it has to end after its input ended or after
# a kill, and how many its pipes may be open after its output ended.
LAST_WORDS, ENDS, LAST = 4096, 3, 60
# Steps come before what is looked for beside them. It is a command: no code is safe between a fork and the start.
BEHIND = ("nice", "-n", "5")
Hear = Callable[[str], None]
Take = Callable[[dict[str, Any]], None]
PIPE = asyncio.subprocess.PIPE
Process = asyncio.subprocess.Process


class Gone(Exception):
    """The program has ended; its last output is the text."""


class Session:
    """A process `racebench session TRACE LOG --client N`, started anew at the next step where it ended."""

    def __init__(self, program: str, trace: str, log: str, client: int) -> None:
        self.parts = (program, trace, log, client)
        self.command = [program, "session", trace, log, "--client", str(client)]
        self.process: Process | None = None
        self.dropped: list[Process] = []
        self.turn = asyncio.Lock()

    async def ask(self, *lines: str) -> list[str]:
        """The answers to these lines, one each. They are written together, so they are answered under one lock."""
        async with self.turn:
            try:
                return await self._exchange(lines)
            except BaseException:
                self.drop()
                raise

    async def _exchange(self, lines: tuple[str, ...]) -> list[str]:
        process = await self._running()
        text = "".join(line + "\n" for line in lines).encode("ascii")
        writing = asyncio.ensure_future(write(process, text))
        try:
            answers = [await self._answer(process) for _ in lines]
            await writing
            return answers
        finally:
            writing.cancel()

    async def _running(self) -> Process:
        if self.process is None or self.process.returncode is not None:
            self.process = None
            self.process = await started(*self.command, stdin=PIPE)
        return self.process

    async def _answer(self, process: Process) -> str:
        answer = await stdout(process).readline()
        if answer.endswith(b"\n"):
            return answer[:-1].decode("utf-8", "replace")
        raise Gone(await last_error(process) or "the session ended")

    def drop(self) -> None:
        """Ends the process: its further answers would be taken for those of other lines."""
        process, self.process = self.process, None
        if process and process.stdin:
            process.stdin.close()
        if process and process.returncode is None:
            process.kill()
            self.dropped.append(process)

    async def stop(self) -> None:
        process = self.process
        if process and process.returncode is None and process.stdin:
            process.stdin.close()
            with contextlib.suppress(asyncio.TimeoutError):
                await asyncio.wait_for(process.wait(), ENDS)
        self.drop()
        for process in self.dropped:
            with contextlib.suppress(asyncio.TimeoutError):
                await asyncio.wait_for(process.wait(), ENDS)


async def started(*command: str, stdin: int = asyncio.subprocess.DEVNULL, limit: int = LINE_LIMIT) -> Process:
    """A process of the program. A program that cannot be started is handled as one that ended."""
    try:
        return await asyncio.create_subprocess_exec(*command, stdin=stdin, stdout=PIPE, stderr=PIPE, limit=limit)
    except OSError as why:
        raise Gone(f"{command[0]} cannot be started: {why.strerror}") from why


def stdout(process: Process) -> asyncio.StreamReader:
    assert process.stdout
    return process.stdout


async def write(process: Process, text: bytes) -> None:
    assert process.stdin
    try:
        process.stdin.write(text)
        await process.stdin.drain()
    except OSError:
        pass  # what it said last is read from its standard error


async def last_error(process: Process) -> str:
    """What it said last. It may go on, or another process have its pipe, so nobody waits for ever."""
    assert process.stderr
    error = b""
    with contextlib.suppress(asyncio.TimeoutError):
        async with asyncio.timeout(LAST):
            while part := await process.stderr.read(LAST_WORDS):
                error = (error + part)[-LAST_WORDS:]
            await process.wait()
    return error.decode("utf-8", "replace").strip()


async def output(*command: str) -> tuple[int, bytes, str]:
    """The status, output and error of the program at other words. A caller that is cancelled leaves no process."""
    process = await started(*command)
    try:
        out, error = await process.communicate()
    finally:
        if process.returncode is None:
            process.kill()
            await process.wait()
    return process.returncode or 0, out, error.decode("utf-8", "replace").strip()


async def triage(program: str, trace: str, hear: Hear, take: Take, *arguments: str) -> tuple[dict[str, Any], int]:
    """What `triage --json --apart` says: the counts; races, undecided and apart pairs of places are given to `take`.

    Also how many more there are than are taken. The arguments may leave out races, which are counted as `known`.
    """
    counts: dict[str, Any] = {}
    number = 0
    words = ("triage", trace, "--json", "--apart", "--progress", *arguments)
    async for line in lines_of(hear, LINE_LIMIT, program, *words):
        block: dict[str, Any] = json.loads(line.decode("utf-8", "replace"))
        if block["kind"] == "counts":
            counts = block
        elif block["kind"] == "known":
            counts["known"] = block["count"]
        elif block["kind"] in ("race", "undecided", "apart"):
            if number < MOST_BLOCKS:
                take(block)
            number += 1
    return counts, max(0, number - MOST_BLOCKS)


async def heard(process: Process, hear: Hear) -> str:
    """Hears how far the process is, and gives its last lines that say something else."""
    assert process.stderr
    lines: deque[str] = deque(maxlen=LAST_LINES)
    async for line in process.stderr:
        text = line.decode("utf-8", "replace").strip()
        if PROGRESS.fullmatch(text):
            hear(text)
        else:
            lines.append(text)
    return "\n".join(lines)


async def lines_of(hear: Hear, limit: int, *command: str) -> AsyncGenerator[bytes, None]:
    """The lines that a process prints, as they come, without their ends. Each has this many bytes at most."""
    process = await started(*BEHIND, *command, limit=limit)
    reading = asyncio.ensure_future(heard(process, hear))
    try:
        number = 0
        while line := await line_of(process, limit, number + 1):
            yield line.removesuffix(b"\n")
            number += 1
            if number % 256 == 0:
                await asyncio.sleep(0)
        error = await reading
        if await process.wait():
            raise Gone(error or f"{command[1]} ended with status {process.returncode}")
    finally:
        reading.cancel()
        if process.returncode is None:
            process.kill()
            await process.wait()


async def line_of(process: Process, limit: int, number: int) -> bytes:
    """The next line, which has this number. It is empty after the last one."""
    try:
        return await stdout(process).readline()
    except ValueError as why:
        raise Odd(f"line {number} is longer than {limit:,} bytes") from why
