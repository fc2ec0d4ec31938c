"""Sessions of the program beside a screen: those of other analysts, and those that a screen started."""

import asyncio
import contextlib
import os
import signal
from collections.abc import Iterator

from stage import Screen, comes


async def session(program: str, client: int, text: str) -> str:
    """What the program answers to these lines of a client of the log."""
    process = await asyncio.create_subprocess_exec(
        program,
        "session",
        "trace",
        "log",
        "--client",
        str(client),
        stdin=asyncio.subprocess.PIPE,
        stdout=asyncio.subprocess.PIPE,
    )
    return (await process.communicate(text.encode()))[0].decode()


def children(process: asyncio.subprocess.Process) -> Iterator[int]:
    """The sessions that a screen started. Each process says whose child it is, which all systems tell."""
    for child in filter(str.isdigit, os.listdir("/proc")):
        with contextlib.suppress(OSError):  # it may end before
            with open(f"/proc/{child}/stat", "rb") as file:
                parent = int(file.read().rpartition(b")")[2].split()[1])
            with open(f"/proc/{child}/cmdline", "rb") as file:
                if parent == process.pid and b"session" in file.read().split(b"\0"):
                    yield int(child)


async def kill_sessions(screen: Screen) -> list[int]:
    """Kills them, and gives their numbers."""
    killed = await comes(lambda: list(children(screen.process)))
    for child in killed:
        with contextlib.suppress(ProcessLookupError):
            os.kill(child, signal.SIGKILL)
    return killed


async def batches(program: str, count: int) -> None:
    """Adds this many events in the order of the trace, as another client."""
    process = await asyncio.create_subprocess_exec(
        program,
        "session",
        "trace",
        "log",
        "--client",
        "3",
        stdin=asyncio.subprocess.PIPE,
        stdout=asyncio.subprocess.PIPE,
        limit=1 << 24,
    )
    lines = [
        "batch " + " ; ".join(f"add A {event}" for event in range(start, min(start + 64, count)))
        for start in range(0, count, 64)
    ]
    out, _ = await process.communicate(("\n".join(lines) + "\n").encode())
    assert b"refused" not in out
