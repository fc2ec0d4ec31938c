"""How tests compare, and how they wait."""

import asyncio
from collections.abc import Awaitable
from typing import TypeVar

T = TypeVar("T")


def same(one: object, other: object) -> None:
    assert one == other, f"{one!r}\nis not\n{other!r}"


async def within(seconds: int, awaited: Awaitable[T]) -> T:
    """Waits this many seconds, each by itself: if the machine pauses for long, that counts as one."""
    task = asyncio.ensure_future(awaited)
    try:
        for _ in range(seconds):
            if (await asyncio.wait([task], timeout=1))[0]:
                return task.result()
    finally:
        task.cancel()
    raise asyncio.TimeoutError
