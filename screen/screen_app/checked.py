"""What a browser may ask with: names and numbers, and nothing else, reach the session."""

import re
from typing import Any

NAME = re.compile(r"[A-Za-z0-9_.-]{1,64}\Z")
NUMBER_LIMIT = 2**32 - 1


class Mistake(Exception):
    """A request that no screen makes."""


def named(name: Any) -> str:
    if not isinstance(name, str) or not NAME.match(name):
        raise Mistake("a name is 1 to 64 of letters, digits, _ - .")
    return name


def counted(number: Any, limit: int = NUMBER_LIMIT) -> int:
    if not isinstance(number, int) or isinstance(number, bool) or not 0 <= number <= limit:
        raise Mistake("no such number")
    return number


def paired(pair: Any) -> tuple[int, int]:
    """Two events, the lesser first."""
    if not isinstance(pair, list) or len(pair) != 2:
        raise Mistake("a pair is two events")
    first, second = sorted(counted(event) for event in pair)
    return first, second
