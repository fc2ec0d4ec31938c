"""Bytes and words from outside, made harmless."""

import unicodedata
from typing import Any

# A dictionary of JSON that comes from outside: it may have any keys.
JsonObject = dict[str, Any]

# How many signs of a line that cannot be read are shown.
SHOWN = 80
# Control, format (bidi), surrogate, private, unassigned, and the two separators of lines.
HIDDEN = frozenset({"Cc", "Cf", "Cs", "Co", "Cn", "Zl", "Zp"})


def clean(raw: bytes | str) -> str:
    """Text that shows what is there: no control, format (bidi) or private character keeps its effect."""
    text = raw if isinstance(raw, str) else raw.decode("utf-8", "replace")
    if text.isascii() and text.isprintable():
        return text
    return "".join(f"\\u{{{ord(char):x}}}" if unicodedata.category(char) in HIDDEN else char for char in text)


class Odd(ValueError):
    """A text of the program that is not as it should be."""


def odd(number: int, line: bytes) -> Odd:
    """A line that cannot be read, by its number."""
    text = clean(line[: 4 * SHOWN])
    return Odd(f"line {number} is {text[:SHOWN]}{'…' if len(text) > SHOWN or len(line) > 4 * SHOWN else ''}")
