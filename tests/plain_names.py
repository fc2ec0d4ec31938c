"""The names of variables without the numbers of blocks and activations, by the grammar of docs/RECORDING.md."""

import re

NUMBER = r"#(?:T[0-9]+(?:\.[0-9]+)?|[0-9]+)(?![0-9])"
OTHER = r"(?!heap:|stack:|atomic:|held:|sync:)"
# A block, a part of a frame, and a variable of a frame. What follows a number has no `#`.
FORMS = [
    re.compile(rf"(heap:.*){NUMBER}((?:[\[.+][^#]*)?)", re.DOTALL),
    re.compile(rf"(stack:.*){NUMBER}([+-][^#]*)", re.DOTALL),
    re.compile(rf"({OTHER}.+){NUMBER}(:[^#]+)", re.DOTALL),
]


def without_number(name: str) -> str:
    for form in FORMS:
        found = form.fullmatch(name)
        if found:
            return found[1] + found[2]
    return name
