"""Traces by chance of threads that take locks inside others."""

import random


def nested(draw: random.Random, locks: str, variables: str = "", sections: int = 2) -> str:
    """A trace of three threads that take one to three locks at a time, some twice, and access variables.

    With one section a thread, each takes two locks. It ends early if the threads wait for each other.
    """
    left = [steps_of(draw, locks, variables, sections) for _ in range(3)]
    held: dict[str, list[int]] = {}  # by lock, its thread as often as it took it
    lines: list[str] = []
    while True:
        able = [thread for thread, steps in enumerate(left) if steps and is_free(steps[0], thread, held)]
        if not able:
            return "".join(lines)
        thread = draw.choice(able)
        word, name = left[thread].pop(0)
        if word == "acq":
            held.setdefault(name, []).append(thread)
        elif word == "rel":
            held[name].pop()
        lines.append(f"T{thread}|{word}({name})|{thread}.c:{len(lines)}\n")


def is_free(step: tuple[str, str], thread: int, held: dict[str, list[int]]) -> bool:
    """Whether no other thread has the lock that a step takes."""
    return step[0] != "acq" or all(holder == thread for holder in held.get(step[1], []))


def steps_of(draw: random.Random, locks: str, variables: str, sections: int) -> list[tuple[str, str]]:
    """What a thread does, section after section."""
    steps: list[tuple[str, str]] = []
    for _ in range(draw.randint(1, sections)):
        names = draw.choices(locks, k=draw.randint(1, 3)) if sections > 1 else draw.sample(locks, 2)
        for word, order in (("acq", names), ("rel", names[::-1])):
            for name in order:
                steps.append((word, name))
                if variables and draw.random() < 0.3:
                    steps.append((draw.choice("rw"), draw.choice(variables)))
    return steps
