"""Judges names on programs drawn by chance: functions with variables, blocks, arrays, recursion and calls, whose parts
threads share. The names stand one for one for the objects that the judge of the decoder finds: no two objects share a
name, one object keeps its name, and a frame that is used again is a new object.

    recorded_drawn.py N [FIRST]      judges N programs, from the seed FIRST on

What no other judge sees: a variable that has the name of the one whose frame was there before.
"""

import contextlib
import os
import random
import sys
import tempfile
from collections.abc import Sequence

if __name__ == "__main__":
    sys.dont_write_bytecode = True
import recorded_options
from judging import Case, Wrong
from recorded_places import RECORD, ran

# The seeds of the programs that are always judged.
FEW = (3, 4, 11)
LEVELS = ("-O0", "-O1", "-O2")
HEAD = """#include <alloca.h>
#include <pthread.h>
#include <setjmp.h>
#include <stdlib.h>
struct part { int a, b; struct { int c[3]; } in; };
struct list { int *of[8]; int count; };
static struct part whole;
static __thread struct part own;
static jmp_buf out;
static void *work(void *p) {
    struct list *list = p;
    for (int k = 0; k < list->count; k++) ++*list->of[k];
    return NULL;
}
static void share(struct list *list, int threads) {
    pthread_t t[3];
    for (int k = 0; k < threads; k++) if (pthread_create(&t[k], NULL, work, list)) exit(1);
    for (int k = 0; k < threads; k++) pthread_join(t[k], NULL);
}
"""
MAIN = """int main(void) {
    int top = 0;
    for (int k = 0; k < 2; k++) {
        if (!setjmp(out)) f%d(2, &top);
        f%d(1, &top);
    }
    return top < 0;
}
"""
# What a function has, V is a number; and the ints in it that threads may share.
THINGS = (
    ("int xV = 0;", ("&xV",)),
    ("struct part pV = {0, 0, {{0}}};", ("&pV.b", "&pV.in.c[1]")),
    ("int rowV[6] = {0};", ("&rowV[2]", "&rowV[5]")),
    ("int vlaV[depth + 2]; vlaV[1] = 0;", ("&vlaV[1]",)),
    ("int *asideV = alloca(16 * (depth + 1)); asideV[3] = 0;", ("&asideV[3]",)),
    ("struct part *heapV = calloc(1, sizeof *heapV);", ("&heapV->a", "&heapV->in.c[2]")),
)
OTHERS = ("&whole.b", "&whole.in.c[0]", "&own.a", "&own.in.c[1]", "up")


def sharing(chance: random.Random, ints: Sequence[str]) -> str:
    """A use of some ints by threads, and by the function itself."""
    some = [chance.choice(ints) for _ in range(chance.randint(1, 5))]
    uses = " ".join(f"++*{chance.choice(ints)};" for _ in range(chance.randint(0, 2)))
    listed = ", ".join(some)
    return f"{{ struct list list = {{{{{listed}}}, {len(some)}}}; share(&list, {chance.randint(1, 2)}); }} {uses}"


def block(chance: random.Random, number: int, ints: Sequence[str], level: int) -> list[str]:
    """The statements of a function or a block in it."""
    lines, ints, frees = [], list(ints), []
    for _ in range(chance.randint(1, 3)):
        thing, its = chance.choice(THINGS)
        name = str(chance.randint(0, 10**6))
        lines.append(thing.replace("V", name))
        ints += [one.replace("V", name) for one in its]
        if "calloc" in thing and chance.random() < 0.7:
            frees.append(f"free(heap{name});")
    for _ in range(chance.randint(1, 3)):
        kind = chance.random()
        if kind < 0.4:
            lines.append(sharing(chance, ints))
        elif kind < 0.6 and number:
            lines.append(f"f{0 if level else chance.randrange(number)}(depth, {chance.choice(ints)});")
        elif kind < 0.7 and not level:
            lines.append(f"if (depth > 0) f{number}(depth - 1, {chance.choice(ints)});")
        elif level < 2:
            turns = chance.randint(1, 2)
            inner = "\n    ".join(block(chance, number, ints, level + 1))
            lines.append(f"for (int k{level} = 0; k{level} < {turns}; k{level}++) {{\n    {inner}\n    }}")
    lines.append(sharing(chance, ints))
    if not level and chance.random() < 0.1:
        lines.append("if (depth == 2) longjmp(out, 1);")
    return lines + frees


def program(seed: int) -> str:
    """A program in C, whose functions call those before them and themselves."""
    chance, parts, count = random.Random(seed), [HEAD], 0
    for count in range(1, chance.randint(2, 4)):
        lines = "\n    ".join(block(chance, count - 1, OTHERS, 0))
        parts.append(f"static void f{count - 1}(int depth, int *up) {{\n    {lines}\n}}\n")
    return "".join(parts) + MAIN % (count - 1, chance.randrange(count))


def judge(seed: int) -> int:
    with open("drawn.c", "w", encoding="ascii") as file:
        file.write(program(seed))
    level = LEVELS[seed % len(LEVELS)]
    ran([os.path.join(RECORD, "cc"), "-w", level, "drawn.c", "-o", "program"], env=dict(os.environ, RECORD_CC="gcc"))
    ran([os.path.join(RECORD, "run"), "--seed", str(seed), "--raw", "kept.raw", "./program"])
    lines, _ = recorded_options.decoded("--all")
    try:
        recorded_options.judge_objects(lines, recorded_options.interpreted("--frames", "--all"))
    except Wrong as wrong:
        raise Wrong(f"the program of seed {seed}: {wrong}") from None
    if not any("(f" in line and ":" in line for line in lines):
        raise Wrong(f"the program of seed {seed} shares no variable of a frame")
    return len(lines)


def judge_few() -> None:
    for seed in FEW:
        judge(seed)


def cases() -> list[Case]:
    return [("names of drawn programs", judge_few, ())]


def main(count: int, first: int = 0) -> None:
    events = 0
    for seed in range(first, first + count):
        with tempfile.TemporaryDirectory() as folder, contextlib.chdir(folder):
            events += judge(seed)
    print(f"{count} programs, {events} events: no two objects share a name, and each keeps its own")


if __name__ == "__main__":
    main(*map(int, sys.argv[1:]))
