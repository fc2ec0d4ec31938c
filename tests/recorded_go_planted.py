"""Judges record/ on Go programs made by chance, whose races are known: some are planted, and some orders too.

A scenario has goroutines of its own. The first one writes a datum, and the last one reads it. What passes from one to
the next orders the two, or the datum is also accessed after the first pass or before the last one: that is a race, and
a label names it. So each race of the recording has its label, and each label has a race, within some seeds.

    recorded_go_planted.py PROGRAM FIRST COUNT     this many programs from a seed on, in its own process
"""

import os
import random
import re
import subprocess
import sys
import tempfile
from collections.abc import Callable

from judging import Wrong

TOP = os.path.dirname(os.path.dirname(os.path.abspath(__file__)))
RECORD = os.path.join(TOP, "record")
PATIENCE = 900
# The seeds of the programs that are always tried, the runs of each, how many scenarios it has, and the fewest races
# that all of these have.
FEW, RUNS, SCENARIOS, LEAST_RACES = (3, 8), (1, 2, 3), 12, 8

HEAD = """package main

import (
    "context"
    "fmt"
    "io"
    "os"
    "runtime"
    "sync"
    "sync/atomic"
    "time"
)

var _ = []any{context.Background, fmt.Sprint, io.Pipe, os.Pipe, sync.NewCond, atomic.AddInt32, time.Now}

func wait(until func() bool) {
    for !until() {
        runtime.Gosched()
    }
}
"""
# How one goroutine passes on to the next: what is declared, what the first does, and what the second does.
PASSES = {
    "unbuffered": ("c% := make(chan int)", "c% <- 1", "<-c%"),
    "buffered": ("c% := make(chan int, 2)", "c% <- 1", "<-c%"),
    "closed": ("c% := make(chan int)", "close(c%)", "for range c% {\n\t}"),
    "pointer": ("c% := make(chan *int, 1)", "c% <- new(int)", "*<-c% = 1"),
    "group": ("var g% sync.WaitGroup\n\tg%.Add(1)", "g%.Done()", "g%.Wait()"),
    "mutex": (
        "var m% sync.Mutex\n\tf% := 0",
        "m%.Lock()\n\tf% = 1\n\tm%.Unlock()",
        "wait(func() bool { m%.Lock(); defer m%.Unlock(); return f% == 1 })",
    ),
    "reader": (
        "var m% sync.RWMutex\n\tf% := 0",
        "m%.Lock()\n\tf% = 1\n\tm%.Unlock()",
        "wait(func() bool { m%.RLock(); defer m%.RUnlock(); return f% == 1 })",
    ),
    "atomic": ("var a% int32", "atomic.StoreInt32(&a%, 1)", "for atomic.LoadInt32(&a%) == 0 {\n\t}"),
    "swap": ("var a% int64", "atomic.AddInt64(&a%, 1)", "for !atomic.CompareAndSwapInt64(&a%, 1, 2) {\n\t}"),
    "value": ("var v% atomic.Value", "v%.Store(1)", "wait(func() bool { return v%.Load() != nil })"),
    "cond": (
        "var m% sync.Mutex\n\tw% := sync.NewCond(&m%)\n\tf% := 0",
        "m%.Lock()\n\tf% = 1\n\tw%.Signal()\n\tm%.Unlock()",
        "m%.Lock()\n\tfor f% == 0 {\n\t\tw%.Wait()\n\t}\n\tm%.Unlock()",
    ),
    "context": ("x%, s% := context.WithCancel(context.Background())", "s%()", "<-x%.Done()"),
    "map": ("var k% sync.Map", "k%.Store(1, 2)", "wait(func() bool { _, ok := k%.Load(1); return ok })"),
    "select": (
        "c%, d% := make(chan int), make(chan int, 1)",
        "select {\n\tcase c% <- 1:\n\tcase d% <- 1:\n\t}",
        "select {\n\tcase <-c%:\n\tcase <-d%:\n\t}",
    ),
    "polled": (
        "c% := make(chan int, 1)",
        "c% <- 1",
        "wait(func() bool {\n\t\tselect {\n\t\tcase <-c%:\n\t\t\treturn true\n\t\tdefault:\n\t\t\treturn false\n"
        "\t\t}\n\t})",
    ),
    "pipe": ("r%, w%, _ := os.Pipe()", 'w%.Write([]byte("x"))', "r%.Read(make([]byte, 1))"),
    "end": ("r%, w%, _ := os.Pipe()", "w%.Close()", "io.ReadAll(r%)"),
    "memory": ("r%, w% := io.Pipe()", 'w%.Write([]byte("x"))', "r%.Read(make([]byte, 1))"),
    "timer": ("c% := make(chan int, 1)", "time.AfterFunc(time.Microsecond, func() { c% <- 1 })", "<-c%"),
    "once": (
        "var o% sync.Once\n\tc% := make(chan int)",
        "o%.Do(func() { close(c%) })",
        "<-c%\n\to%.Do(func() {})",
    ),
}
# The datum: how it is declared, written and read.
DATA = (
    ("var d% int", "d%++", "use(d%)"),
    ("d% := &struct{ a, b int }{}", "d%.b = 3", "use(d%.b)"),
    ("d% := make([]int, 4)", "d%[2] = 3", "use(d%[2])"),
    ("d% := map[string]int{}", 'd%["x"] = 3', 'use(d%["x"])'),
    ("var d% [4]int32", "d%[1]++", "use(int(d%[1]))"),
    ("var d% fmt.Stringer", "d% = time.Second", "use(len(fmt.Sprint(d%)))"),
    ('d% := "x"', 'd% += "y"', "use(len(d%))"),
)


def scenario(chance: random.Random, number: int) -> tuple[str, bool]:
    """The function of a scenario, and whether it has a race."""
    declared, write, read = chance.choice(DATA)
    passes = [chance.choice(sorted(PASSES)) for _ in range(chance.choice((1, 1, 2, 3)))]
    where = chance.choice(("", "", "late", "early"))
    mark = f" // RACE s{number}" if where else ""
    first, last = [write + (mark if where == "early" else "")], [read + (mark if where == "late" else "")]
    names = [f"{number}_{k}" for k in range(len(passes))]
    lines = [declared] + [PASSES[kind][0].replace("%", name) for kind, name in zip(passes, names)]
    lines.append("var all sync.WaitGroup")
    bodies = []
    for k in range(len(passes) + 1):
        body = [] if k == 0 else [PASSES[passes[k - 1]][2].replace("%", names[k - 1])]
        if k == len(passes):
            body = ([read + mark] if where == "early" else []) + body + last
        else:
            body = (first if k == 0 else []) + body + [PASSES[passes[k]][1].replace("%", names[k])]
            body += [write + mark] if k == 0 and where == "late" else []
        bodies.append("\n\t".join(body))
    for text in bodies:
        lines.append("all.Add(1)\n\tgo func() {\n\tdefer all.Done()\n\t" + text + "\n\t}()")
    lines.append("all.Wait()")
    text = "\n\t".join(lines).replace("d%", f"d{number}")
    return f"\n// {' '.join(passes)} {where}\nfunc s{number}() {{\n\t{text}\n}}\n", bool(where)


def program_of(seed: int) -> tuple[str, set[str]]:
    """The source of a program, and the labels of its races."""
    chance = random.Random(seed)
    text, labels = HEAD + "\nfunc use(n int) int { return n }\n", set()
    for number in range(SCENARIOS):
        function, races = scenario(chance, number)
        text += function
        labels |= {f"s{number}"} if races else set()
    calls = "\n".join(f"\ts{number}()" for number in range(SCENARIOS))
    return f"{text}\nfunc main() {{\n{calls}\n}}\n", labels


def done(command: list[str]) -> str:
    ran = subprocess.run(command, capture_output=True, timeout=PATIENCE, check=False)
    if ran.returncode:
        raise Wrong(f"{' '.join(command)}: status {ran.returncode}: {ran.stderr.decode(errors='replace')[-600:]}")
    return ran.stdout.decode(errors="replace")


def judge_planted(racebench: str, seed: int) -> int:
    """Each race of the program has its label, and each label a race; how many there are."""
    text, labels = program_of(seed)
    with open("planted.go", "w", encoding="utf-8") as file:
        file.write(text)
    done([os.path.join(RECORD, "go"), "build", "-o", "planted", "planted.go"])
    label_of = {
        f"planted.go:{number}": re.findall(r"// RACE (\w+)", line)
        for number, line in enumerate(text.splitlines(), start=1)
    }
    found: set[str] = set()
    for run in RUNS:
        with open("trace.std", "w", encoding="utf-8") as trace:
            trace.write(done([os.path.join(RECORD, "run"), "--seed", str(run), "./planted"]))
        printed = done([racebench, "triage", "trace.std"])
        places = re.findall(r"^  T\d+\|[^|]*\|(\S+)", printed, re.MULTILINE)
        for first, second in zip(places[::2], places[1::2]):
            shared = set(label_of.get(first, [])) & set(label_of.get(second, []))
            if not shared:
                raise Wrong(f"program {seed}, seed {run}: a race without a label: {first} and {second}\n{text}")
            found |= shared
    if labels - found:
        raise Wrong(f"program {seed}: no run has the races {sorted(labels - found)}\n{text}")
    return len(found)


def judge_few(racebench: str) -> None:
    races = sum(judge_planted(racebench, seed) for seed in FEW)
    if races < LEAST_RACES:
        raise Wrong(f"the programs have {races} races; by chance there are more")


def cases(racebench: str) -> list[tuple[str, Callable[..., None], tuple[object, ...]]]:
    return [("Go: planted races", judge_few, (racebench,))]


def main() -> int:
    racebench, first, count = os.path.abspath(sys.argv[1]), int(sys.argv[2]), int(sys.argv[3])
    failed = 0
    for seed in range(first, first + count):
        with tempfile.TemporaryDirectory() as folder:
            os.chdir(folder)
            try:
                print(f"program {seed}: {judge_planted(racebench, seed)} races", flush=True)
            except Wrong as wrong:
                failed += 1
                print(wrong, flush=True)
            os.chdir("/")
    print(f"{count - failed} passed, {failed} failed")
    return 1 if failed else 0


if __name__ == "__main__":
    sys.exit(main())
