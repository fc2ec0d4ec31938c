"""Judges record/ on programs of the kinds that people bring: of each the races that its lines say are found, and no
other, and the recorded program prints what the plain one prints, and ends as it does.

What no other judge sees: an order that the recorder does not know, so that a race is shown which no run can have; an
access in code that has no hooks; a program that hangs, is refused or ends otherwise only where it is recorded.

A line that says `RACE` races with the other lines that say so; a word after it tells several races of a program apart.
"""

import json
import os
import re
import subprocess
import sys
from collections.abc import Iterable, Iterator, Mapping, Sequence
from typing import Any

import names_of_runs
from judging import Case, Wrong
from recorded_places import PATIENCE, RECORD, SOURCES

FOLDER = os.path.join(SOURCES, "strangers")
SEEDS = (1, 2)
# A race may hang on chance, as on a timer. Where one is not met, further seeds are recorded, up to this one.
LAST_SEED = 15
# Seconds after which a program hangs that takes one.
ENDLESS = 120
# What a program of this kind is compiled by, what it is called with, and what it reads.
STATIC = ["-std=c++17", "-static-libstdc++", "-static-libgcc"]
COMPILED = {
    "statics.cpp": STATIC,
    "cxx20.cpp": ["-std=c++20", "-latomic"],
    "failed_swaps.cpp": ["-std=c++17", "-latomic"],
    "many_waits.cpp": ["-std=c++20"],
    "meetings.cpp": ["-std=c++20"],
    "stop_tokens.cpp": ["-std=c++20"],
    "planted.cpp": ["-std=c++20", "-latomic"],
    "shared_atomic.cpp": ["-std=c++20"],
    "waits_atomic.cpp": ["-std=c++20"],
    "wide_atomic.cpp": ["-std=c++17", "-latomic"],
    "shared_tasks.cpp": ["-fopenmp"],
    "task_kinds.cpp": ["-fopenmp"],
    "doacross.c": ["-fopenmp"],
    "sines.c": ["-lm"],
    "wide_loops.c": ["-O2"],
    "task_events.c": ["-fopenmp"],
}
# Those with OpenMP, of which the recorder knows the one of GCC.
OPENMP = ("shared_tasks.cpp", "task_kinds.cpp", "doacross.c", "task_events.c")
# Those that are judged with each compiler.
EACH_COMPILER = (
    "sizes.c",
    "filled_by_calls.c",
    "accepted.c",
    "set_by_calls.c",
    "matched.c",
    "received_from.c",
    "memory_streams.c",
    "conversions.c",
    "cut_texts.c",
    "links.cpp",
    "trees.cpp",
    "lists.cpp",
    "ostreams.cpp",
    "istreams.cpp",
    "last_letters.c",
    "exceptions.cpp",
    "own_parts.c",
    "sines.c",
    "wide_loops.c",
    "chars.cpp",
)
CALLED = {"exits.c": ("exit", "quick", "under", "abort", "crash", "kill")}
# Those whose locks are let go by the threads that took them.
EVEN = (
    "more_waits.c",
    "clocks.c",
    "preferred.c",
    "shared_mutex.cpp",
    "timed_locks.cpp",
    "writers.c",
    "writes_twice.c",
)
# Those whose races may crash them, and the statuses of that.
MAY_CRASH, CRASHED = ("planted.cpp",), (134, 139)
INPUT = {"input.c": b"a line\n" * 30}
# How many seconds a recorded run may take, on a machine that does much else; most take a part of one.
LONGEST = 300


# The places of each race, by its label.
Labels = dict[str, set[str]]


def labels_of(paths: Iterable[str]) -> Labels:
    """The places of each race that the lines of sources say."""
    found: Labels = {}
    for path in paths:
        with open(path, encoding="utf-8") as text:
            for number, line in enumerate(text, start=1):
                mark = re.search(r"/[/*] RACE ?(\w*)", line)
                if mark:
                    found.setdefault(mark[1], set()).add(f"{os.path.basename(path)}:{number}")
    return found


def ran(
    command: Sequence[str], env: Mapping[str, str] | None = None, text: bytes | None = None
) -> tuple[int, str, str]:
    """How a command ended, and what it wrote."""
    try:
        done = names_of_runs.run(command, PATIENCE, env, text=text)
    except subprocess.TimeoutExpired:
        raise Wrong(f"{' '.join(command)}: does not end") from None
    return done.returncode, done.stdout.decode(errors="replace"), done.stderr.decode(errors="replace")


def compiled(
    name: str, compiler: str, to: str, environment: Mapping[str, str] | None = None, folder: str = FOLDER
) -> None:
    """Compiles a program, and what it opens if there is something."""
    flags = COMPILED.get(name, ["-std=c++17"] if name.endswith(".cpp") else [])
    source = os.path.join(folder, name)
    status, _, errors = ran([compiler, "-O1", "-w", "-g", "-pthread", source, "-o", to, *flags], env=environment)
    if status:
        raise Wrong(f"{name} is not compiled: {errors[-600:]}")


def compiled_twice(name: str, c: str, cxx: str | None, folder: str) -> None:
    """Compiles a program to `plain` and to `program`."""
    plain, hooked = (cxx or "c++", "c++") if name.endswith(".cpp") else (c, "cc")
    compiled(name, plain, "plain", folder=folder)
    environment = dict(os.environ, RECORD_CC=c, RECORD_CXX=cxx or "")
    compiled(name, os.path.join(RECORD, hooked), "program", environment, folder)


def judge_run(name: str, arguments: Sequence[str], seed: int) -> None:
    """The recorded program ends as the plain one, and writes the same words in any order; the trace is written."""
    source = INPUT.get(name, b"")
    plain, *written = ran(["./plain", *arguments], text=source)
    recording = [os.path.join(RECORD, "run"), "--seed", str(seed), "--status", "--partial", "./program", *arguments]
    status, trace, errors = ran(["timeout", str(LONGEST), *recording], text=source)
    wanted = plain if plain >= 0 else 128 - plain
    with open("trace.std", "w", encoding="utf-8") as text:
        text.write(trace)
    if name in MAY_CRASH and status in CRASHED:
        return
    if status != wanted and (wanted or trace):
        raise Wrong(f"seed {seed}: ends with {status}, and not with {wanted}: {errors[-600:]}")
    own = "".join(line for line in errors.splitlines(True) if not line.startswith("record"))
    if sorted(own.split()) != sorted("".join(written).split()):
        raise Wrong(f"seed {seed}: prints {own!r}, and not {''.join(written)!r}; status {status}: {errors[-300:]}")
    if "left out" in errors:
        raise Wrong(f"seed {seed}: something is left out: {errors[-600:]}")
    if name in EVEN and "let go by another thread" in errors:
        raise Wrong(f"seed {seed}: a lock seems to be let go by another thread than took it: {errors[-600:]}")
    # How many wait orders nothing, and would hide races of those that wait.
    if "__waiter_pool_base" in trace:
        raise Wrong(f"seed {seed}: the library's counts of who waits are in the trace")


def races(racebench: str) -> Iterator[tuple[set[str], list[dict[str, Any]]]]:
    """The pairs of places of the races of a trace, with their lines."""
    status, printed, errors = ran([racebench, "triage", "trace.std", "--json"])
    if status:
        raise Wrong(f"the trace is refused: {errors[-300:]}")
    for line in printed.splitlines():
        pair = json.loads(line)
        if pair["kind"] == "race":
            yield {access["location"].split(" < ")[0] for access in pair["accesses"]}, pair["accesses"]


def met_in(racebench: str, wanted: Labels, name: str, arguments: Sequence[str], seed: int) -> set[str]:
    """The labels of the races of a recording; each race has one."""
    judge_run(name, arguments, seed)
    met = set()
    for places, accesses in races(racebench) if os.path.getsize("trace.std") else ():
        labels = [label for label, lines in wanted.items() if places <= lines]
        if not labels:
            raise Wrong(f"seed {seed}: a race that is none: {accesses}")
        met.update(labels)
    return met


def judge_stranger(racebench: str, name: str, c: str, cxx: str | None, folder: str = FOLDER) -> None:
    """No recording has a race that is none; all races are met within some seeds."""
    wanted = labels_of([os.path.join(folder, name)])
    compiled_twice(name, c, cxx, folder)
    for arguments in CALLED.get(name, ("",)):
        missing, seed = set(wanted), 0
        while seed < SEEDS[-1] or (missing and seed < LAST_SEED):
            seed += 1
            missing -= met_in(racebench, wanted, name, arguments.split(), seed)
        if missing:
            raise Wrong(f"{arguments} no race at the lines that say RACE {sorted(missing)}, with the seeds to {seed}")


# What this judge has to find wrong: a race that is none, one that is not said, another output, and another status.
DEFECTS = {
    "no race at the lines that say RACE": "pthread_mutex_lock(&m); shared++; /* RACE */ pthread_mutex_unlock(&m);",
    "a race that is none": "shared++;",
    "seed 1: prints": 'pthread_mutex_lock(&m); if (getenv("RACEBENCH_RECORD")) puts("lost"); pthread_mutex_unlock(&m);',
    "seed 1: ends with": 'if (getenv("RACEBENCH_RECORD")) exit(3);',
}
DEFECTIVE = """#include <pthread.h>
#include <stdio.h>
#include <stdlib.h>
pthread_mutex_t m = PTHREAD_MUTEX_INITIALIZER;
int shared;
static void *work(void *p) {
    STEP
    return p;
}
int main(void) {
    pthread_t t;
    pthread_create(&t, 0, work, 0), work(0);
    return pthread_join(t, 0);
}
"""


def judge_defects(racebench: str, c: str) -> None:
    """`judge_stranger` finds what is wrong."""
    for defect, step in DEFECTS.items():
        with open("defective.c", "w", encoding="ascii") as source:
            source.write(DEFECTIVE.replace("STEP", step))
        try:
            judge_stranger(racebench, "defective.c", c, None, os.getcwd())
        except Wrong as wrong:
            if defect not in str(wrong):
                raise Wrong(f"{step} is wrong otherwise: {wrong}, and not {defect}") from wrong
            continue
        raise Wrong(f"nothing is wrong with {step}, and it should be: {defect}")


def judge_calls(c: str) -> None:
    """Calls that were left by longjmp are over: those of later accesses are right."""
    compiled("jumps.c", os.path.join(RECORD, "cc"), "program", dict(os.environ, RECORD_CC=c))
    _, trace, _ = ran([os.path.join(RECORD, "run"), "--all", "./program"])
    calls = {line.split("|", 2)[2] for line in trace.splitlines() if "(racy)" in line}
    with open(os.path.join(FOLDER, "jumps.c"), encoding="ascii") as source:
        line = [text.strip() for text in source].index("touch();") + 1
    wanted = rf"jumps\.c:\d+ < touch < work jumps\.c:{line}"
    if len(calls) != 1 or not re.fullmatch(wanted, calls.pop()):
        raise Wrong(f"the calls behind a longjmp are not {wanted} alone: {trace[-600:]}")


def judge_searches(c: str) -> None:
    """What a search of the C library calls back is called where the program searches."""
    with open("source.c", "w", encoding="ascii") as source:
        source.write(SEARCHES)
    command = [os.path.join(RECORD, "cc"), "-O0", "source.c", "-oprogram"]
    status, _, errors = ran(command, env=dict(os.environ, RECORD_CC=c))
    _, trace, notes = ran([os.path.join(RECORD, "run"), "--all", "./program"])
    calls = {line.split(" < ", 2)[-1] for line in trace.splitlines() if "|r(sorted[0])|" in line}
    wanted = {f"looks source.c:{line} < main source.c:16" for line in (7, 8, 9, 10, 11)}
    if status or calls != wanted:
        raise Wrong(f"the calls of a search are {sorted(calls)}, and not {sorted(wanted)}: {errors}{notes}")


def judge_late(c: str) -> None:
    """A library that a thread opens late has its lines, also if the program does not end by itself."""
    environment, folder = dict(os.environ, RECORD_CC=c), os.path.join(SOURCES, "late")
    library = ["-fPIC", "-shared", os.path.join(folder, "plugin.c"), "-Wl,--no-undefined,-z,defs", "-oplugin.so"]
    for arguments in (library, [os.path.join(folder, "main.c"), "-oprogram"]):
        status, _, errors = ran([os.path.join(RECORD, "cc"), "-O1", *arguments], env=environment)
        if status:
            raise Wrong(f"{arguments[-1]} is not linked: {errors[-600:]}")
    status, trace, errors = ran([os.path.join(RECORD, "run"), "--status", "./program", "crash"])
    places = {line.split("|", 2)[2] for line in trace.splitlines() if "plugged)" in line}
    if status != 134 or not places or not all(place.startswith("plugin.c:4 < touch") for place in places):
        raise Wrong(f"status {status}, and the places in a library that is opened late are {sorted(places)}: {errors}")


def judge_opening(c: str) -> None:
    """While a thread opens a library, and waits for its turn in the constructor, another makes threads. Both go on."""
    environment, folder = dict(os.environ, RECORD_CC=c), os.path.join(SOURCES, "late")
    library = ["-fPIC", "-shared", os.path.join(folder, "slow.c"), "-oslow.so"]
    for arguments in (library, [os.path.join(folder, "makes.c"), "-oprogram"]):
        status, _, errors = ran([os.path.join(RECORD, "cc"), "-O1", *arguments], env=environment)
        if status:
            raise Wrong(f"{arguments[-1]} is not linked: {errors[-600:]}")
    for seed in range(1, 6):
        command = [os.path.join(RECORD, "run"), "--yield", "2", "--seed", str(seed), "./program"]
        status, trace, errors = ran(["timeout", str(ENDLESS), *command])
        if status or not trace.endswith("recording|end(WHOLE)|\n") or not errors.startswith("8\n"):
            raise Wrong(f"threads beside one that opens a library: seed {seed}, status {status}: {errors}")


def judge_waves(c: str) -> None:
    """What the C library takes and gives back for threads, as they begin and are joined, is no variable of the
    trace."""
    with open("waves.c", "w", encoding="ascii") as source:
        source.write(WAVES)
    status, _, errors = ran(
        [os.path.join(RECORD, "cc"), "-O0", "waves.c", "-oprogram"], env=dict(os.environ, RECORD_CC=c)
    )
    if status:
        raise Wrong(f"waves.c is not compiled: {errors[-600:]}")
    for seed in SEEDS:
        _, trace, errors = ran([os.path.join(RECORD, "run"), "--seed", str(seed), "./program"])
        strange = [line for line in trace.splitlines() if "(heap:" in line]
        if "ended with status 0" not in errors or strange:
            raise Wrong(f"seed {seed}: blocks of the C library: {strange[:3]}: {errors}")


def judge_header(c: str) -> None:
    """A header that is compiled to be read faster is no program, and a program that reads it is recorded."""
    environment = dict(os.environ, RECORD_CC=c)
    with open("all.h", "w", encoding="ascii") as header, open("source.c", "w", encoding="ascii") as source:
        header.write("#include <pthread.h>\n")
        source.write('#include "all.h"\n' + LONG.replace("50000", "5"))
    for arguments in (["all.h"], ["-xc-header", "all.h", "-oother.gch"], ["source.c", "-oprogram"]):
        status, _, errors = ran([os.path.join(RECORD, "cc"), *arguments], env=environment)
        if status:
            raise Wrong(f"{arguments}: {errors[-600:]}")
    if not (os.path.exists("all.h.gch") and os.path.exists("other.gch") and os.path.exists("program")):
        raise Wrong(f"what is compiled is not there: {os.listdir()}")


def judge_own_names(c: str) -> None:
    """What one source of the program defines and another one uses is the program's, also if the recorder stands for a
    function of that name: another function, or a variable. So is what its library defines, and the `regcomp` of a
    library that the linker looks for."""
    sources = {"first.c": OWN_NAMES, "second.c": OTHER_NAMES, "third.c": LIBRARY_NAMES, "fourth.c": PATTERN_NAMES}
    for name, text in sources.items():
        with open(name, "w", encoding="ascii") as source:
            source.write(text)
    environment, cc = dict(os.environ, RECORD_CC=c), os.path.join(RECORD, "cc")
    for arguments in (["-c", "second.c"], ["-fPIC", "-shared", "third.c", "-olib.so"], PATTERNS):
        ran([cc, "-w", "-fno-builtin", *arguments], env=environment)
    arguments = ["first.c", "second.o", "./lib.so", "-L.", "-lpatterns", "-Wl,-rpath,.", "-oprogram"]
    status, _, errors = ran([cc, "-w", "-fno-builtin", *arguments], env=environment)
    _, trace, notes = ran([os.path.join(RECORD, "run"), "--all", "./program"])
    named = "(memmem.b)" in trace and "w(threads)" in trace and "w(ends[1])" in trace
    if status or not notes.startswith("47 3 9 texts 7\n") or not named or "ended with status 0" not in notes:
        raise Wrong(f"the program's own names are not its own: {errors}{notes}{trace}")


def judge_memory_names(c: str) -> None:
    """A variable in a frame has the name of its function, and one in mapped memory that grew where it is that of the
    memory."""
    with open("source.c", "w", encoding="ascii") as source:
        source.write(MEMORY_NAMES)
    ran([os.path.join(RECORD, "cc"), "-O0", "source.c", "-o", "program"], env=dict(os.environ, RECORD_CC=c))
    _, trace, errors = ran([os.path.join(RECORD, "run"), "--all", "./program"])
    names = set(re.findall(r"\|w\((.*)\)\|", trace))
    wanted = {"work:mine", "main:mine", "heap:source.c:20+5000", "sync:posted#1", "grown", "of_thread"}
    if names != wanted:
        raise Wrong(f"the names are {sorted(names)}, and not {sorted(wanted)}: {errors}")


def judge_regions(c: str, cxx: str) -> None:
    """The functions that a compiler makes of OpenMP's regions and tasks have the names of those around them, and of
    clang's library, whose orders the recorder does not know, it is said so."""
    with open("source.cpp", "w", encoding="ascii") as source:
        source.write(REGIONS)
    arguments = ["-fopenmp", "-O1", "source.cpp", "-o", "program"]
    environment = dict(os.environ, RECORD_CC=c, RECORD_CXX=cxx)
    status, _, errors = ran([os.path.join(RECORD, "c++"), *arguments], env=environment)
    if status and c == "clang":
        print("record/: OpenMP of clang is not tested, since its library is not here")
        return
    wanted = {"gcc": {"Grid::each(OpenMP)", "main(OpenMP)"}, "clang": {"(OpenMP)"}}[c]
    status, trace, errors = ran([os.path.join(RECORD, "run"), "--all", "--partial", "./program"])
    writes = [line for line in trace.splitlines() if "|w(sum)|" in line or "|w(other)|" in line]
    names = {line.split(" < ")[1].split(" ")[0] for line in writes}
    locks = {line.split("|")[1] for line in trace.splitlines() if "|acq(omp." in line}
    if c == "gcc" and locks != {"acq(omp.critical)", "acq(omp.critical:adding)"}:
        raise Wrong(f"the locks of critical sections are {sorted(locks)}")
    if status or names != wanted or ("a race in a region of OpenMP may be false" in errors) != (c == "clang"):
        raise Wrong(f"the functions of OpenMP are {sorted(names)}: {errors}")


def judge_few_files(c: str) -> None:
    """A low limit of open files does not end the recording."""
    compiled("mutex_kinds.c", os.path.join(RECORD, "cc"), "program", dict(os.environ, RECORD_CC=c))
    command = [
        "sh",
        "-c",
        'ulimit -n 64 && exec "$@"',
        "sh",
        os.path.join(RECORD, "run"),
        "--room",
        "200000",
        "./program",
    ]
    _, trace, errors = ran(command)
    with open("source.c", "w", encoding="ascii") as source:
        source.write(LONG)
    status, _, notes = ran(
        [os.path.join(RECORD, "cc"), "source.c", "-o", "program"], env=dict(os.environ, RECORD_CC=c)
    )
    _, _, long_errors = ran(command)
    if status or not trace or "left out" in errors or "left out" in long_errors:
        raise Wrong(f"with few files: {notes}{errors}{long_errors}")


def has_own_descriptors() -> bool:
    """Whether the system lets a thread have descriptors of its own: Linux 5.9 or newer."""
    ask = "import ctypes; print(ctypes.CDLL(None).syscall(436, 1000, 1001, 2))"
    return ran([sys.executable, "-c", ask])[1] == "0\n"


def judge_descriptors(c: str) -> None:
    """What the recorder opens meanwhile changes no number of a descriptor of the program: its thread beside those of
    the program has its own."""
    if not has_own_descriptors():
        print("record/: descriptors of the recorder are not tested, since a thread can't have its own here")
        return
    with open("source.c", "w", encoding="ascii") as source:
        source.write(DESCRIPTORS)
    status, _, notes = ran(
        [os.path.join(RECORD, "cc"), "source.c", "-o", "program"], env=dict(os.environ, RECORD_CC=c)
    )
    _, _, errors = ran([os.path.join(RECORD, "run"), "--all", "./program"])
    if status or not errors.startswith("a thread has its own\n"):
        raise Wrong(f"the recorder's descriptors are the program's: {notes}{errors}")


# Looks, for a minute at least, for a thread that has no more than one descriptor.
DESCRIPTORS = """#include <dirent.h>
#include <pthread.h>
#include <semaphore.h>
#include <stdio.h>
#include <unistd.h>
static sem_t end;
static volatile int x;
static void *work(void *p) { x++; while (sem_wait(&end)) {} return p; }
static int count(const char *path) {
    int n = 0;
    DIR *folder = opendir(path);
    if (!folder) return 99;
    for (struct dirent *d; (d = readdir(folder));) n += d->d_name[0] != '.';
    closedir(folder);
    return n;
}
static int is_there(void) {
    char path[300];
    int there = 0;
    DIR *tasks = opendir("/proc/self/task");
    for (struct dirent *d; tasks && (d = readdir(tasks));) {
        snprintf(path, sizeof path, "/proc/self/task/%s/fd", d->d_name);
        there |= d->d_name[0] != '.' && count(path) <= 1;
    }
    closedir(tasks);
    return there;
}
int main(void) {
    pthread_t t;
    int there = 0;
    sem_init(&end, 0, 0);
    pthread_create(&t, NULL, work, NULL);
    for (int k = 0; k < 6000 && !there; k++) there = is_there(), usleep(10000);
    puts(there ? "a thread has its own" : "no thread has its own");
    x++, sem_post(&end);
    return pthread_join(t, NULL);
}
"""

# Threads share a place in the stack of each, and one in memory that grew.
MEMORY_NAMES = """#define _GNU_SOURCE
#include <pthread.h>
#include <semaphore.h>
#include <stddef.h>
#include <sys/mman.h>
static int *volatile of_thread;
static char *grown;
static sem_t posted;
static void *work(void *p) {
    int mine = 1;
    of_thread = &mine;
    sem_post(&posted);
    ++*(int *)p, ++mine, ++grown[5000];
    return p;
}
int main(void) {
    pthread_t t;
    int mine = 2;
    sem_init(&posted, 0, 0);
    grown = mmap(NULL, 3 * 4096, PROT_READ | PROT_WRITE, MAP_PRIVATE | MAP_ANONYMOUS, -1, 0);
    munmap(grown + 4096, 2 * 4096);
    if (mremap(grown, 4096, 2 * 4096, 0) != grown) return 1;
    pthread_create(&t, 0, work, &mine);
    sem_wait(&posted);
    ++*of_thread, ++mine, ++grown[5000];
    return pthread_join(t, 0);
}
"""

# Names of the C library that are the program's own.
OWN_NAMES = """#include <pthread.h>
extern int printf(const char *, ...), strsep(int), strtok(void), regcomp(const char *);
extern const char *stpcpy;
extern struct { int a, b; } memmem;
static int threads, ends[2];
static void *work(void *p) { memmem.b++, threads++, ends[1]++; return p; }
int main(void) {
    pthread_t t;
    pthread_create(&t, 0, work, 0);
    memmem.b++, threads++, ends[1]++;
    pthread_join(t, 0);
    printf("%d %d %d %s %d\\n", strsep(5), memmem.b, strtok(), stpcpy, regcomp("7"));
    return 0;
}
"""
OTHER_NAMES = """static int base = 42;
int strsep(int n) { return n + base; }
struct { int a, b; } memmem = {0, 1};
const char *stpcpy = "texts";
"""
LIBRARY_NAMES = """static int nine = 9;
int strtok(void) { return nine; }
"""
# A library of regular expressions, and how it is compiled.
PATTERNS = ["-fPIC", "-shared", "fourth.c", "-olibpatterns.so"]
PATTERN_NAMES = """int regcomp(const char *pattern) { return *pattern - '0'; }
"""

# Regions in a function of a template in a class, and in main, and a task. Both threads read what the tasks write, so it
# is in the trace also if one thread runs both.
REGIONS = """int sum, other, seen;
struct Grid {
    template <class F> void each(F f) {
#pragma omp parallel num_threads(2)
        {
#pragma omp critical
            sum += f(1);
        }
    }
};
int main() {
    Grid().each([](int k) { return k; });
#pragma omp parallel num_threads(2)
    {
#pragma omp task
        {
#pragma omp critical(adding)
            other++;
        }
#pragma omp critical(adding)
        seen += other;
    }
    return sum + other != 4;
}
"""

# A thread writes what another one compares as it searches. The tree has one place, which is compared by each call but
# the first.
SEARCHES = """#include <pthread.h>
#include <search.h>
#include <stdlib.h>
static int sorted[1], one;
static int compare(const void *a, const void *b) { return *(const int *)a - *(const int *)b; }
static int looks(const void *key, size_t n, void *tree) {
    return bsearch(key, sorted, 1, sizeof one, compare) == NULL ||
           lfind(key, sorted, &n, sizeof one, compare) == NULL ||
           lsearch(key, sorted, &n, sizeof one, compare) == NULL ||
           tfind(key, &tree, compare) == NULL ||
           tdelete(key, &tree, compare) == NULL; }
static void *work(void *p) { sorted[0] = 0; return p; }
int main(void) {
    pthread_t t;
    void *tree = NULL;
    return pthread_create(&t, 0, work, 0) || !tsearch(sorted, &tree, compare) || looks(&one, 1, tree) ||
           pthread_join(t, 0);
}
"""

# More threads than the C library keeps stacks of; each gives its own blocks back.
WAVES = """#include <pthread.h>
#include <stdlib.h>
static volatile int x;
static void *work(void *p) {
    for (int n = 1; n < 24; n++) free(malloc(16 * n));
    return x++, p;
}
int main(void) {
    pthread_t t[50];
    for (int wave = 0; wave < 4; wave++) {
        for (int k = 0; k < 50; k++) pthread_create(&t[k], 0, work, 0);
        for (int k = 0; k < 50; k++) pthread_join(t[k], 0);
    }
    return 0;
}
"""

# More records than the first piece of the file has.
LONG = """#include <pthread.h>
static volatile int x;
static void *work(void *p) { for (int k = 0; k < 50000; k++) x++; return p; }
int main(void) {
    pthread_t t;
    pthread_create(&t, 0, work, 0);
    return pthread_join(t, 0);
}
"""


def more_cases(racebench: str, c: str, cxx: str | None) -> list[Case]:
    """Those that each compiler judges: the hooks are its own."""
    names = [name for name in EACH_COMPILER if cxx or name.endswith(".c")]
    return [(f"strangers/{name}, {c}", judge_stranger, (racebench, name, c, cxx)) for name in names]


def cases(racebench: str, c: str, cxx: str | None) -> list[Case]:
    names = sorted(name for name in os.listdir(FOLDER) if name.endswith((".c", ".cpp")))
    names = [name for name in names if (cxx or name.endswith(".c")) and (c == "gcc" or name not in OPENMP)]
    found = [(f"calls behind a jump, {c}", judge_calls), (f"a library that is opened late, {c}", judge_late)]
    found += [(f"calls in a search, {c}", judge_searches), (f"threads beside an opener, {c}", judge_opening)]
    found += [(f"threads in waves, {c}", judge_waves)]
    found += [(f"few open files, {c}", judge_few_files), (f"a header for later, {c}", judge_header)]
    found += [(f"descriptors of the recorder, {c}", judge_descriptors), (f"names of its own, {c}", judge_own_names)]
    found += [(f"names of memory, {c}", judge_memory_names)]
    strangers: list[Case] = []
    strangers += [(f"strangers/{name}, {c}", judge_stranger, (racebench, name, c, cxx)) for name in names]
    strangers.append((f"what is wrong with strangers, {c}", judge_defects, (racebench, c)))
    return strangers + [(name, judge, (c,)) for name, judge in found]
