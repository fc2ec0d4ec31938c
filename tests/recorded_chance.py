"""Judges record/ on programs made by chance: each race of triage is followed on the program, both threads stand at
their accesses of one memory, and every read on the way has the writer that it had in the recording.

What no other judge sees: an order that a program keeps and its trace does not have, so that a schedule is accepted
that no run can make.
"""

import contextlib
import os
import random
import re
import signal
import sys
import tempfile
from collections import Counter
from collections.abc import Callable, Iterator

from judging import Case, Wrong
from recorded_follow import RECORD, ran

if sys.path[0] != RECORD:
    sys.path.insert(0, RECORD)
import clocks
import following
import plans
import raw as raw_file

READS = tuple(raw_file.KINDS[name] for name in "READ ATOMIC_READ ATOMIC_UPDATE".split())
WRITES = tuple(raw_file.KINDS[name] for name in "WRITE ATOMIC_WRITE ATOMIC_UPDATE".split())
ALLOCATED, FREED = raw_file.KINDS["ALLOCATED"], raw_file.KINDS["FREED"]
PATIENCE, TIMEOUT = 60_000, 600
# The seeds of the programs that are always tried, and how many races they have at least. In the last one a read comes
# between the parts of a free.
FEW, LEAST_RACES = (7, 10, 16, 924734307), 40
# The same for programs of teams of OpenMP.
FEW_TEAMS, LEAST_OF_TEAMS = (6, 8, 51), 10

HEAD = """#include <pthread.h>
#include <semaphore.h>
#include <stdatomic.h>
#include <stdint.h>
#include <stdlib.h>
#include <sys/eventfd.h>
#include <threads.h>
#include <unistd.h>
static volatile int v[4], seen[8];
static atomic_int a[3];
static volatile int *h;
static pthread_mutex_t m[2] = {PTHREAD_MUTEX_INITIALIZER, PTHREAD_MUTEX_INITIALIZER}, f = PTHREAD_MUTEX_INITIALIZER;
static pthread_cond_t c = PTHREAD_COND_INITIALIZER;
static pthread_rwlock_t l = PTHREAD_RWLOCK_INITIALIZER;
static pthread_spinlock_t p;
static pthread_once_t o = PTHREAD_ONCE_INIT;
static pthread_barrier_t b;
static sem_t one, given;
static mtx_t x;
static int flags[4], ends[2], event;
static void once(void) { v[0] = 99; }
static void set(int k) { pthread_mutex_lock(&f); flags[k] = 1; pthread_cond_broadcast(&c); pthread_mutex_unlock(&f); }
void await(int k) { pthread_mutex_lock(&f); while (!flags[k]) pthread_cond_wait(&c, &f); pthread_mutex_unlock(&f); }
static void send(int to, size_t n) { uint64_t s = 1; if (write(to, &s, n) != (ssize_t)n) abort(); }
static void receive(int from, size_t n) { uint64_t s; if (read(from, &s, n) != (ssize_t)n) abort(); }
"""
MAIN = """int main(void) {
    pthread_t t[4];
    h = calloc(4, sizeof *h);
    pthread_barrier_init(&b, NULL, %(threads)d), pthread_spin_init(&p, 0), mtx_init(&x, mtx_plain);
    sem_init(&one, 0, 1), sem_init(&given, 0, 0);
    event = eventfd(0, EFD_SEMAPHORE);
    if (pipe(ends)) return 1;
    for (int k = 0; k < %(threads)d; k++) if (pthread_create(&t[k], NULL, work[k], NULL)) return 1;
    for (int k = 0; k < %(threads)d; k++) pthread_join(t[k], NULL);
    return 0;
}
"""
# What a thread does, AC and AD are accesses; T is its number.
STEPS = [
    "AC", "AC", "AC",
    "pthread_mutex_lock(&m[0]); AC AD pthread_mutex_unlock(&m[0]);",
    "pthread_mutex_lock(&m[1]); AC pthread_mutex_unlock(&m[1]);",
    "pthread_rwlock_rdlock(&l); AC AD pthread_rwlock_unlock(&l);",
    "pthread_rwlock_wrlock(&l); AC pthread_rwlock_unlock(&l);",
    "if (!pthread_rwlock_trywrlock(&l)) { AC pthread_rwlock_unlock(&l); } else { AD }",
    "sem_wait(&one); AC AD sem_post(&one);",
    "if (!sem_trywait(&one)) { AC sem_post(&one); } else { AD }",
    "if (!pthread_mutex_trylock(&m[0])) { AC pthread_mutex_unlock(&m[0]); } else { AD }",
    "pthread_spin_lock(&p); AC pthread_spin_unlock(&p);",
    "mtx_lock(&x); AC mtx_unlock(&x);",
    "pthread_once(&o, once); AC",
    "atomic_fetch_add(&a[0], 1);",
    "atomic_store_explicit(&a[1], T, memory_order_release);",
    "seen[T] = atomic_load_explicit(&a[1], memory_order_acquire);",
    "atomic_fetch_add_explicit(&a[2], 1, memory_order_relaxed);",
    "seen[T] = rand();",
    "close(dup(0)); AC",
]  # fmt: skip
# What one thread gives and another that has a higher number takes, so that nobody waits for ever.
GIVES = [
    ("AC sem_post(&given);", "sem_wait(&given); AC"), ("AC set(K);", "await(K); AC"),
    ("AC send(ends[1], 1);", "receive(ends[0], 1); AC"), ("AC send(event, 8);", "receive(event, 8); AC"),
]  # fmt: skip


def access(chance: random.Random, thread: int | str) -> str:
    place = chance.choice(
        ["v[%d]" % chance.randrange(4), "v[%d]" % chance.randrange(2), "h[%d]" % chance.randrange(3)]
    )
    return chance.choice([f"{place} = {chance.randrange(100)};", f"seen[{thread}] = {place};"])


def filled(chance: random.Random, step: str, thread: int, number: int) -> str:
    step = re.sub("A[CD]", lambda _: access(chance, thread), step)
    return re.sub(r"\bT\b", str(thread), re.sub(r"\bK\b", str(number), step))


def program(chance: random.Random) -> str:
    """A program in which no thread waits for ever, and whose branches hang on tries of locks alone."""
    threads = chance.randint(2, 4)
    bodies = [[chance.choice(STEPS) for _ in range(chance.randint(2, 6))] for _ in range(threads)]
    for number in range(chance.randint(0, 3)):
        first, second = sorted(chance.sample(range(threads), 2))
        give, take = chance.choice(GIVES)
        bodies[first].insert(chance.randint(0, len(bodies[first])), give.replace("K", str(number)))
        bodies[second].append(take.replace("K", str(number)))
    if chance.random() < 0.3:
        for body in bodies:
            body += ["pthread_barrier_wait(&b);", chance.choice(STEPS)]
    if chance.random() < 0.3:
        bodies[chance.randrange(threads)].append("free((void *)h);")
    lines = [HEAD]
    for thread, body in enumerate(bodies):
        steps = "".join(f"    {filled(chance, step, thread, 0)}\n" for step in body)
        lines.append(f"static void *work{thread}(void *none) {{\n{steps}    return none;\n}}\n")
    lines.append("static void *(*work[])(void *) = {%s};\n" % ", ".join(f"work{thread}" for thread in range(threads)))
    return "".join(lines) + MAIN % {"threads": threads}


TEAM_HEAD = """#include <omp.h>
#include <stdlib.h>
static volatile int v[4], seen[8];
static volatile int *h;
static omp_lock_t l;
int main(void) {
    h = calloc(4, sizeof *h);
    omp_init_lock(&l);
"""
# What all threads of a team come to, with accesses as above; KIND is a schedule.
TEAM_STEPS = [
    "AC", "AC", "AC AD",
    "#pragma omp critical\n{ AC AD }",
    "#pragma omp critical(other)\n{ AC }",
    "omp_set_lock(&l); AC omp_unset_lock(&l);",
    "if (omp_test_lock(&l)) { AC omp_unset_lock(&l); }",
    "#pragma omp barrier",
    "#pragma omp single\n{ AC AD }",
    "#pragma omp single nowait\n{ AC }",
    "#pragma omp master\n{ AC }",
    "#pragma omp for schedule(KIND)\nfor (int i = 0; i < 7; i++) { v[i & 3] = i; AC }",
    "#pragma omp for schedule(KIND) nowait\nfor (int i = 0; i < 5; i++) { AC h[i & 3]++; }",
    "#pragma omp for ordered schedule(KIND)\nfor (int i = 0; i < 5; i++) { AC\n#pragma omp ordered\n{ AD } }",
    "#pragma omp sections\n{\n#pragma omp section\n{ AC }\n#pragma omp section\n{ AD }\n#pragma omp section\n{ AC }\n}",
    "#pragma omp sections nowait\n{\n#pragma omp section\n{ AC }\n#pragma omp section\n{ AD }\n}",
    "#pragma omp single copyprivate(own)\nown = v[0];\nv[own & 3] = own;",
    "#pragma omp atomic\nv[0]++;",
    "#pragma omp parallel num_threads(2)\n{ AC }",
]  # fmt: skip
KINDS = ["static", "static, 1", "dynamic", "dynamic, 2", "guided"]


def team_program(chance: random.Random) -> str:
    """A program of some teams of OpenMP, all of whose threads come to the same constructs."""
    lines = [TEAM_HEAD]
    for _ in range(chance.randint(1, 2)):
        lines.append(
            f"#pragma omp parallel num_threads({chance.randint(2, 4)})\n{{ int own = 0, T = omp_get_thread_num(); "
            f"(void)own;\n"
        )
        for _ in range(chance.randint(3, 7)):
            step = re.sub("A[CD]", lambda _: access(chance, "T"), chance.choice(TEAM_STEPS))
            lines.append(step.replace("KIND", chance.choice(KINDS)) + "\n")
        lines.append("}\n")
    return "".join(lines) + "    return 0;\n}\n"


# A record by its thread and its clock.
Who = tuple[int, int]


def writers(data: bytes) -> dict[Who, Who | None]:
    """For each record its thread and clock, and for a read those of the last write to its first byte; a free writes
    its block."""
    head = raw_file.Head(data)
    last: dict[int, Who] = {}
    found: dict[Who, Who | None] = {}
    sizes: dict[int, int] = {}
    for _, record in raw_file.all_records(data, head):
        who = record.thread, record.pos
        there = range(record.at, record.at + min(record.size, 4096))
        if record.kind == ALLOCATED:
            sizes[record.at] = len(there)
            for byte in there:
                last.pop(byte, None)
        if record.kind == FREED:
            last.update(dict.fromkeys(range(record.at, record.at + sizes.get(record.at, 0)), who))
        if record.kind in READS:
            found[who] = last.get(record.at)
        if record.kind in WRITES:
            last.update(dict.fromkeys(there, who))
    return found


@contextlib.contextmanager
def quiet() -> Iterator[None]:
    """What a program says of its broken heap is not shown."""
    kept = os.dup(2)
    with open(os.devnull, "wb") as nowhere:
        os.dup2(nowhere.fileno(), 2)
    try:
        yield
    finally:
        os.dup2(kept, 2)
        os.close(kept)


def follow(clock: clocks.Clock, command: list[str], racebench: str, pair: tuple[str, str]) -> tuple[str, int]:
    """What is wrong with a race that is followed; nothing if all is right. And how many reads were compared."""
    witness, _ = ran([racebench, "witness", "program.std", *pair])
    with open("witness.txt", "w", encoding="utf-8") as file:
        file.write(witness)
    with open("witness.txt", encoding="utf-8") as file:
        plan = plans.Plan(clock, plans.read_witness(file, clock), tuple(map(int, pair)), PATIENCE)
    with tempfile.TemporaryFile() as records, quiet():
        settings = following.Settings(command, TIMEOUT, records=records)
        runner, order = following.Runner(), plans.ORDERS["first"]
        result = following.followed(runner, plan, order, 1, settings, sys.stderr.buffer)
        for number in (signal.SIGINT, signal.SIGTERM):
            signal.signal(number, signal.SIG_DFL)
        if not result.stands or not result.is_same_memory:
            return f"the race {' '.join(pair)} does not stand (step {result.step}, reason {result.why}):\n{witness}", 0
        records.seek(0)
        there = writers(raw_file.compact(records))
    # Accesses between whose parts others come are done whole, and that is told.
    if plan.split:
        return "", 0
    before, reads, ends = writers(clock.raw), 0, {clock.record_of[event] for event in plan.ends}
    for event in plan.events:
        if clock.record_of[event] in ends:
            continue
        record = clock.record(event)
        who = record.thread, record.pos
        if record.kind in READS and who in before:
            reads += 1
            if there.get(who, "none") != before[who]:
                return (
                    f"event {event} of the race {' '.join(pair)} reads what {there.get(who, 'none')} wrote, and not "
                    f"{before[who]}",
                    reads,
                )
    return "", reads


def judge(racebench: str, seed: int, tally: Counter[str], make: Callable[[random.Random], str] = program) -> None:
    """A program, recorded with two seeds, and all of its races."""
    with open("program.c", "w", encoding="ascii") as file:
        file.write(make(random.Random(seed)))
    ran(
        [
            os.path.join(RECORD, "cc"),
            "-O1",
            "-g",
            *(["-fopenmp"] if make is team_program else []),
            "program.c",
            "-o",
            "program",
        ]
    )
    for run in range(2):
        arguments = ["--seed", str(seed + run), "--yield", "5", "--clock", "program.clock", "./program"]
        trace, _ = ran([os.path.join(RECORD, "run"), *arguments], None)
        with open("program.std", "w", encoding="utf-8") as file:
            file.write(trace)
        tally["recordings"] += 1
        if not trace:
            continue
        clock = clocks.Clock("program.clock")
        printed, _ = ran([racebench, "triage", "program.std"])
        for pair in re.findall(r"^race (\d+) (\d+) ", printed, re.MULTILINE):
            why, reads = follow(clock, ["./program"], racebench, pair)
            if why:
                raise Wrong(f"program by chance, seed {seed}, --seed {seed + run} --yield 5: {why}")
            tally["races"] += 1
            tally["reads"] += reads


def judge_few(racebench: str) -> None:
    """Some programs, the same in each run of the tests."""
    tally: Counter[str] = Counter()
    for seed in FEW:
        judge(racebench, seed, tally)
    if tally["races"] < LEAST_RACES:
        raise Wrong(f"programs by chance have {tally['races']} races alone: {dict(tally)}")


def judge_teams(racebench: str) -> None:
    """The same of programs of OpenMP."""
    tally: Counter[str] = Counter()
    for seed in FEW_TEAMS:
        judge(racebench, seed, tally, team_program)
    if tally["races"] < LEAST_OF_TEAMS:
        raise Wrong(f"programs of OpenMP by chance have {tally['races']} races alone: {dict(tally)}")


def cases(racebench: str) -> list[Case]:
    return [("programs by chance", judge_few, (racebench,)), ("teams by chance", judge_teams, (racebench,))]


def soak(racebench: str, first: int, programs: int) -> int:
    """This many programs; how many differ from their recordings."""
    tally: Counter[str] = Counter()
    wrong = 0
    top = os.getcwd()
    for seed in range(first, first + programs):
        with tempfile.TemporaryDirectory() as folder:
            os.chdir(folder)
            try:
                judge(racebench, seed, tally)
                judge(racebench, seed, tally, team_program)
            except Wrong as why:
                wrong += 1
                print(why, flush=True)
            os.chdir(top)
    print(
        f"soak: {programs} programs by chance and as many of OpenMP, {tally['recordings']} recordings, "
        f"{tally['races']} races stood, "
        f"{tally['reads']} reads had their writers; {wrong} programs did not"
    )
    return 1 if wrong or not tally["reads"] else 0
