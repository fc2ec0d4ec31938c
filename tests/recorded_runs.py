"""Judges how record/ compiles and runs: a seed fixes a run, an ending is reported as it was, and a recording without
hooks never looks green.

What no other judge sees: recordings of one seed that differ, a program without hooks whose trace has no race, and
files that are left.
"""

import functools
import os
import re
import shutil
import signal
import subprocess
import sys
import tempfile
import time
from collections.abc import Callable, Mapping, Sequence

import raw_words
from judging import Case, Wrong
from recorded_places import AGAIN, PATIENCE

TOP = os.path.dirname(os.path.dirname(os.path.abspath(__file__)))
RECORD = os.path.join(TOP, "record")
SOURCES = os.path.join(TOP, "tests", "recorded")
# Recordings of each kind of synchronization.
RUNS = 10
# The kind whose answers are the world's: runtime/format.h.
ANSWER = 16

COMPILED_ONCE = "record: the recorder is compiled, once\n"
ONE_THREAD = "recording|begin(RECORDED)|\nrecording|end(LEFT OUT 0 FROM 0: ONE THREAD)|\n"
TWO_THREADS = """#include <pthread.h>
#include <stdlib.h>
static int x;
static void *work(void *p) { x++; return p; }
int main(int count, char **words) {
    pthread_t id;
    if (pthread_create(&id, 0, work, 0)) return 1;
    x++, pthread_join(id, 0);
    if (count > 1) abort();
    return 7;
}
"""


# The words of a record; those that a clock answered have no answer here.
Record = tuple[int, ...]


def ran(command: Sequence[str], wanted: int | None = 0, env: Mapping[str, str] | None = None) -> tuple[str, str]:
    done = subprocess.run(command, capture_output=True, timeout=PATIENCE, check=False, env=env)
    out, errors = done.stdout.decode(errors="replace"), done.stderr.decode(errors="replace")
    if wanted is not None and done.returncode != wanted:
        raise Wrong(f"{' '.join(command)}: status {done.returncode}, and not {wanted}: {errors[:600]}")
    return out, errors


def compiled(text: str, *options: str, to: str = "program", by: str = "cc", wanted: int = 0) -> tuple[str, str]:
    with open("source.c", "w", encoding="ascii") as source:
        source.write(text)
    return ran([os.path.join(RECORD, by), *options, "source.c", "-o", to], wanted)


def recorded(*arguments: str, wanted: int = 0) -> tuple[str, str]:
    return ran([os.path.join(RECORD, "run"), *arguments], wanted)


def raw_records(command: Sequence[str], seed: int) -> list[Record]:
    """The records of a run in which no thread lost its turn by force, if a busy machine lets one of some runs be so."""
    for _ in range(AGAIN):
        records, was_forced = raw_run(command, seed)
        if not was_forced:
            break
    return records


def raw_run(command: Sequence[str], seed: int) -> tuple[list[Record], int]:
    """The records of a run, without its trace: for each its thread, clock, kind and place, and the rest if no clock
    answered it. Also how many turns were taken by force."""
    with tempfile.TemporaryFile() as file:
        surroundings = dict(
            os.environ,
            RACEBENCH_RECORD=f"/proc/{os.getpid()}/fd/{file.fileno()}",
            RACEBENCH_RECORD_SEED=str(seed),
            RACEBENCH_RECORD_YIELD="5",
            RACEBENCH_RECORD_ROOM="65536",
        )
        ran(["setarch", "-R", *command], env=surroundings)
        head = raw_words.WORDS.unpack(file.read(raw_words.WORDS.size))
        file.seek(head[raw_words.WORDS_AT])
        rows = list(raw_words.rows(file.read(8 * head[raw_words.USED_AT]), head[raw_words.USED_AT]))
    records = [row if row[7] != ANSWER else row[1:3] + row[6:] for row in rows]
    return records, head[raw_words.FORCED_AT]


def judge_same_runs(c: str) -> None:
    """The same seed gives the same records, for each kind of synchronization; and another seed can give others."""
    ran(
        [os.path.join(RECORD, "cc"), "-O1", os.path.join(SOURCES, "kinds.c"), "-o", "kinds"],
        env=dict(os.environ, RECORD_CC=c),
    )
    kinds = ran(["./kinds"])[0].split()
    differ = sum(is_run_of_its_seed(kind, functools.partial(raw_records, ("./kinds", kind))) for kind in kinds)
    if len(kinds) < 22 or differ < len(kinds) // 2:
        raise Wrong(f"of {len(kinds)} kinds {differ} differ by another seed")


def is_run_of_its_seed(name: str, record: Callable[[int], object]) -> bool:
    """Ten recordings of a seed are one; whether another seed gives another one."""
    first = record(1)
    others = sum(record(1) != first for _ in range(RUNS - 1))
    if not first or others:
        raise Wrong(f"{name}: {others} of {RUNS - 1} recordings differ from the first, of one seed")
    return record(2) != first


def undisturbed(*arguments: str) -> str:
    """The trace of a run in which no thread lost its turn by force, if a busy machine lets one of some runs be so."""
    for _ in range(AGAIN):
        trace, errors = recorded(*arguments)
        if ", 0 taken by force" in errors:
            break
    return trace


def judge_same_teams(c: str) -> None:
    """The same of OpenMP, by the traces: where the library's threads have their stacks is the system's choice."""
    if c != "gcc":
        return
    ran([os.path.join(RECORD, "cc"), "-O1", "-fopenmp", os.path.join(SOURCES, "teams.c"), "-o", "teams"])
    if not is_run_of_its_seed("teams.c", lambda seed: undisturbed("--seed", str(seed), "./teams")):
        raise Wrong("teams.c is one recording with both seeds")


def judge_ends(c: str) -> None:
    """The ending of the program is always printed, and its status is passed on with `--status`."""
    compiled(TWO_THREADS, by="cc")
    for has_status in (False, True):
        out, errors = recorded(*["--status"] * has_status, "./program", wanted=7 * has_status)
        if "the program ended with status 7" not in errors or out.count("\n") < 6:
            raise Wrong(f"a program that ended with 7: {errors}{out}")
    out, errors = recorded("--status", "./program", "crash", wanted=128 + signal.SIGABRT)
    if "ended by signal 6 (SIGABRT)" not in errors or "|w(x)|" not in out:
        raise Wrong(f"a program that crashed: {errors}{out}")
    compiled("int main(void) { return 0; }\n", to="alone")
    out, errors = recorded("./alone", wanted=1)
    if out != ONE_THREAD or "the program ended with status 0" not in errors:
        raise Wrong(f"a program without a second thread: {out}{errors}")


def judge_hooks(c: str) -> None:
    """Link-time optimization takes no hooks out, other sanitizers are refused, and a program without hooks is not
    recorded."""
    compiled(TWO_THREADS, "-flto", "-O2", by="cc")
    out, _ = recorded("--frames", "0", "./program")
    if "|w(x)|source.c:4" not in out:
        raise Wrong(f"with -flto nothing of source.c is in the trace: {out}")
    for options in (["-fsanitize=address"], ["-fsanitize=thread,memory"], ["-c", "-fsanitize=leak"]):
        _, errors = compiled(TWO_THREADS, *options, by="cc", to="refused", wanted=1)
        if "can't be recorded with -fsanitize=" not in errors or os.path.exists("refused"):
            raise Wrong(f"{' '.join(options)}: {errors}")
    ran([c, "-c", "source.c", "-o", "plain.o"])
    ran([os.path.join(RECORD, "cc"), "plain.o", "-o", "program"], env=dict(os.environ, RECORD_CC=c))
    out, errors = recorded("./program", wanted=1)
    if out or "no part of the program has hooks" not in errors:
        raise Wrong(f"a program without hooks: {errors}{out}")


def judge_arguments(c: str) -> None:
    """A source is known by -x too, in one argument or in two; arguments come from a file; and an option that chooses
    the linker is for the link alone, since build systems read it in what the compiler prints of its calls."""
    environment = dict(os.environ, RECORD_CC=c)
    with open("source.txt", "w", encoding="ascii") as source:
        source.write(TWO_THREADS)
    with open("words", "w", encoding="ascii") as file:
        file.write("-O1 '-DNAME=\"a b\"'\n-x c source.txt")
    for options in (["-xc", "source.txt"], ["-x", "c", "source.txt", "-x", "none"], ["@words"], ["-O2", "-xc", "-"]):
        subprocess.run(
            [os.path.join(RECORD, "cc"), *options, "-o", "program"],
            input=TWO_THREADS.encode(),
            check=True,
            timeout=PATIENCE,
            env=environment,
        )
        if "|w(x)|" not in recorded("./program")[0]:
            raise Wrong(f"compiled by {options}: nothing of x is recorded")
    with open("words", "w", encoding="ascii") as file:
        file.write("-DNAME='a\n")
    _, errors = ran([os.path.join(RECORD, "cc"), "@words", "source.c"], wanted=1, env=environment)
    if errors != "record: words: no closing quotation\n":
        raise Wrong(f"a file of words that ends in a quote: {errors}")
    compiled(TWO_THREADS, wanted=0)
    _, errors = ran([os.path.join(RECORD, "cc"), "source.c", "-o", "program", "-fuse-ld=bfd", "-v"], env=environment)
    chosen = next((word for word in errors.split() if "-fuse-ld" in word), "")
    if c == "gcc" and chosen != "'-fuse-ld=bfd'":
        raise Wrong(f"the choice of the linker is no word by itself: {chosen}")


# Each command, how its usage ends, and what it lacks if it is called without words.
USAGES = [
    ("run", " PROGRAM ...", "PROGRAM"),
    ("follow", " CLOCK A B ...", "CLOCK, A, B"),
    ("confirm", " TRACE CLOCK ...", "TRACE, CLOCK"),
    ("reported", " REPORT TRACE", "REPORT, TRACE"),
]


def judge_usages(_: str) -> None:
    """The usage of a command is whole, and an error names the arguments of the usage."""
    for name, usage, lacking in USAGES:
        _, errors = ran([os.path.join(RECORD, name)], wanted=2)
        if not errors.endswith(f"{usage}\nrecord/{name}: error: the following arguments are required: {lacking}\n"):
            raise Wrong(f"record/{name} without words: {errors}")


# Numbers that the recorder cannot take, with its message for each.
NUMBERS = [
    ("--yield", 0, "from 1 to 4294967295"),
    ("--yield", 1 << 32, "from 1 to 4294967295"),
    ("--seed", -1, "from 0 to 18446744073709551615"),
    ("--seed", 1 << 64, "from 0 to 18446744073709551615"),
    ("--room", 0, "from 1 to 68719476736"),
    ("--room", 10**20, "from 1 to 68719476736"),
    ("--frames", 9, "from 0 to 8"),
    ("--max", -1, "from 0 to 18446744073709551615"),
]


def judge_numbers(_: str) -> None:
    """A number that is too small or too large is refused, and nothing is run."""
    for name, number, reason in NUMBERS:
        errors = ran([os.path.join(RECORD, "run"), f"{name}={number}", "false"], 2)[1]
        if not errors.endswith(f"record/run: error: {name} is {reason}\n"):
            raise Wrong(f"{name}={number}: {errors}")


def judge_closed(_: str) -> None:
    """Without standard output nothing is run, and a line says why."""
    compiled(TWO_THREADS)
    for command in (["run", "./program"], ["reported", "report", "trace"]):
        full_command = [os.path.join(RECORD, command[0]), *command[1:]]
        done = subprocess.run(
            ["sh", "-c", 'exec "$@" >&-', "sh", *full_command], capture_output=True, timeout=PATIENCE, check=False
        )
        if (done.returncode, done.stderr) != (1, f"record/{command[0]}: standard output is closed\n".encode()):
            raise Wrong(f"{command} without standard output: {done.returncode} {done.stderr!r}")


def judge_language(_: str) -> None:
    """A link of C++ by the compiler of C fails, and the other compiler is named. A fault of a program in C names
    none."""
    text = "#include <thread>\nint main() { std::thread([] {}).join(); return 0; }\n"
    with open("source.cpp", "w", encoding="ascii") as source:
        source.write(text)
    _, errors = ran([os.path.join(RECORD, "cc"), "source.cpp", "-o", "program"], wanted=1)
    if errors.splitlines()[-1] != "record: for C++ use record/c++":
        raise Wrong(f"C++ by record/cc: {errors}")
    _, errors = compiled("int main(void) { return other(); }\n", wanted=1)
    if "record: for C++" in errors:
        raise Wrong(f"a fault in C: {errors}")
    _, errors = ran(
        [os.path.join(RECORD, "cc"), "source.c", "-o", "program"],
        wanted=1,
        env=dict(os.environ, RECORD_CC="no-compiler"),
    )
    if errors != "record: no-compiler: No such file or directory; RECORD_CC and RECORD_CXX name the compilers\n":
        raise Wrong(f"a compiler that is not here: {errors}")


FULL_DISK = """mount -t tmpfs -o size=%s none small 2>/dev/null || exit 99
TMPDIR=$PWD/small exec %s ./program"""


def judge_full_disk(c: str) -> None:
    """A folder without room for the records leads to a message, and no empty trace is written."""
    compiled(TWO_THREADS, by="cc")
    os.mkdir("small")
    command = FULL_DISK % ("64k", os.path.join(RECORD, "run"))
    done = subprocess.run(
        ["unshare", "--map-root-user", "--mount", "sh", "-c", command],
        capture_output=True,
        check=False,
        timeout=PATIENCE,
    )
    if done.returncode == 99 or b"unshare" in done.stderr:
        print("record/: a full disk is not tested, since no small one can be mounted here")
        return
    errors = done.stderr.decode(errors="replace")
    if done.returncode != 1 or done.stdout or "has no room" not in errors or "Traceback" in errors:
        raise Wrong(f"a full disk: status {done.returncode}: {errors}{done.stdout.decode(errors='replace')}")


def judge_killed(c: str) -> None:
    """A run that is killed leaves neither a file nor its program."""
    compiled('#include <unistd.h>\nint main(void) { write(1, "on\\n", 3); for (;;) pause(); }\n')
    os.mkdir("records")
    command = [os.path.join(RECORD, "run"), "./program"]
    started = subprocess.Popen(
        command,
        stdout=subprocess.DEVNULL,
        stderr=subprocess.PIPE,
        env=dict(os.environ, TMPDIR=os.path.abspath("records")),
    )
    assert started.stderr
    started.stderr.readline()
    started.kill()
    started.wait()
    end = time.monotonic() + PATIENCE
    here = ["the program"]
    while here and time.monotonic() < end:
        time.sleep(0.1)
        here = [pid for pid in filter(str.isdigit, os.listdir("/proc")) if is_ours(pid)]
    if here or os.listdir("records"):
        raise Wrong(f"a killed run leaves {os.listdir('records')} and the processes {here}")
    started.stderr.close()


def judge_group(c: str) -> None:
    """A signal to the whole group of processes, as `timeout` sends it, ends the program and not what works up its
    records."""
    compiled(
        TWO_THREADS.replace("abort();", 'puts("on"), fflush(0), pause();').replace(
            "<stdlib.h>", "<stdio.h>\n#include <unistd.h>"
        )
    )
    command = [os.path.join(RECORD, "run"), "./program", "waits"]
    started = subprocess.Popen(command, stdout=subprocess.PIPE, stderr=subprocess.PIPE, start_new_session=True)
    assert started.stderr
    started.stderr.readline()
    for _ in range(2):
        os.killpg(started.pid, signal.SIGTERM)
        time.sleep(0.05)
    out, errors = started.communicate(timeout=PATIENCE)
    if b"ended by signal 15 (SIGTERM)" not in errors or b"recorded" not in errors or out.count(b"\n") < 6:
        raise Wrong(f"a group that is ended: {errors!r}{out!r}")


# Has record/running.py run a program, and sends it a signal before it comes to anything else. A caller such as `nohup`
# may have SIGHUP ignored, and then the program would ignore it too.
AT_ONCE = """import os, signal, subprocess, sys
signal.signal(signal.SIGHUP, signal.SIG_DFL)
sys.path.insert(0, sys.argv[1])
import running
class Started(subprocess.Popen):
    def __init__(self, *words, **more):
        super().__init__(*words, **more)
        os.kill(os.getpid(), int(sys.argv[2]))
subprocess.Popen = Started
print(*running.run(sys.argv[3:], dict(os.environ), None))
"""


def judge_at_once(_: str) -> None:
    """A signal that comes as soon as the program has begun is passed on, and a key ends the program alone."""
    for number, command, ended in (
        (signal.SIGTERM, ["sleep", str(PATIENCE)], -signal.SIGTERM),
        (signal.SIGHUP, ["sleep", str(PATIENCE)], -signal.SIGHUP),
        (signal.SIGINT, ["sh", "-c", "exit 7"], 7),
        (signal.SIGQUIT, ["sh", "-c", "exit 7"], 7),
    ):
        out, errors = ran([sys.executable, "-c", AT_ONCE, RECORD, str(int(number)), *command], wanted=None)
        if out != f"{ended} False\n":
            raise Wrong(f"signal {number} at once: {out}{errors}")


def is_ours(pid: str) -> bool:
    try:
        return os.readlink(f"/proc/{pid}/exe").startswith(os.path.abspath("program"))
    except OSError:
        return False


def judge_once(c: str) -> None:
    """The recorder is compiled once, and a line says so, also if two clones are called at once."""
    surroundings = dict(os.environ, XDG_CACHE_HOME=os.path.abspath("cache"))
    with open("source.c", "w", encoding="ascii") as source:
        source.write(TWO_THREADS)
    shutil.copytree(RECORD, "clone", ignore=shutil.ignore_patterns("__pycache__"))
    calls = [
        subprocess.Popen(
            [os.path.join(record, "cc"), "source.c", "-o", name], env=surroundings, stderr=subprocess.PIPE, text=True
        )
        for name, record in (("first", RECORD), ("second", "clone"))
    ]
    lines = [line for call in calls for line in call.communicate(timeout=PATIENCE)[1].splitlines()]
    kept = sorted(os.listdir(os.path.join("cache", "racebench")))
    forms = [re.sub(r"-[0-9a-f]+\.", ".", name) for name in kept]
    passes = [name.removesuffix("_pass.so") for name in forms if name.endswith("_pass.so")]
    if forms != [*(f"{name}_pass.so" for name in passes), "recorder.o"] or passes not in ([], ["gcc"], ["clang"]):
        raise Wrong(f"the recorder was not kept: {kept}")
    wanted = sorted([COMPILED_ONCE.strip(), *(f"record: the pass of {name} is compiled, once" for name in passes)])
    if sorted(lines) != wanted or any(call.returncode for call in calls):
        raise Wrong(f"two calls of record/cc say {lines}")


JUDGES = [
    ("ten recordings of one seed", judge_same_runs),
    ("ten recordings of OpenMP", judge_same_teams),
    ("how programs end", judge_ends),
    ("hooks", judge_hooks),
    ("words of a compiler", judge_arguments),
    ("a full disk", judge_full_disk),
    ("a killed run", judge_killed),
    ("a group that is ended", judge_group),
    ("a signal at once", judge_at_once),
    ("the recorder is compiled once", judge_once),
    ("C++ by the compiler of C", judge_language),
    ("usages", judge_usages),
    ("numbers", judge_numbers),
    ("no standard output", judge_closed),
]


def cases(c: str) -> list[Case]:
    return [(f"{name}, {c}", functools.partial(judge, c), ()) for name, judge in JUDGES]
