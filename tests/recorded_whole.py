"""Judges what the first and the last line of a trace say: whether the recording is whole, and what was left out.

What no other judge sees: a trace that looks whole and lacks a child process, a library, an object without hooks or the
end of the run.
"""

import os
import re
import shutil
import subprocess
from collections.abc import Sequence

from judging import Case, Wrong
from recorded_places import PATIENCE, RECORD, ran

# Two threads that race, and what else the program does.
PROGRAM = """#define _GNU_SOURCE
#include <pthread.h>
#include <signal.h>
#include <spawn.h>
#include <stdio.h>
#include <stdlib.h>
#include <string.h>
#include <sys/syscall.h>
#include <sys/wait.h>
#include <unistd.h>
extern char **environ;
static volatile int hits;
static void *work(void *p) { for (int k = 0; k < 20; k++) hits++; return p; }
static void two(void) {
    pthread_t one, other;
    pthread_create(&one, 0, work, 0), pthread_create(&other, 0, work, 0);
    pthread_join(one, 0), pthread_join(other, 0);
}
static void child(int how) {
    pid_t p = how ? vfork() : fork();
    if (!p) execl("/bin/true", "true", (char *)0), _exit(1);
    waitpid(p, 0, 0);
}
int main(int count, char **words) {
    const char *what = count > 1 ? words[1] : "";
    if (strcmp(what, "alone")) two();
    if (!strcmp(what, "fork")) { pid_t p = fork(); if (!p) _exit(0); waitpid(p, 0, 0); }
    if (!strcmp(what, "exec")) child(0);
    if (!strcmp(what, "vfork")) child(1);
    if (!strcmp(what, "failed")) execl("/no/such/program", "it", (char *)0);
    if (!strcmp(what, "becomes")) execlp("true", "true", (char *)0);
    if (!strcmp(what, "again")) execl(words[0], words[0], (char *)0);
    if (!strcmp(what, "system")) return system("true");
    if (!strcmp(what, "popen")) return pclose(popen("true", "r"));
    if (!strcmp(what, "spawn")) {
        char *own[] = {"true", 0};
        pid_t p;
        posix_spawn(&p, "/bin/true", 0, 0, own, environ), waitpid(p, 0, 0);
    }
    if (!strcmp(what, "twin")) {
        char *own[] = {words[0], 0};
        pid_t p;
        posix_spawn(&p, words[0], 0, 0, own, environ), waitpid(p, 0, 0);
    }
    if (!strcmp(what, "raw")) { pid_t p = syscall(SYS_fork); if (!p) syscall(SYS_exit, 0); waitpid(p, 0, 0); }
    if (!strcmp(what, "killed")) raise(SIGKILL);
    if (!strcmp(what, "crash")) abort();
    return 0;
}
"""
# The options, the word, and what the last line says.
CAUSES: list[tuple[list[str], str, str]] = [
    ([], "", r"WHOLE"),
    ([], "failed", r"WHOLE"),
    ([], "fork", r"LEFT OUT 1 FROM 0: FORK"),
    ([], "exec", r"LEFT OUT 1 FROM 0: EXEC"),
    ([], "vfork", r"LEFT OUT 1 FROM 0: EXEC"),
    ([], "becomes", r"LEFT OUT 1 FROM 0: EXEC"),
    ([], "system", r"LEFT OUT 1 FROM 0: EXEC"),
    ([], "popen", r"LEFT OUT 1 FROM 0: EXEC"),
    ([], "spawn", r"LEFT OUT 1 FROM 0: EXEC"),
    ([], "again", r"LEFT OUT 1 FROM 0: EXEC"),
    ([], "twin", r"LEFT OUT 1 FROM 0: EXEC"),
    ([], "raw", r"LEFT OUT 1 FROM 0: FORK"),
    ([], "killed", r"LEFT OUT 0 FROM 84: KILLED"),
    ([], "crash", r"LEFT OUT 0 FROM 84: KILLED"),
    (["--max", "10"], "", r"LEFT OUT 74 FROM 10: MAX"),
    (["--room", "50"], "", r"LEFT OUT [1-9]\d* FROM \d+: ROOM"),
    (["--from", "10"], "", r"LEFT OUT 10 FROM 0: FROM"),
    (["--only", "other.c"], "", r"LEFT OUT 1 FROM 0: ONLY"),
]
LIBRARY = "int twice(int n) { return 2 * n; }\n"
USER = PROGRAM.replace("hits++;", "hits = twice(hits) - hits + 1;")
USER = USER.replace("extern char", "int twice(int n);\nextern char")
# Opens each library that is named, calls it and closes it, and ends without the end of the recorder.
OPENER = PROGRAM.replace(
    "int main(int count, char **words) {",
    """#include <dlfcn.h>
static int use(const char *path) {
    void *library = dlopen(path, RTLD_NOW);
    int (*twice)(int) = dlsym(library, "twice"), n = twice(1);
    return dlclose(library) + n;
}
int main(int count, char **words) {
    two();
    for (int k = 1; k < count; k++) use(words[k]);
    _exit(0);
""",
)
OPENED = {
    "hooked": r"WHOLE",
    "one": r"LEFT OUT 1 FROM 0: LIBRARY",
    "one one": r"LEFT OUT 1 FROM 0: LIBRARY",
    "one other": r"LEFT OUT 2 FROM 0: LIBRARY",
    "hooked one hooked": r"LEFT OUT 1 FROM 0: LIBRARY",
    "one hooked other one": r"LEFT OUT 2 FROM 0: LIBRARY",
}


def write(name: str, text: str) -> None:
    with open(name, "w", encoding="ascii") as source:
        source.write(text)


def judge_run(arguments: Sequence[str], last: str, wanted: int) -> None:
    """A run has this last line and this status, and with --partial the same last line and the status 0."""
    for partial, status in ((False, wanted), (True, 0)):
        command = [os.path.join(RECORD, "run"), *["--partial"] * partial, *arguments]
        done = subprocess.run(command, capture_output=True, timeout=PATIENCE, check=False)
        trace, notes = done.stdout.decode(), done.stderr.decode(errors="replace")
        ends = re.search(rf"\nrecording\|end\({last}\)\|\n\Z", trace)
        if not trace.startswith("recording|begin(RECORDED)|\n") or not ends:
            raise Wrong(f"{arguments}: the last line is {trace.splitlines()[-1:]}, and not {last}: {notes}")
        if done.returncode != status:
            raise Wrong(f"{command}: status {done.returncode}, and not {status}: {notes}")
        if ("the recording is not whole" in notes) != (status == 4):
            raise Wrong(f"{command}: {notes}")


def judge_causes(c: str) -> None:
    """Each cause is in the last line, and makes the status 4 unless --partial allows it."""
    write("program.c", PROGRAM)
    ran([os.path.join(RECORD, "cc"), "-O1", "program.c", "-o", "program"], env=dict(os.environ, RECORD_CC=c))
    for options, word, last in CAUSES:
        if word == "raw" and os.uname().machine != "x86_64":
            continue
        judge_run([*options, "./program", *([word] if word else [])], last, 0 if last == "WHOLE" else 4)
    judge_run(["sh", "-c", "./program"], "WHOLE", 0)
    judge_run(["sh", "-c", "./program; ./program; ./program"], r"LEFT OUT 2 FROM 0: EXEC", 4)
    command = [os.path.join(RECORD, "run"), "./program", "alone"]
    done = subprocess.run(command, capture_output=True, timeout=PATIENCE, check=False)
    if done.returncode != 1 or b"end(LEFT OUT 0 FROM 0: ONE THREAD)|" not in done.stdout:
        raise Wrong(f"a program of one thread: {done}")


def judge_linked(c: str) -> None:
    """Objects, members of archives and libraries without hooks are counted, and only if the program has them."""
    write("part.c", LIBRARY)
    write("unused.c", "int unused(void) { return 1; }\n")
    write("user.c", USER)
    environment = dict(os.environ, RECORD_CC=c)
    for source in ("part", "unused"):
        ran([c, "-c", "-fPIC", f"{source}.c", "-o", f"{source}.o"])
    ran(["ar", "rc", "libparts.a", "part.o", "unused.o"])
    ran([c, "-shared", "part.o", "-o", "libpart.so"])
    linked = {
        "part.c": r"WHOLE",
        "part.o": r"LEFT OUT 1 FROM 0: HOOKS",
        "libparts.a": r"LEFT OUT 1 FROM 0: HOOKS",
        "libpart.so": r"LEFT OUT 1 FROM 0: LIBRARY",
        "-Wl,-Bstatic -L. -lparts -Wl,-Bdynamic": r"LEFT OUT 1 FROM 0: HOOKS",
        "part.c -static-libgcc": r"WHOLE",
    }
    for part, last in linked.items():
        command = ["user.c", *part.split(), "-Wl,-rpath," + os.getcwd(), "-o", "program"]
        done = subprocess.run(
            [os.path.join(RECORD, "cc"), "-O1", *command], capture_output=True, text=True, check=False, env=environment
        )
        if done.returncode or ("no hooks" in done.stderr) != ("HOOKS" in last):
            raise Wrong(f"linked with {part}: {done}")
        judge_run(["./program"], last, 0 if last == "WHOLE" else 4)
    ran(
        [os.path.join(RECORD, "cc"), "user.c", "libpart.so", "-Wl,-rpath," + os.getcwd(), "-o", "program"],
        env=environment,
    )
    judge_run(["--trust", "libpart", "./program"], "WHOLE", 0)
    ran([os.path.join(RECORD, "cc"), "-shared", "-fPIC", "part.c", "-o", "libpart.so"], env=environment)
    judge_run(["./program"], "WHOLE", 0)


def judge_opened(c: str) -> None:
    """Libraries without hooks that were opened and closed are counted, each once, also if one took the place of
    another."""
    write("opener.c", OPENER)
    write("part.c", LIBRARY)
    environment = dict(os.environ, RECORD_CC=c)
    ran([os.path.join(RECORD, "cc"), "-O1", "opener.c", "-o", "program"], env=environment)
    for name in ("one", "other"):
        ran([c, "-shared", "-fPIC", "part.c", "-o", f"{name}.so"])
    ran([os.path.join(RECORD, "cc"), "-shared", "-fPIC", "part.c", "-o", "hooked.so"], env=environment)
    for names, last in OPENED.items():
        judge_run(["./program", *(f"./{name}.so" for name in names.split())], last, 0 if last == "WHOLE" else 4)


def judge_small_disk(c: str) -> None:
    """A disk that becomes full ends the recording, and the last line says so."""
    write("program.c", PROGRAM.replace("k < 20", "k < 100000"))
    ran([os.path.join(RECORD, "cc"), "-O1", "program.c", "-o", "program"], env=dict(os.environ, RECORD_CC=c))
    os.mkdir("small")
    mounted = "mount -t tmpfs -o size=5m none small 2>/dev/null || exit 99\n"
    command = f"{mounted}TMPDIR=$PWD/small exec {RECORD}/run ./program"
    unshared = ["unshare", "--map-root-user", "--mount", "sh", "-c", command]
    done = subprocess.run(unshared, capture_output=True, check=False, timeout=PATIENCE)
    if done.returncode == 99 or b"unshare" in done.stderr:
        print("record/: a full disk is not tested, since no small one can be mounted here")
        return
    if done.returncode != 4 or not re.search(rb"\|end\(LEFT OUT [1-9]\d* FROM [1-9]\d*: DISK\)\|\n\Z", done.stdout):
        raise Wrong(f"a full disk: status {done.returncode}: {done.stdout[-200:]!r} {done.stderr!r}")


def judge_broken(racebench: str, c: str) -> None:
    """A decoder that is killed leaves no last line."""
    write("program.c", PROGRAM.replace("k < 20", "k < 200000"))
    ran([os.path.join(RECORD, "cc"), "-O1", "program.c", "-o", "program"], env=dict(os.environ, RECORD_CC=c))
    with subprocess.Popen([os.path.join(RECORD, "run"), "./program"], stdout=subprocess.PIPE) as started:
        assert started.stdout
        first = started.stdout.readline()
        started.stdout.close()
        status = started.wait()
    if first != b"recording|begin(RECORDED)|\n" or status in (0, 4):
        raise Wrong(f"a trace that nobody reads: {first!r}, status {status}")


def cases(racebench: str, c: str) -> list[Case]:
    found: list[Case] = [
        (f"causes of a recording that is not whole, {c}", judge_causes, (c,)),
        (f"libraries that are opened and closed, {c}", judge_opened, (c,)),
        (f"a disk that becomes full, {c}", judge_small_disk, (c,)),
        (f"a trace that breaks off, {c}", judge_broken, (racebench, c)),
    ]
    if shutil.which("ar"):
        found.append((f"objects and libraries without hooks, {c}", judge_linked, (c,)))
    return found
