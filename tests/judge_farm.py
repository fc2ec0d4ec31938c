#!/usr/bin/env python3
"""Judges examples/farm: what the jobs of an engine make of some traces is, byte by byte, what one machine makes.

`parallel.sh` runs under GNU parallel, if that is here. `slurm.sh` runs twice. First a fake `sbatch` replaces Slurm's:
it runs the tasks of an array one after another, the last one first, and then the job that waits for them if none
failed. Then, if Slurm is here, it runs on two node daemons of the judge's own (slurmed.py), one of which is lost. The
lines of `matrix.yml` run in a shell for each job, with a fake recorder. A job is killed and
repeated, a trace is refused, and a trace comes twice. Says what could not be run.
"""

import os
import re
import shutil
import subprocess
import sys
import time
from collections.abc import Sequence

if __name__ == "__main__":
    sys.dont_write_bytecode = True
import judging
import slurmed
from judging import Wrong

TOP = os.path.dirname(os.path.dirname(os.path.abspath(__file__)))
FARM = os.path.join(TOP, "examples", "farm")
# The traces, by the reports that they get; the name of an example is that of its file.
TRACES = {"count.json": "count.std", "two pairs.trace.json": "two pairs.trace", "pdsh.json": "pdsh.std"}
EXAMPLES = {"count.std": "count.std", "two pairs.trace": "two_pairs.std", "pdsh.std": "pdsh.std"}
# A program that fails at its first call for one trace, as if its worker was killed in the middle of the report.
FAILS_ONCE = """#!/bin/sh
if [ "$1" = triage ] && [ "$(basename "$2")" = "two pairs.trace" ] && mkdir failed 2> /dev/null; then
    "{program}" "$@" | head -c 100
    kill -9 $$
fi
exec "{program}" "$@"
"""
# A program of which two run at once on one trace, each in a job, and which for another trace is at work until its node
# is lost.
HELD = """#!/bin/sh
at=${{2##*/}}
if [ "$1 $at" = "triage count.std" ]; then
    mkdir first 2> /dev/null || mkdir second 2> /dev/null
    for _ in $(seq 6000); do
        if [ ! -d second ]; then sleep 0.1; fi
    done
fi
if [ "$1 $at" = "triage pdsh.std" ] && mkdir held 2> /dev/null; then
    "{program}" "$@" | head -c 100
    echo "$SLURMD_NODENAME $$" > held/part && mv held/part held/who
    exec sleep 3600
fi
exec "{program}" "$@"
"""
# The fake `sbatch`: it has Slurm's arguments, environment and numbers of jobs, and no nodes.
SBATCH = """#!/bin/sh
array= needs= script=
for word; do
    case $word in
        --array=*) array=${word#--array=1-} ;;
        --dependency=afterok:*) needs=${word#--dependency=afterok:} ;;
        --*) ;;
        *) script=$word ;;
    esac
done
number=$(($(cat jobs 2> /dev/null || echo 0) + 1))
echo "$number" > jobs
echo "$number"
exec > /dev/null
if [ -n "$needs" ] && [ -e "failed.$needs" ]; then exit 0; fi
while [ "${array:=1}" -ge 1 ]; do
    SLURM_ARRAY_TASK_ID=$array SLURM_JOB_ID=$number sh "$script" || touch "failed.$number"
    array=$((array - 1))
done
"""


def executable(path: str, text: str) -> None:
    with open(path, "w", encoding="ascii") as out:
        out.write(text)
    os.chmod(path, 0o755)


def ran(command: Sequence[str], **more: str) -> int:
    """The status of the command, with these variables in the environment besides."""
    environment = {**os.environ, **more}
    return subprocess.run(command, capture_output=True, check=False, env=environment, timeout=900).returncode


def read(path: str) -> bytes:
    with open(path, "rb") as file:
        return file.read()


def one_machine(program: str) -> bytes:
    """The report of all traces, as one machine makes it."""
    os.mkdir("one")
    for name, trace in TRACES.items():
        report = subprocess.run(
            [program, "triage", trace, "--json", "--apart"], capture_output=True, check=True
        ).stdout
        with open(os.path.join("one", name), "wb") as out:
            out.write(report)
    return subprocess.run([program, "merge", "--json", *TRACES], capture_output=True, check=True, cwd="one").stdout


def is_one(wanted: bytes, folder: str) -> None:
    if read(os.path.join(folder, "merged.json")) != wanted:
        raise Wrong(f"{folder}/merged.json is not what one machine makes")
    if not read(os.path.join(folder, "merged.txt")).startswith(b"parts 3\n"):
        raise Wrong(f"{folder}/merged.txt does not count three parts")


def judge_names(script: str) -> None:
    """Reports that would have one name are refused before any job."""
    os.makedirs("other", exist_ok=True)
    shutil.copy("pdsh.std", "other/count.std")
    shutil.copy("count.std", "merged.std")
    for traces in (["count.std", "other/count.std"], ["merged.std"]):
        if ran(["sh", os.path.join(FARM, script), *traces], PARTS="none", RACEBENCH="false") != 2 or os.path.exists(
            "none"
        ):
            raise Wrong(f"{script} takes {traces}, whose reports have one name")


def judge_parallel(wanted: bytes) -> None:
    judge_names("parallel.sh")
    command = ["sh", os.path.join(FARM, "parallel.sh"), *TRACES.values()]
    # A job that is killed is run again.
    if ran(command, PARTS="parallel", RACEBENCH=os.path.abspath("once"), JOBS="4") != 0 or not os.path.exists(
        "failed"
    ):
        raise Wrong("parallel.sh does not repeat a job that was killed")
    is_one(wanted, "parallel")
    # A trace that is refused leaves nothing merged; the others stay.
    with open("bad.std", "w", encoding="ascii") as out:
        out.write("no trace\n")
    if ran([*command, "bad.std"], PARTS="parallel", RACEBENCH=os.path.abspath("always")) != 1 or os.path.exists(
        os.path.join("parallel", "merged.json")
    ):
        raise Wrong("parallel.sh merges although a trace was refused")
    # A trace twice counts once; one that is newer than its report is triaged again, and no other. Times of files may be
    # whole seconds.
    now = time.time()
    for name, trace in TRACES.items():
        os.utime(trace, (now - 20, now - 20))
        os.utime(f"parallel/{name}", (now - 10, now - 10))
    before = {name: os.stat(f"parallel/{name}").st_mtime_ns for name in TRACES}
    os.utime("count.std")
    if ran([*command, "count.std"], PARTS="parallel", RACEBENCH="./always") != 0:
        raise Wrong("parallel.sh does not go on after a failure")
    is_one(wanted, "parallel")
    again = [name for name in TRACES if os.stat(f"parallel/{name}").st_mtime_ns != before[name]]
    if again != ["count.json"]:
        raise Wrong(f"parallel.sh made {again} again")


def judge_slurm(wanted: bytes) -> None:
    judge_names("slurm.sh")
    shutil.rmtree("failed", ignore_errors=True)
    command = ["sh", os.path.join(FARM, "slurm.sh"), *TRACES.values()]
    more = {
        "PARTS": "slurm",
        "RACEBENCH": os.path.abspath("once"),
        "PATH": f"{os.path.abspath('bin')}:{os.environ['PATH']}",
    }
    if ran(command, **more) != 0 or os.path.exists(os.path.join("slurm", "merged.json")):
        raise Wrong("slurm.sh merges although a task was killed")
    if ran(command, **more) != 0:
        raise Wrong("slurm.sh does not go on after a failure")
    is_one(wanted, "slurm")


def judge_nodes(wanted: bytes, slurm: slurmed.Slurm) -> None:
    """The same with Slurm itself: two nodes, a task that is killed, a node that is lost, and a part that is made
    twice."""
    shutil.rmtree("failed", ignore_errors=True)
    command = ["sh", os.path.join(FARM, "slurm.sh"), "count.std", *TRACES.values()]
    more = {**slurm.environment, "PARTS": "nodes", "RACEBENCH": os.path.abspath("once")}
    if ran(command, **more) != 0:
        raise Wrong("slurm.sh does not start its jobs")
    slurm.wait()
    if not os.path.exists("failed") or os.path.exists(os.path.join("nodes", "merged.json")):
        raise Wrong("slurm.sh merges although a task was killed")
    if ran(command, **more) != 0:
        raise Wrong("slurm.sh does not go on after a failure")
    slurm.wait()
    is_one(wanted, "nodes")
    more |= {"PARTS": "lost", "RACEBENCH": os.path.abspath("held-once")}
    if ran(command, **more) != 0:
        raise Wrong("slurm.sh does not start its jobs")
    slurmed.wait_for("a task to lose", lambda: os.path.exists("held/who"))
    node, task = read("held/who").decode().split()
    slurm.lose(node, int(task))
    slurm.wait()
    is_one(wanted, "lost")
    if not os.path.exists("second"):
        raise Wrong("Slurm did not run two tasks at once, so no part was made twice")


def tried_nodes(wanted: bytes) -> str | None:
    """What was not tried of Slurm, and why; nothing if all was tried."""
    if not slurmed.is_here():
        return "Slurm is not here, so slurm.sh was not run on nodes"
    try:
        with slurmed.Slurm("slurm.d") as slurm:
            judge_nodes(wanted, slurm)
    except slurmed.Unstarted as why:
        return f"Slurm does not start here, so slurm.sh was not run on nodes: {why}"
    return None


def lines_of(name: str) -> list[str]:
    """The lines that the jobs of the workflow run, one for each step that has some."""
    with open(os.path.join(FARM, "matrix.yml"), encoding="ascii") as file:
        text = file.read()
    return [line for line in re.findall(r"^        run: (.*)$", text, re.MULTILINE) if name in line]


def judge_matrix() -> None:
    os.mkdir("matrix")
    os.mkdir("matrix/parts")
    executable("bin/racebench-record", f'#!/bin/sh\nexec cat "{os.path.abspath("count.std")}"\n')
    executable("bin/racebench", f'#!/bin/sh\nexec "{os.path.abspath("always")}" "$@"\n')
    path = {"PATH": f"{os.path.abspath('bin')}:{os.environ['PATH']}"}
    (job,) = lines_of("racebench-record --seed")
    (merge,) = lines_of("racebench merge")
    for seed in [1, 3]:
        if (
            subprocess.run(
                ["bash", "-e", "-c", job.replace("${{ matrix.seed }}", str(seed))],
                cwd="matrix/parts",
                env={**os.environ, **path},
                check=False,
            ).returncode
            != 0
        ):
            raise Wrong("a job of matrix.yml fails")
    done = subprocess.run(
        ["bash", "-e", "-c", merge], cwd="matrix", env={**os.environ, **path}, capture_output=True, check=False
    )
    if done.returncode != 3 or not done.stdout.startswith(b"parts 4\nraces 1\n"):
        raise Wrong(f"the last job of matrix.yml ends with {done.returncode}")


def judged(run: judging.Run) -> str:
    for name, example in EXAMPLES.items():
        shutil.copy(os.path.join(TOP, "examples", example), name)
    os.mkdir("bin")
    executable("bin/sbatch", SBATCH)
    executable("once", FAILS_ONCE.format(program=run.program))
    executable("always", f'#!/bin/sh\nexec "{run.program}" "$@"\n')
    executable("held-once", HELD.format(program=run.program))
    wanted = one_machine(run.program)
    tried, untried = ["slurm.sh, without Slurm", "matrix.yml, without GitHub"], []
    if shutil.which("parallel"):
        judge_parallel(wanted)
        tried.append("parallel.sh")
    else:
        untried.append("GNU parallel is not here, so parallel.sh was not run")
    judge_slurm(wanted)
    judge_matrix()
    why = tried_nodes(wanted)
    if why is None:
        tried.append("slurm.sh on two nodes")
    else:
        untried.append(why)
    run.tally.update(tried)
    return "; ".join(["farms: " + tried[0], *tried[1:], *untried])


if __name__ == "__main__":
    sys.exit(judging.main("farm", judged))
