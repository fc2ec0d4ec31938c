"""Judges record/check and examples/ci: the lines that the three services run build a program, record it, and fail for a
new race alone.

What no other judge sees: a build that is green although a race is new, or although nothing was recorded or judged.
"""

import json
import os
import re
import shutil
import signal
import stat
import subprocess
from collections.abc import Mapping, Sequence

import sarif_rules
from judging import Case, Wrong
from recorded_places import RECORD, TOP, ran

FOLDER = os.path.join(TOP, "examples", "ci")
MAKEFILE = "tests: tests.c\n\t$(CC) -g tests.c -o tests\n"
QUIET = '#include <stdio.h>\nint main(void) { puts("quiet"); return 0; }\n'


# How a service runs the lines of its file: the shell, with the words that it is called with, and what it sets in the
# environment. GitHub and Jenkins run each line by itself, GitLab all in one script.
SERVICES = {
    "github.yml": (
        ["bash", "-e"],
        {"CI": "true", "GITHUB_ACTIONS": "true", "GITHUB_WORKSPACE": ".", "RUNNER_OS": "Linux"},
    ),
    "gitlab.yml": (
        ["bash", "-eo", "pipefail"],
        {"CI": "true", "GITLAB_CI": "true", "CI_PROJECT_DIR": ".", "CI_JOB_NAME": "races"},
    ),
    "Jenkinsfile": (["sh", "-xe"], {"JENKINS_URL": "http://localhost/", "WORKSPACE": ".", "BUILD_NUMBER": "1"}),
}
# What stands for the commands that change a machine: they write down how they are called.
FAKED = {"sudo": 'exec "$@"', "apt-get": 'echo "$@" >> installed'}
DEB = "ci/planecarmine_0.1.0_amd64.deb"


def scripts(name: str) -> list[str]:
    """The scripts that a service runs, one after another."""
    with open(os.path.join(FOLDER, name), encoding="ascii") as file:
        text = file.read()
    if name == "github.yml":
        return re.findall(r"^        run: (.*)$", text, re.MULTILINE)
    if name == "gitlab.yml":
        return ["\n".join(re.findall(r"^    - (.*)$", text, re.MULTILINE))]
    return re.findall(r"^ *sh '(.*)'$", text, re.MULTILINE)


def served(name: str, environment: Mapping[str, str]) -> tuple[int, str, str]:
    """Runs what a service runs, up to the first script that fails: its status, what all printed, and what was said as
    an error. A shell that traces says its commands."""
    shell, sets = SERVICES[name]
    printed, errors = "", ""
    for script in scripts(name):
        with open("script.sh", "w", encoding="ascii") as file:
            file.write(script + "\n")
        done = subprocess.run(
            [*shell, "script.sh"], capture_output=True, text=True, env={**environment, **sets}, check=False
        )
        printed += done.stdout
        errors += "".join(line for line in done.stderr.splitlines(True) if not line.startswith("+"))
        if done.returncode:
            break
    return done.returncode, printed, errors


def lay_out(racebench: str) -> dict[str, str]:
    """A repository that is built so, and commands with the names that the package has."""
    os.makedirs("bin")
    os.makedirs("ci")
    for command, script in (("racebench-cc", "cc"), ("racebench-c++", "c++")):
        os.symlink(os.path.join(RECORD, script), os.path.join("bin", command))
    check = os.path.join(RECORD, "check")
    with open("bin/racebench-check", "w", encoding="ascii") as file:
        file.write(f'#!/bin/sh\nexec {check} --seeds 1,2 --minutes "${{MINUTES:-0}}" --jobs 1 "$@"\n')
    with open("bin/racebench", "w", encoding="ascii") as file:
        file.write(f'#!/bin/sh\nexec {racebench} "$@"\n')
    for name, text in FAKED.items():
        with open(os.path.join("bin", name), "w", encoding="ascii") as file:
            file.write(f"#!/bin/sh\n{text}\n")
    for name in ("racebench", "racebench-check", *FAKED):
        os.chmod(os.path.join("bin", name), stat.S_IRWXU)
    with open(DEB, "w", encoding="ascii"):
        pass
    shutil.copy(os.path.join(TOP, "examples", "count.c"), "tests.c")
    for name, text in (("Makefile", MAKEFILE), ("ci/known.toml", "")):
        with open(name, "w", encoding="ascii") as file:
            file.write(text)
    folder = os.path.abspath("bin")
    return dict(os.environ, PATH=folder + os.pathsep + os.environ["PATH"], RACEBENCH=os.path.join(folder, "racebench"))


def judge_log(rules: list[str]) -> None:
    """The log for code-scanning pages has results of these rules, whose files are in the folder."""
    with open("races/races.sarif", encoding="utf-8") as file:
        log = json.load(file)
    sarif_rules.check(log)
    results = log["runs"][0]["results"]
    if sorted({result["ruleId"] for result in results}) != rules:
        raise Wrong(f"races/races.sarif has other results: {results}")
    for location in (location for result in results for location in sarif_rules.locations_of(result)):
        uri = location.get("physicalLocation", {}).get("artifactLocation", {}).get("uri", ".")
        if not os.path.exists(uri):
            raise Wrong(f"races/races.sarif names {uri}, which is not there")


def judge_service(racebench: str, name: str) -> None:
    environment = lay_out(racebench)
    status, printed, errors = served(name, environment)
    if status != 3 or "Traceback" in errors:
        raise Wrong(f"an empty file of known races: status {status}, {printed!r}, {errors!r}")
    if "races 1: 1 new, 0 known\n" not in printed or "seed 2: 1 race\n" not in errors:
        raise Wrong(f"a new race is not shown: {printed!r}, {errors!r}")
    if name != "Jenkinsfile":
        with open("installed", encoding="ascii") as file:
            if f"install -y ./{DEB} " not in file.read():
                raise Wrong("the package is not installed")
    judge_log(["data-race"])
    shutil.copy("races/races.toml", "ci/known.toml")
    status, printed, _ = served(name, environment)
    if status or "races 1: 0 new, 1 known\n" not in printed:
        raise Wrong(f"a known race is new: status {status}, {printed!r}")
    judge_log([])


def judge_no_green(racebench: str) -> None:
    """A program without hooks, a program that is not there, and a racebench that refuses: no build is green."""
    environment = lay_out(racebench)
    judge = ["bash", "-ec", scripts("github.yml")[2]]
    ran(judge, wanted=1, env=environment)
    os.rename("ci/known.toml", "known.toml")
    done = subprocess.run(judge, capture_output=True, text=True, env=environment, check=False)
    if done.returncode != 1 or not done.stderr.startswith("record/check: ci/known.toml, "):
        raise Wrong(f"a file of known races that is not there is not said: {done}")
    os.rename("known.toml", "ci/known.toml")
    with open("tests.c", "w", encoding="ascii") as file:
        file.write(QUIET)
    ran(["gcc", "tests.c", "-o", "tests"])
    if "not judged: failed: seeds 1, 2\n" not in ran(judge, wanted=1, env=environment):
        raise Wrong("a program without hooks is not said")
    shutil.copy(os.path.join(TOP, "examples", "count.c"), "tests.c")
    ran(["make", "-B", "CC=racebench-cc"], env=environment)
    with open("bin/racebench", "w", encoding="ascii") as file:
        file.write("#!/bin/sh\nexit 4\n")
    if "not judged: failed: seeds 1, 2\n" not in ran(judge, wanted=1, env=environment):
        raise Wrong("a trace that is not judged is not said")


def check(racebench: str, *arguments: str, wanted: int = 3) -> tuple[list[str], str]:
    """The lines that record/check prints of `tests`, and what it says of its work."""
    command = [os.path.join(RECORD, "check"), "--racebench", racebench, *arguments]
    done = subprocess.run(command, capture_output=True, text=True, check=False)
    if done.returncode != wanted or "Traceback" in done.stderr:
        raise Wrong(f"{' '.join(command)}: status {done.returncode}, and not {wanted}: {done.stdout}{done.stderr}")
    return done.stdout.splitlines(), done.stderr


def judge_check(racebench: str) -> None:
    """The worst race comes first, with what it leads to; what was followed is written down; each file is there."""
    lay_out(racebench)
    source = os.path.join(TOP, "tests", "recorded", "races", "freed_early.c")
    ran([os.path.join(RECORD, "cc"), "-O1", source, "-o", "tests"])
    lines, errors = check(racebench, "--seeds", "1-3", "--out", "kept", "./tests")
    # A seed in which the program crashes is not whole.
    wanted = [
        r"seeds 3: (3 whole, 0|2 whole, 1) not whole, 0 failed",
        r"races 4: 4 new, 0 known",
        r"followed 4: 3 matter, 1 are the same, 0 not known, 0 departed; not followed 0",
        r"worst: a block is freed and used: freed_early\.c:\d+ and freed_early\.c:\d+, a race in [23] of the seeds",
        r"it leads to: T1 (reads|writes) \d bytes? of a block that T2 has freed, then signal 11 \(SIGSEGV\)",
        r"not judged: (nothing|not whole: seeds \d)",
        r"page: kept/races\.html, code scanning: kept/races\.sarif",
        r"to accept races: choose entries of kept/races\.toml for your file of known races",
        r"who else uses it: kept/uses\.txt",
        r"next: racebench explain kept/seed-\d\.std \d+ \d+",
    ]
    if len(lines) != len(wanted) or not all(map(re.fullmatch, wanted, lines)):
        raise Wrong(f"a check of freed_early.c: {lines}")
    if len(re.findall(r"^record/check: [123] of 3: seed [123]: \d race", errors, re.MULTILINE)) != 3:
        raise Wrong(f"a check of freed_early.c does not show its seeds: {errors}")
    if errors.count("following race ") != 4:
        raise Wrong(f"a check of freed_early.c does not show how far it is: {errors}")
    with open("kept/confirmed.jsonl", encoding="ascii") as file:
        found = [json.loads(line) for line in file]
    if len(found) != 4 or any(one["ended"] != "stands" or not os.path.exists(f"kept/{one['trace']}") for one in found):
        raise Wrong(f"what was followed: {found}")
    ran([racebench, *lines[9].split()[2:]])
    with open("kept/races.toml", encoding="ascii") as file:
        entries = file.read()
    if entries.count("[[race]]") < 4:
        raise Wrong(f"four races have fewer entries: {entries}")
    with open("kept/uses.txt", encoding="ascii") as file:
        uses = file.read()
    heads, rows = (re.findall(head, uses, re.MULTILINE) for head in (r"^\S.*", r"^  (?:read|write) .* in the race$"))
    if len(heads) != 4 or len(rows) < 4 or not any(head in lines[3] for head in heads):
        raise Wrong(f"who else uses the variables of four races: {uses}")
    lines, _ = check(racebench, "--seeds", "1", "--known", "kept/races.toml", "./tests", wanted=0)
    if lines[1] != "races 4: 0 new, 4 known" or not lines[2].startswith("followed 0: "):
        raise Wrong(f"known races: {lines}")


def judge_command(racebench: str, command: Sequence[str], source: str, followed: str) -> None:
    """A check of a program in any language, which has one race: its seeds are whole, its race is followed and reported,
    and is known at the next time."""
    lines, errors = check(racebench, "--jobs", "1", "--seeds", "1-3", "--out", "kept", *command)
    wanted = [
        r"seeds 3: 3 whole, 0 not whole, 0 failed",
        r"races 1: 1 new, 0 known",
        rf"followed 1: .*\b{followed}\b.*, 0 departed; not followed 0",
        rf"worst: .*: {source}:\d+ and {source}:\d+, a race in [1-3] of the seeds",
        r"it leads to: .+",
        r"not judged: nothing",
        r"page: kept/races\.html, code scanning: kept/races\.sarif",
        r"to accept races: choose entries of kept/races\.toml for your file of known races",
        r"who else uses it: kept/uses\.txt",
        r"next: racebench explain kept/seed-\d\.std \d+ \d+",
    ]
    if len(lines) != len(wanted) or not all(map(re.fullmatch, wanted, lines)):
        raise Wrong(f"a check of {command}: {lines}{errors}")
    with open("kept/races.sarif", encoding="utf-8") as file:
        sarif_rules.check(json.load(file))
    with open("kept/races.html", encoding="utf-8") as file:
        if f"{source}:" not in file.read():
            raise Wrong(f"the page of {command} does not name {source}")
    ran([racebench, *lines[9].split()[2:]])
    lines, _ = check(racebench, "--seeds", "1", "--known", "kept/races.toml", *command, wanted=0)
    if lines[1] != "races 1: 0 new, 1 known" or not lines[2].startswith("followed 0: "):
        raise Wrong(f"known races of {command}: {lines}")


def judge_stopped(racebench: str) -> None:
    """A signal ends a check: what was recorded so far is reported, and no file is half written."""
    lay_out(racebench)
    source = os.path.join(TOP, "tests", "recorded", "races", "served.c")
    ran([os.path.join(RECORD, "cc"), "-O1", source, "-o", "tests"])
    os.mkfifo("pipe")
    command = [
        os.path.join(RECORD, "check"),
        "--racebench",
        racebench,
        "--seeds",
        "1-3",
        "--jobs",
        "1",
        "./tests",
        "pipe",
    ]
    with subprocess.Popen(command, stdout=subprocess.PIPE, stderr=subprocess.PIPE, text=True) as started:
        with open("pipe", "w", encoding="ascii"):
            assert started.stderr
            line = started.stderr.readline()
        started.send_signal(signal.SIGTERM)
        out, more = started.communicate()
    lines = out.splitlines()
    if started.returncode != -signal.SIGTERM or line != "record/check: 1 of 3: seed 1: 1 race\n":
        raise Wrong(f"a check that was stopped: {started.returncode}, {line}{more}")
    if lines[:2] != ["seeds 3: 1 whole, 0 not whole, 0 failed, 2 stopped", "races 1: 1 new, 0 known"]:
        raise Wrong(f"a check that was stopped: {lines}")
    if [name for name in os.listdir("races") if name.endswith(".part")] or not os.path.exists("races/races.html"):
        raise Wrong(f"a check that was stopped leaves {os.listdir('races')}")


def cases(racebench: str) -> list[Case]:
    names = ("github.yml", "gitlab.yml", "Jenkinsfile")
    found: list[Case] = [(f"words of examples/ci/{name}", judge_service, (racebench, name)) for name in names]
    found += [("a check", judge_check, (racebench,)), ("a check that is stopped", judge_stopped, (racebench,))]
    return [*found, ("a build without a judgement is not green", judge_no_green, (racebench,))]
