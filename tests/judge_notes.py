#!/usr/bin/env python3
"""Judges when the program writes notes. `info`, `replay`, `threads` and the program without arguments write them on a
terminal alone, all others always. RACEBENCH_NOTES decides if it is 1 or 0.

Takes the program's path. Says what is wrong, if something is, and ends with status 1 then.
"""

import os
import shutil
import subprocess
import sys
import tty
from collections import Counter

if __name__ == "__main__":
    sys.dont_write_bytecode = True
import judging
import running
from judging import Wrong

# The note on an event that is named twice.
TWICE = "both numbers are event 0: a pair has two events"
# The notes on a joint text: what is read from a terminal, and a missing script.
READING = "note: type a trace, a line `---` and a script, or see `racebench --help`\n"
NO_SCRIPT = "note: there is no line `---`, so there is no script\n"
# The note on locks that are held before a window.
LATE = "note: more locks are held there than a later window may begin with: pass an earlier event to `--window`\n"
# The notes on a trace with too many threads, and on an event that no window has room for.
WIDE = "note: a trace has at most 256 threads; `triage --windows` reads more, in windows of at most 256\n"
CROWDED = "note: a window has at most 256 threads, and those that hold a lock where it begins count\n"
# What is run, what comes on standard error in any case, and the notes after it.
# A run's arguments, the line of its fault, and its notes.
Case = tuple[list[str], str, str]
RUNS: list[Case] = [
    (["info", "none"], "racebench: read failed\n", "note: none does not exist\n"),
    (["info", "bad"], "racebench: trace line 2: 1 no bar\n", "note: line 2 of bad is `T1 w(x)`\n"),
    (["explain", "good", "0", "0"], "racebench: no such pair\n", f"note: {TWICE}\n"),
    (["replay", "good", "none"], "racebench: read failed\n", "note: none does not exist\n"),
    ([], "", NO_SCRIPT),
    (["info", "good"], "", ""),
    (["info", "shut"], "racebench: read failed\n", "note: shut may not be read: permission denied\n"),
    (["info", "in/good"], "racebench: read failed\n", "note: in/good may not be read: permission denied\n"),
    (
        ["cut", "comes", "--windows", "100", "--window", "5200"],
        "racebench: trace line 4551: 7 too many events\n",
        f"note: line 4551 of comes is `T0|fork(T151)|2`\n{LATE}",
    ),
    (
        ["info", "wide"],
        "racebench: trace line 257: 8 too many names\n",
        f"note: line 257 of wide is `T257|w(x)|2`\n{WIDE}",
    ),
    (
        ["cut", "wide", "--windows", "100", "--window", "256"],
        "racebench: trace line 257: 8 too many names\n",
        f"note: line 257 of wide is `T257|w(x)|2`\n{CROWDED}",
    ),
    # Standard input has nothing; what the file of that name has is not told.
    (["explain", "-", "0", "1"], "racebench: no such pair\n", ""),
    (
        ["log", "-"],
        "racebench: log file line 1\n",
        "note: standard input is not what `racebench session` writes\n",
    ),
]
# What is run if an output cannot be written, which standard output it has, and the output and the cause that the note
# names.
UNWRITTEN = [
    (["info", "good"], "a full device", "standard output cannot be written: the disk is full"),
    (["info", "good"], "a closed pipe", "standard output cannot be written: the pipe was closed"),
    (["info", "good"], "nothing", "standard output cannot be written: it is closed"),
    (["--help"], "a closed pipe", "standard output cannot be written: the pipe was closed"),
    (["cut", "good", "--windows", "2"], "a closed pipe", "standard output cannot be written: the pipe was closed"),
    (["session", "good", "log"], "a closed pipe", "standard output cannot be written: the pipe was closed"),
    (["session", "good", "kept"], "a pipe", "kept cannot be written: permission denied"),
    (["session", "good", "held/log"], "a pipe", "held/log cannot be written: permission denied"),
    (["session", "good", "none/log"], "a pipe", "none/log cannot be written: its folder does not exist"),
    (["cut", "good", "--into", "held/new"], "a pipe", "held/new cannot be written: permission denied"),
    (["cut", "good", "--into", "held"], "a pipe", "held/window-000000000.std cannot be written: permission denied"),
    (["cut", "good", "--into", "none/new"], "a pipe", "none/new cannot be written: its folder does not exist"),
]
# The commands that write no notes off a terminal; so does the program without arguments.
QUIET = ("info", "replay", "threads")
# Words that name what a user may not read or write.
SHUT = ("shut", "in/good", "kept", "held", "held/log", "held/new")
# How each line of a script is written.
USAGES = {
    "new": "new NAME",
    "add": "add NAME EVENT",
    "back": "back NAME",
    "swap": "swap NAME POSITION",
    "branch": "branch NAME LENGTH NAME",
    "drop": "drop NAME",
    "adopt": "adopt NAME PROPOSAL",
    "batch": "batch COMMAND ; COMMAND",
    "undo": "undo [ENTRY]",
    "propose": "propose EVENT EVENT EVENT*",
    "show": "show NAME",
    "list": "list",
    "races": "races NAME",
}


def runs() -> list[Case]:
    """All runs, with one for each word of a script that has no arguments, or too many."""
    scripts: list[Case] = []
    for word, usage in USAGES.items():
        line = f"7 {word}" + " A 0 B 1" * (word in ("undo", "list"))
        running.write(f"script_{word}", f"\n{line}\n")
        notes = (
            f"note: line 2 of script_{word} is `{line}`\nnote: the command is `{word}`\nnote: it is written "
            f"`{usage}`\n"
        )
        scripts.append((["replay", "good", f"script_{word}"], "racebench: script line 2: 81 bad word\n", notes))
    return RUNS + scripts


def user_of(arguments: list[str]) -> int | None:
    """The user for whom files may not be read that are shut, and so are for root; else whoever runs this."""
    is_shut = any(word in SHUT for word in arguments)
    return 65534 if is_shut and os.geteuid() == 0 else None


def off_terminal(arguments: list[str], line: str, notes: str) -> str:
    """What is written off a terminal if the environment does not decide."""
    return line if not arguments or arguments[0] in QUIET else line + notes


def environment(value: str | None) -> dict[str, str]:
    """The environment of a run, where RACEBENCH_NOTES has this value, or is not there."""
    kept = {name: text for name, text in os.environ.items() if name != "RACEBENCH_NOTES"}
    return kept if value is None else {**kept, "RACEBENCH_NOTES": value}


def through_pipe(program: str, arguments: list[str], value: str | None) -> str:
    done = subprocess.run(
        [program, *arguments],
        stdin=subprocess.DEVNULL,
        capture_output=True,
        env=environment(value),
        timeout=running.PATIENCE,
        check=False,
        user=user_of(arguments),
        group=user_of(arguments),
        extra_groups=[] if user_of(arguments) else None,
    )
    return done.stderr.decode("ascii")


def on_terminal(program: str, arguments: list[str]) -> str:
    mine, theirs = os.openpty()
    tty.setraw(theirs)
    with subprocess.Popen(
        [program, *arguments],
        stdin=subprocess.DEVNULL,
        stdout=subprocess.DEVNULL,
        stderr=theirs,
        env=environment(None),
        user=user_of(arguments),
        group=user_of(arguments),
        extra_groups=[] if user_of(arguments) else None,
    ) as run:
        os.close(theirs)
        shown = b""
        try:
            while piece := os.read(mine, 65_536):
                shown += piece
        except OSError:
            pass  # nobody has the other end any more
        os.close(mine)
        run.wait(timeout=running.PATIENCE)
    return shown.decode("ascii")


def output_of(how: str) -> int | None:
    """A standard output of this kind, or None if it is to be a pipe that is read or closed."""
    if how == "a full device":
        return os.open("/dev/full", os.O_WRONLY)
    if how == "a closed pipe":
        mine, theirs = os.pipe()
        os.close(mine)
        return theirs
    return None


def through_output(program: str, arguments: list[str], how: str, value: str | None) -> str:
    """Standard error, if standard output is of this kind."""
    output = output_of(how)
    done = subprocess.run(
        [program, *arguments],
        input=b"1 list\n",
        stdout=subprocess.PIPE if output is None else output,
        stderr=subprocess.PIPE,
        env=environment(value),
        timeout=running.PATIENCE,
        check=False,
        preexec_fn=(lambda: os.close(1)) if how == "nothing" else None,
        user=user_of(arguments),
        group=user_of(arguments),
        extra_groups=[] if user_of(arguments) else None,
    )
    if output is not None:
        os.close(output)
    return done.stderr.decode("ascii")


def judge_unwritten(program: str, tally: Counter[str]) -> None:
    """Judges the notes on what was not written."""
    for arguments, how, note in UNWRITTEN:
        fault, noted = "racebench: write failed\n", f"note: {note}\n"
        judge(arguments, f"with {how} and no notes", through_output(program, arguments, how, "0"), fault)
        usual = off_terminal(arguments, fault, noted)
        judge(arguments, f"with {how}, by default", through_output(program, arguments, how, None), usual)
        judge(arguments, f"with {how}", through_output(program, arguments, how, "1"), fault + noted)
        tally["unwritten"] += 1


def make_files(program: str) -> None:
    """Makes the files of the runs; some may not be read or written by the user of the run."""
    running.write("bad", "T1|w(x)|1\nT1 w(x)\n")
    running.write("good", "T1|w(x)|1\n")
    running.write("shut", "T1|w(x)|1\n")
    running.write("-", "T1|r(x)|1\nT2|r(x)|2\n")
    # More locks are held than a window may begin with after threads that come and go.
    held = "".join(f"T0|acq(l{lock})|1\n" for lock in range(4_100))
    running.write("comes", held + "".join(f"T0|fork(T{n})|2\nT{n}|w(x)|3\nT0|join(T{n})|4\n" for n in range(1, 401)))
    running.write("wide", "".join(f"T{n}|acq(l{n})|1\n" for n in range(1, 257)) + "T257|w(x)|2\n")
    os.chmod("shut", 0)
    os.mkdir("in", 0o700 if os.geteuid() == 0 else 0)
    os.mkdir("held")
    os.chmod("held", 0o555)
    for log, mode in (("kept", 0o444), ("log", 0o666)):
        command = [program, "session", "good", log]
        subprocess.run(command, stdin=subprocess.DEVNULL, timeout=running.PATIENCE, check=False)
        os.chmod(log, mode)


def judge_reading(program: str) -> None:
    """Judges the note on what is read from a terminal, before its end comes, and that it needs a terminal."""
    mine, theirs = os.openpty()
    os.write(mine, b"\x04")
    for value, wanted in ((None, ""), ("1", READING + NO_SCRIPT)):
        done = subprocess.run(
            [program],
            stdin=theirs,
            stdout=subprocess.DEVNULL,
            stderr=subprocess.PIPE,
            env=environment(value),
            timeout=running.PATIENCE,
            check=False,
        )
        judge([], f"on a terminal, with RACEBENCH_NOTES {value!r}", done.stderr.decode("ascii"), wanted)
        os.write(mine, b"\x04")
    os.close(mine)
    os.close(theirs)


def judge(arguments: list[str], how: str, shown: str, wanted: str) -> None:
    if shown != wanted:
        raise Wrong(f"{arguments} {how} writes {shown!r}, and not {wanted!r}")


def judged(run: judging.Run) -> str:
    program = "./racebench"
    shutil.copy(run.program, program)
    os.chmod(program, 0o755)
    os.chmod(".", 0o755)
    make_files(program)
    for arguments, line, notes in runs():
        judge(arguments, "with RACEBENCH_NOTES 0", through_pipe(program, arguments, "0"), line)
        usual = off_terminal(arguments, line, notes)
        for value in (None, "", "11"):
            judge(arguments, f"with RACEBENCH_NOTES {value!r}", through_pipe(program, arguments, value), usual)
        judge(arguments, "with RACEBENCH_NOTES 1", through_pipe(program, arguments, "1"), line + notes)
        judge(arguments, "on a terminal", on_terminal(program, arguments), line + notes)
        run.tally["runs"] += 1
    judge_unwritten(program, run.tally)
    judge_reading(program)
    return (
        f"notes: {run.tally['runs']} runs, each through a pipe and on a terminal; "
        f"{run.tally['unwritten']} outputs that cannot be written"
    )


if __name__ == "__main__":
    sys.exit(judging.main("notes", judged, ["runs", "unwritten"]))
