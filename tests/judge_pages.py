#!/usr/bin/env python3
"""Types the commands of the pages, and compares what is printed with what the pages show.

  tests/judge_pages.py PROGRAM [PAGE ..]

PROGRAM is racebench; without PAGE all pages are judged. A command is a line `$ ..` of a block ```text; the lines up to
the next command are what it prints, on standard output and on standard error. A line `..` stands for one or more lines
that the page leaves out. Each page has an empty folder, with links to `examples`, `record` and `screen`, and
`racebench` on the path. Where the page shows `racebench session`, lines to type and their answers take turns.

Prints what differs, and what was left out. The last line is `N passed, M failed`; if nothing was typed, it fails.
"""

import os
import pathlib
import re
import shutil
import signal
import subprocess
import sys
import tempfile
import threading
from typing import IO

if __name__ == "__main__":
    sys.dont_write_bytecode = True
import judging
import recorded_rust

TOP = pathlib.Path(__file__).resolve().parent.parent
# A command that is not typed: its page, how it begins, and why.
Entry = tuple[str, str, str]
LINKED = ("examples", "record", "screen")
# A command may take this many seconds.
LONGEST = 900
# A recording is made again so often if the machine was so busy that a thread lost its turn by force.
AGAIN = 3
# Programs that sleep: each recording has other turns, and `record/confirm` prints its races in another order. What
# comes after a race is a matter of time too: where threads wait long for a processor, about one `record/confirm` in
# six has another ending. So their commands are typed again if they print something else, up to this many times in all.
SLEEPS = r"\b(?:watchdog|mended)\b"
TRIES = 12
# The version of Rust whose library the page about Rust has been recorded with.
RUST_OF_PAGE = "1.96.0"
# Commands that are not typed: the page, how the command begins, and why.
LEFT_OUT: list[Entry] = [
    ("README.md", "racebench triage watchdog.std", "names events of one recording of a program that sleeps"),
    ("README.md", "record/confirm", "counts races of a program that sleeps"),
    ("docs/BUILDS.md", "bazel", "needs Bazel and a project"),
    ("docs/BUILDS.md", "$R/run", "runs what CMake or Bazel built"),
    (
        "record/README.md",
        "record/reported report.txt",
        "names the two accesses in the order in which the sanitizer met them",
    ),
    ("docs/CONFIRM.md", "racebench triage watchdog.std", "names events of one recording of a program that sleeps"),
    ("docs/CONFIRM.md", "racebench witness watchdog.std", "names events of one recording of a program that sleeps"),
    ("docs/CHECK.md", "record/check", "counts races of a program that sleeps"),
    ("docs/CONFIRM.md", "record/confirm", "counts races of a program that sleeps"),
    ("docs/CONFIRM.md", "record/follow --then all", "names events of one recording of a program that sleeps"),
    ("docs/TUTORIAL.md", "record/confirm watchdog.std", "counts races of a program that sleeps"),
    ("docs/GO.md", "", "needs a Go program that the page shows in part"),
    ("docs/CONFIRM.md", "record/follow --gdb", "needs gdb, and a reader at it"),
    ("docs/SCREEN.md", "screen/screen", "needs a browser"),
]
if shutil.which("javac") is None:
    LEFT_OUT += [("docs/JAVA.md", "", "needs a JDK")]
if recorded_rust.why_left_out(RUST_OF_PAGE):
    LEFT_OUT += [("docs/RUST.md", "", f"needs the library of Rust {RUST_OF_PAGE} with hooks")]
if shutil.which("parallel") is None:
    LEFT_OUT += [
        ("docs/FARM.md", "sh examples/farm/parallel.sh", "needs GNU parallel"),
        ("docs/FARM.md", "head -n 2 parts", "reads what GNU parallel's jobs wrote"),
    ]


def commands(text: str) -> list[tuple[int, str, list[str]]]:
    """The commands of a page: the line's number, the command, and the lines that are shown after it."""
    found: list[tuple[int, str, list[str]]] = []
    here = False
    output: list[str] | None = None
    for number, line in enumerate(text.splitlines(), start=1):
        if line.startswith("```"):
            here, output = line == "```text", None
        elif here and line.startswith("$ "):
            output = []
            found.append((number, line[2:], output))
        elif here and output is not None:
            output.append(line)
    return found


def settled(command: str, lines: list[str]) -> list[str]:
    """The lines without what is another in each build, and of a program that sleeps also in each recording."""
    text = re.sub(r"\b0x[0-9a-f]{5,}\b(?:\.\.)?|\b[0-9a-f]{10,}\b", "ADDRESS", "\n".join(lines))
    if re.search(SLEEPS, command):
        text = re.sub(r"\d+ events, \d+ turns", "N events, M turns", text)
        text = re.sub(r"order \d+ accesses of \d+ variables", "order N accesses of M variables", text)
        text = "\n".join(sorted(text.splitlines())) if "record/confirm" in command else text
    return text.splitlines()


def as_shown(command: str, printed: str, shown: list[str]) -> bool:
    """Whether the command printed what the page shows."""
    printed = "".join(f"{line}\n" for line in settled(command, printed.splitlines()))
    shown = settled(command, shown)
    pattern = "".join(r"(?:.*\n)+?" if line == ".." else re.escape(line) + r"\n" for line in shown)
    return re.fullmatch(pattern, printed) is not None


class Folder:
    """The folder in which the commands of a page are typed."""

    def __init__(self, path: pathlib.Path, program: str) -> None:
        self.path, self.status = path, 0
        for name in LINKED:
            (path / name).symlink_to(TOP / name)
        path.joinpath("bin").mkdir()
        wrapper = path / "bin/racebench"
        wrapper.write_text(f'#!/bin/sh\nexec "{program}" "$@"\n', encoding="utf-8")
        wrapper.chmod(0o755)
        self.more = {**os.environ, "PATH": f"{wrapper.parent}:{os.environ['PATH']}", "LC_ALL": "C.UTF-8"}

    def start(self, command: str, stdin: int) -> subprocess.Popen[bytes]:
        """Starts the command in a shell that has the last command's status. What it prints goes into one pipe."""
        text = f"(exit {self.status})\n{command}\n"
        return subprocess.Popen(
            ["bash", "-c", text],
            stdin=stdin,
            stdout=subprocess.PIPE,
            stderr=subprocess.STDOUT,
            cwd=self.path,
            env=self.more,
            start_new_session=True,
        )

    def printed(self, command: str) -> str:
        """What the command prints; its status is kept for the next."""
        with self.start(command, subprocess.DEVNULL) as process:
            timer = end_after(process)
            out = process.communicate()[0]
            timer.cancel()
        self.status = process.returncode
        return out.decode(errors="replace")

    def typed(self, command: str, shown: list[str]) -> str:
        """The lines of a session, of which every other one is typed. `Killed` at the end is a kill of the session."""
        killed = shown[-1:] == ["Killed"]
        came = []
        with self.start(f"exec {command}", subprocess.PIPE) as process:
            timer = end_after(process)
            feed, out = pipes_of(process)
            for line in shown[: len(shown) - killed : 2]:
                feed.write(f"{line}\n".encode())
                feed.flush()
                came += [line, out.readline().decode(errors="replace").rstrip("\n")]
            if killed:
                process.kill()
                came.append("Killed")
            rest = process.communicate()[0].decode(errors="replace")
            timer.cancel()
        return "".join(f"{line}\n" for line in came) + rest


def pipes_of(process: subprocess.Popen[bytes]) -> tuple[IO[bytes], IO[bytes]]:
    """The standard input and the standard output of a process that was started with pipes."""
    if process.stdin is None or process.stdout is None:
        raise ValueError("the process has no pipes")
    return process.stdin, process.stdout


def end_after(process: subprocess.Popen[bytes]) -> threading.Timer:
    """Ends the command and all that it started if it takes too long."""
    timer = threading.Timer(LONGEST, os.killpg, (process.pid, signal.SIGKILL))
    timer.start()
    return timer


def answered(folder: Folder, command: str, shown: list[str]) -> str:
    """What the command prints; a recording that was disturbed is made again, and so is what hangs on the time."""
    if command.startswith("racebench session "):
        return folder.typed(command, shown)
    before, by_time = folder.status, re.search(SLEEPS, command)
    for number in range(TRIES if by_time else AGAIN):
        folder.status = before
        printed = folder.printed(command)
        was_forced = number < AGAIN - 1 and re.search(r"\b[1-9]\d* taken by force$", printed, re.MULTILINE)
        if not was_forced and (not by_time or as_shown(command, printed, shown)):
            break
    return printed


def why_left_out(page: str, command: str) -> Entry | None:
    """The entry of LEFT_OUT for a command, or None."""
    return next((entry for entry in LEFT_OUT if entry[0] == page and command.startswith(entry[1])), None)


def judge_page(page: str, run: judging.Run, used: set[Entry]) -> int:
    """Types the commands of a page, each a case; answers how many were left out."""
    left = 0
    with tempfile.TemporaryDirectory(prefix="pages") as temporary:
        folder = Folder(pathlib.Path(temporary), run.program)
        for number, command, shown in commands((TOP / page).read_text(encoding="utf-8")):
            entry = why_left_out(page, command)
            if entry:
                print(f"{page}:{number}: left out, it {entry[2]}: {command}")
                used.add(entry)
                left += 1
                continue
            printed = answered(folder, command, shown)
            differs = "\n".join([f"$ {command}\n  prints\n{printed[:4000]}  and the page shows", *shown])
            run.case(f"{page}:{number}", [] if as_shown(command, printed, shown) else [differs])
    return left


def all_pages() -> list[str]:
    docs = sorted(f"docs/{path.name}" for path in (TOP / "docs").glob("*.md"))
    return ["README.md", *docs, "record/README.md", "screen/README.md"]


def prepare(program: str) -> tuple[str, int]:
    """Compiles and records a program once: what the recorder says as it is built for the first time is on no page."""
    with tempfile.TemporaryDirectory(prefix="pages") as temporary:
        folder = Folder(pathlib.Path(temporary), program)
        return folder.printed("record/cc examples/count.c -o count && record/run ./count > count.std"), folder.status


def judged(run: judging.Run) -> None:
    pages = run.texts or all_pages()
    used: set[Entry] = set()
    printed, status = prepare(run.program)
    if status:
        print(f"examples/count.c is not recorded: {printed}")
    left = sum(judge_page(page, run, used) for page in pages)
    if not run.passed + run.failed:
        raise judging.Wrong("no command was typed")
    for page, begins, _ in [entry for entry in LEFT_OUT if entry[0] in pages and entry not in used]:
        run.case(page, [f"there is no command that begins with {begins}: take it out of LEFT_OUT"])
    print(f"{len(pages)} pages; {left} commands were left out")


if __name__ == "__main__":
    sys.exit(judging.main("pages", judged, texts="PAGE"))
