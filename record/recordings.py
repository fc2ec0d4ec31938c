"""Recordings of a program by several seeds, side by side: each is recorded and triaged into files of one folder."""
import concurrent.futures
import contextlib
import json
import os
import re
import shlex
import signal
import subprocess
import sys
from typing import Callable, Dict, List, NamedTuple, Optional, Sequence, Set

HERE = os.path.dirname(os.path.realpath(__file__))
WHOLE, NOT_WHOLE, NOT_RECORDED, NOT_JUDGED, STOPPED = "whole", "not whole", "not recorded", "not judged", "stopped"
# The statuses of record/run for a recording, for one that is not whole, and for a program in a deadlock.
RECORDED, IS_NOT_WHOLE, IS_DEADLOCK = 0, 4, 5
# How record/run begins the line that says who waits for whom.
IN_DEADLOCK = re.compile(r"record/\w+: the program is in a deadlock: ")
# The files of a seed.
ENDINGS = ("std", "clock", "log", "json")


class Recording(NamedTuple):
    """What came of a seed: its state, how many races its trace shows, why there is no report, whether its trace was so
    long that it was triaged in windows, and which threads wait for each other if the program hung in a deadlock."""

    seed: int
    state: str
    races: int = 0
    why: str = ""
    in_windows: bool = False
    deadlock: str = ""


class Wanted(NamedTuple):
    """What is recorded: the folder for the files, racebench, the options of record/run, the program and its
    arguments."""

    folder: str
    racebench: str
    record_options: str
    command: List[str]


def seeds_of(text: str) -> List[int]:
    """The seeds of a list such as `1-20` or `3,7,9-12`."""
    found: List[int] = []
    for part in text.split(","):
        match = re.fullmatch(r"(\d{1,18})(?:-(\d{1,18}))?", part.strip(), re.ASCII)
        if not match or int(match[2] or match[1]) < int(match[1]):
            raise ValueError
        first, last = int(match[1]), int(match[2] or match[1])
        if last - first + len(found) >= 10_000:
            raise ValueError
        found += range(first, last + 1)
    return list(dict.fromkeys(found))


def path_of(folder: str, seed: int, ending: str) -> str:
    return os.path.join(folder, f"seed-{seed}.{ending}")


def deadlock_in(path: str) -> str:
    """Which threads wait for each other, as record/run printed it in a log."""
    with open(path, encoding="utf-8", errors="replace") as file:
        found = [line[said.end() :].rstrip("\n") for line in file if (said := IN_DEADLOCK.match(line))]
    return found[-1] if found else "which threads wait is not known"


def last_line(path: str) -> str:
    with open(path, encoding="utf-8", errors="replace") as file:
        lines = file.read().strip().splitlines()
    return lines[-1] if lines else "nothing was printed"


class Recorder:
    """Records seeds side by side, until it is stopped."""

    def __init__(self, wanted: Wanted) -> None:
        self.wanted = wanted
        self.running: Set["subprocess.Popen[bytes]"] = set()
        self.is_stopped = False

    def stop(self) -> None:
        """Ends what runs, at the second call by force; no other seed begins."""
        number = signal.SIGKILL if self.is_stopped else signal.SIGTERM
        self.is_stopped = True
        for started in list(self.running):
            end_group(started, number)

    def run(self, command: Sequence[str], out: str, log: str) -> Optional[int]:
        """Runs a command with its output in two files; its status, or None if it was stopped. The file of its output
        has its name only if it is whole."""
        part = f"{out}.part"
        if self.is_stopped:
            return None
        with open(part, "wb") as printed, open(log, "ab") as log_file:
            source = source_of_input()
            started = subprocess.Popen(command, stdin=source, stdout=printed, stderr=log_file, start_new_session=True)
            self.running.add(started)
            if self.is_stopped:
                end_group(started, signal.SIGTERM)
            status = started.wait()
            self.running.discard(started)
            os.close(source)
        if self.is_stopped:
            os.unlink(part)
            return None
        os.rename(part, out)
        return status

    def record(self, seed: int) -> Recording:
        """Records a seed and triages its trace."""
        wanted = self.wanted
        trace, clock, log, report = (path_of(wanted.folder, seed, ending) for ending in ENDINGS)
        options = ["--seed", str(seed), "--clock", clock, *shlex.split(wanted.record_options)]
        recorded = self.run([os.path.join(HERE, "run"), *options, *wanted.command], trace, log)
        if recorded is None:
            return Recording(seed, STOPPED)
        if recorded not in (RECORDED, IS_NOT_WHOLE, IS_DEADLOCK):
            return Recording(seed, NOT_RECORDED, why=last_line(log))
        triage = [wanted.racebench, "triage", "--json"]
        judged = self.run([*triage, trace], report, log)
        in_windows = bool(judged)
        if in_windows:
            judged = self.run([*triage, "--windows", trace], report, log)
        if judged is None:
            return Recording(seed, STOPPED)
        if judged:
            os.unlink(report)
            return Recording(seed, NOT_JUDGED, why=last_line(log))
        deadlock = deadlock_in(log) if recorded == IS_DEADLOCK else ""
        return Recording(seed, NOT_WHOLE if recorded else WHOLE, races_in(report), "", in_windows, deadlock)

    def record_all(self, seeds: Sequence[int], jobs: int, show: Callable[[Recording], None]) -> Dict[int, Recording]:
        """Records all seeds, this many side by side, and shows each when it is done."""
        found: Dict[int, Recording] = {}
        with concurrent.futures.ThreadPoolExecutor(jobs) as pool:
            for future in concurrent.futures.as_completed([pool.submit(self.record, seed) for seed in seeds]):
                recording = future.result()
                found[recording.seed] = recording
                if recording.state != STOPPED:
                    show(recording)
        return {seed: found[seed] for seed in seeds}


def end_group(started: "subprocess.Popen[bytes]", number: signal.Signals) -> None:
    """Sends a signal to a command and to all that it started."""
    with contextlib.suppress(ProcessLookupError):
        os.killpg(started.pid, number)


def races_in(report: str) -> int:
    """How many races a report of `triage --json` has."""
    with open(report, "rb") as file:
        return sum(map(is_race, file))


def is_race(line: bytes) -> bool:
    found = json.loads(line.decode("utf-8", "replace"))
    return "race" in (found.get("kind"), found.get("verdict"))


def source_of_input() -> int:
    """Standard input of a program: the file that this command has, from its beginning, or nothing. Programs that run
    side by side can't share a pipe."""
    with contextlib.suppress(OSError):
        if os.path.isfile(f"/proc/{os.getpid()}/fd/0"):
            return os.open(f"/proc/{os.getpid()}/fd/0", os.O_RDONLY)
    return os.open(os.devnull, os.O_RDONLY)


def remove_files(folder: str) -> None:
    """Removes the files of earlier seeds, which would be taken for those of this program."""
    for name in os.listdir(folder):
        if re.fullmatch(r"seed-\d+\.(std|clock|log|json)(\.part)?", name):
            os.unlink(os.path.join(folder, name))


def cores() -> int:
    return len(os.sched_getaffinity(0)) if sys.platform == "linux" else 1
