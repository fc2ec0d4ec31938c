#!/usr/bin/env python3
"""Judges tools/older: the program that it makes takes nothing newer than version 2.28 of the C library, and prints what
the program prints that it is made of.

With OLD_ROOT, a folder with an older system (`debootstrap bullseye`) and its `/proc`, the program is run there too.
"""

import os
import re
import shutil
import subprocess
import sys

if __name__ == "__main__":
    sys.dont_write_bytecode = True
import judging
from judging import Wrong

TOP = os.path.dirname(os.path.dirname(os.path.abspath(__file__)))
NEWEST = (2, 28)
COMMANDS = [
    ["--version"],
    ["triage", "pdsh.std", "--workers", "4"],
    ["triage", "pdsh.std", "--json"],
    ["explain", "count.std", "7", "12"],
    ["threads", "two_pairs.std", "empty", "--workers", "1"],
    ["triage", "missing.std"],
]


def ended(arguments: list[str]) -> tuple[int, bytes, bytes]:
    done = subprocess.run(arguments, capture_output=True, check=False, timeout=900)
    return done.returncode, done.stdout, done.stderr


def needed(path: str) -> tuple[int, ...]:
    """The newest version of the C library that a file takes something of."""
    versions = subprocess.run(["readelf", "--version-info", "--wide", path], capture_output=True, check=True).stdout
    return max(tuple(map(int, found.split(b"."))) for found in re.findall(rb"GLIBC_([0-9.]+)", versions))


def in_old_root(root: str, folder: str) -> list[str]:
    """The command before the program that runs it in the older system, on the files of this folder."""
    place = os.path.join(root, "older")
    shutil.rmtree(place, ignore_errors=True)
    shutil.copytree(folder, place)
    return ["chroot", root, "sh", "-c", 'cd older && exec older/bin/racebench "$@"', "sh"]


def judged(run: judging.Run) -> str:
    for name in ["count", "pdsh", "two_pairs"]:
        shutil.copy(os.path.join(TOP, "examples", f"{name}.std"), ".")
    with open("empty", "w", encoding="ascii"):
        pass
    if not shutil.which("patchelf") or not shutil.which("gcc"):
        if not re.fullmatch(rb"racebench [0-9]+\.[0-9]+\.[0-9]+\n", ended([run.program, "--version"])[1]):
            raise Wrong("the program prints no version")
        run.tally["not tried"] += 1
        return "older: patchelf or gcc is not here, so nothing was made"
    subprocess.run([os.path.join(TOP, "tools", "older"), run.program, "older"], capture_output=True, check=True)
    for path in ["older/bin/racebench", "older/lib/planecarmine/libolder.so"]:
        if needed(path) > NEWEST:
            raise Wrong(f"{path} needs version {needed(path)}")
    systems = {"this system": [os.path.abspath("older/bin/racebench")]}
    if os.environ.get("OLD_ROOT"):
        systems["OLD_ROOT"] = in_old_root(os.environ["OLD_ROOT"], os.getcwd())
    for arguments in COMMANDS:
        wanted = ended([run.program, *arguments])
        for system, program in systems.items():
            run.tally[system] += 1
            if ended([*program, *arguments]) != wanted:
                raise Wrong(f"{arguments} on {system}: {ended([*program, *arguments])}, and not {wanted}")
    return "older: " + ", ".join(f"{count} commands on {system}" for system, count in run.tally.items())


if __name__ == "__main__":
    sys.exit(judging.main("older", judged))
