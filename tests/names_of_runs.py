"""Runs the commands of a case as subprocess.run does. If one is `record/run`, its raw file is kept too, and the names
of its trace are judged by raw_objects.py: so they are judged in each recording of these cases.

What no other judge sees: a name that two objects share, in a program whose names no table has.
"""

import functools
import os
import subprocess
import sys
import tempfile
from collections.abc import Mapping, Sequence

from judging import Wrong

TOP = os.path.dirname(os.path.dirname(os.path.abspath(__file__)))
RECORD = os.path.join(TOP, "record")
RUN = os.path.join(RECORD, "run")
JUDGE = os.path.join(TOP, "tests", "raw_objects.py")
# The decoder is compiled once, which takes minutes on a machine that does much else.
COMPILING = 1800
# A Python that has Debian's python3-pyelftools: the one that runs this, or Debian's own.
PYTHONS = (sys.executable, "/usr/bin/python3")
# Recordings with more events are not judged here: the judge is slow.
MOST_EVENTS = 100_000


@functools.cache
def python() -> str:
    for path in PYTHONS:
        if subprocess.run([path, "-c", "import elftools"], capture_output=True, check=False).returncode == 0:
            return path
    raise Wrong("the judge of the decoder needs Debian's package python3-pyelftools")


def decoder() -> str:
    """The path of the decoder, which is compiled if it is not there yet."""
    text = "import sys; sys.path.insert(0, sys.argv[1]); import decoders; print(decoders.path())"
    done = subprocess.run([sys.executable, "-c", text, RECORD], capture_output=True, timeout=COMPILING, check=False)
    if done.returncode:
        raise Wrong(f"there is no decoder: {done.stderr.decode(errors='replace')[-600:]}")
    return done.stdout.decode().strip()


def run(
    command: Sequence[str],
    timeout: float,
    env: Mapping[str, str] | None = None,
    cwd: str | None = None,
    text: bytes | None = None,
) -> subprocess.CompletedProcess[bytes]:
    """Runs a command and keeps its output; `text` is its input. A run that writes no raw file has no names."""

    def ran(words: Sequence[str]) -> subprocess.CompletedProcess[bytes]:
        return subprocess.run(words, capture_output=True, timeout=timeout, check=False, env=env, cwd=cwd, input=text)

    if command[0] != RUN or "--raw" in command:
        return ran(command)
    with tempfile.TemporaryDirectory() as folder:
        raw = os.path.join(folder, "names.raw")
        done = ran([RUN, "--raw", raw, *command[1:]])
        if os.path.exists(raw) and os.path.getsize(raw):
            judge(raw, folder)
    return done


def judge(raw: str, folder: str) -> int:
    """Judges the names that the decoder gives in a raw file; how many there are."""
    trace, numbers = os.path.join(folder, "names.std"), os.path.join(folder, "names.numbers")
    with open(trace, "wb") as out:
        command = [decoder(), "--all", "--numbers", numbers, raw]
        ended = subprocess.run(command, stdout=out, stderr=subprocess.DEVNULL, check=False)
    if ended.returncode or os.path.getsize(numbers) > 8 * MOST_EVENTS:
        return 0
    done = subprocess.run([python(), JUDGE, raw, trace, numbers], capture_output=True, check=False)
    if done.returncode:
        raise Wrong(f"names: {done.stderr.decode(errors='replace')[-600:]}")
    return int(done.stdout)
