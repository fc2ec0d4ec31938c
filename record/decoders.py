"""Calls the decoder, which makes traces of raw files. It is compiled at its first use, unless the package has it."""
from __future__ import annotations

import functools
import glob
import os
import re
import shutil
import subprocess
import sys
import tempfile
from array import array
from typing import IO, NamedTuple, Protocol

import built
import running

HERE = os.path.dirname(os.path.realpath(__file__))
# The folder of the decoder in the package, if this folder is the package's.
PACKAGED = "share/planecarmine/record", "lib/planecarmine/decoder"
SOURCE = os.path.join(HERE, "decoder", "all.cpp")
OPTIONS = ["-std=c++17", "-O2", "-pthread"]
LIBRARIES = ["-ldw", "-lelf", "-lz"]
ADVICE = "install g++ and libdw-dev, or name a compiler in RECORD_CXX"


class Undecodable(Exception):
    """Why there is no trace."""


class Lines(Protocol):
    """What takes the lines of a trace."""

    def write(self, line: bytes) -> None:
        ...


def compiler() -> str:
    return os.environ.get("RECORD_CXX") or "g++"


def call_of_compiler(path: str) -> list[str]:
    """The call that makes the decoder at a path."""
    return [compiler(), *OPTIONS, SOURCE, "-o", path, *LIBRARIES]


def reason_in(errors: str) -> str:
    """Why the compiler failed: its first error, or the header or library that is missing."""
    for line in errors.splitlines():
        if "elfutils/libdw.h" in line or "dwarf.h" in line or "-ldw" in line:
            return "there is no libdw-dev"
        if "error" in line or "cannot find" in line:
            return line.strip()
    return f"{compiler()} failed"


def compile_to(path: str) -> int:
    """Compiles the decoder; the compiler's status, which is 0."""
    if shutil.which(compiler()) is None:
        raise Undecodable(f"the decoder can't be compiled: there is no {compiler()}; {ADVICE}")
    print("record: the decoder is compiled, once", file=sys.stderr)
    surroundings = dict(os.environ, LC_ALL="C")
    done = subprocess.run(
        call_of_compiler(path), capture_output=True, text=True, errors="replace", env=surroundings, check=False
    )
    if done.returncode:
        raise Undecodable(f"the decoder can't be compiled: {reason_in(done.stderr)}; {ADVICE}")
    return 0


@functools.cache
def folder() -> tempfile.TemporaryDirectory[str]:
    """A folder for a decoder that can't be kept. It lasts as long as this process."""
    return tempfile.TemporaryDirectory(prefix="record")


def packaged() -> str | None:
    """The path of the package's decoder, or None in a clone of the repository."""
    ours, theirs = PACKAGED
    if not HERE.endswith("/" + ours):
        return None
    found = HERE.removesuffix(ours) + theirs
    return found if os.access(found, os.X_OK) else None


@functools.cache
def path() -> str:
    """The path of the decoder."""
    if found := packaged():
        return found
    sources = sorted(glob.glob(os.path.join(HERE, "decoder", "*.[ch]pp")))
    sources += [os.path.join(HERE, "runtime", name) for name in ("format.h", "reading.h")]
    otherwise = "" if built.folder() else folder().name
    made = built.built("decoder", sources, [compiler(), *OPTIONS, *LIBRARIES], compile_to, otherwise)
    if not made:
        raise Undecodable("the decoder can't be kept")
    return made


class Wait(NamedTuple):
    """A thread of a deadlock: where it waits, for which lock, which thread holds that, and since where."""

    thread: str
    place: str
    lock: str
    holder: str
    since: str


class Facts:
    """What the decoder reports of a trace: counts and some places that were counted, by cause how much was left out
    and what has a name, and the deadlock that the run ended in."""

    def __init__(self, text: str) -> None:
        self.counts: dict[str, int] = {}
        self.losses: dict[str, int] = {}
        self.names: dict[str, list[str]] = {}
        self.places: dict[str, list[str]] = {}
        self.deadlock: list[Wait] = []
        for line in text.splitlines():
            if found := re.fullmatch(r"fact (\w+) (\d+)", line):
                self.counts[found[1]] = int(found[2])
            elif found := re.fullmatch(r"loss ([A-Z ]+) (\d+)", line):
                self.losses[found[1]] = int(found[2])
            elif found := re.fullmatch(r"lost ([A-Z]+) (.*)", line):
                self.names.setdefault(found[1], []).append(found[2])
            elif found := re.fullmatch(r"place (\w+) (.*)", line):
                self.places.setdefault(found[1], []).append(found[2])
            elif found := re.fullmatch(r"deadlock (\d+)\|([^|]*)\|([^|]*)\|(\d+)\|([^|]*)", line):
                self.deadlock.append(Wait(*found.groups()))
            else:
                print(line, file=sys.stderr)


def run_decoder(call: list[str], files: list[int], out: Lines | None) -> tuple[int, str]:
    """Runs the decoder with open files of these numbers. Returns its status, and its standard error."""
    with tempfile.TemporaryFile() as errors:
        started = subprocess.Popen(
            call,
            stdout=subprocess.PIPE if out else None,
            stderr=errors,
            pass_fds=files,
            preexec_fn=running.be_deaf,
        )
        if out and started.stdout:
            for line in started.stdout:
                out.write(line)
        status = started.wait()
        errors.seek(0)
        return status, errors.read().decode(errors="replace")


def searched(call: list[str], source: IO[bytes], out: IO[bytes]) -> tuple[int, str]:
    """Runs the decoder as a search, from one file to another. Returns its status, and its standard error."""
    done = subprocess.run(call, stdin=source, stdout=out, stderr=subprocess.PIPE, check=False)
    return done.returncode, done.stderr.decode(errors="replace")


def decoded(
    file: IO[bytes],
    options: list[str],
    out: Lines | None = None,
    numbered: bool = False,
    values: IO[bytes] | None = None,
) -> tuple[Facts, array[int]]:
    """Decodes an open raw file by the decoder's options. The trace goes to standard output, or line by line to `out`.
    The values of its events go to `values`. Returns the facts of the trace, and the numbers of its events' records if
    they are wanted."""
    record_of = array("Q")
    with tempfile.TemporaryFile() as numbers:
        files = [file.fileno(), numbers.fileno()]
        more = ["--numbers", f"/dev/fd/{files[1]}"] if numbered else []
        if values:
            files.append(values.fileno())
            more += ["--values", f"/dev/fd/{files[2]}"]
        call = [path(), *options, *more, f"/dev/fd/{files[0]}"]
        status, errors = run_decoder(call, files, out)
        facts = Facts(errors)
        if status:
            raise Undecodable("the trace was not written whole" + (f": signal {-status}" if status < 0 else ""))
        if numbered:
            record_of.frombytes(numbers.read())
    return facts, record_of
