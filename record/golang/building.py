"""What is made once for each version of Go, and kept in the cache: the overlay and the decoder."""

# mypy: disallow-untyped-calls=False
import os
import shutil
import subprocess
import sys
import tempfile
from dataclasses import dataclass

import built
from golang import overlay

HERE = os.path.dirname(os.path.realpath(__file__))
DECODER = os.path.join(HERE, "decode")
# The programs hold this text and the GOROOT that they were built from.
MARK = b"RACEBENCH_GOROOT="
VARIABLES = ("GOROOT", "GOVERSION", "GOOS", "GOARCH")


class NoGo(Exception):
    """Why Go can't be used, in one line."""


@dataclass
class Go:
    """A Go that is installed here."""

    command: str
    root: str
    version: str


def found() -> Go:
    """The Go of the variable RECORD_GO, or of PATH."""
    name = os.environ.get("RECORD_GO") or "go"
    command = shutil.which(name)
    if not command:
        raise NoGo(f"there is no {name}: install Debian's golang-go, or name a Go by RECORD_GO")
    done = subprocess.run([command, "env", *VARIABLES], capture_output=True, text=True, check=False)
    root, version, system, machine = (done.stdout.splitlines() + 4 * [""])[:4]
    if done.returncode or not root:
        raise NoGo(f"{command} env ended with status {done.returncode}: {done.stderr.strip()[:200]}")
    if (system, machine) != ("linux", "amd64"):
        raise NoGo(f"Go programs can be recorded for linux/amd64, and not for {system}/{machine}")
    return Go(command, root, version)


def source_files(folder: str) -> list[str]:
    return sorted(os.path.join(folder, name) for name in os.listdir(folder) if not name.startswith(("__", ".")))


def overlay_of(go: Go) -> str:
    """The path of the overlay's file for a Go, which is made once."""
    folder = built.folder()
    if folder is None:
        raise NoGo("there is no folder for the overlay: set XDG_CACHE_HOME to one that can be written")
    ours = [path for path in source_files(HERE) if os.path.isfile(path)]
    kept = os.path.join(folder, f"go-overlay-{built.key_of(ours, [go.root, go.version])}")
    path = os.path.join(kept, "overlay.json")
    if os.path.exists(path):
        return path
    part = tempfile.mkdtemp(prefix=".go-overlay", dir=folder)
    try:
        overlay.write(go.root, part, kept)
        os.rename(part, kept)
    except overlay.UnknownGo as why:
        raise NoGo(f"this Go is unknown ({go.version}, {go.root}): {why}") from None
    except OSError as error:
        if not os.path.exists(path):
            raise NoGo(f"{kept}: {error.strerror}") from None
    finally:
        shutil.rmtree(part, ignore_errors=True)
    return path


def compile_decoder(go: Go, path: str) -> int:
    """Compiles the decoder by itself, without the user's settings. Returns its status."""
    settings = dict(
        GOFLAGS="", GO111MODULE="on", CGO_ENABLED="0", GOTOOLCHAIN="local", GOWORK="off", GOOS="", GOARCH=""
    )
    surroundings = {**os.environ, **settings, "GOROOT": go.root}
    print("record: the decoder for Go is compiled, once", file=sys.stderr)
    command = [go.command, "build", "-trimpath", "-o", path, "."]
    done = subprocess.run(command, cwd=DECODER, env=surroundings, capture_output=True, text=True, check=False)
    if done.returncode:
        print(f"record: {(done.stderr.strip().splitlines() or ['no reason given'])[-1]}", file=sys.stderr)
    return done.returncode


def decoder_of(go: Go, folder: str) -> str:
    """The path of the decoder that a Go compiled, which knows the tables of its programs."""
    arguments = [go.root, go.version]
    path = built.built("go-decoder", source_files(DECODER), arguments, lambda path: compile_decoder(go, path), folder)
    if not path:
        raise NoGo(f"the decoder can't be compiled by {go.command}")
    return str(path)


def root_of(program: str) -> str | None:
    """The GOROOT of a program that record/go built; None for another file."""
    try:
        with open(program, "rb") as file:
            rest = b""
            while block := file.read(1 << 20):
                whole = rest + block
                at = whole.find(MARK)
                if at >= 0:
                    whole += file.read(4096)
                    return os.fsdecode(whole[at + len(MARK) :].split(b"\0")[0])
                rest = whole[-len(MARK) :]
    except OSError:
        pass
    return None


def go_of(root: str) -> Go:
    """The Go of a GOROOT."""
    command = os.path.join(root, "bin", "go")
    version = ""
    try:
        with open(os.path.join(root, "VERSION"), encoding="utf-8") as file:
            version = file.readline().strip()
    except OSError:
        pass
    if not os.access(command, os.X_OK):
        return found()
    return Go(command, root, version)
