"""record/cargo and record/rustc: build Rust programs for recording, and record them."""
from __future__ import annotations

# mypy: disallow-untyped-calls=False
import json
import os
import re
import subprocess
import sys
from dataclasses import dataclass, field

from golang import command as of_go
from rustlang import building

RUN = os.path.join(os.path.dirname(os.path.dirname(os.path.realpath(__file__))), "run")
# Programs are built in a folder of their own below that of the package's other programs.
FOLDER = os.path.join("target", "recorded")
REFUSED = {
    "--target": f"programs are recorded on {building.TARGET}",
    "--message-format": "record/cargo reads the messages",
    "--doc": "tests in comments can't be recorded",
}


class Refused(Exception):
    """Why nothing is done, in one line."""


@dataclass
class Arguments:
    """The arguments of record/cargo, in groups: options of record/run, those of cargo, and those of the program."""

    options: list[str] = field(default_factory=list)
    into: str = ""
    cargo: list[str] = field(default_factory=list)
    program: list[str] = field(default_factory=list)


@dataclass
class Program:
    """A program that cargo built."""

    name: str
    path: str
    package: str
    kind: str


def say(text: str) -> None:
    print(f"record/cargo: {text}", file=sys.stderr)


def arguments_of(arguments: list[str]) -> Arguments:
    """Options of record/run come first; what comes after `--` is for the program."""
    taken, rest = of_go.Arguments(), list(arguments)
    of_go.take_options(rest, taken)
    cut = rest.index("--") if "--" in rest else len(rest)
    for word in rest[:cut]:
        name = word.partition("=")[0]
        if name in REFUSED:
            raise Refused(f"{name} can't be used: {REFUSED[name]}")
    return Arguments(taken.options, taken.into, rest[:cut], rest[cut + 1 :])


def cargo_command(rust: building.Rust, verb: list[str], arguments: list[str]) -> list[str]:
    own = [] if any(word.partition("=")[0] == "--target-dir" for word in arguments) else ["--target-dir", FOLDER]
    form = ["--message-format", "json-render-diagnostics"]
    return [rust.cargo, *verb, *own, "--target", building.TARGET, *form, *arguments]


def program_in(line: str) -> Program | None:
    """The program that a message of cargo names."""
    try:
        message = json.loads(line)
    except ValueError:
        return None
    if not isinstance(message, dict) or not message.get("executable"):
        return None
    package = os.path.dirname(str(message.get("manifest_path", "")))
    target = message["target"]
    return Program(target["name"], message["executable"], package, target["kind"][0])


def built_by(rust: building.Rust, verb: list[str], arguments: list[str]) -> tuple[int, list[Program]]:
    """Calls cargo; its status, and the programs that it built."""
    environment = building.surroundings(rust, building.program_flags(rust))
    started = subprocess.Popen(
        cargo_command(rust, verb, arguments), env=environment, stdout=subprocess.PIPE, text=True, errors="replace"
    )
    programs = []
    for line in started.stdout or ():
        if program := program_in(line):
            programs.append(program)
        elif not line.startswith("{"):
            sys.stderr.write(line)
    return started.wait(), programs


def build(rust: building.Rust, arguments: list[str]) -> int:
    status, programs = built_by(rust, ["build"], arguments_of(arguments).cargo)
    for one in programs:
        say(f"record it by: record/run {os.path.relpath(one.path)}")
    return status


def run(rust: building.Rust, arguments: list[str]) -> int:
    into = arguments_of(arguments)
    status, programs = built_by(rust, ["build"], into.cargo)
    if status:
        return status
    programs = [one for one in programs if one.kind in ("bin", "example")]
    if len(programs) != 1:
        names = ", ".join(one.name for one in programs) or "none"
        raise Refused(f"{len(programs)} programs are built ({names}): choose one by --bin NAME or --example NAME")
    return subprocess.run([RUN, *into.options, programs[0].path, *into.program], check=False).returncode


def recorded_test(one: Program, options: list[str], into: Arguments) -> int:
    command = [RUN, *options, one.path, *into.program]
    if not into.into:
        return subprocess.run(command, cwd=one.package, check=False).returncode
    os.makedirs(into.into, exist_ok=True)
    to = os.path.join(into.into, f"{os.path.basename(one.package)}_{one.name}.std")
    say(f"{one.name}: {to}")
    with open(to, "wb") as out:
        return subprocess.run(command, cwd=one.package, stdout=out, check=False).returncode


def test(rust: building.Rust, arguments: list[str]) -> int:
    """Builds the tests and records each program of tests in the folder of its package."""
    into = arguments_of(arguments)
    # A word that is no flag names the tests to run, as for cargo.
    while into.cargo and not into.cargo[-1].startswith("-") and is_a_filter(into.cargo):
        into.program.insert(0, into.cargo.pop())
    status, programs = built_by(rust, ["test", "--no-run"], into.cargo)
    if status:
        return status
    if not programs:
        raise Refused("no package has tests")
    if len(programs) > 1 and not into.into:
        names = ", ".join(one.name for one in programs)
        raise Refused(f"{len(programs)} programs of tests ({names}): --into FOLDER writes a trace of each")
    options, worst = of_go.absolute(into.options), 0
    into.into = os.path.abspath(into.into) if into.into else ""
    for one in programs:
        worst = recorded_test(one, options, into) or worst
    return worst


def is_a_filter(arguments: list[str]) -> bool:
    """Whether the last word is no value of the flag before it."""
    before = arguments[-2] if len(arguments) > 1 else ""
    flags = (
        "-p --package --test --bin --example --bench --features -F -j --jobs --profile --target-dir --manifest-path"
    )
    return before not in [*flags.split(), "--exclude", "--config", "--color", "-Z", "-C"]


def main_of_cargo(arguments: list[str], usage: str) -> int:
    verbs = {"build": build, "test": test, "run": run}
    if not arguments or arguments[0] in ("-h", "--help", "help"):
        print(usage.strip())
        return 0 if arguments else 2
    try:
        if arguments[0] not in verbs:
            raise Refused(f"{arguments[0]} is none of build, test and run")
        return verbs[arguments[0]](building.found(), arguments[1:])
    except (Refused, of_go.Refused, building.NoRust) as why:
        say(str(why))
        return 2
    except OSError as error:
        say(f"{error.filename}: {error.strerror}")
        return 1


def main_of_rustc(arguments: list[str], usage: str) -> int:
    if not arguments or arguments[0] in ("-h", "--help"):
        print(usage.strip())
        return 0 if arguments else 2
    try:
        rust = building.found()
        refused = next((word for word in arguments if re.match(r"--(target|sysroot)\b|-Clinker\b", word)), None)
        if refused:
            raise Refused(f"{refused} can't be used: record/rustc has its own")
        environment = {**os.environ, "RUSTC_BOOTSTRAP": "1"}
        call = [rust.rustc, *building.program_flags(rust), "--target", building.TARGET, *arguments]
        return subprocess.run(call, env=environment, check=False).returncode
    except (Refused, building.NoRust) as why:
        print(f"record/rustc: {why}", file=sys.stderr)
        return 2
    except OSError as error:
        print(f"record/rustc: {error.filename}: {error.strerror}", file=sys.stderr)
        return 1
