"""record/go: builds Go programs for recording, and records them."""

# mypy: disallow-untyped-calls=False
import os
import re
import subprocess
import sys
import tempfile
from dataclasses import dataclass, field

from golang import building

RUN = os.path.join(os.path.dirname(os.path.dirname(os.path.realpath(__file__))), "run")
# The options of record/run, and whether each has a value.
OPTIONS = {
    **dict.fromkeys("seed yield max room frames from for only raw clock trust".split(), True),
    **dict.fromkeys("free no-free stream status slots partial".split(), False),
}
# Flags of go test that are for the test itself, and whether each has a value.
TEST_FLAGS = {
    **dict.fromkeys("bench benchtime blockprofile blockprofilerate count coverprofile cpu cpuprofile".split(), True),
    **dict.fromkeys("fuzz fuzztime list memprofile memprofilerate mutexprofile mutexprofilefraction".split(), True),
    **dict.fromkeys("outputdir parallel run shuffle skip timeout trace".split(), True),
    **dict.fromkeys("benchmem failfast fullpath short v".split(), False),
}
# Flags of go build that have a value.
BUILD_FLAGS = (
    "C asmflags buildmode compiler covermode coverpkg gccgoflags gcflags installsuffix ldflags mod modfile o p pgo "
    "pkgdir tags toolexec vet"
).split()
REFUSED = {"overlay": "record/go has an overlay already", "exec": "record/run runs the tests", "msan": "", "asan": ""}


class Refused(Exception):
    """Why nothing is done, in one line."""


@dataclass
class Arguments:
    """The arguments of record/go, in groups."""

    options: list[str] = field(default_factory=list)
    into: str = ""
    build: list[str] = field(default_factory=list)
    packages: list[str] = field(default_factory=list)
    test: list[str] = field(default_factory=list)
    rest: list[str] = field(default_factory=list)


def name_of(word: str) -> str:
    """The name of a flag, such as `run` of `-run=X`; empty if the word is no flag."""
    found = re.match(r"--?([A-Za-z][\w.-]*)", word)
    return found[1] if found else ""


def taken(arguments: list[str], has_value: bool) -> list[str]:
    """The flag at the beginning of the arguments, with its value."""
    first = arguments.pop(0)
    if not has_value or "=" in first:
        return [first]
    if not arguments:
        raise Refused(f"{first} needs a value")
    return [first, arguments.pop(0)]


def take_options(arguments: list[str], into: Arguments) -> None:
    """Takes the options of record/run, which come first."""
    while arguments and arguments[0].startswith("--"):
        name = name_of(arguments[0])
        if name == "into":
            into.into = taken(arguments, True)[-1].removeprefix("--into=")
        elif name in OPTIONS:
            into.options += taken(arguments, OPTIONS[name])
        else:
            return


def take_build_flag(arguments: list[str], into: Arguments) -> None:
    name = name_of(arguments[0])
    if name in REFUSED:
        raise Refused(f"-{name} can't be used" + (f": {REFUSED[name]}" if REFUSED[name] else " for a recording"))
    flag = taken(arguments, name in BUILD_FLAGS)
    if name != "race":
        into.build += flag


def arguments_of_test(arguments: list[str]) -> Arguments:
    into = Arguments()
    take_options(arguments, into)
    while arguments:
        name = name_of(arguments[0])
        if arguments[0] in ("-args", "--args"):
            into.test += arguments[1:]
            break
        if not name:
            into.packages.append(arguments.pop(0))
        elif name.removeprefix("test.") in TEST_FLAGS:
            name = name.removeprefix("test.")
            flag = taken(arguments, TEST_FLAGS[name])
            value = flag[1] if len(flag) > 1 else flag[0].partition("=")[2]
            into.test.append(f"-test.{name}={value}" if value or TEST_FLAGS[name] else f"-test.{name}")
        else:
            take_build_flag(arguments, into)
    return into


def arguments_of_run(arguments: list[str]) -> Arguments:
    into = Arguments()
    take_options(arguments, into)
    while arguments and name_of(arguments[0]):
        take_build_flag(arguments, into)
    while arguments and (not into.packages or (into.packages[0].endswith(".go") and arguments[0].endswith(".go"))):
        into.packages.append(arguments.pop(0))
    into.rest = arguments
    if not into.packages:
        raise Refused("run needs a package or the files of one")
    return into


def build_command(go: building.Go, verb: str) -> list[str]:
    return [go.command, verb, "-race", "-overlay", building.overlay_of(go)]


def go_done(command: list[str]) -> int:
    return subprocess.run(command, env={**os.environ, "CGO_ENABLED": "1"}, check=False).returncode


def warn_of_names(flags: list[str]) -> None:
    if any(
        re.search(r"(^|[\s=])-[sw]\b", flag) for flag in flags if "ldflags" not in flag.split("=")[0] or "=" in flag
    ):
        print(
            "record/go: -ldflags with -s or -w: the trace will lack the names of types and variables", file=sys.stderr
        )


def build(go: building.Go, arguments: list[str]) -> int:
    into = Arguments()
    copy = list(arguments)
    while copy:
        if name_of(copy[0]):
            take_build_flag(copy, into)
        else:
            copy.pop(0)
    warn_of_names(into.build)
    return go_done([*build_command(go, "build"), *arguments])


def clock_of(options: list[str]) -> str | None:
    """The file that --clock names, if there is one."""
    for k, word in enumerate(options):
        name, equals, value = word.partition("=")
        if name == "--clock":
            return value if equals else options[k + 1]
    return None


def program_at(options: list[str], otherwise: str) -> str:
    """Where a program is built: beside its clock, since record/follow runs it again, or else in a folder that goes."""
    clock = clock_of(options)
    if clock is None:
        return otherwise
    program = os.path.abspath(clock) + ".program"
    print(f"record/go: {program} stays, for record/follow and record/confirm", file=sys.stderr)
    return program


def run(go: building.Go, arguments: list[str]) -> int:
    into = arguments_of_run(arguments)
    with tempfile.TemporaryDirectory(prefix="record") as folder:
        name = os.path.splitext(os.path.basename(into.packages[0]))[0].strip(".") or "program"
        program = program_at(into.options, os.path.join(folder, name))
        status = go_done([*build_command(go, "build"), *into.build, "-o", program, *into.packages])
        return status or subprocess.run([RUN, *into.options, program, *into.rest], check=False).returncode


def packages_with_tests(go: building.Go, into: Arguments) -> list[tuple[str, str]]:
    """The packages that have tests: the path and the folder of each."""
    form = "{{.ImportPath}}\t{{.Dir}}\t{{len .TestGoFiles}}{{len .XTestGoFiles}}"
    command = [go.command, "list", "-race", "-f", form, *into.build, *into.packages]
    done = subprocess.run(
        command, env={**os.environ, "CGO_ENABLED": "1"}, stdout=subprocess.PIPE, text=True, check=False
    )
    if done.returncode:
        raise Refused(f"go list ended with status {done.returncode}")
    rows = [line.split("\t") for line in done.stdout.splitlines()]
    found = [(path, folder) for path, folder, tests in rows if tests != "00"]
    if not found:
        raise Refused("no package has tests")
    return found


def absolute(options: list[str]) -> list[str]:
    """The options of record/run with whole paths: the tests run in the folder of their package."""
    whole, names = [], ("--raw", "--clock")
    for k, word in enumerate(options):
        name, equals, value = word.partition("=")
        if k and options[k - 1] in names:
            word = os.path.abspath(word)
        elif name in names and equals:
            word = f"{name}={os.path.abspath(value)}"
        whole.append(word)
    return whole


def test(go: building.Go, arguments: list[str]) -> int:
    into = arguments_of_test(arguments)
    found = packages_with_tests(go, into)
    if len(found) > 1 and not into.into:
        raise Refused(f"{len(found)} packages have tests: --into FOLDER writes a trace of each")
    if into.into and clock_of(into.options):
        raise Refused("--into writes several traces, and --clock is of one")
    worst, options = 0, absolute(into.options)
    with tempfile.TemporaryDirectory(prefix="record") as folder:
        for path, place in found:
            program = program_at(options, os.path.join(folder, os.path.basename(path) + ".test"))
            status = go_done([*build_command(go, "test"), "-c", "-o", program, *into.build, path])
            worst = status or recorded_test(path, place, [RUN, *options, program, *into.test], into.into) or worst
    return worst


def recorded_test(path: str, place: str, arguments: list[str], into: str) -> int:
    if not into:
        return subprocess.run(arguments, cwd=place, check=False).returncode
    os.makedirs(into, exist_ok=True)
    to = os.path.join(into, path.replace("/", "_") + ".std")
    print(f"record/go: {path}: {to}", file=sys.stderr)
    with open(to, "wb") as out:
        return subprocess.run(arguments, cwd=place, stdout=out, check=False).returncode


def main(arguments: list[str], usage: str) -> int:
    verbs = {"build": build, "test": test, "run": run}
    if not arguments or arguments[0] in ("-h", "--help", "help"):
        print(usage.strip())
        return 0 if arguments else 2
    try:
        if arguments[0] not in verbs:
            raise Refused(f"{arguments[0]} is none of build, test and run")
        go = building.found()
        if arguments[0] == "test" and "-c" in arguments:
            return go_done([*build_command(go, "test"), *arguments[1:]])
        return verbs[arguments[0]](go, arguments[1:])
    except (Refused, building.NoGo) as why:
        print(f"record/go: {why}", file=sys.stderr)
        return 2
    except OSError as error:
        print(f"record/go: {error.filename}: {error.strerror}", file=sys.stderr)
        return 1
