"""What all judges share: arguments, an empty folder, a tally of what was met, the report and the exit status.

A judge is a module `judge_*.py` that ends with a call of `main`. It hands over a function that takes a `Run`. The
function raises `Wrong` at the first wrong answer, counts in `run.tally` what it meets, and returns the line to print.
A judge with many cases counts them with `run.case` instead, and goes on after a wrong one; its last line is `N passed,
M failed`.

The arguments are the program's path, then the numbers that the judge names, each with a default, then texts if it
takes some. A judge fails if it met nothing, or nothing of one of the kinds that it must meet.
"""

import argparse
import collections
import contextlib
import os
import subprocess
import sys
import tempfile
import traceback
from collections.abc import Callable, Iterable, Iterator, Mapping, Sequence

from second_tries import last_line

HERE = os.path.dirname(os.path.abspath(__file__))
# A case of a judge with many: its name, the function that judges it, and that function's arguments.
Case = tuple[str, Callable[..., None], tuple[object, ...]]

# Judges compare the line of a fault. Notes follow it only in the runs that ask for them.
os.environ["RACEBENCH_NOTES"] = "0"


class Wrong(Exception):
    """What the program prints is not what the definitions say."""


# What Python raises if an answer has another form than the judge reads.
UNREADABLE = (LookupError, ValueError, TypeError, AttributeError, FileNotFoundError, subprocess.SubprocessError)


def texts_of(names: Iterable[str]) -> str:
    """The files that the program was given, for a look at what went wrong."""
    texts = []
    for name in filter(os.path.isfile, names):
        with open(name, encoding="utf-8", errors="backslashreplace") as text:
            texts.append(f"\n--- {name}\n{text.read()}")
    return "".join(texts)


@contextlib.contextmanager
def about(what: str, *files: str) -> Iterator[None]:
    """Puts a text before each wrong answer within, and these files after it."""
    try:
        yield
    except Wrong as wrong:
        raise Wrong(f"{what}: {wrong}{texts_of(files)}") from wrong


class Run:
    """One run of a judge: the program, the numbers and texts of the arguments, and what was met."""

    def __init__(self, program: str, numbers: Sequence[int], texts: Sequence[str]) -> None:
        self.program, self.numbers, self.texts = program, numbers, texts
        self.tally: collections.Counter[str] = collections.Counter()
        self.passed = self.failed = 0
        self.second: list[str] = []

    def seeds(self) -> range:
        """As many seeds as the first number says, from the second one on."""
        count, first = self.numbers
        return range(first, first + count)

    def case(self, name: str, wrong: Iterable[str], is_second: bool = False) -> None:
        """Counts a case, and prints what is wrong with it, if anything is, or that it passed at its second try."""
        lines = [f"{name}: {what}" for what in wrong]
        if is_second and not lines:
            print(f"ok (second try)  {name}", flush=True)
            self.second.append(name)
        print("".join(f"{line}\n" for line in lines), end="", flush=True)
        self.passed += not lines
        self.failed += bool(lines)


def parsed(numbers: Mapping[str, int], texts: str | None) -> Run:
    """The run that the arguments ask for."""
    about_it = sys.modules["__main__"].__doc__
    parser = argparse.ArgumentParser(description=about_it, formatter_class=argparse.RawDescriptionHelpFormatter)
    parser.add_argument("program", metavar="PROGRAM", help="the path of racebench")
    for name, usual in numbers.items():
        parser.add_argument(name.lower(), metavar=name, nargs="?", type=int, default=usual, help=f"by default {usual}")
    if texts:
        parser.add_argument("texts", metavar=texts, nargs="*")
    options = vars(parser.parse_args())
    return Run(
        os.path.abspath(options["program"]), [options[name.lower()] for name in numbers], options.get("texts", [])
    )


def missing(run: Run, reached: Iterable[str]) -> str | None:
    """What the judge had to meet and did not; None if it met all."""
    never = [kind for kind in reached if not run.tally[kind]]
    if never:
        return f"never reached: {never}"
    return None if run.tally.total() or run.passed + run.failed else "nothing was judged"


def unreadable(what: BaseException) -> str:
    """Says that a judge could not read an answer, and where it was."""
    frames = traceback.extract_tb(what.__traceback__)
    last = [frame for frame in frames if os.path.dirname(frame.filename) == HERE][-1:] or frames[-1:]
    places = "".join(f", {os.path.basename(frame.filename)}:{frame.lineno}" for frame in last)
    return f"an answer can't be read{places}: {type(what).__name__}: {what}"


def judged(judge: Callable[[Run], str | None], run: Run, reached: Iterable[str]) -> str | None:
    """The report of the judge, which works in an empty folder; raises `Wrong` if the program is wrong, or too little
    was met."""
    with tempfile.TemporaryDirectory() as folder:
        os.chdir(folder)
        try:
            report = judge(run)
        except UNREADABLE as what:
            raise Wrong(unreadable(what)) from what
        finally:
            os.chdir("/")
    lacks = missing(run, reached)
    if lacks:
        raise Wrong(lacks)
    return report


def main(
    name: str,
    judge: Callable[[Run], str | None],
    reached: Iterable[str] = (),
    numbers: Mapping[str, int] | None = None,
    texts: str | None = None,
) -> int:
    """Runs the judge by the arguments of the command, prints its report, and returns the exit status."""
    run = parsed(numbers or {}, texts)
    failed = False
    try:
        report = judged(judge, run, reached)
        print(report if report is not None else last_line(run.passed, run.failed, run.second))
    except Wrong as wrong:
        print(f"{name}: {wrong}", file=sys.stderr)
        failed = True
        if run.passed + run.failed:
            print(last_line(run.passed, run.failed + 1, run.second))
    return 1 if failed or run.failed else 0
