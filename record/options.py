"""The options that record/follow, record/confirm and record/check share."""
import argparse
import os
import stat
from typing import Callable, List

import following
import plans


def at_least(least: int) -> Callable[[str], int]:
    """A number of an option that is not below `least`."""

    def number(text: str) -> int:
        if not text.isascii() or not text.isdigit() or int(text) < least:
            raise argparse.ArgumentTypeError(f"{text!r} is no number from {least} on")
        return int(text)

    return number


def between(least: int, most: int) -> Callable[[str], int]:
    """A number of an option within bounds."""

    def number(text: str) -> int:
        if not text.isascii() or not text.isdigit() or not least <= int(text) <= most:
            raise argparse.ArgumentTypeError(f"{text!r} is no number from {least} to {most}")
        return int(text)

    return number


def add_seed(parser: argparse.ArgumentParser) -> None:
    parser.add_argument("--seed", type=at_least(0), default=1, metavar="N", help="scheduler seed after the race (1)")


def add_run_options(parser: argparse.ArgumentParser, tries: int) -> None:
    """The options of followed runs."""
    positive = at_least(1)
    parser.add_argument(
        "--tries", type=positive, default=tries, metavar="N", help=f"least number of runs of each order ({tries})"
    )
    parser.add_argument(
        "--alone",
        type=positive,
        default=plans.ALONE,
        metavar="N",
        help=f"accesses that a thread makes alone after the race ({plans.ALONE})",
    )
    parser.add_argument(
        "--patience",
        type=positive,
        default=8000,
        metavar="MS",
        help="longest time between two hooks of a schedule (8000)",
    )
    parser.add_argument(
        "--timeout",
        type=positive,
        default=60,
        metavar="S",
        help="longest time of a run in seconds, without waits for a processor (60)",
    )
    parser.add_argument(
        "--beside",
        metavar="COMMAND",
        help="starts COMMAND in a shell for each run; RACEBENCH_PROGRAM is the process id",
    )
    parser.add_argument(
        "--plain-heap",
        action="store_true",
        help="malloc as in the recording; else freed memory is filled, to show its use",
    )


def add_program(parser: argparse.ArgumentParser) -> None:
    """The program and its arguments, which may be left out."""
    text = "the program and its arguments (those of the recording)"
    parser.add_argument("command", metavar="PROGRAM", nargs=argparse.REMAINDER, help=text).required = False


def is_file(number: int) -> bool:
    """Whether a descriptor is an ordinary file, which can be read again."""
    try:
        return stat.S_ISREG(os.fstat(number).st_mode)
    except OSError:
        return False


def settings_of(chosen: argparse.Namespace, command: List[str], rewinds: bool) -> following.Settings:
    """How to follow, from these options. If `rewinds` and standard input is a file, each run reads it from its
    beginning."""
    return following.Settings(command, chosen.timeout, chosen.beside, not chosen.plain_heap, rewinds and is_file(0))
