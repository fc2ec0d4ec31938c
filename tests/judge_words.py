#!/usr/bin/env python3
"""Judges which words the program takes after its name: flags that exclude one another, the least and the most of each
number, dates, standard input that is named twice, and what goes with what; and what is meant if a number is not given.

    judge_words.py PROGRAM

The tables are written from docs/FORMATS.md. A refusal has status 2, an empty standard output and a first line that
says why; other words have another status. Says what is wrong, if something is, and ends with status 1 then.
"""

import itertools
import re
import subprocess
import sys

if __name__ == "__main__":
    sys.dont_write_bytecode = True
import judging
import running
from judging import Wrong

TRACE = "A|w(x)|1\nB|w(x)|2\n"
# Of each command, what comes before its flags, and the flags of which at most one is taken.
FORMS = {
    "triage": (["t"], ["--json", "--lines", "--page", "--sarif", "--init-triage"]),
    "merge": (["part"], ["--json", "--page", "--sarif"]),
    "witness": (["t", "0", "1"], ["--script", "--std", "--svg"]),
}
# Numbers: the arguments before, the least and the most.
NUMBERS = [
    ("triage t --tries ", 0, 4096),
    ("triage t --workers ", 0, 16),
    ("triage t --windows=", 1, 1048576),
    ("cut t --windows ", 1, 1048576),
    ("cut t --window ", 0, 4294967295),
    ("session t log --client ", 1, 32),
    ("threads t s --workers ", 0, 16),
    ("threads t s --room ", 1, 32),
]
# Dates that there are, and that there are not.
DAYS = (
    "2027-01-31 2027-02-28 2028-02-29 2000-02-29 2400-02-29 2027-03-31 2027-04-30 2027-05-31 2027-06-30 2027-07-31 "
    "2027-08-31 2027-09-30 2027-10-31 2027-11-30 2027-12-31 2027-01-01 9999-12-31"
)
NO_DAYS = (
    "2027-01-32 2027-02-29 2028-02-30 2100-02-29 1900-02-29 2027-03-32 2027-04-31 2027-05-32 2027-06-31 "
    "2027-07-32 2027-08-32 2027-09-31 2027-10-32 2027-11-31 2027-12-32 2027-01-00 2027-00-01 2027-13-01 "
    "2027-1-01 2027-01-1 20270101 2027/01/01 2027-01/01 2027-01-0x x027-01-01 2027-01-011 +027-01-01 today"
)
# Words that name standard input twice.
TWICE = [
    *["triage - --known -", "triage - --triage -", "triage - --page --confirmed -", "triage t --known - --triage -"],
    *["triage t --known - --page --confirmed -", "triage t --triage - --page --confirmed -", "merge - -"],
    *["merge - part -", "merge - --known -", "merge part - --triage -", "merge part --known - --triage -"],
    *["replay - -", "threads - -", "threads t - -", "threads t - s -", "triage - --windows --known -"],
]
# Why an empty text is refused, by which all blocks would be left out, or none.
EMPTY = "`--only` and `--hide` take a text that is not empty"
# What goes with something else alone, or not with it, and why it is refused.
ALONE = "`--windows` does not go with `--lines`, `--init-triage`, `--confirmed`"
CODED = "`--source` goes with `--sarif` or `--lines`"
GOES = [
    *[(f"{arguments} --source .", CODED) for arguments in ("triage t", "triage t --page", "triage t --json")],
    *[
        (f"{arguments} --source .", "`--source` goes with `--sarif`")
        for arguments in ("merge part", "merge part --json")
    ],
    *[
        (f"{arguments} --today 2027-06-01", "`--today` goes with `--triage`")
        for arguments in ("triage t", "merge part")
    ],
    *[(f"triage t {form} --confirmed c", "`--confirmed` goes with `--page`") for form in ("", "--json", "--sarif")],
    *[(f"triage t {word} --windows{size}", ALONE) for word in ("--lines", "--init-triage") for size in ("", "=4")],
    ("triage t --page --confirmed c --windows", ALONE),
    ("cut t --into d --window 0", "`--into` writes all windows, and `--window` prints one"),
    ("triage t --windows 4", "`--windows` takes its number after `=`, as in `--windows=1000`"),
    ("triage --windows 4 t --apart", "`--windows` takes its number after `=`, as in `--windows=1000`"),
    *[
        (f"{arguments} --hide=", EMPTY)
        for arguments in ("triage t", "triage t --windows", "merge part", "triage t --hide x")
    ],
    *[
        (f"{arguments} --only=", EMPTY)
        for arguments in ("triage t", "triage t --windows", "merge part", "merge part --only x")
    ],
    *[
        (f"{arguments} --only= --fail", EMPTY)
        for arguments in ("triage t --hide x", "triage t --json", "merge part --page")
    ],
]
# Words of which one is missing, or is one too many.
COUNTS = [
    *["info", "replay", "replay t", "session", "session t", "log", "threads", "threads t", "triage", "explain t"],
    *["explain t 0", "witness t", "witness t 0", "cut", "merge", "info t t", "replay t s s", "session t log log"],
    *["log log log", "triage t t", "explain t 0 1 1", "witness t 0 1 1", "cut t t", "triages", "tri"],
    *["info t --json", "replay t s --client 1", "log log --json", "explain t 0 1 --svg", "witness t 0 1 --all"],
    *["cut t --tries 1", "merge part --tries 1", "merge part --lines", "merge part --init-triage", "explain t 0 -1"],
]
# Words that are taken together.
TAKEN = [
    *[f"triage t --windows=4 {more}" for more in ("--json", "--page", "--sarif", "--sarif --source .", "--known k")],
    *[f"triage t --windows=4 {more}" for more in ("--only x --only y --hide z", "--apart --tries 0 --workers 2")],
    *["triage t --windows=4 --triage f --today 2027-06-01 --progress", "triage - --windows", "triage t --known -"],
    *[f"triage t {more}" for more in ("--triage -", "--page --confirmed -", "--sarif --source .", "--apart --json")],
    *[f"merge part {more}" for more in ("--known -", "--triage -", "--sarif --source .", "--apart --page", "part")],
    *["merge -", "replay - s", "replay t -", "threads t -", "threads - s", "explain - 0 1 --all", "witness - 0 1"],
    *["cut - --windows 1", "log -", "info -", "help", "help merge", "--help", "-h", "merge -h", "--version", "-V"],
]
REACHED = ["excluded", "least", "most", "too small", "too large", "signed", "day", "no day", "twice", "goes"]
REACHED += ["counted", "taken", "usual"]


class Judge:
    def __init__(self, run: judging.Run) -> None:
        self.program, self.tally = run.program, run.tally

    def ended(self, arguments: list[str]) -> tuple[int, bytes, str]:
        """The status, and what is written on standard output and standard error; nothing is on standard input."""
        done = subprocess.run(
            [self.program, *arguments],
            stdin=subprocess.DEVNULL,
            capture_output=True,
            timeout=running.PATIENCE,
            check=False,
        )
        return done.returncode, done.stdout, done.stderr.decode()

    def refused(self, arguments: list[str], kind: str) -> str:
        """The first line of why the arguments are refused."""
        status, out, err = self.ended(arguments)
        if status != 2 or out or not err.startswith("error: "):
            raise Wrong(f"{arguments} end with {status}, and not with 2: {err!r}")
        self.tally[kind] += 1
        return err.partition("\n")[0].removeprefix("error: ")

    def taken(self, arguments: list[str], kind: str) -> None:
        """The arguments are accepted; what the command then does is not judged."""
        status, _, err = self.ended(arguments)
        if status not in (0, 1) or err.startswith("error: "):
            raise Wrong(f"{arguments} end with {status}: {err!r}")
        self.tally[kind] += 1

    def judge_forms(self) -> None:
        for command, (arguments, forms) in FORMS.items():
            for form in forms:
                self.taken([command, *arguments, form], "taken")
            for pair in itertools.permutations(forms, 2):
                reason = self.refused([command, *arguments, *pair], "excluded")
                if set(re.findall(r"--[a-z-]+", reason)) != set(pair) or " cannot be used with " not in reason:
                    raise Wrong(f"{command} {pair} is refused since {reason!r}")

    def judge_numbers(self) -> None:
        for before, least, most in NUMBERS:
            for number, kind in [(least, "least"), (most, "most"), (f"000{most}", "most")]:
                self.taken(f"{before}{number}".split(" "), kind)
            for number, kind in [(least - 1, "too small"), (most + 1, "too large"), (2**64 + least, "too large")]:
                reason = self.refused(f"{before}{number}".split(" "), kind)
                if number == most + 1 and f"is not in {least}..={most}" not in reason:
                    raise Wrong(f"{before}{number} is refused since {reason!r}")
            # The option for tests may have a sign.
            for number in [*[f"+{most}"] * ("--room" not in before), f"{most}x", "x", "0x1", "1.0"]:
                self.refused(f"{before}{number}".split(" "), "signed")

    def judge_days(self) -> None:
        for command in ("triage t", "merge part", "triage t --windows"):
            arguments = [*command.split(" "), "--triage", "f", "--today"]
            for day in DAYS.split(" "):
                self.taken([*arguments, day], "day")
            for day in NO_DAYS.split(" "):
                reason = self.refused([*arguments, day], "no day")
                if reason != "`--today` takes a date such as 2027-12-31":
                    raise Wrong(f"{command} of the day {day} is refused since {reason!r}")

    def judge_tables(self) -> None:
        for arguments in TWICE:
            reason = self.refused(arguments.split(), "twice")
            if reason != "`-` is standard input, and may be given once":
                raise Wrong(f"{arguments} is refused since {reason!r}")
        for arguments, why in GOES:
            reason = self.refused(arguments.split(), "goes")
            if reason != why:
                raise Wrong(f"{arguments} is refused since {reason!r}")
        for arguments in COUNTS:
            self.refused(arguments.split(), "counted")
        for arguments in TAKEN:
            self.taken(arguments.split(), "taken")

    def judge_usual(self) -> None:
        """What is meant if a number is not given."""
        running.write("long", TRACE + "A|w(x)|\n" * 1_000_001)
        for arguments, usual, other in [
            ("triage long --windows", "triage long --windows=1000000", "triage long --windows=999999"),
            ("cut long", "cut long --windows 1000000 --window 0", "cut long --windows 999999"),
            ("cut long --windows 9", "cut long --windows 9 --window 0", "cut long --windows 9 --window 1"),
        ]:
            found, wanted, unlike = (
                running.printed(self.program, line.split(" ")) for line in (arguments, usual, other)
            )
            if found != wanted or found == unlike:
                raise Wrong(f"{arguments} is not {usual}")
            self.tally["usual"] += 1


def judged(run: judging.Run) -> str:
    judge = Judge(run)
    running.write("t", TRACE)
    running.write("s", "1 new A\n")
    running.write("f", "")
    running.write("k", "race 0 1\n  A|w(x)|1\n  B|w(x)|2\n")
    running.write("part", running.printed(run.program, ["triage", "t", "--json"]).decode())
    judge.judge_forms()
    judge.judge_numbers()
    judge.judge_days()
    judge.judge_tables()
    judge.judge_usual()
    return "words: " + ", ".join(f"{count} {kind}" for kind, count in sorted(run.tally.items()))


if __name__ == "__main__":
    sys.exit(judging.main("words", judged, REACHED))
