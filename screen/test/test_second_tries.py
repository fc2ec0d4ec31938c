"""The runner of the tests: which tests it tries twice, what it counts, and what it prints."""

import os
import re
import subprocess
import sys

import traces
from comparing import same
from second_tries import LAST, last_line

RUN = os.path.join(os.path.dirname(os.path.abspath(__file__)), "run.py")
# A module of tests. A test fails as often as its number says, and then passes; its file has a byte for each try.
MADE = """import pathlib
import pytest

@pytest.mark.parametrize(("at", "failures"), {})
def test_case(at, failures):
    tries = pathlib.Path(__file__).with_name(f"tries-{{at}}")
    with tries.open("ab") as file:
        file.write(b".")
    assert tries.stat().st_size > failures
"""


def ran(*failures: int) -> tuple[list[int], str, list[str]]:
    """How often each test was tried, the last line, and what the runner says of each."""
    os.mkdir("made")
    traces.write("made/test_made.py", MADE.format(list(enumerate(failures))))
    done = subprocess.run([sys.executable, "-B", RUN, "--folder", "made"], capture_output=True, text=True, check=False)
    lines = done.stdout.splitlines()
    same(done.returncode, 0 if " 0 failed" in lines[-1] else 1)
    how = re.findall(r"::test_case\[(\d)-\d\] (PASSED|FAILED|ok \(second try\))", done.stdout)
    tries = [os.path.getsize(f"made/tries-{at}") for at in range(len(failures))]
    return tries, lines[-1], [f"{word}: {at}" for at, word in how]


def test_no_test_fails() -> None:
    same(ran(0, 0), ([1, 1], "2 passed, 0 failed", ["PASSED: 0", "PASSED: 1"]))


def test_a_test_that_fails_once() -> None:
    """It is tried again after all others, counts as passed, and is named."""
    lines = ["FAILED: 0", "PASSED: 1", "FAILED: 2", "ok (second try): 0", "ok (second try): 2"]
    same(ran(1, 0, 1), ([2, 1, 2], "3 passed, 0 failed, 2 at the second try: case[0-1]; case[2-1]", lines))


def test_a_test_that_fails_always() -> None:
    """It is tried twice and no more, and fails."""
    lines = ["FAILED: 0", "FAILED: 1", "FAILED: 0", "ok (second try): 1"]
    same(ran(9, 1), ([2, 2], "1 passed, 1 failed, 1 at the second try: case[1-1]", lines))


def test_the_last_line_is_read() -> None:
    """The gate reads how many passed and failed, and which at their second try."""
    for line, wanted in (
        (last_line(3, 0, []), ("3", "0", None, None)),
        (last_line(3, 1, ["a, b", "c"]), ("3", "1", "2", "a, b; c")),
    ):
        found = LAST.fullmatch(line)
        assert found, line
        same(found.groups(), wanted)
