#!/usr/bin/python3
"""Runs the tests of the screen by pytest: all, or those whose module or name contains a NAME.

A test that fails is tried once more, when all others have ended. One that passes then is a defect to be mended, and the
last line names it. The last line is `N passed, M failed` otherwise.
"""

from __future__ import annotations

import argparse
import os
import sys

import pytest

if (TESTS := os.path.join(os.path.dirname(os.path.abspath(__file__)), "../../tests")) not in sys.path:
    sys.path.append(TESTS)
from second_tries import last_line, wait_until_alone

HERE = os.path.dirname(os.path.abspath(__file__))
# How pytest ends if it ran what it found.
ENDED = (pytest.ExitCode.OK, pytest.ExitCode.TESTS_FAILED, pytest.ExitCode.NO_TESTS_COLLECTED)


def name_of(node: str) -> str:
    """The name of a test in words."""
    return node.rpartition("::")[2].removeprefix("test_").replace("_", " ")


class Outcomes:
    """A plugin of pytest that chooses tests, and keeps how each ended."""

    def __init__(self, names: list[str], is_second: bool = False) -> None:
        self.names, self.is_second = [name.replace(" ", "_") for name in names], is_second
        self.passed: list[str] = []
        self.failed: list[str] = []

    def pytest_collection_modifyitems(self, config: pytest.Config, items: list[pytest.Item]) -> None:
        left = [item for item in items if self.names and not any(name in item.nodeid for name in self.names)]
        items[:] = [item for item in items if item not in left]
        config.hook.pytest_deselected(items=left)

    def pytest_collectreport(self, report: pytest.CollectReport) -> None:
        """A module that cannot be read has failed."""
        if report.failed:
            self.failed.append(report.nodeid)

    def pytest_runtest_logreport(self, report: pytest.TestReport) -> None:
        """Hears of the start, the call and the end of each test."""
        if report.failed and report.nodeid not in self.failed:
            self.failed.append(report.nodeid)
        if report.when == "teardown" and report.nodeid not in self.failed:
            self.passed.append(report.nodeid)

    def pytest_report_teststatus(self, report: pytest.TestReport) -> tuple[str, str, str] | None:
        if report.when == "call" and report.passed and self.is_second:
            return "passed", ".", "ok (second try)"
        return None


def outcomes_of(options: list[str], folder: str, names: list[str]) -> tuple[int, int, list[str]]:
    """Runs tests, and then those that failed once more: drawing and processes depend on what else the machine does.

    Returns how many passed and how many failed, and the names that passed at their second try. Each is a defect to be
    mended, of the page or of the test, which waits for less than its next step needs.
    """
    options = [*options, "--rootdir", folder, "-c", os.path.join(HERE, "pytest.ini")]
    first, second = Outcomes(names), Outcomes([], is_second=True)
    if pytest.main([*options, folder], [first]) not in ENDED:
        return len(first.passed), len(first.failed) + 1, []
    if first.failed:
        wait_until_alone()
        pytest.main([*options, *(os.path.join(folder, node) for node in first.failed)], [second])
    lost = [node for node in first.failed if node not in second.passed]
    return len(first.passed) + len(second.passed), len(lost), [name_of(node) for node in second.passed]


def main() -> int:
    parser = argparse.ArgumentParser(description=__doc__, formatter_class=argparse.RawDescriptionHelpFormatter)
    parser.add_argument("--program", help="the path of racebench")
    parser.add_argument("--folder", default=HERE, help="the folder of the tests")
    parser.add_argument("names", metavar="NAME", nargs="*")
    options = parser.parse_args()
    program = [f"--program={os.path.abspath(options.program)}"] if options.program else []
    passed, failed, second = outcomes_of(program, os.path.abspath(options.folder), options.names)
    print(last_line(passed, failed, second))
    return 1 if failed or not passed else 0


if __name__ == "__main__":
    sys.exit(main())
