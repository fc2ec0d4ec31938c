"""What pytest needs to run the tests: fixtures, coroutines as tests, and what is left out on a machine without aiohttp
or Chromium."""

from __future__ import annotations

import asyncio
import importlib.util
import inspect
import os
import pathlib
import tempfile
import typing
from collections.abc import Iterator

import pytest

if typing.TYPE_CHECKING:
    from stage import Stage

TOP = pathlib.Path(__file__).resolve().parents[2]
# A test that takes longer has failed, in seconds.
LIMIT = 3600
CHROMIUM = ("/usr/lib/chromium/chromium", "/usr/bin/chromium")
# The modules that need no other package, and those that need aiohttp. All others need a browser too.
NEED_NOTHING = {"test_deadlock_texts", "test_mirror_and_sheets", "test_opening", "test_second_tries"}
NEED_AIOHTTP = {
    "test_deadlock_aims",
    "test_failures",
    "test_limits",
    "test_long_texts",
    "test_messages",
    "test_security",
    "test_steps_by_position",
}


def missing() -> str:
    """What is not installed, or nothing."""
    if importlib.util.find_spec("aiohttp") is None:
        return "aiohttp"
    return "" if any(map(os.path.exists, CHROMIUM)) else "chromium"


def pytest_addoption(parser: pytest.Parser) -> None:
    program = TOP / "crates/racebench/out/racebench"
    parser.addoption("--program", default=str(program), help="the path of racebench")


def pytest_report_header() -> list[str]:
    if missing() == "aiohttp":
        return ["aiohttp is not here: only the reading is tested (apt-get install python3-aiohttp)"]
    if missing() == "chromium":
        return ["chromium is not here: what needs a browser is not tested (apt-get install chromium)"]
    return []


def pytest_ignore_collect(collection_path: pathlib.Path) -> bool | None:
    """Leaves out a module whose needs are not here."""
    here = {"": None, "aiohttp": NEED_NOTHING, "chromium": NEED_NOTHING | NEED_AIOHTTP}[missing()]
    is_test = collection_path.name.startswith("test_")
    return True if here is not None and is_test and collection_path.stem not in here else None


def pytest_pyfunc_call(pyfuncitem: pytest.Function) -> bool | None:
    """Runs a test that is a coroutine in the loop of all tests."""
    if not inspect.iscoroutinefunction(pyfuncitem.obj):
        return None
    wanted = inspect.signature(pyfuncitem.obj).parameters
    values = {name: pyfuncitem.funcargs[name] for name in wanted}
    runner = pyfuncitem.funcargs["runner"]
    assert isinstance(runner, asyncio.Runner)
    runner.run(asyncio.wait_for(pyfuncitem.obj(**values), LIMIT))
    return True


@pytest.fixture(scope="session")
def runner() -> Iterator[asyncio.Runner]:
    """The loop of all tests. The browser that they share ends with it."""
    with asyncio.Runner() as made:
        yield made
        if importlib.util.find_spec("aiohttp"):
            from browser import Browser

            made.run(Browser.end())


@pytest.fixture(autouse=True)
def folder(runner: asyncio.Runner, monkeypatch: pytest.MonkeyPatch) -> Iterator[str]:
    """An empty folder, which each test works in. What was killed may write there still when it is removed."""
    with tempfile.TemporaryDirectory(ignore_cleanup_errors=True) as made:
        monkeypatch.setenv("XDG_STATE_HOME", os.path.join(made, "state"))
        monkeypatch.chdir(made)
        yield made


@pytest.fixture
def program(request: pytest.FixtureRequest) -> str:
    """The path of racebench."""
    return os.path.abspath(str(request.config.getoption("--program")))


@pytest.fixture
def stage(runner: asyncio.Runner, folder: str, program: str) -> Iterator[Stage]:
    """Starts screens and opens pages, which end with the test."""
    from stage import Stage

    made = Stage(program)
    yield made
    runner.run(made.end())
