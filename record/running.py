"""Running a program that was compiled for recording: its raw file, its environment, its end."""
from __future__ import annotations

import ctypes
import errno
import os
import shutil
import signal
import subprocess
import sys
import tempfile
from typing import IO, Any, Callable, Iterable, Mapping, Sequence

import raw as raw_file

NO_RANDOM_ADDRESSES = 0x0040000
SIGNAL_AT_PARENTS_DEATH = 1
C_LIBRARY = ctypes.CDLL(None)
BUILT = os.path.join(os.path.dirname(os.path.dirname(os.path.realpath(__file__))), "crates/racebench/out/racebench")


# The signals of keys, which go to the program too, and those that ask this script to end.
KEYS, REQUESTS = (signal.SIGINT, signal.SIGQUIT), (signal.SIGTERM, signal.SIGHUP)
ENDING = KEYS + REQUESTS
# The signals that asked this script to end while its program ran.
passed_on: list[int] = []


class Unrunnable(Exception):
    """Why nothing was run or recorded."""


def nameless_file() -> tuple[IO[bytes], str]:
    """A file for the records without a name, so nothing is left however the run ends. The program opens it by this
    process."""
    try:
        file = tempfile.TemporaryFile(prefix="record")
    except OSError as error:
        where = os.environ.get("TMPDIR", "/tmp")
        raise Unrunnable("no file for the records in %s: %s" % (where, error.strerror or error)) from None
    return file, "/proc/%d/fd/%d" % (os.getpid(), file.fileno())


def open_standard_files(command: str) -> None:
    """Opens /dev/null for each standard file that is closed. Else another file would get its number, and messages
    would go there. Without standard output the command ends."""
    for number in range(3):
        try:
            os.fstat(number)
        except OSError:
            os.open(os.devnull, os.O_RDWR)
    if sys.stderr is None:
        sys.stderr = open(os.devnull, "w", encoding="utf-8")
    if sys.stdout is None:
        say(command, "standard output is closed")
        sys.exit(1)


def prepare(parent: int, blocked: Iterable[int]) -> None:
    """In the child: the same addresses at each run, if the system allows it; and the child ends with this process, also
    if that has ended by now. A signal that came before is the child's from here on."""
    C_LIBRARY.personality(NO_RANDOM_ADDRESSES)
    C_LIBRARY.prctl(SIGNAL_AT_PARENTS_DEATH, signal.SIGKILL)
    if os.getppid() != parent:
        os._exit(1)
    if signal.getsignal(signal.SIGINT) == signal.default_int_handler:
        signal.signal(signal.SIGINT, signal.SIG_DFL)
    signal.pthread_sigmask(signal.SIG_SETMASK, blocked)


def look_before_writing(path: str) -> None:
    """Refuses a file that can't be written before the program runs, since its run may be long."""
    folder, code = os.path.dirname(path) or ".", 0
    if os.path.isdir(path):
        code = errno.EISDIR
    elif os.path.exists(path):
        code = 0 if os.access(path, os.W_OK) else errno.EACCES
    elif not os.path.isdir(folder):
        code = errno.ENOENT
    elif not os.access(folder, os.W_OK | os.X_OK):
        code = errno.EACCES
    if code:
        raise Unrunnable("%s: %s" % (path, os.strerror(code)))


def why_not_begun(program: str, error: OSError) -> str:
    """Why a program could not be run; a source or a trace was named instead, for example."""
    is_file = os.path.isfile(program) and not os.access(program, os.X_OK)
    return "%s: %s%s" % (program, error.strerror, "; it is not a program: record/cc makes one" if is_file else "")


def path_of(program: str) -> str:
    return program if "/" in program or not os.path.exists(program) else "./" + program


def environment(raw: str, seed: int, one_in: int, room: int, **more: str) -> dict[str, str]:
    return dict(
        os.environ,
        RACEBENCH_RECORD=raw,
        RACEBENCH_RECORD_SEED=str(seed),
        RACEBENCH_RECORD_YIELD=str(one_in),
        RACEBENCH_RECORD_ROOM=str(room),
        **more,
    )


def run(
    command: Sequence[str],
    surroundings: Mapping[str, str],
    out: Any,
    patience: float | None = None,
    source: Any = None,
    begun: Callable[[], None] | None = None,
) -> tuple[int, bool]:
    """Runs a program; its status, and whether it was ended since its time was over. A key that ends it (control-C)
    does not end this script, and a signal that asks this script to end is passed on. `begun` is called when the program
    has begun: a thread that was there before could keep `prepare` from its end."""
    parent = os.getpid()
    # A signal may come as soon as the program has begun, before this script knows what to do with it: it waits.
    blocked = signal.pthread_sigmask(signal.SIG_BLOCK, ENDING)
    try:
        started = subprocess.Popen(
            command, stdin=source, stdout=out, env=surroundings, preexec_fn=lambda: prepare(parent, blocked)
        )
        take_signals(started)
    except OSError as error:
        raise Unrunnable(why_not_begun(command[0], error)) from None
    finally:
        signal.pthread_sigmask(signal.SIG_SETMASK, blocked)
    if begun:
        begun()
    try:
        return started.wait(patience), False
    except subprocess.TimeoutExpired:
        started.kill()
        return started.wait(), True


def take_signals(started: subprocess.Popen[bytes]) -> None:
    for number in KEYS:
        signal.signal(number, signal.SIG_IGN)
    for number in REQUESTS:
        signal.signal(number, lambda number, _: pass_on(started, number))


def pass_on(started: subprocess.Popen[bytes], number: int) -> None:
    passed_on.append(number)
    started.send_signal(number)


def be_deaf() -> None:
    """In a child that works up what there is after a signal ended the program: more of that kind, as a whole group of
    processes gets it, do not end it."""
    for number in passed_on:
        signal.signal(number, signal.SIG_IGN)


def ending(status: int) -> str:
    """How a program ended, in words."""
    if status >= 0:
        return "the program ended with status %d" % status
    try:
        name = " (%s)" % signal.Signals(-status).name
    except ValueError:
        name = ""
    return "the program ended by signal %d%s" % (-status, name)


def look_at(file: IO[bytes], program: str) -> None:
    """Looks whether the raw file of a run has records of a program with hooks."""
    if not os.fstat(file.fileno()).st_size:
        raise Unrunnable("%s was not compiled with record/cc or record/c++, or started nothing that was" % program)
    head = raw_file.numbers_of(file)
    if not head.there or not head.used:
        raise Unrunnable("nothing was recorded: the folder for the records, %s, has no room" % tempfile.gettempdir())
    if not head.units:
        raise Unrunnable(
            "nothing was recorded: no part of the program has hooks, so compile its sources with record/cc "
            "or record/c++"
        )


def racebench_of(chosen: str | None) -> str | None:
    """The program racebench: the chosen one, the one of $RACEBENCH, the one that was built beside this folder, or the
    one in PATH; None if no such program is found."""
    return chosen or os.environ.get("RACEBENCH") or (BUILT if os.access(BUILT, os.X_OK) else shutil.which("racebench"))


def reason_of(error: OSError) -> str:
    """An error of the system, in words."""
    return "%s: %s" % (error.filename, error.strerror) if error.filename and error.strerror else str(error)


def say(command: str, text: str) -> None:
    print("%s: %s" % (command, text), file=sys.stderr)
