"""A followed run: the program runs by a plan, and this module reads what came of it."""
import contextlib
import os
import re
import signal
import struct
import subprocess
import sys
import tempfile
import time
from types import FrameType
from typing import Dict, IO, Iterator, List, NamedTuple, Optional, Sequence, TextIO, Tuple

import clocks
import java_agent
import java_following
import plans
import program_time
import raw as raw_file
import running
from golang import following as following_go

NOT_FOLLOWING, FOLLOWING, STANDS, DEPARTED, DONE = range(5)
OTHER_CODE, MISSED, WOULD_WAIT, HANGS, ENDED, OTHER_OUTCOME, OTHER_WORLD, THREAD_ENDED, NO_WAIT, NOT_HELD = range(
    1, 11
)

# Freed memory is filled, and given out again late, so that its use after a free shows. Allocated memory is filled too.
FILLED_HEAP = "glibc.malloc.perturb=85:glibc.malloc.tcache_count=0"
# Seconds that a program has to end after it got the signal that this command got.
GRACE = 2

Halves = Tuple[int, int]


class Standing(NamedTuple):
    """A thread right before its access: what it accesses and where, with its stack. A Java thread has texts."""

    thread: int
    at: int
    size: int
    kind: int
    pc: int
    value: Optional[Halves]
    after: Optional[Halves]
    frames: List[Tuple[int, int]]
    shown: Optional[java_following.Shown] = None


class Use(NamedTuple):
    """An access of a freed block, or a second free of it: who did it where, and who freed the block where."""

    kind: int
    thread: int
    size: int
    freed_by: int
    pc: int
    freed_at: int


class OtherProgram(Exception):
    """The program, the witness or the clock is of another recording."""


class OutOfTime(Exception):
    """The time for following is over."""


class Interrupted(Exception):
    """A signal ended this command. How its program ended then says nothing."""

    def __init__(self, number: int) -> None:
        super().__init__(f"ended by {signal.Signals(number).name}")
        self.number, self.left = number, ""


def end_by(number: int) -> int:
    """Ends this process by the signal that it got; returns a status, if that does not end it."""
    signal.signal(number, signal.SIG_DFL)
    os.kill(os.getpid(), number)
    return 128 + number


class Settings(NamedTuple):
    """How programs are followed: the program and its arguments, the most seconds of a run, the command that runs beside
    it, whether the heap is filled, whether each run reads standard input from its beginning, whether its standard
    error goes nowhere, and a file that keeps the raw records."""

    command: List[str]
    timeout: int
    beside: Optional[str] = None
    filled_heap: bool = True
    rewinds: bool = False
    is_quiet: bool = False
    records: Optional[IO[bytes]] = None


def with_heap_of(clock: clocks.Clock, settings: Settings) -> Settings:
    """Only programs with malloc have a heap that is filled."""
    has_malloc = not clock.fields.get("go") and not clock.fields.get("java")
    return settings if has_malloc else settings._replace(filled_heap=False)


class Result:
    """What the run left in the plan's file."""

    def __init__(self, data: bytes, plan: plans.Plan, rows: List[plans.Row], status: int, timed_out: bool) -> None:
        # Whether the program hung in a deadlock after the schedule.
        self.is_deadlock = False
        # The place where a Java program departed.
        self.place = ""
        numbers = plans.HEAD.unpack_from(data)[plans.WORDS_IN :]
        self.state, self.step, self.why, self.thread = numbers[:4]
        self.pos, self.kind, self.pc, self.expected = numbers[4:8]
        self.spurious, self.passed, self.last_pc, self.early, self.refused_tries, self.use_count = numbers[8:]
        self.plan, self.rows, self.status, self.timed_out = plan, rows, status, timed_out
        self.standing = [self.stand(data, plans.HEAD.size, k) for k in range(2)]
        self.waiting = [self.stand(data, plans.WAITING_AT, k) for k in range(len(plan.requests))]
        self.holders = plans.HOLDERS.unpack_from(data, plans.HOLDERS_AT)[: len(self.waiting)]
        self.at_tick = struct.unpack_from(f"<{plans.TOLD}Q", data, plans.TICKS_AT)
        self.uses = self.read_uses(data, plans.USES_AT)
        self.stands = self.state in (STANDS, DONE) or (self.state == DEPARTED and all(one.pc for one in self.standing))

    @staticmethod
    def stand(data: bytes, start: int, k: int) -> Standing:
        numbers = plans.STANDING.unpack_from(data, start + k * plans.STANDING.size)
        thread, _, at, size, kind, pc, _, low, high, there, after_low, after_high, after_there, count = numbers[:14]
        frames = [(numbers[14 + 2 * i], numbers[15 + 2 * i]) for i in range(min(count, plans.FRAMES))]
        value, after = (low, high) if there else None, (after_low, after_high) if after_there else None
        return Standing(thread, at, size, kind, pc, value, after, frames)

    def read_uses(self, data: bytes, start: int) -> List[Use]:
        """The first uses of freed blocks, as far as the plan has room for them."""
        count = min(self.use_count, plans.USES)
        return [Use(*plans.USE.unpack_from(data, start + k * plans.USE.size)) for k in range(count)]

    @property
    def is_same_memory(self) -> bool:
        first, second = self.standing
        return first.at < second.at + second.size and second.at < first.at + first.size

    @property
    def event(self) -> Optional[int]:
        """The event of the first step that was not done."""
        return self.rows[self.step][3] if self.step < len(self.rows) else None


def arguments_for(clock: clocks.Clock, command: List[str]) -> List[str]:
    """The command of a run: that of the recording if none is given. Of a Java program it is what java gets."""
    if not command:
        return list(clock.fields["argv"])
    if clock.fields.get("java") and java_agent.is_java(command[0]):
        java_agent.choose(command[0])
        return command[1:]
    return command


def check_program(clock: clocks.Clock, command: Sequence[str]) -> None:
    """The program must be the one that was recorded: its code is what a run is compared by. The agent compares the
    classes of a Java program when they are loaded."""
    if clock.fields.get("java"):
        return
    path = clocks.program_of(command[0])
    if not path or not os.path.exists(path):
        recorded_in = clock.fields.get("cwd", "")
        where = f" (recorded in {recorded_in})" if recorded_in not in ("", os.getcwd()) else ""
        raise running.Unrunnable(f"{command[0]}: No such file or directory{where}")
    if clocks.digest_of(path) != clock.fields["program"]:
        raise OtherProgram(f"{command[0]} is another program than the one that was recorded")


class Runner:
    """Runs programs, and ends them if this command has to end."""

    def __init__(self) -> None:
        self.number = 0
        # When no other run begins, by the clock of time.monotonic().
        self.end: Optional[float] = None
        self.started: Optional["subprocess.Popen[bytes]"] = None

    def take_signals(self) -> None:
        """From now on a signal that asks to end is noted, and is passed on to the program that runs."""
        for number in running.ENDING:
            if signal.getsignal(number) != signal.SIG_IGN:
                signal.signal(number, self.note)

    def note(self, number: int, frame: Optional[FrameType]) -> None:
        self.number = number
        if self.started:
            self.started.send_signal(number)

    def look(self) -> None:
        """Ends the work if a signal came, or if its time is over."""
        if self.number:
            raise Interrupted(self.number)
        if self.end is not None and time.monotonic() >= self.end:
            raise OutOfTime

    def wait(self, seconds: int) -> Tuple[int, bool]:
        """The program's status, and whether its time was over, as the program had it, or that of this work."""
        assert self.started
        had = program_time.ProgramTime(self.started.pid)
        try:
            while had.seconds() < seconds and (self.end is None or time.monotonic() < self.end):
                with contextlib.suppress(subprocess.TimeoutExpired):
                    return self.started.wait(GRACE if self.number else 1), False
                if self.number:
                    break
            return self.started.wait(0), False
        except subprocess.TimeoutExpired:
            self.started.kill()
            return self.started.wait(), True
        finally:
            self.started = None

    def run(self, surroundings: Dict[str, str], out: IO[bytes], settings: Settings) -> Tuple[int, bool]:
        """Runs a program, with the command beside it; as `wait`."""
        self.look()
        command = [running.path_of(settings.command[0]), *settings.command[1:]]
        if settings.rewinds:
            os.lseek(0, 0, os.SEEK_SET)
        parent, blocked = os.getpid(), signal.pthread_sigmask(signal.SIG_BLOCK, running.ENDING)
        try:
            self.started = subprocess.Popen(
                command,
                stdout=out,
                stderr=subprocess.DEVNULL if settings.is_quiet else None,
                env=surroundings,
                preexec_fn=lambda: running.prepare(parent, blocked),
            )
        except OSError as error:
            raise running.Unrunnable(running.why_not_begun(command[0], error)) from None
        finally:
            signal.pthread_sigmask(signal.SIG_SETMASK, blocked)
        with beside(settings.beside, self.started.pid):
            ended = self.wait(settings.timeout)
        self.look()
        return ended


@contextlib.contextmanager
def beside(command: Optional[str], program: int) -> Iterator[None]:
    """Runs a command of the shell beside a program, whose number is in RACEBENCH_PROGRAM; what it started ends with the
    program."""
    if not command:
        yield
        return
    surroundings = dict(os.environ, RACEBENCH_PROGRAM=str(program))
    client = subprocess.Popen(
        command, shell=True, stdin=subprocess.DEVNULL, stdout=sys.stderr, env=surroundings, start_new_session=True
    )
    try:
        yield
    finally:
        with contextlib.suppress(ProcessLookupError):
            os.killpg(client.pid, signal.SIGKILL)
        client.wait()


# What gdb does: it stops when both threads of a race stand, or all of a deadlock.
GDB = ["set breakpoint pending on", "set debuginfod enabled off", "break {}", "run", "info threads"]
# Words that gdb gives to a program as they are. It quotes others, and only a shell takes the quotes away.
PLAIN = re.compile(r"[\w./=,:@%+-]+", re.ASCII)


def gdb_of(command: List[str], surroundings: Dict[str, str], stop: str) -> Tuple[List[str], Dict[str, str]]:
    """The command that runs a program under gdb up to a function, and the environment for it."""
    if all(map(PLAIN.fullmatch, command)):
        first = "set startup-with-shell off"
    else:
        shell = surroundings.get("SHELL")
        first = f"set environment SHELL {shell}" if shell else "unset environment SHELL"
        surroundings = dict(surroundings, SHELL="/bin/sh")
    commands = [word for one in [first, *GDB] for word in ("-ex", one.replace("{}", stop))]
    return ["gdb", "-q", *commands, "--args", *command], surroundings


def keyboard() -> Optional[TextIO]:
    """Where gdb takes its commands from if standard input was the witness, or None for standard input."""
    try:
        return None if sys.stdin.isatty() else open("/dev/tty", encoding="utf-8")
    except OSError:
        return None


def surroundings_of(
    plan: plans.Plan, seed: int, records: IO[bytes], planned: IO[bytes], filled: bool
) -> Dict[str, str]:
    """The environment of a followed run."""
    paths = [f"/proc/{os.getpid()}/fd/{file.fileno()}" for file in (records, planned)]
    fields = plan.clock.fields
    if fields.get("java"):
        return dict(os.environ)
    if fields.get("go"):
        return following_go.surroundings(fields, seed, paths)
    found: Dict[str, str] = running.environment(
        paths[0], seed, fields["yield"], fields["room"], RACEBENCH_FOLLOW=paths[1]
    )
    if filled:
        found["GLIBC_TUNABLES"] = ":".join(filter(None, (found.get("GLIBC_TUNABLES"), FILLED_HEAP)))
    return found


@contextlib.contextmanager
def command_of(
    plan: plans.Plan, seed: int, records: IO[bytes], planned: IO[bytes], command: List[str]
) -> Iterator[List[str]]:
    """The command that runs the program: that of the settings, unless java runs it."""
    if not plan.clock.fields.get("java"):
        yield command
        return
    paths = [f"/proc/{os.getpid()}/fd/{file.fileno()}" for file in (records, planned)]
    with java_following.command_for(plan.clock.fields, command, seed, paths) as found:
        yield found


def take_texts(result: Result, records: IO[bytes]) -> None:
    """Takes what the agent wrote of a Java program."""
    report = java_following.report_of(records)
    if report.other_class:
        raise OtherProgram(f"the class {report.other_class} is another than the one that was recorded")
    if not result.stands and not result.passed and result.state == FOLLOWING:
        where = result.plan.clock.fields["cwd"]
        raise OtherProgram(f"java did not begin the program, which was recorded in {where}")
    result.place, result.is_deadlock = report.place, report.is_deadlock
    result.standing = [one._replace(shown=shown) for one, shown in zip(result.standing, report.shown)]
    result.waiting = [one._replace(shown=shown) for one, shown in zip(result.waiting, report.shown)]


def followed(
    runner: Runner, plan: plans.Plan, order: plans.Order, seed: int, settings: Settings, out: IO[bytes]
) -> Result:
    """Runs the program by the plan, and prints on `out` what it prints. It leaves no files, except those of the
    settings."""
    records = settings.records or running.nameless_file()[0]
    try:
        with tempfile.TemporaryFile(prefix="record") as planned:
            rows = plan.write(planned, order)
            surroundings = surroundings_of(plan, seed, records, planned, settings.filled_heap)
            with command_of(plan, seed, records, planned, settings.command) as command:
                status, timed_out = runner.run(surroundings, out, settings._replace(command=command))
            if not os.fstat(records.fileno()).st_size:
                raise OtherProgram(
                    f"{settings.command[0]} was not recorded: it has no recorder, or there is no room in TMPDIR"
                )
            planned.seek(0)
            result = Result(planned.read(), plan, rows, status, timed_out)
            if plan.clock.fields.get("java"):
                take_texts(result, records)
            elif plan.clock.fields.get("go"):
                result.is_deadlock = bool(plan.requests) and following_go.is_asleep(records)
            else:
                result.is_deadlock = raw_file.numbers_of(records).deadlock > 0
            return result
    finally:
        if records is not settings.records:
            records.close()


def in_gdb(plan: plans.Plan, order: plans.Order, seed: int, settings: Settings, source: Optional[TextIO]) -> Result:
    """The same under gdb, which takes its commands from `source`."""
    file, _ = running.nameless_file()
    with file, tempfile.TemporaryFile(prefix="record") as planned:
        rows = plan.write(planned, order)
        surroundings = surroundings_of(plan, seed, file, planned, settings.filled_heap)
        command = [running.path_of(settings.command[0]), *settings.command[1:]]
        stop = "racebench_deadlock_stands" if plan.requests else "racebench_race_stands"
        status, timed_out = running.run(*gdb_of(command, surroundings, stop), None, None, source)
        planned.seek(0)
        return Result(planned.read(), plan, rows, status, timed_out)
