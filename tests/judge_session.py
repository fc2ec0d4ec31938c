#!/usr/bin/env python3
"""Judges `session` and `log`: what no clause can say, since it is about processes, files, kills and full disks.

    judge_session.py PROGRAM [KILLS [CALLS]]     with KILLS kills, by default 20; then four sessions at once have CALLS
                                                 calls each, by default none

A script through sessions, cut anywhere into several, is answered as `replay` answers it. A session that is killed has
lost no answered entry. A file that is cut anywhere stands for its whole lines; one of another trace, or one that was
edited, is refused and left as it is. Four sessions at once have one legal history, by legal.py. On a full disk nothing
is answered, and the next session goes on. Two sessions make one file. A half of a line waits for its end. Closed
standard streams leave the log whole.
"""

import collections
import os
import pathlib
import random
import resource
import select
import shutil
import signal
import subprocess
import sys
import tempfile
import time
from collections.abc import Callable
from typing import NoReturn

if __name__ == "__main__":
    sys.dont_write_bytecode = True
import by_chance
import judging
import legal
import plain
import running
from judging import Wrong

KILLS = 20
SCRIPTS = 40
EVENTS = 16
CALLS = 40
# The sessions that run at once, and how often each of them calls.
CLIENTS = 4
CALLS_AT_ONCE = 60
TURNS_AT_ONCE = 6
# How often two sessions are opened at once where there is no file.
OPENED = 20
HEAD = 81
# What must be reached.
REACHED = ["scripts", "kills", "answered", "cuts", "edits", "at once", "later", "opened", "full", "undo", "closed"]


def fail(what: str) -> NoReturn:
    folder = os.getcwd()
    kept = shutil.copytree(folder, tempfile.mkdtemp(prefix="session-"), dirs_exist_ok=True)
    raise Wrong(f"{what}\nwhat it worked on is in {kept}")


class Sessions:
    """The program, and how often what was seen."""

    def __init__(self, program: str) -> None:
        self.program = program
        self.tally: collections.Counter[str] = collections.Counter()

    def run(
        self,
        text: bytes,
        *options: str,
        status: int = 0,
        error: bytes | None = b"",
        env: dict[str, str] | None = None,
        preexec_fn: Callable[[], None] | None = None,
    ) -> bytes:
        """What a session writes on this input."""
        arguments = ["session", "trace", "log", *options]
        done = subprocess.run(
            [self.program, *arguments],
            input=text,
            capture_output=True,
            timeout=running.PATIENCE,
            check=False,
            env=env,
            preexec_fn=preexec_fn,
        )
        if done.returncode != status or (error is not None and done.stderr != error):
            fail(f"{arguments}: status {done.returncode}, and not {status}: {done.stderr.decode()[:300]}")
        return done.stdout

    def start(self, *options: str) -> subprocess.Popen[bytes]:
        return subprocess.Popen(
            [self.program, "session", "trace", "log", *options],
            stdin=subprocess.PIPE,
            stdout=subprocess.PIPE,
            bufsize=0,
        )

    def entries(self) -> list[tuple[int, str]]:
        """The lines of the log that count, as pairs of a client and a call's words."""
        lines = running.printed(self.program, ["log", "log"]).decode("ascii").splitlines()
        return [(int(client), call) for client, call in (line.split(" ", 1) for line in lines)]

    def history(self, trace: plain.Trace) -> list[plain.Log]:
        """The logs that the lines lead to, each of which is accepted there."""
        try:
            return legal.history(trace, self.entries())
        except judging.Wrong as what:
            fail(f"the log is no legal one: {what}")


def fresh() -> None:
    for name in os.listdir("."):
        os.remove(name)


def script_lines(calls: list[by_chance.Made]) -> list[bytes]:
    return [f"{client} {plain.call_text(call)}\n".encode("ascii") for client, call, _, _ in calls]


def at_rest(what: str) -> None:
    data = pathlib.Path("log").read_bytes()
    if not data.endswith(b"\n!") or [name for name in os.listdir(".") if name not in ("trace", "log", "script")]:
        fail(f"{what}: the file ends with {data[-20:]!r}, and there are {os.listdir('.')}")


def judge_scripts(sessions: Sessions, seed: float) -> None:
    """A script, cut into some sessions, is answered as `replay` does; the lines of the log are answered again as calls
    of it."""
    chance = random.Random(seed)
    fresh()
    trace = by_chance.trace(chance, EVENTS)
    calls, log = by_chance.script(chance, trace, CALLS)
    lines = script_lines(calls)
    running.write("trace", trace.text())
    running.write("script", b"".join(lines).decode("ascii"))
    wanted = running.printed(sessions.program, ["replay", "trace", "script"])
    cuts = sorted(chance.choices(range(len(lines) + 1), k=chance.randint(0, 3)))
    printed = b"".join(sessions.run(b"".join(lines[begin:end])) for begin, end in zip([0, *cuts], [*cuts, len(lines)]))
    if printed != wanted:
        fail(f"seed {seed}: cut at {cuts}, a script is answered otherwise than by replay")
    at_rest(f"seed {seed}")
    if sessions.history(trace)[-1].text() != log.text():
        fail(f"seed {seed}: the lines of the log are not those of its entries")
    sessions.tally["undo"] += any(call.startswith("undo ") for _, call in sessions.entries())
    if any(call == "undo" for _, call in sessions.entries()):
        fail(f"seed {seed}: an undo has no number in the log")
    sessions.tally["scripts"] += 1


def judge_client(sessions: Sessions) -> None:
    """With a client its lines have no number; what is no script line is told with the line's number, and the session
    goes on."""
    fresh()
    running.write("trace", "T1|w(x)|1\nT2|w(x)|2\n")
    printed = sessions.run(
        b"  new A \r\n\n\t\nfoo\nnew\nnew -\n1 new A\nadd A x\nraces A\nundo\nnew " + b"x" * 65533 + b"\nundo 7",
        "--client",
        "12",
    )
    wanted = (
        b"0: done\nline 4: 81 bad word\nline 5: 81 bad word\n1: done\nline 7: 81 bad word\nline 8: 82 bad "
        b"number\npairs 0-1\n2: undone 1\n"
        b"line 11: 85 line too long\nrefused 57 no such entry\n"
    )
    if printed != wanted:
        fail(f"a client is told {printed!r}")
    if sessions.entries() != [(12, "new A"), (12, "new -"), (12, "undo 1")]:
        fail(f"the log has {sessions.entries()}")
    printed = sessions.run(b"33 new A\nnew A\n1 list\n")
    if printed != b"line 1: 83 bad client\nline 2: 83 bad client\nnames A\n":
        fail(f"without a client is told {printed!r}")


def put(process: subprocess.Popen[bytes], text: bytes) -> None:
    """Writes to a session."""
    assert process.stdin
    os.write(process.stdin.fileno(), text)


def got(process: subprocess.Popen[bytes], most: int) -> bytes:
    """What a session has written, as soon as it has written something; nothing at its end."""
    assert process.stdout
    return os.read(process.stdout.fileno(), most)


def read_lines(process: subprocess.Popen[bytes], lines: list[bytes]) -> None:
    """Takes the lines that have come in."""
    while select.select([process.stdout], [], [], 0)[0]:
        data = got(process, 65536)
        if not data:
            return
        lines.append(data)


def judge_kills(sessions: Sessions, kills: int, seed: float = 1) -> None:
    """A session is killed while it answers a script: what was answered stands in the log, and the next one goes on."""
    chance = random.Random(seed)
    for number in range(kills):
        if number % 10 == 0:
            fresh()
            trace = by_chance.trace(chance, EVENTS)
            running.write("trace", trace.text())
            log = plain.Log(trace)
            sessions.run(b"")
        calls: list[plain.Call] = []
        for _ in range(200):
            names = by_chance.SCHEDULES[:3]
            calls.append(by_chance.call_of_client(chance, log, names, by_chance.GROWING, 1))
        process = sessions.start("--client", "1")
        parts: list[bytes] = []
        sent = 0
        if chance.random() < 0.9:
            put(process, (plain.call_text(calls[0]) + "\n").encode("ascii"))
            sent = 1
            select.select([process.stdout], [], [], running.PATIENCE)
        deadline = time.monotonic() + chance.uniform(0.0, 0.03)
        try:
            while time.monotonic() < deadline and sent < len(calls):
                some = calls[sent : sent + chance.randint(1, 9)]
                put(process, "".join(plain.call_text(call) + "\n" for call in some).encode("ascii"))
                sent += len(some)
                read_lines(process, parts)
        except BrokenPipeError:
            fail("a session ended by itself")
        process.send_signal(signal.SIGKILL)
        process.wait()
        read_lines(process, parts)
        lines = b"".join(parts).decode("ascii").splitlines()
        logs = judge_killed(sessions, trace, log, calls[:sent], lines)
        log = logs[-1]
        sessions.tally["kills"] += 1
        sessions.tally["answered"] += len(lines)
    if sessions.run(b"1 list\n")[:5] != b"names":
        fail("the last session does not go on")


def judge_killed(
    sessions: Sessions,
    trace: plain.Trace,
    log: plain.Log,
    calls: list[plain.Call],
    lines: list[str],
) -> list[plain.Log]:
    """The log after a kill: the entries from before, those of the calls that were answered, and perhaps those of
    further ones."""
    logs = sessions.history(trace)
    if sessions.entries()[: len(log.entries)] != [entry_of(log, number) for number in range(len(log.entries))]:
        fail("a kill changed entries from before")
    state = log
    for number, call in enumerate(calls):
        line, after = state.answer(1, call)
        if number < len(lines) and lines[number] != line:
            fail(f"{plain.call_text(call)} was answered {lines[number]}, and plainly {line}")
        if len(after.entries) > len(logs[-1].entries):
            if number < len(lines):
                fail(f"{plain.call_text(call)} was answered {lines[number]}, and the log has lost it")
            break
        state = after
    if state.text() != logs[-1].text():
        fail("after a kill the log has entries that nobody asked for")
    return logs


def entry_of(log: plain.Log, number: int) -> tuple[int, str]:
    _, client, call = log.line(number).split(" ", 2)
    return (int(client), call)


def judge_cuts(sessions: Sessions) -> None:
    """A file that is cut at each of its bytes, or is whole, stands for the lines that are whole, and the next session
    goes on from them."""
    fresh()
    running.write("trace", "T1|w(x)|1\nT2|w(x)|2\n")
    for text in [b"1 new A\n", b"1 new B\n2 new C\n1 undo\n", b"2 add C 1\n"]:
        sessions.run(text)
    whole = pathlib.Path("log").read_bytes()
    lines = whole[HEAD:].split(b"\n")[:-1]
    for size in range(len(whole) + 1):
        pathlib.Path("log").write_bytes(whole[:size])
        if size < HEAD:
            sessions.run(b"", status=1, error=b"racebench: log of another trace\n")
            if pathlib.Path("log").read_bytes() != whole[:size]:
                fail(f"cut to {size} bytes, a file that is refused was changed")
            continue
        count = whole[HEAD:size].count(b"\n")
        if sessions.run(b"3 new Z\n") != f"{count}: done\n".encode("ascii"):
            fail(f"cut to {size} bytes, the log has not {count} entries")
        if pathlib.Path("log").read_bytes() != whole[:HEAD] + b"\n".join([*lines[:count], b" 3 new Z", b"!"]):
            fail(f"cut to {size!r} bytes, the file is {pathlib.Path('log').read_bytes()!r}")
        sessions.tally["cuts"] += 1
    # What is after a closed gate never counts, be it a block whose write was cut short or lines with open gates.
    # Two lines in one block take its place.
    answers = f"{len(lines)}: done\n{len(lines) + 1}: done\n".encode("ascii")
    for torn in [b"1 new D\n 1 ad", b" 1 new D\n 1 new E\n"]:
        pathlib.Path("log").write_bytes(whole + torn)
        printed = sessions.run(b"3 new Z\n3 add Z 0\n")
        left = pathlib.Path("log").read_bytes()
        if printed != answers or left != whole[:-1] + b" 3 new Z\n 3 add Z 0\n!":
            fail(f"with {torn!r} behind the closed gate the file is {left!r}")


def judge_edits(sessions: Sessions) -> None:
    """A log of another trace is refused, and so is one with a line that is no call which is logged there; each is left
    as it is."""
    fresh()
    running.write("trace", "T1|w(x)|1\nT2|w(x)|2\n")
    sessions.run(b"1 new A\n1 add A 0\n1 add A 1\n1 undo\n")
    whole = pathlib.Path("log").read_bytes()
    for old, new, line in [
        (b"1 add A 0", b"1 add A 9", 3),
        (b"1 add A 0", b"1 show A", 3),
        (b"1 add A 0", b"1 add", 3),
        (b"1 new A", b"1 new B", 3),
        (b"1 undo 2", b"1 undo 3", 5),
        (b"1 add A 1", b"", 4),
        (b"1 new A", b"0 new A", 2),
        (b"1 undo 2", b"1 new A", 5),
    ]:
        edited = whole.replace(b" " + old + b"\n", b" " + new + b"\n")
        pathlib.Path("log").write_bytes(edited)
        sessions.run(b"1 list\n", status=1, error=f"racebench: log file line {line}\n".encode("ascii"))
        if pathlib.Path("log").read_bytes() != edited:
            fail(f"with {new!r}, a file that is refused was changed")
        sessions.tally["edits"] += 1
    pathlib.Path("log").write_bytes(whole)
    running.write("trace", "T1|w(x)|1\nT2|w(x)|3\n")
    sessions.run(b"1 list\n", status=1, error=b"racebench: log of another trace\n")
    if pathlib.Path("log").read_bytes() != whole:
        fail("a log of another trace was changed")
    # The same events and names, with other blanks: the same trace.
    running.write("trace", " T1 | w( x ) | 1 \r\n\nT2|w(x)|2")
    if sessions.run(b"1 show A\n") != b"shown 0\n":
        fail("the log is not that of its trace")


def is_answered(process: subprocess.Popen[bytes], wanted: bytes) -> bool:
    """Whether a session answers so next, in one piece or more."""
    printed = b""
    while len(printed) < len(wanted) and select.select([process.stdout], [], [], running.PATIENCE)[0]:
        piece = got(process, 100)
        printed += piece
        if not piece:
            break
    return printed == wanted


def judge_shorter(sessions: Sessions) -> None:
    """A file that something else cuts while a session has it open is refused, and not filled up."""
    fresh()
    running.write("trace", "T1|w(x)|1\nT2|w(x)|2\n")
    process = subprocess.Popen(
        [sessions.program, "session", "trace", "log", "--client", "1"],
        stdin=subprocess.PIPE,
        stdout=subprocess.PIPE,
        stderr=subprocess.PIPE,
        bufsize=0,
    )
    put(process, b"new A\nnew B\n")
    if not is_answered(process, b"0: done\n1: done\n"):
        fail("a session does not answer")
    cut = pathlib.Path("log").read_bytes()[: HEAD + 3]
    os.truncate("log", HEAD + 3)
    printed, error = process.communicate(b"new C\n", timeout=running.PATIENCE)
    if (printed, error, process.returncode) != (b"", b"racebench: log file line 3\n", 1) or pathlib.Path(
        "log"
    ).read_bytes() != cut:
        fail(f"of a file that is shorter is said {printed!r} {error!r}")


def judge_at_once(sessions: Sessions, seed: float, count: int = CALLS_AT_ONCE) -> None:
    """Sessions of four clients at once, each with this many calls, in pieces of one or more lines."""
    chance = random.Random(seed)
    fresh()
    trace = by_chance.trace(chance, EVENTS)
    running.write("trace", trace.text())
    names = by_chance.SCHEDULES[:2]
    log = plain.Log(trace)
    drawn: list[list[plain.Call]] = [[] for _ in range(CLIENTS)]
    for _ in range(CLIENTS * count):
        client = chance.randrange(CLIENTS)
        call = by_chance.call_of_client(chance, log, names, by_chance.ARGUING, client + 1)
        drawn[client].append(call)
        log = log.answer(client + 1, call)[1]
    processes = [sessions.start("--client", str(client)) for client in range(1, CLIENTS + 1)]
    pending = [list(calls) for calls in drawn]
    read: list[list[bytes]] = [[] for _ in range(CLIENTS)]
    while any(pending):
        for process, calls, lines in zip(processes, pending, read):
            some = calls[: chance.randint(0, 3)]
            del calls[: len(some)]
            put(process, "".join(plain.call_text(call) + "\n" for call in some).encode("ascii"))
            read_lines(process, lines)
    for process, lines in zip(processes, read):
        lines.append(process.communicate(timeout=running.PATIENCE)[0])
    lines_read = [b"".join(lines).decode("ascii").splitlines() for lines in read]
    if any(process.returncode for process in processes):
        fail("a session at once with others failed")
    at_rest(f"seed {seed}")
    try:
        seen = legal.judge(trace, drawn, lines_read, sessions.entries())
    except judging.Wrong as what:
        fail(f"seed {seed}, sessions at once: {what}")
    sessions.tally["at once"] += seen["calls"]
    sessions.tally["later"] += seen["later"]
    sessions.tally["changes"] += seen["changes"]


def judge_opened(sessions: Sessions) -> None:
    """Two sessions that are opened at once where there is no file make one."""
    running.write("trace", "T1|w(x)|1\n")
    for _ in range(OPENED):
        if os.path.exists("log"):
            os.remove("log")
        processes = [sessions.start("--client", str(client)) for client in (1, 2, 3)]
        printed = [
            process.communicate(f"new {name}\n".encode("ascii"), timeout=running.PATIENCE)[0]
            for process, name in zip(processes, "ABC")
        ]
        if sorted(printed) != [b"0: done\n", b"1: done\n", b"2: done\n"] or len(sessions.entries()) != 3:
            fail(f"sessions opened at once are told {printed!r}")
        sessions.tally["opened"] += 1
    at_rest("opened at once")


def judge_full(sessions: Sessions) -> None:
    """Where the file may get no longer nothing is answered, a note names it, the log is what it was, and the next
    session goes on."""
    fresh()
    running.write("trace", "T1|w(x)|1\nT2|w(x)|2\n")
    sessions.run(b"1 new A\n")
    for more in range(1, 30):
        before = pathlib.Path("log").read_bytes()
        limit = len(before) + more

        def limited() -> None:
            signal.signal(signal.SIGXFSZ, signal.SIG_IGN)
            resource.setrlimit(resource.RLIMIT_FSIZE, (limit, limit))

        noted = {**os.environ, "RACEBENCH_NOTES": "1"}
        error = b"racebench: write failed\nnote: log cannot be written: the disk may be full\n"
        printed = sessions.run(
            b"1 new long-name-of-a-schedule\n", status=1, error=error, preexec_fn=limited, env=noted
        )
        if printed or sessions.entries() != [(1, "new A")]:
            fail(f"with {more} bytes left is told {printed!r}, and the log has {sessions.entries()}")
        if sessions.run(b"1 list\n") != b"names A\n" or pathlib.Path("log").read_bytes() != before:
            fail(f"behind a full disk, with {more} bytes left, the session does not go on")
        sessions.tally["full"] += 1


def judge_waits(sessions: Sessions) -> None:
    """Each line is answered as it comes; a half of a line waits, and a last line needs no end."""
    fresh()
    running.write("trace", "T1|w(x)|1\nT2|w(x)|2\n")
    process = sessions.start("--client", "3")
    for text, wanted in [
        (b"new A\n", b"0: done\n"),
        (b"add A 0\nne", b"1: done\n"),
        (b"w B\n", b"2: done\n"),
        (b"list\nsho", b"names A B\n"),
    ]:
        put(process, text)
        if not is_answered(process, wanted):
            fail(f"{text!r} is not answered by {wanted!r}")
        if select.select([process.stdout], [], [], 0.1)[0]:
            fail(f"behind {text!r} something more is told")
    printed = process.communicate(b"w A", timeout=running.PATIENCE)[0]
    if printed != b"shown 0\n" or process.returncode:
        fail(f"the last line is answered by {printed!r}")


def judge_closed(sessions: Sessions) -> None:
    """A session with closed standard streams writes no answer into the log, and reads no line of it as a call."""
    fresh()
    running.write("trace", "T1|w(x)|1\nT2|w(x)|2\n")
    for closed in [(0,), (1,), (2,), (0, 1), (0, 2), (1, 2), (0, 1, 2)]:
        pathlib.Path("log").unlink(missing_ok=True)
        sessions.run(b"1 new A\n1 add A 0\n")
        command = [sessions.program, "session", "trace", "log"]

        def close(streams: tuple[int, ...] = closed) -> None:
            for stream in streams:
                os.close(stream)

        pipe = subprocess.PIPE
        with subprocess.Popen(command, stdin=pipe, stdout=pipe, stderr=pipe, preexec_fn=close) as process:
            out, _ = process.communicate(b"2 new B\n2 list\n", timeout=running.PATIENCE)
        is_written = closed == (2,)
        if (out, process.returncode) != ((b"2: done\nnames A B\n", 0) if is_written else (b"", 1)):
            fail(f"without the streams {closed} a session ends with {process.returncode}, and writes {out!r}")
        at_rest(f"without the streams {closed}")
        if sessions.entries() not in ([(1, "new A"), (1, "add A 0")], [(1, "new A"), (1, "add A 0"), (2, "new B")]):
            fail(f"without the streams {closed} the log has {sessions.entries()}")
        sessions.tally["closed"] += 1


def judged(run: judging.Run) -> str:
    kills, calls = run.numbers
    sessions = Sessions(run.program)
    for seed in range(SCRIPTS):
        judge_scripts(sessions, seed)
    judge_client(sessions)
    judge_kills(sessions, kills)
    judge_cuts(sessions)
    judge_edits(sessions)
    judge_shorter(sessions)
    for seed in range(TURNS_AT_ONCE):
        judge_at_once(sessions, seed)
    if calls:
        judge_at_once(sessions, TURNS_AT_ONCE, calls)
    fresh()
    judge_opened(sessions)
    judge_full(sessions)
    judge_waits(sessions)
    judge_closed(sessions)
    run.tally = tally = sessions.tally
    return (
        f"sessions: {tally['scripts']} scripts cut into sessions are answered as by replay; {tally['kills']} kills "
        f"lost none of {tally['answered']} answers; "
        f"{tally['cuts']} cuts, {tally['edits']} edits; {tally['at once']} calls of {CLIENTS} sessions at once are "
        f"legal histories, {tally['later']} of "
        f"them after entries of others; {tally['opened']} times opened at once; {tally['full']} full disks; "
        f"{tally['closed']} times with closed streams"
    )


if __name__ == "__main__":
    sys.exit(judging.main("session", judged, REACHED, {"KILLS": KILLS, "CALLS": 0}))
