"""Failures: programs that end or cannot be started, requests, tasks, files of strangers, one process too many."""

import asyncio
import contextlib
import io
import json
import math
import os
import signal
import threading
import time
from collections.abc import Awaitable, Callable
from typing import NoReturn

import aiohttp
import pytest
from aiohttp import web

import traces
from comparing import same, within
from fake_programs import script
from screen_app import command, outlet, pairs, readers, server, session
from screen_app.bench import Bench
from screen_app.kept import Confirmed, Names, Original, Seen
from screen_app.session import Gone, Session
from screen_app.text import clean
from screen_app.trace import Trace
from servers import PATIENCE, Heard, served


async def gone(asking: Awaitable[object]) -> str:
    """The message about a program that is gone."""
    try:
        await asyncio.wait_for(asking, PATIENCE)
    except Gone as why:
        return str(why)
    raise AssertionError("it is not gone")


async def test_a_program_that_cannot_be_started() -> None:
    traces.write("trace", traces.COUNT)
    traces.write("no-program", "x")
    path = os.path.abspath("no-program")
    bench = Bench(path, Trace("trace").read_at_once(), "log", 1)
    error = f"{path} cannot be started: Permission denied"
    same(await gone(bench.session.ask("list")), error)
    same(await gone(pairs.Pairs(bench).explain((7, 12))), error)
    races = pairs.Races()
    await races.look(bench, lambda: None)
    same(races.state["state"], "failed")
    assert "Permission denied" in races.state["why"], races.state


# A program whose output ends while it goes on, and another process that has its error.
DEAF = """#!/bin/sh
echo $$ > deaf.pid
cat hold > /dev/null &
exec >&-
cat > /dev/null
"""


async def test_an_output_that_ends_is_an_end(monkeypatch: pytest.MonkeyPatch) -> None:
    """Though the process goes on, and another one has its pipe."""
    os.mkfifo("hold")
    monkeypatch.setattr(session, "LAST", 0.1)
    asked = Session(script("deaf", DEAF), "trace", "log", 1)
    try:
        same(await gone(asked.ask("list")), "the session ended")
        same(asked.process, None)
        with open("deaf.pid", encoding="ascii") as file:
            number = int(file.read())
        end = asyncio.get_running_loop().time() + PATIENCE
        while os.path.exists(f"/proc/{number}"):
            assert asyncio.get_running_loop().time() < end, "it goes on"
            await asyncio.sleep(0.02)
    finally:
        os.close(os.open("hold", os.O_WRONLY))
        await asked.stop()
    same(await gone(Session(script("dead", "#!/bin/sh\necho why >&2\n"), "trace", "log", 1).ask("list")), "why")


async def test_each_browser_looks_at_its_own_pair(program: str) -> None:
    """Who walks down the races looks at the last one alone. He takes none from another."""
    traces.write("trace", traces.COUNT)
    for can_ask in (True, False):
        bench = Bench(program, Trace("trace").read_at_once(), "log", 1)
        await bench.open()
        bench.questions = bench.questions and can_ask
        looked, one, other = pairs.Pairs(bench), Heard(), Heard()
        walk = ((one, (2, 11)), (other, (7, 12)), (one, (7, 13)), (one, (6, 13)))
        answers = await asyncio.gather(*[looked.witness(pair, asker) for asker, pair in walk])
        left = [each.get("none") == "left for another" for each in answers]
        same(left, [not bench.questions, False, True, False])  # a question that is under way is answered
        same(answers[1]["length"], 11)
        await looked.stop()
        await bench.session.stop()


async def test_after_a_fault_answers_are_not_mixed_up(program: str, monkeypatch: pytest.MonkeyPatch) -> None:
    """The answers to lines whose first answer could not be read are no answers to the next ones."""
    traces.write("trace", traces.COUNT)
    asked = Session(program, "trace", "log", 1)
    await asked.ask("new A", "add A 0")

    async def fails(process: asyncio.subprocess.Process) -> str:
        raise ValueError("a line without an end")

    with monkeypatch.context() as patch, pytest.raises(ValueError, match="a line without an end"):
        patch.setattr(asked, "_answer", fails)
        await asked.ask("list", "show A")
    same(await asked.ask("show A", "list"), ["shown 0", "names A"])
    await asked.stop()


async def test_a_request_that_fails_is_answered(program: str, monkeypatch: pytest.MonkeyPatch) -> None:
    """Any failure is answered, and the next request has room. Else the page would wait for ever."""
    screen, outlet, room = served(program), Heard(), asyncio.Semaphore(1)
    screen.requests.is_ready.set()

    raised: Exception

    async def fails(request: object) -> NoReturn:
        raise raised

    monkeypatch.setattr(screen.requests, "do_fail", fails, raising=False)
    for why, key in ((OSError("no process"), "mistake"), (RuntimeError("x"), "mistake"), (Gone("\u202ey"), "gone")):
        raised = why
        with contextlib.redirect_stderr(io.StringIO()):
            await asyncio.wait_for(screen._answer(outlet, '{"id": 7, "do": "fail"}', room), PATIENCE)
        message = outlet.messages.pop()
        same(message["id"], 7)
        assert clean(str(why)) in message[key], message


async def test_a_task_that_fails_is_said(program: str) -> None:
    """The page is not left with what it shows."""
    screen, outlet = served(program), Heard()
    screen.outlets.add(outlet)

    async def fails() -> NoReturn:
        raise ValueError("no more news")

    with contextlib.redirect_stderr(io.StringIO()) as errors:
        screen.beside(fails())
        await asyncio.wait_for(screen.tasks[0], PATIENCE)
    assert "Traceback" in errors.getvalue(), errors.getvalue()
    same(outlet.messages, [{"push": "fault", "why": "the screen failed: ValueError('no more news')"}])
    same(screen.requests.fault, outlet.messages[0]["why"])


async def test_an_outlet_that_is_stopped_ends() -> None:
    """Also if a message was taken by the browser just then."""
    taken = asyncio.Event()

    class Browser(web.WebSocketResponse):
        async def send_str(self, text: str, compress: bool | None = None) -> None:
            await taken.wait()

    made = outlet.Outlet(Browser(), None)
    made.send({})
    await asyncio.sleep(0)
    await asyncio.sleep(0)
    taken.set()
    made.stop()
    done, _ = await asyncio.wait([made.writing], timeout=PATIENCE)
    same((len(done), made.writing.cancelled()), (1, True))


async def test_a_socket_is_read_while_requests_wait(program: str, monkeypatch: pytest.MonkeyPatch) -> None:
    """So the browser's sign of life is seen, and the socket is not ended as one of a browser that is gone."""
    screen = served(program)
    monkeypatch.setattr(server, "PATIENCE", PATIENCE)
    await screen.start(0)
    try:
        async with aiohttp.ClientSession() as client:
            base = f"127.0.0.1:{screen.guard.port}"
            socket = await client.ws_connect(f"ws://{base}/ws", origin=f"http://{base}", autoping=False)
            await socket.send_str(screen.guard.key)
            for number in range(server.AT_WORK + 8):  # none is answered until the trace is read
                await socket.send_str(json.dumps({"id": number, "do": "hello"}))
            await socket.ping(b"here")
            while (message := await socket.receive(timeout=PATIENCE)).type == aiohttp.WSMsgType.TEXT:
                assert "push" in message.data, message
            same((message.type, bytes(message.data)), (aiohttp.WSMsgType.PONG, b"here"))
            screen.requests.is_ready.set()
            left = set(range(server.AT_WORK + 8))
            while left:
                left.discard(json.loads((await socket.receive(timeout=PATIENCE)).data).get("id"))
            await socket.close()
    finally:
        await screen.stop()


async def test_it_ends_while_the_trace_is_read(program: str) -> None:
    """Who ends it need not wait for the end of a long trace."""
    screen = served(program)
    await screen.start(0)
    reading = asyncio.ensure_future(asyncio.sleep(math.inf))
    screen.stopping.set()
    await asyncio.wait_for(command.serve(screen, reading, readers.Readers("none")), PATIENCE)
    same((reading.cancelled(), screen.requests.is_ready.is_set()), (True, False))


async def test_how_far_it_is_is_told_though_nothing_follows(program: str, monkeypatch: pytest.MonkeyPatch) -> None:
    """The last of two lines that come at once is shown, although the program prints nothing more for long."""
    reported, ended = asyncio.Event(), asyncio.Event()
    races = pairs.Races()

    async def slow(program: str, trace: str, hear: Callable[[str], None], take: object) -> tuple[dict[str, int], int]:
        hear("events 17")
        hear("pairs of places 3 of 8")
        await ended.wait()
        return {}, 0

    monkeypatch.setattr(pairs, "triage", slow)
    looking = asyncio.ensure_future(races.look(Bench(program, Trace("none"), "log", 1), reported.set))
    await asyncio.wait_for(reported.wait(), PATIENCE)
    same(races.state, {"state": "searching", "progress": "pairs of places 3 of 8"})
    ended.set()
    await looking
    same(races.state["state"], "found")


async def test_lines_that_are_no_races() -> None:
    """The page calls the list unreadable, and does not look for it for ever."""
    for line in ("no json", "[]", '{"kind": "race"}', '{"kind": "race", "accesses": [1, 2]}'):
        path = script("odd", f"#!/bin/sh\necho '{line}'\n")
        races = pairs.Races()
        await asyncio.wait_for(races.look(Bench(path, Trace("none"), "log", 1), lambda: None), PATIENCE)
        same(races.state["state"], "failed")
        assert "cannot be read" in races.state["why"], races.state


def test_files_beside_the_log_that_are_odd() -> None:
    """Numbers too long to be read, numbers that are none, and brackets without end are passed over."""
    lines = ["9" * 5000 + " Nobody", "1 Ada", "0" * 9000 + "2 Nobody", "33 Nobody", "0 Nobody", "-1 Nobody", "4 \x1bB"]
    traces.write("log.names", "\n".join([*lines, "32 " + "z" * 50]) + "\n")
    names = Names("log")
    same((names.changed(), names.names), (True, {1: "Ada", 4: "\\u{1b}B", 32: "z" * 40}))
    lines = ['{"events": [Infinity, 1], "ended": "x"}', "[" * 100_000, '{"events": [2, 1], "ended": "stands"}']
    traces.write("trace.confirmed", "\n".join(lines) + "\n")
    same(list(Confirmed("trace").read()), [(1, 2)])


def test_how_far_each_analyst_has_looked() -> None:
    """It is kept for each client of a log, and counts for the trace with this digest alone."""
    ada, bob, other = Seen("log", 1), Seen("log", 2), Seen("other", 1)
    ada.write("d" * 64, 7)
    same([one.read("d" * 64) for one in (ada, Seen("./log", 1), bob, other)], [7, 7, None, None])
    same(ada.read("e" * 64), None)
    bob.write("d" * 64, 9)
    same((ada.read("d" * 64), bob.read("d" * 64)), (7, 9))
    same(oct(os.stat(os.path.dirname(ada.path)).st_mode & 0o777), "0o700")
    traces.write(ada.path, "no number\n")
    same(ada.read("d" * 64), None)


def test_a_trace_that_is_another_one() -> None:
    """Another time of its file says nothing, nor that it was taken away; other bytes do."""
    traces.write("trace", traces.COUNT)
    original = Original("trace")
    changes: list[tuple[Callable[[], None], bool]] = [
        (lambda: os.utime("trace", ns=(7, 7)), False),
        (lambda: os.rename("trace", "other"), False),
        (lambda: traces.write("trace", traces.COUNT), False),
        (lambda: traces.write("trace", traces.COUNT.replace("count.c:18", "count.c:19")), True),
        (lambda: os.replace("other", "trace"), False),
        (lambda: traces.write("trace", traces.COUNT + "T0|w(x)|count.c:20\n"), True),
    ]
    for change, is_changed in changes:
        change()
        same(original.is_changed(), is_changed)


def test_a_long_trace_that_is_another_one_in_its_midst() -> None:
    """It has the same size, and the same bytes at both ends."""
    text = traces.COUNT * 900
    traces.write("trace", text)
    original = Original("trace")
    original.learn()
    half = len(text) // 2
    for changed, is_changed in ((text, False), (text[:half].replace("value", "valve") + text[half:], True)):
        traces.write("other", changed)
        os.replace("other", "trace")
        same(original.is_changed(), is_changed)
    traces.write("trace", text)
    original = Original("trace")
    traces.write("trace", text + "\n")
    original.learn()  # that is another one already
    same((original.digest, original.is_changed()), (None, True))


def test_names_that_are_read_while_they_are_written() -> None:
    """A file may be written on within the same tick of its clock: it is looked into once more."""
    traces.write("log.names", "1 Ada\n")
    stamp = os.stat("log.names").st_mtime_ns
    names = Names("log")
    same((names.changed(), names.names), (True, {1: "Ada"}))
    with open("log.names", "r+", encoding="ascii") as file:
        file.write("1 Bob\n")
    os.utime("log.names", ns=(stamp, stamp))
    same((names.changed(), names.names), (True, {1: "Bob"}))
    same(names.changed(), False)
    os.remove("log.names")
    same((names.changed(), names.names), (True, {}))


def test_a_process_is_stopped_once(monkeypatch: pytest.MonkeyPatch) -> None:
    """No signal goes to a number that was taken: by then another process may have it."""
    traces.write("trace", traces.COUNT)
    helper = readers.Helper("trace", 0, 100)
    sent: list[tuple[int, int]] = []
    stops: list[threading.Thread] = []
    take = os.waitpid

    def taken(process: int, options: int) -> tuple[int, int]:
        done = take(process, options)
        stops.append(threading.Thread(target=helper.kill))
        stops[0].start()
        stops[0].join(0.5)  # it waits for the lock, and comes to it when this is done
        return done

    with monkeypatch.context() as patch:
        patch.setattr(os, "waitpid", taken)
        patch.setattr(os, "kill", lambda *arguments: sent.append(arguments))
        helper.answer()
        stops[0].join()
        helper.kill()
    same(sent, [])


def opened() -> set[int]:
    """The numbers of files that this process has open."""
    found = set()
    for number in range(1000):
        with contextlib.suppress(OSError):
            os.fstat(number)
            found.add(number)
    return found


def test_a_process_that_cannot_be_made(monkeypatch: pytest.MonkeyPatch) -> None:
    """Those before it are ended and taken, and their pipes are closed: the screen reads all by itself."""
    traces.big("bigger", 9000, 6, 3)
    made: list[int] = []
    fork = os.fork
    before = opened()

    def forks() -> int:
        if len(made) == 2:
            raise BlockingIOError("no more")
        number = fork()
        made.append(number)
        return number

    with monkeypatch.context() as patch:
        patch.setattr(readers, "LONG", 1)
        patch.setattr(os, "fork", forks)
        patch.setattr(os, "cpu_count", lambda: 8)
        read = readers.Readers("bigger")
    same((read.helpers, len(made)), ([], 2))
    same(opened() - before, set())  # files of other tests may be closed at the same time
    for number in made:
        try:
            os.waitpid(number, os.WNOHANG)
            raise AssertionError(f"{number} was not taken")
        except ChildProcessError:
            pass


# The end by force comes after what waits was told, however slow that is: it is wanted as the telling is, and begins
# after it.
HUNG = """import asyncio, faulthandler, sys
sys.path.insert(0, {!r})
from screen_app import command, server
async def never(self):
    await asyncio.Event().wait()
wanted, end, print_tasks = [], faulthandler.dump_traceback_later, command.print_tasks
def print_and_end():
    print_tasks()
    (seconds, is_exit), = wanted
    end(seconds, exit=is_exit)
faulthandler.dump_traceback_later = lambda seconds, exit: wanted.append((seconds, exit))
server.Server.stop, command.ENDING, command.print_tasks = never, 0.2, print_and_end
command.main()
"""


async def test_it_ends_though_something_does_not(program: str) -> None:
    """The terminal comes back, and a message names what waited."""
    traces.write("trace", traces.COUNT)
    traces.write("hung.py", HUNG.format(os.path.dirname(os.path.dirname(os.path.abspath(__file__)))))
    pipe = asyncio.subprocess.PIPE
    process = await asyncio.create_subprocess_exec(
        "/usr/bin/python3", "hung.py", "trace", "log", "--program", program, stdout=pipe, stderr=pipe
    )
    assert process.stdout
    await asyncio.wait_for(process.stdout.readline(), PATIENCE)
    process.terminate()
    errors = (await asyncio.wait_for(process.communicate(), PATIENCE))[1].decode()
    assert "Stack for" in errors and "Timeout" in errors, errors


SCREEN = os.path.join(os.path.dirname(os.path.dirname(os.path.abspath(__file__))), "screen")


async def status_of(client: aiohttp.ClientSession, base: str, ticket: str | None = None) -> int:
    """The status of the first page, or of a ticket."""
    asked = client.post(base + "/enter", data=ticket, headers={"Origin": base}) if ticket else client.get(base + "/")
    async with asked as answer:
        return answer.status


async def test_the_terminal(program: str) -> None:
    """Enter prints another link, the end of the input prints none, and control-C ends it."""
    traces.write("trace", traces.COUNT)
    terminal, its = os.openpty()
    pipe = asyncio.subprocess.PIPE
    command = ("/usr/bin/python3", SCREEN, "trace", "log", "--program", program)
    process = await asyncio.create_subprocess_exec(*command, stdin=its, stdout=pipe, stderr=pipe)
    os.close(its)
    assert process.stdout
    links = [await within(PATIENCE, process.stdout.readline())]
    for _ in range(2):
        os.write(terminal, b"\n")
        links.append(await within(PATIENCE, process.stdout.readline()))
    base, *tickets = links[0].decode().split("/#")[0], *(link.decode().strip().split("/#")[1] for link in links)
    same(len(set(tickets)), 3)
    async with aiohttp.ClientSession() as client:
        same([await status_of(client, base, ticket) for ticket in [*tickets, tickets[0]]], [200, 200, 200, 403])
        os.write(terminal, b"\x04")
        same(await status_of(client, base), 200)
    process.send_signal(signal.SIGINT)
    out, errors = await within(PATIENCE, process.communicate())
    os.close(terminal)
    same((out, errors.split(b"\n")[0]), (b"", b"The link opens once. Enter prints another; control-C ends."))
    assert process.returncode == 0 or b"Timeout" in errors, errors  # a very slow machine ends it by force


async def test_patience_is_counted_in_seconds() -> None:
    """If the machine pauses for longer than the patience, what comes after that is in time."""
    loop = asyncio.get_running_loop()
    came = loop.create_future()

    def stand_still() -> None:
        time.sleep(2.5)
        loop.call_later(0.2, came.set_result, "here")

    loop.call_soon(stand_still)
    same(await within(2, came), "here")
    try:
        await within(1, loop.create_future())
        raise AssertionError("it waits for ever")
    except asyncio.TimeoutError:
        pass
