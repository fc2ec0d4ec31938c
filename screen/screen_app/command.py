"""screen TRACE LOG: the screen of the workbench, for a browser on this machine."""

from __future__ import annotations

import argparse
import asyncio
import errno
import faulthandler
import os
import shutil
import signal
import sys
from collections.abc import Callable
from typing import TYPE_CHECKING, Any

from .bench import Bench
from .readers import Readers
from .session import Gone
from .source import Source
from .trace import Trace

if TYPE_CHECKING:
    from .server import Server

CLIENTS, PORTS = 32, 65_535
# So long it may take to end, in seconds.
ENDING = 30
# Where a checkout has the program, if it was built there.
BUILT = os.path.join(os.path.dirname(os.path.realpath(__file__)), "../../crates/racebench/out/racebench")


def number_to(least: int, most: int) -> Callable[[str], int]:
    """Reads a number from one to another; else a line says which."""

    def read(text: str) -> int:
        if not (text.isascii() and text.isdigit() and len(text) < 10 and least <= int(text) <= most):
            raise argparse.ArgumentTypeError(f"{text!r} is no number from {least} to {most}")
        return int(text)

    return read


def usual_program() -> str | None:
    """The program of $RACEBENCH, the one that was built beside the screen, or the one on the path."""
    built = os.path.normpath(BUILT) if os.access(BUILT, os.X_OK) else None
    return os.environ.get("RACEBENCH") or built or shutil.which("racebench")


def read_options() -> argparse.Namespace:
    parser = argparse.ArgumentParser(
        prog=os.path.basename(sys.argv[0]),
        description="Shows a trace, its races and the schedules of a log in a browser.",
    )
    parser.add_argument("trace", metavar="TRACE")
    parser.add_argument("log", metavar="LOG")
    parser.add_argument(
        "--client", type=number_to(1, CLIENTS), default=1, metavar="N", help="who you are, 1 to 32 (default: 1)"
    )
    parser.add_argument(
        "--port", type=number_to(0, PORTS), default=0, metavar="P", help="port on 127.0.0.1 (default: any free port)"
    )
    parser.add_argument("--source", metavar="DIR", help="folder with the program's source files")
    parser.add_argument("--known", metavar="FILE", help="an earlier output of racebench triage: leaves out its races")
    parser.add_argument("--triage", metavar="FILE", help="a triage file: leaves out the races that it has decided")
    parser.add_argument(
        "--program",
        metavar="FILE",
        default=usual_program(),
        help="the program racebench (default: $RACEBENCH, the one built beside the screen, or racebench on the path)",
    )
    options = parser.parse_args()
    why = wrong(options)
    if why:
        parser.error(why)
    return options


def wrong(options: argparse.Namespace) -> str | None:
    """Which word names nothing that can be used, if one does."""
    if not options.program:
        return "racebench was not built here and is not on the path; name it with --program"
    if not shutil.which(options.program):
        return f"{options.program} is no program; name one with --program"
    if options.source and not os.path.isdir(options.source):
        return f"{options.source} is no folder"
    for path in (options.trace, options.known, options.triage):
        if path is not None and not (os.path.isfile(path) and os.access(path, os.R_OK)):
            return f"{path} is no file that can be read"
    if os.path.isdir(options.log):
        return f"{options.log} is a folder, and no log"
    folder = os.path.dirname(options.log) or "."
    if not os.path.isdir(folder):
        return f"{folder} is no folder for a log"
    if os.path.exists(options.log):
        is_open = os.access(options.log, os.R_OK | os.W_OK)
        return None if is_open else f"you may not write {options.log}; name another LOG"
    is_open = os.access(folder, os.W_OK | os.X_OK)
    return None if is_open else f"you may not make {options.log}; name a LOG in a folder of yours"


def decided(options: argparse.Namespace) -> list[str]:
    """Words of `triage` that leave out races."""
    named = (("--known", options.known), ("--triage", options.triage))
    return [word for flag, path in named if path for word in (flag, path)]


def server_of(bench: Bench, options: argparse.Namespace) -> Server:
    try:
        from .server import Server
    except ImportError as why:
        sys.exit(f"screen: {why.name} is not installed; on Debian: apt install python3-aiohttp")
    return Server(bench, Source(options.source), os.path.basename(options.trace))


def listen_to_terminal(server: Server) -> None:
    """Control-C ends; Enter prints another link."""
    loop = asyncio.get_running_loop()

    def end() -> None:
        if not server.stopping.is_set():  # the terminal comes back, even if something has not ended by then
            loop.call_later(ENDING / 2, print_tasks)
            faulthandler.dump_traceback_later(ENDING, exit=True)
        server.stopping.set()

    for number in (signal.SIGINT, signal.SIGTERM, signal.SIGHUP):
        loop.add_signal_handler(number, end)

    def another() -> None:
        if sys.stdin.readline():
            print(server.guard.link(), flush=True)
        else:
            loop.remove_reader(sys.stdin)

    if sys.stdin and sys.stdin.isatty():
        loop.add_reader(sys.stdin, another)


def print_tasks() -> None:
    """Prints the tasks that have not ended yet: the threads alone do not show what they wait for."""
    for task in asyncio.all_tasks():
        task.print_stack(file=sys.stderr)


def print_faults(loop: asyncio.AbstractEventLoop, context: dict[str, Any]) -> None:
    """A pipe to a session that was killed breaks, and the page shows that it ended; all else is handled as usual."""
    if not isinstance(context.get("exception"), (BrokenPipeError, ConnectionResetError)):
        loop.default_exception_handler(context)


async def run(options: argparse.Namespace, readers: Readers) -> None:
    asyncio.get_running_loop().set_exception_handler(print_faults)
    trace = Trace(options.trace)
    bench = Bench(options.program, trace, options.log, options.client)
    bench.decided = decided(options)
    server = server_of(bench, options)
    reading = asyncio.ensure_future(server.read_trace(readers))  # the program reads it at the same time
    try:
        await bench.open()
        await server.start(options.port)
    except OSError as why:
        taken = f"port {options.port} is taken" if why.errno == errno.EADDRINUSE else why
        sys.exit(f"screen: {taken}")
    except Gone as why:
        sys.exit(str(why))
    finally:
        if not server.guard.port:  # what the program refuses need not be readable
            leave(reading, readers)
            await bench.session.stop()
    listen_to_terminal(server)
    print(server.guard.link(), flush=True)
    enter = "Enter prints another; " if sys.stdin and sys.stdin.isatty() else ""
    print(f"The link opens once. {enter}control-C ends.", file=sys.stderr, flush=True)
    await serve(server, reading, readers)


def leave(reading: asyncio.Task[None], readers: Readers) -> None:
    reading.add_done_callback(lambda task: task.cancelled() or task.exception())
    reading.cancel()
    readers.stop()


async def serve(server: Server, reading: asyncio.Task[None], readers: Readers) -> None:
    """Until the terminal says that it ends, which may be while a long trace is read."""
    ending = asyncio.ensure_future(server.stopping.wait())
    await asyncio.wait([reading, ending], return_when=asyncio.FIRST_COMPLETED)
    if reading.done():
        try:
            await reading
        except OSError as why:  # the program could read it, and the screen cannot
            sys.exit(f"screen: {why}")
        await server.follow()
        await ending
    else:
        leave(reading, readers)
    await server.stop()


def main() -> None:
    options = read_options()
    try:
        asyncio.run(run(options, Readers(options.trace)))
    except KeyboardInterrupt:  # before the link is printed; from then on control-C is a signal that `run` takes
        sys.exit(130)
