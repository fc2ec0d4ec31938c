"""Recording a Go program: it runs with a log, and the decoder writes the trace."""

# mypy: disallow-untyped-calls=False
import argparse
import concurrent.futures
import os
import shutil
import struct
import subprocess
import sys
import tempfile
import threading
import time
from dataclasses import dataclass, field
from typing import IO

import clocks
import decoders
import printing
import raw as raw_file
import running
from golang import building

HEAD = struct.Struct("<17Q")
MAGIC = 0x32304F4745434152
# Places of the head's numbers, in the order of recorder.c.
APPENDED, LOST, BASE, STOP_AT, DEAD = 3, 5, 7, 8 * 15, 16
# Numbers that mean: no limit.
NO_LIMIT = (1 << 63) - 1
MOST_ROOM = 1 << 36
MOST_EVENTS, MOST_BYTES, MOST_THREADS = 1_048_576, 268_435_456, 256
# A clock has no more goroutines.
MOST_NUMBERS = 65536
# The statuses if the recording is not whole, and if the program hangs in a deadlock.
NOT_WHOLE, DEADLOCK = 4, 5
# How many seconds are between two looks whether a program has begun.
LOOK = 0.005


def say(text: str) -> None:
    running.say("record/run", text)


def program_of(word: str) -> str | None:
    """The file that a word runs."""
    path: str = running.path_of(word)
    return path if "/" in path else shutil.which(path)


def root_of(word: str) -> str | None:
    """The GOROOT of a program that record/go built; None if it is another program."""
    path = program_of(word)
    return building.root_of(path) if path else None


def surroundings(options: argparse.Namespace, path: str) -> dict[str, str]:
    """What a recorded program has in its environment. A garbage collection would depend on time, so it comes only when
    half of the memory is used."""
    room = options.room if options.room < MOST_ROOM else ""
    settings = os.environ.get("GODEBUG", "").split(",")
    debug = [word for word in settings if word and not word.startswith(("asyncpreemptoff=", "memprofilerate="))]
    half = os.sysconf("SC_PAGE_SIZE") * os.sysconf("SC_PHYS_PAGES") // 2
    usual = {} if "GOGC" in os.environ or "GOMEMLIMIT" in os.environ else {"GOGC": "off", "GOMEMLIMIT": str(half)}
    ours = {
        "RACEBENCH_GO_LOG": path,
        "RACEBENCH_GO_SEED": str(options.seed),
        "RACEBENCH_GO_YIELD": str(getattr(options, "yield")),
        "RACEBENCH_GO_ROOM": str(room),
        # Samples of the heap would draw numbers.
        "GODEBUG": ",".join([*debug, "asyncpreemptoff=1", "memprofilerate=0"]),
    }
    return {**os.environ, **usual, **ours}


def head_of(file: IO[bytes]) -> tuple[int, ...]:
    data = os.pread(file.fileno(), HEAD.size, 0)
    return HEAD.unpack(data) if len(data) == HEAD.size else (0,) * 17


def stop_recording_after(seconds: float, file: IO[bytes]) -> None:
    """This many seconds after the first record no more are kept. The program goes on."""

    def stop() -> None:
        while not head_of(file)[APPENDED]:
            time.sleep(LOOK)
        time.sleep(seconds)
        os.pwrite(file.fileno(), (1).to_bytes(8, "little"), STOP_AT)

    threading.Thread(target=stop, daemon=True).start()


def run(options: argparse.Namespace, file: IO[bytes], path: str) -> int:
    def begun() -> None:
        if options.seconds:
            stop_recording_after(options.seconds, file)

    command = [running.path_of(options.program), *options.args]
    return int(running.run(command, surroundings(options, path), sys.stderr, begun=begun)[0])


def decoder_arguments(options: argparse.Namespace, status: int) -> list[str]:
    limited = not options.stream and options.max < NO_LIMIT
    arguments = [f"-max={options.max if limited else NO_LIMIT}", f"-from={options.first}", f"-frames={options.frames}"]
    # In a clock no two goroutines have one number.
    arguments += [
        f"-threads={0 if options.stream or options.clock else MOST_THREADS}",
        f"-cause={'FOR' if options.seconds else 'ROOM'}",
    ]
    flags = {"-lossy": limited, "-slots": options.slots, "-killed": status < 0}
    return arguments + [flag for flag, wanted in flags.items() if wanted] + [f"-only={file}" for file in options.only]


@dataclass
class Facts:
    """What the decoder counted, and why the trace is not whole, if it is not."""

    counts: dict[str, int] = field(default_factory=dict)
    losses: dict[str, int] = field(default_factory=dict)
    deadlock: list[decoders.Wait] = field(default_factory=list)


def facts_of(text: str) -> Facts:
    """What the decoder prints; this process prints the lines that are no facts."""
    facts = Facts()
    for line in text.splitlines():
        word, _, rest = line.partition(" ")
        if word == "fact":
            name, count = rest.split(" ")
            facts.counts[name] = int(count)
        elif word == "loss":
            name, count = rest.split("=")
            facts.losses[name] = int(count)
        elif word == "deadlock":
            facts.deadlock.append(decoders.Wait(*rest.split("|")))
        else:
            print(line, file=sys.stderr)
    return facts


def decoded(options: argparse.Namespace, file: IO[bytes], root: str, status: int) -> Facts | None:
    """Writes the trace on standard output, and its clock if that is wanted; what the decoder counted, or None if it did
    not write all of it."""
    with tempfile.TemporaryDirectory(prefix="record") as folder:
        beside = Beside(options, folder) if options.clock else None
        numbers = [file.fileno(), *(beside.numbers if beside else [])]
        command = [building.decoder_of(building.go_of(root), folder), *decoder_arguments(options, status)]
        command += beside.arguments if beside else []
        command += [program_of(options.program) or options.program, f"/dev/fd/{file.fileno()}"]
        out = subprocess.PIPE if beside else None
        with subprocess.Popen(
            command, stdout=out, stderr=subprocess.PIPE, pass_fds=numbers, preexec_fn=running.be_deaf
        ) as decoder, concurrent.futures.ThreadPoolExecutor(1) as pool:
            # A file might find the disk full.
            errors = pool.submit(decoder.stderr.read) if decoder.stderr else None
            for line in decoder.stdout or ():
                if beside:
                    beside.kept.write(line)
            facts = facts_of(errors.result().decode(errors="replace") if errors else "")
        if decoder.returncode:
            why = f": signal {-decoder.returncode}" if decoder.returncode < 0 else ""
            say(f"the trace was not written whole{why}")
            return None
        if beside and facts.counts.get("no_clock"):
            say(f"{options.clock}: no clock is written, since the program has more than {MOST_NUMBERS} goroutines")
        elif beside:
            sys.stdout.flush()
            beside.write(root, head_of(file)[BASE])
    return facts


class Beside:
    """What is written beside the trace, for its clock."""

    def __init__(self, options: argparse.Namespace, folder: str) -> None:
        self.options, self.kept = options, clocks.Kept(sys.stdout.buffer)
        self.records, self.events = (tempfile.TemporaryFile(dir=folder) for _ in range(2))
        self.numbers = [self.records.fileno(), self.events.fileno()]
        self.arguments = [f"-records={self.numbers[0]}", f"-events={self.numbers[1]}"]

    def write(self, root: str, base: int) -> None:
        """Writes the clock, in the form of one of a C program: a head with the program, and the records."""
        program = os.path.realpath(program_of(self.options.program) or self.options.program)
        size = os.fstat(self.numbers[0]).st_size // raw_file.WORD
        head = raw_file.packed_head(size, 1)
        module = raw_file.MODULE.pack(base, base + 1, os.fsencode(program))
        with open(self.options.clock, "wb") as out:
            clocks.write_fields(out, self.options, self.kept, program, root)
            for file in (self.events, self.records):
                if file is self.records:
                    self.kept.lines.tofile(out)
                    out.write((head + module).ljust(raw_file.HEAD_SIZE, b"\0"))
                file.seek(0)
                shutil.copyfileobj(file, out)
                file.close()


def counted(facts: dict[str, int], name: str, text: str) -> list[str]:
    return [f"{facts[name]} {text}"] if facts.get(name) else []


def left_out(options: argparse.Namespace, facts: Facts) -> list[str]:
    """What of the run is not in the trace."""
    reasons = {"DISK": "less than a tenth of the disk is free", "FOR": "--for", "ROOM": "--room"}
    lost = [
        f"{facts.losses[cause]} records left out ({why})" for cause, why in reasons.items() if cause in facts.losses
    ]
    held = "events before the first that is wanted left out (--from); the locks that were held there are taken first"
    counts, files = facts.counts, ", ".join(options.only)
    killed = (
        ["a signal ended the program: what came after its last record is not known"]
        if "KILLED" in facts.losses
        else []
    )
    dead = ["what comes after the deadlock is not judged"] if facts.deadlock else []
    return [
        *lost,
        *dead,
        *counted(counts, "before", held),
        *counted(counts, "left_out", f"events left out after the first {counts['written']} (--max)"),
        *counted(counts, "not_chosen", f"parts of variables left out, which no line of {files} accesses (--only)"),
        *counted(counts, "cut_short", "parts of accesses left out, of accesses with more than 64 parts"),
        *killed,
        *counted(counts, "others", "other programs that record/go built were started, and are not recorded"),
        *counted(counts, "clashes", "records came at the same time as another, so the trace may be wrong"),
        *counted(counts, "most_calls", "calls are missing in locations: the program has too many different stacks"),
    ]


def orders(counts: dict[str, int]) -> list[str]:
    """Lines about order that the trace has and the program does not force."""
    senders = "channels have several senders: their messages keep the order of this run (--slots gives Go's model)"
    lent = "goroutines have the number of one that ended, without an order between the two: races may be hidden; "
    return [
        *counted(counts, "many_senders", senders),
        *counted(counts, "no_sections", "locks were let go by another goroutine; their sections keep their order"),
        *counted(counts, "lent", lent + "without --max none is lent so"),
    ]


def report(chosen: argparse.Namespace, facts: Facts) -> None:
    counts = facts.counts
    if facts.deadlock:
        say(f"the program is in a deadlock: {printing.deadlock_of(facts.deadlock)}")
    for line in [*left_out(chosen, facts), *orders(counts)]:
        say(line)
    if counts.get("short") or counts.get("threads", 0) > MOST_THREADS:
        say(f"the trace has more than {MOST_THREADS} threads: read it with `racebench triage --windows`")
        if chosen.clock:
            say(f"record/confirm can't follow it: record a part with at most {MOST_THREADS} threads, as by -test.run")
    elif counts["written"] > MOST_EVENTS or counts["bytes"] > MOST_BYTES:
        say("the trace is too long to be read at once: read it with `racebench triage --windows`")
    if not counts["written"]:
        options = counts.get("before") or counts.get("left_out") or counts.get("not_chosen")
        none = "no event was recorded: the program starts no goroutine, or its goroutines share nothing"
        say("no event was written: the options leave out all of them" if options else none)
    elif facts.deadlock:
        say(f"the recording is not whole ({', '.join(facts.losses)}): status {DEADLOCK}")
    elif facts.losses and not chosen.partial:
        say(f"the recording is not whole ({', '.join(facts.losses)}): status {NOT_WHOLE}; --partial accepts it")
    forced = counts.get("forced", 0)
    say(f"recorded {counts['written']} events, {counts.get('switches', 0)} turns, {forced} taken by force")


def log_of(options: argparse.Namespace, file: IO[bytes], path: str) -> int:
    """Runs the program; its status. There is no log if it wrote none."""
    status = run(options, file, path)
    say(running.ending(status))
    head = head_of(file)
    if head[0] != MAGIC or not head[APPENDED]:
        where = tempfile.gettempdir()
        raise running.Unrunnable(f"nothing was recorded: the program ended early, or {where} has no room for the log")
    if options.raw:
        with open(options.raw, "wb") as kept:
            file.seek(0)
            shutil.copyfileobj(file, kept)
    return status


def refused(options: argparse.Namespace) -> str:
    """Why options can't be used for a Go program; empty if they can."""
    if options.clock and options.first:
        return "--clock: the trace of a clock begins with the first event, so --from can't be used"
    if options.values:
        return "--values: it is for C, C++ and Rust programs"
    if options.ordered:
        return "--ordered: the trace of a Go program leaves out no access that forks alone order"
    if options.names != "source":
        return "--names: the variables of a Go program have the names of the source"
    return ""


def record(options: argparse.Namespace, root: str) -> int:
    """Records a Go program by the options of record/run; the status of the command."""
    if why := refused(options):
        say(why)
        return 2
    try:
        for written in (options.raw, options.clock):
            if written:
                running.look_before_writing(written)
        file, path = running.nameless_file()
        with file:
            status = log_of(options, file, path)
            facts = decoded(options, file, root, status)
    except (building.NoGo, running.Unrunnable) as why:
        say(str(why))
        return 1
    except OSError as error:
        say(f"{error.filename or 'the trace was not written'}: {error.strerror}")
        return 1
    if facts is None:
        return 1
    report(options, facts)
    if options.status and status:
        return status if status > 0 else 128 - status
    if facts.deadlock:
        return DEADLOCK
    if not facts.counts["written"]:
        return 1
    return NOT_WHOLE if facts.losses and not options.partial else 0
