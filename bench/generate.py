#!/usr/bin/env python3
"""Writes the inputs of the benchmark into a folder. Everything random comes from one seed, so each run makes the
same bytes."""
import argparse
import os
import random
import subprocess
from collections.abc import Callable, Iterable, Sequence


def read_options() -> argparse.Namespace:
    parser = argparse.ArgumentParser(description=__doc__)
    parser.add_argument("folder", metavar="FOLDER", help="where the inputs go")
    parser.add_argument(
        "divisor", metavar="N", type=int, nargs="?", default=1, help="divide all sizes, to see quickly that all runs"
    )
    options = parser.parse_args()
    if options.divisor < 1:
        parser.error("N is at least 1")
    return options


DIVISOR: int = read_options().divisor if __name__ == "__main__" else 1


def sized(count: int) -> int:
    return max(count // DIVISOR, 1)


EVENTS = sized(65_536)
# as many as a trace may have
MOST_EVENTS = sized(1_048_576)


def locked_trace(events: int, threads: int, location: Callable[[int], str], seed: int) -> list[str]:
    """Blocks of four events: a thread takes a lock, writes and reads a variable, lets the lock go."""
    pick = random.Random(seed)
    lines: list[str] = []
    while len(lines) + 4 <= events:
        t, l, x = pick.randrange(threads), pick.randrange(16), pick.randrange(256)
        for op in (f"acq(L{l})", f"w(V{x})", f"r(V{x})", f"rel(L{l})"):
            lines.append(f"T{t}|{op}|{location(len(lines))}")
    return lines


def guarded_trace(events: int, threads: int, seed: int) -> list[str]:
    """Blocks of four events, each access under the lock of its variable: 1,000 variables, 100 locks. No candidate."""
    pick = random.Random(seed)
    lines: list[str] = []
    while len(lines) + 4 <= events:
        t, x = pick.randrange(threads), pick.randrange(1_000)
        for op in (f"acq(L{x % 100})", f"r(V{x})", f"w(V{x})", f"rel(L{x % 100})"):
            lines.append(f"T{t}|{op}|{len(lines) % 1000}")
    return lines


def loose_trace(events: int, threads: int, seed: int) -> list[str]:
    """The same, and at the end T0 and T1 take each lock once and then no more: T0 writes 999 of the variables, and T1
    reads them. One candidate each, the last two accesses of the variable."""
    end = [f"T{t}|{op}(L{lock})|end" for t in (0, 1) for lock in range(100) for op in ("acq", "rel")]
    for x in range(999):
        end += [f"T0|w(V{x})|loose", f"T1|r(V{x})|loose"]
    return guarded_trace(max(events - len(end), 0), threads, seed) + end


def named_trace(events: int, threads: int, names: list[str]) -> list[str]:
    return [f"T{i % threads}|w({names[i % len(names)]})|{i}" for i in range(events)]


def short(i: int) -> str:
    return str(i % 1000)


def long(i: int) -> str:
    return f"org.example.project.module{i % 97}.ClassWithALongName.method{i % 13}(SourceFile.java:{i % 5000})"


def nested(events: int) -> list[str]:
    """One thread takes one lock again and again, and then lets it go as often."""
    return [f"T0|acq(L)|{i}" for i in range(events // 2)] + [f"T0|rel(L)|{i}" for i in range(events // 2)]


def ordered_by_a_lock(events: int, threads: int) -> list[str]:
    """Every access of the one variable is ordered by a lock: no candidate at all."""
    lines: list[str] = []
    i = 0
    while len(lines) + 3 <= events:
        t = i % threads
        lines += [f"T{t}|acq(L)|1", f"T{t}|w(x)|2", f"T{t}|rel(L)|3"]
        i += 1
    return lines


def unordered(events: int, threads: int) -> list[str]:
    """No lock and no fork: nothing orders the accesses of two threads."""
    return [f"T{i % threads}|w(V{i % 509})|1" for i in range(events)]


def one_variable(events: int, threads: int) -> list[str]:
    """All accesses are of one variable, and nothing orders those of two threads."""
    return [f"T{i % threads}|w(x)|1" for i in range(events)]


def readers(events: int, threads: int) -> list[str]:
    """Each thread reads one variable again and again; nothing writes it, so that no two accesses conflict."""
    return [f"T{i % threads}|r(x)|1" for i in range(events)]


def colliding_names(folder: str, count: int) -> list[str]:
    """Names whose SipHash-1-3 under zero keys agrees in its low 11 bits, so that a table which hashed names without a
    separate key would put them into few places."""
    here = os.path.dirname(os.path.abspath(__file__))
    tool = os.path.join(folder, "collide")
    subprocess.run(["cc", "-O2", "-o", tool, os.path.join(here, "collide.c")], check=True)
    text = subprocess.run([tool, str(count), "11"], check=True, capture_output=True, text=True).stdout
    return text.split()


def colliding_classes(folder: str, events: int) -> list[str]:
    """Reads of many variables at many places, whose pairs of numbers collide if they are hashed without a key."""
    here = os.path.dirname(os.path.abspath(__file__))
    tool = os.path.join(folder, "collide_pairs")
    subprocess.run(["cc", "-O2", "-o", tool, os.path.join(here, "collide_pairs.c")], check=True)
    text = subprocess.run([tool, str(events), str(events), "16"], check=True, capture_output=True, text=True).stdout
    os.remove(tool)
    return text.splitlines()


def write(folder: str, name: str, lines: list[str], script: Sequence[str] = ()) -> None:
    with open(os.path.join(folder, name), "w", encoding="ascii") as out:
        out.write("".join(line + "\n" for line in lines))
        out.write("---\n" + "".join(line + "\n" for line in script))


def write_trace(folder: str, name: str, lines: list[str]) -> None:
    with open(os.path.join(folder, name), "w", encoding="ascii") as out:
        out.write("".join(line + "\n" for line in lines))


def write_traces(folder: str) -> None:
    """Traces alone, for `info`: how it grows with the events and the threads, with many candidates for races, with
    none, and with one event that has many partners in other threads."""
    os.makedirs(folder, exist_ok=True)
    for threads in (4, 64):
        for events in (EVENTS // 8, EVENTS):
            write_trace(folder, f"locked_{threads}_{events}", locked_trace(events, threads, short, 1))
            write_trace(folder, f"ordered_{threads}_{events}", ordered_by_a_lock(events, threads))
            write_trace(folder, f"unordered_{threads}_{events}", unordered(events, threads))
            write_trace(folder, f"readers_{threads}_{events}", readers(events, threads))
    for threads in (4, 256):
        write_trace(folder, f"locked_{threads}_{MOST_EVENTS}", locked_trace(MOST_EVENTS, threads, short, 1))
    for threads in (64, 256):
        write_trace(folder, f"guarded_{threads}_{MOST_EVENTS}", guarded_trace(MOST_EVENTS, threads, 5))
    write_trace(folder, f"loose_64_{MOST_EVENTS}", loose_trace(MOST_EVENTS, 64, 5))
    write_trace(folder, f"one_variable_256_{MOST_EVENTS}", one_variable(MOST_EVENTS, 256))
    write_trace(folder, f"nested_{EVENTS}", nested(EVENTS))
    write_trace(folder, f"many_names_{EVENTS}", named_trace(EVENTS, 64, [f"variable_{i}" for i in range(EVENTS)]))


def guarded_places(events: int, threads: int) -> list[str]:
    """Two accesses of a lock's variable under the lock, again and again, by threads drawn by chance, at 200 places."""
    chance = random.Random(6)
    lines: list[str] = []
    while len(lines) + 4 <= events:
        thread, lock = chance.randrange(threads), chance.randrange(64)
        accesses = [f"T{thread}|{chance.choice('rw')}(x{lock})|p{chance.randrange(200)}" for _ in range(2)]
        lines += [f"T{thread}|acq(l{lock})|p", *accesses, f"T{thread}|rel(l{lock})|p"]
    return lines


def free_places(events: int, threads: int) -> list[str]:
    """Accesses of 1,000 variables at 200 places, one in twenty a write, that nothing orders."""
    chance = random.Random(7)
    kinds = "r" * 19 + "w"
    return [
        f"T{chance.randrange(threads)}|{chance.choice(kinds)}(x{chance.randrange(1_000)})|p{chance.randrange(200)}"
        for _ in range(events)
    ]


def shared_places(events: int, threads: int) -> list[str]:
    """Reads and writes of 256 variables at 200 places, under no lock: nearly all pairs are forced, since most reads
    see another thread's write."""
    chance = random.Random(9)
    return [
        f"T{chance.randrange(threads)}|{chance.choice('rw')}(x{chance.randrange(256)})|p{chance.randrange(200)}"
        for _ in range(events)
    ]


def scattered_places(events: int, threads: int) -> list[str]:
    """Sections of 64 locks, each with four accesses of any of 4,096 variables: nearly each access is of a class of its
    own."""
    chance = random.Random(10)
    lines: list[str] = []
    while len(lines) + 6 <= events:
        thread, lock = chance.randrange(threads), chance.randrange(64)
        accesses = [
            f"T{thread}|{chance.choice('rw')}(x{chance.randrange(4_096)})|p{chance.randrange(200)}" for _ in range(4)
        ]
        lines += [f"T{thread}|acq(l{lock})|p", *accesses, f"T{thread}|rel(l{lock})|p"]
    return lines


def scattered_widely(events: int, threads: int) -> list[str]:
    """The same at 1,400 places, so that nearly each open pair is of other places than the others."""
    chance = random.Random(12)
    lines: list[str] = []
    while len(lines) + 6 <= events:
        thread, lock = chance.randrange(threads), chance.randrange(64)
        accesses = [
            f"T{thread}|{chance.choice('rw')}(x{chance.randrange(4_096)})|p{chance.randrange(1_400)}" for _ in range(4)
        ]
        lines += [f"T{thread}|acq(l{lock})|p", *accesses, f"T{thread}|rel(l{lock})|p"]
    return lines


def own_locks(events: int, threads: int) -> list[str]:
    """Each thread takes one of its 16 locks before each write of one variable, or lets it go: nearly each write
    is under other locks."""
    chance = random.Random(11)
    held: list[set[int]] = [set() for _ in range(threads)]
    lines: list[str] = []
    while len(lines) + 2 <= events:
        thread, lock = chance.randrange(threads), chance.randrange(16)
        word = "rel" if lock in held[thread] else "acq"
        held[thread] ^= {lock}
        lines += [f"T{thread}|{word}(l{thread}_{lock})|p", f"T{thread}|w(x)|p{chance.randrange(200)}"]
    return lines


def nested_locks(events: int) -> list[str]:
    """One thread takes a fourth of the events' number of locks, which another took before, and then writes in turn
    with it."""
    locks = range(events // 4)
    lines = [f"T0|{word}(l{lock})|p" for lock in locks for word in ("acq", "rel")]
    lines += [f"T1|acq(l{lock})|p" for lock in locks]
    return lines + ["T1|w(x)|q", "T0|w(x)|r"] * ((events - len(lines)) // 2)


def compared_locks(held: int, written: int) -> list[str]:
    """Two threads hold this many locks each, and write one variable at this many places each; half of the pairs are
    ordered."""
    locks = [[f"{side}{lock}" for lock in range(held)] for side in "ab"]
    lines = [f"T2|{word}({lock})|p" for lock in locks[0] + locks[1] for word in ("acq", "rel")]
    lines += [f"T{thread}|acq({lock})|p" for thread in range(2) for lock in locks[thread]]
    lines += [f"T0|w(x)|p{place}" for place in range(written)]
    lines += ["T0|acq(m)|p", "T0|rel(m)|p", "T1|acq(m)|p", "T1|rel(m)|p"]
    return (
        lines + [f"T1|w(x)|q{place}" for place in range(written)] + [f"T0|w(x)|r{place}" for place in range(written)]
    )


def sent_to_all(events: int, threads: int) -> list[str]:
    """One thread writes a variable, and then all others read it, again and again: each event learns something."""
    lines: list[str] = []
    while len(lines) + threads <= events:
        lines += ["T0|w(x)|w", *(f"T{thread}|r(x)|r{thread}" for thread in range(1, threads))]
    return lines


def crowded_places(events: int, threads: int) -> list[str]:
    """Reads and writes of one variable at 1,400 places."""
    chance = random.Random(8)
    return [f"T{chance.randrange(threads)}|{chance.choice('rw')}(x)|p{chance.randrange(1_400)}" for _ in range(events)]


def one_writing_place(events: int) -> list[str]:
    """One thread writes at one place, another reads each time at a new one."""
    return [line for i in range(events // 2) for line in ("T0|w(x)|w", f"T1|r(x)|r{i}")]


def write_places(folder: str) -> None:
    os.makedirs(folder)
    for events, threads in ((EVENTS, 16), (MOST_EVENTS, 16), (MOST_EVENTS, 256)):
        write_trace(folder, f"guarded_{threads}_{events}", guarded_places(events, threads))
        write_trace(folder, f"free_{threads}_{events}", free_places(events, threads))
        write_trace(folder, f"shared_{threads}_{events}", shared_places(events, threads))
        write_trace(folder, f"scattered_{threads}_{events}", scattered_places(events, threads))
    for events in (EVENTS, MOST_EVENTS):
        write_trace(folder, f"crowded_16_{events}", crowded_places(events, 16))
    write_trace(folder, f"scattered_16_{4 * EVENTS}", scattered_places(4 * EVENTS, 16))
    write_trace(folder, f"scattered_widely_16_{EVENTS}", scattered_widely(EVENTS, 16))
    write_trace(folder, f"own_locks_16_{4 * EVENTS}", own_locks(4 * EVENTS, 16))
    write_trace(folder, f"told_to_all_256_{MOST_EVENTS}", sent_to_all(MOST_EVENTS, 256))
    write_trace(folder, f"nested_locks_{MOST_EVENTS}", nested_locks(MOST_EVENTS))
    write_trace(folder, f"compared_locks_{sized(1_000)}", compared_locks(sized(1_000), sized(20)))
    write_trace(folder, f"colliding_classes_{sized(90_000)}", colliding_classes(folder, sized(90_000)))
    write_trace(folder, f"one_writing_{sized(100_000)}", one_writing_place(sized(100_000)))
    write_trace(folder, f"written_everywhere_{sized(40_000)}", [f"T0|w(x)|p{i}" for i in range(sized(40_000))])


def last_pair(lines: list[str]) -> tuple[int, int]:
    """The last event that writes what another thread has written, and the first such write."""
    fields = [line.split("|") for line in lines]
    for last in range(len(fields) - 1, -1, -1):
        thread, operation, _ = fields[last]
        if operation.startswith("w"):
            for first, (other, done, _) in enumerate(fields[:last]):
                if done == operation and other != thread:
                    return first, last
    return 0, 0


def write_pairs(folder: str) -> None:
    """Traces, each with a pair of its events that lie far apart, for `explain`."""
    os.makedirs(folder, exist_ok=True)
    for threads, events in ((4, EVENTS), (16, EVENTS), (16, MOST_EVENTS)):
        lines = locked_trace(events, threads, short, 1)
        first, last = last_pair(lines)
        write_trace(folder, f"locked_{threads}_{events}_{first}_{last}", lines)


def interleaved(clients: int, rounds: int) -> list[str]:
    """Each client makes its own schedule, and the clients in turn add to it and take the event off again."""
    calls = [f"{c} new S{c}" for c in range(1, clients + 1)]
    for i in range(rounds):
        word = "add S{0} 0" if i % 2 == 0 else "back S{0}"
        calls += [f"{c} " + word.format(c) for c in range(1, clients + 1)]
    return calls


def dropped(rows: int, order: Iterable[int]) -> list[str]:
    return [f"1 new S{i}" for i in range(rows)] + [f"1 drop S{i}" for i in order]


def write_refused(folder: str) -> None:
    """Scripts whose last line is refused, so that they are read whole and no call is made: how long the reading
    takes."""
    end = ["0 list"]
    for lines in (sized(400_000), sized(4_000_000)):
        write(folder, f"read_list_{lines}", ["T1|w(x)|1"], ["1 list"] * lines + end)
    # a line of a script has at most 65,536 bytes
    listed = " ".join(str(i) for i in range(10_000))
    for lines in (sized(200), sized(2_000)):
        write(folder, f"read_propose_{lines}", ["T1|w(x)|1"], [f"1 propose 0 1 {listed}"] * lines + end)


def write_proposals(folder: str) -> None:
    """Proposals of many events: one that is adopted and taken back again and again, and one made anew each time."""
    for events in (sized(1_000), sized(10_000)):
        listed = " ".join(str(i) for i in range(events))
        trace = [f"T1|w(y{i})|1" for i in range(events)] + ["T1|w(x)|1", "T2|w(x)|1"]
        propose = f"1 propose {events} {events + 1} {listed}"
        write(folder, f"replay_adopt_{events}", trace, ["1 new A", propose] + ["1 adopt A 0", "1 undo"] * sized(500))
        write(folder, f"replay_propose_{events}", trace, [propose] * sized(500))


def write_edits(folder: str) -> None:
    """The last event of a long schedule taken off and appended again, and two neighbours exchanged again and again, at
    the end of the schedule and in its middle; and schedules without an event over a trace of as many variables as
    events.
    """
    for events in (EVENTS // 8, EVENTS):
        trace = [f"T{i % 2}|w(V{i})|1" for i in range(events)]
        grow = ["1 new A"] + [f"1 add A {i}" for i in range(events)]
        last = events - 1
        write(folder, f"replay_retract_{events}", trace, grow + ["1 back A", f"1 add A {last}"] * sized(50_000))
        write(folder, f"replay_swap_at_the_end_{events}", trace, grow + [f"1 swap A {last - 1}"] * sized(100_000))
        write(
            folder, f"replay_swap_in_the_middle_{events}", trace, grow + [f"1 swap A {events // 2}"] * sized(100_000)
        )
    for rows in (EVENTS, sized(500_000)):
        write(
            folder,
            f"replay_empty_rows_{rows}",
            [f"T1|w(V{i})|1" for i in range(EVENTS)],
            [f"1 new S{i}" for i in range(rows)],
        )


def write_batches(folder: str) -> None:
    """Batches of 8 commands, each made and taken back, and the same commands singly; these fill the log, so there are
    half as many."""
    trace = [f"T1|w(V{i})|1" for i in range(8)]
    commands = ["new A"] + [f"add A {i}" for i in range(7)]
    batched = [f"1 batch {' ; '.join(commands)}", "1 undo"]
    for batches in (sized(50_000), sized(100_000)):
        write(folder, f"replay_batches_{batches}", trace, batched * batches)
    singly = [f"1 {command}" for command in commands] + ["1 undo"] * len(commands)
    write(folder, f"replay_singly_{sized(50_000)}", trace, singly * sized(50_000))


def write_scripts(folder: str) -> None:
    """Scripts on a bench, each at two sizes, so that one sees how the cost grows."""
    writes = ["T1|w(x)|1"] * EVENTS
    write(
        folder,
        f"replay_grow_{MOST_EVENTS}",
        ["T1|w(x)|1"] * MOST_EVENTS,
        ["1 new A"] + [f"1 add A {i}" for i in range(MOST_EVENTS - 1)],
    )
    for events in (EVENTS // 8, EVENTS):
        grow = ["1 new A"] + [f"1 add A {i}" for i in range(events)]
        write(folder, f"replay_grow_{events}", writes, grow)
        write(folder, f"replay_shrink_{events}", writes, grow + ["1 back A"] * events)
    write_edits(folder)
    write_batches(folder)
    for entries in (sized(100_000), sized(1_000_000)):
        write(folder, f"replay_new_and_undo_{entries}", ["T1|w(x)|1"], ["1 new A", "1 undo"] * (entries // 2))
    for rounds in (sized(300), sized(3_000)):
        write(folder, f"replay_32_clients_{32 * (rounds + 1)}", ["T1|w(x)|1"], interleaved(32, rounds))
    for rows in (sized(20_000), sized(100_000)):
        shuffled = random.Random(7).sample(range(rows), rows)
        write(folder, f"replay_drop_oldest_{rows}", ["T1|w(x)|1"], dropped(rows, range(rows)))
        write(folder, f"replay_drop_shuffled_{rows}", ["T1|w(x)|1"], dropped(rows, shuffled))


def seat_calls(client: int, row: int, calls: int) -> list[str]:
    """A client's calls that append an event to a schedule and take it off again, in turn."""
    begin = [f"{client} new S{row}"] if client == row else [f"{client} list"]
    turns = [f"{client} add S{row} 0", f"{client} back S{row}"] * (calls // 2)
    return (begin + turns)[:calls]


def write_seats(folder: str) -> None:
    """Scripts for threads: of each client on its own schedule, and of all clients on one; and the same calls by
    one client alone, in turn."""
    os.makedirs(folder, exist_ok=True)
    write_trace(folder, "trace", ["T1|w(x)|1"])
    for rows in ("own_rows", "one_row"):
        calls = [seat_calls(c, c if rows == "own_rows" else 1, sized(32_000)) for c in range(1, 32)]
        for client, lines in enumerate(calls, start=1):
            write_trace(folder, f"{rows}_{client}", lines)
        for clients in (1, 8, 31):
            in_turn = [f"1 {line.split(' ', 1)[1]}" for turn in zip(*calls[:clients]) for line in turn]
            write_trace(folder, f"{rows}_{clients}_in_turn", in_turn)


def write_sessions(folder: str) -> None:
    """Scripts for sessions, each line of which adds an entry to the log."""
    os.makedirs(folder, exist_ok=True)
    write_trace(folder, "trace", ["T1|w(x)|1"])
    for entries in (sized(100_000), sized(1_000_000)):
        write_trace(folder, f"new_and_undo_{entries}", ["1 new A", "1 undo"] * (entries // 2))


def main() -> None:
    folder = read_options().folder
    os.makedirs(folder, exist_ok=True)
    write_traces(os.path.join(folder, "info"))
    write_pairs(os.path.join(folder, "explain"))
    write_places(os.path.join(folder, "triage"))
    write_seats(os.path.join(folder, "threads"))
    write_sessions(os.path.join(folder, "sessions"))
    for threads in (4, 64):
        write(folder, f"locked_{threads}_short", locked_trace(EVENTS, threads, short, 1))
        write(folder, f"locked_{threads}_long", locked_trace(EVENTS, threads, long, 2))
        write(folder, f"ordered_{threads}", ordered_by_a_lock(EVENTS, threads))
        write(folder, f"unordered_{threads}", unordered(EVENTS, threads))
        write(folder, f"unordered_{threads}_{EVENTS // 8}", unordered(EVENTS // 8, threads))
        write(folder, f"ordered_{threads}_{EVENTS // 8}", ordered_by_a_lock(EVENTS // 8, threads))
        write(folder, f"locked_{threads}_{EVENTS // 8}", locked_trace(EVENTS // 8, threads, short, 1))
    write(folder, "nested", nested(EVENTS))
    write(folder, "many_names", named_trace(EVENTS, 4, [f"variable_{i}" for i in range(EVENTS)]))
    write(folder, "colliding_names", named_trace(EVENTS, 4, colliding_names(folder, EVENTS)))
    write(folder, "skipped_lines", ["T1|begin(b)|1"] * sized(4_000_000))
    write(folder, "replay_new", ["T1|w(x)|1"], [f"1 new S{i}" for i in range(sized(200_000))])
    write(folder, "replay_show", ["T1|w(x)|1"], ["1 new A", "1 add A 0"] + ["1 show A"] * sized(400_000))
    write_scripts(folder)
    write_proposals(folder)
    write_refused(folder)


if __name__ == "__main__":
    main()
