"""Traces that keep the rules, and calls that are most often accepted, drawn by chance for the judges."""

import random
from collections.abc import Iterable
from typing import NamedTuple

import plain

THREADS = ["main", "T1", "T2", "worker.b", "5"]
# A thread that is only forked and joined: its fork and its join may be side by side.
IDLE = "idle"
VARIABLES = ["x", "y", "a[0](1)"]
LOCKS = ["l", "m"]
SCHEDULES = ["A", "AB", "B", "a-longer.name_4", "x" * 64]

# How often each operation is drawn at the beginning of a trace, in its middle and at its end.
OPERATIONS = ["r", "w", "acq", "rel", "fork", "join"]
BEGINNING = [4, 4, 3, 1, 6, 0]
MIDDLES = [[7, 6, 4, 4, 1, 0], [3, 3, 9, 8, 1, 0]]
END = [6, 4, 2, 6, 0, 3]
# So deep are sections of locks at most that lie in one another.
MOST_NESTED = 3

# How often each call is drawn where schedules grow, and where much is taken back and copied.
GROWING = {
    "new": 3,
    "add": 14,
    "back": 2,
    "swap": 3,
    "branch": 2,
    "drop": 1,
    "adopt": 1,
    "batch": 2,
    "undo": 4,
    "propose": 1,
    "show": 1,
    "list": 1,
    "races": 2,
}
ARGUING = {
    "new": 3,
    "add": 9,
    "back": 3,
    "swap": 4,
    "branch": 5,
    "drop": 3,
    "adopt": 3,
    "batch": 8,
    "undo": 14,
    "propose": 2,
    "show": 2,
    "list": 1,
    "races": 1,
}
# Schedules that come to have all events, whose ends are exchanged.
ENDING = {"new": 1, "add": 40, "back": 1, "swap": 6, "undo": 1, "propose": 1, "adopt": 1, "races": 2}
MOODS = [GROWING, ARGUING, ENDING]
# The commands alone, and with batches.
COMMANDS = {"new": 2, "add": 4, "back": 1, "swap": 2, "branch": 2, "drop": 2}
BATCHES = {**COMMANDS, "batch": 5}
# The commands of a batch.
IN_BATCHES = {**COMMANDS, "adopt": 1}
# So long are most batches; some have as many commands as a batch may have, and some one more.
MOST_COMMANDS = 7
LONGEST = [plain.BATCH_LIMIT, plain.BATCH_LIMIT + 1]

# A call of a client, the line that it is answered by, and the log before it.
Made = tuple[int, plain.Call, str, plain.Log]


class State(NamedTuple):
    """What a command is drawn after: that of a log, and within a batch that of the commands before it."""

    trace: plain.Trace
    rows: plain.Rows
    board: list[plain.Listed]


def weights_at(place: int, length: int, middle: list[int]) -> list[int]:
    if place < 4:
        return BEGINNING
    return END if place > length * 3 // 4 else middle


def trace(chance: random.Random, most: int) -> plain.Trace:
    """A trace of 2 to 5 threads with 4 to `most` events, or fewer where the rules leave none to draw."""
    threads = chance.sample(THREADS, chance.randint(2, 5))
    names = {"r": VARIABLES[: chance.randint(1, 3)], "acq": LOCKS[: chance.randint(1, 2)], "fork": threads + [IDLE]}
    names.update(w=names["r"], rel=names["acq"], join=names["fork"])
    length = chance.randint(4, most)
    middle = chance.choice(MIDDLES)
    events: list[plain.Event] = []
    for _ in range(20 * length):
        if len(events) == length:
            break
        word = chance.choices(OPERATIONS, weights_at(len(events), length, middle))[0]
        event = plain.Event(chance.choice(threads), word, chance.choice(names[word]))
        if plain.breach(events, event) is None:
            events.append(event)
    return plain.Trace(events)


def section(chance: random.Random, depth: int) -> list[tuple[str, str]]:
    """The operations of a part of a thread: an access, or a section of a lock with one to three parts."""
    if depth == MOST_NESTED or chance.random() < 0.45:
        return [(chance.choice("rw"), chance.choice(VARIABLES[:2]))]
    lock = chance.choice(LOCKS)
    within = [operation for _ in range(chance.randint(1, 3)) for operation in section(chance, depth + 1)]
    return [("acq", lock), *within, ("rel", lock)]


def locked_trace(chance: random.Random, most: int) -> plain.Trace:
    """A trace of 2 or 3 threads with at most this many events, most accesses in sections of locks. Some threads are
    forked and joined by the first. It ends where the rules leave no thread that may go on."""
    threads = chance.sample(THREADS, chance.randint(2, 3))
    to_do: dict[str, list[tuple[str, str]]] = {
        thread: [operation for _ in range(chance.randint(1, 4)) for operation in section(chance, 0)]
        for thread in threads
    }
    first, others = threads[0], [*threads[1:], IDLE]
    for other in chance.sample(others, chance.choice([0, 0, 1, 2])):
        at = chance.randint(0, len(to_do[first]))
        to_do[first].insert(at, ("fork", other))
        to_do[first].insert(chance.randint(at + 1, len(to_do[first])), ("join", other))
    events: list[plain.Event] = []
    while len(events) < most:
        nexts = [plain.Event(thread, *rest[0]) for thread, rest in to_do.items() if rest]
        allowed = [event for event in nexts if plain.breach(events, event) is None]
        if not allowed:
            break
        event = chance.choice(allowed)
        to_do[event.thread].pop(0)
        events.append(event)
    return plain.Trace(events)


def probed(drawn: plain.Trace) -> plain.Trace:
    """The trace with a write before and a write after each pair of events, of a fresh variable: the two writes are a
    candidate exactly if no chain of edges leads from the first event to the second."""
    events = []
    numbers = range(len(drawn.events))
    for number, event in enumerate(drawn.events):
        events += [plain.Event(event.thread, "w", f"{number}-{later}") for later in numbers if later > number]
        events.append(event)
        events += [plain.Event(event.thread, "w", f"{earlier}-{number}") for earlier in numbers if earlier < number]
    return plain.Trace(events)


def event(chance: random.Random, trace_: plain.Trace, listed: plain.Listed) -> int:
    """An event, most often one that may come next, or the next one of a thread; also the number after the last one,
    which has no event."""
    wanted = chance.random()
    if wanted < 0.9:
        causes = [trace_.cause(listed, event) for event in range(len(trace_.events))]
        is_next = [cause is None if wanted < 0.7 else cause not in (None, "22 not next") for cause in causes]
        if any(is_next):
            return chance.choice([event for event, is_one in enumerate(is_next) if is_one])
    return chance.randint(0, len(trace_.events))


def neighbours(chance: random.Random, trace_: plain.Trace, listed: plain.Listed) -> int:
    """A place in the list, most often one whose event may change places with the next; also one after its end."""
    apart = [at for at in range(len(listed) - 1) if trace_.independent(listed[at], listed[at + 1])]
    if apart and chance.random() < 0.7:
        return chance.choice(apart)
    return chance.randint(0, len(listed))


def proposal(chance: random.Random, log: plain.Log) -> plain.Call:
    """A list, most often a correct reordering that begins like some schedule, and a pair, most often one that it
    shows."""
    trace_ = log.trace
    listed = chance.choice([()] + [row.events for row in log.rows.values()])
    listed = listed[: chance.randint(0, len(listed))]
    for _ in range(chance.randint(0, 8)):
        drawn = event(chance, trace_, listed)
        if trace_.cause(listed, drawn) is None:
            listed += (drawn,)
    shown = trace_.shown_pairs(listed)
    if chance.random() < 0.25:
        at = chance.randint(0, len(listed))
        listed = listed[:at] + (chance.randint(0, len(trace_.events)),) + listed[at:]
    if shown and chance.random() < 0.85:
        pair = chance.choice(shown)
        return ("propose", *(pair if chance.random() < 0.5 else pair[::-1]), listed)
    return ("propose", chance.randint(0, len(trace_.events)), chance.randint(0, len(trace_.events)), listed)


def name_among(chance: random.Random, names: list[str], preferred: Iterable[str]) -> str:
    """One of the names, most often a preferred one."""
    among = [name for name in names if name in preferred]
    return chance.choice(among if among and chance.random() < 0.85 else names)


def command(chance: random.Random, state: plain.Log | State, names: list[str], word: str) -> plain.Call:
    """A command on one of the names; also a call that has a name alone."""
    fresh = [name for name in names if name not in state.rows]
    if word == "new":
        return (word, name_among(chance, names, fresh))
    name = name_among(chance, names, state.rows)
    listed = state.rows[name].events if name in state.rows else ()
    if word == "add":
        return (word, name, event(chance, state.trace, listed))
    if word == "swap":
        return (word, name, neighbours(chance, state.trace, listed))
    if word == "branch":
        return (word, name, chance.randint(0, len(listed) + 1), name_among(chance, names, fresh))
    if word == "adopt":
        return (word, name, chance.randint(0, len(state.board)))
    return (word, name)


def batch(chance: random.Random, log: plain.Log, names: list[str]) -> plain.Call:
    """A batch, each command of which is drawn after those before it. Most are accepted. In others the first refused
    command is at any place; some have too many commands."""
    length = chance.choice(LONGEST) if chance.random() < 0.03 else chance.randint(1, MOST_COMMANDS)
    is_good = chance.random() < 0.8
    rows = log.rows
    commands: list[plain.Call] = []
    for _ in range(8 * length):
        if len(commands) == length:
            break
        state = State(log.trace, rows, log.board)
        drawn = command(chance, state, names, chance.choices(list(IN_BATCHES), list(IN_BATCHES.values()))[0])
        try:
            rows = log.rows_after(rows, len(log.entries), drawn)
        except plain.Refused:
            if is_good:
                continue
        commands.append(drawn)
    return ("batch", tuple(commands or [("new", names[0])]))


def call(chance: random.Random, log: plain.Log, names: list[str], mood: dict[str, int]) -> plain.Call:
    """A call on one of the names, whoever makes it."""
    word = chance.choices(list(mood), list(mood.values()))[0]
    if word in ("undo", "list"):
        return (word,)
    if word == "propose":
        return proposal(chance, log)
    if word == "batch":
        return batch(chance, log, names)
    return command(chance, log, names, word)


def undo_by_number(chance: random.Random, log: plain.Log, client: int) -> tuple[str, int]:
    """An undo by number, most often of what the client did and was not undone; also by a number that no entry has."""
    own = [number for number, whose, _ in log.live if whose == client]
    if own and chance.random() < 0.75:
        return ("undo", chance.choice(own))
    return ("undo", chance.randint(0, len(log.entries)))


def call_of_client(
    chance: random.Random, log: plain.Log, names: list[str], mood: dict[str, int], client: int
) -> plain.Call:
    """A call of this client; some of its undos are by number."""
    drawn = call(chance, log, names, mood)
    if drawn == ("undo",) and chance.random() < 0.4:
        return undo_by_number(chance, log, client)
    return drawn


def script(
    chance: random.Random, trace_: plain.Trace, length: int, clients: list[int] | None = None
) -> tuple[list[Made], plain.Log]:
    """This many calls of several clients, each with its client, the line that it is answered by and the log before it;
    and the log after all."""
    clients = clients or chance.sample(range(1, 33), chance.randint(2, 5))
    names = chance.sample(SCHEDULES, chance.randint(2, 4))
    mood = chance.choice(MOODS)
    log = plain.Log(trace_)
    calls: list[Made] = []
    for _ in range(length):
        client = chance.choice(clients)
        drawn = call_of_client(chance, log, names, mood, client)
        answer, after = log.answer(client, drawn)
        calls.append((client, drawn, answer, log))
        log = after
    return calls, log
