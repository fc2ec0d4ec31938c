"""What may come next in a schedule: each thread's next event, and what the program says of it."""

from collections import Counter
from typing import NamedTuple, cast

from .bench import Bench
from .causes import JOIN_EARLY, LOCK_HELD, NOT_FORKED, WRONG_WRITER, Causes
from .checked import Mistake
from .messages import Ahead, Frontier, Wait
from .messages import Next as NextMessage
from .session import Gone
from .sheet import Sheet
from .text import clean

# How often a schedule is requested again if others change it before the answer.
TRIES = 6
# The refusal of a batch whose first command could be made: its last makes a schedule that is there.
COULD = "refused 70 at 1 43"
AHEAD = 200


class Next(NamedTuple):
    """An event, and why it may not come next, in the program's words; None where it may."""

    event: int
    cause: str | None


async def frontier(bench: Bench, name: str, aim: tuple[int, ...]) -> Frontier:
    has_died = False
    for _ in range(TRIES):
        version = bench.row(name).version
        sheet = bench.sheet(name)
        try:
            asked = await (by_question(bench, name) if bench.questions else by_batches(bench, name, sheet))
        except Gone:  # a question may be asked again: the session is started anew
            if has_died:
                raise
            has_died = True
            continue
        if name in bench.mirror.rows and bench.row(name).version == version:
            break
    events, pairs = asked
    causes, needs = Causes(sheet), needed(bench, aim)
    own = {bench.trace.thread[event] for event in aim}
    coming = []
    for one in events:
        coming.append(next_message(bench, sheet, one.event, needs, own))
        if one.cause:
            coming[-1]["why"] = causes.cause_of(one.event, one.cause)
    return {
        "name": name,
        "length": len(sheet),
        "next": coming,
        "pairs": pairs,
        "waits": refused_waits(sheet, aim, {one.event: one.cause for one in events}),
        "ended": len(bench.trace.threads.raw) - len(coming),
        "witnessed": aim in bench.witnesses,
    }


async def by_batches(bench: Bench, name: str, sheet: Sheet) -> tuple[list[Next], list[list[int]]]:
    """Asks by batches that are always refused, so none is logged.

    `batch add A E ; new A` is refused at 0 with the cause for which E may not come next, and else at 1, since A is
    there.
    """
    events = [own[count] for own, count in zip(bench.trace.events_of, sheet.counts) if count < len(own)]
    lines = [f"batch add {name} {event} ; new {name}" for event in events]
    *answers, pairs = await bench.say(*lines, f"races {name}")
    found = []
    for event, answer in zip(events, answers):
        cause = None if answer.startswith(COULD) else answer.removeprefix("refused 70 at 0 46 ")
        found.append(Next(event, cause))
    return found, pairs_of(pairs)


async def by_question(bench: Bench, name: str) -> tuple[list[Next], list[list[int]]]:
    """Asks the program's own question. The answer names causes by numbers."""
    answer, pairs = await bench.say(f"? next {name}", f"races {name}")
    fields = answer.split(" ")
    if fields[0] != "next":
        raise Mistake("no such schedule")
    return [item_of(bench, word) for word in fields[3:]], pairs_of(pairs)


def item_of(bench: Bench, word: str) -> Next:
    event, *cause = word.split(":")
    if not cause:
        return Next(int(event), None)
    return Next(int(event), f"{cause[0]} {cause_text(bench, *cause)}")


def cause_text(bench: Bench, code: str, *about: str) -> str:
    """The text of a cause, as a refusal has it."""
    if code == WRONG_WRITER:
        return f"wrong writer needs {about[0]} has {about[1]}"
    if code == LOCK_HELD:
        return f"lock held by {bench.trace.threads.text(int(about[0]))}"
    return {NOT_FORKED: "not forked", JOIN_EARLY: "join early"}[code]


def pairs_of(answer: str) -> list[list[int]]:
    word, *pairs = answer.split(" ")
    if word != "pairs":
        raise Mistake("no such schedule")
    return [list(map(int, pair.split("-"))) for pair in pairs]


def waits_of(sheet: Sheet, requests: tuple[int, ...]) -> list[Wait]:
    """What the requests of a deadlock wait for after a schedule. Nothing if one is not next in its thread, or if no
    thread of another one holds its lock."""
    trace, found = sheet.trace, []
    threads = {trace.thread[event]: trace.index(event) for event in requests}
    if not trace.are_requests(requests) or len(threads) < len(requests):
        return []
    for event in requests:
        section = sheet.sections.held.get(trace.name[event])
        if section is None or section.thread == trace.thread[event] or section.thread not in threads:
            return []
        wait = cast(Wait, trace.event_message(event))
        wait["since"] = trace.event_message(sheet.events[section.begin])
        found.append(wait)
    return found if all(sheet.counts[thread] == index for thread, index in threads.items()) else []


def refused_waits(sheet: Sheet, aim: tuple[int, ...], causes: dict[int, str | None]) -> list[Wait]:
    """What the requests of an aim wait for, if the program refuses each because that thread holds its lock."""
    found = waits_of(sheet, aim)
    names = sheet.trace.threads
    said = {one["event"]: f"{LOCK_HELD} lock held by {names.text(one['since']['thread'])}" for one in found}
    return found if all(clean(causes.get(event) or "") == text for event, text in said.items()) else []


def next_message(bench: Bench, sheet: Sheet, event: int, needs: dict[int, int], own: set[int]) -> NextMessage:
    """A thread's next event, how far it has come, and how far the aim needs it."""
    thread = bench.trace.thread[event]
    events, done = bench.trace.events_of[thread], sheet.counts[thread]
    message = cast(NextMessage, bench.trace.event_message(event))
    message["left"] = len(events) - done
    if thread in needs:
        message["aim"], message["own"] = needs[thread] - done, thread in own
        if needs[thread] > done:
            message["to"] = events[needs[thread] - 1]
    return message


def needed(bench: Bench, aim: tuple[int, ...]) -> dict[int, int]:
    """How many events of each thread the aim needs: as many as its witness has; without one, those before its two."""
    trace = bench.trace
    witness = bench.witnesses.get((aim[0], aim[1])) if len(aim) == 2 else None
    if witness is None:
        return {trace.thread[event]: trace.index(event) for event in aim}
    if aim not in bench.needs:
        counts = Counter(map(trace.thread.__getitem__, witness))
        bench.needs[aim] = {**{trace.thread[event]: 0 for event in aim}, **counts}
    return bench.needs[aim]


def ahead(bench: Bench, name: str, thread: int, first: int, count: int) -> Ahead:
    """Events of a thread that the schedule does not have yet."""
    sheet, trace = bench.sheet(name), bench.trace
    if thread >= len(trace.events_of):
        raise Mistake("no such thread")
    events = trace.events_of[thread]
    start = sheet.counts[thread] + first
    return {
        "thread": thread,
        "left": len(events) - sheet.counts[thread],
        "from": first,
        "events": [trace.event_message(event) for event in events[start : start + min(count, AHEAD)]],
    }
