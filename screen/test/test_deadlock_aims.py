"""When the page says that a deadlock is reached: exactly when the program refuses each request for the other's lock."""

import os
import random

from comparing import same
from lock_traces import nested
from screen_app.bench import Bench
from screen_app.frontier import frontier
from screen_app.trace import ACQUIRE, Trace
from servers import bench_of


async def made(bench: Bench, draw: random.Random, name: str) -> None:
    """A schedule by chance, as the program lets it grow."""
    own, counts = bench.trace.events_of, [0] * len(bench.trace.events_of)
    await bench.say(f"new {name}")
    for _ in range(draw.randrange(1, 2 * len(bench.trace) + 1)):
        left = [thread for thread, count in enumerate(counts) if count < len(own[thread])]
        if not left:
            return
        thread = draw.choice(left)
        (answer,) = await bench.say(f"add {name} {own[thread][counts[thread]]}")
        counts[thread] += answer.endswith(": done")


async def refusals(bench: Bench, name: str, events: tuple[int, int]) -> list[str]:
    """What the program says of each event if it is to be added. If it can be, it is taken back."""
    found = []
    for event in events:
        (answer,) = await bench.say(f"add {name} {event}")
        if answer.endswith(": done"):
            await bench.say(f"back {name}")
        found.append(answer)
    return found


def looked_at(draw: random.Random, bench: Bench, name: str) -> list[tuple[int, int]]:
    """The pairs of acquires that are next after a schedule, and some others."""
    trace, counts = bench.trace, bench.sheet(name).counts
    heads = {own[count] for own, count in zip(trace.events_of, counts) if count < len(own)}
    acquires = [event for event in range(len(trace)) if trace.word[event] == ACQUIRE]
    pairs = [
        (one, two) for two in acquires for one in acquires if one < two and trace.thread[one] != trace.thread[two]
    ]
    return [pair for pair in pairs if heads.issuperset(pair)] + draw.sample(pairs, min(2, len(pairs)))


async def judge(draw: random.Random, bench: Bench, name: str, met: dict[bool, int]) -> None:
    """Compares what the server says of pairs of acquires with the program's answers to both."""
    trace = bench.trace
    for pair in looked_at(draw, bench, name):
        answers = await refusals(bench, name, pair)
        others = [f"refused 46 25 lock held by {trace.threads.text(trace.thread[event])}" for event in pair[::-1]]
        for bench.questions in (True, False):
            waits = (await frontier(bench, name, pair))["waits"]
            same((pair, bool(waits)), (pair, answers == others))
            met[bool(waits)] += 1
            same([wait["event"] for wait in waits], list(pair) if waits else [])
            same(
                [wait["since"]["thread"] for wait in waits],
                [trace.thread[event] for event in pair[::-1]] if waits else [],
            )
            for wait in waits:
                same((wait["since"]["name"], wait["since"]["operation"]), (wait["name"], "acq"))
                assert wait["since"]["event"] in bench.row(name).events, wait


async def test_a_deadlock_is_reached_exactly_if_both_are_refused(program: str) -> None:
    """Of all acquires of traces and schedules by chance, whether the program answers questions or not."""
    draw, met = random.Random(20261202), {True: 0, False: 0}
    for number in range(16):
        bench = await bench_of(program, nested(draw, "ab", sections=1) if number % 4 else nested(draw, "abc"))
        if not bench.questions:
            raise AssertionError("the program answers no questions")
        for at in range(4):
            await made(bench, draw, f"S{number}-{at}")
            await judge(draw, bench, f"S{number}-{at}", met)
        await bench.session.stop()
        os.remove("log")
    assert min(met.values()) > 10, met


# T1 holds a twice, and its first acquire counts. A third thread has the name that the page shows of T2 as well.
AGAIN = "T1|acq(a)|1\nT1|acq(a)|2\nT1|acq(b)|3\nT1|rel(b)|4\nT1|rel(a)|5\nT1|rel(a)|6\nT2|acq(b)|7\nT2|acq(a)|8\n"


async def test_since_when_a_lock_is_held(program: str) -> None:
    """The first of several acquires counts. The pair may be any two acquires, and no accesses."""
    bench = await bench_of(program, AGAIN)
    await bench.say("new A", "add A 0", "add A 1", "add A 6")
    waits = (await frontier(bench, "A", (2, 7)))["waits"]
    same([(one["event"], one["since"]["event"]) for one in waits], [(2, 6), (7, 0)])
    for aim in ((), (2, 6), (1, 7), (0, 7), (3, 7)):
        same((aim, (await frontier(bench, "A", aim))["waits"]), (aim, []))
    await bench.session.stop()


def test_which_events_are_requests() -> None:
    with open("trace", "w", encoding="utf-8") as file:
        file.write(AGAIN)
    trace = Trace("trace").read_at_once()
    same([trace.are_requests(aim) for aim in ((), (0, 6), (0, 3))], [False, True, False])
