"""An aim that can't be reached any more: steps stop before that, and the page says so and leads back."""

import itertools
import random
from array import array
from collections.abc import Iterable

import traces
from browser import Page
from comparing import same
from lock_traces import nested
from screen_app.reach import Aim, State, before_refusal, loss_of, reach_of, state_of
from screen_app.trace import ACQUIRE, RELEASE, Trace
from stage import LENGTH, SAID, Stage, is_clean, logged, press


def drawn(draw: random.Random, path: str) -> Trace:
    """A small trace of threads that take two locks and access two variables."""
    held: dict[str, int] = {}
    lines: list[str] = []
    for _ in range(draw.randrange(6, 14)):
        thread, roll = draw.randrange(3), draw.random()
        mine = [lock for lock, holder in held.items() if holder == thread]
        lock = draw.choice("LM")
        if roll < 0.2 and lock not in held:
            held[lock] = thread
            lines.append(f"T{thread}|acq({lock})|{len(lines)}\n")
        elif 0.2 <= roll < 0.4 and mine:
            del held[mine[0]]
            lines.append(f"T{thread}|rel({mine[0]})|{len(lines)}\n")
        elif roll >= 0.4:
            lines.append(f"T{thread}|{draw.choice('rw')}({draw.choice('xy')})|{len(lines)}\n")
    traces.write(path, "".join(lines))
    return Trace(path).read_at_once()


def extensions(trace: Trace, pair: tuple[int, int], start: Iterable[int]) -> tuple[int, ...] | None:
    """The shortest way from a schedule to one that shows the pair, over all orders; None if no way leads there."""
    seen, waiting = set(), [tuple(start)]
    while waiting:
        events = waiting.pop()
        state = state_of(trace, events)
        key = tuple(state.counts), tuple(sorted(state.last.items()))
        if key in seen:
            continue
        seen.add(key)
        heads = [own[count] for own, count in zip(trace.events_of, state.counts) if count < len(own)]
        if set(pair) <= set(heads):
            return events
        waiting += [(*events, event) for event in heads if state.may_add(event)]
    return None


def judge(aim: Aim, events: "array[int]", met: dict[str, int]) -> None:
    """Compares the page's claim about a schedule with all its extensions."""
    is_in_reach = extensions(aim.trace, aim.pair, events) is not None
    bar, found = aim.bar(state_of(aim.trace, events)), aim.completes(state_of(aim.trace, events))
    assert not (bar and is_in_reach), (list(events), aim.pair, bar)
    assert not found or is_in_reach, (list(events), aim.pair)
    met["in reach" if is_in_reach else "out of reach"] += 1
    met["found"] += bool(found)
    loss = loss_of(aim, events)
    if not is_in_reach and bar:
        met["named"] += 1
        assert loss is not None, (list(events), aim.pair, bar)
        assert extensions(aim.trace, aim.pair, events[: loss.length]) is not None, (list(events), aim.pair, loss)


def judge_runs(aim: Aim, events: "array[int]", met: dict[str, int]) -> None:
    """A run that a bar stops would have left the reach with its next event."""
    trace = aim.trace
    for thread, own in enumerate(trace.events_of):
        done = state_of(trace, events).counts[thread]
        count, bar, is_searched = reach_of(aim, events, thread, len(own))
        if not bar or is_searched:
            continue
        state, run = state_of(trace, events), list(own[done : done + count + 1])
        added = list(run)
        while added and state.may_add(added[0]):
            state.add(added.pop(0))
        if not added:
            met["stopped"] += 1
            assert extensions(trace, aim.pair, [*events, *run]) is None, (list(events), aim.pair, thread, bar)


def judge_ends(aim: Aim, events: "array[int]", met: dict[str, int]) -> None:
    """Where a run ends, also if an event is refused, a way to the aim is left if there was one that the search knew."""
    trace = aim.trace
    if not aim.completes(state_of(trace, events)):
        return
    for thread, own in enumerate(trace.events_of):
        state, ended = state_of(trace, events), list(events)
        done = state.counts[thread]
        count, _, _ = reach_of(aim, events, thread, len(own))
        for event in own[done : done + count]:
            if not state.may_add(event):
                met["refused"] += len(ended) > len(events)
                break
            state.add(event)
            ended.append(event)
        assert extensions(trace, aim.pair, ended) is not None, (list(events), aim.pair, thread, ended)


def wandered(draw: random.Random, trace: Trace, pair: tuple[int, int]) -> "array[int]":
    """A schedule by chance that has none of the pair."""
    state, events = State(trace), []
    for _ in range(draw.randrange(len(trace) + 1)):
        heads = [own[count] for own, count in zip(trace.events_of, state.counts) if count < len(own)]
        free = [event for event in heads if event not in pair and state.may_add(event)]
        if not free:
            break
        events.append(draw.choice(free))
        state.add(events[-1])
    return array("I", events)


def test_what_is_out_of_reach_by_all_orders() -> None:
    """A bar is never wrong, a search that comes through is never wrong, and a loss names a length that is in reach."""
    draw, met = random.Random(20261129), {"in reach": 0, "found": 0, "out of reach": 0, "named": 0, "stopped": 0}
    met["refused"] = 0
    for _ in range(600):
        trace = drawn(draw, "trace")
        pairs = [(a, b) for b in range(len(trace)) for a in range(b) if trace.conflict(a, b)]
        for pair in draw.sample(pairs, min(2, len(pairs))):
            witness = extensions(trace, pair, ())
            if witness is None:
                continue
            aim, events = Aim(trace, pair, witness), wandered(draw, trace, pair)
            judge(aim, events, met)
            judge_runs(aim, events, met)
            judge_ends(aim, events, met)
    assert min(met.values()) > 20, met
    assert met["found"] > 0.95 * met["in reach"] and met["named"] > 0.9 * met["out of reach"], met


# T1 takes m and reads what T2 wrote under m. The pair is 8 and 9.
LOCKED = (
    "T0|fork(T1)|a:0\nT0|fork(T2)|a:1\nT2|acq(m)|c:0\nT2|w(x)|c:1\nT2|rel(m)|c:2\n"
    "T1|acq(m)|b:0\nT1|r(x)|b:1\nT1|rel(m)|b:2\nT1|w(y)|b:3\nT0|w(y)|a:2\n"
)


def test_a_run_takes_no_lock_that_a_needed_write_needs() -> None:
    """T1 may take the lock, but not read. Then T2 could not write any more."""
    traces.write("trace", LOCKED)
    trace = Trace("trace").read_at_once()
    witness = extensions(trace, (8, 9), ())
    assert witness is not None
    aim, reader = Aim(trace, (8, 9), witness), trace.thread[5]
    same(reach_of(aim, array("I", [0, 1]), reader, 3), (0, None, True))
    same(reach_of(aim, array("I", [0, 1, 2, 3, 4]), reader, 3), (3, None, False))


def in_a_circle(trace: Trace) -> list[tuple[int, int]]:
    """Acquires of two threads, each of a lock that the other thread holds before its own."""
    held: dict[int, set[int]] = {}  # before each acquire the locks of its thread
    for own in trace.events_of:
        holds: list[int] = []
        for event in own:
            if trace.word[event] == ACQUIRE:
                held[event] = set(holds)
                holds.append(trace.name[event])
            elif trace.word[event] == RELEASE:
                holds.remove(trace.name[event])
    return [
        (one, other)
        for other in held
        for one in held
        if one < other
        and trace.thread[one] != trace.thread[other]
        and trace.name[one] in held[other]
        and trace.name[other] in held[one]
    ]


def test_deadlocks_out_of_reach_by_all_orders() -> None:
    """The same of deadlocks: where both requests are next, each waits for the other."""
    draw, met = random.Random(20261201), {"in reach": 0, "found": 0, "out of reach": 0, "named": 0, "stopped": 0}
    for _ in range(250):
        traces.write("trace", nested(draw, "LM", "xy", sections=1))
        trace = Trace("trace").read_at_once()
        for pair in in_a_circle(trace)[:2]:
            witness = extensions(trace, pair, ())
            if witness is None:
                continue
            state = state_of(trace, witness)
            assert not any(map(state.may_add, pair)), (witness, pair)
            aim, events = Aim(trace, pair, witness), wandered(draw, trace, pair)
            judge(aim, events, met)
            judge_runs(aim, events, met)
    assert min(met[kind] for kind in ("in reach", "out of reach", "stopped")) > 10, met
    assert met["found"] > 0.95 * met["in reach"], met


def pool(jobs: int) -> str:
    """Three workers take jobs of T0 from a stack under a lock. The last two events are the aim: a stop without it."""
    lines = [f"T0|fork(T{worker})|a:0\n" for worker in (1, 2, 3)]
    for job in range(jobs):
        for thread in (0, job % 3 + 1):
            lines += [f"T{thread}|r(stop)|b:0\n"] * (thread > 0)
            lines += [f"T{thread}|{word}|b:1\n" for word in ("acq(m)", "r(top)", "w(top)", "rel(m)")]
    return "".join([*lines, "T1|r(stop)|b:0\n", "T0|w(stop)|a:1\n"])


def rebuilt(aim: Aim, order: Iterable[int]) -> list[int]:
    """Each thread in turn runs to the aim, until none may go on: how many events of each thread there are."""
    trace, events, before = aim.trace, array("I"), -1
    while len(events) > before:
        before = len(events)
        for thread in order:
            state = state_of(trace, events)
            done, end = state.counts[thread], aim.limits.get(thread, aim.wants[thread])
            count, _, _ = reach_of(aim, events, thread, max(done, end))
            events.extend(before_refusal(state, trace.events_of[thread][done : done + count]))
    return state_of(trace, events).counts


def test_runs_to_the_aim_come_to_it_in_any_order() -> None:
    for text, witness in ((LOCKED, range(8)), (pool(6), range(len(pool(6).splitlines()) - 2))):
        traces.write("trace", text)
        trace = Trace("trace").read_at_once()
        aim = Aim(trace, (len(witness), len(witness) + 1), witness)
        for order in itertools.permutations(range(len(trace.events_of))):
            counts = rebuilt(aim, order)
            assert all(counts[thread] == limit for thread, limit in aim.limits.items()), (order, counts)


# T1 has to read x before T0 writes it again. The pair is 4 and 5.
OVERWRITTEN = "T0|fork(T1)|a:0\nT0|w(x)|a:1\nT1|r(x)|b:1\nT0|w(x)|a:2\nT0|w(y)|a:3\nT1|w(y)|b:2\n"
PAIR = "document.getElementById('pair').textContent"


async def open_aim(page: Page) -> None:
    """Opens the race of y; those of x are above it."""
    await page.until("document.querySelectorAll('.race').length === 3")
    await page.click(".race", 2)
    await page.until(f"{PAIR}.startsWith('Both are nextT0 4 w y')")


async def test_a_run_to_the_aim_stops_in_time(stage: Stage) -> None:
    screen, page = await stage.opened(OVERWRITTEN)
    await open_aim(page)
    await press(page, "e", "t")
    assert "stopped before 3" in await page.run(SAID), await page.run(SAID)
    assert "the aim needs 2 T1 r x first" in await page.run(SAID), await page.run(SAID)
    same(await page.run(LENGTH), "2 events")
    await page.key("2")
    await page.until(f"{LENGTH} === '3 events'")
    await page.key("1")
    await page.until(f"{LENGTH} === '4 events' && {PAIR}.startsWith('Aim: side by side')")
    is_clean(page, screen)


async def test_a_dead_end_has_a_way_back(stage: Stage) -> None:
    screen, page = await stage.opened(OVERWRITTEN)
    await open_aim(page)
    await press(page, "e", "1", "1", "1")
    await page.until(f'{PAIR}.startsWith("The aim can\'t be reached any more")')
    assert "it needs 2 T1 r x, which can't come after 3 T0 w x" in await page.run(PAIR), await page.run(PAIR)
    same(await page.run("document.querySelector('#pair .accesses').children.length"), 1)  # a sentence, not a column
    await page.click("#pair button")
    await page.until(f"{LENGTH} === '2 events' && {PAIR}.startsWith('Side by side')")
    same(logged()[-1], "1 back r4-5")
    await press(page, "2", "1")
    await page.until(f"{PAIR}.startsWith('Aim: side by side')")
    is_clean(page, screen)
