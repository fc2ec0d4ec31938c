"""The lines about a followed run: where both threads are, where the run departed, how the program ended."""
from __future__ import annotations

import signal
from typing import Iterator

import clocks
import following
import deadlock_plans
import places
import plans
import raw as raw_file
from golang import following as following_go
from following import DEPARTED, HANGS, MISSED, NO_WAIT, NOT_HELD, OTHER_CODE, OTHER_OUTCOME, OTHER_WORLD
from following import THREAD_ENDED, WOULD_WAIT

# Kinds that have other names than in the header.
KIND_WORDS = {
    "VOID": "hook",
    "ACQUIRE": "lock",
    "RELEASE": "unlock",
    "FREED": "free",
    "WRITER": "write lock",
    "ANSWER": "call",
    "TRIED": "refused try-lock",
    "READER_IN": "read lock",
    "READER_OUT": "read unlock",
    "ARRIVED": "meeting",
    "WENT_ON": "end of a meeting",
}
WORDS_OF = {number: KIND_WORDS.get(name, name.lower().replace("_", " ")) for name, number in raw_file.KINDS.items()}
# How a run ended that stood at the race and did not come to both accesses.
GONE = "departed"


class RunMessages:
    """Texts about followed runs of one recording."""

    def __init__(self, clock: clocks.Clock) -> None:
        self.clock = clock
        command = following_go.places_command(clock) if clock.fields.get("go") else []
        self.places: places.Answers = places.Places(clock.raw[: clock.head.words_at], command)
        if clock.fields.get("java"):
            self.places = places.Named(clock.fields["java"]["places"])

    def line(self, *addresses: int) -> str:
        """The line of the first of the addresses that has one."""
        for address in addresses:
            frames = self.places.frames(address) if address else []
            if frames:
                return frames[0][1]
        return "a place without a line"

    def kind(self, number: int) -> str:
        return WORDS_OF.get(number & 127, "hook")

    def a_kind(self, number: int) -> str:
        word = self.kind(number)
        return f"an {word}" if word[0] in "aeiou" else f"a {word}"

    def place_of(self, standing: following.Standing) -> str:
        return self.line(standing.pc, *(address for frame in standing.frames for address in frame))

    def title(self, result: following.Result) -> str:
        if isinstance(result.plan, deadlock_plans.DeadlockPlan):
            waits = [self.wait(one, result.plan, holder) for one, holder in zip(result.waiting, result.holders)]
            return f"the deadlock stands: {'; '.join(waits)}"
        places_now = [f"T{one.thread} at {self.place_of(one)}" for one in result.standing]
        return f"the race stands: {', '.join(places_now)}"

    def wait(self, one: following.Standing, plan: deadlock_plans.DeadlockPlan, holder: int) -> str:
        """Where a thread of a deadlock waits, and for what."""
        place = plan.places.get(one.thread) or self.place_of(one)
        return f"T{one.thread} at {place} waits for {plan.lock_of(one.thread)}, which T{holder} holds"

    def waiting(self, result: following.Result, plan: deadlock_plans.DeadlockPlan) -> Iterator[str]:
        """The lines of the threads of a deadlock."""
        for one in result.waiting:
            where = "" if one.shown else f" at {one.at:x}"
            yield f"  T{one.thread}, {self.kind(one.kind)} of {plan.lock_of(one.thread)}{where}"
            yield from (f"    #{number} {frame}" for number, frame in enumerate(self.frames(one)))

    def frames(self, standing: following.Standing) -> list[str]:
        """The stack of a thread at its access, the innermost frame first."""
        if standing.shown:
            return standing.shown.calls
        addresses = [standing.pc, *(site for _, site in standing.frames)]
        found = [frame for address in addresses for frame in self.places.frames(address)]
        return [f"{function} {place}" for function, place in found]

    def stands(self, result: following.Result) -> Iterator[str]:
        """The lines of both threads at their accesses, or of the threads of a deadlock."""
        yield self.title(result)
        if isinstance(result.plan, deadlock_plans.DeadlockPlan):
            yield from self.waiting(result, result.plan)
            return
        for letter, one in zip("AB", result.standing):
            yield f"  {letter}: T{one.thread}, {self.kind(one.kind)} of {accessed_by(one)}"
            yield from (f"    #{number} {frame}" for number, frame in enumerate(self.frames(one)))
        if not result.is_same_memory:
            yield "the two accesses are of different memory here"

    def reason(self, result: following.Result) -> str:
        where, thread = result.place or self.line(result.pc), f"T{result.thread}"
        if result.why in (NO_WAIT, NOT_HELD) and isinstance(result.plan, deadlock_plans.DeadlockPlan):
            where = result.plan.places.get(result.thread, where)
        if result.timed_out:
            return "the program did not come so far in time (--timeout)"
        expected = result.expected
        wanted = f"{self.a_kind(expected)} at {self.line(expected >> 16)}" if expected else "its end"
        return {
            OTHER_CODE: f"{thread} came to {self.a_kind(result.kind)} at {where}, where the recording has {wanted}",
            MISSED: f"{thread} went past it, at {where}",
            WOULD_WAIT: f"{thread} has to wait at {self.line(result.pc, result.last_pc)}",
            HANGS: f"nothing happened for {result.plan.patience} ms, and {thread} did not come",
            THREAD_ENDED: f"{thread} ended",
            NO_WAIT: f"{thread} did not have to wait at {where}",
            NOT_HELD: f"{thread} waits at {where} for a lock that no other thread of the deadlock holds",
            OTHER_OUTCOME: f"{thread}: a compare-and-swap at {where} came out otherwise",
            OTHER_WORLD: f"{thread}: a call at {where} that waits for the world was not answered as in the recording",
        }.get(result.why, "the program ended")

    def departed(self, result: following.Result) -> Iterator[str]:
        """The lines of a run that is not that of the schedule."""
        yield self.departure(result)
        for thread, mine in sorted(self.clock.ticks.items()):
            at = 3 * result.at_tick[thread] if thread < len(result.at_tick) else len(mine)
            if result.state == DEPARTED and at < len(mine):
                yield f"  T{thread} stands before {self.a_kind(mine[at])} at {self.line(mine[at] >> 16)}"

    def departure(self, result: following.Result) -> str:
        event, plan = result.event, result.plan
        if event is None:
            return f"departed at the end of the schedule: {self.reason(result)}"
        line = plan.lines.get(event) or self.end_of(plan, event)
        step = f"(step {result.step} of {len(result.rows)})"
        return f"departed at event {event}  {line} {step}: {self.reason(result)}"

    @staticmethod
    def end_of(plan: plans.Plan, event: int) -> str:
        """What a run has to come to by an event at the end of a schedule."""
        if isinstance(plan, deadlock_plans.DeadlockPlan):
            thread = plan.clock.record(event).thread
            return f"T{thread} waits for {plan.lock_of(thread)}"
        return "the access A" if event == plan.ends[0] else "the access B"

    @staticmethod
    def liberties(result: following.Result) -> Iterator[str]:
        """What a run by itself may not do."""
        split = result.plan.split
        if split:
            yield f"{split} accesses of the schedule have others between their parts; each was done whole"
        if result.refused_tries:
            yield f"{result.refused_tries} try-locks were refused as in the recording, though the lock was free"
        if result.spurious:
            yield f"{result.spurious} waits woke without a signal, as the schedule wants"
        if result.early:
            yield f"{result.early} events came earlier than in the schedule, which nothing forbids"


def accessed_by(standing: following.Standing) -> str:
    """What a thread accesses, and the value there before both accesses and after both."""
    if standing.shown:
        what, holds, after = standing.shown.accessed, standing.shown.before, standing.shown.after
        text = what + (f", which holds {holds}" if holds is not None else "")
        return text + (f", afterwards {after}" if after is not None else "")
    size = "1 byte" if standing.size == 1 else f"{standing.size} bytes"
    text = f"{size} at {standing.at:x}"
    text += f", which hold {value_of(standing.value, standing.size)}" if standing.value else ""
    return text + (f", afterwards {value_of(standing.after, standing.size)}" if standing.after else "")


def value_of(halves: tuple[int, int], size: int) -> str:
    low, high = halves
    if size > 8:
        return f"0x{high:016x}{low:016x}.."
    return f"{low & ((1 << 8 * size) - 1):#x}"


def ending(result: following.Result) -> str:
    """How the program ended after the race."""
    if result.state == DEPARTED:
        return GONE
    if result.timed_out:
        return "hangs"
    if result.is_deadlock:
        return "hangs in a deadlock"
    if result.status >= 0:
        return f"status {result.status}"
    try:
        return f"signal {-result.status} ({signal.Signals(-result.status).name})"
    except ValueError:
        return f"signal {-result.status}"
