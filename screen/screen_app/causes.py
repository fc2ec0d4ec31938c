"""Refusals of an event: the program's words, and beside them what they are about and what would help."""

import re

from .messages import Cause
from .sheet import Sheet
from .text import clean

NOT_FORKED, WRONG_WRITER, LOCK_HELD, JOIN_EARLY = "23", "24", "25", "26"
WRITERS = re.compile(r"24 wrong writer needs (\S+) has (\S+)\Z")


class Causes:
    """Says causes for one sheet as it is now. Threads often wait for the same lock, so its release is sought once."""

    def __init__(self, sheet: Sheet) -> None:
        self.sheet, self.trace = sheet, sheet.trace
        self.releases: dict[tuple[int, int], int | None] = {}

    def cause_of(self, event: int, reason: str) -> Cause:
        """What the program said of this event, as `25 lock held by T2`, for the browser."""
        code = reason.split(" ", 1)[0]
        about = {
            NOT_FORKED: self._not_forked,
            WRONG_WRITER: self._wrong_writer,
            LOCK_HELD: self._lock_held,
            JOIN_EARLY: self._join_early,
        }.get(code)
        answer: Cause = {"said": clean(reason), "code": code}
        if about:
            about(answer, event, reason)
        if "help" in answer:
            helper = self.trace.thread[answer["help"]]
            answer["helper"] = helper
            answer["steps"] = self.trace.index(answer["help"]) - self.sheet.counts[helper] + 1
        return answer

    def _not_forked(self, answer: Cause, event: int, reason: str) -> None:
        fork = self.trace.fork_of[self.trace.thread[event]]
        answer["about"], answer["help"] = self.trace.event_message(fork), fork

    def _wrong_writer(self, answer: Cause, event: int, reason: str) -> None:
        found = WRITERS.match(reason)
        needs, has = (None if word == "none" else int(word) for word in found.groups()) if found else (None, None)
        answer["has"] = None if has is None else self.trace.event_message(has)
        if needs is not None:
            answer["about"] = self.trace.event_message(needs)
            if self.sheet.position[needs] < 0:
                answer["help"] = needs

    def _lock_held(self, answer: Cause, event: int, reason: str) -> None:
        lock = self.trace.name[event]
        section = self.sheet.sections.held.get(lock)
        if not section:
            return
        key = (section.thread, lock)
        if key not in self.releases:
            position = self.sheet.counts[section.thread]
            self.releases[key] = self.trace.release_after(section.thread, lock, position, section.depth)
        answer["about"] = self.trace.event_message(self.sheet.events[section.begin])
        release = self.releases[key]
        if release is not None:
            answer["help"] = release

    def _join_early(self, answer: Cause, event: int, reason: str) -> None:
        joined = self.trace.name[event]
        events = self.trace.events_of[joined]
        left = len(events) - self.sheet.counts[joined]
        answer["left"], answer["joined"] = left, self.trace.threads.text(joined)
        if left:
            answer["help"] = events[-1]
        elif joined in self.trace.fork_of:
            answer["help"] = self.trace.fork_of[joined]


def dependent(sheet: Sheet, event: int, other: int) -> str:
    """Why the program says of two neighbours that they are dependent."""
    trace = sheet.trace
    one, two = trace.word[event], trace.word[other]
    if trace.thread[event] == trace.thread[other]:
        return "both are of one thread"
    if trace.conflict(event, other):
        return f"both access {trace.name_text(event)}, and one writes"
    if one in (2, 3) and two in (2, 3) and trace.name[event] == trace.name[other]:
        return f"both are of lock {trace.name_text(event)}"
    return "one forks or joins the thread of the other"
