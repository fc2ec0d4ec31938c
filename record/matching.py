"""Finds the pair of places of a trace that a report names."""
from __future__ import annotations

import re
from collections.abc import Sequence
from typing import TYPE_CHECKING, Any

from reports import Access, Call, Report

if TYPE_CHECKING:
    import ordered as unwritten

PLACE = re.compile(r"(.+):(\d+)$")
# A header without its folder.
HEADER = re.compile(r"[^/.]+$|[^/]+\.(h|hh|hpp|hxx|tcc|ipp)$")
# How functions of the libraries of C++ and of tools begin.
LIBRARIES = ("std::", "__gnu_cxx::", "__cxxabiv1::", "__tsan", "__interceptor", "operator ")
# What may come before a variable's name, and a colon that ends the function or the library of a variable.
BESIDE = re.compile(r"(?:atomic:|held:|sync:)+")
OWNER_END = re.compile(r"(?<!:):(?!:)")
NO_VARIABLE = ("heap:", "stack:", "memory:")
# Of several pairs that fit, which counts.
ORDER = {"race": 0, "undecided": 1, "apart": 2}


class Location:
    """A location of a trace: its path and line, and the function that it is in."""

    def __init__(self, text: str) -> None:
        self.place, *calls = text.split(" < ")
        found = PLACE.match(self.place)
        self.path, self.line = (found[1], int(found[2])) if found else (self.place, 0)
        self.function = calls[0].split(" in ")[-1] if calls else ""


def same_file(one: str, other: str) -> bool:
    """Whether one of the paths is an end of the other: a report may have the base name alone, and a trace a part
    of the path."""
    return one == other or one.endswith("/" + other) or other.endswith("/" + one)


def function_of(text: str) -> str:
    """A function's name without namespaces, templates and arguments. A method of Go keeps its package and its type,
    as `main.(*account).close`."""
    if ".(*" in text:
        return text
    return re.split(r"[(<]", text)[0].split("::")[-1]


def variable_of(name: str) -> str:
    """The variable of a name of a trace, as reports name it: without its function, its scopes, its number and the path
    in it. Empty if it is a block, or if no variable is known."""
    whole = BESIDE.sub("", name, count=1)
    own = "" if whole.startswith(NO_VARIABLE) else OWNER_END.split(whole)[-1]
    return re.split(r"[.\[+@#~]", own)[0].split("::")[-1]


def fits(access: Access, call: Call | None, location: Location, operations: set[tuple[str, str]]) -> int:
    """How well a call of an access of a report fits a location: 2 by its line, where the trace reads or writes as the
    report says; 1 by its function, since a compiler that makes code faster moves lines, or since the report has no line
    of it; 0 not at all."""
    if not call:
        return 0
    if not call[2]:
        return int(bool(location.function) and function_of(call[0]) == function_of(location.function))
    if not same_file(call[1], location.path):
        return 0
    is_function = not location.function or function_of(call[0]) == function_of(location.function)
    if call[2] == location.line and (access.word[0], location.place) in operations:
        return 2 if is_function or "/" in call[1] else 1
    return 1 if location.function and is_function else 0


def known_accesses(report: Report) -> list[Access]:
    """The accesses of a report whose calls it has: a tool may have lost those of one."""
    return [access for access in report.accesses[:2] if access.calls] or report.accesses[:1]


class Recording:
    """The pairs of places of a trace, and its accesses: pairs of `r` or `w` and a location. `ordered` are sets of
    accesses that the trace lacks, since forks and joins order them."""

    def __init__(
        self,
        pairs: list[dict[str, Any]],
        accesses: set[tuple[str, str]],
        ordered: Sequence[Sequence[unwritten.Access]] = (),
    ) -> None:
        self.ordered = ordered
        accesses = accesses | {(access.word, access.text) for each in ordered for access in each}
        self.pairs = [(pair, [Location(access["location"]) for access in pair["accesses"]]) for pair in pairs]
        self.locations = [Location(text) for text in {text for _, text in accesses}]
        self.operations = {(word, text.split(" < ")[0]) for word, text in accesses}
        self.places = {(location.path, location.line) for location in self.locations}
        self.functions = {function_of(location.function) for location in self.locations if location.function}

    def nameless(self, access: Access) -> Call | None:
        """The innermost call if it has no line, and is a function of the trace or of C++: its caller is not the place
        of the access. Other functions without a line are those of libraries."""
        call = access.calls[0] if access.calls else None
        if not call or call[2] or call[0].startswith("<"):
            return None
        is_cxx = "(" in call[0] and "::" in call[0] and not call[0].startswith(LIBRARIES)
        return call if is_cxx or function_of(call[0]) in self.functions else None

    def call_of(self, access: Access) -> Call | None:
        """The innermost call of the program. Valgrind's text names the headers of C++ without their folder, and traces
        name the line that calls them: a header counts if the trace has the line."""
        if nameless := self.nameless(access):
            return nameless
        places = access.places()
        known = (call for call in places if not HEADER.match(call[1]) or call[1:3] in self.places)
        return next(known, places[0] if places else None)

    def how_well(self, access: Access, location: Location) -> int:
        return fits(access, self.call_of(access), location, self.operations)

    def fit(self, report: Report, locations: list[Location]) -> int:
        """How well a report fits a pair of locations. A report of one access fits each pair that has its line."""
        known = known_accesses(report)
        if len(known) == 1:
            return 4 * any(self.how_well(known[0], location) == 2 for location in locations)
        first, second = known
        orders = [(self.how_well(first, a), self.how_well(second, b)) for a, b in (locations, locations[::-1])]
        return max(sum(each) if all(each) else 0 for each in orders)

    def pair_of(self, report: Report) -> tuple[dict[str, Any] | None, str]:
        """The pair that a report names, and the note on it; or None, and why."""
        named = [
            pair
            for pair in self.pairs
            if not report.variable or any(self.is_of(a, report.variable) for a in pair[0]["accesses"])
        ]
        fitting = [(self.fit(report, locations), pair) for pair, locations in named or self.pairs]
        fitting = [(fit, pair) for fit, pair in fitting if fit]
        if not fitting:
            return None, self.why_not_met(report)
        alone = len(known_accesses(report)) == 1
        fit, found = min(fitting, key=lambda each: self.rank(each[0], each[1], alone))
        if found["kind"] == "apart" and (alone or fit < 4):
            return None, self.why_not_named(alone, len(fitting))
        lost = "lost the place of the other" if len(report.accesses) > 1 else "has one"
        lines = "" if fit == 4 else "by the functions, since the lines differ"
        return found, ", ".join(
            part for part in (f"by one access, since the report {lost}" if alone else "", lines) if part
        )

    def ordered_pair(self, report: Report) -> tuple[unwritten.Access, unwritten.Access] | None:
        """Two accesses of one variable at the places of a report, if forks and joins order them; or None."""
        known = known_accesses(report)
        for each in self.ordered if len(known) == 2 else ():
            first, second = ([one for one in each if self.is_at(access, one)] for access in known)
            for pair in ((one, other) for one in first for other in second if one.thread != other.thread):
                return pair
        return None

    def is_at(self, access: Access, ordered: unwritten.Access) -> bool:
        return access.word[0] == ordered.word and self.how_well(access, ordered.location) == 2

    @staticmethod
    def why_not_named(alone: bool, count: int) -> str:
        """Pairs get no line of their own if the report does not name both of their places and all are apart."""
        if alone:
            return f"the report has the place of one access alone, and the pairs of it here are apart ({count})"
        return f"no pair here is at both lines of the report, and those of the same functions are apart ({count})"

    @staticmethod
    def is_of(access: dict[str, Any], variable: str) -> bool:
        return variable_of(access["variable"]) == variable.split("::")[-1]

    @staticmethod
    def rank(fit: int, pair: dict[str, Any], alone: bool) -> tuple[tuple[int, int], list[int]]:
        """The best fit first; if the report has one access, a race first."""
        order, events = ORDER[pair["kind"]], [access["event"] for access in pair["accesses"]]
        return ((order, -fit) if alone else (-fit, order)), events

    def why_not_met(self, report: Report) -> str:
        missing = []
        for access in report.accesses:
            call = self.call_of(access)
            if call and not any(self.how_well(access, location) == 2 for location in self.locations):
                missing.append(f"{call[1].split('/')[-1]}:{call[2]}" if call[2] else call[0])
        if not any(access.places() or self.nameless(access) for access in report.accesses):
            return "the report has no line of the program: compile it with -g"
        if missing:
            return f"no access at {' and '.join(sorted(set(missing)))} is in this recording"
        return "both places are in this recording, and no two threads came there to one variable"
