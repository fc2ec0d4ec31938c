#!/usr/bin/env python3
"""Judges the rules of tools/lint on texts of this file: fences that never end, merges that were not finished, lists
that lack a name or have it twice, the map of crates, what tools/promises says of calls, and tools that are missing.

    judge_lint.py PROGRAM

It does not run the program. Says what is wrong, if something is, and ends with status 1 then.
"""

from __future__ import annotations

import contextlib
import importlib.machinery
import importlib.util
import io
import os
import sys
from types import ModuleType

if __name__ == "__main__":
    sys.dont_write_bytecode = True
import judging

TOOLS = os.path.join(os.path.dirname(judging.HERE), "tools")
# Pages, each with the lines of its fences that never end.
FENCES: tuple[tuple[str, list[int]], ...] = (
    ("```\ncode\n```\n", []),
    ("text\n\n```sh\ncode\n", [3]),
    ("```text\n```sh\n```\n", [1]),
    ("````\n```\n````\n", []),
    ("```\ncode\n```\n\n  ```rust\n  code\n", [5]),
    ("no fence, `a word`\n", []),
)
# Pages, each with the lines of its marks of a merge.
MERGES: tuple[tuple[str, list[int]], ...] = (
    ("a\n<<<<<<< ours\nb\n=======\nc\n>>>>>>> theirs\n", [2, 4, 6]),
    ("Title\n========\n\n`<<<<<<<` is a mark\n", []),
)
# A file of calls, and what the page of promises says of each.
CALLS = """/// A law of two sentences. Both are listed.
pub fn law()
    ensures { Law }
{}

impl Table {
    /// Adds a row to this table. It goes to the end.
    pub fn add(&mut self) -> bool
        // The table has one row more.
        ensures grown { x }
        ensures same { y }
    {
    }

    /// The number of rows.
    pub fn len(&self) -> u32
        ensures len { x }
    {
    }

    /// Guesses.
    pub fn guess(&self) -> u32 {
    }
}
"""
SAID = (
    ("law", "A law of two sentences. Both are listed.", None),
    ("Table::add", "Adds a row to this table. It goes to the end. `grown`: The table has one row more.", None),
    ("Table::len", "The number of rows.", "of `Table` also"),
    ("Table::guess", "Guesses.", "nothing is promised of"),
)
# Lists of names beside a set, and how many complaints there are.
LISTS = ((["a", "b"], 0), (["a"], 1), (["a", "b", "b"], 1), (["a", "b", "c"], 1), (["c"], 3))
# Heads of files of the recorder, and how many complaints there are.
HEADS = (
    ("/* Locks. Interposes lock. Must\n * not wait. */\nint x; /* more */\n", 0),
    ("/* Locks. Interposes lock. */\n/* It must not wait. */\n", 1),
    ("int x; /* Interposes nothing. Must not wait. */\n", 2),
)
MAP = "## Files of the upper crates\n\n- `racebench`: `doing.rt`, `windows/`\n"
# Labels of keys, and how a browser names these keys.
LABELS = (("Alt ↑ ↓", {"Alt+ArrowUp", "Alt+ArrowDown"}), ("u  Ctrl z", {"u", "Ctrl+z"}), ("1–9", {"1–9"}))
# A table of keys: the second line of the last group binds another key than its label names.
KEYS = """const KEYS = [
  ["Next", [
    ["↑ ↓  j k", "choose", { "next-list": inTurn(down(frontier.move)) }],
    ["1–9", "add", {}],
  ]],
  ["Work", [
    ["w  ↵", "work on it", {
      [ALL]: { w: () => (state.view ? views.take() : ofAim(views.witness)()) },
      stage: inTurn({ Enter: sheet.enter }),
    }],
    ["[ ]", "other schedules", { [ALL]: { "[": () => go(-1) } }],
  ]],
];
"""
TABLE = """| Pane | Key | Does |
|---|---|---|
| Next | `↑ ↓`, `j k` | choose |
|  | `1–9` | add |
| Work | `w`, `↵` | work on it |
|  | `[ ]` | other schedules |
"""


def tool(name: str) -> ModuleType:
    loader = importlib.machinery.SourceFileLoader(name, os.path.join(TOOLS, name))
    spec = importlib.util.spec_from_loader(name, loader)
    assert spec is not None
    module = importlib.util.module_from_spec(spec)
    sys.modules[name] = module
    loader.exec_module(module)
    return module


def complaints_without(rules: ModuleType, missing: list[str], left_out: set[str]) -> tuple[dict[str, list[str]], str]:
    """What the tools complain of if these are missing and the others find nothing, and what is printed."""
    rules.missing_tools = lambda: missing  # type: ignore[attr-defined]
    rules.complaints = lambda *command: []  # type: ignore[attr-defined]
    printed = io.StringIO()
    with contextlib.redirect_stdout(printed):
        found = dict(rules.by_tools(left_out))
    return {name: lines for name, lines in found.items() if lines}, printed.getvalue()


def judge_promises(run: judging.Run) -> None:
    promises = tool("promises")
    calls = promises.Reader(CALLS).calls
    texts = [promises.promise(call, [], set()) for call in calls]
    found = tuple((call.label(), text, promises.only_named(call, text)) for call, text in zip(calls, texts))
    run.case("promises", [] if found == SAID else [f"{found}, and not {SAID}"])


def judge_keys(run: judging.Run) -> None:
    keys = tool("keys")
    for label, wanted in LABELS:
        found = keys.named_keys(label)
        run.case("labels of keys", [] if found == wanted else [f"{label}: {found}, and not {wanted}"])
    found = keys.table_of(KEYS)
    run.case("table of keys", [] if found == TABLE else [f"{found}, and not {TABLE}"])
    found = keys.wrong_labels(KEYS)
    is_right = len(found) == 1 and "`[ ]` names ['[', ']'], and its line binds ['[']" in found[0]
    run.case("label of another key", [] if is_right else [f"{found}, and not one complaint of `[ ]`"])


def judged(run: judging.Run) -> None:
    rules = tool("lint")
    for text, wanted in FENCES:
        found = rules.open_fences(text)
        run.case("fences", [] if found == wanted else [f"{text!r}: the fences in lines {found}, and not {wanted}"])
    for text, wanted in MERGES:
        found = rules.marks_of_merges(text)
        run.case("merges", [] if found == wanted else [f"{text!r}: the marks in lines {found}, and not {wanted}"])
    judge_promises(run)
    for names, count in LISTS:
        found = rules.unlike("the list", names, {"a", "b"})
        run.case("lists", [] if len(found) == count else [f"{names}: {found}, and not {count} complaints"])
    judge_keys(run)
    found = rules.wrong_files(MAP)
    lacks = [line for line in found if line.startswith("the map of racebench lacks ")]
    is_right = len(lacks) == len(found) > 10 and not {line.split(" ")[-1] for line in lacks} & {
        "doing.rt",
        "windows.rt",
    }
    run.case("map", [] if is_right else [f"a map of two files: {found}"])
    run.case("map of today", rules.wrong_map())
    for text, count in HEADS:
        found = rules.lacks_of_head(text)
        run.case("heads", [] if len(found) == count else [f"{text!r}: {found}, and not {count} complaints"])
    found, _ = complaints_without(rules, ["black"], set())
    run.case("missing tool", [] if list(found) == ["black"] else [f"black is missing, and the complaints are {found}"])
    found, printed = complaints_without(rules, ["black"], {"black"})
    is_right = not found and printed == "black: left out\n"
    run.case("left out", [] if is_right else [f"black is left out, and the complaints are {found}: {printed}"])


if __name__ == "__main__":
    sys.exit(judging.main("lint", judged))
