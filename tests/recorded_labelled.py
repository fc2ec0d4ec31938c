"""Judges record/ on programs of bench/labelled: each race is found within some seeds, and no seed shows a race of the
clean twin.

What no other judge sees: a race that the trace hides by an order that the program does not keep, beside the same
program with that order.
"""

from __future__ import annotations

import os
import subprocess

import recorded_pass
from judging import Case, Wrong

TOP = os.path.dirname(os.path.dirname(os.path.abspath(__file__)))
RUN = os.path.join(TOP, "bench", "labelled", "run")
PATIENCE = 3000
SEEDS = 6
# Each group of programs, and what it judges.
GROUPS = {
    "locks of a library without hooks": "library_queue.c library_pool.c",
    "locks and their ends": (
        "condition_destroyed.c condition_freed.c mutex_destroyed.c mutex_made_late.c mutex_freed.c rwlock_destroyed.c "
        "semaphore_destroyed.c spin_destroyed.c"
    ),
    "relaxed counts and frees": (
        "counted_relaxed.c counted_with_fence.c taken_by_release.c release_sequence.c packaged_task.cpp"
    ),
    "fences": "fences.c fence_after_store.c fence_before_load.c fence_of_other_kind.c fence_and_write.c",
    "messages": "one_wait_of_two.c one_byte_of_two.c semaphore_of_two.c polled.c selected.c event_polled.c",
    "calls that send and receive": (
        "many_messages.c spliced.c copied_by_tee.c mapped_into_pipe.c sent_file.c pipe_flags.c pipe_by_kernel.c "
        "named_pipe.c named_socket.c signal_awaited.c signal_read.c"
    ),
    "files and libraries": "file_lock.c opened_library.c",
    "short threads": "short_check.c hidden_by_lock.c",
}
# What only our pass sees.
OF_PASS = {"structs that calls return, and assembly": "struct_returned.c assembly.c"}


def rows_of(racebench: str, programs: str) -> list[str]:
    """The rows that the script prints for programs."""
    chosen = [word for name in programs.split() for word in ("--only", name)]
    command = [RUN, "--tool", "ours", "--rows", "--seeds", str(SEEDS), "--racebench", racebench, *chosen]
    ran = subprocess.run(command, capture_output=True, text=True, timeout=PATIENCE, check=False)
    if ran.returncode:
        raise Wrong(f"{' '.join(command)}: status {ran.returncode}: {ran.stderr[-600:]}{ran.stdout[-600:]}")
    return [line for line in ran.stdout.splitlines() if " ours: " in line]


def judge_group(racebench: str, programs: str) -> None:
    """Each pair of twins is told apart."""
    rows, wanted = rows_of(racebench, programs), sorted(f"{name} ours: found" for name in programs.split())
    if sorted(rows) != wanted:
        raise Wrong(f"labelled programs: {sorted(set(rows) - set(wanted))}, and not {sorted(set(wanted) - set(rows))}")


def judge_judge(racebench: str) -> None:
    """A program whose race no recorder sees is missed, so a group with it would be wrong."""
    if rows_of(racebench, "assembly_by_address.c") != ["assembly_by_address.c ours: MISSED"]:
        raise Wrong("a race by an address in a line of assembly is not missed")


def cases(racebench: str) -> list[Case]:
    wanted = GROUPS | (OF_PASS if recorded_pass.has_headers("gcc") else {})
    groups = [(f"labelled: {name}", judge_group, (racebench, programs)) for name, programs in wanted.items()]
    return [*groups, ("labelled: what is missed", judge_judge, (racebench,))]
