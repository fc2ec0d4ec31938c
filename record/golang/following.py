"""Following a Go program: the environment of its runs, and what answers where places of its code are."""
from __future__ import annotations

# mypy: disallow-untyped-calls=False
import argparse
import os
import sys
import tempfile
from typing import IO, Any

import clocks
from golang import building, recording


def surroundings(fields: dict[str, Any], seed: int, paths: list[str]) -> dict[str, str]:
    """The environment of a followed run, whose log and plan are at these paths. No garbage is collected in it."""
    options = argparse.Namespace(room=fields["room"], seed=seed)
    setattr(options, "yield", fields["yield"])
    # What a goroutine draws is that of the recording; the seed after the race is another one.
    found = recording.surroundings(options, paths[0])
    found["RACEBENCH_GO_SEED"], found["RACEBENCH_GO_AFTER"] = str(fields["seed"]), str(seed)
    return {**found, "RACEBENCH_GO_FOLLOW": paths[1], "GOGC": "off", "GOMEMLIMIT": "off"}


def is_asleep(log: IO[bytes]) -> bool:
    """Whether Go's runtime ended the program, since all goroutines waited."""
    return bool(recording.head_of(log)[recording.DEAD])


def places_command(clock: clocks.Clock) -> list[str]:
    """The command that answers for the program of a recording."""
    program = clocks.program_of(clock.fields["argv"][0]) or clock.fields["argv"][0]
    try:
        folder = tempfile.mkdtemp(prefix="record")
        decoder = building.decoder_of(building.go_of(clock.fields["go"]), folder)
        os.rmdir(folder)
    except building.NoGo as why:
        sys.exit(f"record: {why}")
    except OSError:
        pass
    return [decoder, "places", program, f"{clock.head.modules[0][0]:x}"]
