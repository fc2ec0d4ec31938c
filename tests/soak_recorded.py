#!/usr/bin/env python3
"""soak_recorded.py PROGRAM [N]: what `tools/soak --recorded` tries, in its own process: record/ and tests/ each
have a `running`."""

import secrets
import sys

import recorded_chance
import recorded_follow
import recorded_planted

# How many programs are made by chance, recorded and followed.
MANY_PROGRAMS = 100
# How many programs of C++ have planted races.
MANY_PLANTED = 20


def main() -> int:
    program, seeds = sys.argv[1], sys.argv[2:]
    if seeds:
        return recorded_chance.soak(program, int(seeds[0]), 1)
    first = secrets.randbelow(10**9)
    print(f"soak: the seed of the first program is {first}", flush=True)
    planted = recorded_planted.soak(program, first, MANY_PLANTED)
    return planted | recorded_follow.soak(program) | recorded_chance.soak(program, first, MANY_PROGRAMS)


sys.exit(main())
