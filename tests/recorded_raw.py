"""Judges raw files that are cut or damaged: the decoder writes what is whole, or says what is wrong.

What no other judge sees: a run that was killed in the midst of a record, a damaged file that is taken for a whole
one, or that crashes the decoder.
"""

import random
import struct
import subprocess

import raw_words
from judging import Case, Wrong
from names_of_runs import decoder
from recorded_places import PATIENCE, RECORD, events_in, ran

# How many places a file is cut at, and how many damaged files are decoded.
CUTS, DAMAGED = 40, 60
DAMAGE = 5


def decoded(raw: bytes) -> tuple[int, list[str], str]:
    """The status of the decoder, the events, and what it says."""
    with open("other.raw", "wb") as file:
        file.write(raw)
    ends = []
    for workers in ("1", "3"):
        command = [decoder(), "--all", "--raw-names", "--workers", workers, "other.raw"]
        ends.append(subprocess.run(command, capture_output=True, timeout=PATIENCE, check=False))
    done, other = ends
    if (done.returncode, done.stdout, done.stderr) != (other.returncode, other.stdout, other.stderr):
        raise Wrong(f"three workers end with status {other.returncode}, and one with {done.returncode}")
    errors = done.stderr.decode(errors="replace")
    if done.returncode not in (0, 1) or (done.returncode and not errors.startswith("record: other.raw")):
        raise Wrong(f"the decoder ended with status {done.returncode}: {errors[:600]}")
    return done.returncode, events_in(done.stdout.decode(errors="replace")), errors


def recording() -> tuple[bytes, int]:
    """A recording of `program`: the bytes, and where its words begin."""
    ran([f"{RECORD}/run", "--all", "--partial", "--raw", "kept.raw", "./program"])
    with open("kept.raw", "rb") as file:
        raw = file.read()
    return raw, raw_words.WORDS.unpack_from(raw)[raw_words.WORDS_AT]


def rows_of(raw: bytes, first: int) -> list[tuple[int, ...]]:
    return list(raw_words.rows(raw[first:], (len(raw) - first) // 8))


def judge_cut(c: str) -> None:
    """A file that is cut, also in the midst of a word or of a long record, has the records before, and says that
    others are missing."""
    ran([f"{RECORD}/cc", f"{RECORD}/../examples/count.c", "-o", "program"])
    raw, first = recording()
    whole, chance = rows_of(raw, first), random.Random(1)
    if decoded(raw)[0] or not whole:
        raise Wrong("the whole file is not decoded")
    for _ in range(CUTS):
        cut = raw[: chance.randrange(first, len(raw))]
        there = rows_of(cut, first)
        if there != whole[: len(there)]:
            raise Wrong(f"cut at {len(cut)}: the records are not those before")
        status, _, errors = decoded(cut)
        if status or "loss ROOM" not in errors:
            raise Wrong(f"cut at {len(cut)}: status {status}: {errors[:600]}")


def judge_damaged(c: str) -> None:
    """A file with other words is decoded, or the decoder says that a word is damaged. Some have such a word."""
    ran([f"{RECORD}/cc", f"{RECORD}/../examples/count.c", "-o", "program"])
    raw, first = recording()
    refused = 0
    for seed in range(DAMAGED):
        chance, other = random.Random(seed), bytearray(raw)
        for _ in range(DAMAGE):
            at = first + 8 * chance.randrange((len(raw) - first) // 8)
            struct.pack_into("<Q", other, at, chance.getrandbits(64) >> chance.choice((0, 16, 48, 60)))
        status, _, errors = decoded(bytes(other))
        refused += status
        if status and "of the records is damaged" not in errors:
            raise Wrong(f"damaged by seed {seed}: {errors[:600]}")
    if not 0 < refused < DAMAGED:
        raise Wrong(f"of {DAMAGED} damaged files {refused} are refused")


def cases(c: str) -> list[Case]:
    return [(f"raw files: {name}", judge, (c,)) for name, judge in (("cut", judge_cut), ("damaged", judge_damaged))]
