"""Judges the names of variables and locks: they are those of the source, the same by each compiler and in each run, and
no two places have one name.

What no other judge sees: a race on a variable that nobody finds in the source, or on a member that is another one.
"""

import os
import random
import re
import shutil
import subprocess
import zlib
from collections.abc import Iterable, Sequence

import names_of_runs
import recorded_options
from judging import Case, Wrong
from recorded_places import PATIENCE, RECORD, SOURCES, events_in, ran

# The names of variables that a source has, and those of its locks.
NAMES = {
    "named.c": (
        "counter:count flags.level flags.ready/busy flags.u.i grid[1][2] hosts[12].state hosts[3].next shop.in.b "
        "shop.visits text[5]",
        "shop.door table_lock",
    ),
    "named.cpp": (
        "pairs[2].second shop::Counter::next:last shop::Counter::total shop::Table::slot shop::both.a/b "
        "shop::both.both shop::both.left shop::both.right shop::hidden[2] shop::pool.done_ "
        "shop::pool.items_._M_start shop::pool.last_.id shop::pool.stopping_ work::operator():ticks",
        "atomic:shop::pool.done_ shop::pool.mutex_",
    ),
}
# A part of a block that a container allocated.
BLOCKS = {"named.cpp": r"heap:named\.cpp:\d+ Item\[1\]\.price"}
# What frames.c shares, by the functions: variables, and two without a known name. The lock of each is one of its names.
JOB = "job.sum job.own job.row job.aside job.pairs[1].b job.lock"
FRAMES = {
    "round_of": f"sum {JOB}",
    "round_of#2": f"sum {JOB}",
    "deeper": f"mine row[3] aside[1] {JOB}",
    "deeper#2": f"mine row[3] aside[1] {JOB}",
    "leave": f"row[3] aside[1] {JOB}",
    "jumped": f"after row[3] aside[1] {JOB}",
    "main": "top",
}
OF_THREADS = {"own#T0", "of_thread.pairs[1].b#T0", "of_thread.pairs[2].a#T0"}
# An array whose length is not known, and what alloca gave.
UNKNOWN = re.compile(r"stack:round_of(#2)?-\d+")
# Forms of debug information, and how many times it is damaged.
FORMS = ("-gdwarf-4", "-gdwarf-5", "-gz", "-gsplit-dwarf", "-gdwarf-4 -gsplit-dwarf", "-flto")
DAMAGED = 40
# How many bytes a variable of the environment moves the stack by.
MOVED = 3000
# The blocks of sources, without their lines: a type that the source names is marked, and some have none.
TYPES = {
    "blocks.c": "config?.limit config?.in.b point_t?[2].y int?[3] item?.value note?.length note?.marks[9].to "
    "+8 +8 +5 +40",
    "blocks.cpp": "Entry.id Entry.uses Plain?.b Owner.first Plain?[2].a Plain.a Plain[3].b Plain.b +4 #2+4",
}
# A source with names of 10,000 characters that differ at their ends alone, arguments of templates that are as long, and
# operators with a bar and with quotes. Two threads use each variable.
LONG = "n" * 9_999
HOSTILE_SOURCE = """#include <memory>
#include <thread>
struct LONG1 { int one; };
struct LONG2 { int two; };
template <class T> struct Box { static int value; };
template <class T> int Box<T>::value;
static int vLONG1, vLONG2;
struct Bar { int operator|(int by) { static int bars; return bars += by; } };
int operator""_km(unsigned long long) { static int quoted; return ++quoted; }
static std::unique_ptr<LONG1[]> block;
static void work() {
    vLONG1++, vLONG2++, Box<LONG1>::value++, Box<LONG2>::value++, block[1].one++;
    (void) (Bar{} | 1), (void) 1_km;
}
int main() {
    block = std::make_unique<LONG1[]>(2);
    std::thread a(work), b(work);
    a.join(), b.join();
}
"""
HOSTILE_FILE = 'bars|and"quotes.cpp'
# Its names. Both parts of Box have one name, so the second has an offset too.
HOSTILE = """Box::value Box::value@0 Bar::operator!:bars operator""_km:quoted block""".split()
# Variables that are not named by the source alone.
OTHERS = ("heap:", "stack:", "memory:")
OPERATION = re.compile(r"T\d+\|(\w+)\((.*)\)\|")


def names_of(command: Sequence[str], *options: str) -> tuple[set[str], set[str]]:
    """The names of variables and of locks in a recording of `program`."""
    variables: set[str] = set()
    locks: set[str] = set()
    for line in events_in(ran([os.path.join(RECORD, "run"), "--all", *options, *command])):
        operation = OPERATION.match(line)
        if operation is None:
            raise Wrong(f"no line of a trace: {line!r}")
        word, name = operation.groups()
        if word in "rw":
            variables.add(name)
        elif word == "acq":
            locks.add(name)
    return variables, locks


def of_source(names: Iterable[str]) -> set[str]:
    return {name for name in names if not name.removeprefix("atomic:").startswith(OTHERS)}


def judge_names(source: str, compilers: tuple[str, str | None], level: str) -> None:
    language = "c++" if source.endswith(".cpp") else "cc"
    environment = dict(os.environ, RECORD_CC=compilers[0], RECORD_CXX=compilers[1] or "")
    options = ["-std=c++17"] if language == "c++" else []
    path = os.path.join(SOURCES, source)
    ran([os.path.join(RECORD, language), level, *options, path, "-o", "program"], env=environment)
    variables, locks = names_of(["./program"])
    wanted = [set(names.split()) for names in NAMES[source]]
    if of_source(variables) != wanted[0] or of_source(locks) != wanted[1]:
        wrong = sorted(of_source(variables) ^ wanted[0]) + sorted(of_source(locks) ^ wanted[1])
        raise Wrong(f"{source} {level}: the names that are missing or should not be there are {wrong}")
    if source in BLOCKS and not any(re.fullmatch(BLOCKS[source], name) for name in variables):
        raise Wrong(f"{source} {level}: no block has the type of its container: {sorted(variables)}")
    judge_raw(variables)


def judge_raw(variables: set[str]) -> None:
    """With --names raw a variable is a symbol and an offset, and there are as many."""
    raw, _ = names_of(["./program"], "--names", "raw")
    symbols = {re.sub(PIECE, "", name) for name in raw}
    if len(raw) != len(variables) or any("." in name.split(":")[-1] and "heap:" not in name for name in symbols):
        raise Wrong(f"with --names raw: {sorted(raw)}, and without {sorted(variables)}")


# What is in symbols after a dot: the number of a static of a function or of a piece of a variable, or a static by
# clang.
PIECE = r"\.(\d+|count)$"


def judge_frame_names(about: str) -> tuple[set[str], set[str]]:
    """The names of frames.c as `program` has them: its variables and locks."""
    variables, locks = names_of(["./program"])
    wanted = {f"{function}:{name}" for function, names in FRAMES.items() for name in names.split()} | OF_THREADS
    unknown = {name for name in variables if UNKNOWN.fullmatch(name)}
    if variables - unknown != wanted or len(unknown) != 4:
        raise Wrong(f"frames.c {about}: {sorted(variables - unknown ^ wanted)} and {sorted(unknown)}")
    if locks != {f"{function}:lock" for function in FRAMES if function != "main"}:
        raise Wrong(f"frames.c {about}: the locks are {sorted(locks)}")
    return variables, locks


def judge_frames(c: str, level: str) -> None:
    """Variables of frames and of threads have names of the source. Each activation is another object, and the names are
    the same wherever the stack is."""
    path = os.path.join(SOURCES, "frames.c")
    ran([os.path.join(RECORD, "cc"), level, path, "-o", "program"], env=dict(os.environ, RECORD_CC=c))
    found = judge_frame_names(level)
    os.environ["MOVES_THE_STACK"] = "m" * MOVED
    moved = names_of(["./program"])
    del os.environ["MOVES_THE_STACK"]
    if moved != found:
        raise Wrong(f"frames.c {level}: the names differ with another environment: {sorted(moved[0] ^ found[0])}")
    recorded_options.judge_decoder("frames.c", [], c)


def judge_forms(c: str) -> None:
    """Debug information of each version, compressed or split, gives the same names."""
    path, cc, environment = (
        os.path.join(SOURCES, "frames.c"),
        os.path.join(RECORD, "cc"),
        dict(os.environ, RECORD_CC=c),
    )
    for form in FORMS:
        ran([cc, "-O0", *form.split(), "-c", path, "-o", "part.o"], env=environment)
        ran([cc, *form.split(), "part.o", "-o", "program"], env=environment)
        judge_frame_names(form)


def cut(name: str) -> str:
    """A name as a trace has it: 255 bytes at most."""
    whole = name.encode()
    return name if len(whole) <= 255 else f"{name[:246]}~{zlib.crc32(whole):08x}"


def judge_hostile(cxx: str) -> None:
    """Names that are long, or have signs of the trace's own, are cut and replaced, and stay apart."""
    with open(HOSTILE_FILE, "w", encoding="ascii") as source:
        source.write(HOSTILE_SOURCE.replace("LONG", LONG))
    command = [os.path.join(RECORD, "c++"), "-O0", "-std=c++17", HOSTILE_FILE, "-o", "program"]
    ran(command, env=dict(os.environ, RECORD_CXX=cxx))
    variables, _ = names_of(["./program"])
    block = f'heap:bars!and"quotes.cpp:16 {LONG}1[1].one'
    wanted = {cut(f"v{LONG}1"), cut(f"v{LONG}2"), cut(block), *HOSTILE}
    found = {name for name in variables if "_State_impl" not in name}
    if found != wanted:
        raise Wrong(f"names of {HOSTILE_FILE}: {sorted(found ^ wanted)}")


# A class whose constructor and first virtual function are in another file, and what is shared of its objects.
ELSEWHERE = {
    "account.hpp": "struct Account { Account(); virtual ~Account(); virtual void pay(); long cents; int seen; };",
    "account.cpp": """#include "account.hpp"
Account::Account() : cents(0), seen(0) {}
Account::~Account() {}
void Account::pay() { cents++; }
""",
    "main.cpp": """#include <thread>
#include "account.hpp"
static Account global;
int main() {
    Account local, *block = new Account;
    auto work = [&] { local.cents++, global.seen++, block->seen++; };
    std::thread a(work), b(work);
    a.join(), b.join();
}
""",
}
OF_ELSEWHERE = {"global.seen", "main:local.cents", "heap:main.cpp:5 Account.seen"}


def judge_elsewhere(cxx: str, level: str) -> None:
    """Objects of a class that another file defines have the names of their members."""
    for name, text in ELSEWHERE.items():
        with open(name, "w", encoding="ascii") as source:
            source.write(text)
    # Clang says where main.cpp is in two ways: from the folder of the compiler on, and in whole.
    os.mkdir("built")
    command = [os.path.join(RECORD, "c++"), level, "../main.cpp", "../account.cpp", "-o", "../program"]
    ran(command, env=dict(os.environ, RECORD_CXX=cxx), cwd="built")
    variables, _ = names_of(["./program"])
    if not OF_ELSEWHERE <= variables:
        raise Wrong(f"{cxx} {level}: {sorted(OF_ELSEWHERE - variables)} is not in {sorted(variables)}")


def debug_sections(program: str) -> list[tuple[int, int]]:
    """Where a program has sections of debug information, and their sizes."""
    listed = ran(["readelf", "-SW", program])
    found = re.findall(r" \.debug_\w+ +PROGBITS +\w+ (\w+) (\w+) ", listed)
    return [(int(start, 16), int(size, 16)) for start, size in found if int(size, 16)]


def judge_damaged(source: str, compilers: tuple[str, str | None]) -> None:
    """Damaged debug information does not end the decoder."""
    language = "c++" if source.endswith(".cpp") else "cc"
    environment = dict(os.environ, RECORD_CC=compilers[0], RECORD_CXX=compilers[1] or "")
    ran(
        [os.path.join(RECORD, language), "-O1", os.path.join(SOURCES, source), "-o", "program"],
        env=environment,
    )
    ran([os.path.join(RECORD, "run"), "--raw", "kept.raw", "./program"])
    sections, decoder = debug_sections("program"), names_of_runs.decoder()
    with open("program", "rb") as file:
        whole = file.read()
    for seed in range(DAMAGED):
        chance, damaged = random.Random(seed), bytearray(whole)
        for _ in range(chance.choice((1, 3, 20, 200))):
            start, size = chance.choice(sections)
            damaged[start + chance.randrange(size)] = chance.randrange(256)
        with open("program", "wb") as file:
            file.write(damaged)
        ended = subprocess.run([decoder, "kept.raw"], capture_output=True, timeout=PATIENCE, check=False)
        if ended.returncode not in (0, 1):
            raise Wrong(f"{source}, damaged by seed {seed}: the decoder ended with status {ended.returncode}")


def judge_types(source: str, compilers: tuple[str, str | None], level: str) -> None:
    """A block has the type that was allocated, if that can be known, and no other one. The source has a path in the
    folder of the compiler, and the program runs in another one."""
    language = "c++" if source.endswith(".cpp") else "cc"
    environment = dict(os.environ, RECORD_CC=compilers[0], RECORD_CXX=compilers[1] or "")
    os.mkdir("compiled")
    shutil.copy(os.path.join(SOURCES, source), "compiled")
    command = [os.path.join(RECORD, language), level, source, "-o", os.path.abspath("program")]
    ran(command, env=environment, cwd="compiled")
    variables, locks = names_of(["./program"])
    blocks = [re.sub(r"heap:[\w.]+:\d+ ?", "", name) for name in variables if name.startswith("heap:")]
    blocks = [name for name in blocks if not name.startswith("_State_impl")]
    if sorted(blocks) != sorted(TYPES[source].split()):
        raise Wrong(f"{source} {level}: the blocks are {sorted(blocks)}")
    if source == "blocks.c" and not any(re.fullmatch(r"heap:blocks\.c:\d+ config\?\.lock", name) for name in locks):
        raise Wrong(f"{source} {level}: the locks are {sorted(locks)}")


def judge_stripped(c: str) -> None:
    """Without debug information a variable is a symbol and an offset."""
    path = os.path.join(SOURCES, "named.c")
    environment = dict(os.environ, RECORD_CC=c)
    ran([os.path.join(RECORD, "cc"), "-O1", path, "-o", "program"], env=environment)
    ran(["strip", "--strip-debug", "program"])
    variables, _ = names_of(["./program"])
    if not {"hosts+400", "grid+24"} <= variables:
        raise Wrong(f"without debug information: {sorted(variables)}")


# What a decoder that is wrong in the same way all the time would make of the names of frames.c: two activations are one
# object, two variables are one, and two blocks are one.
WRONG_NAMES = (
    ("round_of#2:", "round_of:"),
    (":job.sum)", ":job.own)"),
    ("round_of#2:job.pairs[1].b", "round_of:job.own"),
)


def judge_wrong_names(c: str) -> None:
    """raw_objects.py sees names that are wrong in the same way all the time, and one that changes."""
    path = os.path.join(SOURCES, "frames.c")
    ran([os.path.join(RECORD, "cc"), "-O0", path, "-o", "program"], env=dict(os.environ, RECORD_CC=c))
    ran([names_of_runs.RUN, "--raw", "kept.raw", "./program"])
    if not names_of_runs.judge("kept.raw", "."):
        raise Wrong("no name of frames.c is judged")
    with open("names.std", encoding="utf-8") as file:
        lines = file.readlines()
    half = len(lines) // 2
    changed = lines[:half] + [line.replace("(main:top)", "(main:low)") for line in lines[half:]]
    for names in [[line.replace(*wrong) for line in lines] for wrong in WRONG_NAMES] + [changed]:
        with open("wrong.std", "w", encoding="utf-8") as file:
            file.writelines(names)
        command = [names_of_runs.python(), names_of_runs.JUDGE, "kept.raw", "wrong.std", "names.numbers"]
        if names == lines or subprocess.run(command, capture_output=True, check=False).returncode != 1:
            raise Wrong("names that are wrong are not seen")


def cases(c: str, cxx: str | None) -> list[Case]:
    found: list[Case] = [(f"names without debug information, {c}", judge_stripped, (c,))]
    found.append((f"names by forms of debug information, {c}", judge_forms, (c,)))
    found.append((f"names that are wrong, {c}", judge_wrong_names, (c,)))
    if cxx:
        found.append((f"names that are long, with bars and quotes, {cxx}", judge_hostile, (cxx,)))
    for source in ("frames.c", "blocks.cpp") if cxx else ("frames.c",):
        found.append((f"names by damaged debug information, {c} {source}", judge_damaged, (source, (c, cxx))))
    for level in ("-O0", "-O1"):
        found.append((f"names of variables in C, {c} {level}", judge_names, ("named.c", (c, cxx), level)))
        if cxx:
            found.append(
                (f"names of members of a class of another file, {cxx} {level}", judge_elsewhere, (cxx, level))
            )
            found.append((f"names of variables in C++, {cxx} {level}", judge_names, ("named.cpp", (c, cxx), level)))
        found.append((f"names of variables in frames, {c} {level}", judge_frames, (c, level)))
        # Clang with -O1 makes variables of blocks that one pointer has.
        if (c, level) == ("clang", "-O1"):
            continue
        found.append((f"names of blocks in C, {c} {level}", judge_types, ("blocks.c", (c, cxx), level)))
        if cxx:
            found.append((f"names of blocks in C++, {cxx} {level}", judge_types, ("blocks.cpp", (c, cxx), level)))
    return found
