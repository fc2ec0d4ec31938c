"""Objects without hooks that are linked into a program: their accesses are not recorded, so the program keeps their
names, and the trace says that it is not whole."""
from __future__ import annotations

import os
import re
import subprocess
import sys
from collections.abc import Iterable
from typing import NamedTuple

# A line of `nm -A`: the file and the member of an archive, the address, the kind, the name.
SYMBOL = re.compile(r"(?P<place>.*):\s*(?P<address>[0-9a-fA-F]*) +(?P<kind>[A-Za-z]) (?P<name>.+)$")
CODE = "Tt"
# What each part with hooks calls at its start.
HOOK = "__tsan_init"
# The functions of Rust's allocator, which rustc makes in an object of their own. They only call others. Its library of
# arithmetic gets no hooks either.
ALLOCATOR = re.compile(r"(_R\w+_)?__rust_\w+$")
ARITHMETIC = "libcompiler_builtins-"
# Archives of C and C++ and of compilers: as libraries they need no hooks either.
OF_COMPILERS = re.compile(
    r"lib(c|c_nonshared|m|mvec|pthread|dl|rt|util|gcc|gcc_eh|gomp|atomic|ubsan|ssp_nonshared|unwind|"
    r"stdc\+\+|stdc\+\+fs|stdc\+\+exp|supc\+\+|c\+\+|c\+\+abi|c\+\+fs|clang_rt\.[\w.-]+)(-[\d.]+)?\.a$"
)
# A file that the linker says it reads, and perhaps a member: `FILE`, `FILE(MEMBER)` or `(FILE)MEMBER`.
READ = re.compile(r"\(?([^()]+)")
# The variable that keeps the names: the decoder looks for it.
VARIABLE = "racebench_bare_objects"


class Part(NamedTuple):
    """An object, or a member of an archive: whether it has hooks and code, and what others can use of it."""

    is_hooked: bool
    has_code: bool
    defines: frozenset[str]


def is_bare(part: Part) -> bool:
    """Whether a part has code of the program and no hooks."""
    return part.has_code and not part.is_hooked and not (part.defines and all(map(ALLOCATOR.match, part.defines)))


def is_archive(path: str) -> bool:
    return first_bytes(path).startswith(b"!<arch>")


def is_object(path: str) -> bool:
    """Whether it is an object of ELF that is not linked yet."""
    first = first_bytes(path)
    return first.startswith(b"\x7fELF") and first[16:17] == b"\x01"


def first_bytes(path: str) -> bytes:
    try:
        with open(path, "rb") as file:
            return file.read(20)
    except OSError:
        return b""


def parts_of(nm: str, path: str) -> dict[str, Part]:
    """The parts of an object or archive, by their names."""
    printed = subprocess.run([nm, "-A", path], capture_output=True, text=True, errors="replace", check=False).stdout
    found: dict[str, Part] = {}
    for symbol in filter(None, map(SYMBOL.match, printed.splitlines())):
        name, kind = symbol["name"], symbol["kind"]
        old = found.get(symbol["place"], Part(False, False, frozenset()))
        defines = old.defines | {name} if kind in "TWVDBR" else old.defines
        found[symbol["place"]] = Part(old.is_hooked or name == HOOK, old.has_code or kind in CODE, defines)
    return {os.path.basename(path) + place[len(path) :]: part for place, part in found.items()}


def in_objects(nm: str, paths: Iterable[str]) -> tuple[list[str], int]:
    """The objects among these files that have code and no hooks, and how many objects there are."""
    parts = [item for path in paths if is_object(path) for item in parts_of(nm, path).items()]
    return [name for name, part in parts if is_bare(part)], len(parts)


def in_archives(nm: str, paths: Iterable[str]) -> dict[str, Part]:
    """The members of archives among these files that have code and no hooks."""
    parts = [item for path in paths if is_archive(path) for item in parts_of(nm, path).items()]
    return {name: part for name, part in parts if is_bare(part) and not name.startswith(ARITHMETIC)}


def file_read(line: str) -> str:
    """The file that the linker names in this line, or an empty text if it says something else."""
    found = READ.match(line)
    return found[1] if found and os.path.exists(found[1]) else ""


def archives_read(lines: Iterable[str]) -> list[str]:
    """The archives that the linker names, without those that need no hooks."""
    found = filter(is_archive, filter(None, map(file_read, lines)))
    return [path for path in found if not OF_COMPILERS.match(os.path.basename(path))]


def used_of(members: dict[str, Part], defined: set[str], others: set[str]) -> list[str]:
    """The members that a program with these names took, if its objects have the others. A program without names may
    have taken all."""
    return [name for name, part in members.items() if not defined or part.defines & (defined - others)]


def warn(names: list[str]) -> None:
    objects = "1 object has" if len(names) == 1 else f"{len(names)} objects have"
    print(
        f"record: {objects} no hooks: {', '.join(names[:8])}{', ..' if len(names) > 8 else ''}; "
        "compile with record/cc or record/c++",
        file=sys.stderr,
    )


def write_source(names: list[str], folder: str) -> str:
    """A source in C that keeps the names; its path."""
    path = os.path.join(folder, "bare.c")
    text = "".join(f"\\{byte:03o}" for name in names for byte in os.fsencode(name.replace("\n", "?")) + b"\n")
    with open(path, "w", encoding="ascii") as file:
        file.write(f'__attribute__((used)) char {VARIABLE}[] = "{text}";\n')
    return path
