"""The sources of Rust's standard library as they are compiled for recording: a copy with calls of the recorder.

A source is changed by replacing texts. If a text is not there as often as expected, this version of Rust is unknown,
and nothing is built.
"""
from __future__ import annotations

import os
import shutil

# The functions of a lock, the recorder's functions for them, and what the library's function returns then.
MUTEX = {
    "    pub fn try_lock(&self) -> bool {\n": ("try_lock(self.futex.as_ptr())", "answer == 1"),
    "    pub fn lock(&self) {\n": ("lock(self.futex.as_ptr())", ""),
    "    pub unsafe fn unlock(&self) {\n": ("unlock(self.futex.as_ptr())", ""),
}
CONDVAR = {
    "    pub fn notify_one(&self) {\n": ("notify(self.futex.as_ptr(), 0)", ""),
    "    pub fn notify_all(&self) {\n": ("notify(self.futex.as_ptr(), 1)", ""),
    "    unsafe fn wait_optional_timeout(&self, mutex: &Mutex, timeout: Option<Duration>) -> bool {\n": (
        "wait(self.futex.as_ptr(), mutex.word(), "
        "timeout.map_or(-1, |time| i64::try_from(time.as_nanos()).unwrap_or(i64::MAX)))",
        "answer == 1",
    ),
}
RWLOCK = {
    "    pub fn try_read(&self) -> bool {\n": ("try_read(self.state.as_ptr())", "answer == 1"),
    "    pub fn read(&self) {\n": ("read(self.state.as_ptr())", ""),
    "    pub unsafe fn read_unlock(&self) {\n": ("read_unlock(self.state.as_ptr())", ""),
    "    pub fn try_write(&self) -> bool {\n": ("try_write(self.state.as_ptr())", "answer == 1"),
    "    pub fn write(&self) {\n": ("write(self.state.as_ptr())", ""),
    "    pub unsafe fn write_unlock(&self) {\n": ("write_unlock(self.state.as_ptr())", ""),
}
# Newer versions have it.
DOWNGRADE = {"    pub unsafe fn downgrade(&self) {\n": ("downgrade(self.state.as_ptr())", "")}
# How the recorder's functions are declared in each of the three sources.
DECLARED = {
    "mutex": "lock(word: *mut u32) try_lock(word: *mut u32) unlock(word: *mut u32)",
    "condvar": "wait(word: *mut u32, mutex: *mut u32, nanoseconds: i64) notify(word: *mut u32, all: i32)",
    "rwlock": "read(state: *mut u32) try_read(state: *mut u32) read_unlock(state: *mut u32) "
    "write(state: *mut u32) try_write(state: *mut u32) write_unlock(state: *mut u32) downgrade(state: *mut u32)",
}
WORD = "impl Mutex {\n"
WORD_TOO = WORD + "    pub fn word(&self) -> *mut u32 {\n        self.futex.as_ptr()\n    }\n\n"


class UnknownRust(Exception):
    """Why the library can't be changed."""


class Source:
    """A source of the library, and the text that replaces it."""

    def __init__(self, root: str, name: str) -> None:
        self.path, self.name = os.path.join(root, name), name
        try:
            with open(self.path, encoding="utf-8") as file:
                self.text = file.read()
        except OSError as error:
            raise UnknownRust(f"{self.path}: {error.strerror}") from None

    def change(self, old: str, new: str) -> None:
        found = self.text.count(old)
        if found != 1:
            raise UnknownRust(f"{self.name} has the text `{' '.join(old.split())[:70]}` {found} times, not 1")
        self.text = self.text.replace(old, new)

    def call(self, head: str, call: str, returned: str) -> None:
        """Puts a call of the recorder at the start of a function. The function goes on if nothing is recorded."""
        back = f"    return {returned};" if returned else "    return;"
        lines = [f"let answer = unsafe {{ racebench_rust_{call} }};", "if answer >= 0 {", back, "}"]
        self.change(head, head + "".join(f"        {line}\n" for line in lines))

    def declare(self, functions: str) -> None:
        names = [f"{one.strip()})" for one in functions.split(")") if one.strip()]
        lines = "".join(f"    fn racebench_rust_{one} -> i32;\n" for one in names)
        self.text += f'\nunsafe extern "C" {{\n{lines}}}\n'


def lock(root: str, kind: str, calls: dict[str, tuple[str, str]]) -> Source:
    source = Source(root, f"std/src/sys/sync/{kind}/futex.rs")
    if kind == "mutex":
        source.change(WORD, WORD_TOO)
    for head, (call, returned) in calls.items():
        source.call(head, call, returned)
    for head, (call, returned) in DOWNGRADE.items():
        if head in source.text:
            source.call(head, call, returned)
    source.declare(DECLARED[kind])
    return source


def stacks(root: str) -> list[Source]:
    """With its handler of stack overflows the library keeps a map of the stacks of all threads. A thread that begins
    would read there what one wrote that ended, which orders the two for nothing."""
    start, end = (Source(root, f"std/src/sys/pal/unix/{name}.rs") for name in ("mod", "stack_overflow"))
    start.change("    stack_overflow::init();\n", "    if false {\n        stack_overflow::init();\n    }\n")
    forgets = "        delete_current_info();\n"
    end.change(forgets, f"        if !data.is_null() {{\n    {forgets}        }}\n")
    return [start, end]


def manifest(root: str) -> Source:
    """The library is linked into each program, since its own library would need the recorder."""
    source = Source(root, "std/Cargo.toml")
    source.change('crate-type = ["dylib", "rlib"]', 'crate-type = ["rlib"]')
    return source


def changed(root: str) -> list[Source]:
    """The sources that are changed, of the library in a folder."""
    locks = [lock(root, kind, calls) for kind, calls in (("mutex", MUTEX), ("condvar", CONDVAR), ("rwlock", RWLOCK))]
    return [*locks, *stacks(root), manifest(root)]


def write(root: str, to: str) -> None:
    """Copies the library's sources to a folder, and changes them there."""
    sources = changed(root)
    try:
        shutil.copytree(root, to)
    except (OSError, shutil.Error) as why:
        raise UnknownRust(f"{root} can't be copied: {str(why)[:200]}") from None
    for source in sources:
        with open(os.path.join(to, source.name), "w", encoding="utf-8") as file:
            file.write(source.text)
