"""What is made once for each version of Rust, and kept in the cache: the standard library with hooks."""
from __future__ import annotations

import os
import shutil
import subprocess
import sys
import tempfile
from dataclasses import dataclass

import built
from rustlang import library

HERE = os.path.dirname(os.path.realpath(__file__))
TARGET = "x86_64-unknown-linux-gnu"
LINKER = os.path.join(HERE, "linker")
# Hooks before each access, as clang puts them in for record/cc, and no code that has none.
HOOKS = [
    "-Zsanitizer=thread",
    "-Zexternal-clangrt",
    "-Cllvm-args=-tsan-instrument-read-before-write=1",
    "-Cllvm-args=-capture-tracking-max-uses-to-explore=0",
    "-Cno-vectorize-loops",
    "-Cno-vectorize-slp",
    "-Cdebuginfo=2",
    "-Cstrip=none",
]
ADVICE = "install Debian's rustc-web, cargo-web and rust-web-src, or run `rustup component add rust-src`"
# A package that has the library as its dependencies, so that cargo compiles it.
MANIFEST = """[workspace]
[package]
name = "recorded"
version = "0.0.0"
edition = "2021"
[dependencies]
std = { path = "../library/std", features = ["panic-unwind"] }
test = { path = "../library/test" }
proc_macro = { path = "../library/proc_macro" }
[profile.release]
opt-level = 1
[patch.crates-io]
rustc-std-workspace-core = { path = "../library/rustc-std-workspace-core" }
rustc-std-workspace-alloc = { path = "../library/rustc-std-workspace-alloc" }
rustc-std-workspace-std = { path = "../library/rustc-std-workspace-std" }
"""
VENDORED = """[source.crates-io]
replace-with = "vendored"
[source.vendored]
directory = "%s"
"""


class NoRust(Exception):
    """Why Rust can't be used, in one line."""


@dataclass
class Rust:
    """A Rust that is installed here, with the sources of its library."""

    cargo: str
    rustc: str
    version: str
    release: str
    sources: str


def output_of(command: list[str]) -> str:
    """What a command prints; nothing if it fails."""
    try:
        done = subprocess.run(command, capture_output=True, text=True, check=False)
    except OSError:
        return ""
    return done.stdout if done.returncode == 0 else ""


def named_in(text: str, name: str) -> str:
    """The value of a line such as `release: 1.96.0`."""
    return next((line.split(": ", 1)[1] for line in text.splitlines() if line.startswith(name + ": ")), "")


def rust_in(folder: str) -> Rust | None:
    """The Rust whose commands are in a folder, with the place where its sources would be; None if it does not work."""
    cargo, rustc = os.path.join(folder, "cargo"), os.path.join(folder, "rustc")
    if not os.access(cargo, os.X_OK) or not os.access(rustc, os.X_OK):
        return None
    version, root = output_of([rustc, "-vV"]), output_of([rustc, "--print", "sysroot"]).strip()
    if not version or not root:
        return None
    sources = os.path.join(root, "lib/rustlib/src/rust/library")
    return Rust(cargo, rustc, version, named_in(version, "release"), sources)


def candidates() -> list[Rust]:
    """The Rust of the variable RECORD_CARGO, or all those of PATH."""
    chosen = os.environ.get("RECORD_CARGO")
    if chosen:
        folders = [os.path.dirname(shutil.which(chosen) or chosen) or "."]
    else:
        folders = list(dict.fromkeys(os.environ.get("PATH", os.defpath).split(os.pathsep)))
    return [one for one in map(rust_in, folders) if one]


def has_sources(rust: Rust) -> bool:
    return os.path.isfile(os.path.join(rust.sources, "std", "src", "lib.rs"))


def version_of_sources(rust: Rust) -> str:
    """The version that a distribution notes beside the sources; empty without such a note."""
    try:
        with open(os.path.join(os.path.dirname(rust.sources), "src", "version"), encoding="utf-8") as file:
            return file.read().strip()
    except OSError:
        return ""


def found() -> Rust:
    """The first Rust that has the sources of its library."""
    all_here = candidates()
    if not all_here:
        name = os.environ.get("RECORD_CARGO")
        raise NoRust(f"there is no cargo with a rustc beside it{f' at {name}' if name else ''}: {ADVICE}")
    rust = next(filter(has_sources, all_here), None)
    if not rust:
        first = all_here[0]
        raise NoRust(f"{first.rustc} ({first.release}) has no sources of its library in {first.sources}: {ADVICE}")
    if named_in(rust.version, "host") != TARGET:
        raise NoRust(f"Rust programs can be recorded on {TARGET}, and not on {named_in(rust.version, 'host')}")
    noted = version_of_sources(rust)
    if noted and noted != rust.release.split("-")[0]:
        raise NoRust(f"{rust.rustc} is {rust.release}, and the sources in {rust.sources} are {noted}: {ADVICE}")
    return rust


def surroundings(rust: Rust, flags: list[str]) -> dict[str, str]:
    """The environment of cargo: the flags are for the program, and not for what runs while it is built."""
    ours = {
        "RUSTC": rust.rustc,
        "RUSTC_BOOTSTRAP": "1",
        "CARGO_ENCODED_RUSTFLAGS": "\x1f".join(flags),
        "CARGO_PROFILE_RELEASE_LTO": "off",
        "CARGO_PROFILE_DEV_LTO": "off",
    }
    dropped = ("RUSTFLAGS", "RUSTC_WRAPPER", "RUSTC_WORKSPACE_WRAPPER", "CARGO_BUILD_RUSTC_WRAPPER")
    return {**{name: value for name, value in os.environ.items() if name not in dropped}, **ours}


def write_package(folder: str, sources: str) -> None:
    """Writes the package whose dependencies are the library."""
    os.makedirs(os.path.join(folder, "src"))
    os.makedirs(os.path.join(folder, ".cargo"))
    vendored = os.path.join(os.path.dirname(folder), "library", "vendor")
    texts = {
        "Cargo.toml": MANIFEST,
        "src/lib.rs": "#![feature(rustc_private)]\n",
        ".cargo/config.toml": VENDORED % vendored,
    }
    for name, text in texts.items():
        with open(os.path.join(folder, name), "w", encoding="utf-8") as file:
            file.write(text)
    shutil.copy(os.path.join(sources, "Cargo.lock"), folder)


def call_of_cargo(rust: Rust, folder: str) -> None:
    """Compiles the library that is copied to a folder."""
    known_as = f"--remap-path-prefix={folder}/library=/rustc/{rust.release}/library"
    flags = [*HOOKS, "-Zforce-unstable-if-unmarked", known_as]
    command = [rust.cargo, "build", "--release", "--offline", "--target", TARGET, "--target-dir", f"{folder}/target"]
    ours = {"__CARGO_DEFAULT_LIB_METADATA": "recorded", "CARGO_HOME": f"{folder}/home"}
    environment = {**surroundings(rust, flags), **ours}
    print(f"record: the library of Rust {rust.release} is compiled with hooks, once: some minutes", file=sys.stderr)
    package = os.path.join(folder, "package")
    done = subprocess.run(command, cwd=package, env=environment, capture_output=True, text=True, check=False)
    if done.returncode:
        errors = [line for line in done.stderr.splitlines() if line.startswith("error")] or ["no reason given"]
        raise NoRust(f"the library of Rust {rust.release} can't be compiled with hooks: {errors[0][:200]}")


def compile_library(rust: Rust, folder: str) -> None:
    """Compiles the library into a folder, in the form of an installed Rust."""
    library.write(rust.sources, os.path.join(folder, "library"))
    write_package(os.path.join(folder, "package"), rust.sources)
    call_of_cargo(rust, folder)
    to = os.path.join(folder, "lib/rustlib", TARGET, "lib")
    os.makedirs(to)
    made = os.path.join(folder, "target", TARGET, "release/deps")
    for name in sorted(os.listdir(made)):
        if name.endswith((".rlib", ".rmeta")) and not name.startswith("librecorded-"):
            shutil.move(os.path.join(made, name), to)
    for name in ("library", "package", "target", "home"):
        shutil.rmtree(os.path.join(folder, name), ignore_errors=True)


def name_of(rust: Rust) -> str:
    """The name of the folder that keeps a library: it depends on what is compiled, and how."""
    texts = [source.text for source in library.changed(rust.sources)]
    return f"rust-{rust.release}-{built.key_of([], [rust.version, rust.sources, MANIFEST, *HOOKS, *texts])}"


def is_compiled(rust: Rust) -> bool:
    """Whether the library of a Rust is kept."""
    try:
        return os.path.isdir(os.path.join(built.folder() or "", name_of(rust)))
    except library.UnknownRust as why:
        raise NoRust(str(why)) from None


def library_of(rust: Rust) -> str:
    """The folder with the library of a Rust, which is made once."""
    folder = built.folder()
    if folder is None:
        raise NoRust("there is no folder for the library: set XDG_CACHE_HOME to one that can be written")
    part = ""
    try:
        kept = os.path.join(folder, name_of(rust))
        if os.path.isdir(kept):
            return kept
        part = tempfile.mkdtemp(prefix=".rust", dir=folder)
        compile_library(rust, part)
        os.chmod(part, 0o755)
        os.rename(part, kept)
    except library.UnknownRust as why:
        raise NoRust(f"this Rust is unknown ({rust.release}, {rust.rustc}): {why}") from None
    except OSError as error:
        if not os.path.isdir(kept):
            raise NoRust(f"{kept}: {error.strerror}") from None
    finally:
        if part:
            shutil.rmtree(part, ignore_errors=True)
    return kept


def program_flags(rust: Rust) -> list[str]:
    """The flags for the sources of a program."""
    return [*HOOKS, f"--sysroot={library_of(rust)}", f"-Clinker={LINKER}"]
