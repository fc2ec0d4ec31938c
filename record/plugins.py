"""The passes that record/cc adds to those of gcc and clang: hooks where ThreadSanitizer puts none. A plugin is compiled
once, if the compiler's headers for plugins are installed."""
from __future__ import annotations

import functools
import glob
import os
import subprocess
import sys
from typing import NamedTuple

import built

FOLDER = os.path.join(os.path.dirname(os.path.realpath(__file__)), "passes")
OPTIONS = ["-std=c++17", "-O1", "-w", "-fPIC", "-shared", "-fno-rtti"]


class Plugin(NamedTuple):
    """How a compiler takes its plugin: the option, and where its headers are, as the compiler says."""

    name: str
    option: str
    question: str
    headers: str
    header: str


GCC = Plugin("gcc", "-fplugin=", "-print-file-name=plugin", "include", "gcc-plugin.h")
CLANG = Plugin("clang", "-fpass-plugin=", "-print-resource-dir", "../../../include", "llvm/Passes/PassPlugin.h")


def headers_of(plugin: Plugin, compiler: str) -> str | None:
    """The folder of a compiler's headers for plugins, or None if they are not installed."""
    command = [compiler, plugin.question]
    folder = subprocess.run(command, capture_output=True, text=True, check=False).stdout.strip()
    headers = os.path.normpath(os.path.join(folder, plugin.headers))
    return headers if os.path.isfile(os.path.join(headers, plugin.header)) else None


def reason_against(command: list[str]) -> str | None:
    """Why a call of a compiler failed, or None if it did not."""
    try:
        done = subprocess.run(command, capture_output=True, text=True, errors="replace", check=False)
    except OSError as error:
        return f"{command[0]}: {error.strerror}"
    lines = [line for line in done.stderr.splitlines() if "error" in line]
    return (lines or ["it failed"])[0] if done.returncode else None


def compile_to(plugin: Plugin, compiler: str, path: str) -> int:
    """Compiles a plugin, and tries whether the compiler takes it; 0 if it does."""
    headers = headers_of(plugin, compiler)
    if not headers:
        return 1
    print(f"record: the pass of {plugin.name} is compiled, once", file=sys.stderr, flush=True)
    source = os.path.join(FOLDER, plugin.name + ".cpp")
    making = [os.environ.get("RECORD_CXX") or "g++", *OPTIONS, f"-I{headers}", source, "-o", path]
    loading = [compiler, "-fsanitize=thread", plugin.option + path]
    why = reason_against(making) or reason_against([*loading, *"-x c -c /dev/null -o /dev/null".split()])
    if why:
        print(f"record: the pass of {plugin.name} can't be used: {why}", file=sys.stderr)
    return 1 if why else 0


def options_for(compiler: str, version: str) -> list[str]:
    """The options by which a compiler of this version takes its plugin; none if there is no plugin for it."""
    plugin = CLANG if "clang" in version else GCC
    if built.folder() is None:
        return []
    # The compilers of C and of C++ of one version take one plugin.
    arguments = [*OPTIONS, version if plugin == CLANG else version.partition(" ")[2]]
    sources = sorted(glob.glob(os.path.join(FOLDER, "*.[ch]pp")))
    make = functools.partial(compile_to, plugin, compiler)
    path = built.built(f"{plugin.name}_pass.so", sources, arguments, make, "")
    return [plugin.option + path] if path else []
