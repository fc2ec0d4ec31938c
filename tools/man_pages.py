"""Man pages of the recorder's commands, made of what each command says of itself.

`page(command, version)` gives the page. The first paragraph of a command's text is its usage, lines that begin with two
spaces are options, and all else is its description. A command whose text has no options prints them with --help.
"""

from __future__ import annotations

import ast
import os
import re
import subprocess
import sys

RECORD = os.path.join(os.path.dirname(os.path.dirname(os.path.abspath(__file__))), "record")
# Each command as it is installed: its file in record/, and what its page has under NAME.
COMMANDS = {
    "racebench-cc": ("cc", "a C compiler for recording"),
    "racebench-c++": ("c++", "a C++ compiler for recording"),
    "racebench-go": ("go", "builds a Go program for recording, or records it"),
    "racebench-cargo": ("cargo", "builds Rust programs for recording, or records them"),
    "racebench-rustc": ("rustc", "compiles a Rust program for recording"),
    "racebench-record": ("run", "runs a program and writes the trace of the run"),
    "racebench-reported": ("reported", "answers each data race of a report by a trace"),
    "racebench-follow": ("follow", "follows a schedule on the real program"),
    "racebench-confirm": ("confirm", "follows each race of a trace on the real program"),
    "racebench-check": ("check", "records a program by several seeds, follows its races, and reports"),
}
OPTION = re.compile(r"^  (\S(?:[^ ]| (?! ))*)  +(.*)$")


def installed(text: str) -> str:
    """A text with all commands as they are installed."""
    for name, (script, _) in COMMANDS.items():
        text = re.sub(rf"(?<![\w/])record/{re.escape(script)}(?![\w+])", name, text)
    return text


def help_of(command: str) -> str:
    """What a command says of itself; with its usage and its options, as --help prints them, if it does not name
    them."""
    script = os.path.join(RECORD, COMMANDS[command][0])
    with open(script, encoding="utf-8") as file:
        text = ast.get_docstring(ast.parse(file.read())) or ""
    if "ArgumentParser" in open(script, encoding="utf-8").read() and not re.search(r"^  -", text, re.MULTILINE):
        call = [sys.executable, "-B", script, "--help"]
        surroundings = dict(os.environ, COLUMNS="10000")
        help_text = subprocess.run(call, capture_output=True, text=True, check=True, env=surroundings).stdout
        usage = help_text.split("\n\n", 1)[0].removeprefix("usage: ")
        options = re.split(r"^options:$", help_text, flags=re.MULTILINE)[1].strip("\n")
        text = f"{usage}\n\n{text}\n\n" + re.sub(r"\n {8,}", "  ", options)
    return installed(text)


def plain(text: str) -> str:
    """A text that says nothing to the formatter."""
    text = text.replace("\\", "\\e").replace("-", "\\-")
    text = re.sub(r"`([^`]*)`", r"\\fB\1\\fR", text)
    return "\\&" + text if text[:1] in (".", "'") else text


def parts(command: str) -> tuple[str, list[str], list[tuple[str, str]]]:
    """The usage, the paragraphs, and the options with their texts."""
    paragraphs = help_of(command).split("\n\n")
    usage = command + " WORD.."
    if paragraphs[0].startswith(command):
        usage = " ".join(paragraphs.pop(0).split())
    described: list[str] = []
    options: list[tuple[str, str]] = []
    for paragraph in paragraphs:
        if not paragraph.startswith("  "):
            described.append(" ".join(paragraph.split()))
            continue
        for line in paragraph.splitlines():
            found = OPTION.match(line)
            if found and found[1].startswith("-"):
                options.append((found[1], found[2]))
            elif options:
                options[-1] = (options[-1][0], f"{options[-1][1]} {line.strip()}")
            else:
                described.append(" ".join(line.split()))
    return usage, described, options


def page(command: str, version: str) -> str:
    usage, described, options = parts(command)
    lines = [
        f'.TH {command.upper()} 1 "" "Planecarmine {version}" "User Commands"',
        ".SH NAME",
        plain(command) + " \\- " + plain(COMMANDS[command][1]),
        ".SH SYNOPSIS",
        plain(usage),
        ".SH DESCRIPTION",
    ]
    for paragraph in described:
        lines += [plain(paragraph), ".PP"]
    lines.pop()
    if options:
        lines.append(".SH OPTIONS")
    for names, text in options:
        lines += [".TP", "\\fB" + plain(names) + "\\fR", plain(text)]
    lines += [".SH SEE ALSO", ".BR racebench (1)"]
    return "\n".join(lines) + "\n"
