#!/usr/bin/env python3
"""Judges the man pages and completions of package/, the pages that tools/man_pages.py makes, and the packages of the
languages that tools/package makes.

Each command and flag that `--help` names, each word of a script and each fault must be there. What is missing is
named.

Takes the program's path. The last line is `N passed, M failed`. Where bash is not here its completions are not run;
where man is not here the page is not read by it, and a line says so.
"""

import importlib.machinery
import importlib.util
import os
import re
import shutil
import subprocess
import sys
import tempfile
from types import ModuleType

if __name__ == "__main__":
    sys.dont_write_bytecode = True
    sys.path.insert(0, os.path.join(os.path.dirname(os.path.dirname(os.path.abspath(__file__))), "tools"))
import judging
import man_pages

TOP = os.path.dirname(os.path.dirname(os.path.abspath(__file__)))


def printed(*command: str, cwd: str | None = None) -> str:
    return subprocess.run(command, capture_output=True, text=True, check=True, cwd=cwd).stdout


def text_of(*path: str) -> str:
    with open(os.path.join(TOP, *path), encoding="utf-8") as file:
        return file.read()


def part(pattern: str, text: str, what: str) -> str:
    """What the pattern's group finds in a text. If the text has another form by now, this judge has to follow it."""
    found = re.search(pattern, text, re.MULTILINE | re.DOTALL)
    if not found:
        raise judging.Wrong(f"there is no {what}; the pattern is {pattern!r}")
    return str(found[1])


class Words:
    """What `--help` of the program names."""

    def __init__(self, program: str) -> None:
        whole = printed(program, "--help")
        listed = part(r"^Commands:\n((?:  [^\n]*\n)+)", whole, "commands in --help")
        self.offered = re.findall(r"^  (\w[\w-]*)", listed, re.MULTILINE)
        self.commands = [name for name in self.offered if name != "help"]
        self.flags = {"": self.flags_of(whole)}
        for command in self.commands:
            self.flags[command] = self.flags_of(printed(program, command, "--help"))
        script = part(r"comes one of these commands:\n\n((?:  [^\n]*\n)+)", whole, "words of a script in --help")
        self.script = re.findall(r"^  (\w+)", script, re.MULTILINE)

    @staticmethod
    def flags_of(text: str) -> list[str]:
        options = part(r"^Options:\n((?: [^\n]*\n)+)", text, "options in --help")
        return re.findall(
            r"(?<![\w-])--?[A-Za-z][\w-]*", "\n".join(re.findall(r"^ +(-.*?)(?:  |$)", options, re.MULTILINE))
        )

    def all_flags(self) -> list[str]:
        return sorted({flag for flags in self.flags.values() for flag in flags})


def page_lacks(commands: Words) -> list[str]:
    page = re.sub(r"\\f[A-Z]", "", text_of("package", "racebench.1")).replace("\\-", "-").replace("\\ ", " ")
    faults = part(
        r"^## Faults\n(.*?)^### ", text_of("docs", "formats", "faults.md"), "table of faults in docs/formats/faults.md"
    )
    wanted = [
        f"command {name}" for name in commands.commands if not re.search(rf"^\.B[IR]? {name}\b", page, re.MULTILINE)
    ]
    wanted += [f"flag {flag}" for flag in commands.all_flags() if not re.search(rf"(?<![\w-]){flag}(?![\w-])", page)]
    wanted += [
        f"script word {name}" for name in commands.script if not re.search(rf"^\.B[IR]? {name}\b", page, re.MULTILINE)
    ]
    for number, fault in re.findall(r"^\| (\d+) \| `([^`]*)`", faults, re.MULTILINE):
        if not re.search(rf"^{number} {re.escape(fault)}", page, re.MULTILINE):
            wanted.append(f"fault {number} {fault}")
    return wanted


def zsh_lacks(commands: Words) -> list[str]:
    text = text_of("package", "_racebench")
    lacks = [
        f"command {name}" for name in commands.offered if f"'{name}:" not in text or f"        {name})" not in text
    ]
    for command in commands.commands:
        found = re.search(rf"^        {command}\)(.*?);;", text, re.MULTILINE | re.DOTALL)
        case = found[1] if found else ""
        lacks += [
            f"flag {flag} of {command}"
            for flag in commands.flags[command]
            if not re.search(rf"(?<![\w-]){flag}(?![\w-])", case)
        ]
    return lacks + [
        f"flag {flag}" for flag in commands.flags[""] if not re.search(rf"(?<![\w-]){flag}(?![\w-])", text)
    ]


def completed(*typed: str, command: str = "racebench") -> list[str]:
    """What bash offers for the last argument, after the command."""
    line = (
        'source package/$0.bash; COMP_WORDS=($0 "$@"); COMP_CWORD=$#; _${0//-/_}; printf \'%s\\n\' "${COMPREPLY[@]}"'
    )
    return printed("bash", "-c", line, command, *typed, cwd=TOP).split()


def bash_lacks(commands: Words) -> list[str]:
    lacks = []
    for typed in ([""], ["help", ""]):
        offered = completed(*typed)
        lacks += [f"command {name} after {typed[:-1]}" for name in commands.offered if name not in offered]
    for command, flags in commands.flags.items():
        offered = completed(*([command] if command else []), "-")
        lacks += [f"flag {flag} of `racebench {command}`" for flag in flags if flag not in offered]
        lacks += [f"flag {flag} of `racebench {command}` is none" for flag in offered if flag not in flags]
    return lacks


def screen_commands() -> tuple[list[str], list[str]]:
    """The options of the screen, and its arguments."""
    help_text = printed("/usr/bin/python3", "screen/screen", "--help", cwd=TOP)
    options = re.findall(
        r"(?<![\w-])--?[a-z][\w-]*", part(r"^options:\n(.*)", help_text, "options in --help of the screen")
    )
    return options, re.findall(r"^  ([A-Z]+)$", help_text, re.MULTILINE)


def screen_lacks(name: str) -> list[str]:
    """Each option and each argument of the screen that a file does not have."""
    page = text_of("package", name).replace("\\-", "-")
    options, arguments = screen_commands()
    return [word for word in options + arguments if not re.search(rf"(?<![\w-]){word}(?![\w-])", page, re.IGNORECASE)]


def screen_bash_lacks() -> list[str]:
    """Each option of the screen that bash does not offer, and each that it offers and the screen lacks."""
    return sorted(set(screen_commands()[0]) ^ set(completed("-", command="racebench-screen")))


def recorder_page_lacks(command: str, page: str) -> list[str]:
    """Each option that a command of the recorder names, and each part that a page has."""
    page = page.replace("\\-", "-").replace("\\fB", "").replace("\\fR", "")
    wanted = [f"section {name}" for name in ("NAME", "SYNOPSIS", "DESCRIPTION") if f"\n.SH {name}\n" not in page]
    named = set(re.findall(r"(?<![\w-])--[a-z][\w-]*", man_pages.help_of(command)))
    if command not in ("racebench-cc", "racebench-c++", "racebench-rustc") and not named:
        wanted.append("any option")
    return wanted + [f"option {word}" for word in sorted(named) if not re.search(rf"(?<![\w-]){word}(?![\w-])", page)]


def recorder_pages() -> list[tuple[str, list[str]]]:
    """What is wrong with each page that is made of what a command of the recorder says of itself."""
    judged = []
    for command in man_pages.COMMANDS:
        page = man_pages.page(command, "0.0.0")
        with tempfile.NamedTemporaryFile("w", suffix=".1", encoding="utf-8") as file:
            file.write(page)
            file.flush()
            judged.append((f"{command}.1", recorder_page_lacks(command, page) + page_warnings(file.name)))
    return judged


def page_warnings(name: str) -> list[str]:
    if shutil.which("man") is None:
        print(f"package/{name}: not read by man, which is not here")
        return []
    path = os.path.join(TOP, "package", name)
    environment = dict(os.environ, MANWIDTH="80", LC_ALL="C.UTF-8", MANROFFOPT="")
    warnings = subprocess.run(
        ["man", "--warnings=w", "--local-file", path], capture_output=True, text=True, check=False, env=environment
    )
    return warnings.stderr.splitlines()


def packing() -> ModuleType:
    """tools/package, as a module."""
    loader = importlib.machinery.SourceFileLoader("packing", os.path.join(TOP, "tools", "package"))
    spec = importlib.util.spec_from_loader("packing", loader)
    if spec is None:
        raise judging.Wrong("tools/package can't be loaded as a module")
    module = importlib.util.module_from_spec(spec)
    loader.exec_module(module)
    return module


def languages_lack() -> list[str]:
    """Each package that tools/needs names for a language, and no package of a language depends on; each package of a
    language that is made otherwise; what lintian says of it, if lintian is here."""
    module, lacks = packing(), []
    needed = part(r'^languages="([^"]*)"', text_of("tools", "needs"), "list of languages in tools/needs").split()
    facts = {"version": "0.1.0", "date": "Mon, 30 Nov 2026 06:00:00 +0000"}
    there: set[str] = set()
    paths: list[str] = []
    with tempfile.TemporaryDirectory() as folder:
        for word in module.LANGUAGES:
            paths.append(module.language_package(word, facts, folder, 1_000_000_000))
            depends = printed("dpkg-deb", "--field", paths[-1], "Depends").strip().split(", ")
            there |= set(depends)
            lacks += [] if depends[0] == "planecarmine (= 0.1.0)" else [f"planecarmine-{word} of {depends[0]}"]
        if shutil.which("lintian"):
            done = subprocess.run(["lintian", *paths], capture_output=True, text=True, check=False)
            lacks += [line for line in done.stdout.splitlines() if line[:2] in ("E:", "W:")]
    if not shutil.which("lintian"):
        print("packages of the languages: not read by lintian, which is not here")
    return lacks + [f"{name}, which tools/needs names" for name in needed if name not in there]


def judged(run: judging.Run) -> None:
    commands = Words(run.program)
    run.case("package/racebench.1 lacks", page_lacks(commands))
    run.case("package/_racebench lacks", zsh_lacks(commands))
    run.case("package/racebench.1, read by man", page_warnings("racebench.1"))
    run.case("package/racebench-screen.1 lacks", screen_lacks("racebench-screen.1"))
    run.case("package/_racebench-screen lacks", screen_lacks("_racebench-screen"))
    run.case("package/racebench-screen.1, read by man", page_warnings("racebench-screen.1"))
    if shutil.which("dpkg-deb"):
        run.case("packages of the languages lack", languages_lack())
    for name, wrong in recorder_pages():
        run.case(name, wrong)
    if shutil.which("bash"):
        run.case("package/racebench.bash lacks", bash_lacks(commands))
        run.case("package/racebench-screen.bash lacks", screen_bash_lacks())


if __name__ == "__main__":
    sys.exit(judging.main("package", judged))
