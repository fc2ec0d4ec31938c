"""Scripts in the place of the program."""

import os

import traces


def script(path: str, text: str) -> str:
    """Writes a script, and returns its path."""
    traces.write(path, text)
    os.chmod(path, 0o755)
    return os.path.abspath(path)


# A program that lets others do something just before it does a line.
BETWEEN = """#!/bin/sh
program={program}
if [ "$1" != session ]; then exec "$program" "$@"; fi
while read -r line; do
    case $line in
{cases}
    esac
    echo "$line"
done | "$program" "$@"
"""
CASE = """    "{line}") if [ ! -e '{flag}' ]; then
        touch '{flag}'
        echo "{does}" | "$program" session trace log --client 2 > /dev/null
    fi ;;"""


def between(program: str, **does: str) -> str:
    """The path of a program before whose lines others do something, once each. `_` is a blank."""
    cases = [CASE.format(line=line.replace("_", " "), flag=f"done-{line}", does=call) for line, call in does.items()]
    traces.write("between", BETWEEN.format(program=program, cases="\n".join(cases)))
    os.chmod("between", 0o755)
    return os.path.abspath("between")
