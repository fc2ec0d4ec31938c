"""Where places of code are: the lines and functions of addresses, as the decoder answers."""
from __future__ import annotations

import functools
import subprocess
import sys
import tempfile
from collections.abc import Sequence
from typing import Protocol

import decoders


class Answers(Protocol):
    """What answers where places of code are."""

    def frames(self, address: int) -> list[tuple[str, str]]:
        ...


class Places:
    """Answers for the program of one recording. `head` is the raw file up to its records. A separate decoder answers
    for a Go program: `command` run it."""

    def __init__(self, head: bytes, command: Sequence[str] = ()) -> None:
        self.head, self.command = head, command
        self.known: dict[int, list[tuple[str, str]]] = {}

    @functools.cached_property
    def decoder(self) -> subprocess.Popen[str]:
        with tempfile.TemporaryFile() as file:
            file.write(self.head)
            file.flush()
            return subprocess.Popen(
                self.command or [self.path(), "--places", f"/dev/fd/{file.fileno()}"],
                stdin=subprocess.PIPE,
                stdout=subprocess.PIPE,
                pass_fds=[file.fileno()],
                encoding="utf-8",
                errors="replace",
                start_new_session=True,
            )

    @staticmethod
    def path() -> str:
        try:
            return decoders.path()
        except decoders.Undecodable as why:
            sys.exit(f"record: {why}")

    def frames(self, address: int) -> list[tuple[str, str]]:
        """The function and the place of each frame at an address after a call, the innermost first."""
        if address not in self.known:
            self.known[address] = list(self.answer_of(address))
        return self.known[address]

    def answer_of(self, address: int) -> list[tuple[str, str]]:
        question, answer = self.decoder.stdin, self.decoder.stdout
        if question is None or answer is None:
            return []
        question.write(f"{address:x}\n")
        question.flush()
        found = []
        for line in iter(answer.readline, "\n"):
            if not line:
                sys.exit("record: the decoder ended before it answered where a place is")
            function, _, place = line.rstrip("\n").partition(" ")
            found.append((function, place))
        return found


class Named:
    """Places of a Java program, which the clock has by their numbers."""

    def __init__(self, names: dict[str, str]) -> None:
        self.names = names

    def frames(self, address: int) -> list[tuple[str, str]]:
        name = self.names.get(f"{address:x}")
        return [("", name)] if name else []
