#!/usr/bin/python3
"""racebench, with an answer for each question of the screen: `? rows`, `? next NAME`, `? witness A B`.

All else is passed on to the program that RACEBENCH names. The answers are made of that program's own: of `show`, of
batches that are refused, of `witness`. So a screen that asks questions is tested also with a program that knows none.
The lines that came are kept in the file `asked`.
"""

import itertools
import os
import subprocess
import sys

if (SCREEN := os.path.dirname(os.path.dirname(os.path.abspath(__file__)))) not in sys.path:
    sys.dont_write_bytecode = True
    sys.path.insert(0, SCREEN)
from screen_app.trace import Trace

PROGRAM = os.environ["RACEBENCH"]


class Session:
    def __init__(self, arguments: list[str]) -> None:
        self.trace, self.path, self.log = Trace(arguments[1]).read_at_once(), arguments[1], arguments[2]
        self.process = subprocess.Popen([PROGRAM, *arguments], stdin=subprocess.PIPE, stdout=subprocess.PIPE)
        assert self.process.stdin and self.process.stdout
        self.input, self.output = self.process.stdin, self.process.stdout

    def ask(self, line: str) -> str:
        self.input.write(line.encode() + b"\n")
        self.input.flush()
        return self.output.readline().decode().rstrip("\n")

    def length(self) -> int:
        with open(self.log, "rb") as file:
            next(file)
            return sum(1 for _ in itertools.takewhile(lambda line: line.startswith(b" "), file))

    def answer(self, line: str) -> str:
        fields = line.split()
        if fields[0] != "?":
            return self.ask(line)
        if os.environ.get("QUESTIONS") == "unknown":
            return "line 1: 81 bad word"
        if fields[1] == "rows":
            names = self.ask("list").split()[1:]
            return " ".join([f"rows {self.length()}", *(f"{name}:0:0:1" for name in names)])
        if fields[1] == "next":
            return self.next(fields[2])
        if os.environ.get("WITNESS") == "unknown":
            return "line 1: 87 bad question"
        return self.witness(fields[2], fields[3])

    def next(self, name: str) -> str:
        word, *events = self.ask(f"show {name}").split()
        if word != "shown":
            return " ".join([word, *events])
        counts = [0] * len(self.trace.events_of)
        for event in events:
            counts[self.trace.thread[int(event)]] += 1
        left = [own[count] for own, count in zip(self.trace.events_of, counts) if count < len(own)]
        return " ".join([f"next {self.length()} {len(events)}", *(self.item(name, event) for event in left)])

    def item(self, name: str, event: int) -> str:
        answer = self.ask(f"batch add {name} {event} ; new {name}").removeprefix("refused 70 at ")
        if answer.startswith("1 43"):
            return str(event)
        code, *fields = answer.removeprefix("0 46 ").split()
        if code == "24":
            return f"{event}:24:{fields[3]}:{fields[5]}"
        if code == "25":
            return f"{event}:25:{self.trace.threads.raw.index(fields[-1].encode())}"
        return f"{event}:{code}"

    def witness(self, first: str, second: str) -> str:
        done = subprocess.run([PROGRAM, "witness", self.path, first, second], capture_output=True)
        if done.returncode:
            return "refused 99 not shown: FORCED"
        return " ".join(["witness found", *(line.split()[0].decode() for line in done.stdout.splitlines() if line)])


def main() -> None:
    arguments = sys.argv[1:]
    if arguments[0] != "session":
        os.execv(PROGRAM, [PROGRAM, *arguments])
    session = Session(arguments)
    with open("asked", "a", encoding="ascii") as questions:
        for line in sys.stdin:
            questions.write(line)
            questions.flush()
            print(session.answer(line.rstrip("\n")), flush=True)


main()
