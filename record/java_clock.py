"""The clock of a recorded Java program: what the decoder writes for it, put together as clocks.py has it."""
from __future__ import annotations

import os
import shutil
import sys
import tempfile
from typing import Any

import clocks
import raw as raw_file

# The files that the decoder writes, by its options: the records, the record of each event, and the names.
PARTS = ("--records", "--events", "--names")


class Beside:
    """What is written beside a trace, for its clock."""

    def __init__(self, path: str) -> None:
        self.path, self.kept = path, clocks.Kept(sys.stdout.buffer)
        self.files = [tempfile.TemporaryFile(prefix="record") for _ in PARTS]
        self.numbers = [file.fileno() for file in self.files]
        self.arguments = [word for part, n in zip(PARTS, self.numbers) for word in (part, f"/dev/fd/{n}")]

    def names(self) -> dict[str, dict[str, str]]:
        """The places of code by their numbers, and the classes with the digests of their files."""
        found: dict[str, dict[str, str]] = {"place": {}, "class": {}}
        self.files[2].seek(0)
        for line in self.files[2].read().decode("utf-8", "replace").splitlines():
            sort, name, text = line.split(" ", 2)
            found[sort].setdefault(name, text)
        return found

    def write(self, fields: dict[str, Any]) -> None:
        """Writes the clock of a program that java ran with these arguments and options."""
        records, events, _ = self.files
        names = self.names()
        head = raw_file.packed_head(os.fstat(records.fileno()).st_size // raw_file.WORD, 0)
        about = {"cwd": os.getcwd(), "free": False, "program": "", "main": "", "go": ""}
        java = {"places": names["place"], "classes": names["class"]}
        with open(self.path, "wb") as out:
            clocks.write_head(out, {**about, **fields, **clocks.about_trace(self.kept), "java": java})
            for file in (events, records):
                if file is records:
                    self.kept.lines.tofile(out)
                    out.write(head.ljust(raw_file.HEAD_SIZE, b"\0"))
                file.seek(0)
                shutil.copyfileobj(file, out)

    def close(self) -> None:
        for file in self.files:
            file.close()
