"""Lines of source files, below one folder and nowhere else."""

import os
import re

from .kept import bytes_of
from .messages import SourceLines
from .text import clean

PLACE = re.compile(r"\s*(.+?):(\d+)")
# At most this many files are known, this many bytes of each are read, and this many files are kept.
FILES, BYTES, KEPT = 50_000, 4 << 20, 64
# A line is cut at this many bytes.
WIDTH = 400
# Lines on either side that a look round a place may have.
AROUND = 40


class Source:
    """The files that a walk of the folder found, links left out. Names of the trace only choose among them."""

    def __init__(self, folder: str | None) -> None:
        self.folder = os.path.realpath(folder) if folder else None
        self.by_name: dict[str, list[str]] = {}
        self.lines: dict[str, list[bytes]] = {}
        if self.folder:
            self._walk(self.folder)

    def _walk(self, folder: str) -> None:
        count = 0
        for where, folders, files in os.walk(folder):
            folders[:] = [name for name in folders if not name.startswith(".")]
            for name in files:
                path = os.path.join(where, name)
                if os.path.islink(path) or not os.path.isfile(path):
                    continue
                self.by_name.setdefault(name, []).append(path)
                count += 1
                if count >= FILES:
                    return

    def _path(self, file: str) -> str | None:
        """Of the files with this last name the one whose path has the longest end in common with it."""
        wanted = file.split("/")

        def same(path: str) -> int:
            count = 0
            for own, other in zip(reversed(path.split("/")), reversed(wanted)):
                if own != other:
                    break
                count += 1
            return count

        return max(self.by_name.get(wanted[-1], ()), key=lambda path: (same(path), -len(path)), default=None)

    def _read(self, path: str) -> list[bytes]:
        if path not in self.lines:
            if len(self.lines) >= KEPT:
                self.lines.pop(next(iter(self.lines)))
            try:
                self.lines[path] = bytes_of(path, BYTES, os.O_NOFOLLOW).removesuffix(b"\n").split(b"\n")
            except OSError:
                self.lines[path] = []
        return self.lines[path]

    def around(self, place: str, count: int = 0) -> SourceLines | None:
        """Lines round a place as numbers and texts, and the file's name below the folder."""
        found = PLACE.match(place) if self.folder else None
        path = self._path(found[1]) if found else None
        if not found or not path:
            return None
        number, lines = int(found[2]), self._read(path)
        if not 1 <= number <= len(lines):
            return None
        count = min(count, AROUND)
        first, last = max(1, number - count), min(len(lines), number + count)
        return {
            "file": clean(os.path.relpath(path, self.folder)),
            "line": number,
            "lines": [[at, line_text(lines[at - 1])] for at in range(first, last + 1)],
        }

    def of_places(self, places: set[str]) -> dict[str, str]:
        """The line of each place that has one."""
        texts = {}
        for place in places if self.folder else ():
            found = self.around(place)
            if found:
                texts[place] = found["lines"][0][1].strip()
        return texts


def line_text(line: bytes) -> str:
    return clean(line[:WIDTH].expandtabs(4).rstrip())
