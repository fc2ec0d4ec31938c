"""The paths that reports write for files in the folder of `--source`, by a plain search of that folder."""

import os


def parts_of(path: str) -> list[str]:
    """The parts of a path, the last first, up to the first that is empty."""
    parts = path.split("/")[::-1]
    return parts[: parts.index("")] if "" in parts else parts


def equal_parts(path: str, name: str) -> int:
    """How many of the last parts of two paths are equal."""
    count = 0
    for one, other in zip(parts_of(path), parts_of(name)):
        if one != other:
            break
        count += 1
    return count


class CodeFolder:
    """A folder of code, with its files as they are now."""

    def __init__(self, folder: str) -> None:
        self.root = os.path.realpath(folder).rstrip("/") + "/"
        self.paths = []
        for where, folders, files in os.walk(self.root):
            folders[:] = [name for name in folders if not name.startswith(".")]
            shown = [os.path.join(where, name).removeprefix(self.root) for name in files if not name.startswith(".")]
            self.paths += [path for path in shown if self.has(path)]

    def has(self, path: str) -> bool:
        """Whether there is a plain file at this path, which no link leads out of the folder."""
        whole = self.root + path
        return os.path.isfile(whole) and os.path.realpath(whole).startswith(self.root)

    def fits(self, name: str) -> list[str]:
        """The paths of the files that fit a name best."""
        own = name.removeprefix(self.root).removeprefix("./")
        if not {"", ".", ".."} & set(own.split("/")) and self.has(own):
            return [own]
        if name.startswith(self.root) or (name.startswith("/") and os.path.isfile(name)):
            return []
        counts = {path: equal_parts(self.root + path, name) for path in self.paths}
        if name.startswith("/"):
            counts = {path: count for path, count in counts.items() if count >= max(2, len(path.split("/")))}
        else:
            parts = name.split("/")
            ends = [at for at, part in enumerate(parts, start=1) if part in ("", ".", "..")]
            length = len(parts) - max(ends, default=0)
            counts = {path: count for path, count in counts.items() if count == length > 0}
        best = max(counts.values(), default=0)
        return [path for path, count in counts.items() if count == best]

    def path_of(self, name: str) -> str:
        """The path that is written for a name: that of the file that fits, if exactly one does; else the name."""
        fits = self.fits(name)
        return fits[0] if len(fits) == 1 else name

    def line_at(self, name: str, number: int) -> str:
        """A line of the file, without blanks at its ends; nothing if it is not there."""
        path = os.path.join(self.root, self.path_of(name)) if len(self.fits(name)) == 1 else name
        if not path.startswith("/") or not os.path.isfile(path):
            return ""
        with open(path, encoding="utf-8") as text:
            lines = text.read().split("\n")
        return lines[number - 1].strip() if 0 < number <= len(lines) else ""

    def uri(self) -> str:
        """The folder as a URI."""
        return "file://" + "".join(map(encoded, self.root.encode()))


def encoded(byte: int) -> str:
    """A byte of a path in a URI."""
    return chr(byte) if chr(byte).isalnum() and byte < 128 or chr(byte) in "-./_~" else f"%{byte:02X}"
