"""Small files beside the log and the trace, and how far this analyst has looked."""

import hashlib
import json
import os
import stat
from typing import Any

from .text import JsonObject, clean

# A file of names is read up to this many bytes, and a name up to this many characters.
BYTES, LONGEST = 16_384, 40
CLIENTS = 32
# The number of a client is read up to this many digits; Python reads no number of thousands.
DIGITS = 9
# How many bytes at each end of a trace are kept, to tell it from another one.
ENDS = 1 << 16
# A file of endings is read up to this many bytes.
MOST = 16 << 20
MATTERS: dict[object, str] = {True: "the order matters", False: "the order makes no difference"}


def bytes_of(path: str, most: int, flags: int = 0) -> bytes:
    """This many bytes of a file at most. What is no plain file is not read: a pipe would wait for its writer."""
    number = os.open(path, os.O_RDONLY | os.O_NONBLOCK | os.O_CLOEXEC | flags)
    if not stat.S_ISREG(os.fstat(number).st_mode):
        os.close(number)
        raise OSError("no plain file")
    with open(number, "rb") as file:
        return file.read(most)


class Seen:
    """How much of a log this analyst has looked at.

    It is kept below the user's own state folder: a browser keeps nothing from one port to the next.
    """

    def __init__(self, log: str, client: int) -> None:
        base = os.environ.get("XDG_STATE_HOME") or os.path.expanduser("~/.local/state")
        name = hashlib.sha256(f"{client} {os.path.realpath(log)}".encode("utf-8", "surrogateescape")).hexdigest()[:32]
        self.path = os.path.join(base, "racebench-screen", name)

    def read(self, digest: str) -> int | None:
        try:
            with open(self.path, encoding="ascii") as file:
                kept, number = file.read(200).split()
            return int(number) if kept == digest else None
        except (OSError, ValueError):
            return None

    def write(self, digest: str, number: int) -> None:
        try:
            os.makedirs(os.path.dirname(self.path), mode=0o700, exist_ok=True)
            own = f"{self.path}.{os.getpid()}.new"  # another screen of this analyst may write too
            with open(own, "w", encoding="ascii") as file:
                file.write(f"{digest} {number}\n")
            os.replace(own, self.path)
        except OSError:
            pass  # then the next start calls more news than there are


class Original:
    """The file of the trace, as it was at the start: the program reads it again when it looks for a witness.

    Another time of the file says nothing if its size is the same, the bytes at both ends, and the digest of all.
    """

    def __init__(self, path: str) -> None:
        self.path = path
        self.stamp, self.ends = self._stamp(), self._ends()
        self.digest: bytes | None = None  # None until it is known

    def learn(self) -> None:
        """Keeps the digest of all of it. That takes a moment for a long trace, so the start does not wait for it."""
        digest = self._digest()
        if self._stamp() == self.stamp:
            self.digest = digest

    def _stamp(self) -> tuple[int, int, int] | None:
        try:
            found = os.stat(self.path)
        except OSError:
            return None
        return found.st_size, found.st_ino, found.st_mtime_ns

    def _ends(self) -> tuple[bytes, bytes]:
        try:
            with open(self.path, "rb") as file:
                first = file.read(ENDS)
                file.seek(max(0, file.seek(0, os.SEEK_END) - ENDS))
                return first, file.read(ENDS)
        except OSError:
            return b"", b""

    def _digest(self) -> bytes | None:
        try:
            with open(self.path, "rb") as file:
                return hashlib.file_digest(file, "sha256").digest()
        except OSError:
            return None

    def is_changed(self) -> bool:
        """Whether another trace is there now. One that was taken away is not: what was read is drawn."""
        stamp = self._stamp()
        if stamp is None or self.stamp is None or stamp == self.stamp:
            return False
        if stamp[0] != self.stamp[0] or self._ends() != self.ends:
            return True
        if self.digest is not None and self._digest() != self.digest:
            return True
        self.stamp = stamp
        return False


class Names:
    """Who the clients are: lines of LOG.names, as `1 Ada`. Whoever can write beside the log can name them."""

    def __init__(self, log: str) -> None:
        self.path = log + ".names"
        self.names: dict[int, str] = {}
        self.stamp: tuple[int, int, int] | None = None
        self.is_fresh = False

    def changed(self) -> bool:
        """Whether there are other names than were read before.

        A file that was just written may still be at work, and its time may not tell of more. So it is read once more.
        """
        try:
            found = os.stat(self.path)
            stamp = (found.st_mtime_ns, found.st_size, found.st_ino)
        except OSError:
            stamp = None
        was_fresh, self.is_fresh = self.is_fresh, stamp != self.stamp
        if not (was_fresh or self.is_fresh):
            return False
        self.stamp = stamp
        before, self.names = self.names, self._read() if stamp else {}
        return self.names != before

    def _read(self) -> dict[int, str]:
        try:
            lines = bytes_of(self.path, BYTES).splitlines()
        except OSError:
            return {}
        pairs = [line.split(None, 1) for line in lines]
        return {
            int(pair[0]): clean(pair[1].strip())[:LONGEST]
            for pair in pairs
            if len(pair) == 2 and pair[0].isdigit() and len(pair[0]) <= DIGITS and 1 <= int(pair[0]) <= CLIENTS
        }


class Confirmed:
    """How races ended in the real program: JSON lines of `record/confirm`, in a file beside the trace."""

    def __init__(self, trace: str) -> None:
        self.path = trace + ".confirmed"

    def read(self) -> dict[tuple[int, int], JsonObject]:
        try:
            lines = bytes_of(self.path, MOST).splitlines()
        except OSError:
            return {}
        return dict(filter(None, map(ending, lines)))


def ending(line: bytes) -> tuple[tuple[int, int], JsonObject] | None:
    """A pair of events, and how its race ended; None for a line that says no such thing."""
    try:
        report = json.loads(line)
        first, second = sorted(int(event) for event in report["events"])
        places = dict(zip(map(int, report["events"]), map(readable, report.get("locations", []))))
        word = readable(report["ended"])
        text = "\n".join(map(clean, [readable(report.get("text", word)), *outcome(report)]))
        return (first, second), {"word": clean(word), "text": text, "places": places}
    except (ValueError, KeyError, TypeError, AttributeError, OverflowError, RecursionError):
        return None


def readable(text: Any) -> str:
    """A text without the signs for bytes that are no UTF-8; the program writes them so too."""
    return str(text).encode("utf-8", "surrogateescape").decode("utf-8", "replace")


def outcome(report: JsonObject) -> list[str]:
    """What came of each order of the two accesses."""
    lines = [] if report.get("same_memory", True) else ["the two accesses do not overlap"]
    if "first" in report and "second" in report:
        one, other = report["events"]
        why = f": {readable(report['why'])}" if report.get("why") else ""
        lines += [
            f"{one} first: {readable(report['first'])}",
            f"{other} first: {readable(report['second'])}",
            MATTERS.get(report.get("matters"), "it is not known whether the order matters") + why,
        ]
    return lines + [f"a run by itself may not: {readable(liberty)}" for liberty in report.get("liberties", [])]
