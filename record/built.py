"""What is compiled once and kept: a folder of files that are named by what they are made of."""
from __future__ import annotations

import contextlib
import fcntl
import hashlib
import os
import stat
import sys
import tempfile
from collections.abc import Callable, Iterable, Iterator


def folders() -> Iterator[str]:
    """Folders that may keep files, the best first."""
    home = os.environ.get("XDG_CACHE_HOME") or os.path.join(os.path.expanduser("~"), ".cache")
    yield os.path.join(home, "racebench")
    yield os.path.join(tempfile.gettempdir(), f"racebench-{os.getuid()}")


def is_ours(folder: str) -> bool:
    """Whether nobody else may write there: what is kept there is linked into programs."""
    about = os.lstat(folder)
    return stat.S_ISDIR(about.st_mode) and about.st_uid == os.getuid() and not about.st_mode & 0o022


def folder() -> str | None:
    """The folder that keeps files, or None if no folder can."""
    for path in folders():
        try:
            os.makedirs(path, mode=0o700, exist_ok=True)
            if is_ours(path) and os.access(path, os.W_OK | os.X_OK):
                return path
        except OSError:
            pass
    return None


def key_of(sources: Iterable[str], arguments: Iterable[str]) -> str:
    """A number of the contents and of the arguments."""
    digest = hashlib.sha256()
    for source in sources:
        with open(source, "rb") as file:
            content = file.read()
        digest.update(b"%d\n" % len(content) + content)
    digest.update("\0".join(arguments).encode("utf-8", "surrogateescape"))
    return digest.hexdigest()[:24]


def built(
    name: str, sources: Iterable[str], arguments: Iterable[str], make: Callable[[str], int], otherwise: str
) -> str | None:
    """The path of a file that `make(path)` makes of the sources by the arguments; it is made once. It is in the folder
    `otherwise` if nothing can be kept. None if it can't be made."""
    kept = folder()
    if kept is None:
        path = os.path.join(otherwise, name)
        return path if make(path) == 0 else None
    stem, end = os.path.splitext(name)
    path = os.path.join(kept, f"{stem}-{key_of(sources, arguments)}{end}")
    if os.path.exists(path):
        return path
    with alone_in(kept):
        return path if os.path.exists(path) or is_made(path, make) else None


@contextlib.contextmanager
def alone_in(kept: str) -> Iterator[None]:
    """Waits until no other process makes a file there: calls that a build starts at once would make it many times."""
    descriptor = os.open(kept, os.O_RDONLY | os.O_CLOEXEC)
    try:
        fcntl.flock(descriptor, fcntl.LOCK_EX)
        yield
    finally:
        os.close(descriptor)


def is_made(path: str, make: Callable[[str], int]) -> bool:
    """Whether `make` made the file at a path. The file is there whole or not at all."""
    stem, end = os.path.splitext(os.path.basename(path))
    file, part = tempfile.mkstemp(prefix="." + stem, suffix=end, dir=os.path.dirname(path))
    os.close(file)
    try:
        if make(part) != 0:
            return False
        os.chmod(part, 0o700)
        os.rename(part, path)
        return True
    except OSError as error:
        sys.exit(f"record: {path}: {error.strerror}")
    finally:
        if os.path.exists(part):
            os.unlink(part)
