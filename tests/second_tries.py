"""What the runners of whole programs share: a case that fails is tried once more, alone.

Drawing, real programs and threads depend on what else the machine does at that moment. So a runner tries each case
that failed once more, after all others have ended. A case that passes then counts as passed, but its line says `ok
(second try)`, and the last line counts and names it. Such a case is a defect to be mended: in the product, or a test
that waits for too little. A case that fails twice has failed.
"""

import fcntl
import os
import re
from collections.abc import Sequence

# A runner that tools/test started finds here the number of a file; each part of the gate shares a lock on it. What the
# runner starts has neither.
SHARED = "RACEBENCH_GATE_LOCK"
lock = os.environ.pop(SHARED, None)
# The last line of a runner.
LAST = re.compile(r"(\d+) passed, (\d+) failed(?:, (\d+) at the second try: (.+))?")


def wait_until_alone() -> None:
    """Waits until no other part of the gate is at work, or only parts that wait for the same."""
    if lock is not None:
        fcntl.flock(int(lock), fcntl.LOCK_EX)


def last_line(passed: int, failed: int, second: Sequence[str]) -> str:
    """The last line of a runner, with the names of the cases that passed at their second try."""
    late = f", {len(second)} at the second try: {'; '.join(second)}" if second else ""
    return f"{passed} passed, {failed} failed{late}"
