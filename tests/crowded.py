"""A trace in which two accesses need too many events of too many threads for a contradiction to be found."""

import plain

# With this many events of 256 threads, more counts would be kept than the search for a contradiction keeps.
WORKERS = 254
EVENTS = 130


def before(thread: str) -> list[plain.Event]:
    """What the thread needs before it goes on: it forks and joins threads that write variables of their own."""
    workers = [f"W{number}" for number in range(WORKERS)]
    return [
        *[plain.Event(thread, "fork", worker) for worker in workers],
        *[plain.Event(worker, "w", f"of {worker}") for worker in workers for _ in range(EVENTS)],
        *[plain.Event(thread, "join", worker) for worker in workers],
    ]
