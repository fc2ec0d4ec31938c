"""The messages between the server and the page, each with its keys: the legend for both sides.

A request has `id` and `do`; its answer has the same `id`, and the keys that `REQUESTS` names here, or `mistake` or
`gone`. A push has `push` instead of an `id`. The page is `static/net.js` and what uses it. Events, threads, entries and
rows are numbers; a position counts the events of a schedule, and a row what is drawn.
"""

from typing import Any, NotRequired, TypedDict


class Event(TypedDict):
    """An event of the trace."""

    event: int
    thread: int
    operation: str  # r, w, acq, rel, fork or join
    name: str  # of the variable, the lock or the other thread
    location: str


class Schedule(TypedDict):
    """A schedule of the log."""

    name: str
    owner: int  # the client who made it
    length: int
    birth: tuple[int, int]  # the entry that made it, and which command of that entry
    by: int  # the client who changed it last
    touched: int  # the entry that changed it last


class Entry(TypedDict):
    """An entry of the log. What it has beside its text depends on its kind."""

    number: int
    client: int
    kind: str  # the command's word
    text: str  # the command, cut if it is long
    undone_by: NotRequired[int]
    name: NotRequired[str]  # the schedule
    at: NotRequired[int | None]  # a position, a length or a proposal, as the command has it
    event: NotRequired[Event]  # add
    source: NotRequired[str]  # branch: the schedule that was branched
    of: NotRequired[int]  # undo: the entry that is taken back
    proposal: NotRequired[int | None]
    pair: NotRequired[list[int]]  # propose
    count: NotRequired[int]  # propose: its events; batch: its commands
    run: NotRequired[list[int]]  # a batch that adds: its first and its last event
    threads: NotRequired[list[int]]  # a batch that adds
    took: NotRequired[int]  # a batch that makes a schedule from this proposal
    swaps: NotRequired[bool]  # a batch that moves an event


class Cause(TypedDict):
    """Why an event may not come next."""

    code: str  # the number of the program's cause; `aim` and `way` are the screen's own
    said: str  # the text
    about: NotRequired[Event]  # what has to come first, or holds the lock
    has: NotRequired[Event | None]  # the write that the read would see
    left: NotRequired[int]  # how many events the joined thread has to come
    joined: NotRequired[str]  # its name
    help: NotRequired[int]  # a run to this event would help
    helper: NotRequired[int]  # of this thread
    steps: NotRequired[int]  # by this many events


class Next(Event):
    """A thread's next event."""

    left: int  # how many events of the thread the schedule lacks
    why: NotRequired[Cause]  # if it may not come next
    aim: NotRequired[int]  # how many more events of the thread the aim needs
    own: NotRequired[bool]  # whether an access of the aim is of this thread
    to: NotRequired[int]  # the last event of the thread that the aim needs


class Wait(Event):
    """A request of a deadlock, and what it waits for."""

    since: Event  # the acquire since which another thread of the deadlock holds the lock


class Row(TypedDict):
    """A row of a schedule: an event, or a block of events of one thread, which has a size."""

    position: int
    thread: int
    entry: NotRequired[int]  # the latest entry that put an event of it there
    by: NotRequired[int]  # whose entry that is
    event: NotRequired[int]
    operation: NotRequired[str]
    name: NotRequired[str]
    location: NotRequired[str]
    writer: NotRequired[int]  # the position of the write that a read sees; -1 is the initial value
    readers: NotRequired[list[int]]  # positions of the reads that see a write
    more_readers: NotRequired[bool]  # whether there are others
    is_open: NotRequired[bool]  # whether it is of a block that was opened
    size: NotRequired[int]
    operations: NotRequired[list[int]]  # how many of each operation a block has
    first: NotRequired[Event]
    last: NotRequired[Event]


Lock = TypedDict(
    "Lock", {"thread": int, "name": str, "lock": int, "event": int, "from": int, "to": int, "open": bool}
)  # a critical section from a row to a row; if it is open, the lock is held at the end
View = TypedDict(
    "View",
    {
        "from": int,  # the first row of the window
        "rows": list[Row],
        "total": int,  # rows of the whole schedule
        "length": int,  # its events
        "locks": list[Lock],
        "log_length": NotRequired[int],  # how many entries the log had when this was drawn
        "lanes": NotRequired[list[int]],  # threads with a lane of their own
        "counts": NotRequired[list[list[int]]],  # a thread, and how many events of it are there
        "map": NotRequired[list[int]],  # threads, evenly over the rows
        "aimed": NotRequired[list[int]],  # rows of the aim
        "row": NotRequired[int],  # the row of the requested position
        "source": NotRequired[dict[str, str]],  # lines by location
    },
)


class Frontier(TypedDict):
    """What may come next in a schedule."""

    name: str
    length: int
    next: list[Next]
    pairs: list[list[int]]  # pairs that are side by side
    waits: list[Wait]  # if the aim is a deadlock and the schedule shows it: its requests
    ended: int  # threads without an event to come
    witnessed: bool  # whether the aim's witness is known
    source: NotRequired[dict[str, str]]


Ahead = TypedDict(
    "Ahead",
    {"thread": int, "left": int, "from": int, "events": list[Event], "source": NotRequired[dict[str, str]]},
)  # events of a thread that come


class Hello(TypedDict):
    """What a page begins with."""

    title: str
    client: int
    events: int
    threads: list[list[Any]]  # the name and the number of events of each
    variables: int
    locks: int
    log_length: int
    seen: int | None  # how many entries this client had looked at
    rows: list[Schedule | None]
    feed: list[Entry]
    proposals: list[Entry]
    fault: str | None  # why what is drawn may be wrong
    source: bool  # whether there is a source folder
    names: dict[int, str]  # of clients


class Changed(TypedDict, total=False):
    """Another analyst's entry that changed what a step by position was for."""

    entry: int
    client: int
    name: str
    made: int  # the step's own entry, which was taken back
    stays: bool  # others rest on it, so it stays


class Stop(Event, Cause):
    """The event before which a run stopped."""


Stay = TypedDict("Stay", {"position": int, "why": str, "with": Event})  # the neighbour that a move does not pass


class Rests(TypedDict):
    """The entry that rests on one that is to be taken back, and its schedule."""

    entry: Entry
    name: str


class Step(TypedDict, total=False):
    """What came of a step."""

    answer: str  # the program's last line
    made: list[int]  # entries of a step by position, or of an undo
    entries: list[int]  # entries of a run, or of other steps of many entries
    why: Cause  # add: why it was refused
    added: int  # run
    stop: Stop | Stay  # run, swap
    more: int  # run: events that one request does not add
    moved: int  # swap
    undone: int  # undo
    rests: Rests  # undo
    changed: Changed


class Lost(TypedDict):
    """Since when the aim can't be reached, and why."""

    length: int  # the longest beginning from which it can be
    left: int  # events after that
    needed: NotRequired[Event]
    early: NotRequired[Event]


class Reach(TypedDict, total=False):
    lost: Lost


class Witness(TypedDict):
    pair: list[int]
    accesses: list[Event]  # of a race; of a deadlock its requests
    waits: NotRequired[list[Wait]]  # of a deadlock
    none: NotRequired[str]  # why there is no schedule
    length: NotRequired[int]
    source: NotRequired[dict[str, str]]


class Explanation(TypedDict):
    pair: list[int]
    lines: list[str]


class Accesses(TypedDict):
    accesses: list[Event]


class SourceLines(TypedDict, total=False):
    file: str
    line: int
    lines: list[list[Any]]  # a number and a text
    none: bool  # there is no such line


Races = TypedDict(
    "Races",
    {
        "state": str,  # searching, found or failed
        "total": int,
        "from": int,
        "blocks": list[dict[str, Any]],  # as `triage --json` prints them, with `holds` and `ended`
        "counts": NotRequired[dict[str, Any]],
        "kept": NotRequired[int],
        "more": NotRequired[int],  # pairs that are left out
        "progress": NotRequired[str],
        "why": NotRequired[str],
    },
)


class Hold(TypedDict):
    """An acquire since which a thread holds a lock."""

    event: int
    lock: str
    location: str


class Request(Hold):
    """An acquire at which a thread waits."""

    thread: str
    hold: Hold  # of the lock that the other request acquires
    holds: list[str]  # other locks of the thread


class Deadlock(TypedDict):
    """A block of `racebench deadlocks`."""

    how: str
    events: int  # of the schedule that shows it
    threads: int  # with an event in that schedule
    requests: list[Request]


Deadlocks = TypedDict(
    "Deadlocks",
    {
        "state": str,  # searching, found or failed
        "total": int,
        "from": int,
        "blocks": list[Deadlock],
        "counts": NotRequired[dict[str, int]],  # as `deadlocks` prints them
        "missing": NotRequired[str],  # what the recording lacks
        "kept": NotRequired[int],
        "more": NotRequired[int],  # deadlocks that are left out
        "progress": NotRequired[str],
        "why": NotRequired[str],
    },
)


class NewsLine(TypedDict):
    """What a client did to a schedule, by the word of the command."""

    client: int
    name: str | None
    last: int  # the latest entry
    counts: dict[str, int]


class News(TypedDict):
    news: list[NewsLine]


class Feed(TypedDict):
    entries: list[Entry]


class Link(TypedDict):
    link: str


class Check(TypedDict):
    same: bool  # whether the program shows the schedule as it is drawn


class Nothing(TypedDict):
    """An answer without a word."""


class Mistake(TypedDict):
    mistake: str  # what is wrong with the request


class Gone(TypedDict):
    gone: str  # the last line of the program, which ended
    made: list[int]  # entries that the step may have made


# Requests: what the page asks with.


class Looked(TypedDict, total=False):
    """What the page looks at: one of the two."""

    schedule: str
    witness: list[int]


class Shown(TypedDict):
    """A schedule as the page showed it: entries of the log then, and the page's own since."""

    log_length: int
    own: list[int]


class AskSeen(TypedDict):
    log_length: int


AskView = TypedDict(
    "AskView",
    {
        "view": Looked,
        "aim": NotRequired[list[int] | None],
        "count": int,
        "from": int | None,  # None is the end
        "at": NotRequired[int],  # a position that is to be seen
        "toggle": NotRequired[int],  # a position whose block opens or closes
    },
)


class AskFrontier(TypedDict):
    name: str
    aim: NotRequired[list[int] | None]


AskAhead = TypedDict("AskAhead", {"name": str, "thread": int, "from": int, "count": int})


class AskSource(TypedDict):
    place: str
    around: int  # lines on either side


class AskName(TypedDict):
    name: str


class AskAdd(TypedDict):
    name: str
    event: int


class AskBack(TypedDict):
    name: str
    shown: NotRequired[Shown]


class AskBackTo(TypedDict):
    name: str
    length: int
    shown: NotRequired[Shown]


class AskBranch(TypedDict):
    name: str
    length: int
    to: str
    shown: NotRequired[Shown]


class AskSwap(TypedDict):
    name: str
    position: int
    by: int
    shown: NotRequired[Shown]


class AskAdopt(TypedDict):
    name: str
    proposal: int


class AskPropose(TypedDict):
    view: Looked
    pair: list[int]


class AskRun(TypedDict):
    name: str
    thread: NotRequired[int]
    until: NotRequired[int]
    aim: NotRequired[list[int] | None]


class AskUndo(TypedDict):
    entries: NotRequired[list[int]]


class AskEnter(TypedDict):
    view: Looked
    name: str


AskFeed = TypedDict("AskFeed", {"from": int, "count": int})
AskSince = TypedDict("AskSince", {"from": int})
AskRaces = TypedDict("AskRaces", {"text": str, "kinds": list[str], "from": int, "count": int})
AskDeadlocks = TypedDict("AskDeadlocks", {"text": str, "from": int, "count": int})


class AskPair(TypedDict):
    pair: list[int]


REQUESTS: dict[str, tuple[Any, Any]] = {
    "hello": (Nothing, Hello),
    "seen": (AskSeen, Nothing),
    "link": (Nothing, Link),
    "view": (AskView, View),
    "frontier": (AskFrontier, Frontier),
    "ahead": (AskAhead, Ahead),
    "reach": (AskFrontier, Reach),
    "source": (AskSource, SourceLines),
    "check": (AskName, Check),
    "add": (AskAdd, Step),
    "back": (AskBack, Step),
    "back_to": (AskBackTo, Step),
    "new": (AskName, Step),
    "drop": (AskName, Step),
    "branch": (AskBranch, Step),
    "adopt": (AskAdopt, Step),
    "propose": (AskPropose, Step),
    "swap": (AskSwap, Step),
    "run": (AskRun, Step),
    "undo": (AskUndo, Step),
    "enter": (AskEnter, Step),
    "feed": (AskFeed, Feed),
    "since": (AskSince, News),
    "races": (AskRaces, Races),
    "deadlocks": (AskDeadlocks, Deadlocks),
    "witness": (AskPair, Witness),
    "pair": (AskPair, Accesses),
    "explain": (AskPair, Explanation),
}


# Pushes: what the server says without being asked.


class LogPush(TypedDict):
    """The log grew."""

    log_length: int
    entries: list[Entry]  # the latest, if there are many
    rows: dict[str, Schedule | None]  # schedules that changed; None is one that was dropped
    proposals: NotRequired[list[Entry]]  # if some entries are left out


class FaultPush(TypedDict):
    why: str


class NamesPush(TypedDict):
    names: dict[int, str]


PUSHES: dict[str, Any] = {
    "log": LogPush,
    "fault": FaultPush,
    "names": NamesPush,
    "races": Nothing,  # the list of races is another one
    "deadlocks": Nothing,  # the list of deadlocks is another one
    "connected": Nothing,  # who reads whom is known
}
