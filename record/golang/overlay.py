"""The overlay of Go's standard library: for `go build -race -overlay FILE`, with the recorder instead of the runtime of
ThreadSanitizer.

A source of Go is changed by replacing texts. If a text is not there as often as expected, this version of Go is
unknown, and nothing is built.
"""

import json
import os
import re
from collections.abc import Iterator

HERE = os.path.dirname(os.path.realpath(__file__))
RECORDER, HEADERS = os.path.join(HERE, "recorder.c"), ("follow.h", "requests.h")
# The kinds of events of the changed sources, as recorder.c and decode/log.go count them.
LOCK, UNLOCK, REFUSED, READ_LOCK, READ_UNLOCK, READ_REFUSED, WRITE_LOCK, WRITE_UNLOCK, WRITE_REFUSED = range(9)
# Requests of goroutines that are about to wait for a lock.
WANTED, READ_WANTED, WRITE_WANTED = range(9, 12)
# Locks that a try took.
TRIED_LOCK, TRIED_READ_LOCK, TRIED_WRITE_LOCK = range(12, 15)
CHANNEL_MEETS, CHANNEL_BUFFER, CHANNEL_REFUSED, SIGNALED, WOKEN = range(16, 21)
FILE_READS, FILE_READ, FILE_WRITES, FILE_WRITTEN, FILE_KEPT, FILE_CLOSED = range(21, 27)
# The objects that Go links if no overlay drops them.
THREAD_SANITIZER = (
    "race_linux_amd64.syso",
    "internal/amd64v1/race_linux.syso",
    "internal/amd64v3/race_linux.syso",
)


class UnknownGo(Exception):
    """Why no overlay can be made."""


class Source:
    """A source of the standard library, and the text that replaces it."""

    def __init__(self, root: str, name: str) -> None:
        self.path, self.name = os.path.join(root, "src", name), name
        try:
            with open(self.path, encoding="utf-8") as file:
                self.text = file.read()
        except OSError as error:
            raise UnknownGo(f"{self.path}: {error.strerror}") from None

    def count(self, what: str, found: int, wanted: int) -> None:
        if found != wanted:
            short = " ".join(what.split())[:70]
            raise UnknownGo(f"{self.name} has the text `{short}` {found} times, not {wanted}")

    def bounds(self, head: str) -> tuple[int, int]:
        """Where a function begins and ends."""
        self.count(head, self.text.count("\n" + head), 1)
        start = self.text.index("\n" + head) + 1
        return start, self.text.index("\n}\n", start) + 3

    def change(self, old: str, new: str, times: int = 1, inside: str = "") -> None:
        start, end = self.bounds(inside) if inside else (0, len(self.text))
        part = self.text[start:end]
        self.count(old, part.count(old), times)
        self.text = self.text[:start] + part.replace(old, new) + self.text[end:]

    def after(self, old: str, new: str, inside: str = "") -> None:
        self.change(old, old + new, 1, inside)

    def pattern(self, old: str, new: str) -> None:
        self.text, found = re.subn(old, new, self.text)
        self.count(old, found, 1)

    def body(self, head: str, new: str) -> None:
        start, end = self.bounds(head)
        self.text = self.text[:start] + new + self.text[end:]


def event(kind: int, what: str) -> str:
    return f"race.Event({kind}, unsafe.Pointer({what}))"


def race_source(root: str) -> Source:
    source = Source(root, "runtime/race.go")
    with open(os.path.join(HERE, "race.go.text"), encoding="utf-8") as file:
        source.text += file.read()
    source.change("racecall(&__tsan_malloc, 0, 0, uintptr(p), sz)", "racemalloctyped(p, sz, nil)")
    source.change(
        "uintptr(unsafe.Pointer(&racectx)), pc, 0)", "uintptr(unsafe.Pointer(&racectx)), pc, raceorigin(pc))"
    )
    source.after("abi.FuncPCABI0(racecallbackthunk), 0)\n", "	racestart()\n")
    return source


def assembly(root: str) -> Source:
    source = Source(root, "runtime/race_amd64.s")
    # Newer assemblers would save the frame pointer of a function that calls, and the jump would leave it on the stack.
    source.pattern(r"(TEXT\tracecalladdr<>\(SB\), NOSPLIT)(\|NOFRAME)?, ", r"\1|NOFRAME, ")
    source.change(
        "	MOVQ	AX, AX		// w/o this 6a miscompiles this function\n	JMP	racecall<>(SB)\n",
        "	CALL	racecall<>(SB)\n	CMPQ	AX, $1\n	JNE	ret\n	JMP	runtime·raceyield(SB)\n",
    )
    source.change(
        "	LEAQ	16(SP), RARG3	// arguments\n	JMP	racecall<>(SB)	// does not return\n",
        "	LEAQ	16(SP), RARG3	// arguments\n	CALL	racecall<>(SB)\n	CMPQ	AX, $1\n"
        "	JNE	racecallatomic_ret\n	JMP	runtime·raceyield(SB)\nracecallatomic_ret:\n	RET\n",
    )
    return source


def refused_try(function: str, receives: int) -> str:
    """The code in a select with a default after a channel could not be used."""
    return f"{function}	if !selected && c != nil {{\n		racerefused(unsafe.Pointer(c), {receives})\n	}}\n"


def channels(root: str) -> Iterator[Source]:
    source = Source(root, "runtime/chan.go")
    source.body(
        "func racesync(c *hchan, sg *sudog) {",
        f"func racesync(c *hchan, sg *sudog) {{\n	raceevent({CHANNEL_MEETS}, getg(), unsafe.Pointer(c), "
        "sg.g.racectx)\n}\n",
    )
    source.body(
        "func racenotify(c *hchan, idx uint, sg *sudog) {",
        "func racenotify(c *hchan, idx uint, sg *sudog) {\n	gp := getg()\n	if sg != nil {\n		gp = sg.g\n	}\n"
        f"	raceevent({CHANNEL_BUFFER}, gp, unsafe.Pointer(c), uintptr(idx))\n}}\n",
    )
    turn = "	if raceenabled {\n		raceturn(0)\n	}\n"
    for head in (
        "func chansend(c *hchan, ep unsafe.Pointer, block bool, callerpc uintptr) bool {\n",
        "func chanrecv(c *hchan, ep unsafe.Pointer, block bool) (selected, received bool) {\n",
        "func closechan(c *hchan) {\n",
    ):
        source.after(head, turn)
    calls = "racereadpc(c.raceaddr(), callerpc, abi.FuncPCABIInternal(chansend))\n"
    source.after(calls, "		raceturn(0)\n")
    send = "	selected = chansend(c, elem, false, getcallerpc())\n"
    source.change("	return chansend(c, elem, false, getcallerpc())\n", refused_try(send, 0) + "	return\n")
    receive = "	selected, received = chanrecv(c, elem, false)\n"
    source.change("	return chanrecv(c, elem, false)\n", refused_try(receive, 1) + "	return\n", 1, "func selectnbrecv(")
    yield source
    source = Source(root, "runtime/select.go")
    source.pattern(r"(func selectgo\(.*\{\n)", r"\1" + turn)
    source.after(
        "	if !block {\n		selunlock(scases, lockorder)\n",
        "		for _, casei := range lockorder {\n			receives := uintptr(0)\n			if int(casei) >= nsends {\n"
        "				receives = 1\n			}\n			racerefused(unsafe.Pointer(scases[casei].c), receives)\n		}\n",
    )
    yield source


def locks(root: str) -> Iterator[Source]:
    for name, work in (("race", "\n	runtime.RaceEvent(kind, addr, value)\n"), ("norace", "\n")):
        source = Source(root, f"internal/race/{name}.go")
        source.text += "\nfunc Event(kind uintptr, addr unsafe.Pointer) {" + work.replace("value", "0") + "}\n"
        source.text += "\nfunc EventOf(kind uintptr, addr unsafe.Pointer, value uintptr) {" + work + "}\n"
        source.text += "\nfunc Refused() {" + ("\n	runtime.RaceRefused()\n" if name == "race" else "\n") + "}\n"
        source.text += "\nfunc Turn() {" + ("\n	runtime.RaceTurn()\n" if name == "race" else "\n") + "}\n"
        for pass_ in ("Acquire", "Release", "ReleaseMerge") if name == "race" else ():
            source.after(f"func {pass_}(addr unsafe.Pointer) {{\n", "	runtime.RaceTurn()\n")
        yield source
    yield mutex(root)
    yield reader_locks(root)
    source = Source(root, "sync/pool.go")
    source.body(
        "func poolRaceAddr(",
        "func poolRaceAddr(x any) unsafe.Pointer {\n	return (*[2]unsafe.Pointer)(unsafe.Pointer(&x))[1]\n}\n",
    )
    yield source
    yield conditions(root)


def guarded(*lines: str) -> str:
    """Statements for a program with the recorder."""
    return "	if race.Enabled {\n" + "".join(f"		{line}\n" for line in lines) + "	}\n"


def wants(kind: int, what: str) -> str:
    """Statements of a lock's function, which makes no records itself."""
    return guarded("race.Enable()", event(kind, what), "race.Disable()")


def mutex(root: str) -> Source:
    """A mutex is one record. It makes no record inside, and no other goroutine runs between the two. Each record is
    made by the function that the program called: the innermost call is then the program's."""
    source = Source(root, "sync/mutex.go")
    begins = guarded("race.Turn()", "race.Disable()")
    for head in ("func (m *Mutex) Lock() {\n", "func (m *Mutex) TryLock() bool {\n"):
        source.after(head, begins)
    source.change(guarded("race.Acquire(unsafe.Pointer(m))"), "", 1, "func (m *Mutex) lockSlow() {")
    source.change("race.Acquire(unsafe.Pointer(m))", "race.Enable()\n		" + event(LOCK, "m"), 2)
    source.change(event(LOCK, "m"), event(TRIED_LOCK, "m"), 1, "func (m *Mutex) TryLock")
    source.change("race.Release(unsafe.Pointer(m))", f"race.Turn()\n		{event(UNLOCK, 'm')}\n		race.Disable()")
    source.change("		m.unlockSlow(new)\n	}\n", "		m.unlockSlow(new)\n	}\n" + guarded("race.Enable()"))
    slow, taken = "	m.lockSlow()\n", guarded("race.Enable()", event(LOCK, "m"))
    source.change(slow, wants(WANTED, "m") + slow + taken, 1, "func (m *Mutex) Lock() {")
    refused = guarded("race.Enable()", event(REFUSED, "m"), "race.Refused()") + "		return false\n"
    source.change("		return false\n", refused, 2, "func (m *Mutex) TryLock")
    return source


def reader_locks(root: str) -> Source:
    source = Source(root, "sync/rwmutex.go")
    readers, writers = (f"race.Acquire(unsafe.Pointer(&rw.{name}Sem))" for name in ("reader", "writer"))
    enable = "race.Enable()\n"
    for name, kind in (("RLock", READ_LOCK), ("TryRLock", TRIED_READ_LOCK)):
        source.change(readers, event(kind, "rw"), 1, f"func (rw *RWMutex) {name}(")
    for head, kind, tabs, times in (("TryRLock", READ_REFUSED, 3, 1), ("TryLock", WRITE_REFUSED, 2, 2)):
        old = f"{enable}{tabs * '	'}}}\n{tabs * '	'}return false"
        new = f"{enable}{tabs * '	'}	{event(kind, 'rw')}\n{tabs * '	'}	race.Refused()\n{old[len(enable):]}"
        source.change(old, new, times, f"func (rw *RWMutex) {head}(")
    merge = "race.ReleaseMerge(unsafe.Pointer(&rw.writerSem))"
    source.change(merge, event(READ_UNLOCK, "rw"), 1, "func (rw *RWMutex) RUnlock(")
    for name, kind in (("Lock", WRITE_LOCK), ("TryLock", TRIED_WRITE_LOCK)):
        source.change(readers, event(kind, "rw"), 1, f"func (rw *RWMutex) {name}(")
        source.change(writers, "", 1, f"func (rw *RWMutex) {name}(")
    release = "race.Release(unsafe.Pointer(&rw.readerSem))"
    source.change(release, event(WRITE_UNLOCK, "rw"), 1, "func (rw *RWMutex) Unlock(")
    for name, kind in (("reader", READ_WANTED), ("writer", WRITE_WANTED)):
        source.pattern(rf"(\t\truntime_Semacquire\w+\(&rw\.{name}Sem, false, 0\)\n)", wants(kind, "rw") + r"\1")
    other_writer = "	if rw.w.state != 0 {\n" + wants(WRITE_WANTED, "rw") + "	}\n"
    source.change("	rw.w.Lock()\n", other_writer + "	rw.w.Lock()\n", 1, "func (rw *RWMutex) Lock() {")
    for name in ("RLock()", "TryRLock() bool", "RUnlock()", "Lock()", "TryLock() bool", "Unlock()"):
        source.after(f"func (rw *RWMutex) {name} {{\n", guarded("race.Turn()"))
    return source


def conditions(root: str) -> Source:
    """A wait ends after the signal that names its number."""
    source = Source(root, "sync/cond.go")
    source.change("import (\n", 'import (\n	"internal/race"\n')

    def hook(kind: int, number: str) -> str:
        text = f"race.EventOf({kind}, unsafe.Pointer(c), uintptr({number}))"
        return f"	if race.Enabled {{\n		{text}\n	}}\n"

    source.after("	runtime_notifyListWait(&c.notify, t)\n", guarded("race.Turn()") + hook(WOKEN, "t"))
    one, all_ = "	runtime_notifyListNotifyOne(&c.notify)\n", "	runtime_notifyListNotifyAll(&c.notify)\n"
    waits = guarded("race.Turn()") + "	if c.notify.notify != c.notify.wait {\n	%s	}\n"
    source.change(one, waits % hook(SIGNALED, "c.notify.notify + 1") + one)
    source.change(all_, waits % hook(SIGNALED, "c.notify.wait") + all_)
    return source


def files(root: str) -> Iterator[Source]:
    """The lock of a file is a mutex; a file that is closed orders what is written to it; see decode/locks.go."""
    source = Source(root, "internal/poll/fd_mutex.go")
    source.change('import "sync/atomic"\n', 'import (\n	"internal/race"\n	"sync/atomic"\n	"unsafe"\n)\n')

    def hook(kind: int) -> str:
        return guarded("race.Enable()", event(kind, "mu"), "race.Disable()")

    for head in ("incref() bool", "increfAndClose() bool", "decref() bool", "rwlock(read bool) bool"):
        source.after(
            f"func (mu *fdMutex) {head} {{\n", guarded("race.Turn()", "race.Disable()", "defer race.Enable()")
        )
    source.change("			return true\n", hook(FILE_KEPT) + "return true\n", 1, "func (mu *fdMutex) incref()")
    source.change("			return true\n", hook(FILE_CLOSED) + "return true\n", 1, "func (mu *fdMutex) increfAndClose()")
    source.after("func (mu *fdMutex) decref() bool {\n", hook(FILE_KEPT))
    which = f"if read {{\n{hook(FILE_READS)}}} else {{\n{hook(FILE_WRITES)}}}\n"
    source.change("				return true\n", which + "return true\n", 1, "func (mu *fdMutex) rwlock(")
    which = f"if read {{\n{hook(FILE_READ)}}} else {{\n{hook(FILE_WRITTEN)}}}\n"
    begins = guarded("race.Turn()", "race.Disable()", "defer race.Enable()")
    source.after("func (mu *fdMutex) rwunlock(read bool) bool {\n", begins + which)
    closed = "		if old&mutexClosed != 0 {\n"
    source.change(closed, closed + hook(FILE_KEPT), 3)
    yield source
    yield from connections(root)


def connections(root: str) -> Iterator[Source]:
    """Who reads the end of a pipe comes after who closed it; who accepts comes after who connected."""
    source = Source(root, "syscall/syscall_unix.go")
    for name, work in (("Sends", "ReleaseMerge"), ("Receives", "Acquire")):
        call = f"	if race.Enabled {{\n		race.{work}(unsafe.Pointer(&ioSync))\n	}}\n"
        source.text += f"\nfunc race{name}() {{\n{call}}}\n"
    source.after("func Connect(fd int, sa Sockaddr) (err error) {\n", "	raceSends()\n")
    yield source
    source = Source(root, "syscall/zsyscall_linux_amd64.go")
    source.after("func Close(fd int) (err error) {\n", "	raceSends()\n")
    source.after("func Shutdown(fd int, how int) (err error) {\n", "	raceSends()\n")
    yield source
    source = Source(root, "syscall/syscall_linux.go")
    accepts = "	nfd, err = accept4(fd, &rsa, &len, flags)\n"
    source.after(accepts, "	raceReceives()\n")
    yield source


def scheduler(root: str) -> Iterator[Source]:
    """One processor, and a run that follows a seed."""
    source = Source(root, "runtime/debug.go")
    source.after("	if n <= 0 || n == ret", " || raceseed != 0")
    yield source
    source = Source(root, "runtime/proc.go")
    source.change(
        "	if procresize(procs) != nil {\n", "	if raceseed != 0 {\n		procs = 1\n	}\n	if procresize(procs) != nil {\n"
    )
    source.pattern(
        r"if randomizeScheduler && next && (fastrandn|randn)\(2\) == 0 \{",
        r"if raceseed != 0 || randomizeScheduler && next && \1(2) == 0 {",
    )
    source.pattern(
        r"(\t\tgp := (\w+)\.runq\[h%uint32\(len\(\w+\.runq\)\)\]\.ptr\(\)\n"
        r"\t\tif atomic\.CasRel\(&\w+\.runqhead, h, h\+1\))",
        r"""\t\tif raceseed != 0 && t-h > 1 {
            one := h + racedraw()%(t-h)
            here, there := &\2.runq[h%uint32(len(\2.runq))], &\2.runq[one%uint32(len(\2.runq))]
            *here, *there = *there, *here
        }
\1""",
    )
    source.pattern(
        r"(\t\t\t\t)(preemptone\((\w+)\)\n)(\t\t\t\t// In case of syscall)",
        r"\1if raceseed == 0 {\n\1\2\1} else {\n\1	raceforce(\3)\n\1}\n\4",
    )
    # A goroutine in a system call keeps the processor while its thread can run. So time decides nothing.
    source.pattern(
        r"(\t\t\tif runqempty\((\w+)\) && .*\+10\*1000\*1000 > now \{\n\t\t\t\tcontinue\n\t\t\t\}\n)",
        r"\1\t\t\tif raceseed != 0 && !raceblocked(\2) {\n\t\t\t\tcontinue\n\t\t\t}\n",
    )
    planned(source)
    asleep(source)
    yield from timers(root, source)
    yield source
    yield from drawn(root)


def planned(source: Source) -> None:
    """Goroutines that go on by a plan: the one whose turn it is, and none while the plan waits for the world."""
    source.after("func newproc(fn *funcval) {\n", "	if raceenabled {\n		raceturn(0)\n	}\n")
    source.change("		racefini()\n", "		raceturn(1)\n		racefini()\n", 2)
    source.pattern(
        r"(func runqget\(.*\{\n)",
        r"\1	if racefollows {\n		if gp := racenext(); gp != nil {\n			return gp, false\n		}\n	}\n",
    )
    idle = "	if racefollows {\n		if gp := raceidle(); gp != nil {\n			return gp, false, false\n		}\n		goto top\n	}\n"
    source.change("	allpSnapshot := allp\n", idle + "	allpSnapshot := allp\n")


def asleep(source: Source) -> None:
    """If all goroutines wait for ever, the runtime ends the program. With cgo, which `-race` needs, it never looks: C
    could go on. Here it looks if C has no threads."""
    source.pattern(r"if !iscgo && cgoHasExtraM\b", "if (raceseed != 0 || !iscgo) && cgoHasExtraM")
    alone = "	if raceseed != 0 && iscgo && !racealone(uintptr(mcount()-1)) {\n		return\n	}\n"
    source.after("	if run > run0 {\n		return\n	}\n", alone)
    fatal = '	fatal("all goroutines are asleep - deadlock!")\n'
    source.change(fatal, "	if raceseed != 0 {\n		racedead()\n	}\n" + fatal)


def timers(root: str, source: Source) -> Iterator[Source]:
    """While a plan is followed, timers fire only if it waits for them."""
    waits = "	if racefollows && !racetimers() {\n		return now, 0, false\n	}\n"
    old = "func checkTimers(pp *p, now int64) (rnow, pollUntil int64, ran bool) {\n"
    if old in source.text:
        source.after(old, waits)
        return
    newer = Source(root, "runtime/time.go")
    newer.pattern(r"(func \(ts \*timers\) check\(now int64\) .*\{\n)", r"\1" + waits)
    yield newer


def drawn(root: str) -> Iterator[Source]:
    """What the runtime draws by chance comes from the seed."""
    draw32 = "	if raceseed != 0 {\n		return racedraw()\n	}\n"
    draw64 = "	if raceseed != 0 {\n		return uint64(racedraw())<<32 | uint64(racedraw())\n	}\n"
    if os.path.exists(os.path.join(root, "src/runtime/rand.go")):
        source = Source(root, "runtime/rand.go")
        source.after("func cheaprand() uint32 {\n", draw32)
        source.after("func rand() uint64 {\n", draw64)
        source.after("func bootstrapRand() uint64 {\n", draw64)
        yield source
        return
    source = Source(root, "runtime/stubs.go")
    source.after("func fastrand() uint32 {\n", draw32)
    source.after("func fastrand64() uint64 {\n", draw64)
    yield source
    source = Source(root, "runtime/os_linux.go")
    draw = "	if raceseed != 0 {\n		for i := range r {\n			r[i] = byte(racedraw())\n		}\n		return\n	}\n"
    source.after("func getRandomData(r []byte) {\n", draw)
    yield source


def blocks(root: str) -> Source:
    source = Source(root, "runtime/malloc.go")
    source.change("racemalloc(x, size)", "racemalloctyped(x, size, typ)")
    return source


def sources(root: str) -> Iterator[Source]:
    yield race_source(root)
    yield assembly(root)
    yield blocks(root)
    yield from channels(root)
    yield from locks(root)
    yield from files(root)
    yield from scheduler(root)


def recorder(root: str) -> str:
    """The recorder's source, with the name of the GOROOT that its programs are built from."""
    with open(RECORDER, encoding="utf-8") as file:
        text = file.read()
    for name in HEADERS:
        with open(os.path.join(HERE, name), encoding="utf-8") as file:
            text = text.replace(f'#include "{name}"\n', file.read())
    escaped = root.replace("\\", "\\\\").replace('"', '\\"')
    return f'#define GOROOT_MARK "RACEBENCH_GOROOT={escaped}"\n{text}'


def write(root: str, folder: str, later: str) -> None:
    """Writes the changed sources and the overlay's file into a folder that will have another name later."""
    replaced, texts = {}, {}
    for source in sources(root):
        name = source.name.replace("/", "_")
        texts[name] = source.text
        replaced[source.path] = os.path.join(later, name)
    race = os.path.join(root, "src/runtime/race")
    dropped = [path for path in (os.path.join(race, name) for name in THREAD_SANITIZER) if os.path.exists(path)]
    if not dropped:
        raise UnknownGo(f"{race} has none of {', '.join(THREAD_SANITIZER)}")
    replaced |= {path: "" for path in dropped}
    replaced[os.path.join(race, "recorder.c")] = os.path.join(later, "recorder.c")
    texts["recorder.c"] = recorder(root)
    texts["overlay.json"] = json.dumps({"Replace": replaced}, indent=1)
    for name, text in texts.items():
        with open(os.path.join(folder, name), "w", encoding="utf-8") as file:
            file.write(text)
