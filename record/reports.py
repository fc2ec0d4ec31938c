"""Reads reports of data races and of lock orders: ThreadSanitizer's text as gcc, clang and rustc print it, that of Go's
race detector, and Helgrind's and DRD's text and XML.

Of each report the accesses are kept, and of each access whether it reads or writes and its calls: function, path,
line. Of a lock order these are the locks that were taken last, each with the one that its thread took before.
"""
from __future__ import annotations

import re
import xml.etree.ElementTree as trees
from collections import Counter
from collections.abc import Iterator

# A call of a stack: its function, its path and its line; 0 if the line is not known.
Call = tuple[str, str, int]

# Calls in these are none of the program: the sanitizer's own, and those of the libraries of C++, Rust and Go. A folder
# of another author's package of Go begins with a host's name, which has a dot.
NOT_THE_PROGRAMS = re.compile(
    r"libsanitizer/|sanitizer_common/|/compiler-rt/|<null>|/include/(.*/)?c\+\+/|/rustlib/src/|/rustc[-/][^/]+/library/"
    r"|/go(?:-?[\d.]+)?/src/(?![^/]*\.)"
)
TSAN_HEAD = re.compile(r"WARNING: ThreadSanitizer: (.+?) \(pid=\d+\)")
TSAN_ACCESS = re.compile(
    r"  (?:Previous )?(?:atomic )?(read|write) of size \d+ at 0x[0-9a-f]+ by (.+?)(?: \(.*\))?:$", re.IGNORECASE
)
TSAN_LOCK = re.compile(r"  Mutex .+ acquired here while holding mutex .+? in (.+?)(?: \(.*\))?:$")
TSAN_BEFORE = re.compile(r"  Mutex .+ previously acquired by the same thread here:$")
TSAN_FRAME = re.compile(r"    #\d+ (.+)$")
TSAN_MODULE = re.compile(r"( \([^()]*\+0x[0-9a-f]+\)| \(BuildId: [^()]*\))+$")
TSAN_PLACE = re.compile(r"^(.+?):(\d+)(?::\d+)?$")
# What may follow the arguments of a function of C++.
AFTER_ARGUMENTS = re.compile(r"(?: const| volatile| &&?| \[[^\]]*\])* ")
GO_HEAD = "WARNING: DATA RACE"
GO_RULE = "=" * 18
GO_ACCESS = re.compile(r"(?:Previous )?(read|write) at 0x[0-9a-f]+ by (main goroutine|goroutine \d+):$", re.IGNORECASE)
GO_FUNCTION = re.compile(r"  (\S.*)\(\)$")
GO_PLACE = re.compile(r"      (.+):(\d+) \+0x[0-9a-f]+$")
GO_VARIABLE = re.compile(r"Global var (\S+) of size ")
VALGRIND_LINE = re.compile(r"^(?:==\d+==|--\d+--) ?(.*)$")
VALGRIND_ACCESS = re.compile(
    r"(Possible data race during|This conflicts with a previous|Conflicting) (read|write|load|store)\b"
    r"(?:.*? by (thread #?\d+))?"
)
VALGRIND_ORDER = re.compile(r"(Thread #\d+): lock order \"")
# The first lock of a thread, and its second one.
VALGRIND_LOCK = re.compile(
    r" ?(Observed \(incorrect\) order is: |Required order was established by |followed by a later )acquisition of lock"
)
VALGRIND_FRAME = re.compile(r" +(?:at|by) 0x[0-9A-Fa-f]+: (.*)$")
VALGRIND_PLACE = re.compile(r"^(.*) \((.+):(\d+)\)$")
VARIABLE = re.compile(
    r"(?:Location is global '([^']+)'|inside (?:global|local) var \"([^\"]+)\"|"
    r"inside ([\w.\[\]>-]+),? a |Location 0x\w+ is \d+ bytes inside ([\w.\[\]]+)[, ])"
)
RACES_OF_TSAN = ("data race", "heap-use-after-free", "race on")
LOCK_ORDER = "lock-order-inversion"


class Unreadable(Exception):
    """Why a text is no report, or only a part of one."""


class Access:
    def __init__(self, word: str, thread: str | None) -> None:
        self.word = {"load": "read", "store": "write"}.get(word.lower(), word.lower())
        self.thread = thread or ""
        self.calls: list[Call] = []
        # Of a lock, the one that its thread took before, if the report has it.
        self.before: Access | None = None

    def places(self) -> list[Call]:
        """The calls in the program's own code, the innermost first."""
        return [call for call in self.calls if call[2] and not NOT_THE_PROGRAMS.search(call[1])]


class Report:
    """A data race or a lock order that a tool told of, and the line where its report begins."""

    def __init__(self, kind: str, line: int) -> None:
        self.kind, self.line, self.variable, self.ended = kind, line, "", False
        self.accesses: list[Access] = []
        self.first_lock: Access | None = None

    @property
    def is_lock_order(self) -> bool:
        return self.kind.startswith("lock")

    def add(self, access: Access) -> Access:
        self.accesses.append(access)
        return access

    def lock(self, text: str) -> Access | None:
        """What a line of Helgrind about a lock order begins: the first lock of a thread, or its second one."""
        began = VALGRIND_LOCK.match(text)
        if not began:
            return None
        access = Access("lock", None)
        if began[1].startswith("followed"):
            access.before = self.first_lock
            return self.add(access)
        self.first_lock = access
        return access

    def name_variable(self, text: str) -> None:
        found = VARIABLE.search(text)
        if found and not self.variable:
            self.variable = re.split(r"[.\[+]", next(part for part in found.groups() if part))[0]


class Reports:
    """What was read: the reports, how many there were of what is no data race, and what was cut."""

    def __init__(self) -> None:
        self.all: list[Report] = []
        self.others: Counter[str] = Counter()
        self.cut = ""


def function_end(text: str) -> int:
    """Where the function of a frame ends, before the blank and the path: both may have blanks. Arguments follow a name
    without a blank. Without arguments, a name has no blank."""
    if " /" in text:
        return text.index(" /")
    depth = 0
    for at, letter in enumerate(text):
        if letter == "(" and (depth or text[at - 1 : at].strip()):
            depth += 1
        elif letter == ")" and depth:
            depth -= 1
            after = AFTER_ARGUMENTS.match(text, at + 1)
            if not depth and after:
                return after.end() - 1
    return text.find(" ")


def tsan_call(text: str) -> Call:
    found = TSAN_PLACE.match(TSAN_MODULE.sub("", text))
    end = function_end(found[1]) if found else -1
    if not found or end <= 0:
        return text.split(" ")[0], "<null>", 0
    return found[1][:end], found[1][end + 1 :], int(found[2])


def tsan_access(report: Report, line: str) -> Access | None:
    """The access or lock that a line of ThreadSanitizer begins."""
    if began := TSAN_ACCESS.match(line):
        return report.add(Access(began[1], began[2]))
    if began := TSAN_LOCK.match(line):
        return report.add(Access("lock", began[1]))
    if TSAN_BEFORE.match(line) and report.accesses:
        report.accesses[-1].before = Access("lock", None)
        return report.accesses[-1].before
    return None


def read_tsan(lines: list[str]) -> Reports:
    """ThreadSanitizer's text: a report begins with its warning and ends with its summary."""
    found = Reports()
    report: Report | None = None
    access: Access | None = None
    for number, line in enumerate(lines, start=1):
        head = TSAN_HEAD.search(line)
        if head:
            report, access = Report(head[1], number), None
            is_known = head[1].startswith((*RACES_OF_TSAN, LOCK_ORDER))
            (found.all.append(report) if is_known else found.others.update([head[1]]))
        elif report and line.startswith("SUMMARY: ThreadSanitizer:"):
            report.ended, report = True, None
        elif report:
            began, call = tsan_access(report, line), TSAN_FRAME.match(line)
            if began:
                access = began
            elif call and access:
                access.calls.append(tsan_call(call[1]))
            elif not line.strip():
                access = None
            report.name_variable(line)
    return found


def read_go(lines: list[str]) -> Reports:
    """The text of Go's race detector: a report begins with its warning and ends with a line of equal signs. A frame has
    two lines: the function, then the file and line."""
    found = Reports()
    report: Report | None = None
    access: Access | None = None
    for number, line in enumerate(lines, start=1):
        if line == GO_HEAD:
            report, access = Report("data race", number), None
            found.all.append(report)
        elif report and line == GO_RULE:
            report.ended, report = True, None
        elif report:
            began, function, place = GO_ACCESS.match(line), GO_FUNCTION.match(line), GO_PLACE.match(line)
            if began:
                access = Access(began[1], began[2])
                report.accesses.append(access)
            elif access and function:
                access.calls.append((function[1], "<null>", 0))
            elif access and place and access.calls:
                access.calls[-1] = (access.calls[-1][0], place[1], int(place[2]))
            elif not line.strip():
                access = None
            elif variable := GO_VARIABLE.match(line):
                report.variable = variable[1]
    return found


def read_valgrind(lines: list[str]) -> Reports:
    """Helgrind's and DRD's text. A report ends with an empty line after its last access; one that has none is cut."""
    found = Reports()
    report: Report | None = None
    access: Access | None = None
    for number, whole in enumerate(lines, start=1):
        part = VALGRIND_LINE.match(whole)
        if not part:
            continue
        began, call = VALGRIND_ACCESS.match(part[1]), VALGRIND_FRAME.match(part[1])
        order = VALGRIND_ORDER.match(part[1])
        if order or (began and began[1] != "This conflicts with a previous"):
            report = Report("lock order" if order else "data race", number)
            found.all.append(report)
        lock = report.lock(part[1]) if report and report.is_lock_order else None
        if report and (began or lock):
            access = report.add(Access(began[2], began[3])) if began else lock
            report.ended = False
        elif call and access:
            place = VALGRIND_PLACE.match(call[1])
            access.calls.append((place[1], place[2], int(place[3])) if place else (call[1].split(" (")[0], "", 0))
        elif report:
            if access and access.calls:
                access, report.ended = None, True
            report.name_variable(part[1])
    return found


def xml_calls(stack: trees.Element) -> Iterator[Call]:
    for frame in stack.findall("frame"):
        folder, name, line = frame.findtext("dir", ""), frame.findtext("file", ""), frame.findtext("line", "0")
        yield frame.findtext("fn", "???"), (folder + "/" if folder else "") + name, int(line) if line.isdigit() else 0


def xml_report(error: trees.Element, line: int) -> Report:
    """The report of an `error`: each text that names an access or a lock, with the stack after it."""
    report = Report("lock order" if error.findtext("kind") == "LockOrder" else "data race", line)
    access: Access | None = None
    report.ended = True
    for part in error:
        text = part.findtext("text", "") if part.tag in ("xwhat", "xauxwhat") else part.text or ""
        began = VALGRIND_ACCESS.match(text.strip())
        if part.tag in ("what", "xwhat", "auxwhat", "xauxwhat"):
            order = VALGRIND_ORDER.match(text.strip())
            access = report.add(Access(began[2], began[3])) if began else report.lock(text.strip())
            access = report.add(Access("lock", order[1])) if order else access
            report.name_variable(text)
        elif part.tag == "stack" and access:
            access.calls += xml_calls(part)
            access = None
    return report


def read_xml(text: str) -> Reports:
    """Valgrind's XML as far as it is whole. Texts that define words of their own are not read."""
    if re.search(r"<!(DOCTYPE|ENTITY)", text):
        raise Unreadable("this XML defines entities, and valgrind's does not")
    found, parser = Reports(), trees.XMLPullParser(["end"])
    try:
        parser.feed(text)
        for _, element in parser.read_events():
            take_error(found, element)
        parser.close()
    except trees.ParseError as error:
        for _, element in parser_events(parser):
            take_error(found, element)
        found.cut = f"the XML is cut or damaged: {error}"
    return found


def parser_events(parser: trees.XMLPullParser) -> Iterator[tuple[str, trees.Element]]:
    try:
        yield from parser.read_events()
    except trees.ParseError:
        return


def take_error(found: Reports, element: trees.Element) -> None:
    if element.tag != "error":
        return
    kind = element.findtext("kind", "?")
    if kind in ("Race", "ConflictingAccess", "LockOrder"):
        found.all.append(xml_report(element, len(found.all) + 1))
    else:
        found.others[kind] += 1


def read(text: str) -> Reports:
    """The reports in a text of one of the tools."""
    if re.search(r"<valgrindoutput>|<protocoltool>", text):
        found = read_xml(text)
    elif "WARNING: ThreadSanitizer:" in text:
        found = read_tsan(text.splitlines())
    elif re.search(f"^{GO_HEAD}$", text, re.MULTILINE):
        found = read_go(text.splitlines())
    elif re.search(r"^==\d+==", text, re.MULTILINE):
        found = read_valgrind(text.splitlines())
    else:
        raise Unreadable("this is no report of ThreadSanitizer, Go, Helgrind or DRD")
    cut = [report for report in found.all if not report.ended or not report.accesses]
    if cut and not found.cut:
        found.cut = f"the report that begins in line {cut[0].line} is cut"
    return found
