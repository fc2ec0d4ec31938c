"""What an analyst does by chance while others work, and what is drawn after many steps."""

import asyncio
import contextlib
import difflib
import json
import os
import random
import subprocess

import traces
from browser import ALT, Browser, Json, Page
from comparing import same
from page_parts import OPEN
from sessions import session
from stage import LENGTH, NEXT, ROWS, TITLE, Screen, Stage, comes, focus, is_clean, logged, press, settled


def trace_of(seed: int) -> str:
    """Threads with a lock, variables of their own, and some that they share."""
    draw = random.Random(seed)
    lines = ["T0|fork(T1)|main.c:1"]
    for _ in range(40):
        thread = draw.randrange(3)
        if draw.random() < 0.2:
            lines += [f"T{thread}|{word}(m)|lock.c:{thread}" for word in ("acq", "rel")]
        else:
            own = [f"T{thread}|w(own{thread})|own.c:{at}" for at in range(draw.choice((1, 7)))]
            lines += own + [f"T{thread}|{draw.choice('rw')}(v{draw.randrange(3)})|work.c:{draw.randrange(9)}"]
    return "\n".join(lines) + "\n"


# How long the page may take until it shows what the program says, in seconds, and how often it must be settled.
PATIENCE, REST = 240, 3
KEYS = (
    "ArrowUp ArrowDown Enter Home End ArrowRight ArrowLeft Backspace j k 1 2 3 4 r t f w e x p b n [ ] u s v F6 Tab "
    "1 2 3 r t u Enter Escape"
).split()


class Program:
    """The program's answers about the log, by a client that makes no entry."""

    def __init__(self, program: str) -> None:
        command = [program, "session", "trace", "log", "--client", "31"]
        self.process = subprocess.Popen(command, stdin=subprocess.PIPE, stdout=subprocess.PIPE)
        assert self.process.stdin and self.process.stdout
        self.input, self.output = self.process.stdin, self.process.stdout

    def ask(self, line: str) -> list[str]:
        self.input.write(line.encode() + b"\n")
        self.input.flush()
        return self.output.readline().decode().split()

    def rows(self) -> list[tuple[str, int]]:
        """The schedules, each with its length."""
        return [(name, int(length)) for name, length, *_ in (one.split(":") for one in self.ask("? rows")[2:])]

    def next(self, name: str) -> list[tuple[int, bool, str]]:
        """Each thread's next event, whether it may come next, and the number of the cause if not."""
        answer = self.ask(f"? next {name}")
        found = [one.split(":") for one in answer[3:]] if answer[0] == "next" else []
        return sorted((int(event), not why, (why or [""])[0]) for event, *why in found)

    def entry(self, number: int) -> tuple[bool, bool]:
        """Whether an entry is taken back, and whether client 1 has an undo of it."""
        answer = self.ask(f"? entry {number}")
        is_dead = answer[3] == "undone"
        client, word = answer[6:8] if is_dead else answer[5:7]
        return is_dead, client == "1" and not is_dead and word not in ("undo", "propose")

    def end(self) -> None:
        self.input.close()
        self.process.wait()


def expected(program: Program, shown: dict[str, Json]) -> dict[str, Json]:
    """What the page has to show of what it shows: parts that are out of sight are not drawn."""
    rows = program.rows()
    is_witness, is_there = shown["open"] == "Witness", shown["open"] in dict(rows)
    events = list(map(int, program.ask(f"show {shown['open']}")[1:])) if is_there else []
    pairs = [list(map(int, one.split("-"))) for one in program.ask(f"races {shown['open']}")[1:]] if is_there else []
    made = []
    for at, (position, length, _) in enumerate(shown["rows"]):
        part = events[position : position + length]
        text = "–".join(map(str, [part[0], part[-1]][: min(len(part), length, 2)])) if part else ""
        follows = at == 0 or position == sum(shown["rows"][at - 1][:2])
        made.append([position, length, text if follows else "gap"])
    feed = []
    for text, *_ in shown["feed"]:
        states = {program.entry(number) for number in map(int, text.split("–"))}
        feed.append([text, *states.pop()] if len(states) == 1 else [text, "mixed"])
    drawn = [[at, *rows[at - 1], rows[at - 1][0] == shown["open"]] for at, *_ in shown["schedules"] if at <= len(rows)]
    return {
        **shown,
        "schedules": [[*one, one[-1]] for one in drawn],
        "rows": shown["rows"] if is_witness else made,
        "next": [[*one, one[0] in sum(pairs, [])] for one in program.next(shown["open"])] if is_there else [],
        "pair": shown["pair"] if is_witness or shown["pair"] in pairs else [*pairs, []][0],
        "feed": feed,
        "entries": int(program.ask("? rows")[1]),
        "chosen": [],
        "focus": True,
        "isWide": False,
    }


SHOWN = r"""(() => {
  const [id, all] = [(name) => document.getElementById(name), (one) => [...document.querySelectorAll(one)]];
  const number = (text) => Number(text.replaceAll(",", ""));
  const rows = all("#space .row").sort((one, other) => one.dataset.p - other.dataset.p);
  return {
    open: document.querySelector("#bar h2").textContent,
    schedules: all(".sched").sort((one, other) => one.ariaPosInSet - other.ariaPosInSet).map((line) => [
      Number(line.ariaPosInSet), line.querySelector(".sched-name").textContent,
      number(line.querySelector(".num").textContent), line.classList.contains("on"), line.ariaSelected === "true"]),
    rows: rows.map((row) => [Number(row.dataset.p), Number(row.dataset.block ?? 1),
      (row.querySelector(".box .num") ?? row.querySelector(".event")).textContent]),
    next: id("next").hidden ? [] : all("#next-list .next").map((line) => [
      number(line.querySelector(".what .num").textContent), line.classList.contains("yes"),
      line.querySelector(".reason")?.title.match(/refused 46 (\d+)/)[1] ?? "", line.classList.contains("lit")])
      .sort((one, other) => one[0] - other[0]),
    pair: id("pair").hidden ? [] : all("#pair .access > .num").map((one) => number(one.textContent)),
    feed: all("#feed .entry").map((line) => [line.querySelector(".at").textContent, line.classList.contains("dead"),
      line.querySelector(".quiet") !== null]),
    entries: number(id("feed-count").textContent || "0"),
    chosen: ["row-list", "next-list", "race-list", "stage"].filter((one) =>
      id(one).querySelectorAll("[aria-selected=true]").length > 1),
    focus: [document.activeElement].every((one) =>
      one === document.body || one.checkVisibility({ opacityProperty: true })),
    isWide: document.documentElement.scrollWidth > innerWidth,
  };
})()"""
# What can be clicked, unless something else is in front of it.
TARGETS = """[...(document.querySelector("dialog[open]") ?? document.body).querySelectorAll(
  "button, a[role=link], .race, .sched, .next, .row, .coming")].filter((one) => {
  const box = one.getBoundingClientRect();
  const hit = document.elementFromPoint(box.left + Math.min(box.width / 2, 60), box.top + box.height / 2);
  return box.width && hit && one.contains(hit); })"""


class Hand:
    """Somebody at one page, or at two of one analyst, and others beside."""

    def __init__(self, program: str, pages: list[Page], seed: int) -> None:
        self.path, self.pages, self.draw = program, pages, random.Random(seed)
        self.program = Program(program)
        self.did: list[str] = []

    async def rest(self, page: Page) -> None:
        for _ in range(REST):
            await settled(page)
            await asyncio.sleep(0.03)

    async def judge(self, page: Page) -> None:
        """Waits until the page shows what the program says."""
        loop = asyncio.get_running_loop()
        end = loop.time() + PATIENCE
        while True:
            shown = await page.run(SHOWN)
            wanted = expected(self.program, shown)
            if shown == wanted or loop.time() > end:
                break
            await asyncio.sleep(0.1)
        wrong = {key: (shown[key], wanted[key]) for key in shown if shown[key] != wanted[key]}
        assert not wrong, f"shown and wanted: {wrong}\nafter {self.did[-12:]}"

    async def others(self, page: Page) -> None:
        """A call of another client, or of this one by the program."""
        names = [name for name, _ in self.program.rows()] or ["A"]
        name = self.draw.choice(names)
        free = [event for event, may, _ in self.program.next(name) if may]
        calls = [f"add {name} {event}" for event in free] + [f"back {name}", "undo", f"swap {name} 0"]
        calls += [f"branch {name} 1 B{len(names)}", f"new N{len(names)}", f"drop {name}"][: 3 if len(names) > 2 else 2]
        call, client = self.draw.choice(calls), self.draw.choice((1, 2, 2, 3))
        self.did.append(f"{client} {call}")
        await session(self.path, client, call + "\n")

    async def key(self, page: Page) -> None:
        key = self.draw.choice(KEYS)
        alt = ALT if key in ("ArrowUp", "ArrowDown") and self.draw.random() < 0.4 else 0
        self.did.append(f"{'Alt ' if alt else ''}{key}")
        await page.key(key, alt)

    async def click(self, page: Page) -> None:
        number = await page.run(f"(window.targets = {TARGETS}).length")
        at = self.draw.randrange(number)
        self.did.append("click " + await page.run(f"window.targets[{at}].className + targets[{at}].textContent"))
        x, y = await page.run(
            f"(() => {{ const b = window.targets[{at}].getBoundingClientRect(); window.aim = null; "
            "return [b.left + Math.min(b.width / 2, 60), b.top + b.height / 2]; })()"
        )
        for kind in ("mouseMoved", "mousePressed", "mouseReleased"):
            await page.mouse(kind, x, y, **({} if kind == "mouseMoved" else {"button": "left", "clickCount": 1}))

    async def reload(self, page: Page) -> None:
        self.did.append("reload")
        await page.call("Page.reload")
        await page.until(f"{TITLE} && !!document.querySelector('#bar h2')")

    async def step(self) -> None:
        page = self.draw.choice(self.pages)
        does = self.draw.choices((self.key, self.click, self.others, self.reload), (10, 6, 3, 0.5))[0]
        for _ in range(self.draw.choice((1, 1, 4)) if does == self.key else 1):
            await does(page)
        for one in self.pages:
            await self.rest(one)
            await self.judge(one)


STEPS = 30


async def by_chance(program: str, seed: int, tabs: int) -> None:
    with contextlib.suppress(FileNotFoundError):
        os.remove("log")
    traces.write("trace", trace_of(seed))
    async with Screen(program, "trace", "log") as screen, Browser() as browser:
        links, pages = [screen.link], []
        for at in range(tabs):
            page = await browser.page(links[at], 1280, 800)
            await page.until(TITLE)
            pages.append(page)
            links.append(await page.run("import('/net.js').then((net) => net.ask('link')).then((told) => told.link)"))
        hand = Hand(program, pages, seed)
        for _ in range(STEPS):
            await hand.step()
        hand.program.end()
        for page in pages:
            for _ in range(3):
                await page.key("Escape")
            same(await page.run("document.querySelectorAll('dialog[open]').length"), 0)
            is_clean(page, screen)


async def test_one_tab_by_chance(program: str) -> None:
    for seed in (1, 2, 3, 5):
        await by_chance(program, seed, 1)


async def test_two_tabs_by_chance(program: str) -> None:
    await by_chance(program, 4, 2)


LONG = "a_variable_of_a_name_that_is_longer_than_a_line_has_room_for_if_others_are_beside_it"
TRACE = f"""T1|w({LONG})|one.c:1
T2|w({LONG})|two.c:1
T1|w(x)|one.c:2
T2|w(x)|two.c:2 < main.c:9
T1|acq(m)|one.c:3
T1|w(y)|one.c:4
T1|rel(m)|one.c:5
T2|acq(m)|two.c:3
T2|r(y)|two.c:4
T2|rel(m)|two.c:5
T3|r(y)|three.c:1
T2|join(T3)|two.c:6
"""


async def choose(page: Page) -> None:
    """Chooses the first line and the last event, once a page shows all entries and races."""
    await page.until("document.querySelectorAll('.race').length === 3")
    await settled(page)
    for pane, key in (("stage", "End"), ("next-list", "Home")):
        await focus(page, pane)
        await page.key(key)
    await settled(page)


async def asked(page: Page, what: str, of: str) -> Json:
    """What the server answers to a question of the page."""
    return await page.run(f"import('/net.js').then(({{ ask }}) => ask('{what}')).then((told) => told.{of})")


# How often two pages are compared until they are the same.
TRIES = 400
# What is drawn and not hidden, as trees of names, attributes and texts.
DRAWN = """(() => {
  const attribute = ({ name, value }) => `${name}=${value.trim()}`;
  const lines = (node, deep) => {
    const own = node.nodeType === Node.TEXT_NODE ? node.data
      : `${node.localName} ${[...node.attributes].map(attribute).sort().join(" ")}`;
    const inside = node.hidden ? [] : [...node.childNodes];
    return [`${" ".repeat(deep)}${own}`, ...inside.flatMap((inner) => lines(inner, deep + 1))];
  };
  return ["races", "bar", "lanes-head", "space", "pair", "next", "side"].flatMap((id) =>
    lines(document.getElementById(id), 0));
})()"""


async def different(page: Page, other: Page) -> list[str]:
    """Lines that are in one page alone, if they stay so while both come to rest."""
    for _ in range(TRIES):
        drawn, anew = await page.run(DRAWN), await other.run(DRAWN)
        if drawn == anew:
            return []
        await asyncio.sleep(0.05)
    return [*difflib.unified_diff(anew, drawn, "anew", "drawn", n=0, lineterm="")]


# What is open, its length, and how many rows and next events are there.
THERE = f"[{OPEN}, {LENGTH}, {ROWS}, {NEXT}]"


async def is_as_anew(stage: Stage, page: Page) -> Page:
    """Compares what is drawn with what a page draws that is opened now."""
    await choose(page)
    await press(page, "s")  # the other page begins with what this one has seen
    while await asked(page, "hello", "seen") != len(logged()):
        await asyncio.sleep(0.05)
    other = await stage.page(await asked(page, "link", "link"))
    await other.until(f"JSON.stringify({THERE}) === {json.dumps(await page.run(f'JSON.stringify({THERE})'))}")
    await choose(other)
    same(await different(page, other), [])
    return other


async def test_what_is_drawn_is_as_if_it_were_opened_now(stage: Stage, program: str) -> None:
    """After another aim, moves, steps of others and back, other names, and schedules that come and go."""
    screen, page = await stage.opened(TRACE)
    await page.until("document.querySelectorAll('.race').length === 3")
    for at, name in enumerate(("r0-1", "r2-3")):  # an aim with a long name, and one with a short one
        await page.click(".race", at)
        await page.until(f"{OPEN} === 'Witness'")
        await page.key("e")
        await page.until(f"{OPEN} === '{name}' && {NEXT} === 3")
    await focus(page, "next-list")
    await press(page, "1", "2")
    is_clean(await is_as_anew(stage, page), screen)
    traces.write("log.names", "2 Ada\n")
    calls = "new B\nadd B 0\nadd B 1\nadd B 2\nundo\npropose 2 3 0 1\nnew C\nadd r0-1 0\n"
    await session(program, 2, "add r2-3 2\n" + calls)
    await press(page, "1", "1")  # once their events are shown: a lock is held
    await settled(page)
    same(await page.run(f"[{LENGTH}, {ROWS}]"), ["5 events", 5])
    await focus(page, "stage")
    for key in ("End", "ArrowUp", "ArrowUp"):
        await page.key(key)
    await page.until("document.querySelector('#space .row.on')?.dataset.p === '2'")
    await page.key("ArrowUp", ALT)
    await comes(lambda: logged()[-1] == "1 swap r2-3 1")
    is_clean(await is_as_anew(stage, page), screen)
    await session(program, 2, "drop C\nadd B 3\nadd r2-3 6\n")
    traces.write("log.names", "2 Grace\n")
    await press(page, "1", "Backspace", "u", "2", "2")
    is_clean(await is_as_anew(stage, page), screen)
    is_clean(page, screen)
