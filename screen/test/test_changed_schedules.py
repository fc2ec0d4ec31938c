"""Steps by positions while another changes the schedule: they are for the events that the page shows."""

import random

import traces
from browser import ALT, Page
from comparing import same
from fake_programs import between
from held_answers import deaf, shows
from page_parts import OPEN
from sessions import session
from stage import (
    LENGTH,
    ORDER,
    ROWS,
    SAID,
    SAYINGS,
    Screen,
    Socket,
    Stage,
    comes,
    focus,
    is_clean,
    logged,
    press,
    press_at_once,
    settled,
)


async def not_done(page: Page, entry: int, client: int | str = 2, step: str = "not done: ") -> None:
    await page.until(f"{SAID}.startsWith('{step}entry {entry} of {client} changed A meanwhile')")


async def test_a_step_back_is_for_the_event_that_is_shown(stage: Stage, program: str) -> None:
    """The last event of the page may be the last no longer. Then the page says who changed that, and shows it."""
    traces.write("trace", traces.FREE)
    screen = await stage.screen()
    page = await deaf(stage, screen, 2)
    await page.run("hold()")
    await session(program, 2, "add A 2\n")
    await press_at_once(page, "Backspace")
    await not_done(page, 3)
    await page.run("letGo()")
    await shows(page, 3)
    same(logged()[3:], ["2 add A 2"])
    await press(page, "Backspace")  # now it is shown
    await shows(page, 2)
    await page.run("hold()")
    await session(program, 2, "back A\nadd A 5\n")  # as long as it was
    await press_at_once(page, "Backspace")
    await not_done(page, 5)
    await page.run("letGo()")
    await shows(page, 2)
    same(await page.run(ORDER), "0 5")
    same(logged()[5:], ["2 back A", "2 add A 5"])
    is_clean(page, screen)


def others(draw: random.Random, events: list[int]) -> str:
    """What another one does to the schedule."""
    free = [event for event in range(8) if event not in events]
    add = f"add A {draw.choice(free)}\n" if free else "back A\n"
    back = ["back A\n", "back A\nundo\n", f"swap A {draw.randrange(len(events) - 1)}\n"] if len(events) > 3 else []
    return draw.choice([add, add + "undo\n", *back])


async def test_a_step_back_whose_event_stays(stage: Stage, program: str) -> None:
    """What others do elsewhere, or take back, does not matter."""
    traces.write("trace", traces.FREE)
    screen = await stage.screen()
    page = await deaf(stage, screen, 4)
    for others in ("swap A 0\n", "add A 5\nundo\n", "add A 6\nback A\n", "new B\nadd B 0\n"):
        before = len(logged())
        await page.run("hold()")
        await session(program, 2, others)
        await press_at_once(page, "Backspace")
        same(logged()[before + others.count("\n") :], ["1 back A"])
        await page.run("letGo()")
        await shows(page, 3)
        await press(page, "4")
        await shows(page, 4)
    is_clean(page, screen)


async def test_steps_back_that_are_typed_ahead(stage: Stage, program: str) -> None:
    """The page's own steps do not count as those of another; those of another do."""
    traces.write("trace", traces.FREE)
    screen = await stage.screen()
    page = await deaf(stage, screen, 2)
    for key in ("3", "4", "Backspace", "Backspace", "Backspace"):
        await page.key(key)
    await shows(page, 1)
    same(logged()[3:], ["1 add A 2", "1 add A 3", *["1 back A"] * 3])
    await press(page, "2", "3")
    await shows(page, 3)
    await page.run("hold()")
    await session(program, 2, "back A\n")
    await press_at_once(page, "Backspace")
    await not_done(page, 10)
    await page.run("letGo()")
    await shows(page, 2)
    same(logged()[10:], ["2 back A"])
    is_clean(page, screen)


async def test_a_step_back_after_an_undo_of_many_entries(stage: Stage) -> None:
    """All that the page did since the schedule was drawn is its own, also what one key did in several entries."""
    traces.write("trace", "".join(f"T0|w(a)|a:{at}\n" for at in range(260)) + "T1|w(b)|b:1\n")
    screen = await stage.screen()
    page = await deaf(stage, screen, 0, 2)
    await press(page, "2")
    await shows(page, 1)
    for key in ("1", "r", "u", "Backspace"):
        await page.key(key)
    await comes(lambda: logged()[-1] == "1 back A")
    await shows(page, 1)
    same([line[:6] for line in logged()[3:]], ["1 batc"] * 5 + ["1 undo"] * 5 + ["1 back"])
    same(await page.run(ORDER), "260")
    is_clean(page, screen)


async def test_a_step_back_after_a_step_whose_answer_is_lost(stage: Stage, program: str) -> None:
    """The session ends in a step. What the log has of that is the page's own."""
    traces.write("trace", traces.FREE)
    path = between(program, back_A="add A 6")
    with open(path, encoding="ascii") as file:
        text = file.read()
    traces.write("between", text.replace("--client 2 > /dev/null", "--client 1 > /dev/null; exit 1"))
    screen = await stage.screen(program=path)
    page = await deaf(stage, screen, 2)
    await page.run("hold()")
    await press_at_once(page, "Backspace")
    assert "the program ended" in await page.run(SAID), await page.run(SAID)
    same(logged()[3:], ["1 add A 6"])  # as if the session had made it
    await press_at_once(page, "Backspace")
    same(logged()[4:], ["1 back A"])
    await page.run("letGo()")
    await shows(page, 2)
    is_clean(page, screen)


async def test_steps_back_of_an_event_on_others_that_are_not_shown(stage: Stage, program: str) -> None:
    """An event came to a schedule that another one changed before: the page takes back that event, and no other."""
    traces.write("trace", traces.FREE)
    screen = await stage.screen()
    page = await deaf(stage, screen, 2)
    await page.run("hold()")
    await session(program, 2, "add A 5\n")
    await page.run("import('/act.js').then((page) => page.act('add', { name: 'A', event: 6 }))")
    await comes(lambda: len(logged()) == 5)
    await press_at_once(page, "Backspace")
    same(logged()[3:], ["2 add A 5", "1 add A 6", "1 back A"])
    await press_at_once(page, "Backspace")
    await not_done(page, 3)
    await page.run("letGo()")
    await shows(page, 3)
    same(len(logged()), 6)
    is_clean(page, screen)


async def test_a_key_for_an_event_that_another_added(stage: Stage, program: str) -> None:
    """It is for the event that is shown, so it adds no other. The page says what the program says of that event."""
    traces.write("trace", "".join(f"T{at % 2}|w(a{at % 2})|a:{at}\n" for at in range(8)))
    screen = await stage.screen()
    page = await deaf(stage, screen, 2, threads=2)
    await page.run("hold()")
    await session(program, 2, "add A 2\n")
    await press_at_once(page, "1")
    assert (await page.run(SAID)).startswith("refused"), await page.run(SAID)
    same(logged()[3:], ["2 add A 2"])
    await page.run("letGo()")
    await shows(page, 3)
    await press(page, "1")  # now the next one is shown
    same(logged()[4:], ["1 add A 4"])
    is_clean(page, screen)


async def test_another_tab_of_the_same_analyst(stage: Stage, program: str) -> None:
    """What is done in one is no step of the other."""
    traces.write("trace", traces.FREE)
    screen = await stage.screen()
    page = await deaf(stage, screen, 2)
    await page.run("hold()")
    await session(program, 1, "add A 2\n")
    await press_at_once(page, "Backspace")
    await not_done(page, 3, "you")
    await page.run("letGo()")
    await shows(page, 3)
    same(logged()[3:], ["1 add A 2"])
    is_clean(page, screen)


async def test_a_move_is_for_the_events_that_are_shown(stage: Stage, program: str) -> None:
    traces.write("trace", traces.FREE)
    screen = await stage.screen()
    page = await deaf(stage, screen, 4)
    await focus(page, "stage")
    await page.key("Home")
    await page.until("document.querySelector('.row.on')?.dataset.p === '0'")
    await page.key("ArrowDown")
    await page.run("hold()")
    await session(program, 2, "add A 4\nswap A 1\n")
    await press_at_once(page, "ArrowDown", ALT)
    await not_done(page, 6)
    await page.run("letGo()")
    await page.until(f"{ORDER} === '0 2 1 3 4'")
    await shows(page, 5)
    same(logged()[5:], ["2 add A 4", "2 swap A 1"])
    await page.run("hold()")
    await session(program, 2, "add A 5\nswap A 0\n")  # beside it
    await press_at_once(page, "ArrowDown", ALT)  # the cursor went with its event
    await comes(lambda: logged()[9:] == ["1 swap A 2"])
    await page.run("letGo()")
    await page.until(f"{ORDER} === '2 0 3 1 4 5'")
    is_clean(page, screen)


async def test_a_drag_is_for_the_row_that_was_pressed(stage: Stage, program: str) -> None:
    """Another one moves it before the button goes up. The page says so, and moves nothing."""
    traces.write("trace", traces.FREE)
    screen = await stage.screen()
    page = await deaf(stage, screen, 5)
    x, y = await page.press("#space .row[data-p='2'] .lanes")
    await page.mouse("mouseMoved", x, y - 22, button="left", buttons=1)
    await session(program, 2, "swap A 2\n")
    await page.until(f"{ORDER} === '0 1 3 2 4'")
    await page.mouse("mouseMoved", x, y - 44, button="left", buttons=1)
    await page.release(x, y - 44)
    await not_done(page, 6)
    same(logged()[6:], ["2 swap A 2"])
    await settled(page)
    await page.drag("#space .row[data-p='3'] .lanes", 0, -66)  # what it shows now
    await page.until(f"{ORDER} === '2 0 1 3 4'")
    await settled(page)
    x, y = await page.press("#space .row[data-p='4'] .lanes")
    await page.mouse("mouseMoved", x, y - 22, button="left", buttons=1)
    await session(program, 2, "back A\n")  # the row is gone
    await shows(page, 4)
    await page.release(x, y - 22)
    await not_done(page, 8)
    same(len(logged()), 9)
    is_clean(page, screen)


ASKING = "document.getElementById('ask').open"


async def asked(page: Page) -> None:
    """Asks for the name of a branch of what is shown."""
    await settled(page)
    await page.key("b")
    await page.until(ASKING)


async def test_a_branch_is_for_the_events_that_are_shown(stage: Stage, program: str) -> None:
    """Also if they change while the page waits for the name. What comes after them does not matter."""
    traces.write("trace", traces.FREE)
    screen = await stage.screen()
    page = await deaf(stage, screen, 4)
    await asked(page)
    await session(program, 2, "swap A 1\n")
    await page.until(f"{ORDER} === '0 2 1 3'")
    await page.key("Enter")
    await not_done(page, 5)
    same((await page.run(OPEN), logged()[5:]), ("A", ["2 swap A 1"]))
    await asked(page)
    await session(program, 2, "back A\nback A\nadd A 6\nadd A 7\n")  # as long as it was
    await page.key("Enter")
    await not_done(page, 6)
    same(len(logged()), 10)
    await shows(page, 4)
    await asked(page)
    await session(program, 2, "add A 3\nadd A 4\n")
    await page.key("Enter")
    await page.until(f"{OPEN} === 'A.b' && {ROWS} === 4")
    same(logged()[12:], ["1 branch A 4 A.b"])
    is_clean(page, screen)


async def test_a_branch_while_another_runs_far(stage: Stage, program: str) -> None:
    """Thousands of events come to the schedule while the page waits for the name."""
    traces.write("trace", "".join(f"T{at // 9000}|w(a{at // 9000})|a:{at}\n" for at in range(18000)))
    screen = await stage.screen()
    page = await deaf(stage, screen, 2, 2)
    await asked(page)
    batches = [" ; ".join(f"add A {event}" for event in range(at, at + 60)) for at in range(1, 8941, 60)]
    await session(program, 2, "".join(f"batch {batch}\n" for batch in batches))
    await settled(page)
    same(await page.run(LENGTH), "8,942 events")
    await page.key("Enter")
    await page.until(f"{OPEN} === 'A.b' && {ROWS} === 2")
    same(logged()[-1], "1 branch A 2 A.b")
    is_clean(page, screen)


async def test_a_branch_of_another_schedule_of_that_name(stage: Stage, program: str) -> None:
    traces.write("trace", traces.FREE)
    screen = await stage.screen()
    page = await deaf(stage, screen, 2)
    await session(program, 2, "new B\nadd B 0\nadd B 5\n")
    await asked(page)
    await session(program, 2, "batch drop A ; branch B 2 A\n")
    await page.key("Enter")
    await not_done(page, 6)
    same(len(logged()), 7)
    await page.until(f"{ORDER} === '0 5'")
    is_clean(page, screen)


async def test_another_is_faster_than_the_look(stage: Stage, program: str) -> None:
    """The log grows between the screen's look at it and the program's own: then the step is taken back."""
    traces.write("trace", traces.FREE)
    path = between(program, back_A="add A 2", swap_A_1="swap A 0", branch_A_3_X="swap A 1")
    screen = await stage.screen(program=path)
    page = await deaf(stage, screen, 2)
    await press(page, "Backspace")
    await not_done(page, 3)
    assert " · entry 4 was made and taken back" in await page.run(SAID), await page.run(SAID)
    await shows(page, 3)
    await focus(page, "stage")
    await settled(page)
    await page.key("End")
    await page.until("document.querySelector('.row.on')?.dataset.p === '2'")
    await press_at_once(page, "ArrowUp", ALT)
    await not_done(page, 6)
    await page.until(f"{ORDER} === '1 0 2'")
    await asked(page)
    await page.run("document.getElementById('ask-input').value = 'X'")
    await page.key("Enter")
    await not_done(page, 9)
    await page.until(f"{ORDER} === '1 2 0' && document.querySelectorAll('.sched').length === 1")
    same(
        logged()[3:],
        ["2 add A 2", "1 back A", "1 undo 4", "2 swap A 0", "1 swap A 1", "1 undo 7"]
        + ["2 swap A 1", "1 branch A 3 X", "1 undo 10"],
    )
    is_clean(page, screen)


async def test_a_step_that_stays_made(stage: Stage, program: str) -> None:
    """Another one rests on it before it can be taken back. The page says so."""
    traces.write("trace", traces.FREE)
    path = between(program, back_A="add A 2", undo_4="add A 7")
    screen = await stage.screen(program=path)
    page = await deaf(stage, screen, 2)
    await press(page, "Backspace")
    await not_done(page, 3, step="done on other events: ")
    assert " · entry 4 stays: others rest on it" in await page.run(SAID), await page.run(SAID)
    await page.until(f"{ORDER} === '0 1 7'")
    same(logged()[3:], ["2 add A 2", "1 back A", "2 add A 7"])
    is_clean(page, screen)


async def test_a_refusal_of_what_is_not_shown(program: str) -> None:
    """A move that is refused since another was faster says that, and no reason for other events."""
    traces.write("trace", "T0|w(a)|a:0\nT1|w(b)|a:1\nT1|w(b)|a:2\nT2|w(c)|a:3\nT3|w(b)|a:4\n")
    path = between(program, swap_A_1="swap A 2")
    async with Screen(path, "trace", "log") as screen, Socket(screen) as socket:
        await session(program, 1, "new A\nadd A 0\nadd A 1\nadd A 3\nadd A 2\n")
        await comes(lambda: len(logged()) == 5)
        answer = await socket.call(do="swap", name="A", position=1, by=1, shown={"log_length": 5, "own": []})
        same(answer["changed"], {"entry": 5, "client": 2, "name": "A"})
        same((answer["moved"], answer["made"], "stop" in answer), (0, [], False))
        same(logged()[5:], ["2 swap A 2"])


async def test_what_a_page_may_not_say_that_it_showed(program: str) -> None:
    """It gets a fault, and nothing is done."""
    traces.write("trace", traces.FREE)
    async with Screen(program, "trace", "log") as screen, Socket(screen) as socket:
        await session(program, 1, "new A\nadd A 0\n")
        for shown in (
            1,
            "x",
            [],
            {"log_length": 2},
            {"own": []},
            {"log_length": -1, "own": []},
            {"log_length": 2, "own": [True]},
        ):
            answer = await socket.call(do="back", name="A", shown=shown)
            assert "mistake" in answer, (shown, answer)
        same(logged(), ["1 new A", "1 add A 0"])
        answer = await socket.call(do="back", name="A", shown={"log_length": 10**9, "own": [10**9]})
        same(logged()[2:], ["1 back A"])


def exchange(events: list[int], at: int) -> None:
    events[at : at + 2] = reversed(events[at : at + 2])


class Log:
    """What the log leaves of schedule A, and the event that each entry took from it; none if it added one."""

    def __init__(self) -> None:
        self.events: list[int] = []
        self.popped: dict[int, int | None] = {}
        self.lines = 0

    def take(self, fields: list[str]) -> None:
        number, self.lines = self.lines, self.lines + 1
        if fields[0] == "undo":
            taken = self.popped[int(fields[1])]
            fields = ["back", "A"] if taken is None else ["add", "A", str(taken)]
        if fields[0] == "back":
            self.popped[number] = self.events.pop()
        elif fields[0] == "add":
            self.popped[number] = None
            self.events.append(int(fields[2]))
        elif fields[0] == "swap":
            exchange(self.events, int(fields[2]))


class Judge:
    """Each step of the page is for the same events of what it showed, with its own steps since, and of the log."""

    def __init__(self) -> None:
        self.log, self.done = Log(), 0
        self.judge([])

    def judge(self, shown: list[int]) -> None:
        for line in logged()[self.log.lines :]:
            client, *fields = line.split()
            if client == "1" and fields[0] in ("back", "swap") and self.log.lines > 5:
                self.step(shown, fields)
            elif client == "1" and fields[0] == "add":
                shown.append(int(fields[2]))
            self.log.take(fields)

    def step(self, shown: list[int], fields: list[str]) -> None:
        at = int(fields[2]) if fields[0] == "swap" else -1
        wanted, found = [events[at:][:2] for events in (shown, self.log.events)]
        same(found, wanted)
        self.done += 1
        if fields[0] == "swap":
            exchange(shown, at)
        else:
            shown.pop()


KEYS = (["Backspace"], ["ArrowUp"], ["ArrowDown"], ["6", "Backspace"], ["Backspace", "Backspace"])


async def presses(page: Page, keys: list[str], is_held: bool) -> tuple[list[int], bool]:
    """Presses keys and waits for the first answer; gives what was shown before, and whether another was faster."""
    texts = await page.run(SAYINGS)
    for number, key in enumerate(keys):
        if key.startswith("Arrow"):
            await page.key("ArrowUp")  # an event is chosen
        await page.key(key, ALT if key.startswith("Arrow") else 0)
        if number == 0:
            shown = await page.run("window.atPress")
    await page.until(f"{SAYINGS} !== {texts!r}")
    is_faster = "meanwhile" in await page.run(SAID)
    if is_held:
        await page.run("letGo()")
    await settled(page)
    return shown, is_faster


DRAWN_EVENTS = (
    "[...document.querySelectorAll('#space .row')].sort((one, other) => one.dataset.p - other.dataset.p)"
    ".map((row) => Number(row.querySelector('.event').textContent))"
)


async def test_steps_by_chance_while_another_works(stage: Stage, program: str) -> None:
    """Whether the page knows of what the other did or not, each of its steps is for the events that it showed."""
    traces.write("trace", traces.FREE)
    draw, faster = random.Random(7), 0
    screen = await stage.screen()
    page = await deaf(stage, screen, 5)
    judge = Judge()
    await page.run(f"addEventListener('keydown', () => {{ window.atPress = {DRAWN_EVENTS}; }}, true)")
    await focus(page, "stage")
    for _ in range(40):
        is_held = draw.random() < 0.7
        if is_held:
            await page.run("hold()")
        await session(program, 2, others(draw, judge.log.events))
        keys = draw.choice(KEYS)
        shown, is_faster = await presses(page, keys if is_held else keys[-1:], is_held)
        faster += is_faster
        judge.judge(shown)
        await page.until(f"{DRAWN_EVENTS}.join() === {','.join(map(str, judge.log.events))!r}")
        await shows(page, len(judge.log.events))
    assert judge.done > 5 and faster > 5, (judge.done, faster)
    is_clean(page, screen)
