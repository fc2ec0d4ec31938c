"""Keys: all that can be done by them alone, twins, held keys, and keys that have nothing to do."""

import os

import traces
from browser import ALT, CAPS, CONTROL, META, SHIFT
from comparing import same
from page_parts import AT_ONCE, CHOSEN_THREAD, NEXT_LENGTH, OPEN
from sessions import session
from stage import LENGTH, NEXT, ROWS, SAID, TITLE, Stage, comes, focus, is_clean, logged, new, press, settled


async def test_the_keyboard_alone(stage: Stage) -> None:
    """A race is found, its schedule rebuilt and proposed, with no mouse."""
    screen, page = await stage.opened(traces.COUNT)
    await page.until("document.querySelectorAll('.race').length === 1")
    await page.key("F6")
    same(await page.run("document.activeElement.id"), "race-list")
    await page.key("ArrowDown")
    await page.until("!document.getElementById('pair').hidden")
    await page.key("e")
    await page.until(f"{NEXT} === 3")
    await page.key("F6")
    await page.key("F6")
    same(await page.run("document.activeElement.id"), "next-list")
    await press(page, "t")  # the main thread: both forks
    await page.key("j")
    await press(page, "t")
    await page.key("j")
    await press(page, "t", "p")
    same(logged()[-1], "1 propose 7 12 0 1 2 3 4 5 6 8 9 10 11")
    await page.key("?")
    await page.until("document.getElementById('help').open")
    await page.key("Escape")
    await page.until("!document.getElementById('help').open")
    is_clean(page, screen)


TWO = "".join(f"T{thread}|w(a{thread})|a:{at}\n" for at in range(60) for thread in (1, 2))


async def test_keys_that_have_a_twin(stage: Stage) -> None:
    """j and k, Home and End, Control Z, and the arrow that closes what the other one opened."""
    screen, page = await stage.opened(TWO.replace("T2", "T3") + "T2|w(b)|b:1\n")
    await new(page, 3)
    for key, chosen in (("End", 2), ("k", 1), ("k", 0), ("k", 0), ("j", 1), ("Home", 0), ("ArrowUp", 0)):
        await page.key(key)
        await page.until(f"{CHOSEN_THREAD} === '{chosen}'")
    await page.key("ArrowRight")
    await page.until("document.querySelectorAll('.coming').length === 40")
    await page.key("ArrowLeft")
    await page.until("document.querySelectorAll('.coming').length === 0")
    for key in ("1", "b", "u"):  # with this key they are the system's
        await page.key(key, META)
    await press(page, "1")
    await page.until(f"{ROWS} === 1")
    await page.key("z", CONTROL)
    await page.until(f"{ROWS} === 0")
    same(logged(), ["1 new A", "1 add A 0", "1 undo 1"])
    await new(page, 3, "B")
    for sign, name in (("[", "A"), ("]", "B")):  # some keyboards have them with Alt
        await page.key(sign, ALT)
        await page.until(f"{OPEN} === '{name}'")
    await page.key("/", ALT)
    await page.until("document.activeElement.id === 'race-filter'")
    is_clean(page, screen)


async def test_a_key_that_is_held(stage: Stage) -> None:
    """It goes on no longer than it is held: repeats that come while a step is under way are left out."""
    screen, page = await stage.opened(TWO)
    await new(page, 2)
    event = {"key": "1", "windowsVirtualKeyCode": 49, "text": "1"}
    await page.call("Input.dispatchKeyEvent", type="keyDown", **event)
    steps = await page.run(
        "(() => { const key = (repeat) => new KeyboardEvent('keydown', { key: '1', bubbles: true, repeat }); "
        "const list = document.getElementById('next-list'); list.dispatchEvent(key(false)); "
        "for (let at = 0; at < 30; at++) list.dispatchEvent(key(true)); return 1; })()"
    )
    same(steps, 1)
    await press(page, "2")
    await page.until(f"{ROWS} === 3")
    same(logged(), ["1 new A", "1 add A 0", "1 add A 2", "1 add A 1"])
    is_clean(page, screen)


async def test_keys_with_nothing_to_do_say_so(stage: Stage) -> None:
    screen, page = await stage.opened(traces.COUNT)
    await page.until("document.querySelectorAll('.race').length === 1")
    for key in "ewx":
        await press(page, key)
        same(await page.run(SAID), "open a race or a deadlock first: it is the aim")
    for key in ("r", "t", "f", "p", "b", "Enter", "Backspace"):
        await press(page, key)
        same(await page.run(SAID), "no schedule is open: n makes one")
    await page.click(".race")
    await page.until("!document.getElementById('pair').hidden")
    await page.run("document.activeElement.blur()")
    for key in ("r", "t", "f", "p", "b", "Enter", "Backspace"):
        await press(page, key)
        same(await page.run(SAID), "this is a witness: w works on it, e starts empty")
    await new(page, 3)
    await press(page, "p")
    same(await page.run(SAID), "no pair is side by side in this schedule")
    await page.key("R", CAPS)  # the caps lock is on
    await page.until(f"{ROWS} === 2")
    same(logged(), ["1 new A", "1 batch add A 0 ; add A 1"])
    await page.click("#bar button", 1)  # drop
    await page.until("document.querySelector('#bar h2').textContent === 'No schedule'")
    await focus(page, "row-list")
    for key in ("ArrowRight", "ArrowLeft", "ArrowDown", "ArrowUp", "5", "Home", "End", "[", "]"):
        await page.key(key)
    await page.run("document.activeElement.blur()")
    for key in ("ArrowRight", "ArrowLeft", "ArrowDown", "ArrowUp", "5", "Home", "End", "[", "]"):
        await page.key(key)
    await press(page, "r")
    same(await page.run(SAID), "no schedule is open: n makes one")
    is_clean(page, screen)


async def test_keys_say_why_they_do_nothing(stage: Stage) -> None:
    screen, page = await stage.opened(traces.COUNT)
    await page.until("document.querySelectorAll('.race').length === 1")
    for key in ("1", "ArrowRight"):
        await press(page, key)
        same(await page.run(SAID), "no schedule is open: n makes one")
    await press(page, "]")
    same(await page.run(SAID), "there is no schedule: n makes one")
    await new(page, 3)
    for key, note in (
        ("9", "no thread has the digit 9"),
        ("2", "T1 may not come next: not begun: 0 T0 fork T1 has to come first"),
        ("Enter", "refused: not begun: 0 T0 fork T1 has to come firstrefused 46 23 not forked"),
        ("v", "no source: start screen with --source DIR"),
    ):
        await press(page, key)
        same((await page.run(SAID))[: len(note)], note)
    await press(page, "1", "r")
    await press(page, "2", "r")
    await press(page, "2")
    same(await page.run(SAID), "T1 is at its end")
    await focus(page, "stage")
    await page.key("Enter")
    await page.until(f"{SAID}.startsWith('choose an event first')")
    await press(page, "u")
    for up in ("ArrowUp", "ArrowDown"):
        await page.key(up, ALT)
        await page.until(f"{SAID}.startsWith('choose an event first')")
        await press(page, "s")
    await page.key("Home")
    await page.until("document.querySelector('.row.on')?.dataset.p === '0'")
    await press(page, "Enter")
    same(await page.run(SAID), "it is neither a block nor a read of a write")
    is_clean(page, screen)


async def test_fields_let_go_by_keys(stage: Stage) -> None:
    """F6 leads from a field to the next pane. After a name that cannot be one, the field stays open."""
    screen, page = await stage.opened(traces.COUNT)
    await page.until("document.querySelectorAll('.race').length === 1")
    for modifiers, there in ((0, "race-list"), (SHIFT, "feed")):
        await page.key("/")
        await page.key("F6", modifiers)
        same(await page.run("document.activeElement.id"), there)
    await page.run("document.activeElement.blur()")
    await page.key("F6", SHIFT)
    same(await page.run("document.activeElement.id"), "feed")
    await page.key("n")
    await page.until("document.getElementById('ask').open")
    for name in ("a b", "ä", "x" * 65, " "):
        await page.run("document.getElementById('ask-input').select()")
        await page.type(name)
        await page.key("Enter")
        same(await page.run("document.getElementById('ask').open"), True)
    await page.run("document.getElementById('ask-input').select()")
    await page.type("x" * 64)
    await page.key("Enter")
    await page.until(f"{NEXT} === 3")
    await page.key("b")
    await page.until("document.getElementById('ask').open")
    await page.key("Enter")
    await page.until("document.querySelectorAll('.sched').length === 2")
    same(logged(), [f"1 new {'x' * 64}", f"1 branch {'x' * 64} 0 {'x' * 62}.b"])
    is_clean(page, screen)


KEYS = "↑ ↓ j k ↵ 1–9 ⌫ r t f → ← Alt b v w e x p n [ ] u Ctrl z s F6 Shift Home End / ? Esc"


async def test_keys_are_read_from_their_beginning(stage: Stage) -> None:
    """Each is listed. In a low window the list is scrolled, and its first lines are in sight at first."""
    traces.write("trace", traces.FREE)
    screen = await stage.screen()
    page = await stage.page(screen.link, 720, 300)
    await page.until(TITLE)
    await page.key("?")
    for _ in range(2):
        await page.until("document.getElementById('help').open")
        box = "(({ scrollHeight, clientHeight, scrollTop }) => [scrollHeight > clientHeight, scrollTop])"
        same(await page.run(f"{box}(document.getElementById('help'))"), [True, 0])
        keys = await page.run("[...document.querySelectorAll('#help .key kbd')].map((key) => key.textContent)")
        same(set(" ".join(keys).split()), set(KEYS.split()))
        await page.run("document.getElementById('help').scrollTop = 1e6")
        await page.run("document.getElementById('help').close()")
        await page.run("document.getElementById('keys').click()")
    is_clean(page, screen)


async def test_links_by_the_keyboard(stage: Stage, program: str) -> None:
    """The links of the log are reached by Tab and followed by Enter, as those that have an address."""
    traces.write("trace", traces.COUNT)
    await session(program, 2, "new B\npropose 7 12 0 2 3 4 5 6 1 8 9 10 11\n")
    await session(program, 1, "new A\nundo\nnew C\n")
    screen, page = await stage.opened()
    await page.until("document.querySelectorAll('.entry').length === 5")
    await settled(page)
    await focus(page, "feed")
    found: list[str] = []
    while len(found) < 6:  # both ends of the log are links or buttons
        await page.key("Tab")
        found.append(await page.run("document.activeElement.localName + ' ' + document.activeElement.textContent"))
    same([one for one in found if one.startswith("a ")], ["a C", "a 2", "a A", "a p0", "a B"])
    await page.key("Enter")
    await page.until(f"{OPEN} === 'B'")
    await page.run("[...document.querySelectorAll('.entry a')].find((a) => a.textContent === 'p0').focus()")
    await page.key("Enter")
    await page.until("document.getElementById('ask').open")
    await page.key("Escape")
    await page.until("!document.getElementById('ask').open")
    roles = "[...document.querySelectorAll('.entry a')].every((a) => a.getAttribute('role') === 'link')"
    same(await page.run(roles), True)
    same(len(logged()), 5)  # Enter opened the dialog, and did not end it
    is_clean(page, screen)


async def test_escape_everywhere(stage: Stage) -> None:
    """It closes what is open, and does nothing else."""
    traces.write("trace", traces.COUNT)
    os.mkdir("source")
    traces.write("source/count.c", "\n".join(f"line {number};" for number in range(1, 60)))
    screen, page = await stage.opened(None, "--source", "source")
    await new(page, 3)
    for key, box in (("n", "ask"), ("?", "help"), ("b", "ask")):
        await page.key(key)
        await page.until(f"document.getElementById('{box}').open")
        await page.key("Escape")
        await page.until(f"!document.getElementById('{box}').open")
    await page.click("#link")
    await page.until("document.getElementById('help').open")
    await page.key("Escape")
    await page.until("!document.getElementById('help').open")
    await page.click("#next-list .code .place")
    await page.until("!document.getElementById('peek').hidden")
    await page.key("Escape")
    await page.until("document.getElementById('peek').hidden")
    await focus(page, "next-list")
    await press(page, "1")
    await page.until(f"{ROWS} === 1")
    await focus(page, "stage")
    await page.key("Home")
    x, y = await page.press("#space .row .lanes")
    await page.mouse("mouseMoved", x, y - 44, button="left", buttons=1)
    await page.key("Escape")
    await page.until("!document.querySelector('.dragged')")
    await page.release(x, y - 44)
    await press(page, "1")
    same(logged(), ["1 new A", "1 add A 0", "1 add A 1"])
    is_clean(page, screen)


async def test_keys_behind_the_choice_of_a_schedule(stage: Stage) -> None:
    """Enter in the list of schedules leads to what may come next, and the next Enter adds it."""
    screen, page = await stage.opened(traces.COUNT)
    await new(page, 3)
    await new(page, 3, "B")
    await focus(page, "row-list")
    await page.run(AT_ONCE.format(["Home", "Enter", "Enter", "Enter"]))
    await comes(lambda: len(logged()) == 4)
    same(logged()[2:], ["1 add A 0", "1 add A 1"])
    is_clean(page, screen)


async def test_enter_after_a_click(stage: Stage) -> None:
    """Who makes a schedule by a button goes on with what comes next. In the list of races Enter opens one again."""
    screen, page = await stage.opened(traces.COUNT)
    await page.until("document.querySelectorAll('.race').length === 1")
    await page.click("#new")
    await page.until("document.getElementById('ask').open")
    await page.key("Enter")
    await page.until(f"{OPEN} === 'A' && document.activeElement.id === 'next-list'")
    await press(page, "Enter")
    await page.click("#bar button")  # branch
    await page.until("document.getElementById('ask').open")
    await page.key("Enter")
    await page.until(f"{OPEN} === 'A.b' && document.activeElement.id === 'next-list'")
    await press(page, "Enter")
    await page.click(".race")
    await page.until(f"{OPEN} === 'Witness'")
    await page.click("#bar button", 1)  # start empty
    await page.until(f"{OPEN} === 'r7-12' && {NEXT_LENGTH} === '0' && document.activeElement.id === 'next-list'")
    await press(page, "Enter")
    same(logged(), ["1 new A", "1 add A 0", "1 branch A 1 A.b", "1 add A.b 1", "1 new r7-12", "1 add r7-12 0"])
    await focus(page, "race-list")
    await page.key("Enter")
    await page.until(f"{OPEN} === 'Witness'")
    await page.key("Enter")
    await page.until(f"{OPEN} === 'r7-12.2' && document.activeElement.id === 'race-list'")
    await focus(page, "row-list")
    await page.key("Enter")
    await page.until("document.activeElement.id === 'next-list'")
    is_clean(page, screen)


async def test_the_field_that_runs_to_an_event(stage: Stage) -> None:
    """It takes numbers of events of its thread, and refuses others by a message. Escape leads back to the list."""
    field = "document.querySelector('.until-event')"
    screen, page = await stage.opened(TWO)
    await new(page, 2)
    await page.key("ArrowRight")
    await page.until(f"{field}?.placeholder === 'event of T1, up to 60 more'")
    hint = "type the number of an event, as in the list"
    for typed, note in (("x", hint), ("7", "7 is an event of T2"), ("999", "no such number"), ("1.5", hint)):
        await page.run(f"{field}.focus(); {field}.select()")
        await page.type(typed)
        await page.key("Enter")
        await page.until(f"{SAID} === {note!r}")
    same(logged(), ["1 new A"])
    await page.key("Escape")
    same(await page.run("document.activeElement.id"), "next-list")
    await page.run(f"{field}.focus(); {field}.select()")
    await page.type("4")
    await page.key("Enter")
    await page.until(f"{field}?.placeholder === 'event of T1, up to 57 more'")
    same(await page.run("document.activeElement.className"), "until-event")  # the field stays, with what was typed
    same(await page.run(f"{field}.value"), "4")
    await page.run(f"{field}.select()")
    await page.type(" 0,090 ")  # as the page writes long numbers
    await page.key("Enter")
    await page.until(f"{LENGTH} === '46 events'")
    await page.until(f"!{field}")
    same(await page.run("document.activeElement.id"), "next-list")
    await press(page, "Enter")
    await page.until(f"{LENGTH} === '47 events'")
    same(logged()[-1], "1 add A 92")
    is_clean(page, screen)
