"""Keys that are typed before the page has drawn what the keys before them do."""

import traces
from browser import ALT
from comparing import same
from held_answers import held_page
from page_parts import AT_ONCE, NEXT_LENGTH, OPEN
from sessions import session
from stage import LENGTH, NEXT, ROWS, SAID, Stage, comes, focus, is_clean, logged, new, press, press_at_once, settled


async def test_keys_typed_ahead(stage: Stage) -> None:
    """From the race to the proposal in one go, with no wait between the keys."""
    screen, page = await stage.opened(traces.COUNT)
    await page.until("document.querySelectorAll('.race').length === 1")
    for key in ("F6", "ArrowDown", "e", "t", "2", "t", "3", "t", "p"):
        await page.key(key)
    await comes(lambda: logged()[-1:] and logged()[-1].startswith("1 propose"))
    same(
        logged(),
        [
            "1 new r7-12",
            "1 batch add r7-12 0 ; add r7-12 1",
            "1 add r7-12 2",
            "1 batch add r7-12 3 ; add r7-12 4 ; add r7-12 5 ; add r7-12 6",
            "1 add r7-12 8",
            "1 batch add r7-12 9 ; add r7-12 10 ; add r7-12 11",
            "1 propose 7 12 0 1 2 3 4 5 6 8 9 10 11",
        ],
    )
    is_clean(page, screen)


async def test_keys_typed_ahead_of_a_question(stage: Stage) -> None:
    """Those after the key for a branch are for its name, and those after the name for the branch."""
    screen, page = await stage.opened(traces.COUNT)
    await new(page, 3)
    for key in ("1", "1", "b", "Enter", "2", "b", "Y", "Backspace", "Z", "Enter", "3"):
        await page.key(key)
    await comes(lambda: len(logged()) == 7)
    branches = ["1 branch A 2 A.b", "1 add A.b 2", "1 branch A.b 3 Z", "1 add Z 8"]
    same(logged(), ["1 new A", "1 add A 0", "1 add A 1", *branches])
    for key in ("Backspace", "b", "Escape", "2", "b", "x"):
        await page.key(key)
    await page.until("document.getElementById('ask').open && document.getElementById('ask-input').value === 'x'")
    same(logged()[7:], ["1 back Z", "1 add Z 3"])
    await page.key("Escape")
    await page.until("!document.getElementById('ask').open")
    is_clean(page, screen)


async def test_a_question_that_is_left_out(stage: Stage) -> None:
    """Who goes elsewhere before it is there goes on with the keys."""
    screen, page = await stage.opened(traces.COUNT)
    await page.until("document.querySelectorAll('.race').length === 1")
    await new(page, 3)
    await page.run(AT_ONCE.format(["b"]) + "document.querySelector('.race').click()")
    await page.until(f"{OPEN} === 'Witness'")
    same(await page.run("document.getElementById('ask').open"), False)
    await page.key("e")
    await page.until(f"{OPEN} === 'r7-12'")
    await press(page, "1")
    same(logged()[1:], ["1 new r7-12", "1 add r7-12 0"])
    is_clean(page, screen)


async def test_a_question_soon_after_another(stage: Stage) -> None:
    """The browser says that the first one ended when the second one is there already. That is not its end."""
    traces.write("trace", traces.FREE)
    again = "document.getElementById('ask').close(); " + AT_ONCE.format(["n"])
    screen, page = await stage.opened()
    await new(page, 8)
    await page.key("n")
    await page.until("document.getElementById('ask').open")
    await page.run(f"{again} new Promise((done) => setTimeout(done, 100))")
    same(await page.run("document.getElementById('ask').open"), True)
    await page.key("Enter")
    await page.until(f"{OPEN} === 'A.2'")
    same(logged(), ["1 new A", "1 new A.2"])
    is_clean(page, screen)


async def test_keys_are_for_the_schedule_that_they_see(stage: Stage) -> None:
    screen, page = await stage.opened(traces.COUNT)
    await new(page, 3)
    for key in ("n", "Enter", "1", "[", "1", "1", "]", "1"):
        await page.key(key)
    await comes(lambda: len(logged()) == 6)
    same(logged(), ["1 new A", "1 new A.2", "1 add A.2 0", "1 add A 0", "1 add A 1", "1 add A.2 1"])
    await page.until(f"{OPEN} === 'A.2' && {ROWS} === 2")
    is_clean(page, screen)


async def test_keys_typed_while_the_page_opens(stage: Stage, program: str) -> None:
    """They are for the schedule that opens, whichever answer of the program comes late."""
    traces.write("trace", traces.COUNT)
    await session(program, 1, "new A\n")
    screen = await stage.screen()
    for kind, number in (("hello", 1), ("frontier", 2)):
        page = await held_page(stage, screen, kind)
        await page.until("window.held?.length === 1 && !!document.querySelector('.race')")
        await page.key("1")
        await page.run("letGo()")
        await page.until(f"{ROWS} === {number} && {NEXT_LENGTH} === '{number}'")
        is_clean(page, screen)
        await page.click("#link")
        screen.link = await page.until("document.querySelector('#help input.link')?.value")
    same(logged(), ["1 new A", "1 add A 0", "1 add A 1"])


async def test_keys_for_a_schedule_that_another_dropped(stage: Stage, program: str) -> None:
    screen, page = await stage.opened(traces.FREE)
    await new(page, 8)
    await press(page, "1", "2")
    await session(program, 2, "drop A\n")
    await settled(page)
    same(await page.run("document.querySelector('#bar .bad')?.textContent"), "dropped")
    for key in ("Backspace", "r", "t", "f", "p", "1", "b"):
        await page.run("document.getElementById('said').replaceChildren()")
        await page.key(key)
        await page.until(f"{SAID} === 'A was dropped: n makes a schedule'", what=f"an answer to {key}")
    await focus(page, "stage")
    for key in ("ArrowUp", "ArrowDown"):
        await page.run("document.getElementById('said').replaceChildren()")
        await page.key(key, ALT)
        await page.until(f"{SAID} === 'A was dropped: n makes a schedule'", what=f"an answer to Alt {key}")
    same(logged()[3:], ["2 drop A"])
    is_clean(page, screen)


# While `endless` is set, news of another come before each list of what may come next, or before other answers.
ENDLESS = """(() => {
  const kind = "frontier";
  const lists = new Set();
  const send = WebSocket.prototype.send;
  let news = null;
  window.endless = false;
  window.came = 0;
  WebSocket.prototype.send = function (text) {
    const asked = text.startsWith("{") ? JSON.parse(text) : {};
    if (asked.do === kind) lists.add(asked.id);
    send.call(this, text);
  };
  Object.defineProperty(WebSocket.prototype, "onmessage", {
    set(act) {
      this.addEventListener("message", (message) => {
        const told = JSON.parse(message.data);
        if (told.push === "log") news = told;
        if (window.endless && lists.has(told.id)) {
          window.came++;
          act.call(this, { data: JSON.stringify({ ...news, entries: [] }) });
        }
        act.call(this, message);
      });
    },
  });
})()"""


async def test_keys_while_another_works_all_the_time(stage: Stage) -> None:
    """A key waits for what its own step left, and not until the other analyst rests."""
    traces.write("trace", "".join(f"T{thread}|w(a{thread})|a:{at}\n" for at in range(9) for thread in (1, 2)))
    screen, page = await stage.opened(script=ENDLESS)
    await new(page, 2)
    await page.run("window.endless = true")
    for key in "121":
        await press_at_once(page, key)
    assert await page.run("window.came") > 2
    await page.run("window.endless = false")
    await page.until(f"{ROWS} === 3 && {NEXT} === 2")
    same(logged(), ["1 new A", "1 add A 0", "1 add A 1", "1 add A 2"])
    is_clean(page, screen)


async def test_a_schedule_that_another_works_on_all_the_time(stage: Stage, program: str) -> None:
    """Keys for a schedule that opens wait for its rows, and not until the other analyst rests."""
    traces.write("trace", "".join(f"T{thread}|w(a{thread})|a:{at}\n" for at in range(9) for thread in (1, 2)))
    await session(program, 1, "new A\nadd A 0\nnew B\n")
    screen = await stage.screen()
    page = await stage.page("about:blank")
    await page.call("Page.addScriptToEvaluateOnNewDocument", source=ENDLESS.replace('"frontier"', '"view"'))
    await page.open(screen.link)
    await page.until(f"document.querySelector('#bar h2').textContent === 'B' && {NEXT} === 2")
    await session(program, 2, "add A 1\n")  # the news that come again and again
    await settled(page)
    same(await page.run("document.querySelector('.sched .num').textContent"), "2")
    await page.run("window.endless = true")
    await page.click(".sched")
    await page.key("1")
    await page.until("document.getElementById('next-list').dataset.length === '3'")
    assert await page.run("window.came") > 2
    await page.run("window.endless = false")
    await page.until(f"{ROWS} === 3 && {LENGTH} === '3 events'")
    same(logged()[-1], "1 add A 2")
    is_clean(page, screen)
