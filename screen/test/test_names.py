"""Names of analysts, threads and variables: long, alike, from right to left, and hostile."""

import json

import traces
from comparing import same
from long_places import PLACES
from page_parts import OPEN
from sessions import session
from stage import NEXT, ROWS, Stage, focus, is_clean, logged, new, press, settled


async def test_names_of_clients(stage: Stage) -> None:
    traces.write("trace", traces.COUNT)
    traces.write("log.names", "1 Ada\n2 \u202eGrace <b>\n99 Nobody\nx y\n3\n")
    one = await stage.screen()
    two = await stage.screen("--client", "2")
    page, other = await stage.page(one.link), await stage.page(two.link)
    await new(page, 3)
    same(await page.run("document.getElementById('live').textContent"), "● client 1, Ada")
    who = "document.querySelector('.sched .who')"
    same(await page.run(f"[{who}.textContent, {who}.title]"), ["you", "client 1 Ada"])
    await other.until("document.querySelector('.sched .who')?.textContent === 'Ada'")
    same(await other.run("document.getElementById('live').textContent"), "● client 2, \\u{202e}Grace <b>")
    traces.write("log.names", "1 Ada Lovelace\n")
    await other.until("document.querySelector('.sched .who')?.textContent === '1 Ada Lovelace'")
    is_clean(page, one)
    is_clean(other, two)


LONG_NAMES = """(() => {
  const box = (selector) => document.querySelector(selector).getBoundingClientRect();
  const [feed, all] = ["feed", "side"].map((id) => document.getElementById(id));
  return [box("#schedule-B .sched-name").width > 5, box(".proposal .told").width > 60, box(".entry .did").width > 60,
    box(".proposal button").right <= all.getBoundingClientRect().right, feed.scrollWidth <= feed.clientWidth].join();
})()"""


async def test_long_names_of_clients(stage: Stage, program: str) -> None:
    """They are cut, and not what the clients did. Their titles have the full names."""
    traces.write("trace", traces.COUNT)
    traces.write("log.names", "1 Ada\n2 " + "W" * 40 + "\n")
    await session(program, 2, f"new B\npropose 7 12 0 2 3 4 5 6 1 8 9 10 11\nnew {'C' * 64}\n")
    screen, page = await stage.opened()
    await page.until("document.querySelectorAll('.entry').length === 3")
    for width in (1440, 1000, 320):
        await page.size(width, 900)
        if width == 320:
            await page.click("#tabs button", 2)
        await page.until(f"innerWidth === {width} && {LONG_NAMES} === 'true,true,true,true,true'")
    same(await page.run("document.querySelector('#schedule-B .who').title"), f"client 2 {'W' * 40}")
    is_clean(page, screen)


# Of each client's mark in the news: its text, and whether all of its number and some of its name are in sight.
MARKS = """[...document.querySelectorAll('.away-line .who')].map((mark) => {
  const [box, first] = [mark, mark.firstChild].map((one) => one.getBoundingClientRect());
  const name = mark.lastChild;
  const isSeen = first.right <= box.right && name.offsetWidth >= Math.min(name.scrollWidth, 30);
  return `${mark.textContent} ${isSeen}`;
}).join()"""


async def test_clients_whose_names_look_alike(stage: Stage, program: str) -> None:
    """A name that may be cut has its number first, and so has one that another client has too."""
    traces.write("trace", traces.COUNT)
    long = "Engineer Alexandra Sm"
    names = {2: f"{long}ith", 3: f"{long}ythe", 4: "Sam", 5: "Sam", 6: "4", 7: "you", 8: "Catherine"}
    traces.write("log.names", "".join(f"{client} {name}\n" for client, name in names.items()))
    screen, page = await stage.opened(None, "--client", "9")
    await new(page, 3)
    for clients, labels in (
        ((5, 4, 3, 2), f"2 {long}ith true,3 {long}ythe true,4 Sam true,5 Sam true"),
        ((10, 8, 7, 6), "6 4 true,7 you true,Catherine true,10 true"),
    ):
        for client in clients:
            await session(program, client, f"new S{client}\n")
        await settled(page)
        for width in (1440, 1000, 768, 360):
            await page.size(width, 900)
            if width < 980:
                await page.click("#tabs button", 2)
            await page.until(f"innerWidth === {width} && {MARKS} === {labels!r}")
        await page.key("s")
    titles = "document.querySelector('#schedule-S4').title"
    same(await page.run(titles), "S4: 0 events, made by 4 Sam in entry 2, last changed by 4 Sam in entry 2")
    traces.write("log.names", "4 Sam\n5 Samantha\n")  # now the name says whose it is
    await page.until("document.querySelector('#schedule-S4 .who').textContent === 'Sam'")
    await page.until("document.querySelector('#entry-2 .who').textContent === 'Sam'")
    is_clean(page, screen)


MERGED = (
    "[...document.querySelectorAll('bdi')].filter((name) => name.offsetWidth && name.innerText !== name.textContent)"
    ".map((name) => `${name.parentElement.className}: ${name.innerText}`).join('; ')"
)
# Names that are read from right to left, by the position of their first and last letters; and names whose blanks are
# not drawn as they are.
LEFTWARD = """(selector) => {
  const [text, box] = [document.querySelector(selector)?.firstChild, document.querySelector(selector)];
  if (text?.nodeType !== Node.TEXT_NODE) return "in parts";
  const at = (from) => {
    const range = document.createRange();
    range.setStart(text, from);
    range.setEnd(text, from + 1);
    return range.getBoundingClientRect();
  };
  const [first, last] = [at(0), at(text.length - 1)];
  const { left, right } = box.getBoundingClientRect();
  return [first.left > last.left, first.left >= left - 1 && first.right <= right + 1].join();
}"""


async def test_names_from_right_to_left_and_blanks(stage: Stage, program: str) -> None:
    """Such a name is in one piece, and if there is no room its end is cut. Two blanks are not drawn as one."""
    long = "אבגדהוזחטיכלמנסעפצקרשת" * 2
    lines = [f"T  one|w({long})|a.c:1", f"שני|r({long})|a.c:2", "T  one|w(a  b   c)|a.c:3", "שני|w(a  b   c)|a.c:4"]
    traces.write("trace", "\n".join(lines) + "\n")
    traces.write("log.names", "2 Ada  B\n3 " + long[:22] + "\n")
    screen, page = await stage.opened()
    await page.until("document.querySelectorAll('.race').length > 0")
    await new(page, 2)
    await session(program, 2, "add A 0\nadd A 2\n")
    await session(program, 3, "add A 1\nadd A 3\n")
    await settled(page)
    same(await page.run(ROWS), 4)
    where = "#at-0 .name", ".race .variable", "#feed .entry .who .whole"
    for selector in where:
        await page.until(f"({LEFTWARD})({json.dumps(selector)}) === 'true,true'", what=selector)
    await page.until(f"{MERGED} === ''", what=f"blanks as they are: {await page.run(MERGED)}")
    await page.click(".race")
    await page.until("!document.getElementById('pair').hidden")
    await page.until(f"({LEFTWARD})('#pair .name') === 'true,true'")
    await page.until(f"{MERGED} === ''", what=f"blanks as they are: {await page.run(MERGED)}")
    is_clean(page, screen)


LONG = "".join(
    f"worker-{'x' * 240}{at % 3}|{'wr'[at // 3 % 2]}(variable-{'y' * 220}{at % 2})|/a/{'sub/' * 20}file{at}.c:{at}\n"
    for at in range(24)
)
PARTS = "[...document.querySelectorAll('#pair .access, .away-line')].filter((line) => line.offsetWidth).length"
# Of each place of the pair, and of each line of news, what is not in sight.
UNSEEN = """[...document.querySelectorAll('#pair .access, .away-line')].map((line) => {
  if (!line.offsetWidth) return '';
  const part = line.querySelector('.place .end') ?? line.querySelector('.place, .news');
  const [box, room] = [part?.getBoundingClientRect(), line.getBoundingClientRect()];
  const isSeen = box && box.width > 30 && box.right <= room.right + 1 && box.bottom <= room.bottom + 1;
  return isSeen && part.scrollWidth <= part.clientWidth + 1 ? '' : line.className + ': ' + part?.textContent;
}).filter((text) => text).join('; ')"""


async def test_long_names_leave_room(stage: Stage, program: str) -> None:
    """In the pair its places are in sight, and in the news what others did."""
    name = "N" * 64
    screen, page = await stage.opened(LONG)
    await page.until("document.querySelectorAll('.race').length > 2")
    await page.click(".race")
    await page.until(f"{OPEN} === 'Witness' && !document.getElementById('pair').hidden")
    await settled(page)
    await session(program, 2, f"new {name}\nadd {name} 0\nback {name}\nadd {name} 0\n")
    await settled(page)
    await page.until("!document.getElementById('away').hidden")
    for width, parts in ((1440, 3), (1180, 3), (1000, 3), (760, 2), (560, 2), (320, 2)):
        await page.size(width, 900)
        await page.until(f"innerWidth === {width} && {PARTS} === {parts}")
        await page.until(f"{UNSEEN} === ''", what=f"all in sight at {width}: {await page.run(UNSEEN)}")
    is_clean(page, screen)


async def test_names_as_long_as_names_may_be(stage: Stage) -> None:
    """The name that is proposed for a branch of one is no longer."""
    name = "N" * 64
    screen, page = await stage.opened(traces.FREE)
    await new(page, 8, name)
    await press(page, "1")
    for end in (".b", ".b.2"):
        await page.key("b")
        await page.until("document.getElementById('ask').open")
        branch = name[: 64 - len(end)] + end
        same(await page.run("document.getElementById('ask-input').value"), branch)
        await page.key("Enter")
        await page.until(f"{OPEN} === '{branch}'")
        await settled(page)
        await page.key("[")
        await page.until(f"{OPEN} !== '{branch}'")
        if end == ".b":
            await page.until(f"{OPEN} === '{name}'")
            await settled(page)
    same(logged()[2:], [f"1 branch {name} 1 {name[:62]}.b", f"1 branch {name} 1 {name[:60]}.b.2"])
    is_clean(page, screen)


# Buttons of the chosen thread that are cut at the end of its line.
CUT = """(() => { const line = document.querySelector("#next-list .next.on").getBoundingClientRect();
  return [...document.querySelectorAll("#next-list .next.on button")].filter((one) => {
    const [box, around] = [one, one.parentElement].map((part) => part.getBoundingClientRect());
    return box.width < 10 || box.right > Math.min(line.right, around.right) + 1 || box.left < around.left - 1;
  }).map((one) => one.textContent).join("; "); })()"""


async def test_buttons_have_room_beside_long_names(stage: Stage) -> None:
    """Names and places are cut before the buttons are."""
    screen, page = await stage.opened(PLACES)
    await page.until("document.querySelectorAll('.race').length === 1")
    await page.click(".chip", 2)
    await page.until("document.querySelectorAll('.race').length === 2")
    await page.click(".race", 1)  # apart: the aim, and each thread is some events from it
    await page.until("!document.getElementById('note').hidden")
    await press(page, "e")
    await page.until(f"{NEXT} === 2 && document.querySelectorAll('#next-list .next.on button').length === 4")
    for width in (320, 560, 600, 760, 900, 1000, 1180, 1440):
        await page.size(width, 900)
        await page.until(f"innerWidth === {width} && {CUT} === ''")
    is_clean(page, screen)


async def test_hostile_names(stage: Stage) -> None:
    traces.hostile("trace")
    screen, page = await stage.opened(None, "--source", ".")
    await page.until("document.querySelectorAll('.race').length > 0")
    await page.click(".race")
    await page.until("!document.getElementById('pair').hidden || !document.getElementById('note').hidden")
    await page.key("e")
    await page.until(f"{NEXT} > 2")
    await focus(page, "next-list")
    for _ in range(3):
        await page.key("r")
        await page.key("ArrowDown")
    await page.key("ArrowRight")
    await page.until("document.querySelectorAll('.coming').length > 0")
    same(await page.run("window.hacked === undefined"), True)
    same(await page.run("document.querySelectorAll('#main script, #main img, #main b, #main td').length"), 0)
    assert await page.run("document.body.textContent.includes('<script>')")
    assert await page.run("!/[\\u202a-\\u202e\\u0000-\\u0008\\u001b]/.test(document.body.textContent)")
    shown = json.dumps(await page.run("[...document.querySelectorAll('code')].map((c) => c.textContent)"))
    assert "passwd" not in shown and "root:" not in shown, shown
    is_clean(page, screen)
