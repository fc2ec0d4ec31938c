"""Light, dark, print and the colours of the system; nothing is cut off."""

import traces
from comparing import same
from sessions import session
from stage import NEXT, ROWS, Stage, focus, is_clean, new, press, settled


async def test_light_dark_and_each_width(stage: Stage) -> None:
    """Nothing is cut off the page, and text contrasts with its ground, at each width in light and dark."""
    screen, page = await stage.opened(traces.COUNT)
    await new(page, 3)
    await press(page, "1", "1")
    grounds = set()
    for scheme in ("light", "dark"):
        await page.call("Emulation.setEmulatedMedia", features=[{"name": "prefers-color-scheme", "value": scheme}])
        grounds.add(await page.run("getComputedStyle(document.body).backgroundColor"))
        for width in (760, 1000, 1440, 2200):
            await page.size(width, 900)
            await page.until(f"innerWidth === {width} && {ROWS} === 2")
            await page.until("document.documentElement.scrollWidth <= innerWidth")
            await page.until("[...document.querySelectorAll('#next-list .next')].every((n) => n.offsetHeight > 0)")
    same(len(grounds), 2)
    await page.size(760, 900)
    await page.click("#tabs button", 2)
    await page.until("document.getElementById('side').offsetHeight > 0")
    await page.until("document.getElementById('centre').offsetHeight === 0")
    await page.click("#tabs button", 0)
    await page.until("document.getElementById('races').offsetHeight > 0")
    await page.size(1440, 900)
    before = await page.run("getComputedStyle(document.body).backgroundColor")
    await page.click("#theme")
    await page.until(f"getComputedStyle(document.body).backgroundColor !== '{before}'")
    is_clean(page, screen)


# Texts with too little contrast: less than 4.5 to 1, the bound of the web's rules for reading.
PALE = """(() => {
  const parts = (text) => {
    const [red, green, blue, alpha = 1] = text.match(/[\\d.]+(e-\\d+)?/g).map(Number);
    return text.startsWith("color(") ? [red * 255, green * 255, blue * 255, alpha] : [red, green, blue, alpha];
  };
  const over = ([r, g, b, a], under) => [r, g, b].map((one, at) => one * a + under[at] * (1 - a));
  const light = (one) => (one / 255 <= 0.03928 ? one / 255 / 12.92 : ((one / 255 + 0.055) / 1.055) ** 2.4);
  const bright = ([r, g, b]) => 0.2126 * light(r) + 0.7152 * light(g) + 0.0722 * light(b);
  const all = [];
  const walker = document.createTreeWalker(document.body, NodeFilter.SHOW_TEXT);
  for (let text = walker.nextNode(); text; text = walker.nextNode()) {
    const node = text.parentElement;
    if (!text.data.trim() || !node.checkVisibility({ opacityProperty: true, visibilityProperty: true })) continue;
    const chain = [];
    for (let one = node; one; one = one.parentElement) chain.unshift(getComputedStyle(one));
    let [ground, opacity] = [[255, 255, 255], 1];
    for (const style of chain) {
      ground = over(parts(style.backgroundColor), ground);
      opacity *= Number(style.opacity);
    }
    const [red, green, blue, alpha] = parts(getComputedStyle(node).color);
    if (!(alpha * opacity)) continue;
    const ink = over([red, green, blue, alpha * opacity], ground);
    const [more, less] = [bright(ink), bright(ground)].sort((one, other) => other - one);
    const ratio = (more + 0.05) / (less + 0.05);
    if (ratio < 4.5) all.push(`${node.className || node.localName}: ${text.data.slice(0, 30)} ${ratio.toFixed(2)}`);
  }
  return all.join("; ");
})()"""


async def test_texts_are_told_from_their_ground(stage: Stage, program: str) -> None:
    """Everything that is chosen, refused, taken back or of another analyst, in light and dark."""
    traces.write("trace", traces.COUNT + "".join(f"T0|w(a{at})|main.c:{at}\n" for at in range(20)))
    await session(program, 2, "new B\nadd B 0\nundo\npropose 7 12 0 2 3 4 5 6 1 8 9 10 11\n")
    screen, page = await stage.opened()
    await page.until("document.querySelectorAll('.race').length === 1")
    await page.click(".race")
    await page.until("!document.getElementById('pair').hidden")
    for scheme in ("light", "dark"):
        await page.call("Emulation.setEmulatedMedia", features=[{"name": "prefers-color-scheme", "value": scheme}])
        await page.until(f"{PALE} === ''")
    await page.key("e")
    await page.until(f"{NEXT} === 3")
    await focus(page, "next-list")
    await press(page, "1", "t")
    await page.key("ArrowRight")
    await session(program, 2, "new C\nadd r7-12 1\n")
    await settled(page)
    await page.until("!document.getElementById('away').hidden")
    await focus(page, "stage")
    await page.key("Home")
    await page.mouse("mouseMoved", 700, 500)
    for scheme in ("light", "dark"):
        await page.call("Emulation.setEmulatedMedia", features=[{"name": "prefers-color-scheme", "value": scheme}])
        await page.until(f"{PALE} === ''")
    is_clean(page, screen)


DARK = [{"name": "prefers-color-scheme", "value": "dark"}]


async def test_paper_is_light(stage: Stage) -> None:
    """Also if the page is dark, by the system or by its button. Nothing on it asks to be pressed."""
    traces.write("trace", traces.COUNT)
    screen = await stage.screen()
    page = await stage.page(screen.link, dark=True)
    await new(page, 3)
    ink = "getComputedStyle(document.body).color"
    for _ in range(2):
        dark = await page.run(ink)
        await page.call("Emulation.setEmulatedMedia", media="print", features=DARK)
        await page.until(f"{ink} !== {dark!r}")
        same(await page.run(ink), "rgb(35, 33, 30)")
        shown = "[...document.querySelectorAll('button:not(.chip), input')].filter((b) => b.offsetWidth).length"
        same(await page.run(shown), 0)
        await page.call("Emulation.setEmulatedMedia", media="", features=DARK)
        await page.until(f"{ink} === {dark!r}")
        await page.click("#theme")
        await page.until(f"{ink} !== {dark!r}")
        await page.click("#theme")
        await page.until(f"{ink} === {dark!r} && document.documentElement.dataset.theme === 'dark'")
    is_clean(page, screen)


async def test_colours_of_the_system(stage: Stage, program: str) -> None:
    """What is chosen, and what is news, is visible without colours of the page."""
    traces.write("trace", traces.COUNT)
    await session(program, 1, "new A\nnew B\n")
    screen, page = await stage.opened()
    await page.call("Emulation.setEmulatedMedia", features=[{"name": "forced-colors", "value": "active"}])
    await page.until("document.querySelectorAll('.sched').length === 2 && matchMedia('(forced-colors)').matches")
    shown = "[...document.querySelectorAll('.sched > .fresh')].map((e) => getComputedStyle(e).visibility).join()"
    outlined = "[...document.querySelectorAll('.sched')].map((e) => getComputedStyle(e).outlineStyle).join()"
    await settled(page)
    same(await page.run(f"[{shown}, {outlined}]"), ["hidden,hidden", "none,solid"])
    await session(program, 2, "add A 0\n")
    await settled(page)
    same(await page.run(shown), "visible,hidden")
    await page.until("document.querySelector('.entry.fresh')?.checkVisibility({ visibilityProperty: true })")
    pressed = "[...document.querySelectorAll('.chip')].map((c) => getComputedStyle(c).backgroundColor)"
    same(await page.run(f"new Set({pressed}).size"), 2)
    is_clean(page, screen)


async def test_the_splitter(stage: Stage) -> None:
    """What may come next is as high as it is dragged, and the lanes have the rest."""
    screen, page = await stage.opened(traces.COUNT)
    await new(page, 3)
    height = "document.getElementById('next').offsetHeight"
    before = await page.run(height)
    await page.drag("#splitter", 0, -100)
    await page.until(f"Math.abs({height} - {before} - 100) < 5")
    await focus(page, "splitter")
    await page.key("ArrowDown")
    await page.until(f"Math.abs({height} - {before} - 76) < 5")
    value = "document.getElementById('splitter').getAttribute('aria-valuenow')"
    await page.until(f"{value} === String({height})")
    await page.key("ArrowUp")
    await page.until(f"Math.abs({height} - {before} - 100) < 5 && {value} === String({height})")
    most = await page.run("+document.getElementById('splitter').getAttribute('aria-valuemax')")
    await page.drag("#splitter", 0, 2000)
    await page.until(f"{height} >= 60 && {height} < {before}")
    await page.drag("#splitter", 0, -2000)
    await page.until(f"document.getElementById('stage-box').offsetHeight >= 140 && {height} > {before}")
    await page.until(f"{height} === {most}")
    await page.click("#splitter", times=2)
    await page.until(f"{height} === {before}")
    x, y = await page.steady("#splitter")
    for by in (0, 9):  # a hand that let go moves it no more
        await page.mouse("mouseMoved", x + by, y)
    is_sized = "document.getElementById('next').classList.contains('sized')"
    same(await page.run(f"[{height}, {is_sized}]"), [before, False])
    is_clean(page, screen)
