"""The pages that `triage --page` and `merge --page` write, in a browser: names of all kinds, and long texts."""

import json
import pathlib
import subprocess
from collections.abc import Callable

import traces
from comparing import same
from stage import Stage

# The elements of a page in their order, each with the names of its attributes.
OUTLINE = "[...document.querySelectorAll('*')].map((e) => [e.tagName, ...e.getAttributeNames().sort()].join(' '))"


async def outline(stage: Stage, address: str) -> tuple[list[str], str]:
    """The elements of the page at this address, which fetches nothing, runs nothing and is not too wide."""
    page = await stage.page(address, width=400)
    await page.until("document.readyState === 'complete'")
    await page.run("document.querySelectorAll('details').forEach((row) => { row.open = true; })")
    await page.until("document.documentElement.scrollWidth <= innerWidth")
    same((page.faults, page.requests), ([], [address]))
    same(await page.run("[typeof window.hacked, document.scripts.length, document.links.length]"), ["undefined", 0, 0])
    return await page.run(OUTLINE), await page.run("document.body.textContent")


# A path that looks like markup and like a shell command, and that is read from right to left.
PATH = "\u202e'; <b onload=x>&\"$(x).std"


async def is_text(stage: Stage, pages: Callable[[str, list[str], str], str]) -> None:
    """Each page with hostile names has the elements of the one with plain names, and the names as text."""
    names = [f"n{at}" for at in range(len(traces.HOSTILE))]
    plain, _ = await outline(stage, pages(stage.program, names, "plain.std"))
    found, text = await outline(stage, pages(stage.program, traces.HOSTILE, PATH))
    same(len(plain) > 100, True)
    same(found, plain)
    shown = ["".join(" " if letter < " " else letter for letter in name) for name in traces.HOSTILE]
    same([name for name in shown if name.replace(" ", "\ufffd") not in text.replace(" ", "\ufffd")], [])


def written(program: str, page: str, *arguments: str) -> str:
    """Writes a page, and returns its address."""
    with open(page, "wb") as out:
        subprocess.run([program, *arguments, "--page"], check=True, stdout=out)
    return pathlib.Path(page).absolute().as_uri()


def racing(names: list[str]) -> str:
    """A trace with a race for each name, which threads, variables, locks and locations have."""
    lines = []
    for at, name in enumerate(names):
        for thread, place in ((name[:120] + "A", name + "1" * 100), (name[:120] + "B", name + "2" * 3000)):
            lines += [f"{thread}|acq({name})|{place}", f"{thread}|w(own{at})|{place}", f"{thread}|rel({name})|{place}"]
            lines += [f"{thread}|w({name})|{place}", f"{thread}|w(last{at})|{place}"]
    return "".join(f"{line}\n" for line in lines)


# As many characters as a text of a followed race has; a name of a trace has at most 255 bytes.
LONG = 10_000


def followed(text: str) -> str:
    """How these races were followed, with a long text of each kind."""
    places = [text + "1" * 100, text + "2" * 3000]
    long = text * (LONG // len(text))
    entry = {"events": [3, 8], "locations": places, "places": places, "text": long, "ended": "stands"}
    entry |= {"first": long, "second": long, "why": long, "matters": True, "same_memory": True, "liberties": []}
    return json.dumps(entry) + "\n"


def triaged(program: str, names: list[str], path: str) -> str:
    """The page of one trace, with followed races."""
    traces.write(path, racing(names))
    traces.write("followed", followed(names[0]))
    return written(program, f"{len(names[0])}.html", "triage", path, "--apart", "--confirmed", "followed")


async def test_names_are_text_on_a_page(stage: Stage) -> None:
    await is_text(stage, triaged)


def merged(program: str, names: list[str], path: str) -> str:
    """The page of a merged report."""
    traces.write(path, racing(names))
    with open("part", "wb") as out:
        subprocess.run([program, "triage", path, "--json"], check=True, stdout=out)
    return written(program, f"{len(names[0])}.html", "merge", "part")


async def test_names_are_text_on_a_merged_page(stage: Stage) -> None:
    await is_text(stage, merged)


def test_a_name_of_a_trace_has_no_10000_characters(program: str) -> None:
    """A trace with such a name has no page."""
    for name, why in (("x" * LONG, "line too long"), ("x" * 256, "name too long")):
        traces.write("trace", f"A|w({name})|1\n")
        done = subprocess.run([program, "triage", "trace", "--page"], capture_output=True, check=False)
        same((done.returncode, done.stdout, why in done.stderr.decode()), (1, b"", True))
