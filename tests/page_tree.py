"""Reads a page of a report as a browser's parser would, by Python's html.parser. Each tag has to be closed in its
order, nothing may run or be fetched, and the policy in the page's head must forbid both.
"""

from __future__ import annotations

import html.parser
import re
from collections.abc import Iterator, Sequence

from judging import Wrong

# The attributes of a tag as html.parser has them.
Attributes = Sequence[tuple[str, str | None]]
POLICY = "default-src 'none'; style-src 'unsafe-inline'; base-uri 'none'; form-action 'none'"

# Tags without an end; all tags that a page may have, and all attributes.
VOID = {"meta", "path", "rect"}
ALLOWED = set(
    "html head meta title style body header main section h1 h2 h3 h4 p bdi table thead tbody tr th td details summary "
    "span pre code figure figcaption div svg defs desc marker path rect text".split()
)
ATTRIBUTES = set(
    "lang charset http-equiv content name id class scope tabindex role aria-label aria-hidden xmlns viewbox width "
    "height x y d refx refy markerwidth markerheight markerunits orient marker-end".split()
)
# Values that a browser would fetch, follow or run; the one link is that of an arrow to its tip, within
# the page.
FORBIDDEN = re.compile(r"url\((?!#tip\))|javascript:|data:|@import|https?:(?!//www\.w3\.org/2000/svg$)", re.IGNORECASE)


class Element:
    def __init__(self, tag: str, attributes: dict[str, str | None]) -> None:
        self.tag = tag
        self.attributes = attributes
        self.children: list[Element | str] = []

    def all(self, tag: str) -> Iterator[Element]:
        for child in self.children:
            if isinstance(child, Element):
                if child.tag == tag:
                    yield child
                yield from child.all(tag)

    def one(self, tag: str) -> Element:
        found = list(self.all(tag))
        if len(found) != 1:
            raise Wrong(f"{len(found)} elements {tag} in {self.tag}, and not 1")
        return found[0]

    def elements(self) -> list[Element]:
        """The elements in it, beside which there may be no text."""
        texts = [child for child in self.children if isinstance(child, str)]
        if texts:
            raise Wrong(f"the text {texts[0]!r} in {self.tag}, which has elements")
        return [child for child in self.children if isinstance(child, Element)]

    def text(self) -> str:
        return "".join(child if isinstance(child, str) else child.text() for child in self.children)


class Reader(html.parser.HTMLParser):
    """The tree of a page whose every tag is closed in its order."""

    def __init__(self) -> None:
        super().__init__(convert_charrefs=True)
        self.root = Element("", {})
        self.open = [self.root]
        self.declared = 0

    def handle_decl(self, decl: str) -> None:
        if decl != "DOCTYPE html" or self.root.children:
            raise Wrong(f"a declaration: {decl}")
        self.declared += 1

    def handle_starttag(self, tag: str, attrs: Attributes) -> None:
        self.begin(tag, attrs)
        if tag in VOID - {"path", "rect"}:
            self.open.pop()

    def handle_startendtag(self, tag: str, attrs: Attributes) -> None:
        self.begin(tag, attrs)
        self.open.pop()

    def begin(self, tag: str, attrs: Attributes) -> None:
        attributes = dict(attrs)
        if tag not in ALLOWED:
            raise Wrong(f"an element {tag}")
        if len(attributes) != len(attrs) or not attributes.keys() <= ATTRIBUTES:
            raise Wrong(f"{tag} has the attributes {sorted(name for name, _ in attrs)}")
        for name, value in attrs:
            if value is None or FORBIDDEN.search(value):
                raise Wrong(f"{tag} has {name}={value}")
        element = Element(tag, attributes)
        self.open[-1].children.append(element)
        self.open.append(element)

    def handle_endtag(self, tag: str) -> None:
        if self.open[-1].tag != tag or len(self.open) == 1:
            raise Wrong(f"</{tag}> ends {self.open[-1].tag}")
        self.open.pop()

    def handle_data(self, data: str) -> None:
        if self.open[-1].tag == "style" and FORBIDDEN.search(data):
            raise Wrong("a style that fetches")
        self.open[-1].children.append(data)

    def handle_comment(self, data: str) -> None:
        raise Wrong(f"a comment: {data}")

    def unknown_decl(self, data: str) -> None:
        raise Wrong(f"a section: {data}")

    def handle_pi(self, data: str) -> None:
        raise Wrong(f"an instruction: {data}")


def read(page: bytes) -> Element:
    text = page.decode("utf-8")
    if re.search("[\x00-\x09\x0b-\x1f\x7f]", text.replace("\x7f", "")):
        raise Wrong("a control character")
    reader = Reader()
    reader.feed(text)
    reader.close()
    if len(reader.open) != 1 or reader.declared != 1:
        raise Wrong(f"not closed: {[element.tag for element in reader.open[1:]]}")
    root = reader.root.one("html")
    policies = [
        meta for meta in root.one("head").all("meta") if meta.attributes.get("http-equiv") == "Content-Security-Policy"
    ]
    if len(policies) != 1 or policies[0].attributes["content"] != POLICY or list(root.one("body").all("meta")):
        raise Wrong("the policy is another one")
    ids = [element.attributes["id"] for tag in ALLOWED for element in root.all(tag) if "id" in element.attributes]
    if len(set(ids)) != len(ids):
        raise Wrong("two elements have one id")
    if list(root.all("style"))[1:] or list(root.one("body").all("style")):
        raise Wrong("a style in the body")
    return root


def texts_in(element: Element, *tags: str) -> list[str]:
    """The texts of the paragraphs and lines that are in the element itself, and not deeper."""
    return [child.text() for child in element.children if isinstance(child, Element) and child.tag in tags]


def heads_of(table: Element) -> list[str]:
    """What is over the columns of the table."""
    return [head.text() for head in table.one("thead").all("th")]
