"""The legend of the messages, screen_app/messages.py: server and page have each message and key that it lists."""

import os
import re
from typing import Any, get_args, is_typeddict

from comparing import same
from legend import keys_of, wrong_answer, wrong_push, wrong_request
from screen_app.messages import PUSHES, REQUESTS, Gone, Mistake
from screen_app.requests import Requests


def test_the_server_answers_each_request() -> None:
    same({name.removeprefix("do_") for name in dir(Requests) if name.startswith("do_")}, set(REQUESTS))


STATIC = os.path.join(os.path.dirname(os.path.dirname(os.path.abspath(__file__))), "static")


def code() -> str:
    """The code of the page."""
    texts = []
    for name in sorted(os.listdir(STATIC)):
        if name.endswith(".js"):
            with open(os.path.join(STATIC, name), encoding="utf-8") as file:
                texts.append(file.read())
    return "\n".join(texts)


# What the connection says by itself.
OWN = {"open", "closed"}
# Where the page asks, and where it takes a push. A step is made by the function that asks for it.
ASKS = re.compile(r'\b(?:ask|act|actOn|step|make)\((?:shown, |sheet\.shown\(\), |before, )?"([a-z_]+)"')
HEARS = re.compile(r'\bon\("([a-z]+)"')


def test_the_page_knows_each_message() -> None:
    text = code()
    same(set(ASKS.findall(text)) ^ set(REQUESTS), set())
    same(set(HEARS.findall(text)) - OWN, set(PUSHES))


def kinds() -> list[Any]:
    return [Mistake, Gone, *PUSHES.values(), *(kind for shapes in REQUESTS.values() for kind in shapes)]


def all_keys(kind: Any, found: set[str]) -> set[str]:
    """The keys of a message and of all that it has."""
    if is_typeddict(kind):
        for key, hint, _ in keys_of(kind):
            found.add(key)
            all_keys(hint, found)
    for inner in get_args(kind):
        all_keys(inner, found)
    return found


WORD = re.compile(r"[a-z]{2,}(_[a-z]{2,})*")


def test_keys_are_whole_words() -> None:
    """On both sides: in the legend, and what the page reads."""
    keys = {key for kind in kinds() for key in all_keys(kind, set())}
    same([key for key in sorted(keys) if not WORD.fullmatch(key)], [])
    text = re.sub(r"//.*", "", code())
    same(re.findall(r"(?<!dataset)(?<=[\w\])])\??\.[a-wz]\b(?!\()", text), [])  # x and y are of points
    same([key for key in sorted(keys) if not re.search(rf"\b{key}\b", text)], [])


EVENT: dict[str, object] = {"event": 1, "thread": 0, "operation": "w", "name": "x", "location": "a:1"}


def test_a_message_that_is_otherwise_is_found() -> None:
    """A key that is missing, one that is not in the legend, and a value of another kind, however deep."""
    for message, wrong in (
        ({"id": 1, "do": "seen", "log_length": 3}, []),
        ({"id": 1, "do": "seen"}, ["seen: log_length is missing"]),
        ({"id": 1, "do": "seen", "log_length": "3"}, ["seen.log_length: '3' is no int"]),
        ({"id": 1, "do": "seen", "log_length": 3, "n": 3}, ["seen: n is not in the legend"]),
        ({"id": 1, "do": "see"}, ["see is not in the legend"]),
        ({"id": 1, "do": "pair", "pair": [1, None]}, ["pair.pair: None is no int"]),
    ):
        same(wrong_request(message), wrong)
    answers: list[tuple[str, dict[str, object], int]] = [
        ("pair", {"id": 1, "accesses": [EVENT]}, 0),
        ("pair", {"id": 1, "accesses": [EVENT | {"e": 1}]}, 1),
        ("pair", {"id": 1, "accesses": [EVENT | {"name": True}]}, 1),
        ("pair", {"id": 1, "mistake": "no such event"}, 0),
        ("pair", {"id": 1, "gone": "it ended"}, 1),
        ("swap", {"id": 1, "answer": "", "stop": {"position": 1, "why": "", "with": EVENT}}, 0),
        ("run", {"id": 1, "answer": "", "stop": {"position": 1}}, 1),
        ("seen", {"id": 1, "told": 1}, 1),
    ]
    for do, answer, number in answers:
        same((do, len(wrong_answer(do, answer))), (do, number))
    row: dict[str, object] = {"name": "A", "owner": 1, "length": 0, "birth": [0, 0], "by": 1, "touched": 0}
    same(wrong_push({"push": "log", "log_length": 1, "entries": [], "rows": {"A": row, "B": None}}), [])
    same(len(wrong_push({"push": "log", "log_length": 1, "entries": [{}], "rows": {"A": row | {"birth": [0]}}})), 5)
    same(len(wrong_push({"push": "log"})), 3)
    same(wrong_push({"push": "names", "names": {"2": 3}}), ["names.names: 3 is no str"])
    same(wrong_push({"push": "news"}), ["news is not in the legend"])
