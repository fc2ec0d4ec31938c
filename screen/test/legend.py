"""Judges messages by the legend, screen_app/messages.py: each key, and the kind of each value."""

import json
import types
from collections.abc import Iterator, Set
from typing import Any, NotRequired, get_args, get_origin, get_type_hints, is_typeddict

from screen_app.messages import PUSHES, REQUESTS, Gone, Mistake

# What each message has beside what the legend says of it.
REQUEST, ANSWER, PUSH = {"id", "do"}, {"id"}, {"push"}


def keys_of(kind: Any) -> Iterator[tuple[str, Any, bool]]:
    """The keys of a message, each with the kind of its value and whether it may be left out."""
    for key, hint in get_type_hints(kind, include_extras=True).items():
        is_optional = get_origin(hint) is NotRequired or key in kind.__optional_keys__
        yield key, get_args(hint)[0] if get_origin(hint) is NotRequired else hint, is_optional


def wrong_keys(value: object, kind: Any, where: str, more: Set[str] = frozenset()) -> list[str]:
    """What is wrong with a dictionary."""
    if not isinstance(value, dict):
        return [f"{where}: {value!r} is no message"]
    known = {key: (hint, is_optional) for key, hint, is_optional in keys_of(kind)}
    found = [f"{where}: {key} is not in the legend" for key in value if key not in known and key not in more]
    for key, (hint, is_optional) in known.items():
        if key in value:
            found += wrong(value[key], hint, f"{where}.{key}")
        elif not is_optional:
            found.append(f"{where}: {key} is missing")
    return found


def wrong(value: object, kind: Any, where: str) -> list[str]:
    """What is wrong with a value. JSON has no tuples, and its keys are texts."""
    origin, inner = get_origin(kind), get_args(kind)
    if kind is Any:
        return []
    if isinstance(kind, types.UnionType):
        return [] if any(not wrong(value, one, where) for one in inner) else [f"{where}: {value!r} is no {kind}"]
    if is_typeddict(kind):
        return wrong_keys(value, kind, where)
    if origin in (list, tuple):
        kinds = inner * len(value) if origin is list and isinstance(value, list) else inner
        if not isinstance(value, list) or len(value) != len(kinds):
            return [f"{where}: {value!r} is no list of {inner}"]
        return [text for one, own in zip(value, kinds) for text in wrong(one, own, where)]
    if origin is dict:
        if not isinstance(value, dict):
            return [f"{where}: {value!r} is no {kind}"]
        return [text for one in value.values() for text in wrong(one, inner[1], where)]
    is_right = isinstance(value, kind) and not (kind is int and isinstance(value, bool))
    return [] if is_right else [f"{where}: {value!r} is no {kind.__name__}"]


def wrong_request(request: dict[str, Any]) -> list[str]:
    """What is wrong with what the page asks."""
    do = request.get("do")
    return wrong_keys(request, REQUESTS[do][0], do, REQUEST) if do in REQUESTS else [f"{do} is not in the legend"]


def wrong_answer(do: str, answer: dict[str, Any]) -> list[str]:
    """What is wrong with the answer to such a request."""
    kind = next((one for key, one in (("mistake", Mistake), ("gone", Gone)) if key in answer), REQUESTS[do][1])
    return wrong_keys(answer, kind, f"the answer to {do}", ANSWER)


def wrong_push(push: dict[str, Any]) -> list[str]:
    """What is wrong with what the server says without being asked."""
    what = push["push"]
    return wrong_keys(push, PUSHES[what], what, PUSH) if what in PUSHES else [f"{what} is not in the legend"]


class Listener:
    """Hears the messages of one page, and keeps what is wrong with them."""

    def __init__(self, faults: list[str]) -> None:
        self.faults = faults
        self.asked: dict[int, str] = {}

    def sent(self, text: str) -> None:
        if text.startswith("{"):  # else it is the page's key
            message = json.loads(text)
            self.asked[message["id"]] = message["do"]
            self.faults += wrong_request(message)

    def received(self, text: str) -> None:
        message = json.loads(text or "{}")  # a ping is empty
        if "push" in message:
            self.faults += wrong_push(message)
        elif self.asked.get(message.get("id")) in REQUESTS:
            self.faults += wrong_answer(self.asked.pop(message["id"]), message)
