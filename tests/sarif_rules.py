"""What SARIF 2.1.0 demands of a log, as far as racebench writes it: a checker written from the standard's text (OASIS,
27 March 2020). The names of properties and those that are required were compared with Debian's
python3-sarif-python-om, which was made from the published schema; no Debian package has the schema itself. A property
that is not in the tables is wrong, also if the standard has it."""

import re
from collections.abc import Iterator
from typing import Any

from judging import Wrong

TEXT, COUNT, LINE = "text", "count", "line"
KINDS = ("notApplicable", "pass", "fail", "review", "open", "informational")
LEVELS = ("none", "note", "warning", "error")
IMPORTANCE = ("important", "essential", "unimportant")
# What a value must be: the name of an object or of a text, one of several texts, a list of that, or texts with that.
Kind = str | tuple[str, ...] | list[str] | dict[str, str]
# Each object: its properties, with what they are; an exclamation mark is after those that are required.
OBJECTS: dict[str, dict[str, Kind]] = {
    "log": {"$schema": "uri", "version!": ("2.1.0",), "runs!": ["run"]},
    "run": {"tool!": "tool", "results": ["result"], "originalUriBaseIds": {"": "artifact"}, "properties": "bag"},
    "tool": {"driver!": "driver"},
    "driver": {"name!": TEXT, "rules": ["rule"]},
    "rule": {
        "id!": TEXT,
        "name": TEXT,
        "shortDescription": "message!",
        "help": "message!",
        "defaultConfiguration": "configuration",
    },
    "configuration": {"level": LEVELS},
    "result": {
        "message!": "message!",
        "kind": KINDS,
        "level": LEVELS,
        "ruleId": TEXT,
        "ruleIndex": COUNT,
        "locations": ["location"],
        "relatedLocations": ["location"],
        "stacks": ["stack"],
        "codeFlows": ["flow"],
        "partialFingerprints": {"": TEXT},
    },
    "message!": {"text!": TEXT},
    "location": {"physicalLocation": "physical", "logicalLocations": ["logical"], "message": "message!"},
    "physical": {"artifactLocation!": "artifact", "region": "region"},
    "artifact": {"uri": "uri", "uriBaseId": TEXT, "description": "message!"},
    "region": {"startLine!": LINE},
    "logical": {"fullyQualifiedName": TEXT, "kind": TEXT},
    "stack": {"frames!": ["frame"], "message": "message!"},
    "frame": {"location": "location"},
    "flow": {"threadFlows!": ["thread"]},
    "thread": {"locations!": ["step"], "id": TEXT, "message": "message!"},
    "step": {"location": "location", "executionOrder": COUNT, "importance": IMPORTANCE},
}
NOT_EMPTY = {"threadFlows", "locations"}
# RFC 3986: a URI, or a relative reference whose first segment has no colon; no character that must be encoded.
URI = re.compile(r"(?:[A-Za-z][A-Za-z0-9+.-]*:)?(?:[A-Za-z0-9._~!$&'()*+,;=@/-]|%[0-9A-F]{2})*")


def check_value(value: object, kind: Kind, where: str) -> None:
    """Judges a value by what it must be."""
    if isinstance(kind, list):
        if not isinstance(value, list):
            raise Wrong(f"{where} is no list")
        if not value and where.split(".")[-1] in NOT_EMPTY and kind != ["location"]:
            raise Wrong(f"{where} is empty")
        for at, one in enumerate(value):
            check_value(one, kind[0], f"{where}[{at}]")
    elif isinstance(kind, dict):
        if not isinstance(value, dict):
            raise Wrong(f"{where} is no object")
        for name, one in value.items():
            check_value(one, kind[""], f"{where}.{name}")
    elif isinstance(kind, tuple):
        if value not in kind:
            raise Wrong(f"{where} is {value!r}, and none of {kind}")
    elif isinstance(kind, str) and kind in OBJECTS:
        check_object(value, kind, where)
    elif kind == "bag":
        if not isinstance(value, dict):
            raise Wrong(f"{where} is no property bag")
    elif kind in (COUNT, LINE):
        if not isinstance(value, int) or isinstance(value, bool) or value < (1 if kind == LINE else 0):
            raise Wrong(f"{where} is no such number: {value!r}")
    elif not isinstance(value, str):
        raise Wrong(f"{where} is no text: {value!r}")
    elif kind == "uri" and not URI.fullmatch(value):
        raise Wrong(f"{where} is no URI: {value!r}")


def check_object(value: object, kind: str, where: str) -> None:
    """Judges the properties of an object."""
    if not isinstance(value, dict):
        raise Wrong(f"{where} is no object")
    known = {name.rstrip("!"): (what, name.endswith("!")) for name, what in OBJECTS[kind].items()}
    for name, one in value.items():
        if name not in known:
            raise Wrong(f"{where} has {name}, which a {kind} has not")
        check_value(one, known[name][0], f"{where}.{name}")
    for name, (_, is_needed) in known.items():
        if is_needed and name not in value:
            raise Wrong(f"{where} has no {name}")


def check_artifact(artifact: dict[str, str], bases: dict[str, dict[str, str]], where: str) -> None:
    """A path beside the name of a folder is relative; that of a folder ends with a slash."""
    base = artifact.get("uriBaseId")
    if base is None:
        return
    if base not in bases:
        raise Wrong(f"{where}: no folder is called {base}")
    uri = artifact["uri"]
    if uri.startswith("/") or ":" in uri.split("/")[0]:
        raise Wrong(f"{where}: {uri} is not relative")


def locations_of(result: dict[str, Any]) -> Iterator[dict[str, Any]]:
    """Each location of a result."""
    yield from result.get("locations", [])
    yield from result.get("relatedLocations", [])
    for stack in result.get("stacks", []):
        yield from (frame["location"] for frame in stack["frames"])
    for flow in result.get("codeFlows", []):
        for thread in flow["threadFlows"]:
            yield from (step["location"] for step in thread["locations"])


def check_orders(flow: dict[str, list[dict[str, Any]]], where: str) -> None:
    """In each thread the steps rise, and no two threads have one step."""
    seen: set[int] = set()
    for at, thread in enumerate(flow["threadFlows"]):
        orders = [step["executionOrder"] for step in thread["locations"]]
        if orders != sorted(set(orders)):
            raise Wrong(f"{where}: the steps of thread {at} do not rise: {orders}")
        if seen & set(orders):
            raise Wrong(f"{where}: two threads have one step")
        seen |= set(orders)


def check_result(
    result: dict[str, Any], rules: list[dict[str, Any]], bases: dict[str, dict[str, str]], where: str
) -> None:
    """What the standard says of more than one property of a result."""
    rule = rules[result["ruleIndex"]] if result["ruleIndex"] < len(rules) else {}
    if rule.get("id") != result["ruleId"]:
        raise Wrong(f"{where}: rule {result['ruleIndex']} is not {result['ruleId']}")
    if (result["kind"] == "fail") == (result["level"] == "none"):
        raise Wrong(f"{where}: kind {result['kind']} beside level {result['level']}")
    for location in locations_of(result):
        if "physicalLocation" in location:
            check_artifact(location["physicalLocation"]["artifactLocation"], bases, where)
    for flow in result.get("codeFlows", []):
        check_orders(flow, where)


def check(log: dict[str, Any]) -> None:
    """Judges a log."""
    check_object(log, "log", "log")
    for number, run in enumerate(log["runs"]):
        rules = run["tool"]["driver"].get("rules", [])
        if len({rule["id"] for rule in rules}) != len(rules):
            raise Wrong("two rules have one name")
        bases = run.get("originalUriBaseIds", {})
        for name, base in bases.items():
            if "uri" in base and not base["uri"].endswith("/"):
                raise Wrong(f"the folder {name} has no slash at its end: {base['uri']}")
        for at, result in enumerate(run.get("results", [])):
            check_result(result, rules, bases, f"run {number}, result {at}")
