"""What reports say of a recording that is not whole, for the judges."""

import json

BEGIN = "recording|begin(RECORDED)|\n"
WHOLE = "recording|end(WHOLE)|\n"
# How a recording ends, and what is then missing.
ENDS = [
    (WHOLE, ""),
    (WHOLE.removesuffix("\n"), ""),
    ("recording|end(LEFT OUT 7 FROM 90: DISK)|\n", "left out 7 from 90: DISK"),
    ("recording|end(LEFT OUT 0 FROM 0: A FORK, or -1)|", "left out 0 from 0: A FORK, or -1"),
    ("recording|end(LEFT OUT 7 FROM 90: A;B)|\n", "no end of the recording was read"),
    ("recording|end(LEFT OUT FROM 90: DISK)|\n", "no end of the recording was read"),
    ("recording|end(WHOLE)\n", "no end of the recording was read"),
    (WHOLE + "\n", "no end of the recording was read"),
    ("", "no end of the recording was read"),
]


def missing_line(form: str, missing: str, report: bytes) -> bytes:
    """The report in this form with what is missing, if anything is. A SARIF log has its members in another order."""
    what = missing.encode()
    if not missing:
        return report
    if form == "--json":
        return b'{"absent":"' + what + b'",' + report.removeprefix(b"{")
    if form == "--lines":
        return b"?: warning: the recording is not whole: " + what + b" [not-whole]\n" + report
    if form == "--page":
        note = b"<p><strong>The recording is not whole:</strong> " + what + b"</p>\n"
        return report.replace(b"<main>\n", b"<main>\n" + note, 1)
    if form == "--sarif":
        log = json.loads(report)
        notification = {"level": "warning", "message": {"text": f"The recording is not whole: {missing}"}}
        log["runs"][0]["invocations"] = [{"executionSuccessful": True, "toolExecutionNotifications": [notification]}]
        return json.dumps(log, sort_keys=True).encode()
    return b"not whole: " + what + b"\n" + report


def sorted_log(form: str, missing: str, report: bytes) -> bytes:
    """The report; a SARIF log that says what is missing with its members in the order of their names."""
    if form != "--sarif" or not missing:
        return report
    return json.dumps(json.loads(report), sort_keys=True).encode()


def status_of(has_races: bool, has_events: bool, missing: str) -> int:
    """The status of `--fail`."""
    return 3 if has_races else 4 if missing or not has_events else 0
