"""Compares a moment of a live page with what the program replies when it is asked anew, for `checks/live_page.py`.

The session after so many lines is loaded as a trace, and asked about its queue, its actors and its steps. Who asked a
step is known by the line that made it.
"""

import argparse
from collections.abc import Sequence
from pathlib import Path
from typing import Any

from lcrq_tools.checks import replies
from lcrq_tools.checks.replies import Replies
from lcrq_tools.draw.figure import Session
from lcrq_tools.live.folded import Moment
from lcrq_tools.records import Event

ACTORS, RING = 4, 2
WORLD = ["--actors", str(ACTORS), "--ring", str(RING)]

Line = tuple[int, str, str]  # who asked it, its text and its reply


def session_of(built: str, script: Path, line: int) -> Session:
    """The session that so many lines of a script leave."""
    named: dict[str, object] = {"script": str(script), "history": None, "trace": None, "actors": ACTORS, "ring": RING}
    return Session(argparse.Namespace(**named, lines=line, refused=True, program=built))


def steps_fault(
    state: Moment, rows: dict[str, Any], above: int, asked: Replies, labels: Sequence[str],
    lines: Sequence[Line],
) -> str:
    """Which step isn't as the program replies, or isn't of the viewer whose line made it, or nothing."""
    counts, wanted = (state["live"], state["undone"]), (asked.live, asked.undone)
    if counts != wanted:
        return f"{counts} steps are live and undone, and {wanted} as the program replies"
    listed = [*zip(asked.steps, labels)][above:]
    for row, (step, label) in zip(state["rows"], listed):
        has = rows[str(row)]
        viewer, line, _ = lines[row - 1]
        if not has["about"].startswith(label) or Event.read(line) != step.event or has["viewer"] != viewer:
            return f"row {row} is {has}, and {step.event} by `{viewer} {line}` {label}"
    return "" if len(state["rows"]) >= min(len(listed), 1) else "no step is listed"


def moment_fault(
    built: str, script: Path, lines: Sequence[Line], state: Moment, rows: dict[str, Any], above: int
) -> str:
    """What is wrong with a moment, or nothing."""
    line: int = state["line"]
    session = session_of(built, script, line)
    asked = replies.asked_at(session)
    labels = replies.labels_along(session.words, asked.steps)
    given = (state["viewer"], state["text"], state["reply"])
    fault = (
        ("" if not line or given == tuple(lines[line - 1]) else f"it is {given}, wanted {lines[line - 1]}")
        or asked.drawn_fault(state) or asked.chips_fault(state["actors"])
        or steps_fault(state, rows, above, asked, labels, lines)
    )
    return fault and f"line {line}: {fault}"
