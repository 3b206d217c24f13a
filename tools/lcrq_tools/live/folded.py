"""Puts together what a run's moments change, as `page.js` does: for `session.py`, which says whose step was undone, and
for checks.

A moment has only what differs from the one before it. Of the rows so many are kept, and in places and actors
nothing stands for what is gone.
"""

from collections.abc import Mapping
from itertools import accumulate
from typing import Any

Change = dict[str, Any]  # as JSON has it
Moment = dict[str, Any]  # a whole one

MANY = ("places", "actors")  # of which only what differs is there


def folded(before: Moment, change: Change) -> Moment:
    """The moment behind a change."""
    after = before | change
    if "rows" in change:
        kept, others = change["rows"]
        after["rows"] = [*before.get("rows", [])[:kept], *others]
    for part in MANY:
        if part in change:
            merged = before.get(part, {}) | change[part]
            after[part] = {name: value for name, value in merged.items() if value is not None or part == "actors"}
    return after


def moments_of(run: Mapping[str, Any]) -> list[Moment]:
    """The whole moments of a run as the server hands it out."""
    changes: list[Change] = [{}, *run["moments"]]
    return [*accumulate(changes, folded)][1:]
