"""Makes the data of a page of a run, stored or live: what `page.js` draws, and nothing of how it looks.

A run has what holds for all of its moments, its rows and their layout, and its moments, each as what differs from the
one before it. A page has no element that isn't made of these by `page.js`.
"""

import json
from collections.abc import Iterable, Mapping, Sequence

from lcrq_tools import model
from lcrq_tools.draw.figure import ACTORS
from lcrq_tools.draw.lanes import Row
from lcrq_tools.draw.moment import Code
from lcrq_tools.draw.viewer_marks import viewer_name
from lcrq_tools.page import page_lanes, page_moments, page_viewers
from lcrq_tools.page.page_parts import Chips, Rooms
from lcrq_tools.page.mirror import State

Data = dict[str, object]


class Pseudocode:
    """The pseudo-code of docs/MODEL.md."""

    def __init__(self) -> None:
        text = model.PAGE.read_text(encoding="utf-8")
        self.code: Code = model.lines_of(text)
        self.steps = model.read(text)[0]

    def chips(self, state: State) -> Chips:
        """What each actor is about to do at a moment; nothing of one that is in no call."""
        return page_moments.chips_of(state, self.code, self.steps)

    def calls(self) -> list[Data]:
        """Each call with its head, and the lines of its control points."""
        calls = ((head, call, self.code[call].items()) for head, call in model.CALLS.items())
        return [
            {"head": head, "call": call, "points": [[name, "\n".join(lines)] for name, lines in points]}
            for head, call, points in calls
        ]


def named_viewers(states: Iterable[State], rows: Iterable[Row]) -> list[int]:
    """The viewers who asked these lines and steps; none where a script is shown."""
    return sorted({*(state.viewer for state in states), *(row.viewer for row in rows)} - {0})


def moments_of(states: Iterable[State]) -> Data:
    """The moments, and the rooms that they need."""
    pseudocode, rooms, wholes = Pseudocode(), Rooms(), []
    for state in states:
        chips = pseudocode.chips(state)
        rooms.take(state, chips)
        wholes.append(page_moments.whole_of(state, chips))
    differences = page_moments.differences_of(wholes)
    return {"code": pseudocode.calls(), "room": rooms.css(), "moments": differences}


def run_of(
    given: Data, first: State, rows: Mapping[int, Row], layout: Data, viewers: Sequence[int]
) -> Data:
    """The data of a run but for its moments: what is given of it, and its rows, layout and viewers."""
    return given | {
        "first": first.line,
        "above": first.above,
        "colours": len(ACTORS),
        "actors": len(first.actors),
        "names": {str(viewer): viewer_name(viewer) for viewer in viewers},
        "marks": page_viewers.marks_of(viewers),
        "layout": layout,
        "rows": {str(number): page_lanes.data_of(row) for number, row in rows.items()},
    }


def text_of(run: Data) -> str:
    """A run as JSON without spaces, a part or a moment a line; nothing in it ends the script that has it."""
    compact = json.JSONEncoder(separators=(",", ":")).encode
    lines = [f"{compact(key)}:{compact(value)}" for key, value in run.items() if key != "moments"]
    moments = run["moments"]
    assert isinstance(moments, list)
    lines.append('"moments":[\n{}\n]'.format(",\n".join(map(compact, moments))))
    return "{{{}}}".format(",\n".join(lines)).replace("<", "\\u003c")
