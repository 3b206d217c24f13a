"""Lays out the steps of a run as lanes for `page.py`, and makes each step a row of data.

`page.js` draws them: a row moves between the live steps and the undone ones, so it is laid out once, and has no
place of its own.
"""

from collections.abc import Collection, Iterable, Mapping, Sequence

from lcrq_tools.draw.figure import MARGIN, SMALL, width_of
from lcrq_tools.draw.lanes import Across, Row, Widths, actor_lane, actor_of, lanes_at, name_of, order_of
from lcrq_tools.draw.viewer_marks import width_of_marks
from lcrq_tools.page.mirror import number_of
from lcrq_tools.records import Place

# Sizes of the drawing, in its pixels: the least width, and where the first row is, also below what is on the lanes
# before it; the room around the marks of viewers.
LEAST, FIRST, BELOW_START, BESIDE, BEHIND = 420.0, 12, 24, 6, 4


def layout_of(
    lanes: Sequence[str], widths: Widths, viewers: Collection[int], start: Mapping[str, str] = {}, start_name: str = ""
) -> dict[str, object]:
    """Where the lanes and the bands around them are, and what is on the lanes before the first row."""
    numbers = round(MARGIN + max(width_of(name, SMALL) for name in ("undone", start_name)), 1)
    across = Across(lanes, widths, numbers + BESIDE + (width_of_marks(viewers) + BEHIND if viewers else 0))
    return {
        "width": round(max(across.right + MARGIN, LEAST)),
        "numbers": numbers,
        "first": BELOW_START if start_name else FIRST,
        "start": {lane: text for lane, text in start.items() if text},
        "start_name": start_name,
        "lanes": [[lane, head_of(lane), x, actor_of(lane)] for lane, x in across.lanes.items()],
        "bands": [[across.heading_of(band), left, right] for band, left, right in across.bands],
    }


def lanes_of_rows(rows: Iterable[Row]) -> set[str]:
    """All lanes of these rows."""
    return {lane for row in rows for lane in (actor_lane(row.actor()), *lanes_at(row.step.place))}


def in_order(lanes: Iterable[str], *chains: Iterable[str]) -> list[str]:
    """Lanes from the left to the right. Their segments are in the order of these chains, and others follow by their
    numbers."""
    given = {lane: Place.read(lane).segment for lane in lanes}
    names = {*given.values()} - {""}
    order = dict.fromkeys(name for chain in chains for name in chain if name in names)
    chain = [*order, *sorted(names - order.keys(), key=number_of)]
    return sorted(given, key=lambda lane: order_of(lane, chain))


def head_of(lane: str) -> str:
    """What is above a lane."""
    return lane if actor_of(lane) else name_of(lane)


def data_of(row: Row) -> dict[str, object]:
    """A row as a page has it."""
    return {
        "actor": row.actor(), "about": row.about(), "point": row.point, "reply": row.step.reply, "viewer": row.viewer,
        "dots": [[dot.lane, dot.kind, dot.text] for dot in row.dots],
    }
