"""Draws calls as histories are drawn on a whiteboard, for `calls.py`: an actor a row, a call an interval in it.

Above an interval stands what was asked, below it the reply. Begins and ends have the order of the run, and nothing
else is said about time. One that is pending has no end. In an interval that has its place in an order is a point with
its number. The same calls give the same bytes.
"""

import itertools
from collections.abc import Iterator, Mapping, Sequence
from dataclasses import dataclass
from xml.etree.ElementTree import Element

from lcrq_tools.calls.intervals import Call
from lcrq_tools.draw.figure import (
    ASKED, ASKED_WORDS, BAND, DARK, GREY, GROUND, HEAD, MARGIN, PLAIN, SMALL, colour_of, element, group, svg, width_of,
    words_at,
)

STEP = 18.0  # from a begin or an end to the next one, at least
ROW, BAR, POINT = 66, 9, 4.5  # how high a row is, half of how high an end of an interval is, and a point's radius
LABEL, TOP, LINE, NUMBER = 66, 34, 16, 8  # how wide a row's name is; how high title, line and number of a point are
PALE = 0.35  # how opaque calls are that don't matter
JUDGED = "This is about these calls alone: it says nothing of other runs, and nothing of LCRQ."


@dataclass(frozen=True)
class Board:
    """What is drawn: the calls, and where they were looked at, what was found: orders, culprits and words."""

    name: str
    calls: tuple[Call, ...]
    orders: tuple[tuple[Call, ...], ...] = ()
    culprits: tuple[Call, ...] = ()
    lines: tuple[str, ...] = ()


class Scale:
    """Where begins and ends are, from left to right, so that the words of each call have room."""

    def __init__(self, calls: Sequence[Call]) -> None:
        ends = {call.end: call for call in calls if not call.is_pending()}
        self.times = sorted([*(call.begin for call in calls), *ends])
        self.across: dict[int, float] = {}
        x = MARGIN + LABEL - STEP
        for time in self.times:
            x += STEP
            if time in ends:
                x = max(x, self.across[ends[time].begin] + room_of(ends[time]))
            self.across[time] = x
        pending = (self.across[call.begin] + room_of(call) for call in calls if call.is_pending())
        self.end = max([x, *pending]) + STEP

    def end_of(self, call: Call) -> float:
        """Where a call ends, or the picture."""
        return self.end if call.is_pending() else self.across[call.end]


def room_of(call: Call) -> float:
    """How wide a call's words are."""
    return max(width_of(text, PLAIN) for text in (call.asked(), call.reply())) + 2


# ---- Points ---------------------------------------------------------------------------------------


def places_in(order: Sequence[Call], times: Sequence[int]) -> list[int]:
    """Between which two of all begins and ends each call of an order has its point: about in the middle of where it
    can be."""
    rank = {time: number for number, time in enumerate(times)}
    begins = [rank[call.begin] for call in order]
    ends = [len(times) if call.is_pending() else rank[call.end] for call in reversed(order)]
    firsts = [*itertools.accumulate(begins, lambda one, other: max(one, other))]
    lasts = [*itertools.accumulate(ends, lambda one, other: min(one, other))]
    return [(first + last - 1) // 2 for first, last in zip(firsts, reversed(lasts))]


def points_of(order: Sequence[Call], scale: Scale) -> dict[Call, float]:
    """Where the points of an order are: those between the same begins and ends stand side by side."""
    points: dict[Call, float] = {}
    pairs = zip(places_in(order, scale.times), order)
    for place, same in itertools.groupby(pairs, key=lambda pair: pair[0]):
        calls = [call for _, call in same]
        left = scale.across[scale.times[place]]
        right = scale.across[scale.times[place + 1]] if place + 1 < len(scale.times) else scale.end
        for number, call in enumerate(calls, 1):
            points[call] = left + (right - left) * number / (len(calls) + 1)
    return points


# ---- Elements -------------------------------------------------------------------------------------


def interval(call: Call, scale: Scale, y: float, board: Board) -> Element:
    """A call as an interval with its words."""
    left, right = scale.across[call.begin], scale.end_of(call)
    is_culprit = call in board.culprits
    line, words = (ASKED, ASKED_WORDS) if is_culprit else colour_of(call.actor)
    ends = [left] if call.is_pending() else [left, right]
    dash = "5 4" if call.is_pending() else None
    drawn = [element("line", x1=left, y1=y, x2=right, y2=y, stroke=line, stroke_width=2.5, stroke_dasharray=dash)]
    drawn += [element("line", x1=x, y1=y - BAR, x2=x, y2=y + BAR, stroke=line, stroke_width=2.0) for x in ends]
    drawn += [
        words_at(left + 1, y - BAR - NUMBER, call.asked(), PLAIN, words, bold=is_culprit),
        words_at(left + 1, y + BAR + PLAIN, call.reply(), PLAIN, words, bold=is_culprit),
    ]
    pale = PALE if board.culprits and not is_culprit else None
    return group("culprit" if is_culprit else "call", drawn, opacity=pale)


def point(number: int, x: float, y: float) -> list[Element]:
    """The point of a call, and its number in the order."""
    dot = element("circle", class_="point", cx=x, cy=y, r=POINT, fill=DARK, stroke=GROUND, stroke_width=1.5)
    return [dot, words_at(x, y - POINT - 2, str(number), SMALL, DARK, "middle")]


def rows_of(calls: Sequence[Call]) -> dict[int, float]:
    """Where the row of each actor is."""
    actors = sorted({call.actor for call in calls})
    return {actor: TOP + ROW * (number + 0.5) for number, actor in enumerate(actors)}


def about(board: Board) -> str:
    """What the picture shows, in words."""
    said = [*(f"{call}." for call in board.calls), *board.lines]
    for order in board.orders:
        said.append("The order: " + ", ".join(f"{call.asked()} of actor {call.actor}" for call in order) + ".")
    return " ".join(said)


def elements_of(board: Board, scale: Scale, rows: Mapping[int, float], width: float) -> Iterator[Element]:
    """What is drawn."""
    yield words_at(MARGIN, MARGIN + 4, f"Calls of {board.name}", HEAD, DARK, bold=True)
    for number, (actor, y) in enumerate(rows.items()):
        if number % 2 == 0:
            yield element("rect", x=0, y=y - ROW / 2, width=width, height=ROW, fill=BAND)
        yield words_at(MARGIN, y + 4, f"actor {actor}", PLAIN, colour_of(actor)[1], bold=True)
    yield group("calls", (interval(call, scale, rows[call.actor], board) for call in board.calls))
    for order in board.orders:
        points = points_of(order, scale)
        drawn = (point(number, points[call], rows[call.actor]) for number, call in enumerate(order, 1))
        yield group("order", itertools.chain.from_iterable(drawn))
    y = TOP + ROW * len(rows) + LINE
    for number, text in enumerate(board.lines):
        yield words_at(MARGIN, y + LINE * number, text, PLAIN, GREY if text == JUDGED else DARK)


def draw(board: Board) -> str:
    """The calls as SVG."""
    scale, rows = Scale(board.calls), rows_of(board.calls)
    words = [width_of(f"Calls of {board.name}", HEAD, True), *(width_of(text, PLAIN) for text in board.lines)]
    width = max(scale.end, MARGIN + max(words)) + MARGIN
    height = TOP + ROW * len(rows) + LINE * len(board.lines) + MARGIN
    inside = elements_of(board, scale, rows, width)
    return svg(f"Calls of {board.name}", about(board), float(round(width)), float(height), inside)
