"""Lays out a picture of a run for `drawing.py`, and the lanes of a page for `page_lanes.py`.

A picture is its lanes and its rows. A lane is named after its actor or its place. Rows stand in parts,
each below headings of its own, so that a long picture can be read. Where steps of the run are left out,
a break stands between two rows. Labels get the room that a wide font needs, so that no two overlap.
"""

import itertools
from collections.abc import Collection, Iterable, Mapping, Sequence
from dataclasses import dataclass, field

from lcrq_tools.draw.figure import HEAD, MARGIN, PLAIN, SMALL, width_of
from lcrq_tools.draw.viewer_marks import viewer_name, width_of_marks
from lcrq_tools.records import Actor, Place, Step, content_of
from lcrq_tools.speak.sentences import Seen, of_actor
from lcrq_tools.speak.teller import asked_of, seen_of

# Sizes, in pixels.
ROW, DOT, GAP, BREAK = 22, 4.5, 14, 10
BAND_TOP, LANE_TOP, FIRST_ROW, PART_END = 8, 62, 82, 14
LEGEND_ROW, MARK = 18, 20

MOST_BELOW = 40  # rows below one heading


@dataclass
class Dot:
    """What a step did on one lane."""

    lane: str
    kind: str  # wrote, read or lost
    text: str


def dot_of(step: Step, lane: str, before: str, after: str) -> Dot:
    """What a step did on one lane of its place, by the contents before and after it."""
    if step.answer == "lost":
        return Dot(lane, "lost", before)
    kind = Place.read(lane).kind
    if step.access == "wrote" or step.access == "wrote index" and kind == "index":
        counts = before and kind in ("head", "tail", "ahead", "atail", "acell")
        return Dot(lane, "wrote", f"{before} → {after}" if counts else after)
    return Dot(lane, "read", before)


@dataclass
class Row:
    """A step: `point` is its control point, its choice or its call."""

    step: Step
    point: str
    dots: list[Dot] = field(default_factory=list)
    is_undone: bool = False
    goes: bool = False  # taken by the rollback that is asked for
    is_free: bool = False  # could be undone alone now
    viewer: int = 0  # who asked it, where the run is of viewers
    seen: Seen | None = None  # with what is around it

    def name(self) -> str:
        """Its number or `undone`."""
        return "undone" if self.is_undone else str(self.step.number)

    def actor(self) -> int:
        """The actor that made it."""
        return self.step.event.actor

    def fill(self, actor: Actor, contents: Iterable[tuple[str, str, str]]) -> None:
        """Puts into it the actor before its step, and the content of its lanes before and after it."""
        if not actor.is_idle():
            self.point = f"{actor.point} {self.point}".strip()
        self.dots = [dot_of(self.step, *content) for content in contents]

    def questions(self, lanes: Collection[str], before: int) -> list[str]:
        """What is asked about it from behind step `before` on: its actor and its lanes before and after it, and
        its place after it."""
        around = [actor_lane(self.actor()), *(f"show {lane}" for lane in lanes_of(self.step.place, lanes))]
        return [f"forward {self.step.number - before - 1}", *around, "forward 1", *around, *asked_of(self.step)]

    def take(self, lanes: Collection[str], replies: Sequence[str], steps: Sequence[Step] = ()) -> None:
        """Fills it with the replies to these questions, and with the steps of the run, where it may name some."""
        touched = lanes_of(self.step.place, lanes)
        end = 2 + len(touched)
        before, after = replies[1:end], replies[end + 1: 2 * end]
        self.fill(Actor.read(before[0]), zip(touched, map(content_of, before[1:]), map(content_of, after[1:])))
        self.seen = seen_of(self.step, Actor.read(before[0]), Actor.read(after[0]), replies[2 * end:], steps)

    def about(self) -> str:
        """The step in words, without its number and its viewer."""
        return of_actor(self.seen) if self.seen else str(self.step.event)

    def words(self) -> str:
        """The step in words, without its number."""
        return f"{viewer_name(self.viewer)}, {self.about()}" if self.viewer else self.about()


def row_of(step: Step, is_undone: bool = False) -> Row:
    """The row of a step, without its dots and its control point."""
    return Row(step, step.event.called(), is_undone=is_undone)


@dataclass
class Call:
    """A call of an actor, by the numbers of its first and its last step."""

    actor: int
    begin: int  # 0 if it began before the first step that may be drawn
    end: int | None  # none if it has no reply


@dataclass
class Picture:
    """What is to be drawn."""

    title: str
    lanes: list[str]
    rows: list[Row]
    start: dict[str, str]  # what is on a lane before the first row, where that is shown
    first: int  # the numbers of the steps among which the rows were chosen
    last: int
    start_name: str = ""
    chosen: str = ""  # which steps are drawn, in words; nothing if all are
    apart: set[str] = field(default_factory=set)  # the segments that were never linked
    calls: list[Call] = field(default_factory=list)
    bar: tuple[str, int, int] | None = None  # a lane, and the rows from which to which it is marked
    frame: int | None = None  # the row that may go alone
    hidden: int = 0  # how many steps the rollback takes that have no row
    asked: str = ""
    shows_free: bool = False

    def viewers(self) -> list[int]:
        """The viewers who asked the steps that have rows."""
        return sorted({row.viewer for row in self.rows} - {0})


# ---- Lanes ---------------------------------------------------------------------------------------


def actor_lane(actor: int) -> str:
    """The name of an actor's lane."""
    return f"actor {actor}"


def actor_of(lane: str) -> int:
    """The actor of a lane; 0 for a lane of memory."""
    place = Place.read(lane)
    return place.index or 0 if place.kind == "actor" else 0


def lanes_of(place: Place, shown: Collection[str]) -> list[str]:
    """The lanes of a place: those of its halves for a cell, and all that are shown of a segment."""
    if place.kind == "whole":
        return [lane for lane in shown if Place.read(lane).segment == place.segment]
    return [str(part) for part in place.parts()]


def lanes_at(place: Place) -> list[str]:
    """The lanes that a place has to have: a cell both, and a segment that is made its tail and its
    first cell at least, in which the value is."""
    if place.kind == "whole":
        return [f"tail {place.segment}", f"value {place.segment} 0", f"index {place.segment} 0"]
    return lanes_of(place.half("cell") if place.kind in ("value", "index") else place, ())


def order_of(lane: str, chain: Sequence[str]) -> tuple[int | str, ...]:
    """Where a lane is: actors, the queue's ends, the segments in this order, the array."""
    place = Place.read(lane)
    kind, index = place.kind, place.index or 0
    if kind == "actor":
        return (0, index)
    if kind in ("qhead", "qtail"):
        return (1, kind)
    if not place.segment:
        return (3, int(kind == "acell"), index, kind)
    column = {"head": 0, "tail": 1, "value": 2, "index": 2, "next": 3}[kind]
    return (2, chain.index(place.segment), column, index, kind == "index")


def name_of(lane: str) -> str:
    """What is above a lane."""
    place = Place.read(lane)
    if place.kind == "acell":
        return f"slot {place.index}"
    return {"index": "safe idx", "ahead": "head", "atail": "tail"}.get(place.kind, place.kind)


def band_of(lane: str) -> str:
    """The name of the band in which a lane is: that of a segment, `queue`, `array`, or none."""
    place = Place.read(lane)
    if place.kind in ("qhead", "qtail"):
        return "queue"
    return "" if place.kind == "actor" else place.segment or "array"


# ---- Where everything is --------------------------------------------------------------------------


def least_of(lane: str) -> tuple[float, float]:
    """How much room a lane needs at its left and its right for its name."""
    half = (width_of(lane, HEAD, True) if actor_of(lane) else width_of(name_of(lane), SMALL)) / 2 + 2
    return (half, half) if actor_of(lane) else (max(half, 12), half)


class Widths:
    """How much room each lane needs at its left and its right: for its name, for what is there before the first row,
    and for the words of the rows that were taken."""

    def __init__(self, start: Mapping[str, str], rows: Iterable[Row] = ()) -> None:
        self.rooms: dict[str, tuple[float, float]] = {}
        for lane, text in start.items():
            is_left = actor_of(lane) > 0
            self.widen(lane, width_of(text, PLAIN) + 16 if is_left else 0, 0 if is_left else self.beside(text))
        for row in rows:
            self.take(row)

    def beside(self, text: str) -> float:
        """The room of a text beside a dot."""
        return width_of(text, SMALL, True) + 10

    def take(self, row: Row) -> None:
        """Makes room for the words of a row too."""
        reply = width_of(row.step.reply, PLAIN, True) + 14
        self.widen(actor_lane(row.actor()), width_of(row.point, PLAIN) + 16, reply)
        for dot in row.dots:
            self.widen(dot.lane, 0, self.beside(dot.text))

    def widen(self, lane: str, left: float, right: float) -> None:
        """Gives a lane this room at least."""
        before, after = self.of(lane)
        self.rooms[lane] = max(before, left), max(after, right)

    def of(self, lane: str) -> tuple[float, float]:
        """The room of a lane."""
        return self.rooms.get(lane) or least_of(lane)


class Across:
    """Where the lanes of some rows and the bands around them are, from the left to the right."""

    def __init__(self, lanes: Iterable[str], widths: Widths, left: float, apart: Collection[str] = ()) -> None:
        self.apart, self.right = apart, left
        self.lanes: dict[str, int] = {}
        self.bands: list[tuple[str, int, int]] = []
        for band, inside in itertools.groupby(lanes, band_of):
            self.put_band(band, {lane: widths.of(lane) for lane in inside})

    def put_band(self, band: str, rooms: dict[str, tuple[float, float]]) -> None:
        """Puts the lanes of a band, which need this room, behind all others."""
        left = right = self.right + (GAP if band else 0)
        for lane, (before, after) in rooms.items():
            self.lanes[lane] = round(right + before)
            right = self.lanes[lane] + after + GAP / 2
        if band:
            right = max(right, left + width_of(self.heading_of(band), HEAD, True) + 2 * GAP)
            self.bands.append((band, round(left), round(right)))
        self.right = right

    def heading_of(self, band: str) -> str:
        """What is above a band."""
        segment = f"segment {band}" if "." in band else band
        return f"{segment}, never linked" if band in self.apart else segment


@dataclass
class Part:
    """Rows below one heading."""

    down: int  # how far its headings are below those of the first part
    bottom: int = 0

    def lane_ends(self) -> tuple[int, int]:
        """From where to where its lanes are."""
        return self.down + LANE_TOP, self.bottom - 4


class Layout(Across):
    """Where the lanes, the bands and the rows of a picture are."""

    def __init__(self, picture: Picture, words: float, legend: list[str]) -> None:
        self.picture = picture
        viewers = picture.viewers()
        names = [picture.start_name, *(row.name() for row in picture.rows)]
        self.numbers = MARGIN + max(width_of(name, SMALL, True) for name in names)
        self.marks = width_of_marks(viewers)  # the room for viewers' marks, at the right of the numbers
        left = self.numbers + 8 + (self.marks + 4 if self.marks else 0)
        widths = Widths(picture.start if picture.start_name else {}, picture.rows)
        super().__init__(picture.lanes, widths, left, picture.apart)
        self.width = round(max(self.right + MARGIN, 420.0, words + 2 * MARGIN))
        self.rows: list[int] = []
        self.breaks: list[int] = []
        self.parts = [Part(0)]
        self.put_rows()
        self.bottom = self.parts[-1].bottom
        self.words = self.bottom + 22
        self.legend = self.put_legend(self.words + (20 if words else -4), [(MARK, text) for text in legend])
        marks = [(self.marks, viewer_name(viewer)) for viewer in viewers]
        self.viewers = self.put_legend(self.legend[-1][1] + LEGEND_ROW, marks)
        self.height = [*self.legend, *self.viewers][-1][1] + 16

    def put_rows(self) -> None:
        """Puts the rows below each other, with headings again after some, and the breaks."""
        y, number = FIRST_ROW - ROW + (ROW if self.picture.start_name else 0), self.picture.first - 1
        for index, row in enumerate(self.picture.rows):
            if index and index % MOST_BELOW == 0:
                self.parts[-1].bottom = y + PART_END
                self.parts.append(Part(y + PART_END - BAND_TOP + 4))
                y = self.parts[-1].down + FIRST_ROW - ROW
            if row.step.number > number + 1:
                y = self.put_break(y)
            y, number = y + ROW, row.step.number
            self.rows.append(y)
        if number < self.picture.last:
            y = self.put_break(y)
        self.parts[-1].bottom = y + PART_END

    def put_break(self, y: int) -> int:
        """Puts a break below the row that is here; returns how far down what follows it is."""
        self.breaks.append(y + (ROW + BREAK) // 2)
        return y + BREAK

    def put_legend(self, y: int, marks: list[tuple[float, str]]) -> list[tuple[int, int]]:
        """Where each mark of the legend is, by its width and its text: in lines that fit."""
        places: list[tuple[int, int]] = []
        x: float = MARGIN
        for mark, text in marks:
            width = mark + 4 + width_of(text, SMALL)
            if x > MARGIN and x + width > self.width - MARGIN:
                x, y = MARGIN, y + LEGEND_ROW
            places.append((round(x), y))
            x += width + GAP
        return places

    def side_of(self, number: int, side: int) -> tuple[int, bool]:
        """How far down the upper (-1) or the lower (1) end of what reaches as far as this step is,
        and whether the step has a row: else it ends at the break where the step is left out."""
        rows, downs = self.picture.rows, self.rows
        first = next((index for index, row in enumerate(rows) if row.step.number >= number), len(rows))
        if first < len(rows) and rows[first].step.number == number:
            return downs[first] + side * (ROW // 2 - 2), True
        above = [y for y in self.breaks if first == 0 or y > downs[first - 1]]
        return above[0], False

    def clipped(self, top: int, bottom: int) -> list[tuple[int, int]]:
        """The stretches of a lane from here to there, without the headings between parts."""
        ends = [part.lane_ends() for part in self.parts]
        cut = [(max(top, upper), min(bottom, lower)) for upper, lower in ends]
        return [(upper, lower) for upper, lower in cut if upper < lower]
