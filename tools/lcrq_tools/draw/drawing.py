"""Draws a picture of a run as SVG for `picture.py`, by its layout in `lanes.py`.

`picture.py` says what a picture shows. The same picture gives the same bytes.
"""

from collections.abc import Iterator
from xml.etree.ElementTree import Element

from lcrq_tools.draw.figure import (
    ASKED, ASKED_WORDS, BAND, DARK, GREY, GROUND, HEAD, LANE, MARGIN, PLAIN, SHADE, SMALL,
    colour_of, element, group, mixed, number, svg, width_of, words_at,
)
from lcrq_tools.draw.lanes import (
    BAND_TOP, DOT, FIRST_ROW, GAP, MARK, ROW, Call, Layout, Picture, Row, actor_lane, actor_of, band_of, name_of,
)
from lcrq_tools.draw.viewer_marks import mark_at, viewer_name
from lcrq_tools.records import Place

CALL, BAR, NUMBER = 6, 6, 7  # half of how wide a call and a bar are, and half of how high the frame of a number is
IN_CALL = 0.22  # how much of an actor's colour the shade of its call has
PALE = 0.5  # how opaque undone rows are

# What marks the answer to a question, by its class: the number of a step where the bar ends, of one that could be
# undone alone; a row that goes, one that may go alone; and the part of a lane between two steps that share it.
BOXES: dict[str, dict[str, object]] = {
    "end": {"rx": 4, "fill": mixed(ASKED, GROUND, 0.35)},
    "lone": {"rx": 4, "fill": "none", "stroke": ASKED, "stroke_width": 1.2, "stroke_dasharray": "3 2"},
    "goes": {"rx": 5, "fill": ASKED, "fill_opacity": SHADE},
    "free": {"rx": 5, "fill": "none", "stroke": ASKED, "stroke_width": 1.5, "stroke_dasharray": "5 3"},
    "bar": {"rx": BAR, "fill": ASKED, "stroke": ASKED_WORDS, "stroke_width": 1.2},
}


def box_at(kind: str, x: float, y: float, width: float, height: float) -> Element:
    """A box that marks the answer to a question."""
    return element("rect", class_=kind, x=x, y=y, width=width, height=height, **BOXES[kind])


# ---- Lanes and steps ------------------------------------------------------------------------------


def dot_at(kind: str, x: float, y: float, colour: str) -> Element:
    """A dot, or a cross."""
    if kind == "lost":
        half = DOT - 0.5
        moves = ("M", x - half, y - half), ("l", 2 * half, 2 * half), ("m", 0.0, -2 * half), ("l", -2 * half, 2 * half)
        path = "".join(f"{move}{number(across)} {number(down)}" for move, across, down in moves)
        return element("path", class_=kind, d=path, stroke=colour, stroke_width=2.0, fill="none")
    fill = GROUND if kind == "read" else colour
    return element("circle", class_=kind, cx=x, cy=y, r=DOT, fill=fill, stroke=colour, stroke_width=1.6)


def words_beside(x: float, y: float, text: str, size: int, fill: str, ground: str, bold: bool = False) -> list[Element]:
    """A text at the right of a dot, on a ground of its own, so that no line goes through it."""
    if not text:
        return []
    box = element("rect", x=x + 7, y=y - 7, width=width_of(text, size, bold) + 2, height=14, fill=ground)
    return [box, words_at(x + 8, y + 4, text, size, fill, bold=bold)]


def lane_heads(lanes: dict[str, int], y: int) -> Iterator[Element]:
    """What is above each lane: an actor or a cell at this height, and a place below its cell."""
    for lane, x in lanes.items():
        place = Place.read(lane)
        if place.kind == "value":
            middle = (x + lanes[str(place.half("index"))]) / 2
            yield words_at(middle, y, f"cell {place.index}", PLAIN, DARK, "middle")
        if band_of(lane):
            yield words_at(x, y + 16, name_of(lane), SMALL, GREY, "middle")
        else:
            yield words_at(x, y, lane, HEAD, colour_of(actor_of(lane))[1], "middle", True)


def lane_line(lane: str, x: int, top: int, bottom: int) -> Element:
    """A lane from here to there."""
    colour, width = (LANE, None) if band_of(lane) else (colour_of(actor_of(lane))[0], 2)
    return element("line", x1=x, y1=top, x2=x, y2=bottom, stroke=colour, stroke_width=width)


def line_to_dots(lanes: dict[str, int], row: Row, y: int) -> Element:
    """The line of a step from its actor's lane to its last dot."""
    actor = lanes[actor_lane(row.actor())]
    end = max((lanes[dot.lane] for dot in row.dots), default=actor)
    return element("line", x1=actor, y1=y, x2=end, y2=y, stroke=colour_of(row.actor())[0], stroke_opacity=0.6)


def step_lines(lanes: dict[str, int], row: Row, y: int) -> Iterator[Element]:
    """The dots of a step over its line, and their words."""
    lane = actor_lane(row.actor())
    actor, (colour, dark) = lanes[lane], colour_of(row.actor())
    yield words_at(actor - 9, y + 4, row.point, PLAIN, DARK, "end")
    yield from words_beside(actor, y, row.step.reply, PLAIN, dark, ground_of(lane, row), True)
    yield dot_at("wrote", actor, y, colour)
    for dot in row.dots:
        x, is_write = lanes[dot.lane], dot.kind == "wrote"
        fill = DARK if is_write else GREY
        yield from words_beside(x, y, dot.text, SMALL, fill, ground_of(dot.lane, row), is_write)
        yield dot_at(dot.kind, x, y, colour)


def ground_of(lane: str, row: Row) -> str:
    """The colour behind a lane in this row."""
    ground = BAND if band_of(lane) else GROUND
    return mixed(ASKED, ground, SHADE) if row.goes else ground


# ---- Lanes ----------------------------------------------------------------------------------------


def band_lines(layout: Layout) -> Iterator[Element]:
    """The bands, those of segments that were never linked in a broken frame."""
    for band, left, right in layout.bands:
        dashes = {"stroke": GREY, "stroke_dasharray": "6 4"} if band in layout.apart else {}
        height = layout.bottom - BAND_TOP
        yield element("rect", x=left, y=BAND_TOP, width=right - left, height=height, rx=6, fill=BAND, **dashes)


def lane_lines(layout: Layout) -> Iterator[Element]:
    """The lanes of each part with what is above them: the names of bands, cells and lanes."""
    for part in layout.parts:
        yield from (lane_line(lane, x, *part.lane_ends()) for lane, x in layout.lanes.items())
        top = part.down + BAND_TOP + 15
        bands = [words_at(left + GAP, top, layout.heading_of(band), HEAD, DARK, bold=True)
                 for band, left, _ in layout.bands]
        yield group("headings", [*bands, *lane_heads(layout.lanes, part.down + 40)])


def dots_below(x: float, y: float, step: float, fill: str) -> list[Element]:
    """Three small dots below each other, for steps that are left out."""
    return [element("circle", cx=x, cy=y + down, r=1.1, fill=fill) for down in (-step, 0, step)]


def break_lines(layout: Layout) -> Iterator[Element]:
    """What stands between two rows where steps are left out."""
    for y in layout.breaks:
        ends = {"x1": layout.numbers + 6, "y1": y, "x2": round(layout.right), "y2": y}
        line = element("line", **ends, stroke=GREY, stroke_dasharray="1 5")
        yield group("break", [*dots_below(layout.numbers - 6, y, 4, GREY), line])


# ---- Calls ----------------------------------------------------------------------------------------


def shade_path(x: int, top: int, bottom: int, begins: bool, ends: bool) -> str:
    """The outline of a shade along a lane, round where a call begins and where it ends."""
    upper = f"M{x - CALL} {top + CALL}a{CALL} {CALL} 0 0 1 {2 * CALL} 0" if begins else f"M{x - CALL} {top}h{2 * CALL}"
    lower = f"V{bottom - CALL}a{CALL} {CALL} 0 0 1 {-2 * CALL} 0z" if ends else f"V{bottom}h{-2 * CALL}z"
    return upper + lower


def ends_of(layout: Layout, call: Call) -> tuple[tuple[int, bool], tuple[int, bool]]:
    """From where to where a call is, and whether it begins and ends there."""
    begin = layout.side_of(call.begin, -1) if call.begin else (layout.parts[0].lane_ends()[0], False)
    if call.end is None or call.end > layout.picture.last:
        return begin, (layout.parts[-1].lane_ends()[1], False)
    return begin, layout.side_of(call.end, 1)


def call_lines(layout: Layout, undone: bool) -> Iterator[Element]:
    """The calls as shades along their actors' lanes, beside live rows or beside undone ones."""
    rows = zip(layout.picture.rows, layout.rows)
    border = next((y - ROW // 2 for row, y in rows if row.is_undone), layout.bottom)
    for call in layout.picture.calls:
        (top, begins), (bottom, ends) = ends_of(layout, call)
        x = layout.lanes[actor_lane(call.actor)]
        for upper, lower in layout.clipped(*((max(top, border), bottom) if undone else (top, min(bottom, border)))):
            path = shade_path(x, upper, lower, begins and upper == top, ends and lower == bottom)
            yield element("path", class_="call", d=path, fill=mixed(colour_of(call.actor)[0], GROUND, IN_CALL))


# ---- Rows -----------------------------------------------------------------------------------------


def start_lines(layout: Layout) -> Iterator[Element]:
    """What is on each lane before the first row."""
    picture, y = layout.picture, FIRST_ROW
    if not picture.start_name:
        return
    yield words_at(layout.numbers, y + 4, picture.start_name, SMALL, GREY, "end")
    for lane, text in picture.start.items():
        if text and actor_of(lane):
            yield words_at(layout.lanes[lane] - 9, y + 4, text, PLAIN, GREY, "end")
        else:
            yield from words_beside(layout.lanes[lane] - 3, y, text, SMALL, GREY, BAND)


def name_lines(layout: Layout, row: Row, index: int) -> Iterator[Element]:
    """The number of a row, in a frame where it could be undone alone, and filled where a bar ends."""
    y, is_end = layout.rows[index], index in (layout.picture.bar or ())[1:]
    width = width_of(row.name(), SMALL, True)
    kinds = [kind for kind, is_there in (("end", is_end), ("lone", row.is_free)) if is_there]
    yield from (box_at(kind, layout.numbers - width - 3, y - NUMBER, width + 6, 2 * NUMBER) for kind in kinds)
    yield words_at(layout.numbers, y + 4, row.name(), SMALL, ASKED_WORDS if is_end else GREY, "end", is_end)


def row_lines(layout: Layout, row: Row, index: int) -> Iterator[Element]:
    """One row: its line first, then dots and words over it."""
    y = layout.rows[index]
    if row.dots:
        yield line_to_dots(layout.lanes, row, y)
    yield from name_lines(layout, row, index)
    if row.viewer:
        yield mark_at(row.viewer, layout.numbers + 8 + layout.marks / 2, y)
    yield from step_lines(layout.lanes, row, y)


# ---- What was asked -------------------------------------------------------------------------------


def asked_lines(layout: Layout) -> Iterator[Element]:
    """What is marked: rows that go, the lane that two steps share, or a row that may go alone."""
    picture, width, half = layout.picture, layout.width - 8, ROW // 2 - 1
    for row, y in zip(picture.rows, layout.rows):
        if row.goes:
            yield box_at("goes", 4, y - half, width, ROW - 2)
    if picture.frame is not None:
        yield box_at("free", 4, layout.rows[picture.frame] - half, width, ROW - 2)
    if picture.bar:
        lane, earlier, later = picture.bar
        for top, bottom in layout.clipped(layout.rows[earlier] - half + 1, layout.rows[later] + half - 1):
            yield box_at("bar", layout.lanes[lane] - BAR, top, 2 * BAR, bottom - top)


def meaning_of(picture: Picture) -> str:
    """How what was asked is shown."""
    if picture.bar and actor_of(picture.bar[0]):
        return f"orange bar: both are steps of {picture.bar[0]}, and each dot on its lane counts as a write"
    if picture.bar:
        return "orange bar: the lane that both share, and one of them writes it"
    if picture.frame is not None:
        return "orange frame: no later step depends on it, so it goes alone"
    others = f"{picture.hidden} more that have no row here" if picture.hidden else "no others"
    return f"orange rows: these go, and {others}"


def width_of_words(picture: Picture) -> float:
    """How wide the words about what was asked are; 0 if nothing was."""
    if not picture.asked:
        return 0.0
    return MARK + 8 + width_of(picture.asked, HEAD, True) + GAP + width_of(meaning_of(picture), SMALL)


def asked_words(layout: Layout) -> Iterator[Element]:
    """The line that was asked with its reply, and how it is shown."""
    picture, y = layout.picture, layout.words
    if not picture.asked:
        return
    if picture.bar:
        yield box_at("bar", MARGIN + MARK / 2 - BAR, y - 13, 2 * BAR, 18)
    else:
        yield box_at("goes" if picture.frame is None else "free", MARGIN, y - 12, MARK, 16)
    begin = MARGIN + MARK + 8
    yield words_at(begin, y, picture.asked, HEAD, ASKED_WORDS, bold=True)
    yield words_at(begin + width_of(picture.asked, HEAD, True) + GAP, y, meaning_of(picture), SMALL, GREY)


# ---- The legend -----------------------------------------------------------------------------------

LEGEND = {
    "wrote": "write",
    "read": "read",
    "lost": "compare-and-swap that lost",
    "call": "in a call",
    "index": "safe, index",
    "undone": "pale: undone",
    "break": "steps are left out",
    "lone": "orange frame around a number: could be undone alone now",
}


def legend_of(picture: Picture) -> list[str]:
    """What the legend explains: the dots, and what else the picture has."""
    has = {
        "call": bool(picture.calls),
        "index": any(Place.read(lane).kind == "index" for lane in picture.lanes),
        "undone": any(row.is_undone for row in picture.rows),
        "break": len(picture.rows) <= picture.last - picture.first,
        "lone": picture.shows_free,
    }
    return [name for name in LEGEND if has.get(name, True)]


def legend_mark(name: str, x: int, y: int) -> list[Element]:
    """A mark of the legend."""
    middle = x + MARK / 2
    match name:
        case "call":
            shade = mixed(DARK, GROUND, IN_CALL)
            return [element("rect", x=middle - CALL, y=y - 7, width=2 * CALL, height=14, fill=shade)]
        case "index":
            return [words_at(x, y + 4, "1 0", SMALL, DARK, bold=True)]
        case "undone":
            return [group("pale", [dot_at("wrote", middle, y, DARK)], opacity=PALE)]
        case "break":
            return dots_below(middle, y, 4, GREY)
        case "lone":
            return [box_at("lone", x, y - NUMBER, MARK, 2 * NUMBER)]
        case _:
            return [dot_at(name, middle, y, DARK)]


def legend_lines(layout: Layout) -> Iterator[Element]:
    """What the dots and the other marks are."""
    for name, (x, y) in zip(legend_of(layout.picture), layout.legend):
        yield from legend_mark(name, x, y)
        yield words_at(x + MARK + 4, y + 4, LEGEND[name], SMALL, GREY)
    for viewer, (x, y) in zip(layout.picture.viewers(), layout.viewers):
        yield mark_at(viewer, x + layout.marks / 2, y)
        yield words_at(x + layout.marks + 4, y + 4, viewer_name(viewer), SMALL, GREY)


# ---- The picture ----------------------------------------------------------------------------------


def about(picture: Picture) -> str:
    """The picture in words."""
    chosen = f" {picture.chosen} alone" if picture.chosen else ""
    stands = [f"{lane} at {text}" for lane, text in picture.start.items() if text and actor_of(lane)]
    begin = [f"Before the first row: {'; '.join(stands)}."] if stands and picture.start_name else []
    free = {True: "; it could be undone alone now", False: ""}
    numbers = ("Undone" if row.is_undone else f"Step {row.step.number}" for row in picture.rows)
    rows = [f"{number}, {row.words()}{free[row.is_free]}." for number, row in zip(numbers, picture.rows)]
    apart = [f"Segment {name} was never linked." for name in sorted(picture.apart)]
    return " ".join([f"The steps{chosen}, from the first down.", *begin, *rows, *apart])


def draw(picture: Picture) -> str:
    """The picture as SVG."""
    layout = Layout(picture, width_of_words(picture), [LEGEND[name] for name in legend_of(picture)])
    rows = [
        group("row undone" if row.is_undone else "row", row_lines(layout, row, index),
              opacity=PALE if row.is_undone else None)
        for index, row in enumerate(picture.rows)
    ]
    parts = [
        group("bands", band_lines(layout)),
        group("calls", call_lines(layout, False)),
        group("calls undone", call_lines(layout, True), opacity=PALE),
        group("lanes", lane_lines(layout)),
        group("breaks", break_lines(layout)),
        group("asked", asked_lines(layout)),
        group("start", start_lines(layout)),
        *rows,
        group("words", asked_words(layout)),
        group("legend", legend_lines(layout)),
    ]
    return svg(picture.title, about(picture), layout.width, layout.height, parts)
