"""Draws the queue at one moment as SVG for `moment.py`, by its layout in `boxes.py`.

Each place, chip and pin is a group that names its place, so that a check finds it. The same moment
gives the same bytes.
"""

from collections.abc import Iterable, Iterator
from xml.etree.ElementTree import Element

from lcrq_tools.draw.boxes import (
    COUNTER, FOOT, GAP, HEADING, LABEL, LANES, LINE, LINK, PILL, PIN, VALUE,
    Chip, Layout, Marker, Moment, Shown, Strip, value_size,
)
from lcrq_tools.draw.figure import (
    ASKED, ASKED_WORDS, BAND, DARK, GREY, GROUND, HEAD, LANE, MARGIN, PLAIN, SMALL,
    colour_of, element, group, mixed, number, svg, width_of, words_at,
)
from lcrq_tools.draw.viewer_marks import mark_at, viewer_name, width_of_marks

APART = "never linked so far: no segment has one of these as its next"


class Written:
    """What the last step wrote, and its colours."""

    def __init__(self, moment: Moment) -> None:
        self.places = moment.written()
        self.colour, self.dark = colour_of(moment.last.step.event.actor) if moment.last else (LANE, DARK)

    def group(self, place: str, inside: Iterable[Element]) -> Element:
        """What is drawn of a place, which the group names."""
        return group("place written" if place in self.places else "place", inside, data_place=place)

    def framed(
        self, place: str, box: tuple[float, float, float, float], inside: Iterable[Element],
        stroke: str | None = None, fill: str = "none", **more: object,
    ) -> Element:
        """A place in a frame: in the actor's colour where it was written; else as it is given."""
        if place in self.places:
            fill, stroke = mixed(self.colour, GROUND, 0.25), self.colour
            more["stroke_width"] = 2.0
        x, y, width, height = box
        frame = element("rect", x=x, y=y, width=width, height=height, fill=fill, stroke=stroke, **more)
        return self.group(place, [frame, *inside] if stroke else inside)


def frame_lines(layout: Layout, strip: Strip, written: Written) -> Element:
    """The frame of a strip with its heading."""
    width, height = layout.strip_width(strip), HEADING + 2 * COUNTER + layout.cell + FOOT
    dashes = None if strip.is_linked else "6 4"
    stroke = "none" if strip.is_linked else GREY
    if strip.place and strip.place in written.places:
        stroke = written.colour
    frame = element(
        "rect", x=strip.left, y=strip.top, width=width, height=height, rx=6, fill=BAND, stroke=stroke,
        stroke_width=2.0 if stroke != "none" else None, stroke_dasharray=dashes,
    )
    lines = [frame, words_at(strip.left + GAP, strip.top + 17, strip.heading, HEAD, DARK, bold=True)]
    return written.group(strip.place, lines) if strip.place else group("array", lines)


def arrow_at(x: float, y: float, across: float, down: float) -> list[Element]:
    """An arrow from this point on, across or down."""
    end_x, end_y = x + across, y + down
    head = f"M{number(end_x)} {number(end_y)}" + ("l-8 -4v8z" if across else "l-4 -8h8z")
    line = element("line", x1=x, y1=y, x2=end_x, y2=end_y, stroke=GREY, stroke_width=1.6)
    return [line, element("path", d=head, fill=GREY)]


def box_lines(layout: Layout, strip: Strip, column: int, written: Written) -> Iterator[Element]:
    """A cell or a slot."""
    box, x, y = strip.boxes[column], layout.box_left(strip, column), layout.cells_top(strip)
    middle, unsafe = x + layout.box / 2, box.index is not None and box.index.is_unsafe
    ground = mixed(ASKED, GROUND, 0.16) if unsafe else GROUND
    yield element("rect", x=x, y=y, width=layout.box, height=layout.cell, rx=4, fill=ground, stroke=GREY)
    place, text, _ = box.value
    height = VALUE if box.index else layout.cell - LABEL - 2.0
    words = [words_at(middle, y + 11, box.label, SMALL, GREY, "middle")] if box.label else []
    words += [words_at(middle, y + LABEL + 17, text, value_size(text), DARK, "middle", True)] if text else []
    yield written.framed(place, (x + 2, y + LABEL, layout.box - 4, height), words)
    if box.index:
        place, text, _ = box.index
        words = [words_at(middle, y + 50, text, SMALL, DARK, "middle")]
        words += [words_at(middle, y + 61, "unsafe", SMALL, ASKED_WORDS, "middle", True)] if unsafe else []
        height = layout.cell - LABEL - VALUE - 2
        yield written.framed(place, (x + 2, y + LABEL + VALUE, layout.box - 4, height), words)


def marker_lines(
    layout: Layout, strip: Strip, marker: Marker, y: float, written: Written, *beside: Element
) -> Element:
    """A counter above or below its column."""
    column, place, text = marker
    wide = width_of(text, PLAIN, True) + 6
    middle = layout.box_left(strip, column) + layout.box / 2
    words = words_at(middle, y, text, PLAIN, DARK, "middle", True)
    return written.framed(place, (middle - wide / 2, y - 12, wide, 16), [words, *beside], rx=4)


def next_lines(layout: Layout, strip: Strip, shown: Shown, written: Written) -> Iterator[Element]:
    """The next of a segment, with an arrow to the one that follows it."""
    place, text, _ = shown
    x, y = layout.box_left(strip, len(strip.boxes)), layout.cells_top(strip)
    middle, is_there = x + layout.next / 2, text != "none"
    words = words_at(middle, y + LABEL + 17, text, PLAIN, DARK if is_there else GREY, "middle", is_there)
    yield written.framed(place, (x, y, layout.next, layout.cell), [words], GREY, GROUND, rx=4)
    yield words_at(middle, y + 11, "next", SMALL, GREY, "middle")
    if strip.leads_on:
        yield from arrow_at(x + layout.next, y + layout.cell / 2, LINK + 10.0, 0.0)


def pill_lines(layout: Layout, strip: Strip, pill: Marker, written: Written) -> Iterator[Element]:
    """An end of the queue, with an arrow to its segment."""
    column, place, text = pill
    x, y = layout.box_left(strip, column), strip.top - 14 - layout.pill
    wide = width_of(text, PLAIN, True) + 12
    words = words_at(x + wide / 2, y + 14, text, PLAIN, DARK, "middle", True)
    yield written.framed(place, (x, y, wide, PILL - 2), [words], GREY, GROUND, rx=9)
    yield from arrow_at(x + wide / 2, y + PILL - 2.0, 0.0, layout.pill - PILL + 16.0)


def strip_lines(layout: Layout, strip: Strip, written: Written) -> Iterator[Element]:
    """A strip with all that is in it."""
    yield frame_lines(layout, strip, written)
    for column in range(len(strip.boxes)):
        yield from box_lines(layout, strip, column, written)
    top = layout.cells_top(strip)
    if strip.above:
        beside: list[Element] = []
        if strip.closed:
            x = layout.box_left(strip, len(strip.boxes)) + layout.next
            fill = ASKED_WORDS if strip.closed == "closed" else GREY
            beside = [words_at(x, strip.top + 17, strip.closed, PLAIN, fill, "end", strip.closed == "closed")]
        yield marker_lines(layout, strip, strip.above, top - 5, written, *beside)
    if strip.below:
        yield marker_lines(layout, strip, strip.below, top + layout.cell + 14, written)
    if strip.next:
        yield from next_lines(layout, strip, strip.next, written)
    for pill in strip.pills:
        yield from pill_lines(layout, strip, pill, written)


def path_of(layout: Layout, chip: Chip, lane: int) -> list[tuple[float, float]]:
    """The corners of the line from a chip to its pin."""
    strip, (x, y) = layout.spots[chip.place], layout.pin_at(chip)
    column, level = strip.spots[chip.place]
    actors = [pin.actor for pin in layout.columns[layout.column_of(chip)]]
    x += 3 * (actors.index(chip.actor) % 4) - 1.5 * min(3, len(actors) - 1) - (4 if level == "pill" else 0)
    left, top, _, row = layout.chips[chip.actor]
    start, last = left - 5.0 - 2.5 * (row % 7), layout.lanes[-1] + LANES * lane
    corners: list[tuple[float, float]] = [(left, top + 14), (start, top + 14), (start, last)]
    if strip.row == len(layout.rows) - 1:
        return [*corners, (x, last), (x, y)]
    actors = [other.actor for other in layout.led if layout.spots[other.place].row == strip.row]
    upper = layout.lanes[strip.row] + LANES * actors.index(chip.actor)
    channel = layout.channel + LANES * lane
    return [*corners, (channel, last), (channel, upper), (x, upper), (x, y)]


def line_lines(layout: Layout) -> Iterator[Element]:
    """The lines from chips to the pins of their places."""
    for lane, chip in enumerate(layout.led):
        corners = " ".join(f"{number(float(x))},{number(float(y))}" for x, y in path_of(layout, chip, lane))
        dashes = {"fill": "none", "stroke_width": 1.6, "stroke_dasharray": "5 3"}
        yield element("polyline", points=corners, stroke=colour_of(chip.actor)[0], **dashes)


def pin_lines(x: float, y: float, actor: int) -> list[Element]:
    """An actor's number in a disc of its colour."""
    disc = element("circle", cx=x, cy=y, r=PIN, fill=colour_of(actor)[1], stroke=GROUND, stroke_width=1.2)
    return [disc, words_at(x, y + 3.6, str(actor), SMALL, GROUND, "middle", True)]


def chip_lines(layout: Layout, chip: Chip) -> Element:
    """An actor in a call."""
    x, y, height, _ = layout.chips[chip.actor]
    colour, dark = colour_of(chip.actor)
    frame = {"rx": 8, "fill": GROUND, "stroke": colour, "stroke_width": 2.0}
    lines = [
        element("rect", x=x, y=y, width=layout.chip, height=height, **frame),
        *pin_lines(x + 14, y + 14, chip.actor),
        words_at(x + 28, y + 18, f"actor {chip.actor}", HEAD, dark, bold=True),
        words_at(x + layout.chip - 10, y + 18, chip.call, HEAD, DARK, "end"),
    ]
    for row, (label, text, moved, fill) in enumerate(chip.lines_under_head()):
        down = y + 36 + LINE * row
        if label:
            lines.append(words_at(x + 10, down, label, PLAIN, DARK, bold=True))
        lines.append(words_at(x + 46 + moved, down, text, PLAIN, fill, bold=fill == dark))
    return group("chip", lines, data_actor=chip.actor, data_place=chip.place or "-")


def viewer_lines(layout: Layout, y: float) -> list[Element]:
    """The mark of the viewer who asked the last line, if there is one."""
    viewer = layout.moment.viewer
    return [mark_at(viewer, MARGIN + width_of_marks([viewer]) / 2, y)] if viewer else []


def legend_lines(layout: Layout, written: Written) -> Iterator[Element]:
    """What a pin and the marks are, and who is in no call."""
    x: float = MARGIN
    y = layout.foot
    if layout.led:
        yield from pin_lines(x + 8, y - 4, layout.led[0].actor)
        text = "the place that this actor's next step would touch"
        yield words_at(x + 22, y, text, SMALL, GREY)
        x += 22 + width_of(text, SMALL) + 20
    if written.places:
        frame = {"rx": 3, "fill": mixed(written.colour, GROUND, 0.25), "stroke": written.colour, "stroke_width": 2.0}
        yield element("rect", x=x, y=y - 11, width=16, height=14, **frame)
        yield words_at(x + 22, y, "written by the last step", SMALL, GREY)
    if layout.moment.idle:
        yield words_at(MARGIN, y + 18, layout.moment.idle_words(), SMALL, GREY)
    if layout.moment.viewer:
        down = layout.bottom - 16
        yield from viewer_lines(layout, down)
        words = f"{viewer_name(layout.moment.viewer)}, who asked the last line"
        yield words_at(MARGIN + layout.asker, down + 4, words, SMALL, GREY)


def sentences(moment: Moment) -> Iterator[str]:
    """The moment in words."""
    yield f"{moment.said()}."
    for segment in moment.segments:
        cells = "; ".join(f"cell {index} is {cell}" for index, cell in enumerate(segment.cells))
        linked = "" if segment.is_linked else ", never linked so far"
        yield f"Segment {segment.name}{linked}: head {segment.head}, tail {segment.tail}, next {segment.next}; {cells}."
    yield f"QHead is {moment.qhead}, QTail is {moment.qtail}."
    for chip in moment.chips:
        then = f"its next step touches {chip.place}" if chip.place else chip.note
        yield f"Actor {chip.actor}, {chip.call}, at {chip.point}: {then}."


def draw(moment: Moment) -> str:
    """The moment as SVG."""
    layout, written = Layout(moment), Written(moment)
    inside = [
        *viewer_lines(layout, 16.0),
        words_at(MARGIN + layout.asker, 20, moment.headline(), HEAD, DARK, bold=True),
        words_at(MARGIN, 37, moment.said(), PLAIN, written.dark),
        *([words_at(layout.left, layout.apart, APART, PLAIN, DARK)] if layout.apart else []),
        *(group("strip", strip_lines(layout, strip, written)) for strip in layout.strips),
        *(words_at(x, y + HEADING + COUNTER + layout.cell / 2, text, HEAD, GREY, bold=True)
          for x, y, text in layout.gone),
        group("lines", line_lines(layout)),
        *(group("pin", pin_lines(*layout.pin_at(chip), chip.actor), data_actor=chip.actor, data_place=chip.place)
          for chip in layout.led),
        *(chip_lines(layout, chip) for chip in moment.chips),
        group("legend", legend_lines(layout, written)),
    ]
    return svg(moment.title, " ".join(sentences(moment)), layout.width, layout.height, inside)
