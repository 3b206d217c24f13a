"""Cuts a picture for paper, so that its letters have 8 points or more and no row is parted by the end of a page:
`handout.py` puts what comes of it into the pages of a class.

A picture of lanes that is too wide is cut into parts between its segments, or within one between its lanes. Each
part has the lanes of the actors. The part with most dots has all rows, any other one those with a dot of its own.
The names of the lanes stand on each page on which rows stand. A picture of a moment that is too wide is cut into
its segments and actors, which flow like words. Each piece is a window on the one drawing.
"""

import re
from collections.abc import Iterator
from dataclasses import dataclass
from html import escape
from xml.etree import ElementTree

from lcrq_tools.draw.figure import SMALL, width_of

POINTS = 0.8  # of a pixel on paper: the smallest letters have 10 pixels
WIDE = 668.0  # pixels beside each other on A4, and so on the wider Letter
SVG = "{http://www.w3.org/2000/svg}"
ROW, MARGIN, SPAN, HALF, BELOW = 11.0, 2.0, 12.0, 4.0, 6.0  # half a row, around a piece, beside a lane, half a cross

Element = ElementTree.Element

# ---- Windows --------------------------------------------------------------------------------------


@dataclass(frozen=True)
class Window:
    """A part of a drawing: where it is, and words that are put at its top."""

    left: float
    top: float
    right: float
    bottom: float
    words: str = ""

    def html(self, name: str) -> str:
        """It on the drawing of this name."""
        wide, high = self.right - self.left, self.bottom - self.top
        size = f"width: {wide * POINTS:.1f}pt; height: {high * POINTS:.1f}pt"
        at = f'x="{self.left + 8:g}" y="{self.top + 23:g}" font-size="12" font-weight="bold"'
        words = f"<text {at}>{escape(self.words)}</text>" if self.words else ""
        box = f"{self.left:g} {self.top:g} {wide:g} {high:g}"
        return f'<svg viewBox="{box}" style="{size}"><use href="#{name}"/>{words}</svg>'


def number(it: Element, name: str) -> float:
    """A number of an element."""
    return float(it.get(name, "0"))


def parts_of(root: Element, kind: str) -> list[Element]:
    """The groups of a kind, in their order."""
    return [it for it in root.iter(f"{SVG}g") if it.get("class") == kind]


def right_of(text: Element) -> float:
    """How far a text reaches at most."""
    wide = width_of(text.text or "", number(text, "font-size"), text.get("font-weight") == "bold")
    return number(text, "x") + {"middle": wide / 2, "end": 0.0}.get(text.get("text-anchor", ""), wide)


# ---- Lanes ----------------------------------------------------------------------------------------


@dataclass(frozen=True)
class Piece:
    """Lanes beside each other, from here to there, and the name of their segment. One that goes on behind another
    piece has the name put at its top."""

    left: float
    right: float
    name: str
    goes_on: bool = False


def heading_in(root: Element, left: float, right: float) -> str:
    """The name at the top of a segment."""
    texts = (it for group in parts_of(root, "headings") for it in group.iter(f"{SVG}text"))
    found = next((it.text or "" for it in texts if left <= number(it, "x") <= right and number(it, "y") < 30), "")
    return found if found.startswith("segment ") else f"the {found}"


def cuts_in(root: Element, left: float, right: float) -> list[float]:
    """Where a segment may be cut: before a lane, but not between the two halves of a cell."""
    texts = [it for group in parts_of(root, "headings") for it in group.iter(f"{SVG}text") if number(it, "y") > 50]
    lanes = sorted((number(it, "x"), it.text or "") for it in texts if left <= number(it, "x") <= right)
    pairs = zip(lanes, lanes[1:])
    return [x - max(width_of(name, SMALL) / 2, SPAN) for (_, before), (x, name) in pairs if before != "value"]


def pieces_of(root: Element, room: float) -> Iterator[Piece]:
    """The segments from left to right, a wide one in pieces of this room at most."""
    for band in (it for group in parts_of(root, "bands") for it in group):
        left, right = number(band, "x"), number(band, "x") + number(band, "width")
        name, cuts, goes_on = heading_in(root, left, right), cuts_in(root, left, right), False
        while right - left > room and (cut := max((it for it in cuts if left < it <= left + room), default=0.0)):
            yield Piece(left, cut - MARGIN, name, goes_on)
            left, goes_on = cut + MARGIN, True
        yield Piece(left, right, name, goes_on)


def grouped(pieces: Iterator[Piece], room: float) -> list[list[Piece]]:
    """Pieces in groups that fit this room."""
    groups: list[list[Piece]] = []
    for piece in pieces:
        if groups and sum(it.right - it.left + 2 * MARGIN for it in (*groups[-1], piece)) <= room:
            groups[-1].append(piece)
        else:
            groups.append([piece])
    return groups


def heights_of(root: Element) -> list[float]:
    """The middle of each row, from the first down."""
    firsts = (next(it for it in row if it.tag in (f"{SVG}circle", f"{SVG}text")) for row in parts_of(root, "row"))
    return [number(it, "cy") or number(it, "y") - 4 for it in firsts]


def dots_of(row: Element) -> list[float]:
    """Where the dots and the crosses of a row are, from left to right."""
    crosses = (re.match(r"M([\d.]+)", it.get("d", "")) for it in row.iter(f"{SVG}path"))
    dots = [number(it, "cx") for it in row.iter(f"{SVG}circle")]
    return sorted([*dots, *(float(it[1]) + HALF for it in crosses if it)])


def dots_in(root: Element, group: list[Piece]) -> list[int]:
    """The rows that have a dot on one of these lanes."""
    rows = [dots_of(row) for row in parts_of(root, "row")]
    return [at for at, dots in enumerate(rows) if any(it.left <= x < it.right for it in group for x in dots)]


class Lanes:
    """A picture of lanes in parts, which flow over pages."""

    def __init__(self, root: Element, name: str) -> None:
        lines = [it for group in parts_of(root, "lanes") for it in group.findall(f"{SVG}line")]
        self.root, self.name = root, name
        self.top, self.bottom = min(number(it, "y1") for it in lines), max(number(it, "y2") for it in lines)
        bands = [number(it, "x") for group in parts_of(root, "bands") for it in group]
        self.actors = min(bands) - MARGIN
        room = WIDE - self.actors
        self.groups = grouped(pieces_of(root, room - 2 * MARGIN), room)
        self.rows = heights_of(root)
        self.ends = [(one + other) / 2 for one, other in zip(self.rows, self.rows[1:])]

    def strip(self, group: list[Piece], top: float, bottom: float, is_head: bool = False) -> str:
        """The actors' lanes and these ones, from here down to there."""
        windows = [Window(0.0, top, self.actors, bottom)]
        for it in group:
            words = it.name.removeprefix("segment ").partition(",")[0] if is_head and it.goes_on else ""
            windows.append(Window(it.left - MARGIN, top, it.right + MARGIN, bottom, words))
        return f'<tr><td>{"".join(it.html(self.name) for it in windows)}</td></tr>'

    def whole(self, group: list[Piece]) -> list[str]:
        """All rows of these lanes, without a gap."""
        ends = [self.top, *self.ends, self.bottom + MARGIN]
        return [self.strip(group, top, bottom) for top, bottom in zip(ends, ends[1:])]

    def own(self, group: list[Piece]) -> list[str]:
        """The rows that have a dot on these lanes."""
        return [self.strip(group, y - ROW, y + ROW) for y in (self.rows[at] for at in dots_in(self.root, group))]

    def html(self) -> str:
        """The parts, that with most dots first, and then the words below the drawing."""
        most = max(self.groups, key=lambda group: len(dots_in(self.root, group)))
        parts = []
        for group in sorted(self.groups, key=lambda it: it is not most):
            names = " and ".join(dict.fromkeys(it.name for it in group))
            caption = "" if group is most else f"<caption>The steps that touch {escape(names)}:</caption>"
            rows = "".join(self.whole(group) if group is most else self.own(group))
            head = self.strip(group, 0.0, self.top, True)
            parts.append(f'<table class="lanes">{caption}<thead>{head}</thead><tbody>{rows}</tbody></table>')
        return "\n".join([*parts, *(it.html(self.name) for it in self.words())])

    def words(self) -> list[Window]:
        """What stands below the drawing: a line that is too wide is cut before its last words."""
        _, _, wide, high = map(float, self.root.get("viewBox", "").split())
        texts = [it for group in parts_of(self.root, "words") for it in group.iter(f"{SVG}text")]
        begin = self.bottom + BELOW
        if max(map(right_of, texts), default=0.0) <= WIDE:
            return [Window(0.0, begin, min(wide, WIDE), high)]
        cut, end = max(number(it, "x") for it in texts) - MARGIN, max(number(it, "y") for it in texts) + BELOW
        return [Window(0.0, begin, cut, end), Window(cut, begin, wide, end), Window(0.0, end, min(wide, WIDE), high)]


# ---- Moments --------------------------------------------------------------------------------------


def box_of(group: Element) -> Window:
    """Where a segment or an actor is drawn, with what stands at its sides."""
    rects = [*group.iter(f"{SVG}rect")]
    left, top = min(number(it, "x") for it in rects), min(number(it, "y") for it in rects)
    right = max(number(it, "x") + number(it, "width") for it in rects)
    bottom = max(number(it, "y") + number(it, "height") for it in rects)
    side = 10.0 if group.get("class") == "strip" else MARGIN
    return Window(left - side, top - MARGIN, right + side, bottom + MARGIN)


def moment_windows(root: Element, wide: float, high: float) -> list[Window]:
    """The pieces of a moment: its head, its segments with the words above them, its actors, and its legend."""
    boxes = [box_of(it) for kind in ("strip", "chip") for it in parts_of(root, kind)]
    begin, end = min(it.top for it in boxes), max(it.bottom for it in boxes)
    texts = [it for it in root.findall(f"{SVG}text") if number(it, "y") > begin]
    words = [Window(number(it, "x"), number(it, "y") - 12, right_of(it), number(it, "y") + 4) for it in texts]
    inside = sorted([*words, *boxes], key=lambda it: (it.top, it.left))
    return [Window(0.0, 0.0, min(wide, WIDE), begin), *inside, Window(0.0, end, min(wide, WIDE), high)]


# ---- Any of them ----------------------------------------------------------------------------------

NOT_DRAWN = r"<title>.*?</title>\s*|<desc>.*?</desc>\s*"
CONNECTORS = r'<g class="lines">.*?</g>\s*'  # between the pieces of a moment, which are parted


def drawing(svg: str, name: str, left_out: str) -> str:
    """The drawing itself, which its windows use, without what has these patterns."""
    inside = re.sub(left_out, "", svg[svg.index(">", svg.index("<svg")) + 1: svg.rindex("</svg>")], flags=re.DOTALL)
    group = f'<g id="{name}" font-family="DejaVu Sans, Verdana, sans-serif">{inside}</g>'
    return f'<svg class="drawing" width="0" height="0"><defs>{group}</defs></svg>'


def figure_of(svg: str, name: str, about: str) -> str:
    """A picture as HTML for paper, whose drawing has this name."""
    root = ElementTree.fromstring(svg)
    _, _, wide, high = map(float, root.get("viewBox", "").split())
    left_out = NOT_DRAWN
    if parts_of(root, "bands"):
        inside = Lanes(root, name).html()
    elif wide <= WIDE:
        inside = Window(0.0, 0.0, wide, high).html(name)
    else:
        left_out += f"|{CONNECTORS}"
        inside = "\n".join(it.html(name) for it in moment_windows(root, wide, high))
    begin = f'<div class="picture" role="img" aria-label="{escape(about)}">'
    return f"{drawing(svg, name, left_out)}\n{begin}\n{inside}\n</div>"


def widest_in(html: str) -> float:
    """How many pixels a row of windows has, the widest of them."""
    rows = re.findall(r"<tr>.*?</tr>|<svg viewBox.*?</svg>", html)
    boxes = (re.findall(r'viewBox="[\d.-]+ [\d.-]+ ([\d.]+) ', row) for row in rows)
    return max((sum(map(float, them)) for them in boxes), default=0.0)
