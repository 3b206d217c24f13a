"""Lays out the queue at one moment for `queue_drawing.py`: what a `Moment` has, and where it stands.

Memory is rows of strips: a strip is a segment or a part of the array, with a box for each of its
cells, a column of room at the left of each box, and a counter above one of them and one below. The
places that actors would touch next have a pin with the actor's number in that column, which is wider
where there are many. Its line runs down the column, along the lanes under its row, and to the actor's
chip below: so no line crosses a label.
"""

import itertools
from collections.abc import Callable, Container, Iterable, Iterator, Sequence
from dataclasses import dataclass, field
from typing import NamedTuple, TypeVar

from lcrq_tools.draw.figure import DARK, GREY, HEAD, MARGIN, PLAIN, SMALL, colour_of, width_of
from lcrq_tools.draw.viewer_marks import width_of_marks
from lcrq_tools.records import Cell, Place, Tail
from lcrq_tools.speak.sentences import Seen, of_step

Item = TypeVar("Item")
Column = tuple[int, int, bool]  # the `id` of a strip, a column of it, and whether its pins are at an end of the queue

# Sizes, in pixels.
BIG, LONG = 16, 6  # of a value, and how many digits have that size
GAP, PIN, APART = 22, 8, 17  # the column for pins, a pin, and how far two pins are from each other
MOST_BELOW, FEW_BELOW = 6, 3  # pins below each other, before some stand beside each other, and then
NEAR = 6  # from a pin to the box that it is a pin of
HEADING, COUNTER, CELL, PILL, FOOT = 24, 18, 66, 22, 6
LABEL, VALUE = 15, 23  # of a cell from its top: the label, the value half, and then the index half
LINK = 34  # between two segments
LANES, LINE = 7, 14  # between two lanes for lines; a line of text in a chip
WIDEST, MOST_SLOTS = 1180, 12
MOST_KEPT = 6  # linked segments that a queue may have before some of them are left out
SLOTS = 64  # of the array
LEVELS = ["pill", "above", "value", "cell", "index", "below"]  # where a place is in its column, from above
# How far below the top of its box a pin would be, without others.
PINNED = {"above": -COUNTER / 2, "cell": CELL / 2, "value": LABEL + VALUE / 2, "index": LABEL + VALUE + 14}


# ---- A moment -------------------------------------------------------------------------------------


@dataclass
class Segment:
    """A segment, with what is at its places."""

    name: str
    head: int
    tail: Tail
    next: str
    cells: list[Cell]
    is_linked: bool = True


@dataclass
class Chip:
    """An actor in a call."""

    actor: int
    call: str
    point: str
    lines: list[str]  # of the pseudo-code
    words: list[str]  # those that these lines read, each with its name
    place: str  # which the next step would touch; nothing if there is none
    note: str = ""  # why there is none

    def lines_under_head(self) -> Iterator[tuple[str, str, float, str]]:
        """Its lines under its head: label, text, how far that is moved in, and its colour."""
        for index, line in enumerate(self.lines):
            text = line.lstrip(" ")
            yield "" if index else self.point, text, 4.0 * (len(line) - len(text)), GREY if index else DARK
        if self.words:
            yield "", "its words: " + ", ".join(self.words), 0.0, GREY
        yield "", f"touches {self.place}" if self.place else self.note, 0.0, colour_of(self.actor)[1]


@dataclass
class Moment:
    """What is to be drawn."""

    title: str
    caption: str
    world: str  # how many actors, and the rings' size
    qhead: str
    qtail: str
    segments: list[Segment]  # linked ones first, in the order of their links
    array: dict[str, str]  # the replies about its counters and slots, by their places
    chips: list[Chip]
    idle: list[int]  # the actors that are in no call
    last: Seen | None  # the last live step
    near: set[str] = field(default_factory=set)  # the segments that are never left out
    viewer: int = 0  # who asked the last line, where the run is of viewers

    def said(self) -> str:
        """The last step in words."""
        return of_step(self.last) if self.last else "no step yet"

    def written(self) -> list[str]:
        """The places that the last step wrote."""
        return [str(place) for place in self.last.step.wrote()] if self.last else []

    def headline(self) -> str:
        """The line above the figure."""
        return f"{self.caption}; {self.world}"

    def idle_words(self) -> str:
        """Who is in no call, in words."""
        return f"In no call: actor{'s' if len(self.idle) > 1 else ''} {', '.join(map(str, self.idle))}"


# ---- What is laid out -----------------------------------------------------------------------------


class Shown(NamedTuple):
    """A place with its text."""

    place: str
    text: str
    is_unsafe: bool = False  # of the index half of a cell


class Marker(NamedTuple):
    """A place that stands above or below a column: a counter, or an end of the queue."""

    column: int
    place: str
    text: str


@dataclass
class Box:
    """A cell or a slot: its label, and its parts."""

    label: str
    value: Shown
    index: Shown | None = None  # of a cell


@dataclass
class Strip:
    """A segment, or a part of the array."""

    heading: str
    boxes: list[Box]
    above: Marker | None = None  # the tail counter
    below: Marker | None = None  # the head counter
    closed: str = ""  # `open` or `closed`, which is beside the tail counter
    next: Shown | None = None
    pills: list[Marker] = field(default_factory=list)  # the queue's ends
    place: str = ""
    is_linked: bool = True
    leads_on: bool = False  # whether the strip that follows is its next
    spots: dict[str, tuple[int, str]] = field(default_factory=dict)  # the column and the level of each place
    left: float = 0.0
    top: float = 0.0  # of its frame
    row: int = 0


# ---- Strips ---------------------------------------------------------------------------------------


def cell_box(name: str, index: int, cell: Cell) -> Box:
    """The box of a cell."""
    value = "" if cell.value is None else str(cell.value)
    half = Shown(f"index {name} {index}", f"idx {cell.index}", not cell.is_safe)
    return Box(f"cell {index}", Shown(f"value {name} {index}", value), half)


def segment_strip(segment: Segment, moment: Moment) -> Strip:
    """The strip of a segment."""
    name, ring, tail = segment.name, len(segment.cells), segment.tail
    above, below = tail.count % ring, segment.head % ring
    spots = {f"tail {name}": (above, "above"), f"head {name}": (below, "below"), f"next {name}": (ring, "cell")}
    for index in range(ring):
        spots |= {f"{kind} {name} {index}": (index, kind) for kind in ("cell", "value", "index")}
    ends = (("qhead", "QHead", 0, moment.qhead), ("qtail", "QTail", ring, moment.qtail))
    pills = [Marker(column, place, f"{word} {end}") for place, word, column, end in ends if end == name]
    return Strip(
        heading=f"segment {name}",
        boxes=[cell_box(name, index, cell) for index, cell in enumerate(segment.cells)],
        above=Marker(above, f"tail {name}", f"tail {tail.count} ▾"),
        below=Marker(below, f"head {name}", f"head {segment.head} ▴"),
        closed=tail.state(),
        next=Shown(f"next {name}", segment.next),
        pills=pills,
        place=f"whole {name}",
        is_linked=segment.is_linked,
        spots=spots | {place: (column, "pill") for column, place, _ in pills},
    )


def counted(items: Iterable[Item], is_kept: Callable[[Item], bool]) -> list[Item | int]:
    """The items that are kept, with a number in place of those between them."""
    found: list[Item | int] = []
    for are_kept, inside in itertools.groupby(items, is_kept):
        if are_kept:
            found.extend(inside)
        else:
            found.append(len([*inside]))
    return found


def kept(segments: Sequence[Segment], near: Container[str]) -> list[Segment | int]:
    """The linked segments, where those of a long list that nobody is near are counted."""
    if len(segments) <= MOST_KEPT:
        return [*segments]
    ends = (segments[0].name, segments[-1].name)
    return counted(segments, lambda segment: segment.name in near or segment.name in ends)


def array_strips(moment: Moment) -> list[Strip]:
    """The strips of the array, if it was touched or somebody is about to touch it."""
    array = moment.array
    head, tail = int(array["ahead"]), int(array["atail"])
    places = [Place.read(chip.place) for chip in moment.chips if chip.place]
    nears = [place for place in places if place.kind in ("ahead", "atail", "acell")]
    slots = [place.index for place in nears if place.index is not None]
    slots += [slot for slot in range(SLOTS) if array[f"acell {slot}"] != "empty"]
    if not (head or tail or nears or slots):
        return []
    columns = range(min([head, tail, *slots]), max([head, tail, *slots]) + 1)
    parts = [columns[first: first + MOST_SLOTS] for first in range(0, len(columns), MOST_SLOTS)]
    return [array_strip(part, head, tail, array, part is parts[0]) for part in parts]


def array_strip(columns: Sequence[int], head: int, tail: int, array: dict[str, str], is_first: bool) -> Strip:
    """The strip of some slots, and of the counters that stand there. Behind the last slot is the end."""
    strip = Strip("array" if is_first else "array, on", [])
    for column, slot in enumerate(columns):
        content = array.get(f"acell {slot}", "end").removeprefix("value ")
        label = f"slot {slot}" if slot < SLOTS else ""
        strip.boxes.append(Box(label, Shown(f"acell {slot}", "" if content == "empty" else content)))
        strip.spots[f"acell {slot}"] = (column, "cell")
        if slot == tail:
            strip.above, strip.spots["atail"] = Marker(column, "atail", f"tail {tail} ▾"), (column, "above")
        if slot == head:
            strip.below, strip.spots["ahead"] = Marker(column, "ahead", f"head {head} ▴"), (column, "below")
    return strip


def strips_of(moment: Moment) -> tuple[list[Strip | int], list[Strip], list[Strip]]:
    """The strips in their rows: linked segments, those apart, the array. A number stands for so many
    segments that are left out."""
    linked = kept([segment for segment in moment.segments if segment.is_linked], moment.near)
    items: list[Strip | int] = [item if isinstance(item, int) else segment_strip(item, moment) for item in linked]
    for strip, other in itertools.pairwise(items):
        if isinstance(strip, Strip) and isinstance(other, Strip):
            strip.leads_on = strip.next is not None and other.place == f"whole {strip.next.text}"
    apart = [segment_strip(segment, moment) for segment in moment.segments if not segment.is_linked]
    return items, apart, array_strips(moment)


# ---- Where everything is --------------------------------------------------------------------------


def value_size(text: str) -> int:
    """How large a value is written."""
    return BIG if len(text) <= LONG else PLAIN


class Pin(NamedTuple):
    """The pin of an actor at a place."""

    level: str
    actor: int


class Layout:
    """Where the strips, the pins, the lines and the chips of a moment are."""

    def __init__(self, moment: Moment) -> None:
        self.moment = moment
        self.asker = width_of_marks([moment.viewer]) + 6 if moment.viewer else 0.0  # the room for a viewer's mark
        linked, apart, array = strips_of(moment)
        self.strips = [strip for strip in [*linked, *apart, *array] if isinstance(strip, Strip)]
        self.measure()
        self.spots = {place: strip for strip in self.strips for place in strip.spots}
        self.led = [chip for chip in moment.chips if chip.place in self.spots]
        self.pin_columns()
        self.rows: list[Sequence[Strip | int]] = [
            *self.wrapped(linked), *self.wrapped(apart), *([strip] for strip in array)
        ]
        self.place_rows()
        self.place_chips()
        self.width = round(self.right + MARGIN)
        self.height = round(self.bottom)

    def measure(self) -> None:
        """How wide a box is, and the column of the next ones."""
        boxes = [box for strip in self.strips for box in strip.boxes]
        texts = [(box.label, SMALL, False) for box in boxes]
        texts += [(box.index.text, SMALL, False) for box in boxes if box.index]
        texts += [(box.value.text, value_size(box.value.text), True) for box in boxes]
        markers = [marker for strip in self.strips for marker in (strip.above, strip.below) if marker]
        texts += [(marker.text, PLAIN, True) for marker in markers]
        self.box = max([62.0, *(width_of(*text) + 10 for text in texts)])
        ends = [pill.text for strip in self.strips for pill in strip.pills]
        ends += [strip.next.text for strip in self.strips if strip.next and strip.next.text]
        self.next = max([54.0, *(width_of(text, PLAIN, True) + 14 for text in ends)])

    def strip_width(self, strip: Strip) -> float:
        """How wide a strip is."""
        cells = len(strip.boxes) * (self.gap + self.box)
        return cells + (self.gap + self.next if strip.next else 0) + 10

    def item_width(self, item: Strip | int) -> float:
        """How wide a strip is, or the words for those that are left out."""
        return self.strip_width(item) if isinstance(item, Strip) else width_of(f"{item} segments", HEAD, True)

    def wrapped(self, items: Sequence[Strip | int]) -> list[list[Strip | int]]:
        """Items in rows that are not too wide."""
        rows: list[list[Strip | int]] = []
        wide = 0.0
        for item in items:
            width = self.item_width(item) + LINK
            if not rows or wide + width > WIDEST:
                rows.append([])
                wide = 0.0
            rows[-1].append(item)
            wide += width
        return rows

    # -- Pins --

    def column_of(self, chip: Chip) -> Column:
        """The column of an actor's pin."""
        strip = self.spots[chip.place]
        column, level = strip.spots[chip.place]
        return id(strip), column, level == "pill"

    def pin_columns(self) -> None:
        """Which actors have a pin in which column, from above; and how high boxes are for that."""
        self.columns: dict[Column, list[Pin]] = {}
        for chip in self.led:
            _, level = self.spots[chip.place].spots[chip.place]
            self.columns.setdefault(self.column_of(chip), []).append(Pin(level, chip.actor))
        for pins in self.columns.values():
            pins.sort(key=lambda pin: (LEVELS.index(pin.level), pin.actor))
        most = max(map(len, self.columns.values()), default=0)
        self.beside = 1 if most <= MOST_BELOW else next(filter(self.is_low, range(2, most + 1)))
        self.gap = GAP + APART * (self.beside - 1)
        heights = [(key[2], len(self.pin_rows(key, self.beside))) for key in self.columns]
        self.cell = max(CELL, APART * max((rows for is_pill, rows in heights if not is_pill), default=0) - 2 * COUNTER)
        self.pill = max(PILL, APART * max((rows for is_pill, rows in heights if is_pill), default=0))

    def is_low(self, beside: int) -> bool:
        """Whether few rows of so many pins are enough, or one for each level."""
        columns = [self.pin_rows(key, beside) for key in self.columns]
        return all(len(rows) <= max(FEW_BELOW, len({level for level, _ in rows})) for rows in columns)

    def pin_rows(self, key: Column, beside: int) -> list[tuple[str, list[int]]]:
        """The pins of a column in rows of so many: the level of each row, and its actors."""
        rows: list[tuple[str, list[int]]] = []
        for level, pins in itertools.groupby(self.columns[key], lambda pin: pin.level):
            actors = [pin.actor for pin in pins]
            rows += ((level, actors[first: first + beside]) for first in range(0, len(actors), beside))
        return rows

    def pin_at(self, chip: Chip) -> tuple[float, float]:
        """Where the pin of an actor is."""
        strip, key = self.spots[chip.place], self.column_of(chip)
        rows = self.pin_rows(key, self.beside)
        index, actors = next((index, actors) for index, (_, actors) in enumerate(rows) if chip.actor in actors)
        x = self.box_left(strip, key[1]) - NEAR - APART * (len(actors) - 1 - actors.index(chip.actor))
        if key[2]:
            return x, strip.top - 14 - self.pill + max(PILL / 2, 9) + APART * index
        top = self.cells_top(strip)
        lowest = top + self.cell + COUNTER / 2
        levels = PINNED | {"below": self.cell + COUNTER / 2}
        wanted, last = [], top - COUNTER - APART
        for level, _ in rows:
            last = max(last + APART, top + levels[level])
            wanted.append(last)
        if last <= lowest:
            return x, wanted[index]
        return x, min(wanted[index], lowest - APART * (len(rows) - 1 - index))

    # -- Rows --

    def place_rows(self) -> None:
        """Puts the strips, row below row, and notes where the lanes under each row begin."""
        for index, row in enumerate(self.rows):
            for strip in (item for item in row if isinstance(item, Strip)):
                strip.row = index
        led = [self.spots[chip.place].row for chip in self.led]  # the row of each pin
        upper = sum(row < len(self.rows) - 1 for row in led)
        self.channel = MARGIN + 2.0
        self.left = MARGIN + (8.0 + LANES * upper if upper else 0)
        self.lanes: list[float] = []
        self.gone: list[tuple[float, float, str]] = []
        self.apart: float | None = None
        self.right, y = 0.0, 52.0
        for index, row in enumerate(self.rows):
            if any(isinstance(item, Strip) and not item.is_linked for item in row):
                self.apart = self.apart or y + 12
                y += 18
            if any(isinstance(item, Strip) and item.pills for item in row):
                y += self.pill + 14
            self.place_row(row, y)
            y += HEADING + 2 * COUNTER + self.cell + FOOT
            self.lanes.append(y + 9)
            y += 16 + LANES * (len(led) if index == len(self.rows) - 1 else led.count(index))
        self.under = y + (4 if self.moment.chips else -18)

    def place_row(self, row: Sequence[Strip | int], y: float) -> None:
        """Puts the strips of a row beside each other, so far down."""
        x = self.left
        for item in row:
            if isinstance(item, Strip):
                item.left, item.top = x, y
            else:
                self.gone.append((x, y, f"{item} segments"))
            x += self.item_width(item) + LINK
        self.right = max(self.right, x - LINK)

    def box_left(self, strip: Strip, column: int) -> float:
        """Where a column's box begins; its pins are at the left of it."""
        return strip.left + column * (self.gap + self.box) + self.gap

    def cells_top(self, strip: Strip) -> float:
        """Where the boxes of a strip begin."""
        return strip.top + HEADING + COUNTER

    # -- Chips --

    def place_chips(self) -> None:
        """Puts the chips in columns under the lanes."""
        chips = self.moment.chips
        lines = [line for chip in chips for line in chip.lines_under_head()]
        words = [width_of(text, PLAIN, fill not in (DARK, GREY)) + moved + 60 for _, text, moved, fill in lines]
        heads = [width_of(f"actor {chip.actor}{chip.call}", HEAD, True) + 70 for chip in chips]
        self.chip = max([150.0, *words, *heads])
        wide = max(self.right - self.left, 880.0)
        columns = max(1, int((wide + 4) // (self.chip + 24)))
        self.chips: dict[int, tuple[float, float, float, int]] = {}
        y, tallest = self.under, 0.0
        for index, chip in enumerate(chips):
            row, column = divmod(index, columns)
            if row and not column:
                y, tallest = y + tallest + 12, 0.0
            x = self.left + 20 + column * (self.chip + 24)
            height = 28.0 + LINE * len([*chip.lines_under_head()])
            self.chips[chip.actor] = (x, y, height, row)
            tallest = max(tallest, height)
            self.right = max(self.right, x + self.chip)
        self.foot = y + tallest + 22
        self.bottom = self.foot + (34 if self.moment.idle else 16) + (18 if self.moment.viewer else 0)
        captions = self.asker + width_of(self.moment.headline(), HEAD, True), width_of(self.moment.said(), PLAIN)
        self.right = max(self.right, MARGIN + max(captions), 520.0)
