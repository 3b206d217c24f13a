"""The layout of the queue at one moment: strips, pins and chips of small queues."""

import unittest
from itertools import combinations, pairwise
from xml.etree import ElementTree

from lcrq_tools.draw import boxes, queue_drawing
from lcrq_tools.draw.boxes import Chip, Layout, Moment, Segment, Strip
from lcrq_tools.draw.figure import width_of
from lcrq_tools.records import Cell, Tail

ARRAY = {"ahead": "0", "atail": "0"} | {f"acell {slot}": "empty" for slot in range(64)}


def segment(name: str, following: str = "none", ring: int = 4, is_linked: bool = True) -> Segment:
    """A segment with one value, in its first cell."""
    cells = [Cell(True, 0, 7), *(Cell(True, index, None) for index in range(1, ring))]
    return Segment(name, 0, Tail(False, 1), following, cells, is_linked)


def chip(actor: int, place: str) -> Chip:
    """An actor that would touch this place next."""
    return Chip(actor, ", enq 7", "E4", ["val := the value of cell t mod R"], ["t 0"], place)


def moment(segments: list[Segment], chips: list[Chip], array: dict[str, str] | None = None) -> Moment:
    """A moment with these segments, from the first to the last, and these actors in calls."""
    ends = (segments[0].name, [part.name for part in segments if part.is_linked][-1])
    return Moment("A queue", "after line 1", "4 actors", *ends, segments, array or ARRAY, chips, [4], None)


def strips(layout: Layout) -> list[tuple[float, float, float, float]]:
    """Left, top, right and bottom of each strip."""
    height = boxes.HEADING + 2 * boxes.COUNTER + layout.cell + boxes.FOOT
    return [(box.left, box.top, box.left + layout.strip_width(box), box.top + height) for box in layout.strips]


def overlap(box: tuple[float, float, float, float], other: tuple[float, float, float, float]) -> bool:
    """Whether two boxes have a point in common."""
    return box[0] < other[2] and other[0] < box[2] and box[1] < other[3] and other[1] < box[3]


class Strips(unittest.TestCase):
    """Where segments are."""

    def test_linked_segments_stand_beside_each_other(self) -> None:
        layout = Layout(moment([segment("0.0", "1.0"), segment("1.0")], []))
        (_, top, right, _), (left, below, _, _) = strips(layout)
        self.assertEqual((top, left), (below, right + boxes.LINK))
        self.assertTrue(layout.strips[0].leads_on)

    def test_no_strips_overlap(self) -> None:
        names = [f"1.{number}" for number in range(5)]
        chain = [segment(name, following) for name, following in zip(names, [*names[1:], "none"])]
        chain.append(segment("2.0", is_linked=False))
        layout = Layout(moment(chain, [], ARRAY | {"atail": "3", "acell 2": "9"}))
        self.assertEqual(len(layout.strips), 7)
        for strip, other in combinations(strips(layout), 2):
            self.assertFalse(overlap(strip, other), f"{strip} and {other}")
        for _, _, right, bottom in strips(layout):
            self.assertTrue(right <= layout.width and bottom <= layout.height)

    def test_boxes_of_a_strip_stand_apart(self) -> None:
        layout = Layout(moment([segment("0.0", ring=8)], []))
        lefts = [layout.box_left(layout.strips[0], column) for column in range(8)]
        self.assertTrue(all(left + layout.box < right for left, right in pairwise(lefts)))

    def test_a_long_value_makes_boxes_wider(self) -> None:
        wide, narrow = segment("0.0"), segment("0.0")
        wide.cells[0] = Cell(True, 0, 18446744073709551615)
        usual, wider = (Layout(moment([queue], [])) for queue in (narrow, wide))
        self.assertGreater(wider.box, usual.box)
        self.assertGreater(wider.box, width_of("18446744073709551615", boxes.value_size("18446744073709551615"), True))

    def test_segments_that_nobody_is_near_are_counted(self) -> None:
        names = [f"0.{number}" for number in range(9)]
        chain = [segment(name, following) for name, following in zip(names, [*names[1:], "none"])]
        self.assertEqual([item if isinstance(item, int) else item.name for item in boxes.kept(chain, {"0.4"})],
                         ["0.0", 3, "0.4", 3, "0.8"])

    def test_an_array_that_was_never_touched_is_left_out(self) -> None:
        self.assertEqual(boxes.array_strips(moment([segment("0.0")], [])), [])
        drawn = boxes.array_strips(moment([segment("0.0")], [], ARRAY | {"ahead": "1", "atail": "2", "acell 1": "5"}))
        self.assertEqual([len(strip.boxes) for strip in drawn], [2])


class Pins(unittest.TestCase):
    """Where the places are that actors touch next."""

    def test_pins_of_a_column_do_not_overlap(self) -> None:
        chips = [chip(actor, "value 0.0 1") for actor in range(1, 9)]
        layout = Layout(moment([segment("0.0")], chips))
        places = [layout.pin_at(held) for held in chips]
        for (x, y), (across, down) in combinations(places, 2):
            self.assertGreaterEqual(max(abs(x - across), abs(y - down)), 2 * boxes.PIN)
        left, right = layout.box_left(layout.strips[0], 0) + layout.box, layout.box_left(layout.strips[0], 1)
        self.assertTrue(all(left < x < right for x, _ in places))

    def test_a_pin_stands_at_its_half_of_the_cell(self) -> None:
        chips = [chip(1, "value 0.0 2"), chip(2, "index 0.0 2"), chip(3, "tail 0.0")]
        layout = Layout(moment([segment("0.0")], chips))
        top = layout.cells_top(layout.strips[0])
        value, index, tail = (layout.pin_at(held)[1] for held in chips)
        self.assertTrue(tail < top < value < index < top + layout.cell)

    def test_chips_do_not_overlap(self) -> None:
        chips = [chip(actor, "tail 0.0") for actor in range(1, 9)]
        layout = Layout(moment([segment("0.0")], chips))
        placed = [(x, y, x + layout.chip, y + height) for x, y, height, _ in layout.chips.values()]
        self.assertEqual(len(placed), 8)
        for box, other in combinations(placed, 2):
            self.assertFalse(overlap(box, other))
        under = max(bottom for _, _, _, bottom in strips(layout))
        self.assertTrue(all(y > under and right <= layout.width for _, y, right, _ in placed))


class Drawn(unittest.TestCase):
    """The text of a moment."""

    def test_every_place_is_named_once(self) -> None:
        drawn = queue_drawing.draw(moment([segment("0.0")], [chip(1, "value 0.0 0")]))
        root = ElementTree.fromstring(drawn)
        named = [group.get("data-place") for group in root.iter() if group.get("class") == "place"]
        wanted = {"whole 0.0", "head 0.0", "tail 0.0", "next 0.0", "qhead", "qtail"}
        wanted |= {f"{half} 0.0 {cell}" for half in ("value", "index") for cell in range(4)}
        self.assertEqual(sorted(filter(None, named)), sorted(wanted))

    def test_a_strip_knows_where_its_places_are(self) -> None:
        strip = boxes.segment_strip(segment("0.0"), moment([segment("0.0")], []))
        self.assertIsInstance(strip, Strip)
        self.assertEqual(strip.spots["value 0.0 3"], (3, "value"))
        self.assertEqual(strip.spots["tail 0.0"], (1, "above"))
