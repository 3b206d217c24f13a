"""The layout of a picture of a run: lanes, bands, rows, breaks and legend of small pictures."""

import unittest
from itertools import pairwise
from xml.etree import ElementTree

from lcrq_tools.draw import drawing, lanes
from lcrq_tools.draw.figure import MARGIN, SMALL, width_of
from lcrq_tools.draw.lanes import Call, Dot, Layout, Picture, Row
from lcrq_tools.records import Event, Place, Step

LANES = ["actor 1", "actor 2", "qhead", "qtail", "tail 0.0", "value 0.0 0", "index 0.0 0", "next 0.0"]


def row(number: int, actor: int, *dots: Dot, reply: str = "", is_undone: bool = False) -> Row:
    """A row of a step with these dots."""
    place = Place.read(dots[0].lane if dots else "-")
    return Row(Step(number, Event("go", actor), place, "read", "0", reply), "E1", list(dots), is_undone)


def picture(*rows: Row, last: int = 0, drawn: list[str] | None = None) -> Picture:
    """A picture of these rows over the lanes above, or over others."""
    return Picture("A run", drawn or LANES, list(rows), {}, 1, last or rows[-1].step.number)


def laid_out(made: Picture, legend: list[str] | None = None) -> Layout:
    """The layout of a picture."""
    return Layout(made, 0.0, legend or ["write"])


class Lanes(unittest.TestCase):
    """Where lanes and bands are."""

    def test_lanes_stand_in_their_order_inside_the_figure(self) -> None:
        layout = laid_out(picture(row(1, 1, Dot("qtail", "read", "0.0"))))
        places = [layout.lanes[lane] for lane in LANES]
        self.assertEqual(places, sorted(set(places)))
        self.assertGreater(places[0], layout.numbers)
        self.assertLess(places[-1], layout.width - MARGIN)

    def test_bands_do_not_overlap_and_hold_their_lanes(self) -> None:
        layout = laid_out(picture(row(1, 1, Dot("qtail", "read", "0.0"))))
        self.assertEqual([name for name, _, _ in layout.bands], ["queue", "0.0"])
        for (_, _, right), (_, left, _) in pairwise(layout.bands):
            self.assertLess(right, left)
        for name, left, right in layout.bands:
            inside = [layout.lanes[lane] for lane in LANES if lanes.band_of(lane) == name]
            self.assertTrue(all(left < x < right for x in inside), name)

    def test_a_long_text_moves_the_lanes_behind_it(self) -> None:
        text = "18446744073709551615"
        short, long = (laid_out(picture(row(1, 1, Dot("value 0.0 0", "wrote", value)))) for value in ("7", text))
        room = long.lanes["index 0.0 0"] - long.lanes["value 0.0 0"]
        self.assertGreater(room, width_of(text, SMALL, True))
        self.assertGreater(room, short.lanes["index 0.0 0"] - short.lanes["value 0.0 0"])
        self.assertEqual(long.lanes["value 0.0 0"], short.lanes["value 0.0 0"])

    def test_a_reply_has_room_beside_its_actor(self) -> None:
        layout = laid_out(picture(row(1, 1, reply="value 18446744073709551615")))
        self.assertGreater(layout.lanes["actor 2"] - layout.lanes["actor 1"], 150)

    def test_order_is_actors_ends_segments_array(self) -> None:
        wanted = "actor 1,actor 2,qtail,next 1.0,tail 0.0,value 0.0 1,index 0.0 1,ahead,acell 3".split(",")
        mixed = sorted(wanted, reverse=True)
        self.assertEqual(sorted(mixed, key=lambda lane: lanes.order_of(lane, ["1.0", "0.0"])), wanted)


class Rows(unittest.TestCase):
    """Where rows and breaks are."""

    def test_rows_are_one_height_apart(self) -> None:
        layout = laid_out(picture(*(row(number, 1) for number in range(1, 6))))
        self.assertEqual({below - above for above, below in pairwise(layout.rows)}, {lanes.ROW})
        self.assertEqual(layout.breaks, [])

    def test_a_break_stands_where_steps_are_left_out(self) -> None:
        layout = laid_out(picture(row(1, 1), row(4, 1), last=9))
        self.assertEqual(len(layout.breaks), 2)
        self.assertTrue(layout.rows[0] < layout.breaks[0] < layout.rows[1] < layout.breaks[1] < layout.bottom)
        self.assertEqual(layout.side_of(3, 1), (layout.breaks[0], False))
        self.assertEqual(layout.side_of(4, -1), (layout.rows[1] - lanes.ROW // 2 + 2, True))

    def test_headings_stand_again_after_forty_rows(self) -> None:
        layout = laid_out(picture(*(row(number, 1) for number in range(1, lanes.MOST_BELOW + 2))))
        self.assertEqual(len(layout.parts), 2)
        top, bottom = layout.parts[0].lane_ends()
        self.assertTrue(top < layout.rows[0] and layout.rows[lanes.MOST_BELOW - 1] < bottom)
        self.assertGreater(layout.rows[-1], layout.parts[1].lane_ends()[0])
        whole = layout.clipped(layout.rows[0], layout.rows[-1])
        self.assertEqual(len(whole), 2)
        self.assertLess(whole[0][1], whole[1][0])

    def test_the_legend_goes_on_below_where_it_does_not_fit(self) -> None:
        texts = ["a mark with many words after it"] * 5
        layout = laid_out(picture(row(1, 1), drawn=["actor 1", "qhead"]), texts)
        wide = lanes.MARK + 4 + width_of(texts[0], SMALL)
        self.assertGreater(len({y for _, y in layout.legend}), 1)
        self.assertTrue(all(x + wide <= layout.width - MARGIN + 1 for x, _ in layout.legend))
        self.assertEqual(len(set(layout.legend)), len(texts))
        self.assertGreater(layout.height, layout.legend[-1][1])


class Dots(unittest.TestCase):
    """What a step did on a lane."""

    def dot(self, access: str, answer: str, lane: str, before: str, after: str) -> Dot:
        """The dot of a step with this access and answer."""
        return lanes.dot_of(Step(1, Event("go", 1), Place.read(lane), access, answer), lane, before, after)

    def test_a_counter_shows_what_was_there(self) -> None:
        self.assertEqual(self.dot("wrote", "0", "tail 0.0", "open 0", "open 1").text, "open 0 → open 1")
        self.assertEqual(self.dot("wrote", "won", "value 0.0 0", "none", "7").text, "7")

    def test_what_lost_shows_what_it_found(self) -> None:
        self.assertEqual(self.dot("read", "lost", "qtail", "0.0", "0.0"), Dot("qtail", "lost", "0.0"))

    def test_a_write_of_the_index_half_only_reads_the_value(self) -> None:
        kinds = [self.dot("wrote index", "won", lane, "a", "b").kind for lane in ("value 0.0 0", "index 0.0 0")]
        self.assertEqual(kinds, ["read", "wrote"])


class Drawn(unittest.TestCase):
    """The text of a picture."""

    def test_every_step_and_lane_is_drawn_once(self) -> None:
        made = picture(row(1, 1, Dot("qtail", "read", "0.0")), row(2, 2, Dot("value 0.0 0", "wrote", "7")))
        made.calls = [Call(1, 1, None), Call(2, 2, 2)]
        root = ElementTree.fromstring(drawing.draw(made))
        groups = [child.get("class") for child in root]
        self.assertEqual(groups.count("row"), 2)
        texts = ["".join(words.itertext()) for words in root.iter("{http://www.w3.org/2000/svg}text")]
        for word in ("actor 1", "actor 2", "segment 0.0", "cell 0", "safe idx", "in a call"):
            self.assertIn(word, texts)
        self.assertEqual(drawing.draw(made), drawing.draw(made))
