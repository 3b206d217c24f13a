"""The marks of viewers, in pictures, in moments and on pages."""

import unittest
from xml.etree import ElementTree

from lcrq_tools.draw import boxes, drawing, queue_drawing, viewer_marks
from lcrq_tools.draw.boxes import Moment, Segment
from lcrq_tools.draw.figure import xml_of
from lcrq_tools.draw.lanes import Dot, Layout, Picture, Row
from lcrq_tools.page import page_data, page_viewers
from lcrq_tools.page.mirror import State
from lcrq_tools.records import Cell, Event, Place, Step, Tail

SVG = "{http://www.w3.org/2000/svg}"
ALL = range(1, 65)


def picture(*viewers: int) -> Picture:
    """A picture of steps that these viewers asked; 0 is nobody."""
    dots = [Dot("qtail", "read", "0.0")]
    rows = [
        Row(Step(number, Event("go", 1), Place("qtail"), "read", "0.0"), "E1", dots, viewer=viewer)
        for number, viewer in enumerate(viewers, 1)
    ]
    return Picture("A run", ["actor 1", "qtail"], rows, {}, 1, len(rows))


def moment(viewer: int) -> Moment:
    """The queue before any step, after a line of this viewer."""
    segment = Segment("0.0", 0, Tail(False, 0), "none", [Cell(True, 0, None), Cell(True, 1, None)])
    array = {"ahead": "0", "atail": "0"} | {f"acell {slot}": "empty" for slot in range(64)}
    return Moment("A queue", "after line 1", "4 actors", "0.0", "0.0", [segment], array, [], [1], None, set(), viewer)


def marks_in(svg: str) -> list[tuple[str, str]]:
    """The viewers whose marks a drawing has, each with the words of the mark."""
    groups = [group for group in ElementTree.fromstring(svg).iter(f"{SVG}g") if group.get("class") == "viewer"]
    return [(group.attrib["data-viewer"], group.findtext(f"{SVG}text", "")) for group in groups]


class Frames(unittest.TestCase):
    """The mark of a viewer."""

    def test_all_marks_differ_without_colours(self) -> None:
        marks = {xml_of(viewer_marks.mark_at(viewer, 20.0, 10.0)).partition(">")[2] for viewer in ALL}
        self.assertEqual(len(marks), len(ALL))
        labels = {viewer_marks.label_of(viewer) for viewer in ALL}
        self.assertEqual(len(labels), len(ALL))

    def test_neighbours_have_other_frames(self) -> None:
        frames = {(viewer_marks.outline(viewer, 20.0, 10.0), viewer_marks.is_dark(viewer)) for viewer in range(1, 9)}
        self.assertEqual(len(frames), 8)
        self.assertEqual([viewer for viewer in ALL if viewer_marks.is_dark(viewer)][:9], [*range(9, 17), 25])

    def test_a_frame_is_around_its_words(self) -> None:
        for viewer in ALL:
            half, room = viewer_marks.half_of(viewer), viewer_marks.width_of_marks([viewer])
            corners = viewer_marks.FRAMES[(viewer - 1) % 8]
            self.assertTrue(all(half + beyond < room / 2 for _, beyond, _ in corners), viewer)
        self.assertEqual(viewer_marks.width_of_marks([]), 0.0)
        self.assertEqual(viewer_marks.width_of_marks(ALL), viewer_marks.width_of_marks([10]))


class Pictures(unittest.TestCase):
    """The marks of a picture."""

    def test_a_step_has_the_mark_of_its_viewer(self) -> None:
        svg = drawing.draw(picture(2, 1, 0, 12))
        named = [("1", "V1"), ("2", "V2"), ("12", "V12")]
        self.assertEqual(marks_in(svg), [("2", "V2"), ("1", "V1"), ("12", "V12"), *named])
        texts = [words.text or "" for words in ElementTree.fromstring(svg).iter(f"{SVG}text")]
        names = [text for text in texts if text.startswith("viewer ")]
        self.assertEqual(names, ["viewer 1", "viewer 2", "viewer 12"])

    def test_its_words_name_the_viewers(self) -> None:
        self.assertIn("Step 1, viewer 2, go 1. Step 2, go 1.", drawing.about(picture(2, 0)))

    def test_without_viewers_nothing_moves(self) -> None:
        plain, marked = (Layout(picture(viewer), 0.0, ["write"]) for viewer in (0, 1))
        self.assertEqual((plain.marks, plain.viewers), (0.0, []))
        self.assertGreater(marked.lanes["actor 1"] - plain.lanes["actor 1"], marked.marks)
        self.assertEqual(marks_in(drawing.draw(picture(0))), [])

    def test_the_legend_of_many_viewers_goes_on_below(self) -> None:
        layout = Layout(picture(*ALL), 0.0, ["write"])
        self.assertGreater(len({y for _, y in layout.viewers}), 1)
        self.assertEqual(len({*layout.viewers}), len(ALL))
        self.assertGreater(layout.height, max(y for _, y in layout.viewers))


class Moments(unittest.TestCase):
    """The mark of a moment."""

    def test_the_last_line_has_the_mark_of_its_viewer(self) -> None:
        self.assertEqual(marks_in(queue_drawing.draw(moment(3))), [("3", "V3"), ("3", "V3")])
        self.assertEqual(marks_in(queue_drawing.draw(moment(0))), [])

    def test_the_drawing_has_room_for_it(self) -> None:
        plain, marked = (boxes.Layout(moment(viewer)) for viewer in (0, 64))
        self.assertEqual((plain.asker, marked.height - plain.height), (0.0, 18))


class Pages(unittest.TestCase):
    """The marks of a page."""

    def test_a_page_of_a_script_has_none(self) -> None:
        self.assertEqual(page_viewers.marks_of([]), {"wide": 0.0, "high": viewer_marks.HIGH, "of": {}})

    def test_each_viewer_has_a_mark_of_its_own(self) -> None:
        marks = page_viewers.marks_of([9, 1])
        of = marks["of"]
        assert isinstance(of, dict)
        self.assertEqual([(viewer, label, is_dark) for viewer, (_, label, is_dark) in of.items()], [
            ("1", "V1", False), ("9", "V9", True),
        ])
        self.assertEqual(of["1"][0], viewer_marks.outline(1, 0.0, 0.0))
        self.assertEqual(marks["wide"], round(viewer_marks.width_of_marks([1, 9]), 1))

    def test_a_line_is_named_with_its_viewer(self) -> None:
        self.assertEqual(State(3, "go 1", "ok 3", 3, 0, viewer=2).asked(), "viewer 2, go 1")
        self.assertEqual(State(3, "go 1", "ok 3", 3, 0).asked(), "go 1")

    def test_those_who_asked_a_line_or_a_step_alone_are_named(self) -> None:
        states = [State(0, "", "", 0, 0), State(1, "len", "at 0 0", 0, 0, viewer=3)]
        self.assertEqual(page_data.named_viewers(states, picture(1, 0, 3).rows), [1, 3])
