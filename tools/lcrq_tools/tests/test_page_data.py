"""The data of a page, the rooms that they ask for, and the page around them."""

import json
import re
import unittest
from xml.etree import ElementTree

from lcrq_tools.draw.figure import width_of
from lcrq_tools.page import page, page_data
from lcrq_tools.page.page_parts import Chips, Rooms
from lcrq_tools.page.mirror import State

HOSTILE: page_data.Data = {"title": "</title> & <b>", "moments": [{"text": "</script><!--"}, {"line": 1}]}


def chip(point: str, place: str) -> dict[str, str]:
    """What an actor at a control point is about to do."""
    return {"point": point, "call": "enq 7", "words": "", "note": f"touches {place}", "place": place}


def rooms_of(*moments: tuple[dict[str, str], Chips]) -> Rooms:
    """The rooms of moments with these places and chips."""
    rooms = Rooms()
    for places, chips in moments:
        rooms.take(State(1, "go 1", "ok 1", 0, 0, places=places), chips)
    return rooms


def size_in(css: str, name: str) -> float:
    """A size that CSS names."""
    found = re.search(rf"--{name}: ([0-9.]+)rem", css)
    assert found, f"there is no {name} in {css}"
    return float(found[1])


class RoomsOfTexts(unittest.TestCase):
    """How much room there is."""

    def test_the_largest_text_of_all_moments_has_room(self) -> None:
        css = rooms_of(({"head 0.0": "7"}, {}), ({"head 0.0": "1234"}, {}), ({"head 0.0": "8"}, {})).css()
        self.assertAlmostEqual(size_in(css, "marker-room"), width_of("head 1234 →", 0.9, True), 2)

    def test_long_values_are_written_smaller(self) -> None:
        short, long = (rooms_of(({"cell 0.0 0": f"1 0 {value}"}, {})).css() for value in (123456, 1234567))
        self.assertEqual((size_in(short, "value-size"), size_in(long, "value-size")), (1.25, 0.85))
        self.assertAlmostEqual(size_in(long, "value-room"), width_of("1234567", 0.85, True), 2)
        self.assertEqual(size_in(rooms_of(({"cell 0.0 0": "1 0 none"}, {})).css(), "value-room"), 1.5)

    def test_a_warning_has_room_where_a_cell_is_unsafe_at_some_moment(self) -> None:
        self.assertIn(".warning { display: none; }", rooms_of(({"cell 0.0 0": "1 0 none"}, {})).css())
        unsafe = rooms_of(({"cell 0.0 0": "0 0 none"}, {}), ({"cell 0.0 0": "1 0 none"}, {}))
        self.assertNotIn(".warning", unsafe.css())

    def test_pins_have_room_for_those_that_are_there_at_once(self) -> None:
        one, three = Chips({1: chip("E1", "qtail")}), Chips({actor: chip("E1", "qtail") for actor in (1, 2, 3)})
        self.assertEqual(rooms_of(({}, one), ({}, one)).pins, {"qtail": 1, "point": 1})
        self.assertEqual(rooms_of(({}, one), ({}, three), ({}, one)).pins, {"qtail": 3, "point": 3})
        self.assertEqual(rooms_of(({}, {1: None})).pins, {})


class Pages(unittest.TestCase):
    """The page around the data."""

    def test_nothing_in_the_data_ends_their_element(self) -> None:
        text = page_data.text_of(HOSTILE)
        self.assertNotIn("<", text)
        self.assertEqual(json.loads(text), HOSTILE)
        self.assertIn("&lt;/title&gt; &amp; &lt;b&gt;", page.page_with(HOSTILE))

    def test_a_moment_is_a_line(self) -> None:
        self.assertEqual(page_data.text_of(HOSTILE).count("\n"), 4)

    def test_a_page_has_no_style_and_no_handler_in_its_elements(self) -> None:
        made = page.page_with(HOSTILE, nonce=' nonce="n"', toolbar="<nav></nav>", more_script="<i></i>")
        body = re.sub(r"(?s)<(style|script)\b[^>]*>.*?</\1>", "", made)
        self.assertEqual(re.findall(r" (?:style|on[a-z]+)=", body), [])
        self.assertEqual(made.count(' nonce="n">'), 3)
        self.assertTrue(made.index("</header>") < made.index("<nav>") < made.index("<main>") < made.index("<i>"))

    def test_no_script_makes_elements_of_text_or_writes_styles_as_text(self) -> None:
        scripts = "".join(map(page.text_in, page.SCRIPTS))
        of_text = ("innerHTML", "outerHTML", "insertAdjacentHTML", "document.write", "eval(")
        for way in (*of_text, 'setAttribute("style"', "cssText"):
            with self.subTest(way):
                self.assertFalse(way in scripts)

    def test_all_parts_of_which_a_script_knows_the_name_are_there(self) -> None:
        made = page.page_with(HOSTILE)
        names = {*re.findall(r' id="([\w-]+)"', made)}
        asked = {*re.findall(r'byId\("([\w-]+)"\)', "".join(map(page.text_in, page.SCRIPTS)))}
        self.assertEqual(asked - names, set())
        self.assertGreater(len(asked), 20)

    def test_the_skeleton_is_well_formed(self) -> None:
        bare = re.sub(r"(?s)<(style|script)\b[^>]*>.*?</\1>", "", page.page_with(HOSTILE))
        body = bare[bare.index("<body"): bare.index("</html>")].replace(" hidden>", ' hidden="">')
        self.assertEqual(ElementTree.fromstring(re.sub(r"<(input[^>]*)>", r"<\1/>", body)).tag, "body")
