"""The parts of figures: how wide texts are, elements of SVG, and what is read of a script."""

import argparse
import tempfile
import unittest
from pathlib import Path
from xml.etree import ElementTree

from lcrq_tools.draw import figure
from lcrq_tools.faults import Fault


class Widths(unittest.TestCase):
    """How wide a text may be."""

    def test_each_letter_has_its_width(self) -> None:
        self.assertAlmostEqual(figure.width_of("il", 10), 2 * 0.34 * 10)
        self.assertAlmostEqual(figure.width_of("MW", 10), 2 * 0.98 * 10)
        self.assertAlmostEqual(figure.width_of("ab", 10), 2 * figure.NORMAL * 10)
        self.assertEqual(figure.width_of("", 10), 0)

    def test_bold_is_wider(self) -> None:
        self.assertAlmostEqual(figure.width_of("value", 11, True), figure.BOLD * figure.width_of("value", 11))


class Elements(unittest.TestCase):
    """Elements of SVG."""

    def test_values_and_text_are_escaped(self) -> None:
        made = figure.xml_of(figure.element("text", "a < b & c", data_place='cell "0"', fill=None))
        self.assertEqual(made, '<text data-place="cell &quot;0&quot;">a &lt; b &amp; c</text>')
        read = ElementTree.fromstring(made)
        self.assertEqual((read.text, read.attrib), ("a < b & c", {"data-place": 'cell "0"'}))

    def test_an_empty_element_has_one_tag(self) -> None:
        made = figure.group("row", [figure.element("rect", data_place="a />", x=0.5)])
        self.assertEqual(figure.xml_of(made), '<g class="row"><rect data-place="a /&gt;" x="0.5"/></g>')

    def test_a_number_has_one_digit_after_the_point(self) -> None:
        self.assertEqual([figure.number(value) for value in (3.0, 2.25, 7, "x")], ["3", "2.2", "7", "x"])

    def test_colours_mix_by_their_parts(self) -> None:
        self.assertEqual(figure.mixed("#ff0000", "#0000ff", 0.5), "#800080")
        self.assertEqual(figure.mixed("#123456", "#ffffff", 1.0), "#123456")

    def test_a_figure_is_well_formed_and_titled(self) -> None:
        parts = [figure.group("nothing", []), figure.group("one", [figure.element("rect", x=1)])]
        text = figure.svg("A title", "About <it>", 40, 20, parts)
        self.assertEqual(text.splitlines()[4:], ['<g class="one">', '<rect x="1"/>', "</g>", "</svg>"])
        root = ElementTree.fromstring(text)
        self.assertEqual([child.text for child in root][:2], ["A title", "About <it>"])
        self.assertEqual((root.get("width"), root.get("viewBox")), ("40", "0 0 40 20"))


class Scripts(unittest.TestCase):
    """What is read of a script."""

    def test_the_last_line_gets_its_line_feed(self) -> None:
        with tempfile.TemporaryDirectory() as folder:
            script = Path(folder) / "a.script"
            script.write_bytes(b"enq 1 7\ngo 1\ngo 1")
            self.assertEqual(figure.script_of(str(script), None), b"enq 1 7\ngo 1\ngo 1\n")
            self.assertEqual(figure.script_of(str(script), 2), b"enq 1 7\ngo 1\n")
            script.write_bytes(b"")
            self.assertEqual(figure.script_of(str(script), None), b"")

    def test_a_missing_script_is_named(self) -> None:
        with self.assertRaisesRegex(Fault, "^nowhere.script: No such file or directory$"):
            figure.script_of("nowhere.script", None)

    def test_the_program_is_started_over_the_trace(self) -> None:
        given = argparse.Namespace(program="lcrqdb", trace="a.trace", actors=None, ring=None)
        self.assertEqual(figure.words_of(given), ["lcrqdb", "load", "--", "a.trace"])

    def test_linked_segments_come_in_the_order_of_their_links(self) -> None:
        nexts = {"2.0": "none", "0.0": "1.0", "1.0": "2.0", "1.1": "none"}
        self.assertEqual(figure.in_order(nexts, ["1.0", "2.0"]), (["0.0", "1.0", "2.0"], ["1.1"]))
