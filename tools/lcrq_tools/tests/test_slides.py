"""Slides: which lines, what is asked of each, and what a page becomes."""

import argparse
import json
import re
import unittest

from lcrq_tools.faults import Fault
from lcrq_tools.page import page, page_data, slides
from lcrq_tools.page.mirror import State

RUN: page_data.Data = {"title": "a run", "moments": []}
STATES = [State(0, "", "", 0, 0), State(1, "deq 1", "ok 1", 1, 0), State(2, "undo 1", "at 0 1", 0, 1)]


class Slides(unittest.TestCase):
    """The chosen lines of a page."""

    def test_lines_keep_their_order_and_are_there_once(self) -> None:
        self.assertEqual(slides.lines_in("20,12,20"), [20, 12])
        for text in ("", "0", "1,,2", "x", "1:3"):
            with self.subTest(text), self.assertRaisesRegex(argparse.ArgumentTypeError, "numbers of lines"):
                slides.lines_in(text)

    def test_a_slide_has_its_line_and_a_question(self) -> None:
        found = slides.chosen([2, 1], STATES)
        self.assertEqual(found[0], {"at": 2, "text": "undo 1", "question": slides.QUESTIONS["undo"]})
        self.assertEqual(found[1], {"at": 1, "text": "deq 1", "question": slides.ANY_LINE})

    def test_a_line_that_is_not_there_is_a_fault(self) -> None:
        for line in (0, 3):
            with self.subTest(line), self.assertRaisesRegex(Fault, f"^line {line} is not among the lines 1 to 2"):
                slides.chosen([line], STATES)
        with self.assertRaisesRegex(Fault, "^without a line there is no slide$"):
            slides.chosen([1], STATES[:1])

    def test_a_page_without_chosen_lines_stays(self) -> None:
        self.assertEqual(slides.parts_of(None, STATES), {})

    def test_a_page_of_slides_has_all_parts(self) -> None:
        made = page.page_with(RUN, **slides.parts_of([2], STATES))
        self.assertEqual(made.count('<body class="slides">\n'), 1)
        self.assertEqual((made.count('<section id="slide"'), made.count("#slide {")), (1, 2))
        found = re.search(r'id="slides">(.*?)</script>\n<script>\n// Goes along the slides', made)
        self.assertEqual(found and json.loads(found[1]), slides.chosen([2], STATES))
        self.assertFalse('id="slide' in page.page_with(RUN).replace('id="slider"', ""))
