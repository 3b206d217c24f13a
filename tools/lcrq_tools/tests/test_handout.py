"""Handouts: which lessons are needed, numbered and empty tables, pictures cut for paper, and two archives."""

import re
import unittest
from xml.etree import ElementTree

from lcrq_tools.program import EXAMPLES
from lcrq_tools.release import handout, paper, worksheet
from lcrq_tools.release.elements import Element, text_in
from lcrq_tools.release.release_pages import LESSONS, Choice


def words(text: str) -> list[Element]:
    """A text as pandoc has it."""
    return [{"t": "Str", "c": text}]


def row_of(*cells: str) -> list[object]:
    """A row of a table."""
    inside = ([{"t": "Plain", "c": words(it)}] for it in cells)
    return [["", [], []], [[["", [], []], {"t": "AlignDefault"}, 1, 1, it] for it in inside]]


def table_of(heads: list[str], *rows: list[str]) -> Element:
    """A table."""
    head, body = [["", [], []], [row_of(*heads)]], [["", [], []], 0, [], [row_of(*it) for it in rows]]
    return {"t": "Table", "c": [["", [], []], [None, []], [], head, [body], [["", [], []], []]]}


def heading(text: str) -> Element:
    """A heading."""
    return {"t": "Header", "c": [2, ["", [], []], words(text)]}


SCRIPT = table_of(["Line", "Reply", "What happens"], ["deq 1", "ok 1", "begins"])
LIVE = table_of(["Line", "Reply", "What happens"], ["a.script", "viewer 1", "the first file"])
ANSWER = table_of(["Line", "Reply"], ["deq 1", "ok 1"])


class Tables(unittest.TestCase):
    """The tables of a lesson."""

    def test_lines_of_a_script_are_numbered(self) -> None:
        self.assertEqual(worksheet.numbered(SCRIPT)["c"][0], ["", ["numbered"], []])
        for other in (LIVE, ANSWER, heading("Exercise")):
            self.assertIs(worksheet.numbered(other), other)

    def test_a_worksheet_has_lines_alone(self) -> None:
        blocks = [heading("Script and replies"), SCRIPT, heading("What to see"), ANSWER, heading("Exercise"), ANSWER]
        made = worksheet.worksheet_of(blocks)
        self.assertEqual([text_in(it["c"][2]) for it in made if it["t"] == "Header"],
                         ["Script and replies", "Exercise"])
        rows = [worksheet.cells_of(row) for body in made[1]["c"][4] for row in body[3]]
        self.assertEqual(rows, [["deq 1", "", ""]])
        self.assertEqual(worksheet.key_of(blocks), [SCRIPT, heading("What to see"), ANSWER])


class Needs(unittest.TestCase):
    """Which lessons a lesson needs."""

    def test_each_lesson_says_what_it_needs(self) -> None:
        needs = {number: handout.needs_of(number) for number in LESSONS}
        self.assertEqual((needs[1], needs[6], needs[15]), ([], [1, 2, 3], [2, 6, 14]))
        self.assertFalse([number for number, them in needs.items() if any(it >= number for it in them)])

    def test_needed_ones_bring_theirs(self) -> None:
        self.assertEqual(handout.with_needed((7,)), (1, 2, 3, 6, 7))
        self.assertEqual(handout.lacks_of((1, 2, 3, 6, 7)), "")
        self.assertIn("lesson 2 needs 1; lesson 7 needs 6:", handout.lacks_of((2, 7)))

    def test_the_contents_say_what_is_left_out(self) -> None:
        lines = [*handout.contents(Choice((2, 9), "none"))]
        self.assertIn("It needs 1, not in here.", lines[0])
        self.assertIn("Bookmarks and same. It needs 4, not in here.", lines[1])


class Archives(unittest.TestCase):
    """Where the answers are."""

    def test_answers_have_an_archive_of_their_own(self) -> None:
        files = {"docs/lessons.html": b"", "docs/answers.html": b"", "docs/answers.pdf": b""}
        made = handout.archives_of("x", files)
        self.assertEqual([*made["x"]], ["docs/lessons.html"])
        self.assertEqual([*made["x-answers"]], ["docs/answers.html", "docs/answers.pdf"])
        self.assertEqual([*handout.archives_of("x", made["x"])], ["x"])


class Pictures(unittest.TestCase):
    """The pictures of the lessons on paper."""

    def test_no_row_of_windows_is_too_wide(self) -> None:
        for path in sorted(EXAMPLES.glob("*.svg")):
            with self.subTest(path.name):
                made = paper.figure_of(path.read_text(encoding="utf-8"), "picture-1", "about")
                self.assertLessEqual(paper.widest_in(made), paper.WIDE)
                ElementTree.fromstring(f"<div>{made}</div>")

    def test_letters_have_eight_points(self) -> None:
        for path in sorted(EXAMPLES.glob("*.svg")):
            sizes = re.findall(r'font-size="([\d.]+)"', path.read_text(encoding="utf-8"))
            self.assertGreaterEqual(min(map(float, sizes)) * paper.POINTS, 8, path.name)

    def test_each_step_is_there(self) -> None:
        svg = (EXAMPLES / "07-two-makers-race.svg").read_text(encoding="utf-8")
        lanes = paper.Lanes(ElementTree.fromstring(svg), "picture-1")
        self.assertGreater(len(lanes.groups), 1)
        most = max(lanes.groups, key=lambda group: len(paper.dots_in(lanes.root, group)))
        self.assertEqual(len(lanes.whole(most)), 23)
        with_dots = {at for group in lanes.groups for at in paper.dots_in(lanes.root, group)}
        self.assertLessEqual({1, 2, 19, 20, 21, 22}, with_dots)

    def test_the_code_of_each_call_is_there(self) -> None:
        code = handout.listings()
        self.assertEqual([*code], ["enq", "deq", "aenq", "adeq"])
        self.assertIn("\nE4   t := the counter of Tail(crq), which grows by 1\n     if that tail", code["enq"])
