"""The steps of a run as lanes of its page."""

import unittest
from typing import Any

from lcrq_tools.draw.lanes import Dot, Row, Widths
from lcrq_tools.page.page_lanes import data_of, layout_of
from lcrq_tools.records import Step
from lcrq_tools.speak.sentences import Seen
from lcrq_tools.tests.replay_stub import actor

LANES = ["actor 1", "actor 2", "qtail", "tail 0.0"]
FIRST = Step.read("step 1; go 1; qtail; read; 0.0; -")
SEEN = Seen(FIRST, actor("E1"), actor("E2"), "0.0")
READ = Row(FIRST, "E1", [Dot("qtail", "read", "0.0")], seen=SEEN)
WROTE = Step.read("step 2; go 2; tail 0.0; wrote; open 0; -")
DREW = Row(WROTE, "", [Dot("tail 0.0", "wrote", "open 0 → open 1")], viewer=3)


def laid_out(*rows: Row, start: dict[str, str] | None = None) -> dict[str, Any]:
    """The layout of these rows, below what is on the lanes before them."""
    viewers = {row.viewer for row in rows} - {0}
    return layout_of(LANES, Widths(start or {}, rows), viewers, start or {}, "start" if start else "")


class Rows(unittest.TestCase):
    """What a row has."""

    def test_a_row_has_its_words_without_its_number_and_its_viewer(self) -> None:
        self.assertEqual(data_of(READ), {
            "actor": 1, "about": "actor 1, E1: reads the queue's tail: 0.0", "point": "E1", "reply": "", "viewer": 0,
            "dots": [["qtail", "read", "0.0"]],
        })

    def test_a_row_has_who_asked_it(self) -> None:
        self.assertEqual((data_of(DREW)["viewer"], data_of(DREW)["about"]), (3, "go 2"))
        self.assertEqual(DREW.words(), "viewer 3, go 2")

    def test_a_dot_has_its_lane_and_says_whether_it_is_a_write(self) -> None:
        self.assertEqual(data_of(DREW)["dots"], [["tail 0.0", "wrote", "open 0 → open 1"]])


class Layouts(unittest.TestCase):
    """Where lanes are."""

    def test_each_lane_is_in_its_band(self) -> None:
        layout = laid_out(READ, DREW)
        self.assertEqual([name for name, _, _ in layout["bands"]], ["queue", "segment 0.0"])
        for (_, left, right), (_, _, x, _) in zip(layout["bands"], layout["lanes"][2:]):
            self.assertTrue(left < x < right)
        self.assertLess(layout["bands"][0][2], layout["bands"][1][1])
        self.assertLess(layout["bands"][1][2], layout["width"])

    def test_a_lane_has_its_head_and_its_actor(self) -> None:
        heads = [(lane, head, number) for lane, head, _, number in laid_out(READ, DREW)["lanes"]]
        wanted = [("actor 1", "actor 1", 1), ("actor 2", "actor 2", 2), ("qtail", "qtail", 0), ("tail 0.0", "tail", 0)]
        self.assertEqual(heads, wanted)

    def test_marks_of_viewers_stand_between_numbers_and_lanes(self) -> None:
        plain, marked = laid_out(READ), laid_out(READ, DREW)
        self.assertEqual(plain["numbers"], marked["numbers"])
        self.assertGreater(marked["lanes"][0][2], plain["lanes"][0][2])

    def test_what_is_there_before_the_first_row_has_a_line(self) -> None:
        plain, begun = laid_out(READ), laid_out(READ, start={"qtail": "0.0", "actor 1": ""})
        self.assertEqual((plain["start"], plain["start_name"], begun["start_name"]), ({}, "", "start"))
        self.assertEqual(begun["start"], {"qtail": "0.0"})
        self.assertGreater(begun["first"], plain["first"])
