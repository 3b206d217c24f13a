"""What a page says of each line, and what its data have of a moment."""

import unittest
from typing import Any

from lcrq_tools.page import page_moments
from lcrq_tools.page.mirror import State, unnumbered
from lcrq_tools.records import Step
from lcrq_tools.speak.sentences import Seen, of_actor
from lcrq_tools.speak.teller import Spoken
from lcrq_tools.tests.replay_stub import actor

LOST = Seen(Step.read("step 9; go 1; cell 0.0 0; read; lost; -"), actor("E8"), actor("E9"), "1 4 none", 6, 8)


def state(line: int, text: str, reply: str, sentence: str, seen: Seen | None = None, viewer: int = 0) -> State:
    """The moment behind a line that did this."""
    return State(line, text, reply, 9, 0, viewer=viewer, spoken=Spoken(text, reply, sentence, seen))


class Sentences(unittest.TestCase):
    """Lines in words."""

    def test_each_line_has_its_reply_and_its_sentence(self) -> None:
        refused = state(2, "undo 4", "refused 13 Depended 9", "refused: step 9 wrote the tail of ring 0.0")
        states = [
            State(0, "", "", 8, 0), state(1, "go 1", "ok 9", "", LOST, viewer=3), refused,
            state(3, "go1", "refused 22 BadLine", "refused: did you mean `go 1`?"),
        ]
        self.assertEqual([*map(page_moments.sentence_of, states)], [
            "Before the first line: 8 live steps, 0 undone.",
            "Line 1, viewer 3, go 1: ok 9. Step 9, actor 1, E8: CAS2 lost: the cell has changed since it was read"
            " in step 6, by step 8.",
            "Line 2, undo 4: refused 13 Depended 9. Step 9 wrote the tail of ring 0.0.",
            "Line 3, go1: refused 22 BadLine. Did you mean `go 1`?",
        ])
        self.assertEqual([*map(page_moments.reason_of, states)], [
            "", "", "step 9 wrote the tail of ring 0.0", "did you mean `go 1`?",
        ])

    def test_what_ends_with_a_stop_gets_no_other_one(self) -> None:
        self.assertEqual(page_moments.told_of(state(1, "goto a", "refused 14 NoMark", "refused: set it.")), "Set it.")

    def test_a_row_names_no_step_whose_number_may_change(self) -> None:
        row = unnumbered(LOST)
        self.assertEqual(row and of_actor(row), "actor 1, E8: CAS2 lost: the cell has changed since it was read")
        self.assertIsNone(unnumbered(None))


MADE, WON = Step.read("step 1; enq 1 7; -; none; -; -"), Step.read("step 2; go 1; cell 0.0 0; wrote; won; enqueued")
PLACES = {"ahead": "0", "atail": "0", "cell 0.0 0": "1 0 7"}
IN_CALL = {"point": "E1", "call": "enq 7", "words": "", "note": "touches qtail", "place": "qtail"}


def whole(live: int, rows: list[int], above: int = 0, places: dict[str, str] | None = None) -> dict[str, Any]:
    """A moment of these rows, all of which are listed but so many."""
    last = [MADE, WON][live - 1] if live else None
    made = State(
        9, "go 1", "ok 2", live, len(rows) - live, last=last, above=above, rows=rows[above:], places=PLACES | (places or {})
    )
    return page_moments.whole_of(made, {1: IN_CALL, 2: None})


class Moments(unittest.TestCase):
    """What the data of a page have of a moment."""

    def test_a_moment_names_its_last_step_and_what_that_wrote(self) -> None:
        found = whole(2, [4, 5])
        self.assertEqual((found["last"], found["by"], found["rows"]), (5, 1, [4, 5]))
        self.assertEqual(found["written"], ["value 0.0 0", "index 0.0 0"])
        self.assertEqual((whole(1, [4, 5])["last"], whole(1, [4, 5])["written"]), (4, []))
        self.assertEqual((whole(0, [4])["last"], whole(0, [4])["by"], whole(0, [4])["written"]), (None, 0, []))

    def test_rows_above_the_listed_ones_are_left_out(self) -> None:
        found = whole(2, [4, 5], above=1)
        self.assertEqual((found["rows"], found["live"], found["last"]), ([5], 2, 5))

    def test_a_reply_that_names_steps_has_their_rows(self) -> None:
        cases: list[tuple[str, str, list[int]]] = [
            ("undo 1", "refused 13 Depended 2", [4, 5]), ("roll 1", "refused 1 NoActor", []), ("writer qhead", "writer 2", [5]),
            ("writer qhead", "writer none", []), ("origin 2", "origin call - put 1 take 2", [4, 5]), ("go 1", "ok 2", []),
        ]
        for line, reply, rows in cases:
            with self.subTest(line):
                self.assertEqual(page_moments.named_rows(State(9, line, reply, 2, 0, rows=[4, 5])), rows)
                listed = [row for row in rows if row == 5]
                self.assertEqual(page_moments.named_rows(State(9, line, reply, 2, 0, above=1, rows=[5])), listed)

    def test_the_first_moment_is_whole_and_the_others_are_differences(self) -> None:
        first, second = whole(1, [4]), whole(2, [4, 5], places={"cell 0.0 0": "1 0 8"})
        second["actors"] = {"1": None, "2": None}
        same, change = page_moments.differences_of([first, second])
        self.assertEqual(same, first | {"rows": [0, [4]]})
        self.assertEqual(change, {
            "live": 2, "rows": [1, [5]], "last": 5, "written": ["value 0.0 0", "index 0.0 0"],
            "places": {"cell 0.0 0": "1 0 8"}, "actors": {"1": None},
        })
        self.assertEqual(page_moments.differences_of([second, first])[1]["rows"], [1, []])

    def test_a_place_that_is_gone_is_none(self) -> None:
        before, after = {"head 1.0": "0", "qhead": "0.0"}, {"qhead": "0.0"}
        change = page_moments.changes_between({"places": before}, {"places": after})
        self.assertEqual(change, {"places": {"head 1.0": None}})
