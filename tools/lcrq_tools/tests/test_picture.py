"""Which steps a picture has: the window of a command line, and steps at places or of actors."""

import unittest
from collections.abc import Sequence

from lcrq_tools.draw import picture
from lcrq_tools.draw.lanes import Row, row_of
from lcrq_tools.faults import Fault
from lcrq_tools.records import Place, Step
from lcrq_tools.tests.stubs import with_program

RECORDS = [
    "step 1; enq 3 9; -; -; -; -",
    "step 2; go 3; qtail; read; 0.0; -",
    "step 3; go 3; tail 0.0; wrote; open 0; -",
    "step 4; deq 2; -; -; -; -",
    "step 5; starve 3 yes; cell 0.0 1; wrote; won; enqueued",
]


def rows(live: int = 5) -> list[Row]:
    """The rows of the records, of which so many are live."""
    return [row_of(step, step.number > live) for step in map(Step.read, RECORDS)]


def window(*words: str, count: int = 5) -> tuple[int, int]:
    """The window that these options choose of a run of so many steps."""
    with with_program():
        return picture.window_of(picture.parser().parse_args(["a.script", *words]), count)


class Windows(unittest.TestCase):
    """The first and the last step that are drawn."""

    def test_all_steps_are_drawn_without_options(self) -> None:
        self.assertEqual(window(), (1, 5))
        self.assertEqual(window("--from", "2"), (2, 5))
        self.assertEqual(window("--from", "2", "--to", "4"), (2, 4))

    def test_a_window_outside_the_run_is_a_fault(self) -> None:
        for words in (("--to", "6"), ("--from", "4", "--to", "2"), ("--from", "6")):
            with self.subTest(words), self.assertRaisesRegex(Fault, "^the run has the steps 1 to 5: --from and --to"):
                window(*words)

    def test_a_run_without_steps_is_a_fault(self) -> None:
        with self.assertRaisesRegex(Fault, "^the script leaves no step to draw$"):
            window(count=0)


class Choices(unittest.TestCase):
    """Steps at some places or of some actors."""

    def chosen(self, places: Sequence[str] = (), actors: Sequence[int] = (), asked: int | None = None) -> list[int]:
        """The numbers of the steps that are chosen of all."""
        choice = picture.Choice(1, 5, [*map(Place.read, places)], list(actors))
        return [row.step.number for row in choice.rows_of(rows(), asked)]

    def test_a_cell_has_its_halves(self) -> None:
        self.assertEqual(self.chosen(["value 0.0 1"]), [5])
        self.assertEqual(self.chosen(["index 0.0 1", "qtail"]), [2, 5])

    def test_a_whole_segment_has_all_its_places(self) -> None:
        self.assertEqual(self.chosen(["whole 0.0"]), [3, 5])
        self.assertFalse(Place.read("whole 1.0").overlaps(Place.read("tail 0.0")))

    def test_actors_add_to_places(self) -> None:
        self.assertEqual(self.chosen(["qtail"], [2]), [2, 4])

    def test_the_step_that_is_asked_about_has_to_be_drawn(self) -> None:
        with self.assertRaisesRegex(Fault, "^step 4 is not drawn, since it is not of actor 3$"):
            self.chosen(actors=[3], asked=4)
        with self.assertRaisesRegex(Fault, "^step 9 is not among the steps 1 to 5 that are drawn$"):
            self.chosen(asked=9)

    def test_no_step_is_a_fault(self) -> None:
        with self.assertRaisesRegex(Fault, "^no step from 1 to 5 is at ahead or of actor 1$"):
            self.chosen(["ahead"], [1])

    def test_a_list_may_be_repeated(self) -> None:
        self.assertEqual(picture.words_of(["tail 0.0, qhead", "qhead"]), ["tail 0.0", "qhead"])
        self.assertEqual(picture.words_of(None), [])


class Rows(unittest.TestCase):
    """What a record says."""

    def test_a_call_is_its_own_point(self) -> None:
        first, second, *_, last = rows()
        self.assertEqual((first.point, first.actor(), first.step.reply), ("enq 9", 3, ""))
        self.assertTrue(first.step.event.is_call())
        self.assertEqual((second.point, second.step.event.is_call(), second.step.answer), ("", False, "0.0"))
        self.assertEqual((str(second.step.place), last.point, last.step.reply), ("qtail", "yes", "enqueued"))

    def test_a_step_after_the_live_ones_is_undone(self) -> None:
        self.assertEqual([row.name() for row in rows(live=3)], ["1", "2", "3", "undone", "undone"])
