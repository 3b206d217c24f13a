"""Which steps depend on which, by their records alone."""

import unittest

from lcrq_tools import dependence

# The calls of two actors, whose steps touch the queue's tail, a cell's index half and the cell.
RECORDS = [
    "step 1; enq 1 7; -; -; -; -",
    "step 2; enq 2 8; -; -; -; -",
    "step 3; go 1; cell 0.0 0; wrote; won; enqueued",
    "step 4; go 2; value 0.0 0; read; 7; -",
    "step 5; go 2; cell 0.0 0; wrote index; won; -",
    "step 6; go 1; qtail; read; 0.0; -",
]
STEPS = [dependence.step_of(record, 2) for record in RECORDS]


class Dependence(unittest.TestCase):
    """Steps that share a place which one of the two wrote."""

    def test_a_segment_has_all_its_places(self) -> None:
        names = dependence.names("whole 1.0", 2)
        self.assertEqual(len(names), 3 + 2 * 2)
        self.assertIn("index 1.0 1", names)
        self.assertEqual(dependence.names("-", 2), ())

    def test_steps_of_one_actor_depend_on_each_other(self) -> None:
        self.assertTrue(dependence.depend(STEPS[0], STEPS[5]))
        self.assertFalse(dependence.depend(STEPS[0], STEPS[1]))

    def test_a_read_depends_on_what_was_written(self) -> None:
        self.assertTrue(dependence.depend(STEPS[2], STEPS[3]))
        self.assertTrue(dependence.depend(STEPS[2], STEPS[4]))
        self.assertFalse(dependence.depend(STEPS[5], STEPS[3]))

    def test_the_first_dependant_is_named(self) -> None:
        self.assertEqual(dependence.first_dependant(STEPS, 3), 4)
        self.assertEqual(dependence.first_dependant(STEPS, 1), 3)
        self.assertIsNone(dependence.first_dependant(STEPS, 6))

    def test_the_last_writer_of_a_cell_wrote_one_of_its_halves(self) -> None:
        self.assertEqual(dependence.last_writer(STEPS, "cell 0.0 0", 2), 5)
        self.assertEqual(dependence.last_writer(STEPS, "value 0.0 0", 2), 3)
        self.assertIsNone(dependence.last_writer(STEPS, "head 0.0", 2))

    def test_a_rollback_takes_what_depends_through_others(self) -> None:
        self.assertEqual(dependence.closure(STEPS, 1), [1, 3, 4, 5, 6])
        self.assertEqual(dependence.closure(STEPS, 2), [2, 4, 5])

    def test_another_order_keeps_dependent_steps_in_theirs(self) -> None:
        order = dependence.latest_first(STEPS)
        self.assertEqual(sorted(map(id, order)), sorted(map(id, STEPS)))
        self.assertNotEqual(order, STEPS)
        for at, step in enumerate(STEPS):
            for other in STEPS[at + 1:]:
                if dependence.depend(step, other):
                    self.assertLess(order.index(step), order.index(other))
