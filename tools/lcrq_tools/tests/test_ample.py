"""The runs that `tools/check.py ample` gives the program, and what it says of replies."""

import json
import unittest

from lcrq_tools.bench.random_runs import fresh_world, make
from lcrq_tools.checks import ample


class Replies(unittest.TestCase):
    """What is wrong with replies to steps."""

    def test_the_first_that_makes_no_step_is_named(self) -> None:
        replies = ["ok 7", "ok 8 enqueued", ample.NO_MEMORY, "ok 9", ample.NO_MEMORY]
        self.assertEqual(ample.steps_fault(replies[:2], 7), "")
        self.assertEqual(ample.steps_fault(replies, 7), "step 9 of 11 has the reply `refused 20 NoMemory`")

    def test_a_step_that_is_left_out_is_noticed(self) -> None:
        self.assertEqual(ample.steps_fault(["ok 1", "ok 3"]), "step 2 of 2 has the reply `ok 3`")


class Runs(unittest.TestCase):
    """The runs, by the pseudo-code and by their numbers."""

    def test_each_actor_makes_a_segment_in_each_race(self) -> None:
        world = fresh_world(ample.ACTORS, 2)
        points = []
        for line in ample.raced(5):
            points.append(world.actors[int(line.split(" ")[1])].point)
            make(world, line)
        self.assertEqual(points.count("E12"), 5 * ample.ACTORS)

    def test_runs_are_as_long_as_a_session_lets_them_be(self) -> None:
        self.assertLess(len(ample.raced(ample.RACES)), ample.MOST_STEPS)
        self.assertGreater(len(ample.raced(ample.RACES + 1)), ample.MOST_STEPS)
        self.assertEqual(len(ample.walk()), ample.MOST_STEPS)

    def test_a_start_has_its_segments(self) -> None:
        made = json.loads(ample.with_segments(3))["start"]["segments"]
        self.assertEqual([len(own) for own in made], [1, 3])


class Bounds(unittest.TestCase):
    """What the page on performance wants."""

    def test_the_page_has_two_bounds(self) -> None:
        found = ample.BOUNDS.search(ample.PAGE.read_text(encoding="utf-8"))
        self.assertTrue(found and all(int(bound) > 0 for bound in found.groups()))


if __name__ == "__main__":
    unittest.main()
