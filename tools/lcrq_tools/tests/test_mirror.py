"""What a page knows of a moment, and how steps are kept."""

import unittest

from lcrq_tools.page import mirror
from lcrq_tools.page.mirror import State
from lcrq_tools.records import Step
from lcrq_tools.speak.teller import Steps, taken_from

DID = ["enq 1 7; -; none; -; -", "go 1; qtail; read; 0.0; -", "deq 2; -; none; -; -", "go 2; qhead; read; 0.0; -"]


class Moments(unittest.TestCase):
    """What is on a lane."""

    def test_a_half_of_a_cell_is_read_from_the_cell(self) -> None:
        state = State(places={"cell 0.0 1": "0 3 7", "tail 0.0": "closed 4"})
        found = {lane: state.content(lane) for lane in ("value 0.0 1", "index 0.0 1", "tail 0.0", "value 1.0 0", "head 0.0")}
        wanted = {"value 0.0 1": "7", "index 0.0 1": "0 3", "tail 0.0": "closed 4", "value 1.0 0": "", "head 0.0": ""}
        self.assertEqual(found, wanted)

    def test_a_segment_has_all_of_its_lanes(self) -> None:
        self.assertEqual(mirror.places_in("1.0", 2), ["head 1.0", "tail 1.0", "next 1.0", "cell 1.0 0", "cell 1.0 1"])
        self.assertEqual(mirror.lanes_in("1.0", 1), ["head 1.0", "tail 1.0", "next 1.0", "value 1.0 0", "index 1.0 0"])

    def test_a_line_leads_from_one_count_to_another(self) -> None:
        self.assertEqual(mirror.moved_between(3, 5), ["forward 2"])
        self.assertEqual(mirror.moved_between(5, 3), ["back 2"])
        self.assertEqual(mirror.moved_between(5, 5), [])


class Kept(unittest.TestCase):
    """Steps that are kept as texts."""

    def test_a_step_is_read_with_its_number(self) -> None:
        steps = Steps([*DID])
        self.assertEqual((len(steps), steps[1]), (4, Step.read(f"step 2; {DID[1]}")))
        self.assertEqual((steps[-1].number, steps.event(2).actor, [step.number for step in steps]), (4, 2, [1, 2, 3, 4]))
        self.assertEqual([str(step.event) for step in steps[1:3]], ["go 1", "deq 2"])

    def test_of_each_actor_its_last_steps_are_taken(self) -> None:
        steps = Steps([*DID])
        self.assertEqual(taken_from(steps, Steps(DID[:1] + DID[2:])), [2])
        self.assertEqual(taken_from(steps, Steps(DID[:1])), [2, 3, 4])
        self.assertEqual(taken_from(steps, steps), [])
