"""What the checks of drawings know of a moment by the program's replies, and the scripts that they make at random."""

import random
import unittest
from unittest import mock

from lcrq_tools.checks import random_scripts, replies
from lcrq_tools.checks.replies import Call, Replies
from lcrq_tools.draw import figure
from lcrq_tools.faults import Fault

STEPS = ["step 1; enq 1 7; -; none; -; -", "step 2; go 1; tail 0.0; wrote; open 0; -"]
SAID = dict(zip(("step 1", "step 2"), STEPS)) | {
    "len": "at 2 0", "actor 1": "actor E5 enq 7 crq 0.0 new none t 0", "actor 2": "actor Idle none crq none",
    "show qhead": "is 0.0", "show qtail": "is 0.0", "show next 0.0": "is none", "show tail 0.0": "is open 1",
    "writer tail 0.0": "writer 2", "writer qhead": "writer none", "go 1": "ok 3",
    "step 3": "step 3; go 1; value 0.0 0; read; none; -",
}
RIGHT = Call("E5 enq 7", "its words: crq 0.0, t 0", "value 0.0 0")


def asked(**others: str) -> Replies:
    """The replies about this moment, some of them others."""
    said = SAID | {line.replace("_", " "): reply for line, reply in others.items()}
    session = mock.create_autospec(figure.Session, instance=True, live=2, undone=0, ring=2, actors=2)
    return Replies(lambda lines: [said.get(line, "refused 19 NoSuchPlace") for line in lines], session, ["0.0"], [])


class Moments(unittest.TestCase):
    """The replies about a moment, and what is drawn of it."""

    def test_what_is_there_is_known(self) -> None:
        known = asked()
        self.assertEqual((known.busy, known.nexts, known.touched(1)), ([1], {"0.0": "none"}, "value 0.0 0"))
        self.assertEqual([str(step) for step in known.steps], STEPS)
        self.assertEqual(known.contents["tail 0.0"], "open 1")

    def test_other_counts_are_a_fault(self) -> None:
        with self.assertRaises(Fault):
            asked(len="at 1 0")

    def test_marks_are_of_the_last_step(self) -> None:
        places = ["tail 0.0", "qhead", "whole 0.0"]
        self.assertEqual(asked().marks_fault(places, ["tail 0.0"]), "")
        self.assertIn("qhead is marked", asked().marks_fault(places, ["tail 0.0", "qhead"]))
        self.assertIn("tail 0.0 is marked or is not", asked().marks_fault(places, []))
        made = asked(step_2="step 2; go 1; whole 0.0; wrote; 0.0; -")
        self.assertEqual(made.marks_fault(places, ["whole 0.0"]), "")

    def test_each_part_of_a_call_is_compared(self) -> None:
        self.assertEqual(asked().actors_fault({1: RIGHT}), "")
        self.assertNotEqual(asked().actors_fault({}), "")
        wrong = {"stand": "E6 enq 7", "words": "its words: t 1", "place": "tail 0.0"}
        for part, text in wrong.items():
            self.assertNotEqual(asked().actors_fault({1: RIGHT._replace(**{part: text})}), "", part)

    def test_segments_are_in_the_order_of_their_links(self) -> None:
        self.assertEqual(asked().segments_fault(["0.0"], [], ["0.0"]), "")
        self.assertNotEqual(asked().segments_fault([], ["0.0"], ["0.0"]), "")
        self.assertEqual(replies.chain_of({"1.0": "2.0", "0.0": "1.0", "2.0": "none"}), ["0.0", "1.0", "2.0"])
        self.assertEqual(replies.segments_of({"start": {"segments": [[{}], [], [{}, {}]]}}), {"0.0", "2.0", "2.1"})


class Scripts(unittest.TestCase):
    """Scripts at random."""

    def test_a_script_has_the_lines_of_its_forms(self) -> None:
        script = random_scripts.random_script(random.Random(1), random_scripts.MARKED, 3, 400)
        words = {line.split(" ")[0] for line in script}
        self.assertEqual(words, {form.split(" ")[0] for form in random_scripts.MARKED})
        self.assertEqual({line.split(" ")[1] for line in script if line.startswith("go ")}, {"1", "2", "3"})
        self.assertFalse([line for line in script if "{" in line])

    def test_a_step_that_is_named_may_be_the_one_behind_the_live_ones(self) -> None:
        chance = random.Random(1)
        lines = {random_scripts.line_of(chance, {"undo {step}": 1}, 1, 2) for _ in range(60)}
        self.assertEqual(lines, {"undo 1", "undo 2", "undo 3"})
