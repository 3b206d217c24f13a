"""Tests of the sentences of steps and lines, over replies that are written down here."""

import string
import unittest

from lcrq_tools import model
from lcrq_tools.program import TOP
from lcrq_tools.records import Actor, Step
from lcrq_tools.speak.sentences import IDLE, POINTS, SENTENCES, Seen, of_actor, of_step, sentence
from lcrq_tools.speak.teller import Teller, numbers_words

WORDS = "crq {crq} new 0.0 next {next} t {t} h {h} closed {closed} val {val} safe {safe} idx {idx} pass 0"
FRESH = {"crq": "0.0", "next": "0.0", "t": "0", "h": "0", "closed": "0", "val": "none", "safe": "0", "idx": "0"}


def actor(stand: str, **words: object) -> Actor:
    """An actor at a control point of a call, with these words."""
    return Actor.read(f"actor {stand} {WORDS.format(**(FRESH | words))}")


def said(step: str, before: Actor, after: Actor, shown: str = "", read: int = 0, writer: int = 0) -> str:
    """The sentence of a step."""
    return sentence(Seen(Step.read(step), before, after, shown, read, writer))


class Sentences(unittest.TestCase):
    """What a step did, in words."""

    def test_each_control_point_of_the_table_has_sentences(self) -> None:
        table = model.control_points((TOP / "docs" / "MODEL.md").read_text(encoding="utf-8"))
        self.assertEqual({IDLE, *table}, set(POINTS))

    def test_each_cas_has_a_sentence_for_either_outcome(self) -> None:
        points = [point for point in POINTS if f"{point} won" in SENTENCES]
        self.assertEqual(["E3", "E8", "E13", "E14", "Q5", "Q6", "Q7", "Q12", "Q14"], points)
        self.assertTrue(all(f"{point} lost" in SENTENCES for point in points))

    def test_no_sentence_has_a_word_that_no_step_gives(self) -> None:
        known = {*FRESH, "new", "a", "s", "i", "x", "old", "answer", "shown", "took", "read", "writer", "tail", "fine"}
        known |= {"half", "taken"}
        used = {name for text in SENTENCES.values() for _, name, _, _ in string.Formatter().parse(text) if name}
        self.assertEqual(set(), used - known)

    def test_a_draw_says_the_counter_before_and_after_it(self) -> None:
        before, after = actor("E4 enq 7"), actor("E5 enq 7", t=0)
        self.assertEqual(
            "E4: adds 1 to the tail of ring 0.0, 0 → 1: actor 2 has position 0",
            said("step 4; go 2; tail 0.0; wrote; open 0; -", before, after, "open 1"),
        )

    def test_a_cas2_that_lost_says_who_wrote_since_it_read(self) -> None:
        before = actor("Q7 deq", h=0)
        self.assertEqual(
            "Q7: CAS2 lost: the cell has changed since it was read in step 12, by step 14",
            said("step 15; go 2; cell 0.0 0; read; lost; -", before, actor("Q3 deq"), "1 0 7", 12, 14),
        )
        self.assertEqual(
            "Q7: CAS2 lost: the cell has changed since it was read",
            said("step 15; go 2; cell 0.0 0; read; lost; -", before, actor("Q3 deq"), "1 0 7"),
        )

    def test_a_link_names_both_segments(self) -> None:
        before = Actor.read("actor E13 enq 7 crq 0.0 new 5.0 next 0.0 t 0 h 0 closed 0 val none safe 0 idx 0 pass 0")
        after = Actor.read("actor E14 enq 7 crq 0.0 new 5.0 next 0.0 t 0 h 0 closed 0 val none safe 0 idx 0 pass 0")
        self.assertEqual("E13: CAS won: links 5.0 behind 0.0",
                         said("step 9; go 5; next 0.0; wrote; won; -", before, after, "5.0"))

    def test_a_step_is_named_by_its_number_and_its_actor(self) -> None:
        step = Step.read("step 4; go 2; tail 0.0; wrote; open 0; -")
        drew = Seen(step, actor("E4 enq 7"), actor("E5 enq 7"), "open 1")
        wanted = "step 4, actor 2, E4: adds 1 to the tail of ring 0.0, 0 → 1: actor 2 has position 0"
        self.assertEqual(wanted, of_step(drew))
        began = Seen(Step.read("step 3; deq 2; -; none; -; -"), actor("Idle none"), actor("Q1 deq"))
        self.assertEqual("actor 2 begins to dequeue", of_actor(began))

    def test_a_step_that_ends_a_call_says_its_result(self) -> None:
        before = actor("Q5 deq", val="7", safe="1")
        idle = actor("Idle none")
        self.assertEqual(
            "Q5: CAS2 won: takes 7 out of cell 0 of ring 0.0, which stands for position 4 now; the call returns 7",
            said("step 14; go 2; cell 0.0 0; wrote; won; value 7", before, idle, "1 4 none"),
        )


REPLIES = {
    "len": "at 2 0",
    "step 1": "step 1; enq 1 7; -; none; -; -",
    "step 2": "step 2; go 1; qtail; read; 0.0; -",
    "actor 1": "actor E2 enq 7 crq 0.0 new 0.0 next 0.0 t 0 h 0 closed 0 val none safe 0 idx 0 pass 0",
    "actor 9": "refused 1 NoActor",
    "go 9": "refused 1 NoActor",
    "enq 1 8": "refused 2 NotIdle",
    "undo 1": "refused 13 Depended 2",
    "undo": "at 1 1",
    "go1": "refused 22 BadLine",
    "show cell 0.0 0": "is 0 4 none",
    "writer tail 0.0": "writer none",
    "origin 5": "origin call - put - take 5",
    "redo": "refused 11 NothingToRedo",
    "same a b": "same yes",
}


class Lines(unittest.TestCase):
    """What a line did, in words."""

    def test_lines_over_replies(self) -> None:
        wanted = {
            "go 9": "refused: there is no actor 9",
            "enq 1 8": "refused: actor 1 is in a call already, `enq 7`, at E2",
            "undo 1": "refused: step 2 is a later step of actor 1",
            "go1": "refused: did you mean `go 1`?",
            "show cell 0.0 0": "cell 0 of ring 0.0 is unsafe, with index 4 and no value",
            "writer tail 0.0": "no live step has written the tail of ring 0.0",
            "origin 5": "step 5 took a value that was put before the start, by a call that began before the start",
            "step 2": "step 2: actor 1 read the queue's tail: 0.0",
            "len": "2 steps live, none undone",
            "same a b": "the bookmarks keep the same steps, up to order",
            "undo": "takes back step 2, `go 1`: actor 1 is at E2 of `enq 7` again",
        }
        for line, text in wanted.items():
            with self.subTest(line=line):
                teller = Teller(lambda lines: [REPLIES[asked] for asked in lines])
                self.assertEqual(text, teller.tell(line).sentence)

    def test_a_refusal_of_the_manual_says_when_and_what_to_do(self) -> None:
        said = Teller(lambda lines: [REPLIES[asked] for asked in lines]).tell("redo").sentence
        self.assertIn("fewer steps are undone", said)
        self.assertIn("What to do", said)

    def test_numbers_in_a_row_are_said_by_their_ends(self) -> None:
        self.assertEqual("47, 50, 52 to 55, 57, 58", numbers_words([47, 50, 52, 53, 54, 55, 57, 58]))
