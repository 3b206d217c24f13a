"""A port's log beside a run of the model: what agrees, what differs, and where the model then is."""

import unittest
from unittest import mock

from lcrq_tools.port import port_compare, port_replay
from lcrq_tools.port.port_compare import Comparison, Difference, Listed
from lcrq_tools.records import Actor
from lcrq_tools.tests.replay_stub import ENQUEUE, IDLE, LOG, Made, Told, actor, compared, records_of, with_record

# Up to E10, where the log may leave out what the schedule chose, and what follows each choice.
TO_E10: list[Made] = [("enq 1 7", "-; none; -; -", actor("E9")), ("go 1", "head 0.0; read; 0; -", actor("E10"))]
CHOSEN: dict[str, list[Made]] = {
    f"starve 1 {choice}": [
        (f"starve 1 {choice}", "-; none; -; -", actor(point)), ("go 1", "tail 0.0; wrote; open 0; -", actor(then))
    ]
    for choice, point, then in (("yes", "E11", "E12"), ("no", "E4", "E5"))
}


# Actor 1 makes a segment, which gets the name of the one that it has.
REUSE: list[Made] = [
    ENQUEUE[0],
    ("go 1", "qtail; read; 0.0; -", actor("E12")),
    ("go 1", "whole 1.0; wrote; made 1.0; -", actor("E13", new="1.0")),
]
REUSED = [LOG[0], "2 1 E1 qtail; read; p"]


def difference(*texts: str, replay: Told | None = None) -> Difference:
    """The first difference of these records."""
    found = compared(*texts, replay=replay).difference()
    assert found
    return found


class Words(unittest.TestCase):
    """What a reply to `actor A` says."""

    def test_the_point_and_the_words(self) -> None:
        state = actor("Q2", "deq", crq="1.0", h=3)
        read = Actor.read(str(state))
        self.assertEqual((read.point, read.words["crq"], read), ("Q2", "1.0", state))
        self.assertEqual(list(Actor.read(str(IDLE)).words)[:4], ["crq", "new", "next", "t"])


class Agreement(unittest.TestCase):
    """Records that say what the model does."""

    def test_a_log_agrees_in_all_that_it_says(self) -> None:
        comparison = compared(*LOG)
        self.assertIsNone(comparison.difference())
        wanted = {"labels": 5, "places": 4, "answers": 6, "replies": 1, "words": 2}
        self.assertEqual((comparison.compared, comparison.accesses), (wanted, 6))
        self.assertEqual(comparison.replay.lines(), [line for line, _, _ in ENQUEUE])
        self.assertEqual([point for point, _ in comparison.replay.steps], "Idle E1 E2 E4 E5 E6 E8".split(" "))
        self.assertEqual((comparison.ledger.enqueued, comparison.names.segments), ({"7": 1}, {"root": "0.0"}))
        self.assertEqual((comparison.replay.steps.last_of(1), comparison.next), (7, len(LOG)))

    def test_a_reply_may_have_a_record_of_its_own(self) -> None:
        comparison = compared(*LOG[:6], "7 1 E8 won", "8 1 enqueued")
        self.assertIsNone(comparison.difference())
        self.assertEqual(comparison.compared["replies"], 1)

    def test_a_segment_that_is_made_gets_its_name_which_another_one_may_have_had(self) -> None:
        for text in ("3 1 E12 whole p", "3 1 E12 made p"):
            comparison = compared(*REUSED, text, replay=Told(REUSE))
            comparison.permits_reuse = True
            self.assertIsNone(comparison.difference())
            self.assertEqual(comparison.names.segments, {"p": "1.0"})

    def test_a_long_run_is_frozen_and_goes_on(self) -> None:
        told = Told()
        with mock.patch.object(port_compare, "RECORDS", 3), mock.patch.object(port_replay, "FREEZE_AT", 3):
            comparison = compared(*LOG, replay=told)
            self.assertIsNone(comparison.difference())
        self.assertEqual((len(told.opened), told.count(), told.live()), (2, 7, 1))


class Differences(unittest.TestCase):
    """Records that say something else."""

    def test_each_kind_is_told_with_both_sides(self) -> None:
        rows = [
            (1, "2 1 E2 next root", ("line", "E2", "E1")),
            (2, "3 1 deq", ("call", "deq", "refused 2 NotIdle")),
            (2, "3 1 E2 next p", ("place", "next p", "next 0.0")),
            (3, "4 1 E4 tail root; read", ("access", "read", "wrote")),
            (3, "4 1 E4 open 1", ("answer", "open 1", "open 0")),
            (3, "4 1 E4 tail root; wrote; open 0; t 1", ("words", "t 1", "t 0")),
            (6, "7 1 E8 lost", ("answer", "lost", "won")),
            (6, "7 1 E8 won; empty", ("reply", "empty", "enqueued")),
            (2, "3 1 enqueued", ("reply", "enqueued", "")),
        ]
        for at, text, wanted in rows:
            with self.subTest(text):
                found = difference(*with_record(at, text))
                self.assertEqual((found.kind, found.port, found.model, found.index), (*wanted, at))

    def test_a_step_of_an_idle_actor_is_of_another_line(self) -> None:
        found = difference("1 1 E1 qtail")
        self.assertEqual((found.kind, found.port, found.model, found.point), ("line", "E1", "refused 3 Idle", "Idle"))

    def test_another_refusal_has_a_kind_of_its_own(self) -> None:
        class Full(Told):
            """A run at the end of a counter."""

            def event(self, line: str) -> str:
                return "refused 6 CounterEnd" if line == "go 1" else super().event(line)

        found = difference(*LOG, replay=Full())
        self.assertEqual((found.kind, found.model, found.made), ("refused", "refused 6 CounterEnd", None))

    def test_the_model_is_then_as_before_the_record(self) -> None:
        told = Told()
        found = difference(*LOG[:3], "4 1 E4 open 1", *LOG[4:], replay=told)
        self.assertEqual((told.made, told.asked[-1], len(told.lines())), (3, "back 4", 3))
        made = "step 4; go 1; tail 0.0; wrote; open 0; -"
        self.assertEqual((found.step, found.point, str(found.made)), (4, "E4", made))
        self.assertEqual((found.label(), found.state), ("E4", actor("E4")))

    def test_a_reply_belongs_to_the_last_step(self) -> None:
        found = difference(*LOG, "8 1 empty")
        self.assertEqual((found.kind, found.step, found.point, found.model), ("reply", 7, "E8", "enqueued"))


class Memory(unittest.TestCase):
    """Names of segments that are used again."""

    def test_a_segment_that_is_made_anew_while_somebody_has_it_differs(self) -> None:
        told = Told(REUSE, {"show qhead": "is 0.0", "show qtail": "is 2.0", "show next 2.0": "is 0.0"})
        found = difference(*REUSED, "3 1 E12 made p", replay=told)
        self.assertEqual((found.kind, found.port, found.step, found.index), ("reuse", "p was made anew", 3, 2))
        wanted = [
            "actor 1 has it as crq, since step 2", "QHead has it, since the start",
            "Next of 2.0 has it, since the start: it was 0.0",
        ]
        self.assertEqual(found.model.split(" and "), wanted)
        self.assertEqual((told.made, [it for it in told.asked if it[:4] in ("back", "forw")]), (2, [
            "back 1", "forward 1", "back 1",
        ]))

    def used(self, *shown: str) -> Comparison:
        """A comparison in which actor 2 finds, by the name of 0.0, the segment 1.0, which has no name."""
        steps = [
            ("deq 2", "-; none; -; -", actor("Q1", "deq")), ("go 2", "qhead; read; 0.0; -", actor("Q14", "deq")),
            ("go 2", "qhead; wrote; won; -", actor("Q1", "deq")), ("go 2", "qhead; read; 1.0; -", actor("Q2", "deq")),
        ]
        told = Told(steps, {"show qhead": "is 1.0"} | {it: "is 0.0" for it in shown})
        return compared("1 2 deq", "2 2 Q1 p", "3 2 Q14 won", "4 2 Q1 p", replay=told)

    def test_a_first_use_gives_a_name_that_nobody_needs_to_another_segment(self) -> None:
        comparison = self.used()
        self.assertIsNone(comparison.difference())
        self.assertEqual(comparison.names.segments, {"p": "1.0"})

    def test_a_first_use_of_a_name_that_somebody_needs_differs(self) -> None:
        found = self.used("show qtail").difference()
        assert found
        self.assertEqual((found.kind, found.step), ("reuse", 4))
        self.assertEqual(found.port, "p is used for 1.0, which has no name yet,")
        self.assertEqual(found.model, "QTail has it, since the start: it was 0.0")


class Choices(unittest.TestCase):
    """What the schedule chose at E10, where a log leaves it out."""

    def test_the_choice_follows_from_the_next_record(self) -> None:
        for label, line in (("E11", "starve 1 yes"), ("E4", "starve 1 no")):
            with self.subTest(label):
                told = Told([*TO_E10, *CHOSEN["starve 1 yes"]], forks=CHOSEN)
                comparison = compared("1 1 enq 7", "2 1 E9 0", f"3 1 {label} open 0", replay=told)
                self.assertIsNone(comparison.difference())
                self.assertEqual((comparison.chosen, comparison.next, told.lines()[2:]), (1, 3, [line, "go 1"]))
                self.assertEqual((told.made, told.states[0]), (4, told.listed[3][2]))

    def test_a_log_with_a_choice_has_all_of_them(self) -> None:
        texts = ["1 1 enq 7", "2 1 E9 0", "3 1 E11 open 0"]
        rows: list[tuple[list[str], bool]] = [(["4 1 E10 no"], False), ([], True)]
        for more, asks in rows:
            told = Told([*TO_E10, *CHOSEN["starve 1 yes"]], forks=CHOSEN)
            comparison = Comparison(told, Listed(records_of(*texts, *more)), asks_choices=asks)
            found = comparison.difference()
            assert found
            self.assertEqual((found.kind, found.port, found.index, found.step), ("choice", "E11", 2, 3))
            self.assertEqual((comparison.has_choices, comparison.chosen), (bool(more), 0))

    def test_no_choice_agrees_with_any_other_record(self) -> None:
        told = Told([*TO_E10, *CHOSEN["starve 1 yes"]], forks=CHOSEN)
        found = difference("1 1 enq 7", "2 1 E9 0", "3 1 E5 none", replay=told)
        self.assertEqual((found.kind, found.port, found.model), ("line", "E5", "refused 4 NeedsChoice"))
        self.assertEqual((told.made, told.lines(), told.states[0]), (2, ["enq 1 7", "go 1"], actor("E10")))
