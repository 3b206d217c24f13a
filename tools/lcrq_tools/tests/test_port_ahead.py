"""Records that are compared by batches: what is predicted of each, and that all comes out as by single records."""

import unittest
from unittest import mock

from lcrq_tools.port import port_ahead, port_batch, port_replay
from lcrq_tools.port.port_batch import SLOW, plan_of, planned, quick_plan
from lcrq_tools.port.port_compare import Comparison, Difference
from lcrq_tools.port.port_log import label_names, record_of
from lcrq_tools.program import script_of
from lcrq_tools.records import Step
from lcrq_tools.tests.replay_stub import ENQUEUE, IDLE, LOG, Told, actor, compared, source, with_record
from lcrq_tools.tests.test_port_compare import REUSE, REUSED


class Plans(unittest.TestCase):
    """What is predicted of a record."""

    def test_a_quick_plan_is_that_of_the_whole_record(self) -> None:
        texts = (
            "enq 7", "deq", "value 3", "empty", "enqueued", "E1 0x7f", "E2 0x7f", "Q1 0x1", "Q13 0xab", "E12 made 0x7f",
            "E4 open 3", "E4 closed 17", "E5 none", "E5 9", "E6 1 0; t 4", "E8 won", "E9 3", "Q2 3; pass 1",
            "Q4 0 8; h 4", "Q6 lost", "Q8 closed 3", "Q12 won", "Q7 won; idx 3",
        )
        for text in texts:
            with self.subTest(text):
                self.assertEqual(quick_plan(text.encode()), planned(record_of("", f"1 1 {text}", label_names())))

    def test_other_plans_have_the_programs_spelling(self) -> None:
        rows = {
            "E9 0x10": (b"; 16; -", ()), "E2 NULL": (b"; none; -", ()),
            "tail p; wrote; open 3": (b"; tail %s; wrote; open 3; -", (b"p",)),
            "- next p; read; q": (b"; next %s; read; %s; -", (b"p", b"q")),
            "E8 won; enqueued": (b"; won; enqueued", ()),
            "Q1": (b"; -", ()), "qhead; read; 0.0": (b"; qhead; read; %s; -", (b"0.0",)),
            "A2 value 7": (b"; value 7; -", ()),
        }
        for text, wanted in rows.items():
            plan = plan_of(text.encode())
            self.assertEqual((plan.tail, plan.names), wanted, text)
        for text in ("index p 0; -; 1 0", "qtail; read", "nonsense X", "-", "whole p; wrote; made q", "enq x"):
            self.assertEqual(plan_of(text.encode()), SLOW, text)


class Batches(unittest.TestCase):
    """Logs that are compared by batches."""

    def compared(
        self, *texts: str, told: Told | None = None, permits: bool = False
    ) -> tuple[Comparison, Difference | None]:
        """A comparison of these records, and the first difference."""
        with source(script_of(texts)) as records:
            made = Comparison(told or Told(), records, permits_reuse=permits)
            found = made.difference()
            made.finish()
            return made, found

    def check_alike(self, *texts: str) -> None:
        """That batches find what single records find."""
        made, found = self.compared(*texts)
        other = compared(*texts)
        wanted = other.difference()
        other.finish()
        self.assertEqual(made.compared, other.compared)
        self.assertEqual([*made.replay.steps], [*other.replay.steps])
        counts = [(it.next, it.accesses, it.replay.states) for it in (made, other)]
        self.assertEqual(counts[0], counts[1])
        self.assertEqual((made.names.segments, made.ledger.running), (other.names.segments, other.ledger.running))
        self.assertEqual((made.ledger.enqueued, made.ledger.possible), (other.ledger.enqueued, other.ledger.possible))
        told = made.replay
        assert isinstance(told, Told)
        self.assertEqual(told.made, len(told.steps))
        if not found or not wanted:
            self.assertEqual(found, wanted)
            return
        found.record.where = wanted.record.where
        self.assertEqual(found, wanted)

    def test_a_log_agrees_as_by_single_records(self) -> None:
        for sizes in ((1, 1), (2, 2), (3, 3), (32, 2048)):
            with self.subTest(sizes), mock.patch.multiple(port_ahead, LEAST=sizes[0], MOST=sizes[1]):
                self.check_alike(*LOG)
                self.check_alike(*LOG[:6], "7 1 E8 won", "8 1 enqueued")
                self.check_alike(*LOG[:6], "7 1 E8 won")

    def test_each_difference_is_found_where_single_records_find_it(self) -> None:
        rows = [
            (1, "2 1 E2 next root"), (2, "3 1 deq"), (2, "3 1 E2 next p"), (3, "4 1 E4 tail root; read"),
            (3, "4 1 E4 open 1"), (3, "4 1 E4 tail root; wrote; open 0; t 1"), (6, "7 1 E8 lost"),
            (6, "7 1 E8 won; empty"), (2, "3 1 enqueued"), (6, "7 1 E5 none"), (4, "5 1 E5 9"), (5, "6 1 E6 0 0"),
        ]
        for at, text in rows:
            for size in (1, 2, 3, 32):
                with self.subTest(text), mock.patch.multiple(port_ahead, LEAST=size, MOST=size):
                    self.check_alike(*with_record(at, text))
                    self.check_alike(*with_record(at, text), *LOG[at + 1 :])
        self.check_alike(*LOG, "8 1 empty")
        self.check_alike(*LOG[:6], "7 1 E8 won", "8 1 empty")
        self.check_alike(*LOG[:6], "7 1 E8 won", "8 1 enqueued", "9 1 empty")

    def test_most_records_are_asked_in_bulk(self) -> None:
        with mock.patch.object(Comparison, "compare_one", autospec=True, side_effect=Comparison.compare_one) as one:
            self.compared(*LOG)
        self.assertEqual(one.call_count, 3)  # an actor's first record, a name's first use, and a gap in a record

    def test_a_segment_that_is_made_anew_while_somebody_has_it_differs(self) -> None:
        shown = {"show qhead": "is 0.0", "show qtail": "is 2.0", "show next 2.0": "is 0.0"}
        _, found = self.compared(*REUSED, "3 1 E12 made p", told=Told(REUSE, shown))
        assert found
        self.assertEqual((found.kind, found.port, found.step, found.index), ("reuse", "p was made anew", 3, 2))
        made, found = self.compared(*REUSED, "3 1 E12 made p", told=Told(REUSE), permits=True)
        self.assertEqual((found, made.names.segments, made.made[:2]), (None, {"p": "1.0"}, [1, 1]))

    def test_a_long_run_is_frozen_and_goes_on(self) -> None:
        told = Told()
        with mock.patch.object(port_replay, "FREEZE_AT", 3):
            made, found = self.compared(*LOG, told=told)
        self.assertEqual((found, len(told.opened), told.count(), made.ledger.enqueued), (None, 2, 7, {"7": 1}))
        self.assertEqual((told.steps[6][0], told.steps.last_of(1), told.states[0]), ("E8", 7, IDLE))

    def test_plans_are_not_kept_forever(self) -> None:
        with mock.patch.object(port_batch, "MOST_PLANS", 1):
            self.check_alike(*LOG)


class Kept(unittest.TestCase):
    """The steps that stay known of a run that was frozen."""

    def test_the_last_ones_of_their_kinds_stay(self) -> None:
        told = Told([*ENQUEUE[:2], ("go 1", "qtail; wrote; won; -", actor("E1")), *ENQUEUE[1:3]])
        made = compared("1 1 enq 7", "2 1 E1 p", "3 1 E2 - ", replay=told)
        for line, did, state in told.listed:
            made.replay.keep(Step.read(f"step 1; {line}; {did}"), state)
        told.steps.freeze({1: str(IDLE).encode("ascii"), 2: str(IDLE).encode("ascii")})
        self.assertEqual([*told.steps.numbers()], [5, 4, 3])
        self.assertEqual([told.steps[at][0] for at in (2, 3, 4)], ["E2", "E1", "E2"])
        self.assertEqual((told.steps.last_of(1), told.steps.all_points()), (5, {"Idle", "E1", "E2", "E4"}))
