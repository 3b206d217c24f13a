"""Records that the program tries one by one and takes back, and the order that is written."""

import tempfile
import unittest
from pathlib import Path
from unittest import mock

from lcrq_tools.port import port_replay
from lcrq_tools.port.port_orders import Found
from lcrq_tools.port.port_tried import Trial, found_order, lines_of
from lcrq_tools.tests.replay_stub import ENQUEUE, LOG, Told, compared, records_of


def trial(*texts: str, told: Told | None = None) -> Trial:
    """A run that tries these records."""
    return Trial(compared(*texts, replay=told))


class Trials(unittest.TestCase):
    """A run that goes on by a record, and back."""

    def test_it_goes_on_and_back_to_the_same_world(self) -> None:
        made = trial(*LOG)
        keys = []
        for record in made.records:
            keys.append(made.key())
            self.assertTrue(made.go(record).agrees)
        self.assertEqual(len(set(keys)), len(LOG))
        for key in reversed(keys):
            made.back()
            self.assertEqual(made.key(), key)
        self.assertEqual((made.replay.count(), made.names.segments, made.comparison.made[:2]), (0, {}, [1, 0]))
        self.assertTrue(all(made.go(record).agrees for record in made.records))

    def test_a_read_that_says_what_it_found_is_sure(self) -> None:
        made = trial(*LOG[:4], "5 1 E5", *LOG[5:])
        sure = [made.go(record).is_sure for record in made.records]
        # the first name of a segment may mean another one, E4 and E8 write, and E5 has no answer
        self.assertEqual(sure, [True, False, True, False, False, True, False])

    def test_a_record_that_disagrees_leaves_all_as_it_was(self) -> None:
        made = trial(*LOG[:3], "4 1 E4 open 1")
        for record in made.records[:3]:
            made.go(record)
        key, tried = made.key(), made.go(made.records[3])
        self.assertEqual((tried.agrees, tried.is_hopeless, made.key(), made.replay.count()), (False, False, key, 3))
        self.assertEqual({*tried.step.wrote}, {"tail 0.0", "actor 1"})

    def test_a_record_of_another_line_is_hopeless(self) -> None:
        rows = ["2 1 E2 next root", "2 1 deq", "2 1 empty"]
        for text in rows:
            made = trial(LOG[0], text)
            made.go(made.records[0])
            tried = made.go(made.records[1])
            self.assertEqual((tried.agrees, tried.is_hopeless), (False, True), text)

    def test_names_are_learned_while_a_segment_has_none(self) -> None:
        made = trial(*LOG)
        self.assertTrue(made.learns())
        for record in made.records[:2]:
            made.go(record)
        self.assertFalse(made.learns())
        made.back()
        self.assertTrue(made.learns())
        self.assertFalse(trial("1 1 enq 7", "2 1 E1").learns())

    def test_a_long_run_is_frozen(self) -> None:
        told = Told()
        made = trial(*LOG, told=told)
        with mock.patch.object(port_replay, "FREEZE_AT", 2):
            kept = [(made.go(record).agrees, made.settle()) for record in made.records[:3]]
        self.assertEqual(kept, [(True, False), (True, True), (True, False)])
        self.assertEqual((len(told.opened), len(made.made)), (1, 1))


class Orders(unittest.TestCase):
    """The order that is found, and what is said of it."""

    def test_the_record_that_ends_first_goes_first(self) -> None:
        steps = [ENQUEUE[0], ("deq 2", "-; none; -; -", ENQUEUE[0][2]), ENQUEUE[1]]
        comparison = compared("1-9 2 deq", "2-5 1 enq 7", "12 1 E1 root", replay=Told(steps))
        found = found_order(comparison, 100, lambda _: None)
        self.assertEqual([it.stamp for it in found.records], [2, 1, 12])
        self.assertEqual((found.count, found.is_whole), (3, True))

    def test_the_last_lines_say_which_order_it_is(self) -> None:
        records = records_of("1-3 1 deq", "2 2 deq", "4 2 Q1 p")
        order = [records[1], records[0], records[2]]
        rows = [
            (3, True, "2 of 3 records overlap others, and in this order all agree: 1,234 tried, 5 taken back"),
            (2, True, "2 of 3 records overlap others, and in no order all agree; this one came furthest: 1,234"),
            (2, False, "2 of 3 records overlap others; no order in which all agree was found within --tries 9; this"),
        ]
        for count, is_whole, said in rows:
            line, = lines_of(Found(records, order, count, is_whole, False, 1234, 5), 9, None)
            self.assertEqual(line[:len("order: ") + len(said)], f"order: {said}")
        line, = lines_of(Found(records, order, 2, False, True, 1234, 5), 9, None)
        self.assertIn("within --tries 9, and none that differs before the last 60,000 steps was tried; this one", line)

    def test_the_order_is_written_as_a_log(self) -> None:
        records = records_of("1-3 a deq", "2 b enq  7;")
        with tempfile.TemporaryDirectory() as name:
            folder = Path(name) / "new"
            *_, last = lines_of(Found(records, records[::-1], 2, True, False, 2, 0), 9, folder)
            self.assertEqual((folder / "order.log").read_text(), "1 b enq  7;\n2 a deq\n")
            self.assertEqual(last, f"  {folder / 'order.log'}: the log in this order")
