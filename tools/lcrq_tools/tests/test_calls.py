"""The calls of a log, orders of calls, the sets that have none, and the picture of calls."""

import unittest
from xml.etree import ElementTree

from lcrq_tools.calls import calls as tool
from lcrq_tools.calls import intervals, orders, whiteboard
from lcrq_tools.calls.culprits import culprits_of
from lcrq_tools.calls.intervals import Call, calls_of_steps
from lcrq_tools.calls.search import TooMany, searched
from lcrq_tools.checks.calls import BY_HAND, log_of
from lcrq_tools.records import Step
from lcrq_tools.tests.replay_stub import records_of
from lcrq_tools.tests.stubs import NO_PROGRAM, told

SVG = "{http://www.w3.org/2000/svg}"


def calls_in(text: str) -> list[Call]:
    """The calls of a text: an actor and what it is asked or replied, one time after the other."""
    steps = []
    for number, part in enumerate(text.split("|"), 1):
        actor, word, *value = part.split(" ")
        is_call = word in ("enq", "deq", "aenq", "adeq")
        line = " ".join([word, actor, *value]) if is_call else f"go {actor}"
        steps.append(f"step {number}; {line}; -; none; -; {'-' if is_call else ' '.join([word, *value])}")
    return sorted(calls_of_steps(map(Step.read, steps), {}), key=lambda call: call.begin)


def told_of(text: str, *words: str) -> tuple[int, str, str]:
    """What the tool says of a log of these records, whose stamps are their numbers."""
    with log_of(text) as log:
        return told(tool.main, "calls.py", log, *words, "--program", NO_PROGRAM)


class Intervals(unittest.TestCase):
    """Calls as they are read."""

    def test_a_call_lasts_from_its_line_to_its_reply(self) -> None:
        first, then = calls_in("1 enq 7|2 deq|1 enqueued|2 value 7")
        self.assertEqual((first.begin, first.end, first.value, str(first)[:24]), (1, 3, 7, "actor 1: enq 7, enqueued"))
        self.assertEqual((then.begin, then.end, then.value, then.reply()), (2, 4, 7, "value 7"))

    def test_a_call_without_a_reply_is_pending(self) -> None:
        call, = calls_in("1 deq")
        self.assertTrue(call.is_pending())
        self.assertEqual((call.reply(), call.value), ("pending", None))

    def test_the_array_is_a_queue_of_its_own(self) -> None:
        self.assertEqual([call.queue() for call in calls_in("1 aenq 7|2 deq")], [intervals.ARRAY, intervals.RING])

    def test_steps_and_words_of_a_log_are_passed_over(self) -> None:
        log = "1 enq 0x7|1 E1 0x55|1 E2 (nil)|1 enqueued|1 deq|1 Q3 7; value 0x7"
        status, output, errors = told_of(log)
        self.assertEqual((status, errors, output.count("\n")), (0, "", 2))
        self.assertIn("actor 1: deq, value 7", output)

    def test_a_call_of_a_log_lasts_from_its_first_stamp_to_its_last(self) -> None:
        texts = ("1-3 1 enq 7", "2 2 deq", "4-9 1 enqueued", "5-6 2 value 7", "9 2 deq", "9 2 empty")
        calls = [*intervals.calls_of_records(records_of(*texts))]
        self.assertEqual([(call.actor, call.begin, call.end) for call in calls], [(2, 1, 2), (1, 0, 4), (2, 3, 5)])

    def test_faults_have_status_2(self) -> None:
        for _, log, _, said, _ in (row for row in BY_HAND if row[2] == 2):
            status, output, errors = told_of(log, "--fifo")
            self.assertEqual((status, output, errors.count("\n")), (2, "", 1), errors)
            self.assertIn(said, errors)
        self.assertEqual(told(tool.main, "calls.py", "--program", NO_PROGRAM)[0], 2)


class Orders(unittest.TestCase):
    """Whether calls have an order."""

    def test_each_log_by_hand_has_its_order_or_the_calls_that_have_none(self) -> None:
        for name, text, status, said, begins in (row for row in BY_HAND if row[-1]):
            with self.subTest(name):
                calls = calls_in(text)
                order, found = orders.answer_of(calls, 1000).order, culprits_of(calls, 1000)
                self.assertEqual(order is None, status == 1)
                self.assertEqual(tuple(call.begin for call in order or found.calls), begins)
                self.assertTrue(found.why == said if order is None else orders.is_order(order, calls))

    def test_a_limit_is_said(self) -> None:
        text = "1 enq 7|3 deq|3 value 7|2 enq 7|2 enqueued|1 enqueued"
        self.assertRaises(TooMany, searched, calls_in(text), 1)
        status, output, _ = told_of(text, "--fifo", "--tries", "1")
        self.assertEqual(status, 3)
        self.assertIn("not decided after 1 configuration", output)


class Pictures(unittest.TestCase):
    """The picture of calls."""

    def drawn(self, text: str) -> tuple[ElementTree.Element, whiteboard.Board]:
        """The picture of calls, and what it shows."""
        board = tool.board_of(intervals.Found(tuple(calls_in(text)), "a log"), True, 1000)[0]
        return ElementTree.fromstring(whiteboard.draw(board)), board

    def test_each_call_has_a_point_in_its_interval(self) -> None:
        text = "1 enq 7|2 enq 8|3 deq|1 enqueued|2 enqueued|1 deq|1 value 8|3 value 7|2 aenq 7|2 enqueued"
        root, board = self.drawn(text)
        scale = whiteboard.Scale(board.calls)
        points = [whiteboard.points_of(order, scale) for order in board.orders]
        self.assertEqual([len(some) for some in points], [4, 1])
        self.assertEqual(len([*root.iter(f"{SVG}circle")]), 5)
        for order, some in zip(board.orders, points):
            self.assertEqual(sorted(some.values()), [some[call] for call in order])
            for call, x in some.items():
                self.assertTrue(scale.across[call.begin] < x < scale.end_of(call))

    def test_the_picture_says_what_it_judges(self) -> None:
        root, _ = self.drawn("1 enq 7|1 enqueued|2 deq|2 empty")
        words = [part.text for part in root.iter(f"{SVG}text")]
        self.assertIn(whiteboard.JUDGED, words)
        self.assertEqual(len([part for part in root.iter(f"{SVG}g") if part.get("class") == "culprit"]), 2)

    def test_the_words_of_a_row_do_not_meet(self) -> None:
        call, then = calls_in("1 enq 18446744073709551615|1 enqueued|1 deq|1 value 18446744073709551615")
        scale = whiteboard.Scale([call, then])
        self.assertLess(scale.across[call.begin] + whiteboard.room_of(call), scale.across[then.begin])
