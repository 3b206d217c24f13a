"""What conform.py says of a whole log: its values and calls, all its differences, and its exit status."""

import contextlib
import io
import tempfile
import unittest
from pathlib import Path
from unittest import mock

from lcrq_tools.faults import Fault
from lcrq_tools.port import conform
from lcrq_tools.port import port_ledger
from lcrq_tools.port.conform import Progress, ends, parser
from lcrq_tools.port.port_compare import Comparison
from lcrq_tools.port.port_side import Side
from lcrq_tools.port.port_stream import HasChoices
from lcrq_tools.tests.replay_stub import LOG, Told, compared, with_record
from lcrq_tools.tests.stubs import NO_PROGRAM, told, with_program

HALVES = ("1 1 enq 7", "2 1 enqueued")


def whole(*texts: str) -> Comparison:
    """A comparison of these records that has come to their end."""
    made = compared(*texts)
    made.finish()
    made.is_over = True
    return made


class Options(unittest.TestCase):
    """The words after the program's name."""

    def options(self, *words: str) -> list[str]:
        """Those of this command line."""
        with with_program():
            return conform.options_of(parser().parse_args(["a.log", *words]))

    def test_a_fresh_world_has_as_many_actors_as_a_log_may_have(self) -> None:
        self.assertEqual(self.options(), ["run", "-", "--actors", "16"])
        self.assertEqual(self.options("--ring", "2")[-2:], ["--ring", "2"])

    def test_a_trace_has_its_own_world(self) -> None:
        self.assertEqual(self.options("--trace", "a.trace"), ["load", "--", "a.trace"])
        with self.assertRaisesRegex(Fault, "^a trace has its own actors and rings: --trace comes without"):
            self.options("--trace", "a.trace", "--ring", "2")


class Values(unittest.TestCase):
    """What the calls of a log put and took."""

    def test_each_value_is_taken_as_often_as_it_is_put(self) -> None:
        took, again = ("3 2 deq", "4 2 value 7"), ("5 2 deq", "6 2 value 7")
        rows: list[tuple[tuple[str, ...], list[str]]] = [
            ((*HALVES, *took), []),
            (HALVES, ["1 value put and never taken: 7"]),
            ((*HALVES, *took, *again), ["1 value taken more often than put: 7"]),
            (took, ["1 value taken and never put: 7"]),
            ((*HALVES, "3 1 deq", "4 1 empty"), ["1 value put and never taken: 7"]),
            (("1 1 enq 7", *took), ["never ended: `enq 7` of actor 1; its last record is `1 1 enq 7`"]),
            (("1 1 enq 7", "2 1 enq 8", *took), ["never ended: `enq 8` of actor 1; its last record is `2 1 enq 8`"]),
        ]
        for texts, lines in rows:
            with self.subTest(texts):
                self.assertEqual([*ends(whole(*texts))], lines)

    def test_the_models_reply_counts_where_the_log_has_none(self) -> None:
        made = compared(*LOG[:6], "7 1 E8 won")
        self.assertIsNone(made.difference())
        made.finish()
        self.assertEqual([*ends(made)], ["1 value put and never taken: 7"])
        self.assertEqual(made.ledger.running, {})

    def test_what_is_there_at_the_start_may_be_taken(self) -> None:
        made = whole("1 1 deq", "2 1 value 7")
        made.ledger.possible["7"] = 1
        self.assertEqual([*ends(made)], [])

    def test_nothing_is_said_of_a_log_without_replies_that_was_not_compared_to_its_end(self) -> None:
        texts = ("1 1 enq 7", "2 1 E2 none")
        self.assertEqual([*ends(compared(*texts))], [])
        self.assertEqual(len([*ends(whole(*texts))]), 1)

    def test_the_first_values_are_listed(self) -> None:
        said = [*port_ledger.listed("lost", [str(it) for it in range(12)])]
        self.assertEqual(said, ["12 values lost: 0, 1, 2, 3, 4, 5, 6, 7, 8, 9 and 2 more"])
        self.assertEqual([*port_ledger.listed("lost", [])], [])


class Differences(unittest.TestCase):
    """All differences of a log."""

    def go_on(self, comparison: Comparison, *changed: str) -> tuple[list[tuple[str, str, str]], str]:
        """The differences, where taking the port's side changes this in turn."""
        found = comparison.difference()
        assert found
        with mock.patch.object(Side, "take", mock.Mock(side_effect=changed)):
            return conform.go_on(comparison, found, Progress())

    def test_it_stops_where_no_change_takes_the_ports_side(self) -> None:
        differences, stopped = self.go_on(compared(*with_record(3, "4 1 E4 open 1")), "")
        self.assertEqual([(name, changed) for name, _, changed in differences], [("answer at E4", "")])
        self.assertRegex(stopped, "^no change of one place or actor takes the port's side here")

    def test_one_record_is_changed_only_a_few_times(self) -> None:
        changes = ["a change"] * (conform.MOST_AT_ONE + 1)
        differences, stopped = self.go_on(compared(*with_record(3, "4 1 E4 open 1")), *changes)
        self.assertEqual([it[2] for it in differences], [*changes[:-1], ""])
        self.assertTrue(stopped)

    def test_it_ends_where_the_log_agrees(self) -> None:
        comparison = compared(*with_record(2, "3 1 enqueued"))
        found = comparison.difference()
        assert found
        differences, stopped = conform.go_on(comparison, found, Progress())
        self.assertEqual([it[2] for it in differences], ["the actor is in no call"])
        self.assertEqual((stopped, comparison.next), ("", 3))

    def test_they_are_grouped_by_kind_and_label(self) -> None:
        rows = [("answer at E4", f"step {at}: a", "b") for at in range(1, 13)]
        rows.insert(1, ("line at E5", "step 9: c", ""))
        self.assertEqual([*conform.grouped(rows)], [
            "13 differences to the end of the log:",
            "  answer at E4: 12, at step 1, 2, 3, 4, 5, 6, 7, 8, 9, 10 and 2 more",
            "    the first: step 1: a",
            "    changed: b",
            "  line at E5: 1, at step 9",
            "    the first: step 9: c",
            "    changed: nothing",
        ])


class Ends(unittest.TestCase):
    """What is printed, and the exit status."""

    def printed(self, *texts: str, words: str = "") -> tuple[int, list[str]]:
        """The exit status for these records, and the lines."""
        with with_program():
            given = parser().parse_args(["a.log", *words.split()])
        comparison, output = compared(*texts), io.StringIO()
        with contextlib.redirect_stdout(output), mock.patch.object(conform, "opened_with", lambda *_: Told([])):
            is_different = conform.compare_records(given, comparison, Progress())
        return int(is_different), output.getvalue().splitlines()

    def test_a_log_that_agrees_is_one_line(self) -> None:
        counts = "5 labels, 4 places, 6 answers, 1 replies, 2 words compared"
        status, lines = self.printed(*LOG)
        self.assertEqual((status, lines[0]), (0, f"agrees: 7 steps, 6 accesses over rings of 2: {counts}"))
        self.assertEqual(lines[1:], ["1 value put and never taken: 7"])

    def test_the_first_difference_is_told(self) -> None:
        status, lines = self.printed(*with_record(3, "4 1 E4 open 1"))
        self.assertEqual((status, lines[0][:28]), (1, "step 4: at E4 the port found"))
        self.assertRegex(lines[-1], "^  before it 3 steps, 2 accesses over rings of 2: ")

    def test_with_go_on_all_are_listed(self) -> None:
        status, lines = self.printed(*with_record(2, "3 1 enqueued"), words="--go-on")
        at = lines.index("1 difference to the end of the log:")
        self.assertEqual((status, lines[at + 1]), (1, "  reply at E1: 1, at step 2"))

    def test_choices_that_follow_are_counted(self) -> None:
        made = whole(*LOG)
        made.chosen = 1200
        said = "no record has E10, so 1200 choices there followed from the next"
        self.assertTrue(conform.summary(made).endswith(f"; nothing checked the decision to starve: {said}"))
        made.has_choices = True
        self.assertTrue(conform.summary(made).endswith("; 1,200 of the choices at E10 follow from what comes after"))

    def ended(self, reason: object = None, *words: str, log: str = "\n".join([*LOG, ""])) -> tuple[int, str, str]:
        """How it ends for a log where this happens to the comparison."""
        compares = Comparison.difference
        with (
            tempfile.TemporaryDirectory() as folder, with_program(),
            mock.patch.object(conform, "Replay", lambda *_: Told()),
            mock.patch.object(Comparison, "difference", mock.Mock(side_effect=reason) if reason else compares),
        ):
            file = Path(folder) / "a.log"
            file.write_text(log, encoding="utf-8")
            return told(conform.main, "conform.py", str(file), "--program", NO_PROGRAM, *words)

    def test_an_actor_that_the_trace_lacks_is_a_fault(self) -> None:
        said = "conform.py: the logs have an actor 3, and the trace 2 actors\n"
        self.assertEqual(self.ended(log="1 3 deq\n"), (2, "", said))

    def test_a_cut_log_is_named_last_and_has_status_1(self) -> None:
        for words, wanted in ((), 1), (("--cut",), 0):
            status, output, _ = self.ended(None, *words, log="\n".join([*LOG[:6], "7 1 E8 won;", ""]))
            self.assertEqual(status, wanted)
            self.assertRegex(output.splitlines()[-1], "^the log is cut: .*a.log:7 ends behind a `;`$")

    def test_a_log_in_no_order_is_sorted(self) -> None:
        status, output, _ = self.ended(log="\n".join([*LOG[3:], *LOG[:3], ""]))
        self.assertEqual((status, output[:34]), (0, "agrees: 7 steps, 6 accesses over r"))

    def test_a_choice_that_comes_late_makes_one_that_is_left_out_a_difference(self) -> None:
        with mock.patch.object(conform, "compare_over", mock.Mock(side_effect=[HasChoices("late"), 1])) as over:
            self.assertEqual(self.ended()[0], 1)
        self.assertEqual([call.args[3] for call in over.call_args_list], [False, True])

    def test_status_1_is_a_difference_and_no_fault(self) -> None:
        rows = [
            (KeyboardInterrupt, "conform.py: interrupted: 0 records agree so far\n"),
            (BrokenPipeError, "conform.py: nobody reads what is said here: the pipe is closed\n"),
            (Fault("a fault"), "conform.py: a fault\n"),
            (ValueError("a slip"), "ValueError: a slip\nconform.py: this is a fault of the tool itself\n"),
        ]
        for reason, said in rows:
            with self.subTest(said):
                status, _, errors = self.ended(reason)
                self.assertEqual((status, errors[-len(said) :]), (2, said))

    def test_a_log_that_can_not_be_read_has_status_2(self) -> None:
        ended = told(conform.main, "conform.py", "nowhere.log", "--program", NO_PROGRAM)
        self.assertEqual(ended, (2, "", "conform.py: nowhere.log: No such file or directory\n"))
