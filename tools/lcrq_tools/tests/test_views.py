"""What `tools/check.py views` finds in what a view writes."""

import unittest
from unittest import mock

from lcrq_tools.checks import replies, views
from lcrq_tools.checks.replies import TRACE
from lcrq_tools.checks.histories import HISTORY
from lcrq_tools.checks.views import View
from lcrq_tools.program import tried
from lcrq_tools.tests.stubs import SESSION, answers

SCRIPTS = [["enq 1 7", "hello", "go 1"], ["mark A", "len"]]
VIEW = View(SCRIPTS, ["view"], ["run"])
REPORT = ["viewer 1", "ok 1", "refused 22 BadLine", "ok 2", "viewer 2", "refused 17 BadName", "at 1 0", "history 3"]
CALLS = ["1 enq 1 7", "2 len", "1 go 1"]
WHOLE = [*REPORT, *CALLS, SESSION]


def fault(lines: list[str], *options: str, view: View = VIEW) -> str:
    """What is found where a view with these options writes these lines."""
    def written(words: list[str], script: bytes = b"") -> list[str]:
        return lines if words[0] == "view" else answers(script)

    with mock.patch.object(replies, "written", written):
        return tried(views.view_fault, view, [*options])


class Views(unittest.TestCase):
    """The text of a view."""

    def test_a_right_view_has_no_fault(self) -> None:
        self.assertEqual(fault(WHOLE, HISTORY, TRACE), "")
        self.assertEqual(fault([*REPORT, *CALLS], HISTORY), "")
        self.assertEqual(fault([*REPORT, SESSION], TRACE), "")
        self.assertEqual(fault(REPORT), "")

    def test_each_lost_line_is_found(self) -> None:
        texts: list[tuple[list[str], list[str]]]
        texts = [(WHOLE, [HISTORY, TRACE]), ([*REPORT, SESSION], [TRACE]), (REPORT, [])]
        for lines, options in texts:
            for at, line in enumerate(lines):
                with self.subTest(line, options=options):
                    self.assertNotEqual(fault(lines[:at] + lines[at + 1:], *options), "")

    def test_each_other_line_is_found(self) -> None:
        for at, line in enumerate(WHOLE):
            with self.subTest(line):
                self.assertNotEqual(fault([*WHOLE[:at], f"{line} ", *WHOLE[at + 1:]], HISTORY, TRACE), "")

    def test_swapped_calls_are_found(self) -> None:
        swapped = [*REPORT, CALLS[1], CALLS[0], CALLS[2], SESSION]
        self.assertEqual(fault(swapped, HISTORY, TRACE), "line 7 is `at 1 0`, wanted `at 0 0`")
        own = [*REPORT, "1 go 1", "2 len", "1 enq 1 7", SESSION]
        self.assertEqual(fault(own, HISTORY, TRACE), "viewer 1: call 1 is `go 1`, wanted `enq 1 7`")
        other = [*REPORT, "1 enq 1 7", "1 len", "2 go 1", SESSION]
        self.assertEqual(fault(other, HISTORY, TRACE), "viewer 1: call 2 is `len`, wanted `go 1`")

    def test_parts_that_no_option_asks_for_are_found(self) -> None:
        self.assertNotEqual(fault(WHOLE, HISTORY), "")
        self.assertNotEqual(fault(WHOLE, TRACE), "")
        self.assertNotEqual(fault([*REPORT, SESSION]), "")
        self.assertNotEqual(fault([*REPORT, *CALLS]), "")

    def test_the_replies_to_one_viewer_are_known_without_its_calls(self) -> None:
        one = View(SCRIPTS[:1], ["view"], ["run"])
        right = [*REPORT[:4], "history 2"]
        self.assertEqual(fault(right, view=one), "")
        self.assertEqual(fault([*right, SESSION], TRACE, view=one), "")
        wrong = ["viewer 1", "ok 1", "refused 22 BadLine", "ok 3", "history 2"]
        self.assertEqual(fault(wrong, view=one), "line 4 is `ok 3`, wanted `ok 2`")
