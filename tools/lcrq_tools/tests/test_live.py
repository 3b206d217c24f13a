"""What `tools/check.py live` finds in what live viewers write."""

import tempfile
import unittest
from collections.abc import Callable, Sequence
from pathlib import Path
from unittest import mock

from lcrq_tools.checks import histories, live, replies
from lcrq_tools.clients import Dialogue, replies_of
from lcrq_tools.faults import Fault
from lcrq_tools.program import tried
from lcrq_tools.tests.stubs import SESSION, answers

FIRST = Dialogue(["enq 1 7", "hello", "go 1"], ["1 ok 1", "- refused 22 BadLine", "3 ok 2"])
SECOND = Dialogue(["mark A", "len"], ["- refused 17 BadName", "2 at 1 0"])
BOTH = (FIRST, SECOND)
CALLS = ["1 enq 1 7", "2 len", "1 go 1"]
OUTPUT = ["history 3", *CALLS, SESSION]


def fault(output: Sequence[str] = OUTPUT, dialogues: Sequence[Dialogue] = BOTH, end: str = "\n") -> str:
    """What is found where live viewers write this output, and have these dialogues."""
    def found() -> str:
        return next(filter(None, live.faults_of("\n".join(output) + end, dialogues, ["run"])), "")

    with mock.patch.object(replies, "written", lambda _words, script: answers(script)):
        return tried(found)


def replied(it: Dialogue, *replies: str, is_cut: bool = False) -> Dialogue:
    """A dialogue with other replies."""
    return Dialogue(it.lines, replies, is_cut)


class Outputs(unittest.TestCase):
    """The text that `--history --trace` writes."""

    def test_a_right_output_has_no_fault(self) -> None:
        self.assertEqual(fault(), "")
        self.assertEqual(fault(["history 0", SESSION], [Dialogue(), Dialogue()]), "")

    def test_each_lost_line_is_found(self) -> None:
        for at, line in enumerate(OUTPUT):
            with self.subTest(line):
                self.assertNotEqual(fault(OUTPUT[:at] + OUTPUT[at + 1:]), "")
        self.assertNotEqual(fault([]), "")

    def test_each_other_line_is_found(self) -> None:
        for at, line in enumerate(OUTPUT):
            with self.subTest(line):
                self.assertNotEqual(fault([*OUTPUT[:at], f"{line} ", *OUTPUT[at + 1:]]), "")

    def test_each_line_too_much_is_found(self) -> None:
        for at in range(len(OUTPUT) + 1):
            for line in ("", "viewer 1", "1 len", SESSION):
                with self.subTest(line, at=at):
                    self.assertNotEqual(fault([*OUTPUT[:at], line, *OUTPUT[at:]]), "")

    def test_a_lost_line_feed_is_found(self) -> None:
        self.assertEqual(fault(end=""), "the output lacks its last line feed")

    def test_another_count_is_found(self) -> None:
        said = "the output: line 1: `history 4`, and the number of calls behind it is 3"
        self.assertEqual(fault(["history 4", *OUTPUT[1:]]), said)

    def test_a_call_of_another_viewer_is_found(self) -> None:
        wrong = ["history 3", "1 enq 1 7", "1 len", "1 go 1", SESSION]
        self.assertEqual(fault(wrong), "viewer 1: call 2 is `len`, wanted `go 1`")
        wrong = ["history 3", "1 enq 1 7", "3 len", "1 go 1", SESSION]
        self.assertEqual(fault(wrong), "a call is of viewer 3, and there are 2")

    def test_a_missing_call_is_found(self) -> None:
        wrong = ["history 2", "1 enq 1 7", "1 go 1", SESSION]
        lower = replied(FIRST, "1 ok 1", "- refused 22 BadLine", "2 ok 2")
        self.assertEqual(fault(wrong, [lower, SECOND]), "viewer 2: call 1 is `nothing more`, wanted `len`")

    def test_swapped_calls_are_found(self) -> None:
        wrong = ["history 3", "2 len", "1 enq 1 7", "1 go 1", SESSION]
        self.assertEqual(fault(wrong), "viewer 1: reply 1 is `1 ok 1`, wanted `2 ok 1`")
        wrong = ["history 3", "1 go 1", "2 len", "1 enq 1 7", SESSION]
        self.assertEqual(fault(wrong), "viewer 1: call 1 is `go 1`, wanted `enq 1 7`")

    def test_a_faulty_line_among_the_calls_is_found(self) -> None:
        wrong = ["history 4", "1 enq 1 7", "2 len", "1 hello", "1 go 1", SESSION]
        self.assertEqual(fault(wrong), "viewer 1: call 2 is `hello`, wanted `go 1`")

    def test_another_trace_is_found(self) -> None:
        wrong = [*OUTPUT[:-1], SESSION.replace("7", "8")]
        self.assertEqual(fault(wrong), 'the trace has `8],["go",1]]}` at byte 20, wanted `7],["go",1]]}`')


class Replies(unittest.TestCase):
    """The replies of two viewers."""

    def check_each(self, change: Callable[[str], list[str]]) -> None:
        """That each reply of each viewer is missed where this puts others in its place."""
        for viewer, at in ((viewer, at) for viewer, it in enumerate(BOTH) for at in range(len(it.replies))):
            before, it, after = BOTH[:viewer], BOTH[viewer], BOTH[viewer + 1:]
            other = replied(it, *it.replies[:at], *change(it.replies[at]), *it.replies[at + 1:])
            with self.subTest(other.replies):
                self.assertNotEqual(fault(OUTPUT, [*before, other, *after]), "")

    def test_each_lost_reply_is_found(self) -> None:
        self.check_each(lambda reply: [])

    def test_each_changed_reply_is_found(self) -> None:
        self.check_each(lambda reply: [""])
        self.check_each(lambda reply: [f"{reply} "])
        self.check_each(lambda reply: [f"0{reply}"])
        self.check_each(lambda reply: [reply[2:]])
        self.check_each(lambda reply: [f"4{reply[1:]}"])
        self.check_each(lambda reply: [f"{reply[:2]}at 9 9"])

    def test_each_reply_that_comes_twice_is_found(self) -> None:
        self.check_each(lambda reply: [reply, reply])

    def test_a_gap_is_found(self) -> None:
        gap = replied(FIRST, "1 ok 1", "- refused 22 BadLine", "4 ok 2")
        self.assertEqual(fault(OUTPUT, [gap, SECOND]), "viewer 1: reply 3 is `4 ok 2`, wanted `3 ok 2`")

    def test_a_swapped_number_is_found(self) -> None:
        first = replied(FIRST, "1 ok 1", "- refused 22 BadLine", "2 ok 2")
        second = replied(SECOND, "- refused 17 BadName", "3 at 1 0")
        self.assertEqual(fault(OUTPUT, [first, second]), "viewer 1: reply 3 is `2 ok 2`, wanted `3 ok 2`")

    def test_a_hyphen_stands_at_faulty_lines_alone(self) -> None:
        hyphen = replied(SECOND, "- refused 17 BadName", "- at 1 0")
        self.assertEqual(fault(OUTPUT, [FIRST, hyphen]), "viewer 2: reply 2 is `- at 1 0`, wanted `2 at 1 0`")
        number = replied(SECOND, "2 refused 17 BadName", "2 at 1 0")
        said = "viewer 2: reply 1 is `2 refused 17 BadName`, wanted `- refused 17 BadName`"
        self.assertEqual(fault(OUTPUT, [FIRST, number]), said)

    def test_a_long_line_is_faulty(self) -> None:
        self.assertEqual(histories.refusal_of(live.LONG), "refused 23 LineTooLong")
        self.assertEqual(histories.calls_of(["len", live.LONG, "", "go1"]), ["len"])


class Cuts(unittest.TestCase):
    """What is known of a client that left."""

    fewer = ["history 2", "1 enq 1 7", "2 len", SESSION]

    def test_the_last_replies_may_lack(self) -> None:
        for count in range(len(FIRST.replies) + 1):
            self.assertEqual(fault(OUTPUT, [replied(FIRST, *FIRST.replies[:count], is_cut=True), SECOND]), "")

    def test_the_last_calls_may_lack(self) -> None:
        self.assertEqual(fault(self.fewer, [replied(FIRST, "1 ok 1", is_cut=True), SECOND]), "")
        self.assertNotEqual(fault(self.fewer, [replied(FIRST, "1 ok 1"), SECOND]), "")

    def test_another_reply_is_found(self) -> None:
        other = replied(FIRST, "2 ok 1", is_cut=True)
        self.assertEqual(fault(OUTPUT, [other, SECOND]), "viewer 1: reply 1 is `2 ok 1`, wanted `1 ok 1`")

    def test_a_reply_without_a_call_is_found(self) -> None:
        whole = replied(FIRST, *FIRST.replies, is_cut=True)
        self.assertEqual(fault(self.fewer, [whole, SECOND]), "viewer 1: reply 3 is `3 ok 2`, wanted `no call`")

    def test_a_call_that_was_not_asked_is_found(self) -> None:
        asked = Dialogue(FIRST.lines[:2], FIRST.replies[:2], is_cut=True)
        self.assertEqual(fault(OUTPUT, [asked, SECOND]), "viewer 1: call 2 is `go 1`, wanted `nothing more`")


class Orders(unittest.TestCase):
    """When lines were asked and replies were there."""

    def order_fault(self, *calls: tuple[str, float, float]) -> str:
        """What is wrong with the order of calls, each of a viewer: the reply, when it was asked and answered."""
        rows = (Dialogue(["len"], [reply], False, [begun], [came]) for reply, begun, came in calls)
        return live.order_fault([*rows, FIRST])  # of one nothing is known

    def test_calls_at_the_same_time_may_have_any_order(self) -> None:
        self.assertEqual(self.order_fault(("2 at 0 0", 1.0, 4.0), ("1 at 0 0", 2.0, 3.0)), "")
        self.assertEqual(self.order_fault(("2 at 0 0", 1.0, 3.0), ("1 at 0 0", 2.0, 4.0)), "")
        self.assertEqual(self.order_fault(("1 at 0 0", 1.0, 2.0), ("2 at 0 0", 3.0, 4.0)), "")

    def test_a_call_behind_one_that_was_asked_later_is_found(self) -> None:
        said = "call 1 was asked when call 2 had been answered"
        self.assertEqual(self.order_fault(("2 at 0 0", 1.0, 2.0), ("1 at 0 0", 3.0, 4.0)), said)
        said = "call 1 was asked when call 9 had been answered"
        calls = ("1 at 0 0", 3.0, 4.0), ("2 at 0 0", 1.0, 5.0), ("9 at 0 0", 1.0, 2.0), ("10 at 0 0", 1.0, 2.0)
        self.assertEqual(self.order_fault(*calls), said)

    def test_lines_that_are_no_calls_have_no_place(self) -> None:
        calls = ("1 at 0 0", 1.0, 2.0), ("- refused 22 BadLine", 3.0, 4.0), ("2 at 0 0", 1.0, 2.0)
        self.assertEqual(self.order_fault(*calls), "")


class PlainFiles(unittest.TestCase):
    """Replies in plain files."""

    def test_what_was_there_before_stays(self) -> None:
        with tempfile.TemporaryDirectory() as folder:
            file = Path(folder) / "a"
            replies_of(file).write_text(f"{live.KEPT}1 at 0 0\n- \n", encoding="ascii")
            self.assertEqual(live.plain_dialogue(file, ["len"], live.KEPT), Dialogue(["len"], ["1 at 0 0", "- "]))
            for text in ("", "1 at 0 0\n", f"1 at 0 0\n{live.KEPT}", f"{live.KEPT}1 at 0 0"):
                replies_of(file).write_text(text, encoding="ascii")
                with self.subTest(text), self.assertRaises(Fault):
                    live.plain_dialogue(file, ["len"], live.KEPT)
