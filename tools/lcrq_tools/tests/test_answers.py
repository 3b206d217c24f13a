"""What the checks compare of the program's answers: `statuses`, `exercises` and `refused_memory`."""

import shutil
import tempfile
import unittest
from collections.abc import Callable
from pathlib import Path
from unittest import mock

from lcrq_tools.checks import answers, exercises, refused_memory, statuses
from lcrq_tools.faults import Fault
from lcrq_tools.program import Broken, Ended

BEGIN = "From the start:\n\n"
TABLE = "| Line | Reply |\n|---|---|\n| `len` | `at 0 0` |\n"
CHANGES = "| In place of | Write |\n|---|---|\n| `a` | `b` |\n"


class Answers(unittest.TestCase):
    """What all share."""

    def test_a_file_has_its_text_for_a_while(self) -> None:
        texts: list[str | bytes] = ["len\n", b"\xff"]
        for text in texts:
            with answers.file_of(text) as name:
                self.assertEqual(Path(name).read_bytes(), answers.bytes_of(text))
            self.assertFalse(Path(name).exists())

    def test_a_report_is_of_a_run_that_ends_well(self) -> None:
        self.assertEqual(answers.report_of(Ended(0, b"ok 1\n", "")), "ok 1\n")
        with self.assertRaisesRegex(Broken, "^the program ended with status 1: lcrqdb: refused 24 Read$"):
            answers.report_of(answers.READ)

    def test_an_answer_is_whole_or_a_beginning(self) -> None:
        rows = {"": Ended(0, b"", ""), "error: ": Ended(2, b"", "error: no"), "lcrqdb 0": Ended(0, b"lcrqdb 0.1", "")}
        for answer, ended in rows.items():
            self.assertEqual(statuses.answer_fault(ended, answer, is_whole=False), "")
        self.assertEqual(statuses.answer_fault(answers.READ, answers.READ.errors), "")
        said = "(0, 'ok 1\\n', ''), wanted (0, 'ok', '')"
        self.assertEqual(statuses.answer_fault(Ended(0, b"ok 1\n", ""), "ok"), said)
        self.assertNotEqual(statuses.answer_fault(Ended(0, b"ok 1\n", ""), "", is_whole=False), "")


class Exercises(unittest.TestCase):
    """The answers to exercises on a page."""

    def test_a_table_has_the_lines_and_the_changes_before_it(self) -> None:
        later = f"{CHANGES}\nAfter line 1 of the first script:\n\n{TABLE}"
        plain, changed = exercises.answers_of(f"{BEGIN}{TABLE}\n{later}")
        self.assertEqual((plain.rows, plain.changes), ([("len", "at 0 0")], []))
        self.assertEqual((changed.begins[1], changed.begins[5], changed.changes), ("1", "first", [("a", "b")]))

    def test_a_page_without_one_is_a_fault(self) -> None:
        rows = {"": "no answer", TABLE: "where its lines begin", f"{BEGIN}{TABLE}\n{BEGIN}": "has no table after it"}
        rows[BEGIN + TABLE.replace("`at 0 0`", "at 0 0")] = "not two texts in backticks"
        for page, said in rows.items():
            with self.subTest(page), self.assertRaisesRegex(Fault, said):
                exercises.answers_of(page)

    def test_lines_come_again_and_again(self) -> None:
        rows = {"From the start:": "", "After line 2:": "a b", "After line 1 and 2 times lines 2 to 3:": "a b c b c"}
        with mock.patch.object(exercises, "text_of", return_value="a\nb\nc\n"):
            for begin, lines in rows.items():
                found = exercises.BEGINS.fullmatch(begin)
                assert found
                self.assertEqual(exercises.lines_before(found, "a.script"), lines.split())
            found = exercises.BEGINS.fullmatch("After line 4:")
            assert found
            with self.assertRaisesRegex(Fault, "^a.script has 3 lines$"):
                exercises.lines_before(found, "a.script")


class Refused(unittest.TestCase):
    """Runs that are refused memory."""

    def fault(self, output: bytes, usual: bytes = b"ok 1\n", check: Callable[..., str] | None = None) -> str:
        """What is wrong with such an output of `deq 1` and `len`, which has these replies without its first line."""
        with mock.patch.object(refused_memory, "usual", return_value=usual):
            ended = Ended(0, output, "")
            return (check or refused_memory.fault_in_run)("lcrqdb", ("run", "-"), b"deq 1\nlen\n", ended)

    def test_a_line_may_be_refused_that_takes_memory(self) -> None:
        self.assertEqual(self.fault(b"refused 20 NoMemory\nat 0 0\n", b"at 0 0\n"), "")
        self.assertEqual(self.fault(b"ok 1\nrefused 20 NoMemory\n"), "b'len' was refused memory")
        said = "line 2, b'len', has the reply b'at 1 0', wanted b'at 0 0'"
        self.assertEqual(self.fault(b"refused 20 NoMemory\nat 1 0\n", b"at 0 0\n"), said)
        self.assertEqual(self.fault(b"ok 1\n"), "1 replies to 2 lines, the last b'ok 1\\n'")

    def test_a_viewer_is_not_started_or_not_recorded(self) -> None:
        usual = b"viewer 1\nat 0 0\nviewer 2\nat 0 0\nrefused 22 BadLine\nhistory 2\n"
        rows = {usual: "", usual.replace(b"1\nat 0 0", b"1\nrefused 20 NoMemory"): "history 2, wanted 1"}
        rows[b"viewer 1\nrefused 31 NotRecorded\nviewer 2\nrefused 20 NoMemory\nhistory 0\n"] = ""
        rows[b"viewer 1\nat 0 0\nhistory 1\n"] = "1 viewers, wanted 2"
        rows[usual.replace(b"at 0 0\nr", b"r")] = "viewer 2: [b'refused 22 BadLine']"
        for output, said in rows.items():
            self.assertEqual(self.fault(output, usual, refused_memory.fault_in_view), said)

    def test_the_first_fault_is_named(self) -> None:
        ends = [(f"run {status}", Ended(status, b"", "")) for status in (0, 2, 3)]
        self.assertEqual(refused_memory.first_fault(ends, refused_memory.fault_in_test), (3, "run 2: status 2, ''"))

    @unittest.skipUnless(shutil.which("cc"), "no compiler of C")
    def test_allocations_are_counted_and_refused(self) -> None:
        with tempfile.TemporaryDirectory() as folder:
            refuser = refused_memory.Refuser(Path(folder))
            whole = refuser.run(["cat"], refused_memory.LAST, given=b"a\n")
            self.assertEqual((whole.status, whole.output, whole.refused), (0, b"a\n", 0))
            self.assertGreater(whole.calls, 0)
            with mock.patch.object(refused_memory, "BLOCK", 4):
                alone = [*refuser.each_refused(["cat"], True, b"a\n")]
            self.assertEqual(alone[0][0], "allocation 1")
            self.assertEqual({ended.refused for _, ended in alone}, {1})
            with refuser.driven(["cat"]) as (asked, held):
                self.assertEqual(asked.ask("a")[0], "a")
                self.assertGreater(held(), 0)
