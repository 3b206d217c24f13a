"""Tests of what the prompt says of a line that is no command, and of drafts."""

import unittest

from lcrq_tools import drafts
from lcrq_tools.faults import Fault
from lcrq_tools.places import EXAMPLES
from lcrq_tools.speak import forms


class Forms(unittest.TestCase):
    """Lines of a script and what is near to them."""

    def test_an_example_of_each_form_is_a_command(self) -> None:
        for form in forms.FORMS:
            with self.subTest(form=form):
                self.assertTrue(forms.is_command(forms.example_of(form)))

    def test_what_the_program_refuses_is_no_command(self) -> None:
        lines = ["", " len", "go 01", "go 256", "enq 1 18446744073709551616", "mark A", "mark a-b-c-d-e-f-g-h-i",
                 "show",
                 "show cell 0.0", "go 1 ", "go  1", "starve 1 maybe", "undo -1", "len\r"]
        self.assertEqual([], [line for line in lines if forms.is_command(line)])

    def test_a_slip_is_told_what_was_meant(self) -> None:
        meant = {"go1": "go 1", "Go 1": "go 1", "enq 01 7": "enq 1 7", "undoo 3": "undo 3", "writer tail 0,0":
                 "writer tail 0.0", "cell 0.0 0": "show cell 0.0 0", "mark A": "mark a", " go 1": "go 1"}
        self.assertEqual(meant, {line: forms.meant(line) for line in meant})

    def test_a_line_that_lacks_something_is_told_its_form(self) -> None:
        self.assertIn("expected `enq A X`, as `enq 1 7`", forms.expected("enq 1"))
        self.assertIn("expected `starve A yes` or `starve A no`", forms.expected("starve 1"))
        self.assertIn("expected `show cell M.S I`", forms.expected("show cell 0.0"))
        self.assertIn("no command begins with `foo`", forms.expected("foo 1"))


class Drafts(unittest.TestCase):
    """Drafts and the scripts that they stand for."""

    def test_a_draft_has_comments_counts_and_options(self) -> None:
        draft = drafts.parsed("# lcrqdb --ring 2 --actors 5\n\nenq  1 7 # begins\n go 1 x3\n# end\n", "a.draft")
        self.assertEqual(("enq 1 7", "go 1", "go 1", "go 1"), draft.lines)
        self.assertEqual(("begins", "", "", ""), draft.comments)
        self.assertEqual(("--ring", "2", "--actors", "5"), draft.options)
        self.assertEqual("lcrqdb run s.script --ring 2 --actors 5", draft.command("s.script"))

    def test_a_trace_lies_beside_its_draft(self) -> None:
        draft = drafts.parsed("# lcrqdb --trace a.trace\ngo 1\n", "folder/a.draft")
        self.assertEqual("lcrqdb load folder/a.trace < s.script", draft.command("s.script"))

    def test_a_faulty_draft_is_named_with_its_line(self) -> None:
        with self.assertRaisesRegex(Fault, "a.draft:2: a count"):
            drafts.parsed("len\ngo 1 x0\n", "a.draft")

    def test_a_lesson_and_its_draft_have_the_same_lines(self) -> None:
        files = sorted(EXAMPLES.glob(f"*{drafts.ENDING}"))
        self.assertGreater(len(files), 16)
        for file in files:
            with self.subTest(file=file.name):
                script = file.with_suffix(".script").read_text(encoding="ascii")
                self.assertEqual(script, drafts.read(str(file)).script())
