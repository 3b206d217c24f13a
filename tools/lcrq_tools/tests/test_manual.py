"""The tables of the manual and the pseudo-code of the model, and what a wrong line of them gives."""

import re
import unittest
from unittest import mock

from lcrq_tools import manual, model
from lcrq_tools.checks import command_rows
from lcrq_tools.faults import Fault

TABLE = """\
Some words.

| Line | Meaning |
|---|---|
| `enq A X` | begins to enqueue |
| `go A`, `starve A yes` | makes a step |

| After | Other |
|---|---|
| `no` | is not of the table |

| No | Name | Data | When | What to do |
|---|---|---|---|---|
| 1 | `NoActor` | | no actor has the number | see `actor` |
| 13 | `Depended` | `K` | a later step depends on it | undo K |
"""


class Manual(unittest.TestCase):
    """The tables of docs/MANUAL.md."""

    def test_a_table_has_what_is_quoted_in_its_column(self) -> None:
        self.assertEqual(manual.quoted_in(TABLE, "| Line | Meaning |", 0), ["enq A X", "go A", "starve A yes"])

    def test_a_table_that_is_not_there_is_a_fault(self) -> None:
        with self.assertRaisesRegex(Fault, "no table whose head begins"):
            manual.quoted_in(TABLE, "| PLACE | Is |", 0)

    def test_all_tables_of_one_head_are_read(self) -> None:
        page = TABLE + "### More\n\n| Line | Meaning |\n|---|---|\n| `len` | counts |\n"
        self.assertEqual(manual.quoted_in(page, "| Line | Meaning |", 0)[-2:], ["starve A yes", "len"])
        self.assertEqual(manual.quoted_in(page.partition("### More\n")[2], "| Line |", 0), ["len"])

    def test_a_form_without_a_line_gets_one(self) -> None:
        lines = manual.lines_beside(["undo K", "same NAME NAME", "show PLACE", "len"], ["undo", "len"])
        self.assertEqual(lines, ["same a a", "show qhead"])

    def test_each_query_is_a_line_of_the_page(self) -> None:
        self.assertLess({*manual.QUERIES}, {*manual.FORMS})
        self.assertIn("len", manual.QUERIES)

    def test_refusals_are_by_number(self) -> None:
        with mock.patch.object(manual, "PAGE", TABLE):
            self.assertEqual(manual.refusals(), {
                "1": "NoActor: no actor has the number. What to do: see actor.",
                "13": "Depended: a later step depends on it. What to do: undo K.",
            })

    def test_each_line_of_the_page_is_words_and_parts(self) -> None:
        self.assertEqual(len(set(manual.FORMS)), len(manual.FORMS))
        for form in manual.FORMS:
            self.assertRegex(form, r"^[a-z]+( (\[?[A-Z]+\]?|[a-z]+))*$")
        for word in ("enq A X", "go A", "undo K", "len"):
            self.assertIn(word, manual.FORMS)

    def test_each_place_and_reply_of_the_page_begins_with_a_word(self) -> None:
        self.assertTrue(all(re.match("[a-z]+", place) for place in manual.PLACES))
        self.assertLessEqual({"ok", "refused", "step", "at", "is", "actor"}, manual.REPLIES)
        self.assertEqual([*manual.refusals()], [str(number) for number in range(1, len(manual.refusals()) + 1)])


class Commands(unittest.TestCase):
    """The lists of commands in the code."""

    def test_the_forms_of_a_help_are_read(self) -> None:
        end = "Lines of a script:\n  steps   go A, starve A yes\n  places  qhead\n\n"
        end += "The manual is docs/MANUAL.md in the repository of lcrqdb"
        self.assertEqual(command_rows.listed_in(end), {"go A", "starve A yes", "qhead"})
        for wrong in (end + ".", end.replace("\n\n", "\n"), end.replace("MANUAL", "NOWHERE")):
            with self.assertRaises(Fault):
                command_rows.listed_in(wrong)

    def test_a_command_that_a_list_lacks_is_named(self) -> None:
        self.assertEqual([fault for _, fault in command_rows.list_faults()], ["", "", "", ""])
        with mock.patch.object(manual, "FORMS", [*manual.FORMS, "last A"]):
            self.assertEqual([fault for _, fault in command_rows.list_faults()], ["last A", "last", "last", "last"])


PAGE = model.PAGE.read_text(encoding="utf-8")
STEPS, FIRSTS = model.read(PAGE)


class Model(unittest.TestCase):
    """The pseudo-code of docs/MODEL.md."""

    def refused(self, old: str, new: str) -> str:
        """What is said of the page where one text of its pseudo-code is another."""
        block = "\n".join(model.block_of(PAGE))
        self.assertIn(old, block)
        with self.assertRaises(model.Unreadable) as fault:
            model.read(PAGE.replace(block, block.replace(old, new, 1)))
        return str(fault.exception)

    def test_each_control_point_has_its_step(self) -> None:
        self.assertEqual([*STEPS], model.control_points(PAGE))
        self.assertEqual(FIRSTS, {"enq": "E1", "deq": "Q1", "aenq": "A1", "adeq": "B1"})

    def test_each_step_begins_with_one_access_or_a_choice(self) -> None:
        for label, step in STEPS.items():
            with self.subTest(label):
                self.assertEqual(step.body[0].accesses() + step.has_choice(), 1)
        self.assertEqual([label for label, step in STEPS.items() if step.has_choice()], ["E10"])

    def test_a_sentence_has_its_parts(self) -> None:
        sentence = model.sentence_of("t := the counter of Tail(crq), which grows by 1", model.FORMS)
        self.assertEqual((sentence.form, sentence.parts), ("add", {"word": "t", "place": "the counter of Tail(crq)"}))
        sentence = model.sentence_of("go to E4", model.FORMS)
        self.assertEqual((sentence.form, sentence.parts, sentence.accesses()), ("go", {"to": "E4"}, 0))

    def test_a_line_of_another_form_is_refused(self) -> None:
        self.assertEqual(self.refused("crq := QTail", "crq =: QTail"), "no form of a line has `crq =: QTail`")

    def test_a_line_that_leads_nowhere_is_refused(self) -> None:
        self.assertRegex(self.refused("go to E1", "go to E99"), "^`go to E99.*`: there is no such line$")

    def test_a_label_that_is_there_twice_is_refused(self) -> None:
        self.assertEqual(self.refused("E2 ", "E1 "), "E1 is no label, or is there twice")

    def test_another_order_than_the_table_is_refused(self) -> None:
        renamed = re.sub(r"^\| E2\b", "| E77", PAGE, flags=re.MULTILINE)
        with self.assertRaisesRegex(model.Unreadable, "other labels than the table of control points"):
            model.read(renamed)

    def test_an_outcome_follows_only_the_other_one(self) -> None:
        for line in ("won: return enqueued; go to E1", "if closed: go to E1; go to E2"):
            with self.assertRaisesRegex(model.Unreadable, "can't follow"):
                model.body_of([line])

    def test_an_if_has_one_else_and_an_outcome_none(self) -> None:
        self.assertEqual(len(model.body_of(["won: go to E1; lost: go to E2", "if safe: go to E1; else go to E2"])), 3)
        branch = "if safe: go to E1; else go to E2"
        for line in ("won: go to E1; else go to E2", f"{branch}; else go to E3", "else go to E1"):
            with self.assertRaisesRegex(model.Unreadable, "no form of a line has"):
                model.body_of([line])

    def test_a_step_without_access_is_refused(self) -> None:
        step = model.Step("E1", model.body_of(["go to E2"]), "E2")
        with self.assertRaisesRegex(model.Unreadable, "^E1 does not begin with its one access$"):
            model.check_step(step, ["E1", "E2"])

    def test_nothing_follows_what_leads_away(self) -> None:
        step = model.Step("E1", model.body_of(["crq := QTail; go to E2; pass := 2"]), "E2")
        with self.assertRaisesRegex(model.Unreadable, "^E1 goes on after it has led away$"):
            model.check_step(step, ["E1", "E2"])
