"""What `tools/check.py pages` finds on a page."""

import tempfile
import unittest
from pathlib import Path

from lcrq_tools import markdown
from lcrq_tools.checks import pages
from lcrq_tools.program import CRATES

LINKS = "[a](#the-undo-of-a-step) [b](page.md) [c](page.md#a-comment) [d](other.md) [e](https://example.org/)\n"


class Blocks(unittest.TestCase):
    """Blocks of lines and replies."""

    def test_a_block_of_a_list_is_read_without_its_indent(self) -> None:
        page = "1. A step:\n   ```text\n   go 1    ok 3\n   ```\n"
        self.assertEqual([*markdown.blocks_of(page)], [("text", ["go 1    ok 3"])])

    def test_what_is_after_a_reply_is_left_out(self) -> None:
        self.assertEqual(pages.rows_of(["go 1    ok 3     reads the tail"]), [["go 1", "ok 3"]])
        self.assertIsNone(pages.rows_of(["go 1    done 3"]))
        self.assertIsNone(pages.rows_of(["go 1"]))

    def test_what_people_type_live_is_below_their_names(self) -> None:
        block = ["Anna      Ben", "", "enq 1 7", "1 ok 1", "go 1", "2 ok 2", "          deq 2", "          3 ok 3"]
        self.assertEqual(pages.is_live(block), "")
        self.assertTrue(pages.NUMBERED.fullmatch(block[-1]) and pages.NUMBERED.fullmatch("- refused 22 BadLine"))
        other = "it is not the beginning of the table of 12-two-viewers.md"
        for wrong in ("deq 2", "         deq 2", "          deq 3"):
            with self.subTest(wrong):
                self.assertEqual(pages.is_live([*block[:6], wrong, *block[7:]]), other)

    def test_a_trace_is_compared_by_its_value(self) -> None:
        self.assertEqual(pages.value_of('{"b": [1], "a": 2}'), pages.value_of('{"a":2,"b":[1]}'))
        self.assertNotEqual(pages.value_of("[1]"), pages.value_of("[true]"))
        self.assertIsNone(pages.value_of("{"))


class Tools(unittest.TestCase):
    """The scripts that a page names."""

    def test_what_is_there_is_no_fault(self) -> None:
        text = "`tools/check.py pages`, `python3 tools/bench.py lock --runs 3`, `tools/lcrq_tools/page/page.js`"
        self.assertEqual([*pages.unknown_tools(text + ", `lcrq picture`, `lcrq`")], [])

    def test_what_is_not_there_is_named(self) -> None:
        text = "`checks/pages.py`, python3 tools/check.py nowhere, `tools/nowhere.py`, `tools/bench.py runs`"
        wanted = ["checks/pages.py", "tools/nowhere.py", "nowhere for tools/check.py", "runs for tools/bench.py"]
        self.assertEqual([*pages.unknown_tools(text)], wanted)
        self.assertEqual([*pages.unknown_tools("`lcrq nowhere a.script`")], ["nowhere for lcrq"])

    def test_a_name_that_is_a_word_of_a_sentence_is_none(self) -> None:
        self.assertEqual([*pages.unknown_tools("`tools/check.py` runs a check by its name")], [])


class Links(unittest.TestCase):
    """The links of a page."""

    def test_a_link_leads_to_a_file_and_a_heading(self) -> None:
        with tempfile.TemporaryDirectory() as folder:
            page = Path(folder) / "page.md"
            page.write_text("# The `undo` of a step\n\n```sh\n# a comment\n```\n" + LINKS, encoding="utf-8")
            self.assertEqual([*pages.dead_links(page)], ["page.md#a-comment", "other.md"])


class Numbers(unittest.TestCase):
    """Numbers on pages."""

    def test_numbers_are_stored_in_one_row_or_sentence(self) -> None:
        row = "| a | 12 | 1,034 | 5 |\n| b | 34 | 5 |"
        self.assertEqual(pages.with_numbers(row, "34 | 5", "35 | 6"), "| a | 12 | 1,034 | 5 |\n| b | 35 | 6 |")
        sentence = "237 in 63\nfiles, with 1,084 lines"
        self.assertEqual(pages.with_numbers(sentence, "237 | 63 | 1,084", "1 | 2 | 3"), "1 in 2\nfiles, with 3 lines")
        self.assertEqual(pages.with_numbers(sentence, "no such sentence", "3"), sentence)

    def test_a_row_has_its_numbers_with_commas(self) -> None:
        self.assertEqual(pages.in_row([3, 1234]), "3 | 1,234")
        self.assertEqual(pages.said_in(pages.MINUTES, "in all\n 95 minutes in all"), "95")
        self.assertEqual(pages.said_in(pages.MINUTES, "none"), "no such sentence")

    def test_only_one_list_has_a_file(self) -> None:
        one, other = CRATES / "a" / "b.rt", CRATES / "c.rt"
        self.assertEqual(pages.only_in([one, one, other], [one]), "a/b.rt, c.rt")
        self.assertEqual(pages.only_in([one], [one, other]), "no other file")
