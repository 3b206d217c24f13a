"""The man page: what roff gets of Markdown, and what groff says of the whole page."""

import re
import shutil
import subprocess
import unittest

from lcrq_tools import manual
from lcrq_tools.release.man_page import CODE, blocks_of, lines_of, man_page, parted, roff_of, rows_of, widths_of
from lcrq_tools.release.release_pages import LESSONS, Choice

PAGE = man_page("1.2.3", 0, Choice(tuple(LESSONS), "with")).decode("ascii")
GROFF = shutil.which("groff")
LONG = "| " + "a word " * 30 + "|"


def table_of(*rows: str) -> list[list[str]]:
    """The cells of a table with these rows."""
    head, *others = rows
    return rows_of(next(blocks_of("\n".join([head, re.sub(r"[^|]+", "---", head), *others]))))


class Text(unittest.TestCase):
    """Lines of text and code."""

    def test_code_is_bold_and_can_be_copied(self) -> None:
        self.assertEqual(lines_of("write `--ring '2^3'` - or **not**"),
                         [r"write \fB\-\-ring \(aq2\(ha3\(aq\fR - or \fBnot\fR"])

    def test_no_line_is_a_request(self) -> None:
        self.assertEqual(lines_of(".trace and 'a'"), [r"\&.trace and 'a'"])
        self.assertEqual(roff_of("```text\n.a \\b\n```\n"), ".PP\n.RS 4\n.nf\n\\&.a \\eb\n.fi\n.RE\n")

    def test_other_letters_have_their_numbers(self) -> None:
        self.assertEqual(lines_of("a · b"), [r"a \[u00B7] b"])

    def test_a_link_names_its_page_once(self) -> None:
        rows = {
            "[the words](#words)": "the words",
            "[the words](model.html#words)": "the words (model.html)",
            "[MODEL.md](model.html)": "model.html",
            "[explained in MODEL.md](model.html#words)": "explained in model.html",
            "[a.json](a.json)": "a.json",
            "[`points`](recipes.html)": r"\fBpoints\fR (recipes.html)",
        }
        for text, wanted in rows.items():
            with self.subTest(text):
                self.assertEqual(lines_of(text), [wanted])

    def test_a_long_line_of_code_is_parted_where_it_may_be(self) -> None:
        reply = "actor 1             " + "word " * 15 + "end"
        self.assertEqual(parted("a [b] c", False), ["a [b] c"])
        first, *others = parted(reply, False)
        self.assertTrue(all(line.startswith(" " * 20 + "word") for line in others))
        self.assertEqual(" ".join([first, *(line.strip() for line in others)]), reply)
        self.assertEqual(parted("a" * CODE + " [b c]", False), ["a" * CODE, "    [b c]"])
        self.assertEqual(parted("a" * CODE + " | b '  '  # why", True), ["# why", "a" * CODE + " |", "    b '  '"])
        self.assertEqual(parted('{"a":[' + "1," * CODE + "1]}", False), ['{"a":[' + "1," * CODE + "1]}"])


class Blocks(unittest.TestCase):
    """Blocks of a page."""

    def test_blocks_are_told_apart(self) -> None:
        text = "# A\nb\nc\n- d\n  e\n- f\n\n```sh\n# g\n\nh\n```\n| i |\n|---|\n| j |\n1. k\n"
        kinds = [(block.kind, len(block.lines)) for block in blocks_of(text)]
        wanted = [("heading", 1), ("text", 2), ("item", 2), ("item", 1), ("code", 4), ("table", 3), ("item", 1)]
        self.assertEqual(kinds, wanted)

    def test_headings_are_sections(self) -> None:
        text = "# lcrqdb\n\n## Exit status\n\n### A `log`\n"
        self.assertEqual(roff_of(text), '.SH EXIT STATUS\n.SS "A \\fBlog\\fR"\n')

    def test_items_have_their_marks(self) -> None:
        self.assertEqual(roff_of("- a\n- b\n  c\n\n2. d\n"), ".IP \\(bu 2\na\n.IP \\(bu 2\nb c\n.IP 2. 4\nd\n")

    def test_a_table_of_two_columns_is_a_list(self) -> None:
        text = "| Key | Value |\n|---|---|\n| `a` | 2\\|3 |\n"
        self.assertEqual(roff_of(text), ".TP 7\n\\fIKey\\fR\n\\fIValue\\fR\n.TP 7\n\\fBa\\fR\n2|3\n")

    def test_short_columns_of_a_wide_table_are_the_tag(self) -> None:
        text = "| No | Name | Data | When | To do |\n|---|---|---|---|---|\n"
        text += "| 1 | Full | N | N steps are live | undo, or go on |\n| 2 | Left | | none is left of them | undo |\n"
        wanted = ".TP 7\n\\fINo Name Data\\fR\n\\fIWhen\\fR\n"
        wanted += ".TP 7\n\\fB1 Full N\\fR\nN steps are live. To do: undo, or go on\n"
        wanted += ".TP 7\n\\fB2 Left\\fR\nnone is left of them. To do: undo\n"
        self.assertEqual(roff_of(text), wanted)

    def test_a_table_of_three_columns_is_for_tbl(self) -> None:
        lines = roff_of("| a | b | c |\n|---|---|---|\n| 1 | `2` | |\n").splitlines()
        self.assertEqual(lines[:4], [".PP", ".TS", "lBw(1n) lBw(1n) lBw(1n)", "lw(1n) lw(1n) lw(1n)."])
        self.assertEqual(lines[4:11], ["T{", "a", "T}\tT{", "b", "T}\tT{", "c", "T}"])
        self.assertEqual(lines[-1], ".TE")

    def test_only_wide_columns_are_cut(self) -> None:
        rows = table_of("| a | b |", "| word |" + LONG[1:], "| x |" + LONG[1:])
        self.assertEqual(widths_of(rows), [4, 63])


class Page(unittest.TestCase):
    """The man page of the manual."""

    def test_each_section_and_each_refusal_is_there(self) -> None:
        for heading in re.findall(r"^## (.*)", manual.PAGE, re.MULTILINE):
            self.assertIn(f"\n.SH {heading}\n", PAGE)
        for number, text in manual.refusals().items():
            self.assertIn(f"\n\\fB{number} {text.partition(':')[0]}", PAGE)
        self.assertIn('.TH LCRQDB 1 1970-01-01 "lcrqdb 1.2.3"\n', PAGE)
        self.assertIn("\nlcrqdb \\- a causal", PAGE)

    def test_it_has_the_passages_of_the_archive(self) -> None:
        self.assertNotRegex(PAGE, r"LOCK|<!--|\]\(|\|---")

    @unittest.skipUnless(GROFF, "groff")
    def test_groff_has_no_warning_and_text_fits(self) -> None:
        words = [GROFF or "", "-t", "-man", "-ww", "-Tascii", "-P-cbou", "-rLL=78n"]
        ended = subprocess.run(words, input=PAGE, capture_output=True, text=True, check=False)
        self.assertEqual((ended.returncode, ended.stderr), (0, ""))
        wide = [line.strip() for line in ended.stdout.splitlines() if len(line) > 80]
        self.assertEqual([line for line in wide if not line.startswith(('{"', '"'))], [])
