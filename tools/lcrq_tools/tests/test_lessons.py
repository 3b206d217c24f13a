"""What `tools/check.py lessons` compares of a page."""

import unittest
from unittest import mock

from lcrq_tools.checks import lessons
from lcrq_tools.program import EXAMPLES, Broken

TABLE = lessons.table_of("go 1\nlen\n", ["ok 3", "at 3 0"])
PAGE = """# A page

| Line | Reply | What happens |
|---|---|---|
| `go 1` | `ok 3` | reads a `|`: no, a bar |
| `len` | `at 3 0` | |

| Word | `Reply` |
| `len` | `at 3 0` | stays |
"""
TRACE = lessons.trace_block('{"version": 2}\n')
NAMES = ("Anna", "Ben")
LIVE = f"""
{lessons.LIVE_HEADINGS}
|---|---|---|---|
| Anna | `enq 1 7` | `1 ok 1` |
| Ben | `enq` | `- refused 22 BadLine` |
| Ben | `undo` | `2 at 0 1` |

"""
FILES = {"a.history": "history 2\n1 enq 1 7\n2 undo\n", "a.script": "enq 1 7\nundo\n"}


def live_table(replies: str = "ok 1\nat 0 1\n", page: str = LIVE, names: tuple[str, ...] = NAMES, **files: str) -> str:
    """The table of what viewers of these names type on a page, where a run of the script replies so, and
    where these are other texts of stored files, by their kind."""
    live = ["1 ok 1", "- refused 22 BadLine", "2 at 0 1"], FILES["a.history"]
    stored = FILES | {f"a.{kind}": text for kind, text in files.items()}
    with (
        mock.patch.object(lessons, "typed_in_turn", return_value=live),
        mock.patch.object(lessons, "report", return_value=replies),
        mock.patch.object(lessons, "text_of", stored.__getitem__),
    ):
        return lessons.table_at_terminals("lcrqdb", "a", names, page)


class Blocks(unittest.TestCase):
    """The tables and traces that a page must have."""

    def test_a_table_has_each_line_beside_its_reply(self) -> None:
        rows = "| `go 1` | `ok 3` |\n| `len` | `at 3 0` |\n"
        self.assertEqual(TABLE, f"\n| Line | Reply | What happens |\n|---|---|---|\n{rows}\n")

    def test_a_line_without_a_reply_is_a_fault(self) -> None:
        for replies in (["ok 3"], ["ok 3", "at 3 0", "{}"]):
            with self.subTest(replies), self.assertRaisesRegex(Broken, f"^2 lines have {len(replies)} replies$"):
                lessons.table_of("go 1\nlen\n", replies)

    def test_a_trace_is_a_block_of_json(self) -> None:
        self.assertEqual(TRACE, '```json\n{"version": 2}\n```\n')

    def test_letters_stand_for_what_another_order_would_change(self) -> None:
        rows = {"ok 12": "ok K", "ok 12 value 7": "ok K value 7", "is open 3": "is open N", "at 4 1": "at L 1"}
        rows |= {it: it for it in ("is closed 3", "refused 13 Depended 4", "ok", "at 4", "viewer 2", "history 9", "")}
        for reply, wanted in rows.items():
            self.assertEqual(lessons.mask_numbers(reply), wanted)

    def test_a_lesson_of_two_scripts_is_not_run_alone(self) -> None:
        with self.assertRaisesRegex(OSError, "nowhere-1"):
            [*lessons.lesson_blocks("/bin/true", "nowhere", "\nRun over two starts.\n")]


class Live(unittest.TestCase):
    """The table of what people type live."""

    def test_it_says_who_types_which_line(self) -> None:
        self.assertEqual(live_table(), LIVE)
        self.assertEqual(live_table(page=LIVE.replace("2 at 0 1", "3 at 0 1")), LIVE)

    def test_a_person_without_a_line_is_a_fault(self) -> None:
        for names in (("Anna",), ("Anna", "Ben", "Cleo")):
            with self.subTest(names), self.assertRaisesRegex(Broken, "^its table is not of Anna"):
                live_table(names=names)

    def test_its_calls_are_stored(self) -> None:
        with self.assertRaisesRegex(Broken, "^a.history has other calls than its table$"):
            live_table(history="history 2\n2 enq 1 7\n2 undo\n")
        with self.assertRaisesRegex(Broken, "^a.script has other calls than its table$"):
            live_table(script="enq 1 7\n")

    def test_one_run_replies_as_the_viewers_had_it(self) -> None:
        for replies in ("ok 1\n", "ok 1\nat 1 0\n"):
            with self.subTest(replies), self.assertRaisesRegex(Broken, "^a run of a.script has other replies"):
                live_table(replies)

    def test_the_last_column_of_the_table_is_left_out(self) -> None:
        page = LIVE.replace("1` |\n", "1` | a call |\n").replace("Line` |\n", "Line` | no call |\n")
        self.assertEqual(lessons.without_words(page), LIVE)


class Pages(unittest.TestCase):
    """The tables and traces that a page has."""

    def test_the_third_column_of_its_tables_is_left_out(self) -> None:
        bare = lessons.without_words(PAGE.replace("`|`: no, a bar", "the tail"))
        self.assertEqual(bare, f"# A page\n{TABLE}| Word | `Reply` |\n| `len` | `at 3 0` | stays |\n")

    def test_a_row_has_no_bar_in_its_words(self) -> None:
        self.assertIn("| `go 1` | `ok 3` | reads a `|\n", lessons.without_words(PAGE))

    def test_a_page_has_its_blocks_and_words_around_them(self) -> None:
        rows: list[list[str]] = [[], [TABLE], [TRACE], [TABLE, TRACE], [TRACE, TABLE, TABLE]]
        for blocks in rows:
            page = "Some words.\n".join(["", *blocks, ""])
            self.assertEqual(lessons.blocks_fault(page, blocks), "")

    def test_a_changed_or_missing_reply_is_named(self) -> None:
        said = "table or trace 1 of its page lacks | `len` | `at 3 0` |"
        for wrong in ("| `len` | `at 4 0` |\n", ""):
            page = TABLE.replace("| `len` | `at 3 0` |\n", wrong)
            self.assertEqual(lessons.blocks_fault(page, [TABLE]), said)

    def test_a_row_too_many_is_a_fault(self) -> None:
        page = TABLE.replace("| `len`", "| `len` | `at 2 0` |\n| `len`")
        self.assertEqual(lessons.blocks_fault(page, [TABLE]), "table or trace 1 of its page lacks its lines, in a row")

    def test_exchanged_blocks_are_a_fault(self) -> None:
        said = "its page has another table or trace before its number 1"
        self.assertEqual(lessons.blocks_fault(TRACE + TABLE, [TABLE, TRACE]), said)

    def test_a_block_too_many_is_a_fault(self) -> None:
        more = [TABLE, TRACE, lessons.MISTAKES_HEAD]
        for block in more:
            self.assertEqual(lessons.blocks_fault(TABLE + block, [TABLE]), "its page has one more table or trace")
        self.assertNotEqual(lessons.blocks_fault(TABLE, [TABLE, TABLE]), "")


class Rows(unittest.TestCase):
    """The rows of the check."""

    def test_each_page_and_each_report_has_a_row(self) -> None:
        pages = {path.stem for path in EXAMPLES.glob("*.md")} - {"README"}
        reports = {path.stem for path in EXAMPLES.glob("*.report")}
        self.assertEqual({name for name, _ in lessons.rows()}, pages | reports)
        self.assertEqual(len(lessons.rows()), len(pages | reports))
