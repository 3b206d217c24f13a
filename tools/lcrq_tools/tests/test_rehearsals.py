"""What `tools/check.py rehearsals` compares with its stored text."""

import re
import shutil
import tempfile
import unittest
from pathlib import Path

from lcrq_tools.checks import rehearsals
from lcrq_tools.checks.answers import difference
from lcrq_tools.checks.rehearsals import Rehearsal
from lcrq_tools.program import Ended

ECHO = shutil.which("echo") or "/bin/echo"


def echoed(room: int | None) -> Ended:
    """What `echo` gives to a row with so much room."""
    return rehearsals.end_of(ECHO, Rehearsal("two words", "", room), rehearsals.REHEARSED)


class Streams(unittest.TestCase):
    """What comes of a command line, and its text."""

    def test_each_line_has_its_stream(self) -> None:
        self.assertEqual(rehearsals.shown_stream("output", "ok 1\n\nok\n"), "  output|ok 1\n  output|\n  output|ok\n")
        self.assertEqual(rehearsals.shown_stream("output", "a\r\n"), "  output|a\r\n")

    def test_a_line_says_what_no_line_shows(self) -> None:
        self.assertEqual(rehearsals.shown_stream("errors", ""), "  errors: nothing\n")
        wanted = "  output|ok 1\n  output|ok\n  output: no line feed at the end\n"
        self.assertEqual(rehearsals.shown_stream("output", "ok 1\nok"), wanted)

    def test_words_status_and_streams_are_in_order(self) -> None:
        row, got, replies = Rehearsal("run -", "len\n"), Ended(2, b"Help:\nforms\n", "no\n"), {"a.replies": "1 ok 1\n"}
        text = "lcrqdb run -\n  status: 2\n  output|Help:\n  output|FORMS\n  errors|no\n"
        self.assertEqual(rehearsals.shown_row(row, got, {}, "forms"), text)
        self.assertEqual(rehearsals.shown_row(row, got, replies, "forms"), f"{text}  a.replies|1 ok 1\n")

    def test_an_output_takes_what_it_has_room_for(self) -> None:
        for room, taken in ((0, b""), (5, b"two w")):
            status, output, errors = echoed(room)
            self.assertEqual((status, output), (1, taken))
            self.assertGreater(len(errors), room)  # which has no limit
        self.assertEqual(echoed(10), (0, b"two words\n", ""))
        self.assertEqual(echoed(None), (0, b"two words\n", ""))

    def test_files_of_replies_are_written_apart(self) -> None:
        with tempfile.NamedTemporaryFile("w", suffix=".sh", delete=False) as script:
            script.write("#!/bin/sh\nls; echo 1 ok 1 > a.replies\n")
        script_path = Path(script.name)
        try:
            script_path.chmod(0o755)
            got, replies = rehearsals.end_in_copy(script.name, Rehearsal("view --live a", ""))
        finally:
            script_path.unlink()
        self.assertEqual(replies, {"a.replies": "1 ok 1\n"})
        self.assertEqual(got.output.decode().split(), sorted(path.name for path in rehearsals.REHEARSED.iterdir()))
        self.assertFalse([*rehearsals.REHEARSED.glob("*.replies")])


class Stored(unittest.TestCase):
    """The stored text."""

    def test_a_row_has_what_is_given_and_what_comes_of_it(self) -> None:
        comes = "  status: 0\n  output|lcrqdb \n  output|  input|a\n"
        text = f"lcrqdb run -\n  input|len\n  input|\n  room: 7\n{comes}lcrqdb load\n{comes}lcrqdb"
        wanted = [
            Rehearsal("run -", "len\n\n", 7, f"lcrqdb run -\n{comes}"),
            Rehearsal("load", "", None, f"lcrqdb load\n{comes}lcrqdb"),
        ]
        self.assertEqual(rehearsals.rehearsals_of(text), wanted)

    def test_nothing_is_left_over(self) -> None:
        rows = rehearsals.stored_rows()
        self.assertEqual(len(rows), 52)  # as docs/GATE.md says
        for row in rows:
            self.assertRegex(row.wanted, rf"^lcrqdb {re.escape(row.words)}\n  status: [0-9]\n(  .*\n)+\Z")

    def test_the_first_other_line_is_named(self) -> None:
        self.assertEqual(difference("a\nb\n", "a\nb\n"), "")
        self.assertEqual(difference("a\nb\n", "a\nc\n"), "`b`, and stored is `c`")
        self.assertEqual(difference("a\n", "a\nc\n"), "`nothing more`, and stored is `c`")
        self.assertEqual(difference("a\n", "a"), "the stored text has no line feed at the end")
