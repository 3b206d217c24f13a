"""The options that tools share: what they take, and what they mean."""

import argparse
import contextlib
import io
import tempfile
import unittest
from pathlib import Path

from lcrq_tools import options
from lcrq_tools.draw import moment, picture
from lcrq_tools.faults import Fault
from lcrq_tools.page import page
from lcrq_tools.tests.stubs import with_program


class Worlds(unittest.TestCase):
    """Over which world a script is run."""

    def test_a_fresh_world_has_what_is_asked(self) -> None:
        rows: list[tuple[int | None, int | None, list[str]]] = [
            (None, None, ["run", "-"]),
            (2, None, ["run", "-", "--actors", "2"]),
            (16, 8, ["run", "-", "--actors", "16", "--ring", "8"]),
        ]
        for actors, ring, words in rows:
            self.assertEqual(options.start_words(None, actors, ring), words)

    def test_a_trace_has_its_own_world(self) -> None:
        self.assertEqual(options.start_words("a.trace", None, None), ["load", "--", "a.trace"])
        for actors, ring in ((2, None), (None, 2)):
            with self.assertRaisesRegex(Fault, "--trace comes without --actors and --ring"):
                options.start_words("a.trace", actors, ring)

    def test_each_tool_that_shows_a_run_takes_the_same(self) -> None:
        words = "a.script --actors 3 --ring 2 --trace b --refused -o c --program d".split()
        for tool in (picture, moment, page):
            with with_program():
                given = vars(tool.parser().parse_args(words))
            wanted = {"script": "a.script", "actors": 3, "ring": 2, "trace": "b", "refused": True, "out": "c"}
            self.assertEqual({name: given[name] for name in wanted}, wanted)

    def test_a_world_that_is_none_is_a_fault(self) -> None:
        for words in (["--ring", "3"], ["--ring", "x"], ["--actors", "0"], ["--actors", "17"]):
            with self.subTest(words), with_program(), self.assertRaisesRegex(Fault, f"^argument {words[0]}: invalid"):
                picture.parser().parse_args(["a.script", *words])


class Values(unittest.TestCase):
    """What an option takes and gives."""

    def test_a_number_is_1_at_least(self) -> None:
        self.assertEqual(options.number_above_0("12"), 12)
        for word in ("0", "-1", "x", ""):
            with self.subTest(word), self.assertRaises(argparse.ArgumentTypeError):
                options.number_above_0(word)

    def test_a_text_is_written_into_a_file_or_to_standard_output(self) -> None:
        with tempfile.TemporaryDirectory() as folder:
            path = Path(folder) / "out"
            options.write(str(path), "a\n")
            self.assertEqual(path.read_text(encoding="utf-8"), "a\n")
        with contextlib.redirect_stdout(io.StringIO()) as output:
            options.write("-", "b\n")
        self.assertEqual(output.getvalue(), "b\n")
