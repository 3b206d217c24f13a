"""Where the processor minutes of a gate go, with made-up processes of the checker."""

import contextlib
import io
import tempfile
import unittest
from pathlib import Path
from unittest import mock

from lcrq_tools.faults import Fault
from lcrq_tools.look import gate
from lcrq_tools.look.gate import Seen

TIMES = """\
60.00\t61.00\t9\t/a/crates/rd_step\trattle --crate-name rd_step src
30.00\t31.00\t9\t/a/crates/rd_step_tests\trattle --crate-name rd_step_tests src
90.00\t91.00\t9\t/tmp/rt-edit-b\trattle --crate-name rd_cell src
30.00\t31.00\t9\t/ab/crates/rd_cell\trattle --crate-name rd_cell src
5.00\t6.00\t9\t/a\trattle --version
"""


class Kinds(unittest.TestCase):
    """What a call of the checker was for."""

    def test_a_call_is_of_a_crate_and_a_kind(self) -> None:
        rows = [
            ("/a", "rattle --crate-name rd_step src", ("rd_step", "proofs")),
            ("/a", "rattle --crate-name rd_step_tests src", ("rd_step", "tests")),
            ("/a", "rattle --crate-name rd_step --test", ("rd_step", "tests")),
            ("/a", "rattle --crate-name rd_step --tested", ("rd_step", "proofs")),
            ("/tmp/rt-edit-1", "rattle --crate-name rd_step_tests", ("rd_step_tests", "edits")),
            ("/a", "rattle --version", None),
        ]
        for folder, words, wanted in rows:
            self.assertEqual(gate.kind_of(folder, words), wanted)


class Tables(unittest.TestCase):
    """The table of one gate."""

    def times(self, top: str = "") -> gate.Times:
        """The times of the file above."""
        with tempfile.TemporaryDirectory() as folder:
            path = Path(folder) / "times"
            path.write_text(TIMES, encoding="utf-8")
            return gate.times_of(str(path), top)

    def test_calls_elsewhere_are_left_out(self) -> None:
        step = {("rd_step", "proofs"): 60.0, ("rd_step", "tests"): 30.0}
        edits = {("rd_cell", "edits"): 90.0}
        self.assertEqual(self.times("/a/"), step | edits)
        self.assertEqual(self.times(), step | edits | {("rd_cell", "proofs"): 30.0})

    def test_a_file_without_calls_is_said(self) -> None:
        with tempfile.NamedTemporaryFile() as times, self.assertRaisesRegex(Fault, "has no such call of the checker$"):
            gate.times_of(times.name)

    def test_the_unit_is_one_proof_of_a_crate(self) -> None:
        output = io.StringIO()
        with contextlib.redirect_stdout(output):
            gate.show(self.times())
        self.assertEqual(output.getvalue().splitlines()[2:], [
            "| rd_cell | 0.5 | 0.0 | 1.5 | 57% |",
            "| rd_step | 1.0 | 0.5 | 0.0 | 43% |",
            "| all | 1.5 | 0.5 | 1.5 | 4 units |",
            "",
            "4 processor minutes; the unit is 1.00 of them.",
        ])


class Watching(unittest.TestCase):
    """Processes that end."""

    def test_a_process_is_written_when_it_has_ended_as_it_was_seen_with_words(self) -> None:
        one = ("7", "100")
        looks = [{one: Seen(1.5, 8, "/a", "rattle x")}, {one: Seen(1.6, 0, "", "")}, {}]
        with (
            tempfile.TemporaryDirectory() as folder,
            mock.patch.object(gate, "look", mock.Mock(side_effect=looks)),
            mock.patch("time.sleep", mock.Mock(side_effect=[None, None, KeyboardInterrupt])),
            mock.patch("time.time", mock.Mock(side_effect=[10.0, 10.2, 10.5])),
        ):
            path = Path(folder) / "times"
            with self.assertRaises(KeyboardInterrupt):
                gate.watch(str(path))
            self.assertEqual(path.read_text(encoding="utf-8"), "1.50\t0.50\t8\t/a\trattle x\n")
        self.assertEqual(gate.text_of("/proc/nowhere"), b"")
