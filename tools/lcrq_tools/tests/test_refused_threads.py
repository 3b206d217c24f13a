"""What is said of a view whose threads are refused, with a shell script in the place of the program."""

import tempfile
import unittest
from pathlib import Path
from unittest import mock

from lcrq_tools.checks import refused_threads
from lcrq_tools.program import Skipped

RIGHT = r"""#!/bin/sh
if [ "$2" = --live ]; then
  printf 'history 0\n'
  printf 'lcrqdb: viewer 1: refused 20 NoMemory\nlcrqdb: viewer 2: refused 20 NoMemory\n' >&2
  exit 1
fi
printf 'viewer 1\nrefused 20 NoMemory\nviewer 2\nrefused 20 NoMemory\nhistory 0\n'
"""
WRONG = {
    "a viewer is answered without a thread": ("viewer 1\\nrefused 20 NoMemory", "viewer 1\\nok 1\\nok 2"),
    "a call is recorded": ("history 0\\n'\n  printf", "history 1\\n'\n  printf"),
    "nobody is told of a live viewer": ("lcrqdb: viewer 2: refused 20 NoMemory\\n", ""),
    "a live viewer's replies are written": ("  exit 1", "  printf 'ok 1\\n' > first.script.replies\n  exit 1"),
}


def fault(script: str) -> str:
    """What is said of a program that is this script."""
    with tempfile.TemporaryDirectory() as name:
        program = Path(name) / "lcrqdb"
        program.write_text(script, encoding="ascii")
        program.chmod(0o755)
        return refused_threads.fault(str(program))


class Threads(unittest.TestCase):
    """Right and wrong views without threads."""

    def test_right_views_have_no_fault(self) -> None:
        said = fault(RIGHT)
        self.assertTrue(said == "" or isinstance(said, Skipped), said)

    def test_each_wrong_view_has_a_fault(self) -> None:
        for what, (old, new) in WRONG.items():
            with self.subTest(what):
                self.assertIn(old, RIGHT)
                self.assertTrue(fault(RIGHT.replace(old, new)))

    def test_where_threads_are_not_refused_it_is_skipped(self) -> None:
        def unlimited() -> None:
            raise refused_threads.Unlimited

        with mock.patch.object(refused_threads, "refuse_threads", unlimited):
            self.assertIsInstance(fault(RIGHT), Skipped)
