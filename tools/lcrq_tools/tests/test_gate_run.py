"""The gate's commands, and what it does with made-up ones."""

import contextlib
import io
import tempfile
import unittest
from pathlib import Path

from lcrq_tools.checks import gate
from lcrq_tools.places import TOP


class Runs(unittest.TestCase):
    """Commands one after the other."""

    def ran(self, *texts: str) -> tuple[int, str, str]:
        """The status of a gate of scripts of Python with these texts, its output and its errors; each script is
        called by its number."""
        output, errors = io.StringIO(), io.StringIO()
        with tempfile.TemporaryDirectory() as folder:
            scripts = [Path(folder) / f"{number}.py" for number in range(1, len(texts) + 1)]
            for script, text in zip(scripts, texts):
                script.write_text(text, encoding="utf-8")
            with contextlib.redirect_stdout(output), contextlib.redirect_stderr(errors):
                status = gate.run_all(f"python3 {script}" for script in scripts)
        return status, output.getvalue().replace(f"{folder}/", ""), errors.getvalue().replace(f"{folder}/", "")

    def test_all_pass(self) -> None:
        status, output, errors = self.ran("print('3 right, 0 wrong')", "print('ok')")
        wanted = "# python3 1.py\n3 right, 0 wrong\n# python3 2.py\nok\nall 2 commands passed, nothing was skipped\n"
        self.assertEqual((status, output, errors), (0, wanted, ""))

    def test_what_was_skipped_is_gathered(self) -> None:
        line = "print('34 right, 0 wrong, 2 skipped: mypy, ruff')"
        _, output, _ = self.ran(line, "print('1 right, 0 wrong')", line.replace("mypy, ruff", "cc"))
        last = output.splitlines()[-1]
        self.assertRegex(last, r"^all 3 commands passed, skipped: \S+: mypy, ruff; \S+: cc$")

    def test_the_first_that_fails_is_the_last(self) -> None:
        status, output, errors = self.ran("print('a')", "raise SystemExit(3)", "print('b')")
        self.assertEqual((status, output), (3, "# python3 1.py\na\n# python3 2.py\n"))
        self.assertRegex(errors, r": `python3 2.py` ended with status 3: the gate stops here\n$")

    def test_a_signal_is_a_failure(self) -> None:
        status, _, _ = self.ran("import os; os.kill(os.getpid(), 9)")
        self.assertEqual(status, 128 + 9)


class Commands(unittest.TestCase):
    """The commands themselves."""

    def test_the_page_of_the_gate_names_each(self) -> None:
        page = (TOP / "docs" / "GATE.md").read_text(encoding="utf-8")
        for command in gate.COMMANDS:
            with self.subTest(command):
                self.assertIn(f"`{command.removeprefix('python3 ')}`", page)

    def test_a_check_is_called_by_its_name(self) -> None:
        names = [gate.name_of(command) for command in gate.COMMANDS]
        self.assertEqual((names[0], names[2], names[-1]), ("pages", "rt", "refused_memory"))
        self.assertEqual(len({*names}), len(names))
