"""The command line of each tool: its help with an example, and how it says a fault."""

import argparse
import contextlib
import importlib
import shlex
import subprocess
import sys
import tempfile
import unittest
from collections.abc import Callable, Sequence
from pathlib import Path
from unittest import mock

from lcrq_tools import entry, faults
from lcrq_tools.checks.answers import file_of
from lcrq_tools.draw import moment, picture
from lcrq_tools.page import page
from lcrq_tools.port import conform
from lcrq_tools.program import TOP
from lcrq_tools.start import continue_run, freeze
from lcrq_tools.tests.stubs import NO_PROGRAM, told, with_program

TOOLS = TOP / "tools"
RUNNERS = {"check.py": "checks", "bench.py": "bench"}


def all_modules() -> dict[str, str]:
    """The module of each script, of each check and of each measurement, by the words that call it."""
    modules = {f"{name}.py": module for name, module in entry.TOOLS.items()}
    for runner in RUNNERS:
        folder = modules.pop(runner)
        modules |= {f"{runner} {name}": module for name, module in entry.tools_in(folder).items()}
    return modules


def example_of(text: str) -> list[str]:
    """The words of the example at the end of a help."""
    head, example = text.rstrip("\n").splitlines()[-2:]
    return shlex.split(example) if head == "example:" else []


class Parsed(Exception):
    """A command line has been read."""


def stop(parser: argparse.ArgumentParser, words: Sequence[str] | None = None) -> argparse.Namespace:
    """Reads a command line in place of `parse_args`, and goes no further."""
    argparse.ArgumentParser.parse_known_args(parser, words)
    raise Parsed


class Helps(unittest.TestCase):
    """What --help says."""

    def test_each_ends_with_an_example_that_can_be_read(self) -> None:
        for words, module in all_modules().items():
            with self.subTest(words):
                main = entry.main_of(module)
                status, output, errors = told(main, words, "--help")
                self.assertEqual((status, errors), (0, ""))
                example, called = example_of(output), words.split(" ")
                self.assertEqual(example[:len(called)], called)
                self.check_reads(main, words, example[len(called):])

    def test_each_says_what_the_tool_makes(self) -> None:
        for words, module in all_modules().items():
            with self.subTest(words):
                about = (importlib.import_module(f"lcrq_tools.{module}").__doc__ or "").partition("\n\n")[0]
                said = told(entry.main_of(module), words, "--help")[1]
                self.assertIn(" ".join(about.split()), " ".join(said.split()))

    def check_reads(self, main: Callable[..., int], words: str, example: list[str]) -> None:
        """That the command line of an example has no fault."""
        with with_program(), mock.patch.object(faults.Parser, "parse_args", stop), self.assertRaises(Parsed):
            with mock.patch.object(sys, "argv", [words, *example]):
                main()


class Faults(unittest.TestCase):
    """How a fault is said: `name: what`, with status 1."""

    def check_fault(self, main: Callable[..., int], tool: str, words: list[str], said: str, status: int = 1) -> None:
        """That this command line has this fault, in one line."""
        self.assertEqual(told(main, tool, *words), (status, "", f"{tool}: {said}\n"))

    def test_an_option_that_is_not_there(self) -> None:
        for words, module in all_modules().items():
            with self.subTest(words), with_program():
                status, output, errors = told(entry.main_of(module), words, "--nowhere")
                self.assertEqual((status, output), (2 if words in ("calls.py", "conform.py") else 1, ""))
                self.assertRegex(errors, rf"^{words}: .*; --help shows what may be given\n\Z")

    def test_a_file_that_is_not_there(self) -> None:
        nowhere = "nowhere: No such file or directory"
        for main, tool in ((picture.main, "picture.py"), (moment.main, "moment.py"), (page.main, "page.py")):
            self.check_fault(main, tool, ["nowhere", "--program", NO_PROGRAM], nowhere)
        self.check_fault(freeze.main, "freeze.py", ["nowhere", "-o", "a", "--program", NO_PROGRAM], nowhere)
        self.check_fault(conform.main, "conform.py", ["nowhere", "--program", NO_PROGRAM], nowhere, 2)

    def test_a_program_that_is_not_there(self) -> None:
        tools: list[tuple[Callable[..., int], str]] = [
            (picture.main, "picture.py"), (continue_run.main, "continue_run.py")
        ]
        for main, tool in tools:
            status, output, errors = told(main, tool, "a.script", "--program", "nowhere")
            self.assertEqual((status, output, errors.count("\n")), (1, "", 1))
            self.assertTrue(errors.startswith(f"{tool}: no program at nowhere: at the top of the repository"), errors)

    def test_a_program_that_is_not_lcrqdb(self) -> None:
        said = f"{NO_PROGRAM} does not reply as lcrqdb does"
        with file_of("enq 1 7\n") as script:
            for main, tool in ((picture.main, "picture.py"), (moment.main, "moment.py"), (page.main, "page.py")):
                self.check_fault(main, tool, [script, "--program", NO_PROGRAM], said)

    def test_a_window_that_is_none(self) -> None:
        wrong = "argument --lines: 9:3 is not A:B, two numbers of lines; --help shows what may be given"
        self.check_fault(page.main, "page.py", ["a", "--lines", "9:3", "--program", NO_PROGRAM], wrong)
        wrong = "argument --from: 0 is no number from 1 on; --help shows what may be given"
        self.check_fault(picture.main, "picture.py", ["a", "--from", "0", "--program", NO_PROGRAM], wrong)
        wrong = "argument --line: x is no number from 1 on; --help shows what may be given"
        self.check_fault(moment.main, "moment.py", ["a", "--line", "x", "--program", NO_PROGRAM], wrong)

    def test_options_that_exclude_each_other(self) -> None:
        words = ["a", "-o", "b", "--trace", "c", "--ring", "2", "--program", NO_PROGRAM]
        said = "a trace has its own actors and rings: --trace comes without --actors and --ring"
        tools: list[tuple[Callable[..., int], str]] = [(picture.main, "picture.py"), (freeze.main, "freeze.py")]
        with tempfile.TemporaryDirectory() as folder, contextlib.chdir(folder):
            Path("a").touch()
            for main, tool in tools:
                self.check_fault(main, tool, words, said)

    def test_an_error_of_a_file_is_its_name_and_why(self) -> None:
        self.assertEqual(faults.text_of(FileNotFoundError(2, "No such file", "a.log")), "a.log: No such file")
        self.assertEqual(faults.text_of(faults.Fault("what is wrong")), "what is wrong")


class Names(unittest.TestCase):
    """Tools by their names."""

    def names_in(self, output: str) -> list[str]:
        """The names that are listed."""
        return [line.split()[0] for line in output.splitlines()[2:-2] if line[0] != " "]

    def test_without_a_name_all_are_listed(self) -> None:
        for words in ("", "--help", "-h"):
            status, output, _ = told(entry.lcrq, "/bin/lcrq", *words.split())
            self.assertEqual((status, self.names_in(output)), (0, [*entry.TOOLS]))
            self.assertIn("\nbench           Runs a measurement of the program by its name.\n", output)
            self.assertTrue(output.startswith("usage: lcrq NAME [arguments]\n"))

    def test_a_folder_lists_its_own(self) -> None:
        for name, folder in (("check", "checks"), ("bench", "bench")):
            status, output, _ = told(entry.lcrq, "lcrq", name)
            self.assertEqual((status, self.names_in(output)), (0, [*entry.tools_in(folder)]))

    def test_each_says_in_a_sentence_what_it_is(self) -> None:
        modules = [*entry.TOOLS.values(), *entry.tools_in("checks").values(), *entry.tools_in("bench").values()]
        for module in modules:
            self.assertRegex(entry.about(module), r"^[A-Z].*\.$")

    def test_a_wrong_name_is_a_fault(self) -> None:
        said = "nowhere: no such name; without one they are listed\n"
        self.assertEqual(told(entry.lcrq, "lcrq", "nowhere"), (1, "", f"lcrq: {said}"))
        self.assertEqual(told(entry.lcrq, "lcrq", "check", "nowhere"), (1, "", f"lcrq check: {said}"))

    def test_a_module_of_parts_is_none(self) -> None:
        self.assertIn("pictures", entry.tools_in("checks"))
        self.assertNotIn("runs", entry.tools_in("checks"))

    def test_a_tool_is_called_by_its_words(self) -> None:
        for words in (["moment"], ["check", "pages"]):
            status, output, _ = told(entry.lcrq, "lcrq", *words, "--help")
            self.assertEqual((status, output.split(" [")[0]), (0, f"usage: lcrq {' '.join(words)}"))
            self.assertEqual(example_of(output)[:len(words) + 1], ["lcrq", *words])

    def test_what_takes_the_repository_says_so(self) -> None:
        with mock.patch.object(entry, "CRATES", Path("/nowhere")):
            for words in (["check", "pages"], ["lines"], ["release"], ["quick_build"], ["bench", "live"]):
                said = "this takes the repository of lcrqdb, and the current folder is not in one"
                self.assertEqual(told(entry.lcrq, "lcrq", *words), (1, "", f"lcrq {' '.join(words)}: {said}\n"))

    def test_the_repository_around_has_its_own_tools(self) -> None:
        self.assertIsNone(entry.script_around(["check", "pages"]))
        with mock.patch.object(entry, "PACKAGE", Path("/site/lcrq_tools")):
            self.assertEqual(entry.script_around(["check", "pages"]), TOOLS / "check.py")
            for words in ("", "picture a.script", "nowhere"):
                self.assertIsNone(entry.script_around(words.split()))


class Scripts(unittest.TestCase):
    """The scripts of tools/."""

    def test_each_tool_has_one_that_names_it(self) -> None:
        texts = {path.stem: path.read_text(encoding="utf-8") for path in TOOLS.glob("*.py")}
        head = "#!/usr/bin/env python3\nfrom lcrq_tools.entry import script\n"
        self.assertEqual(texts, {name: f'{head}script("{name}")\n' for name in entry.TOOLS})

    def test_they_run_in_another_folder(self) -> None:
        with tempfile.TemporaryDirectory() as folder:
            for script in ("picture.py", "check.py", "lines.py"):
                words = [sys.executable, str(TOOLS / script), "--help"]
                ended = subprocess.run(words, cwd=folder, capture_output=True, text=True, check=False)
                self.assertEqual((ended.returncode, ended.stderr), (0, ""), script)
                self.assertTrue(ended.stdout.startswith(f"usage: {script}"))

    def test_no_module_edits_where_modules_are_looked_for(self) -> None:
        for path in [*TOOLS.glob("*.py"), *(TOOLS / "lcrq_tools").rglob("*.py")]:
            if path.parent.name != "tests":
                self.assertNotIn("sys.path", path.read_text(encoding="utf-8"), path.name)
