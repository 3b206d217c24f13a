"""Runs the unit tests of the tools; then mypy and ruff look over the whole package.

    python3 tools/check.py units

The tests are in tools/lcrq_tools/tests/ and need no built program: they try layouts of drawings, the
grammar of tables, pseudo-code and logs, the command line of each tool, and what is read of a small
tree. `pytest` runs them where it is there (python3-pytest of Debian, or pytest of pip), and else Python's
`unittest`; each line says which. What mypy and ruff shall hold is in tools/pyproject.toml. Each check prints
a line; the status is 1 if one of them fails. Where mypy, ruff or what a test needs isn't there, a line
says `skipped`. Only Python's standard library is needed.
"""

import importlib.util
import io
import shutil
import sys
import tempfile
import unittest
from collections.abc import Iterator
from pathlib import Path
from xml.etree import ElementTree

from lcrq_tools import program
from lcrq_tools.faults import Parser
from lcrq_tools.program import TOP, Broken, Skipped

TOOLS = TOP / "tools"
TESTS = TOOLS / "lcrq_tools" / "tests"
SHOWN = 4000  # letters of what a tool says, from the first on
SECONDS = 600.0  # that one of them may take
DONE = (0, 1)  # the statuses of pytest after tests that pass, and after some that fail


class Module:
    """What came of the tests of a module."""

    def __init__(self) -> None:
        self.count, self.wrong, self.skipped = 0, "", 0

    def add(self, name: str, wrong: str, is_skipped: bool) -> None:
        """Adds a test, with what is wrong, or nothing."""
        self.count, self.skipped = self.count + 1, self.skipped + is_skipped
        self.wrong = self.wrong or wrong and f"{name}: {wrong.strip()}"


Modules = dict[str, Module]  # by their names


def module_of(test: str) -> str:
    """The name of a test's module, without what all have in common."""
    return test.removeprefix("lcrq_tools.tests.").split(".")[0].removeprefix("test_")


# ---- What runs the tests --------------------------------------------------------------------------


def words_of(tool: str) -> list[str]:
    """The words that start a tool: a module of this Python, or a program; none where it is neither."""
    if importlib.util.find_spec(tool):
        return [sys.executable, "-m", tool]
    return [found] if (found := shutil.which(tool)) else []


def by_pytest(words: list[str]) -> Modules:
    """What comes of the tests, run by pytest."""
    with tempfile.TemporaryDirectory() as folder:
        report = Path(folder) / "report.xml"
        options = ["-q", "-p", "no:cacheprovider", "--continue-on-collection-errors", f"--rootdir={TOOLS}"]
        options += [f"--junitxml={report}", str(TESTS)]
        ended = program.run([*words, *options], cwd=TOOLS, timeout=SECONDS)
        if ended.status not in DONE:
            raise Broken(f"status {ended.status}\n{(ended.output.decode(errors='replace') + ended.errors)[:SHOWN]}")
        cases = [*ElementTree.parse(report).iter("testcase")]
    modules: Modules = {}
    for case in cases:
        faults = [part.text or part.get("message") or part.tag for part in case if part.tag in ("failure", "error")]
        where = case.get("classname") or case.get("name") or ""  # a module that can't be read has no class
        test = f"{where}.{case.get('name')}"
        modules.setdefault(module_of(where), Module()).add(test, "".join(faults), case.find("skipped") is not None)
    return modules


def tests_of(suite: unittest.TestSuite) -> Iterator[unittest.TestCase]:
    """The tests of a suite, and of those in it."""
    for part in suite:
        if isinstance(part, unittest.TestSuite):
            yield from tests_of(part)
        else:
            yield part


def by_unittest() -> Modules:
    """What comes of the tests, run by Python's own unittest."""
    modules: Modules = {}
    for test in tests_of(unittest.defaultTestLoader.discover(str(TESTS), top_level_dir=str(TOOLS))):
        name = test.id().removeprefix("unittest.loader._FailedTest.")  # a module that can't be read
        result = unittest.TextTestRunner(stream=io.StringIO()).run(unittest.TestSuite([test]))
        faults = [text for _, text in [*result.failures, *result.errors]]
        modules.setdefault(module_of(name), Module()).add(name, "".join(faults[:1]), bool(result.skipped))
    return modules


# ---- The checks -----------------------------------------------------------------------------------


def unit_checks() -> Iterator[tuple[str, str]]:
    """The tests by their modules and what ran them, each with what is wrong with the first that fails, or
    nothing."""
    pytest = words_of("pytest")
    runner = "pytest" if pytest else "unittest"
    try:
        modules = by_pytest(pytest) if pytest else by_unittest()
    except Broken as fault:
        yield "pytest", str(fault)
        return
    for name, module in sorted(modules.items()):
        yield f"{module.count - module.skipped} tests of {name}, by {runner}", module.wrong
        if module.skipped:
            yield f"{module.skipped} tests of {name}, by {runner}", Skipped("what they need")


def tool_check(tool: str, *words: str) -> tuple[str, str]:
    """What a tool says with these words, or that it isn't there."""
    begin, name = words_of(tool), " ".join([tool, *words])
    if not begin:
        return name, Skipped(tool)
    ended = program.run([*begin, *words], cwd=TOOLS, timeout=SECONDS)
    said = ended.output.decode(errors="replace") + ended.errors
    return name, f"status {ended.status}\n{said[:SHOWN].rstrip()}" if ended.status else ""


def all_checks() -> Iterator[tuple[str, str]]:
    """All checks, each a name and what is wrong, or nothing."""
    yield from unit_checks()
    yield tool_check("mypy")
    yield tool_check("ruff", "check", ".")


def main() -> int:
    """Prints each check; returns the exit status."""
    Parser(__doc__).parse_args()
    return program.print_checks(all_checks())
