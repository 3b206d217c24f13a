"""Where pages, examples and crates are looked for, and the program."""

import contextlib
import tempfile
import unittest
from pathlib import Path

from lcrq_tools import places
from lcrq_tools.faults import Fault
from lcrq_tools.tests.stubs import NO_PROGRAM


class Tops(unittest.TestCase):
    """The folder that has `docs`."""

    def setUp(self) -> None:
        """Makes a folder for a repository and for what pip has installed, and goes there."""
        self.folder = Path(self.enterContext(tempfile.TemporaryDirectory())).resolve()
        self.top, self.site = self.folder / "top", self.folder / "site" / "lcrq_tools"
        (self.top / "tools" / "lcrq_tools").mkdir(parents=True)
        (self.top / "examples").mkdir()
        self.site.mkdir(parents=True)
        self.enterContext(contextlib.chdir(self.folder))

    def test_a_package_in_the_repository_takes_it(self) -> None:
        (self.top / "tools" / "pyproject.toml").touch()
        self.assertEqual(places.top_of(self.top / "tools" / "lcrq_tools"), self.top)

    def test_an_installed_package_takes_the_repository_around(self) -> None:
        for folder in (self.top, self.top / "examples"):
            with contextlib.chdir(folder):
                self.assertEqual(places.top_of(self.site), self.top)

    def test_an_installed_package_has_the_pages_itself(self) -> None:
        self.assertEqual(places.top_of(self.site), self.site)


class Programs(unittest.TestCase):
    """The program that a path names."""

    def test_it_has_to_be_there(self) -> None:
        self.assertEqual(places.required(NO_PROGRAM), NO_PROGRAM)
        with self.assertRaisesRegex(Fault, "^no program at nowhere: .* this builds it: make$"):
            places.required("nowhere", "make")
