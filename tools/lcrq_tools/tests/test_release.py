"""What the archive takes of the scripts and what pip installs, passages that read otherwise there, and templates."""

import re
import subprocess
import sys
import tempfile
import unittest
import zipfile
from pathlib import Path

from lcrq_tools.faults import Fault
from lcrq_tools.program import TOP
from lcrq_tools.release import release, release_pages, wheel
from lcrq_tools.release.release_pages import LESSONS, STYLE, TEMPLATE, Choice, read_for, template_of

ALL, ONE = Choice(tuple(LESSONS), "with"), Choice((1,), "with")


class Scripts(unittest.TestCase):
    """The scripts that pages name, with what they take."""

    def test_a_script_runs_with_what_is_taken_alone(self) -> None:
        files = release.scripts_of(["`page.py s.script -o s.html`, and conform.py"])
        files |= {name: (TOP / name).read_bytes() for name in ("docs/MANUAL.md", "docs/MODEL.md")}
        with tempfile.TemporaryDirectory() as folder:
            for name, data in files.items():
                path = Path(folder) / name
                path.parent.mkdir(parents=True, exist_ok=True)
                path.write_bytes(data)
            for script in ("page.py", "conform.py"):
                words = [sys.executable, str(Path(folder) / "tools" / script), "--help"]
                ended = subprocess.run(words, cwd=folder, capture_output=True, text=True, check=False)
                self.assertEqual((ended.returncode, ended.stderr), (0, ""))

    def test_a_module_brings_its_other_files(self) -> None:
        files = release.scripts_of(["page.py"])
        for name in ("page.py", "page.css", "page.html", "page.js", "__init__.py"):
            self.assertIn(f"tools/lcrq_tools/page/{name}", files)
        self.assertFalse([name for name in files if "/checks/" in name or "/tests/" in name or "/port/" in name])
        self.assertLessEqual({TEMPLATE, STYLE}, {*release.needed_by(Path(release_pages.__file__))})

    def test_a_script_that_is_not_there_is_a_fault(self) -> None:
        with self.assertRaisesRegex(Fault, "^a page names tools/nowhere.py, which is not there$"):
            release.scripts_of(["tools/nowhere.py"])
        self.assertEqual(release.scripts_of(["nowhere.py"]), {})

    def test_lessons_are_by_number(self) -> None:
        self.assertEqual(release.lessons_in("3,1,3"), (1, 3))
        for text in ("99", "x", "", "1,,2"):
            with self.subTest(text), self.assertRaisesRegex(Exception, "no lesson has the number"):
                release.lessons_in(text)


class Wheels(unittest.TestCase):
    """What pip installs."""

    def test_it_has_modules_and_pages_and_no_tests(self) -> None:
        files = wheel.modules()
        for name in ("entry.py", "page/page.css", "checks/rehearsed/stdout", "docs/MODEL.md", "docs/trace.schema.json"):
            self.assertIn(f"lcrq_tools/{name}", files)
        self.assertFalse([name for name in files if "/tests/" in name or "__pycache__" in name])

    def test_it_says_what_the_project_says(self) -> None:
        lines = wheel.metadata().splitlines()
        self.assertLessEqual({"Name: lcrq-tools", "Requires-Python: >=3.11", "Provides-Extra: schema"}, {*lines})
        self.assertIn('Requires-Dist: jsonschema; extra == "schema"', lines)

    def test_each_file_is_recorded_and_the_command_is_there(self) -> None:
        with tempfile.TemporaryDirectory() as folder:
            name = wheel.build_wheel(folder)
            with zipfile.ZipFile(Path(folder) / name) as made:
                names, about = made.namelist(), name.removesuffix("-py3-none-any.whl") + ".dist-info"
                rows = made.read(f"{about}/RECORD").decode().splitlines()
                commands = made.read(f"{about}/entry_points.txt").decode()
        self.assertRegex(name, r"^lcrq_tools-\d+\.\d+\.\d+-py3-none-any\.whl$")
        self.assertEqual([row.split(",")[0] for row in rows], names)
        self.assertEqual(commands, "[console_scripts]\nlcrq = lcrq_tools.entry:lcrq\n")

    def test_an_editable_one_leads_to_the_modules(self) -> None:
        with tempfile.TemporaryDirectory() as folder:
            with zipfile.ZipFile(Path(folder) / wheel.build_editable(folder)) as made:
                self.assertEqual(made.read("lcrq_tools.pth").decode(), f"{TOP / 'tools'}\n")


class Passages(unittest.TestCase):
    """Marks of passages with two readings."""

    def read(self, text: str, choice: Choice = ALL) -> str:
        """What the archive has of a page with this text."""
        with tempfile.TemporaryDirectory() as folder:
            page = Path(folder) / "a.md"
            page.write_text(text, encoding="utf-8")
            return read_for(choice, page)

    def test_the_archive_has_the_second_reading(self) -> None:
        self.assertEqual(self.read("in <!-- repository -->`a/b/`<!-- archive: `b/` --> here"), "in `b/` here")

    def test_chosen_lessons_have_theirs(self) -> None:
        text = "Here: <!-- all lessons -->Sixteen lessons<!-- chosen lessons: Lessons -->.\n"
        self.assertEqual((self.read(text), self.read(text, ONE)), ("Here: Sixteen lessons.\n", "Here: Lessons.\n"))

    def test_a_mark_without_its_other_is_a_fault(self) -> None:
        with self.assertRaisesRegex(Fault, "the mark <!-- repository --> has no other"):
            self.read("in <!-- repository -->`a/b/` here")

    def test_a_missing_page_is_a_fault(self) -> None:
        with self.assertRaisesRegex(Fault, "^nowhere.md can't be read: No such file or directory$"):
            read_for(ALL, Path("nowhere.md"))


class Templates(unittest.TestCase):
    """What pandoc makes a page of."""

    def test_pandoc_gets_the_style_and_fills_in_the_rest(self) -> None:
        text = template_of("guide", ALL)
        self.assertEqual(re.findall(r"\$\w*\$?", text), ["$pagetitle$", "$toc$", "$body$"])
        self.assertIn(f"<style>\n{STYLE.read_text(encoding='utf-8')}</style>\n", text)

    def test_a_page_leads_to_the_others(self) -> None:
        apart = Choice((1,), "apart")
        rows = {"guide": ["manual", "recipes", "model", "lessons"]}
        rows |= {"answers": ["manual", "recipes", "model", "guide", "lessons"]}
        for page, others in rows.items():
            nav = template_of(page, apart).partition("<nav>")[2].partition("</nav>")[0]
            self.assertEqual(re.findall(r'<a href="(\w+)\.html">\1</a>', nav), others)
            self.assertIn(page, nav.split(" · "))
