"""What bash completes of a command line of lcrqdb."""

import re
import shutil
import subprocess
import tempfile
import unittest
from pathlib import Path

from lcrq_tools import manual
from lcrq_tools.release.release import COMPLETION

BASH = shutil.which("bash")
# sources the file, completes the last word, and prints what it may become
ASKED = """\
. "$1" && shift && COMP_WORDS=("$@") && COMP_CWORD=$(($# - 1))
$(complete -p lcrqdb | sed 's/.*-F \\([^ ]*\\) .*/\\1/')
[ ${#COMPREPLY[@]} -eq 0 ] || printf '%s\\n' "${COMPREPLY[@]}"
"""
COUNTS = [str(count) for count in range(1, 17)]


@unittest.skipUnless(BASH, "bash")
class Completion(unittest.TestCase):
    """Completions in a folder with two scripts, a trace, a text and a folder."""

    def setUp(self) -> None:
        self.folder = Path(self.enterContext(tempfile.TemporaryDirectory()))
        for name in ("a.script", "b c.script", "a.trace", "notes.txt"):
            (self.folder / name).touch()
        (self.folder / "more").mkdir()

    def completed(self, *words: str) -> list[str]:
        """What the last word after `lcrqdb` may become."""
        ended = subprocess.run(
            [BASH or "", "--norc", "-c", ASKED, "bash", str(COMPLETION), "lcrqdb", *words],
            cwd=self.folder, capture_output=True, text=True, check=False,
        )
        self.assertEqual((ended.returncode, ended.stderr), (0, ""))
        return ended.stdout.splitlines()

    def test_subcommands(self) -> None:
        self.assertEqual(self.completed(""), ["run", "view", "load", "help", "--help", "--version"])
        self.assertEqual(self.completed("l"), ["load"])
        self.assertEqual(self.completed("help", ""), ["run", "view", "load"])
        self.assertEqual(self.completed("nowhere", ""), [])

    def test_the_options_are_those_of_the_manual(self) -> None:
        forms = re.findall(r"^lcrqdb (\w+) [A-Z].*", manual.PAGE, re.MULTILINE)
        self.assertEqual({*forms}, {"run", "view", "load"})
        for command in {*forms}:
            lines = re.findall(rf"^lcrqdb {command} .*", manual.PAGE, re.MULTILINE)
            wanted = {option for line in lines for option in re.findall(r"--\w+", line)} | {"--help"}
            with self.subTest(command):
                self.assertEqual({*self.completed(command, "-")}, wanted)

    def test_an_option_is_there_once(self) -> None:
        self.assertEqual(self.completed("run", "--ring", "2", "a.script", "--"), ["--actors", "--trace", "--help"])
        self.assertEqual(self.completed("load", "--trace", "-"), ["--help"])

    def test_a_start_excludes_a_new_world(self) -> None:
        options = self.completed("view", "--start", "a.trace", "--")
        self.assertEqual(options, ["--trace", "--live", "--history", "--help"])
        self.assertNotIn("--start", self.completed("view", "--actors", "2", "--"))

    def test_values(self) -> None:
        self.assertEqual(self.completed("run", "a.script", "--ring", ""), ["2", "4", "8"])
        self.assertEqual(self.completed("run", "--ring", "="), ["2", "4", "8"])
        self.assertEqual(self.completed("run", "--ring", "=", "4"), ["4"])
        self.assertEqual(self.completed("view", "--actors", ""), COUNTS)
        self.assertEqual(self.completed("view", "--actors", "=", "1"), [it for it in COUNTS if it[0] == "1"])

    def test_files(self) -> None:
        self.assertEqual(sorted(self.completed("run", "")), ["a.script", "b c.script", "more"])
        self.assertEqual(self.completed("view", "a.script", "b"), ["b c.script"])
        self.assertEqual(sorted(self.completed("load", "")), ["a.trace", "more"])
        self.assertEqual(sorted(self.completed("view", "--start", "a")), ["a.trace"])
        self.assertEqual(self.completed("run", "n"), ["notes.txt"])
        self.assertEqual(self.completed("run", "--", "-"), [])
