"""Histories of viewers: how their text is read, and who asked which step."""

import dataclasses
import unittest
from unittest import mock

from lcrq_tools import history, program
from lcrq_tools.checks.answers import file_of
from lcrq_tools.draw import figure, moment, picture
from lcrq_tools.faults import Fault
from lcrq_tools.history import History, history_of
from lcrq_tools.page import page
from lcrq_tools.tests.stubs import NO_PROGRAM, told, with_program

CALLS = "1 enq 1 7\n2 deq 2\n1 go 1\n2 undo\n"
REPORT = "viewer 1\nok 1\nok 3\nviewer 2\nok 2\nat 2 1\nhistory 4\n"
TRACE = '{"events":[],"marks":[],"ring":4,"start":{"fresh":4},"undone":[],"version":2}\n'
READ = History((1, 2, 1, 2), ("enq 1 7", "deq 2", "go 1", "undo"))
TOOLS = ((picture.main, "picture.py"), (moment.main, "moment.py"), (page.main, "page.py"))


class Texts(unittest.TestCase):
    """The text of a history."""

    def test_the_whole_text_and_the_calls_alone_are_one_history(self) -> None:
        for text in (REPORT + CALLS, REPORT + CALLS + TRACE, CALLS, CALLS + TRACE, CALLS.removesuffix("\n")):
            with self.subTest(text):
                self.assertEqual(history_of("a", text), READ)

    def test_a_history_may_be_empty(self) -> None:
        for text in ("", TRACE, "viewer 1\nviewer 2\nhistory 0\n", "viewer 1\nrefused 22 BadLine\nhistory 0\n" + TRACE):
            with self.subTest(text):
                self.assertEqual(history_of("a", text), History((), ()))

    def test_its_lines_are_a_script(self) -> None:
        self.assertEqual(READ.script(), b"enq 1 7\ndeq 2\ngo 1\nundo\n")
        self.assertEqual(READ.first(2), History((1, 2), ("enq 1 7", "deq 2")))
        self.assertEqual(READ.first(None), READ)
        self.assertEqual(history_of("a", "3 hello \xff\r\n").script(), b"hello \xff\r\n")

    def test_it_stays_as_it_is(self) -> None:
        with self.assertRaises(dataclasses.FrozenInstanceError):
            setattr(READ, "viewers", ())

    def test_sixty_four_viewers_may_ask(self) -> None:
        self.assertEqual(history_of("a", "64 len\n").viewers, (64,))
        self.assertEqual(history_of("a", "".join(f"{it} len\n" for it in range(1, 65))).viewers, tuple(range(1, 65)))

    def test_what_is_kept_of_a_live_run_has_notes_and_calls_of_nobody(self) -> None:
        self.assertEqual(history_of("a", "# lcrqdb\n0 len\n# seed 7\n2 undo\n"), History((0, 2), ("len", "undo")))

    def test_a_file_or_standard_input_is_read(self) -> None:
        with file_of(CALLS) as name:
            self.assertEqual(history.read(name), READ)
        with mock.patch.object(program, "standard_input", lambda: CALLS.encode()):
            self.assertEqual(history.read("-"), READ)


class Faults(unittest.TestCase):
    """What is no history."""

    def check_fault(self, text: str, said: str) -> None:
        """That a text has this fault."""
        with self.assertRaises(Fault) as raised:
            history_of("a.history", text)
        self.assertEqual(str(raised.exception), f"a.history: {said}")

    def test_a_line_without_a_viewer(self) -> None:
        what = "is no call, which is a viewer's number and its line, as `2 go 1`"
        self.check_fault("1 enq 1 7\ngo 1\n", f"line 2: `go 1` {what}")
        self.check_fault("1 len\n\n1 len\n", f"line 2: `` {what}")
        self.check_fault("1\n", f"line 1: `1` {what}")
        self.check_fault("1 \n", f"line 1: `1 ` {what}")
        self.check_fault("history 1\nlen\n", f"line 2: `len` {what}")
        self.check_fault(CALLS + TRACE + TRACE, f"line 5: `{TRACE[:history.SHOWN]}` {what}")
        self.check_fault("\x1b[2J\xff\n", f"line 1: `\\x1b[2J\\xff` {what}")

    def test_a_number_that_is_no_viewer(self) -> None:
        for number in ("00", "65", "01", "9" * 5000):
            shown = f"{number} len"[:history.SHOWN]
            self.check_fault(f"{number} len\n", f"line 1: `{shown}` is of no viewer: they are numbered from 1 to 64")
        wrong = "line 4: `3 len` is of no viewer: they are numbered from 1 to 2"
        self.check_fault("viewer 1\nviewer 2\nhistory 1\n3 len\n", wrong)

    def test_a_count_that_is_not_that_of_the_calls(self) -> None:
        self.check_fault(REPORT + "1 len\n", "line 7: `history 4`, and the number of calls behind it is 1")
        self.check_fault(REPORT + CALLS + "1 len\n", "line 7: `history 4`, and the number of calls behind it is 5")
        hint = ": `lcrqdb view FILE.. --history` writes them"
        self.check_fault(REPORT, f"line 7: `history 4`, and the number of calls behind it is 0{hint}")

    def test_a_text_that_ends_before_the_calls(self) -> None:
        self.check_fault("viewer 1\nok 1\n", "no line `history H` leads to the calls")


class Options(unittest.TestCase):
    """The option `--history` of the tools."""

    def check_fault(self, words: list[str], said: str) -> None:
        """That each tool has this fault with these words."""
        for main, tool in TOOLS:
            with self.subTest(tool):
                self.assertEqual(told(main, tool, *words, "--program", NO_PROGRAM), (1, "", f"{tool}: {said}\n"))

    def test_a_script_or_a_history_is_given(self) -> None:
        more = "; --help shows what may be given"
        self.check_fault([], f"one of the arguments SCRIPT --history is required{more}")
        self.check_fault(["a", "--history", "b"], f"argument --history: not allowed with argument SCRIPT{more}")
        self.check_fault(["--history", "b", "a"], f"argument SCRIPT: not allowed with argument --history{more}")

    def test_what_is_no_history_is_a_fault(self) -> None:
        self.check_fault(["--history", "nowhere"], "nowhere: No such file or directory")
        with file_of("00 len\n") as name:
            said = f"{name}: line 1: `00 len` is of no viewer: they are numbered from 1 to 64"
            self.check_fault(["--history", name], said)
        with mock.patch.object(program, "standard_input", lambda: b"len\n"):
            what = "is no call, which is a viewer's number and its line, as `2 go 1`"
            self.check_fault(["--history", "-"], f"standard input: line 1: `len` {what}")

    def test_its_name_is_that_of_the_run(self) -> None:
        with with_program():
            given = [picture.parser().parse_args(it.split()) for it in ("--history b/a.history", "--history -", "-")]
        self.assertEqual([figure.script_name(it) for it in given], ["a.history", "a history", "a script"])

    def test_a_page_names_the_command_for_its_lines(self) -> None:
        with with_program():
            given = page.parser().parse_args(["--history", "b/a.history", "--ring", "2"])
        wanted = ["grep '^[0-9]' a.history | head -n ", " | cut -d ' ' -f 2- | lcrqdb run --ring 2 -"]
        self.assertEqual(page.command_of(given), wanted)

    def test_standard_input_is_read_once(self) -> None:
        program.standard_input.cache_clear()
        with mock.patch("sys.stdin") as stdin:
            stdin.buffer.read.side_effect = [CALLS.encode(), b""]
            self.assertEqual((history.read("-"), history.read("-")), (READ, READ))
        program.standard_input.cache_clear()
