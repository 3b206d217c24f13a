"""How the program is run, asked and watched, what a check prints, and how rows are run with each build."""

import argparse
import contextlib
import io
import subprocess
import tempfile
import unittest
from pathlib import Path
from unittest import mock

from lcrq_tools import options, places, program
from lcrq_tools.faults import Fault
from lcrq_tools.program import Broken, Driven, Ended, Skipped
from lcrq_tools.tests.stubs import NO_PROGRAM, told


def fault_of(built: str) -> str:
    """What is wrong with a build: it is that of Rattle's own compiler."""
    return "it differs" if built.endswith(program.BY_RATTLE) else ""


def unread(_built: str) -> str:
    """Fails to read what a program wrote."""
    return b"\xff".decode()


class Lines(unittest.TestCase):
    """The lines of checks, and the last one."""

    def printed(self, *checks: tuple[str, str]) -> tuple[int, list[str]]:
        """The status and the lines of these checks."""
        status, output, _ = told(lambda: program.print_checks(checks), "check.py")
        return status, output.splitlines()

    def test_right_and_wrong_ones_are_counted(self) -> None:
        self.assertEqual(self.printed(("a", ""), ("b", "")), (0, ["ok    a", "ok    b", "2 right, 0 wrong"]))
        self.assertEqual(self.printed(("a", ""), ("b", "why")), (1, ["ok    a", "WRONG b: why", "1 right, 1 wrong"]))

    def test_what_did_not_run_is_no_right_one(self) -> None:
        rows = [("a", ""), ("b", Skipped("mypy")), ("c", Skipped("cc, make")), ("d", Skipped("make")), ("e", Skipped())]
        lines = ["ok    a", "skipped: mypy: b", "skipped: cc, make: c", "skipped: make: d", "ok    e"]
        self.assertEqual(self.printed(*rows), (0, [*lines, "2 right, 0 wrong, 3 skipped: mypy, cc, make"]))

    def test_a_run_without_any_check_that_ran_has_failed(self) -> None:
        self.assertEqual(self.printed(("a", Skipped("selenium")))[0], 1)

    def test_programs_that_are_missing_are_named(self) -> None:
        self.assertEqual(program.missing_of([NO_PROGRAM, "nowhere-1", "nowhere-2"]), "nowhere-1, nowhere-2")
        self.assertEqual(program.missing_of([NO_PROGRAM]), "")


class Texts(unittest.TestCase):
    """Lines of a text."""

    def test_only_a_line_feed_ends_a_line(self) -> None:
        rows: dict[str, list[str]] = {"": [], "\n": [""], "a\nb": ["a", "b"], "a\n\n": ["a", ""]}
        rows |= {"a\r\x0c\u2028\n": ["a\r\x0c\u2028"]}
        for text, lines in rows.items():
            self.assertEqual(program.lines_of(text), lines)

    def test_lines_are_a_script(self) -> None:
        self.assertEqual((program.script_of(["a", "b"]), program.script_of([])), (b"a\nb\n", b""))
        self.assertEqual(program.replies_to(["cat"], b"len\nlen\n"), ["len", "len"])

    def test_a_script_that_is_not_taken_is_a_fault(self) -> None:
        for command, said in (("echo no >&2; exit 1", "no"), ("exit 3", "the program ended with status 3")):
            with self.assertRaisesRegex(Fault, f"^{said}$"):
                program.replies_to(["sh", "-c", command], b"")

    def test_a_world_in_words(self) -> None:
        self.assertEqual(program.world_of(1, 2), "1 actor, rings of 2 cells (R = 2)")
        self.assertEqual(program.world_of(4, 8), "4 actors, rings of 8 cells (R = 8)")

    def test_a_table_of_markdown(self) -> None:
        output = io.StringIO()
        with contextlib.redirect_stdout(output):
            program.print_head("Run", "Seconds")
            program.print_row("a", 1.5)
        self.assertEqual(output.getvalue(), "| Run | Seconds |\n|---|---|\n| a | 1.5 |\n")
        self.assertEqual(program.spread_of([4.0, 1.0, 2.0]), (2.0, 1.0, 4.0))


class Refusals(unittest.TestCase):
    """What is said of a script's refused lines."""

    def test_a_refused_step_or_no_command_is_a_fault_and_a_question_is_none(self) -> None:
        rows = [
            (b"enq 1 7\ngo 1\n", ["ok 1", "ok 2"], "", False),
            (b"go 1\nlen\n", ["refused 3 Idle", "at 0 0"], "1 of 2 lines are refused, the first is line 1", True),
            (b"len\nundo 9\n", ["at 0 0", "refused 12"], "1 of 2 lines are refused, the first is line 2", False),
            (b"undo 9\ngo 1", ["refused 12", "refused 3"], "2 of 2 lines are refused, the first is line 1", True),
            (b"hello\n", ["refused 22 BadLine"], "1 of 1 lines are refused, the first is line 1", True),
            (b"len\r\n", ["refused 22 BadLine"], "1 of 1 lines are refused, the first is line 1", True),
            (b"undo 9\n\n", ["refused 12", "refused 23 E"], "2 of 2 lines are refused, the first is line 1", True),
        ]
        for script, replies, said, is_fault in rows:
            with self.subTest(script):
                text, has_fault = program.refusals_of(script, replies)
                self.assertEqual((text.partition(": ")[0], has_fault), (said, is_fault))
                self.assertEqual(text.endswith("; the script has carriage returns"), b"\r" in script)

    def test_the_first_reply_is_quoted(self) -> None:
        said, _ = program.refusals_of(b"undo 9\n", ["refused 12 NoSuchStep 0"])
        self.assertTrue(said.endswith(": refused 12 NoSuchStep 0"))


class Runs(unittest.TestCase):
    """Runs of a program, with a shell in its place."""

    def test_a_run_gives_status_output_and_errors(self) -> None:
        self.assertEqual(program.run(["sh", "-c", "cat; echo no >&2; exit 3"], b"a"), Ended(3, b"a", "no\n"))
        self.assertEqual(program.run(["sh", "-c", r"printf '\377' >&2"]).errors, "\ufffd")
        with self.assertRaises(subprocess.TimeoutExpired):
            program.run(["sleep", "60"], timeout=0.01)

    def test_a_run_is_watched(self) -> None:
        it = program.watch(["sh", "-c", "echo a; sleep 0.02; echo no >&2; exit 3"])
        self.assertEqual((it.status, it.output, it.errors, it.is_in_time), (3, b"a\n", "no\n", True))
        self.assertTrue(it.peak_kib > 0 and 0.02 < it.seconds < program.SECONDS)
        elsewhere = program.watch(["sh", "-c", "echo a; sleep 0.02"], keeps=False)
        self.assertEqual((elsewhere.output, elsewhere.is_in_time, elsewhere.peak_kib > 0), (b"", True, True))

    def test_a_run_that_takes_too_long_is_killed(self) -> None:
        for keeps in (True, False):
            it = program.watch(["sleep", "60"], seconds=0.02, keeps=keeps)
            self.assertEqual((it.status, it.is_in_time), (-9, False))

    def test_the_share_of_time_that_the_host_took(self) -> None:
        for before, now, share in (((150, 50), (300, 100), 0.25), ((150, 50), (300, 50), 0.0), ((0, 0), (0, 0), 0.0)):
            with mock.patch.object(program, "processor_ticks", mock.Mock(return_value=now)):
                self.assertEqual(program.stolen_since(before), share)


class Asked(unittest.TestCase):
    """A program that is asked a line at a time."""

    def test_each_line_has_its_reply(self) -> None:
        with Driven(["sh", "-c", 'while read -r line; do printf "<"; echo "$line>"; done; exit 3']) as it:
            self.assertEqual([it.ask(line)[0] for line in ("len", "\xe4")], ["<len>", "<\ufffd>"])
            self.assertTrue(all(time >= 0 for time in it.ask("a")[1:]))
            self.assertEqual(it.end(), 3)

    def test_many_lines_have_their_replies_in_order(self) -> None:
        lines = [str(number) for number in range(2 * program.LINES + 1)]
        with Driven(["sed", "-u", "s/^/</"]) as it:
            self.assertEqual((it.ask_all(lines), it.ask_all([])), ([f"<{line}" for line in lines], []))

    def test_one_that_ends_or_says_nothing_is_a_fault(self) -> None:
        with Driven(["sh", "-c", "read -r line"]) as it, self.assertRaisesRegex(Broken, "^the program ended at `len`"):
            it.ask("len")
        with Driven(["sleep", "60"], 0.01) as it:
            with self.assertRaisesRegex(Broken, "^`len` took more than 0.01 s$"):
                it.ask("len")
            with self.assertRaisesRegex(Broken, "^the program did not end in 0.01 s$"):
                it.end()


class Places(unittest.TestCase):
    """Where the program is."""

    def test_a_missing_program_is_a_fault_that_says_how_to_build_it(self) -> None:
        self.assertEqual(places.required(NO_PROGRAM, "make"), NO_PROGRAM)
        with self.assertRaisesRegex(Fault, "^no program at nowhere/a: .* this builds it: make$"):
            places.required("nowhere/a", "make")

    def test_the_option_has_to_name_a_program(self) -> None:
        parser = argparse.ArgumentParser()
        options.add_program(parser)
        self.assertEqual(parser.parse_args(["--program", NO_PROGRAM]).program, NO_PROGRAM)
        with self.assertRaises(Fault):
            parser.parse_args(["--program", "nowhere/a"])

    def test_a_program_with_checks_of_memory_is_not_proved(self) -> None:
        rows = {b"\x7fELF..AddressSanitizer": True, b"\x7fELF..": False, b"#!/bin/sh AddressSanitizer": False}
        for data, wanted in rows.items():
            self.assertEqual(program.is_unproved(data), wanted)

    def test_standard_input_is_a_dash(self) -> None:
        with mock.patch.object(program, "standard_input", lambda: b"len\n"):
            self.assertEqual(program.bytes_of("-"), b"len\n")
        self.assertEqual(program.bytes_of(__file__), Path(__file__).read_bytes())

    def test_a_program_to_throw_away_lies_beside_the_crates_it_uses(self) -> None:
        with tempfile.TemporaryDirectory() as name:
            made = program.lay_out(Path(name), "fn main() {}", ["rd_cell"], ["rd_cell"])
            rows = (Path(name) / "crates.txt").read_text().splitlines()
            self.assertEqual((made / "src" / "main.rt").read_text(), "fn main() {}")
            self.assertEqual(([row.split(":")[0] for row in rows], rows[-1]), (["rd_cell", "tried"], "tried: rd_cell"))
            self.assertTrue((Path(name) / "crates" / "rd_cell" / "src").is_dir())
            self.assertFalse((Path(name) / "crates" / "rd_cell" / "must-fail").exists())


class Builds(unittest.TestCase):
    """The builds of a program, and rows that each of them runs."""

    def test_both_builds_run_each_row(self) -> None:
        with tempfile.TemporaryDirectory() as folder:
            built = Path(folder) / "lcrqdb"
            rows, words = [("a", fault_of), ("b", fault_of)], ["check.py", "--program", str(built)]

            def run() -> int:
                return program.run_checks(None, lambda given: program.by_each_build(given.program, rows))

            built.symlink_to(NO_PROGRAM)
            status, output, _ = told(run, *words)
            wanted = ["ok    a, by lcrqdb", "ok    b, by lcrqdb", "2 right, 0 wrong"]
            self.assertEqual((status, output.splitlines()), (0, wanted))
            other = Path(f"{built}.by-rattle")
            other.symlink_to(NO_PROGRAM)
            status, output, _ = told(run, *words)
            self.assertEqual((status, output.splitlines()[2]), (1, "WRONG a, by lcrqdb.by-rattle: it differs"))
            self.assertEqual(output.splitlines()[4:], ["2 right, 2 wrong"])

    def test_what_can_not_be_read_or_run_is_wrong(self) -> None:
        def breaks(what: str) -> str:
            raise Broken(what)

        self.assertEqual(program.tried(breaks, "it ended"), "it ended")
        self.assertIn("can't decode byte 0xff", program.tried(unread, ""))
        self.assertTrue(program.tried(lambda: Path("/nowhere/a").read_text()).startswith("/nowhere/a: No such file"))
        self.assertEqual(program.tried(fault_of, "lcrqdb"), "")
