"""In which order crates are proved and with which words, with a list in the place of the checker."""

import contextlib
import io
import tempfile
import threading
import unittest
from pathlib import Path
from unittest import mock

from lcrq_tools.faults import Fault
from lcrq_tools.places import TOP
from lcrq_tools.release import proving

ROWS = """low:
side: kit
high: low kit
lcrqdb: high side
beside: low
"""
USES: proving.Uses = {"low": [], "side": ["kit"], "high": ["low", "kit"], "lcrqdb": ["high", "side"], "beside": ["low"]}
RAN = proving.ran
CHAINS = proving.heights({"low": 300, "side": 50, "high": 100, "lcrqdb": 500, "beside": 10}, USES)


class Orders(unittest.TestCase):
    """What crates.txt says, and what follows for the order."""

    def test_rows_give_what_each_crate_uses(self) -> None:
        self.assertEqual(proving.uses_in(ROWS), USES)

    def test_the_program_needs_no_crate_of_tests(self) -> None:
        uses = proving.needed(proving.uses_in((TOP / "crates.txt").read_text(encoding="utf-8")), proving.PROGRAM)
        self.assertIn("rd_step", uses)
        self.assertFalse([name for name in uses if "test" in name or name == "clap"])

    def test_a_chain_is_as_long_as_its_longest_way_up(self) -> None:
        self.assertEqual(CHAINS, {"low": 900, "side": 550, "high": 600, "lcrqdb": 500, "beside": 10})

    def test_the_shorter_a_chain_the_nicer_its_check(self) -> None:
        self.assertEqual([proving.niceness_of(chain, 1000) for chain in (1000, 975, 900, 750, 10)], [0, 1, 4, 10, 10])

    def test_each_crate_is_proved_once_and_after_those_that_it_uses(self) -> None:
        done: list[str] = []
        leaves: set[tuple[str, bool]] = set()
        lock = threading.Lock()

        def proves(name: str, niceness: int) -> int:
            with lock:
                assert set(done).issuperset(set(USES[name]) - {"kit"})
                done.append(name)
                leaves.add((name, niceness > 0))
            return 0

        for at_once in (1, 3):
            with contextlib.redirect_stderr(io.StringIO()) as said:
                proving.prove_in_turn(CHAINS, USES, proves, at_once)
            self.assertEqual(said.getvalue().count(": proved in 0 s, "), len(USES))
            self.assertEqual(sorted(done), sorted(USES))
            self.assertLess(done.index("low"), done.index("beside"))
            done.clear()
        found = {("low", False), ("high", False), ("side", True), ("beside", True), ("lcrqdb", False)}
        self.assertLessEqual(found, leaves)

    def test_nothing_is_begun_after_a_crate_that_is_not_proved(self) -> None:
        begun: list[str] = []

        def proves(name: str, niceness: int) -> int:
            begun.append(name)
            self.assertEqual(niceness, 0)
            return int(name == "low")

        with self.assertRaisesRegex(Fault, "^low is not proved$"):
            proving.prove_in_turn(CHAINS, USES, proves, 1)
        self.assertEqual(begun, ["low"])


class Calls(unittest.TestCase):
    """What is asked of the checker, and when."""

    def setUp(self) -> None:
        place = tempfile.TemporaryDirectory()
        self.addCleanup(place.cleanup)
        self.crates, self.made = Path(place.name, "crates"), Path(place.name, "made")
        for name in USES:
            Path(self.crates, name, "src").mkdir(parents=True)
            Path(self.crates, name, "src", "lib.rt").write_text(f"//! {name}\n")
        self.made.mkdir()
        Path(place.name, "KIT-ID").write_text("a kit\n")
        self.home = Path(place.name)
        self.calls: list[tuple[str, str]] = []
        self.status = 0
        kit = Path(place.name, "rattle")
        patch = mock.patch.multiple(
            proving, CRATES=self.crates, LIBRARIES=self.made, MADE=Path("/made"), kit=lambda: kit, ran=self.ran
        )
        patch.start()
        self.addCleanup(patch.stop)

    def ran(self, tool: str, words: list[str], name: str, niceness: int = 0) -> int:
        """Notes a call of a tool for a crate."""
        self.assertIn(niceness, (0, 7))
        self.assertTrue(words)
        self.calls.append((tool, name))
        return self.status

    def prove(self, *names: str) -> list[tuple[str, str]]:
        """The calls for proofs of these crates, in this order."""
        self.calls.clear()
        for name in names:
            self.assertEqual(proving.prove(USES, name, 7), self.status)
        return list(self.calls)

    def test_a_library_is_built_over_those_that_it_uses(self) -> None:
        words = proving.words_of(USES, "high", 2)
        named = [word for before, word in zip(words, words[1:]) if before == "--extern"]
        rlibs = self.home / "rlibs"
        self.assertEqual(named, [f"std={rlibs}/std.rlib", f"low={self.made}/low.rlib", f"kit={rlibs}/kit.rlib"])
        self.assertIn("src/lib.rt", words)
        self.assertIn("--statements", words)

    def test_what_is_not_proved_is_said_if_the_checker_refuses(self) -> None:
        tool = self.home / "bin" / "rattle"
        tool.parent.mkdir()
        for status in (0, 1):
            tool.write_text(f"#!/bin/sh\necho fn f: not proved\necho fn g: proved\nexit {status}\n")
            tool.chmod(0o755)
            with contextlib.redirect_stderr(io.StringIO()) as errors:
                self.assertEqual(RAN("rattle", [], "low"), status)
            self.assertEqual("fn f: not proved" in errors.getvalue(), status == 1)
            self.assertNotIn("fn g", errors.getvalue())

    def test_the_program_is_built_and_linked(self) -> None:
        self.assertIn("src/main.rt", proving.words_of(USES, "lcrqdb", 2))
        self.assertNotIn("--statements", proving.words_of(USES, "lcrqdb", 2))
        self.assertEqual(
            self.prove("low", "side", "high", "lcrqdb")[-2:], [("rattle", "lcrqdb"), ("rattle-link", "lcrqdb")]
        )

    def test_a_library_is_proved_again_only_after_a_change_of_it_or_below(self) -> None:
        low, high = ("rattle", "low"), ("rattle", "high")
        self.assertEqual(self.prove("low", "high", "low", "high"), [low, high])
        Path(self.crates, "high", "src", "lib.rt").write_text("//! changed\n")
        self.assertEqual(self.prove("low", "high"), [high])
        Path(self.crates, "low", "src", "more.rt").touch()
        self.assertEqual(self.prove("low", "high"), [low, high])

    def test_a_library_that_was_not_proved_is_proved_again(self) -> None:
        self.status = 1
        self.assertEqual(self.prove("low"), [("rattle", "low")])
        self.status = 0
        self.assertEqual(self.prove("low", "low"), [("rattle", "low")])

    def test_a_library_whose_text_changes_meanwhile_is_not_proved(self) -> None:
        def changes(tool: str, words: list[str], name: str, niceness: int = 0) -> int:
            Path(self.crates, name, "src", "lib.rt").write_text("//! changed\n")
            return 0

        with mock.patch.object(proving, "ran", changes), contextlib.redirect_stderr(io.StringIO()) as said:
            self.assertEqual(proving.prove(USES, "low", 0), 1)
        self.assertIn("low: a file was changed meanwhile", said.getvalue())
