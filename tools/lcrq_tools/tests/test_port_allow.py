"""Differences of a port that are meant: their files, and how the model follows the port there."""

import tempfile
import unittest
from collections.abc import Sequence
from pathlib import Path
from unittest import mock

from lcrq_tools.port import port_ahead, port_replay
from lcrq_tools.port.port_allow import Allowed, Meant, meant_of, read_allowed
from lcrq_tools.port.port_compare import Comparison, Listed
from lcrq_tools.port.port_log import Unreadable
from lcrq_tools.port.port_side import Side
from lcrq_tools.program import script_of
from lcrq_tools.tests.replay_stub import ENQUEUE, LABELS, LOG, Made, Told, actor, records_of, source, with_record

CELL, RING = "E5 reads the whole cell", "E12 reuses its own unlinked ring"
# Actor 1 makes a segment, can't link it, and makes another one that it links.
MAKINGS: list[Made] = [
    ("enq 1 7", "-; none; -; -", actor("E12")),
    ("go 1", "whole 1.0; wrote; made 1.0; -", actor("E13", new="1.0")),
    ("go 1", "next 0.0; read; lost; -", actor("E12", new="1.0")),
    ("go 1", "whole 1.1; wrote; made 1.1; -", actor("E13", new="1.1")),
    ("go 1", "next 0.0; wrote; won; -", actor("E14", new="1.1")),
]
KEPT = ["1 1 enq 7", "2 1 E12 made p", "3 1 E13 lost", "4 1 E13 won"]


def compared(*texts: str, lines: tuple[str, ...] = (), told: Told | None = None) -> tuple[Comparison, Allowed]:
    """A comparison of these records, where differences of these lines are allowed."""
    allowed = Allowed([meant_of(f"a.allow:{at}", f"{line}: why", LABELS) for at, line in enumerate(lines, 1)])
    return Comparison(told or Told(), Listed(records_of(*texts)), follow=allowed.follow), allowed


class Files(unittest.TestCase):
    """What a file names."""

    def test_each_line_is_a_label_what_and_why(self) -> None:
        with tempfile.TemporaryDirectory() as folder:
            file = Path(folder) / "a.allow"
            file.write_text(f"# meant\n\n{CELL}: a load: of 16 bytes\nE7 is at E8: why\n", encoding="ascii")
            meant = [Meant(f"{file}:3", "E5", "reads the whole cell"), Meant(f"{file}:4", "E7", "is at E8")]
            self.assertEqual(read_allowed(str(file)).meant, meant)
            file.write_text(CELL, encoding="ascii")
            with self.assertRaisesRegex(Unreadable, "a.allow:1 has no line feed"):
                read_allowed(str(file))
        self.assertEqual(read_allowed(None).meant, ())

    def test_another_line_is_refused(self) -> None:
        for text, said in (
            (CELL, "a line is a label"), ("E99 is at E8: why", "a line is a label"), ("E7: why", "a line is a label"),
            ("E7 is at E8: ", "a line is a label"), ("E7 reads the whole cell: why", "neither what a report says"),
            ("E7 reuses a ring: why", "nor one of `E12 reuses its own unlinked ring`, `E5 reads"),
        ):
            with self.subTest(text), self.assertRaisesRegex(Unreadable, said):
                meant_of("a.allow:1", text, LABELS)


class Steps(unittest.TestCase):
    """What the model follows by steps of its own."""

    def test_a_cell_is_read_at_once(self) -> None:
        for text in ("5 1 E5 1 0 none; t 0", "5 1 E5 cell root 0; read; 1 0 none", "5 1 - cell root 0; read; 1 0 none"):
            with self.subTest(text):
                comparison, allowed = compared(*LOG[:4], text, "6 1 E8 won; enqueued", lines=(CELL,))
                self.assertIsNone(comparison.difference())
                self.assertEqual((comparison.next, comparison.replay.count()), (6, 7))
                self.assertEqual(comparison.followed, {"a.allow:1": 1})
                self.assertIsNotNone(compared(*LOG[:4], text)[0].difference())

    def test_a_cell_that_has_something_else_differs(self) -> None:
        for text in ("5 1 E5 1 0 7", "5 1 E5 0 0 none", "5 1 E5 1 0 none; t 1", "5 1 E5 cell root 1; read; 1 0 none"):
            with self.subTest(text):
                comparison, _ = compared(*with_record(4, text), lines=(CELL,))
                found = comparison.difference()
                assert found
                self.assertEqual((found.index, found.point, comparison.replay.count()), (4, "E5", 4))
                self.assertEqual((comparison.next, comparison.compared["labels"]), (4, 3))
                self.assertFalse(comparison.followed)

    def test_a_ring_that_was_not_linked_is_used_again(self) -> None:
        told = Told(MAKINGS)
        comparison, _ = compared(*KEPT, lines=(RING,), told=told)
        self.assertIsNone(comparison.difference())
        self.assertEqual((comparison.followed["a.allow:1"], comparison.names.segments), (1, {"p": "1.1"}))
        self.assertEqual((told.made, comparison.next), (5, 4))

    def test_a_ring_that_was_linked_or_that_is_of_no_use_is_not(self) -> None:
        won: Made = ("go 1", "next 0.0; wrote; won; -", actor("E12", new="1.0"))
        rows = [(KEPT[:2] + ["3 1 E13 won", "4 1 E13 won"], [*MAKINGS[:2], won, *MAKINGS[3:]]),
                (KEPT[:3] + ["4 1 E13 lost"], MAKINGS), (KEPT[:3] + ["4 1 E14 won"], MAKINGS),
                (["1 1 enq 7", "2 1 E13 won"], MAKINGS)]
        for texts, steps in rows:
            with self.subTest(texts):
                comparison, _ = compared(*texts, lines=(RING,), told=Told(steps))
                found = comparison.difference()
                assert found
                self.assertEqual((found.index, found.point), (len(texts) - 1, "E12"))
                self.assertIn(comparison.names.segments, ({"p": "1.0"}, {}))


class Streams(unittest.TestCase):
    """What the model follows in a log that is compared as it comes."""

    def check(self, line: str, steps: Sequence[Made], *texts: str) -> Comparison:
        """That a log agrees, as by records that are all known."""
        allowed = Allowed([meant_of("a.allow:1", f"{line}: why", LABELS)])
        with source(script_of(texts)) as records:
            made = Comparison(Told(steps), records, follow=allowed.follow)
            self.assertIsNone(made.difference())
            made.finish()
        other, _ = compared(*texts, lines=(line,), told=Told(steps))
        self.assertIsNone(other.difference())
        other.finish()
        for it in (made, other):
            self.assertEqual((it.next, it.followed), (len(texts), {"a.allow:1": 1}))
        counts = [(it.compared, it.accesses, it.made, it.names.segments, it.ledger.running) for it in (made, other)]
        self.assertEqual(counts[0], counts[1])
        return made

    def test_a_cell_is_read_at_once(self) -> None:
        for size in (1, 2, 32):
            with mock.patch.multiple(port_ahead, LEAST=size, MOST=size):
                self.check(CELL, ENQUEUE, *LOG[:4], "5 1 E5 1 0 none; t 0", "6 1 E8 won; enqueued")

    def test_a_ring_that_was_not_linked_is_used_again(self) -> None:
        made = self.check(RING, MAKINGS, *KEPT)
        self.assertEqual((made.made[:2], made.names.segments), ([1, 2], {"p": "1.1"}))

    def test_a_ring_of_before_the_start_is_used_again(self) -> None:
        with mock.patch.object(port_replay, "FREEZE_AT", 3):
            made = self.check(RING, MAKINGS, *KEPT)
        self.assertEqual((made.replay.before, made.made[:2]), (3, [1, 2]))


class Sides(unittest.TestCase):
    """What is allowed as a report says it."""

    def follow(self, line: str, *texts: str) -> tuple[bool, int]:
        """Whether the first difference is allowed, and how often the port's side was taken."""
        comparison, allowed = compared(*texts, lines=(line,))
        with mock.patch.object(Side, "take", mock.Mock(return_value="")) as take:
            self.assertIsNotNone(comparison.difference())
            takes = take.call_count
            take.return_value = "changed"
            found = Comparison(Told(), Listed(records_of(*texts))).difference()
            assert found
            return allowed.follow(comparison, found), takes

    def test_the_ports_side_is_taken_where_label_and_words_are_those(self) -> None:
        rows = [
            ("E1 is at E2", ("2 1 E2 next root",), True), ("E4 found open 1", (*LOG[1:3], "4 1 E4 open 1"), True),
            ("E4 is at E2", ("2 1 E2 next root",), False), ("E4 found open 2", (*LOG[1:3], "4 1 E4 open 1"), False),
            ("E8 lost", (*LOG[1:6], "7 1 E8 lost"), True),
            ("E8 replied empty", (*LOG[1:], "8 1 empty"), True),
        ]
        for line, texts, wanted in rows:
            with self.subTest(line):
                self.assertEqual(self.follow(line, LOG[0], *texts), (wanted, int(wanted)))


class Uses(unittest.TestCase):
    """What is said of the uses."""

    def test_uses_are_counted_and_what_is_never_used_is_named(self) -> None:
        allowed = Allowed([Meant("a.allow:1", "E5", "reads the whole cell"), Meant("a.allow:2", "E7", "is at E8")])
        unused = "never used: `E7 is at E8` (a.allow:2)"
        self.assertEqual([*allowed.lines()][0][:40], "allowed: never used: `E5 reads the whole")
        allowed.used["a.allow:1"] = 2
        self.assertEqual([*allowed.lines()], [f"allowed: `E5 reads the whole cell` 2 times; {unused}"])
        self.assertEqual([*Allowed().lines()], [])
