"""Which other rings would let the first difference be none."""

import unittest
from pathlib import Path
from unittest import mock

from lcrq_tools.port import port_rings
from lcrq_tools.tests.replay_stub import ENQUEUE, LOG, Told, compared, with_record

DREW = with_record(3, "4 1 E4 tail root; wrote; open 5")


class Guesses(unittest.TestCase):
    """What is said of other rings than those of 2 cells."""

    def said(self, texts: list[str], answer: str) -> list[str]:
        """The guesses, where rings of 4 have another answer at E4."""
        other = [(line, did.replace("open 0", answer), state) for line, did, state in ENQUEUE]
        self.opened: list[tuple[int, bool]] = []

        def opened(ring: int, folder: Path) -> Told:
            self.opened.append((ring, folder.is_dir()))
            return Told(other if ring == 4 else ENQUEUE)

        comparison = compared(*texts)
        found = comparison.difference()
        assert found
        return [*port_rings.guesses(comparison, found, opened)]

    def test_a_ring_under_which_all_agrees_is_named(self) -> None:
        wanted = "with --ring 4 this is no difference, and all 4 records agree: is that the port's ring?"
        self.assertEqual(self.said(DREW, "open 5"), [wanted])
        self.assertEqual(self.opened, [(4, True), (8, True)])

    def test_what_differs_later_is_named(self) -> None:
        text = [*DREW, "5 1 E5 9"]
        self.assertIn("and the first is at step 5: is", self.said(text, "open 5")[0])
        with mock.patch.object(port_rings, "MORE", 0):
            self.assertIn("and the first 4 records agree: is", self.said(text, "open 5")[0])

    def test_a_difference_under_each_ring_is_no_question_of_rings(self) -> None:
        self.assertEqual(self.said(DREW, "open 0"), [])
        self.assertEqual(self.said([*LOG, "8 1 empty"], "open 0"), [])
