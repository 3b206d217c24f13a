"""Links that carry a schedule."""

import unittest

from lcrq_tools.faults import Fault
from lcrq_tools.live.links import is_link, linked_in


class Links(unittest.TestCase):
    """What a link carries."""

    def test_a_link_has_a_world_and_lines(self) -> None:
        link = linked_in("http://127.0.0.1:8000/abc/#run=a3r2;enq_1_7;1*3;undo_2;show_cell_0.0_1;starve_1_yes*2")
        self.assertEqual(link.lines, [
            "enq 1 7", "go 1", "go 1", "go 1", "undo 2", "show cell 0.0 1", "starve 1 yes", "starve 1 yes",
        ])
        self.assertEqual((link.actors, link.ring), (3, 2))

    def test_other_letters_are_spelled_as_addresses_do(self) -> None:
        self.assertEqual(linked_in("#run=a1r4;mark_a%5Fb;%2A%3Bx").lines, ["mark a_b", "*;x"])
        self.assertEqual(linked_in("#run=a1r4;").lines, [])

    def test_what_is_no_schedule_is_a_fault(self) -> None:
        self.assertFalse(is_link("enq 1 7\n"))
        for text in ("#run=", "#run=x;1", "#run=a1r4;1*0", "#run=a1r4;1*2*3", "#run=a1r4;1*99999", "#run=a1r4;go%0A1"):
            with self.subTest(text), self.assertRaises(Fault):
                linked_in(text)
