"""What the records of a log touch, by the log alone."""

import unittest

from lcrq_tools.port.port_touches import ANYTHING, Touch, names_in, touches_of
from lcrq_tools.tests.replay_stub import records_of

LOG = [
    "1 1 enq 7", "2 1 E1 p", "3 1 E2 (nil)", "4 1 E4 open 5", "5 1 E5 none", "6 1 E6 1 1", "7 1 E8 lost", "8 1 E9 0",
    "9 1 E10 no", "10 1 E4", "11 1 E8 won", "12 1 enqueued",
]


def touches(*texts: str) -> list[Touch]:
    """What these records touch, over rings of 4."""
    return touches_of(records_of(*texts), 4)


class Places(unittest.TestCase):
    """Where a record is."""

    def test_an_actor_has_the_segment_and_the_cell_of_its_last_position(self) -> None:
        found = [(it.kinds, it.where(), it.writes) for it in touches(*LOG)]
        cell = ("value", "index")
        self.assertEqual(found, [
            ((), ("", ""), False), (("qtail",), ("", ""), False), (("next",), ("p", ""), False),
            (("tail",), ("p", ""), True), (("value",), ("p", "1"), False), (("index",), ("p", "1"), False),
            (cell, ("p", "1"), False), (("head",), ("p", ""), False), ((), ("", ""), False),
            (("tail",), ("p", ""), True), (cell, ("p", ""), True), ((), ("", ""), False),
        ])

    def test_a_place_stands_for_itself(self) -> None:
        one, other, none = touches("1 1 cell p 0x3; read; lost", "2 1 - 3", "3 1 E5 none")
        self.assertEqual((one.where(), one.writes), (("p", "3"), False))
        self.assertEqual((other.kinds, other.where()), ((ANYTHING,), ("", "")))
        self.assertEqual(none.where(), ("", ""))

    def test_a_whole_cell_has_two_halves(self) -> None:
        self.assertEqual(touches("1 1 E5 1 0 none")[0].kinds, ("value", "index"))

    def test_the_models_own_names_may_be_any(self) -> None:
        self.assertEqual([it.where() for it in touches("1 1 E1 0.0", "2 1 E9 3")], [("", ""), ("", "")])


class Meetings(unittest.TestCase):
    """Which records may depend on each other."""

    def test_two_meet_at_one_place_that_one_of_them_may_write(self) -> None:
        rows = [
            ("E4 open 0", "Q8 open 0", True), ("E9 0", "Q10 0", False), ("E4 open 0", "E7 0", False),
            ("tail p; wrote; open 0", "tail q; read; open 0", False),
            ("cell p 1; wrote; won", "index p 1; read; 1 1", True),
            ("cell p 1; wrote; won", "value p 2; read; none", False), ("cell p 1; wrote; won", "Q3 none", True),
            ("- 3", "E9 0", True), ("- 3", "enq 7", False), ("E12 made p", "E12 made q", False),
            ("E12", "E12 made q", True), ("E12 made p", "E1 p", True), ("E13 lost", "E13 won", True),
            ("E13 lost", "E2 none", False),
        ]
        for first, then, wanted in rows:
            with self.subTest(first=first, then=then):
                one, other = touches(f"1 1 {first}", f"2 2 {then}")
                self.assertEqual((one.meets(other), other.meets(one)), (wanted, wanted))

    def test_a_name_with_another_meaning_meets_all(self) -> None:
        made, call = touches("1 1 E1 p", "2 2 E12 made p", "3 3 deq")[1:]
        self.assertTrue(made.changes and made.meets(call) and call.meets(made))

    def test_names_are_where_segments_are_named(self) -> None:
        texts = ("1 1 E1 p", "2 1 E2 (nil)", "3 1 E4 open 3", "4 1 E12 made q", "5 1 next p; wrote; won", "6 1 E13 won")
        self.assertEqual([[*names_in(it)] for it in records_of(*texts)], [["p"], [], [], ["q"], ["p"], []])
