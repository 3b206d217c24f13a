"""Logs whose stamps are blurred, and the search by brute force for an order of their records."""

import itertools
import random
import unittest
from collections import Counter

from lcrq_tools import model
from lcrq_tools.checks import open_logs
from lcrq_tools.checks.open_logs import Access, Drawn, any_order
from lcrq_tools.checks.pseudo_code import Start, World

PSEUDO_CODE = model.read(model.PAGE.read_text(encoding="utf-8"))

# Two actors draw positions; the second one's answer is the first position.
DRAWN = [
    Access(1, "enq 7", before=1, after=1), Access(2, "enq 8", before=2, after=2),
    Access(1, "E1", "0.0", 3, 3), Access(2, "E1", "0.0", 4, 4),
    Access(1, "E2", "none", 5, 5), Access(2, "E2", "none", 6, 6),
    Access(1, "E4", "open 1", 7, 9), Access(2, "E4", "open 0", 8, 10),
]


def agrees(run: list[Access]) -> bool:
    """Whether a run agrees in some order."""
    return any_order(World(PSEUDO_CODE, Start(2, 2, "fresh"), Counter()), run)


class BruteForce(unittest.TestCase):
    """What trying all orders finds."""

    def test_accesses_that_overlap_may_change_places(self) -> None:
        self.assertTrue(agrees(DRAWN))

    def test_accesses_that_do_not_overlap_may_not(self) -> None:
        self.assertFalse(agrees([*DRAWN[:-1], Access(2, "E4", "open 0", 10, 11)]))

    def test_an_actors_accesses_keep_their_order(self) -> None:
        self.assertFalse(agrees([*DRAWN[:4], Access(1, "E4", "open 0", 5, 9), Access(1, "E2", "none", 6, 9)]))

    def test_a_reply_has_to_be_that_of_the_call(self) -> None:
        own = [access for access in DRAWN if access.actor == 1][:-1]
        rest = [Access(1, "E4", "open 0"), Access(1, "E5"), Access(1, "E6", "1 0"), Access(1, "E8", "won")]
        timed = [Access(it.actor, it.what, it.answer, 10 + at, 10 + at) for at, it in enumerate(rest)]
        for reply, wanted in (("enqueued", True), ("empty", False)):
            self.assertEqual(agrees([*own, *timed, Access(1, "reply", reply, 20, 20)]), wanted)


class Logs(unittest.TestCase):
    """Logs of random runs."""

    def test_stamps_are_around_the_access_and_those_of_an_actor_apart(self) -> None:
        for seed in range(1, 30):
            drawn = Drawn(PSEUDO_CODE, seed)
            times = [open_logs.APART * (number + 1) for number in range(len(drawn.run))]
            if not drawn.is_coarse:
                self.assertTrue(all(it.before <= time <= it.after for it, time in zip(drawn.run, times)))
            for actor in (1, 2, 3):
                own = [access for access in drawn.run if access.actor == actor]
                pairs = itertools.pairwise(own)
                self.assertTrue(all(drawn.is_coarse or one.after < then.before for one, then in pairs))

    def test_a_bug_is_in_one_answer(self) -> None:
        changed = open_logs.with_bug(DRAWN, random.Random(1))
        self.assertEqual(sum(one != other for one, other in zip(DRAWN, changed)), 1)

    def test_a_line_has_one_stamp_or_two(self) -> None:
        access = Access(1, "E12", "made 1.0", 3, 5)
        self.assertEqual((access.line(True), access.line(False)), ("3 1 E12 made 0x1b0", "3-5 1 E12 made 0x1b0"))
        self.assertEqual(Access(2, "reply", "value 7", 3, 5).line(True), "3 2 value 7")
