"""Which step of a run is which along its lines."""

import unittest
from collections.abc import Sequence

from lcrq_tools.draw.askers import viewer_of
from lcrq_tools.faults import Fault
from lcrq_tools.order import Order, common_of

Row = tuple[str, str]  # a line and its reply


class Ask:
    """Replies to questions for steps."""

    def __init__(self, actors: Sequence[int]) -> None:
        self.actors = actors
        self.lines: list[str] = []

    def __call__(self, lines: Sequence[str]) -> list[str]:
        self.lines += lines
        return [self.reply(*line.split(" ")) for line in lines]

    def reply(self, word: str, *words: str) -> str:
        """The reply to a line of these words."""
        if word == "step":
            return f"step {words[0]}; go {self.actors[int(words[0]) - 1]}; qhead; read; 0.0; -"
        return "at 0 0"


class Followed(unittest.TestCase):
    """The steps behind lines."""

    def follow(self, order: Order, *rows: Row, first: int = 4, ask: Ask = Ask(())) -> list[int]:
        """All steps after these lines."""
        for number, (line, reply) in enumerate(rows, first):
            order.follow(number, line, reply, ask)
        return order.all()

    def begun(self) -> Order:
        """Three steps of two actors."""
        order = Order()
        self.follow(order, ("enq 1 7", "ok 1"), ("deq 2", "ok 2"), ("go 1", "ok 3"), first=1)
        return order

    def test_a_step_is_known_by_its_line(self) -> None:
        rows = [("go 2", "refused 4 NeedsChoice"), ("len", "at 3 0")]
        self.assertEqual(self.follow(self.begun(), *rows), [1, 2, 3])

    def test_an_undone_step_stays_the_same(self) -> None:
        order = self.begun()
        self.assertEqual(self.follow(order, ("undo 2", "at 2 1")), [1, 3, 2])
        self.assertEqual(self.follow(order, ("undo", "at 1 2")), [1, 3, 2])
        self.assertEqual(self.follow(order, ("redo", "at 2 1")), [1, 3, 2])
        self.assertEqual(self.follow(order, ("back 2", "at 0 3")), [1, 3, 2])
        self.assertEqual(self.follow(order, ("forward 3", "at 3 0")), [1, 3, 2])
        self.assertEqual(self.follow(order, ("back 1", "at 2 1"), ("go 2", "ok 3")), [1, 3, 5])

    def test_a_rollback_takes_the_last_steps_of_actors(self) -> None:
        order, ask = self.begun(), Ask((2, 1, 1))
        self.assertEqual(order.last_of([1, 1]), [2, 0])
        self.assertEqual(self.follow(order, ("roll 1", "at 1 2"), ask=ask), [2, 1, 3])
        self.assertEqual((len(order.live), len(order.undone)), (1, 2))
        self.assertEqual(ask.lines, ["forward 2", "step 2", "step 3", "back 2"])

    def test_a_bookmark_keeps_its_steps(self) -> None:
        order = self.begun()
        rows = [("mark a", "marked 3"), ("undo", "at 2 1"), ("go 2", "ok 3"), ("goto a", "at 3 0")]
        self.assertEqual(self.follow(order, *rows), [1, 2, 3])
        self.assertEqual(self.follow(order, ("drop a", "dropped")), [1, 2, 3])
        self.assertEqual(order.marks, {})

    def test_steps_of_the_start_have_no_line(self) -> None:
        order = Order()
        order.live, order.undone = order.fresh([1]), order.fresh([2])
        self.assertEqual(self.follow(order, ("redo", "at 2 0"), ("go 1", "ok 3")), [0, -1, 5])
        self.assertEqual([viewer_of(step, (9, 9, 9, 9, 3)) for step in order.live], [0, 0, 3])
        self.assertEqual(self.follow(order, ("goto of-the-trace", "at 2 0"), ask=Ask((2, 1))), [-2, -3])
        self.assertEqual(order.last_of([1]), [1])

    def test_counts_that_differ_are_a_fault(self) -> None:
        with self.assertRaisesRegex(Fault, "^the steps can't be followed: `undo` is answered at 1 1$"):
            self.follow(self.begun(), ("undo", "at 1 1"))


class Common(unittest.TestCase):
    """With what two lists begin."""

    def test_it_is_found_by_halves(self) -> None:
        for same in range(12):
            for more, others in (((), ()), ((1,), ()), ((), (1,)), ((1, 3), (2, 3)), ((1, 2, 3, 4), (5,))):
                with self.subTest(same=same, more=more, others=others):
                    self.assertEqual(common_of([*range(10, 10 + same), *more], [*range(10, 10 + same), *others]), same)
