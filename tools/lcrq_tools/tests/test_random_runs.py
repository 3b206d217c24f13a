"""The pseudo-code as writers of scripts play it: which points a call goes through, and random runs."""

import unittest

from lcrq_tools.bench.random_runs import fresh_world, make, random_run
from lcrq_tools.checks.pseudo_code import Cell, Tail, World

ENQ, DEQ = "enq 1 7", "deq 1"  # calls of actor 1


def point(world: World, number: int) -> str:
    """Where an actor is."""
    return world.actors[number].point


def play(world: World, *lines: str) -> list[str]:
    """Plays lines, of which `go 1 x3` is three; returns where the actor of each event is then."""
    counted = (line.partition(" x") for line in lines)
    points = []
    for event in (event for event, _, count in counted for _ in range(int(count or 1))):
        make(world, event)
        points.append(point(world, int(event.split(" ")[1])))
    return points


def after(*lines: str, ring: int = 2) -> World:
    """The world of four actors after these lines."""
    world = fresh_world(4, ring)
    play(world, *lines)
    return world


def cells(world: World, name: str = "0.0") -> list[object]:
    """The cells of a segment, the root if none is named."""
    return [world.places[f"cell {name} {index}"] for index in range(world.ring)]


def full() -> World:
    """A world whose one ring, of two cells, holds 10 and 11."""
    return after("enq 1 10", "go 1 x6", "enq 1 11", "go 1 x6")


class Calls(unittest.TestCase):
    """Calls, by the rows of the table of control points."""

    def test_a_call_alone_goes_this_way(self) -> None:
        rows = [
            ((), ENQ, "E1 E2 E4 E5 E6 E8 Idle"),
            ((ENQ, "go 1 x6"), DEQ, "Q1 Q2 Q3 Q4 Q5 Idle"),
            ((), DEQ, "Q1 Q2 Q3 Q4 Q7 Q8 Q9 Q10 Q11 Q12 Q13 Idle"),
        ]
        for before, call, points in rows:
            with self.subTest(points):
                count = len(points.split(" ")) - 1
                self.assertEqual(" ".join(play(after(*before), call, f"go 1 x{count}")), points)

    def test_an_enqueue_fills_the_cell_of_its_position(self) -> None:
        world = full()
        self.assertEqual((world.places["head 0.0"], world.places["tail 0.0"]), (0, Tail(False, 2)))
        self.assertEqual(cells(world), [(True, 0, 10), (True, 1, 11)])

    def test_a_dequeue_takes_the_oldest_value_and_moves_its_cell_a_round_on(self) -> None:
        world = full()
        play(world, DEQ, "go 1 x5")
        self.assertEqual((world.places["head 0.0"], cells(world)), (1, [(True, 2, None), (True, 1, 11)]))

    def test_an_empty_dequeue_repairs_the_tail(self) -> None:
        world = after(DEQ, "go 1 x11")
        counters = world.places["head 0.0"], world.places["tail 0.0"]
        self.assertEqual((counters, cells(world)[0]), ((1, Tail(False, 1)), (True, 2, None)))

    def test_a_full_ring_is_closed_and_another_linked(self) -> None:
        world = full()
        points = play(world, "enq 1 9", "go 1 x9")
        self.assertEqual(" ".join(points), "E1 E2 E4 E5 E6 E9 E11 E12 E13 E14")
        self.assertEqual((world.places["tail 0.0"], world.places["qtail"]), (Tail(True, 3), "0.0"))
        self.assertEqual(play(world, "go 1"), ["Idle"])
        self.assertEqual((world.places["qtail"], world.places["next 0.0"]), ("1.0", "1.0"))
        self.assertEqual((world.places["tail 1.0"], cells(world, "1.0")), ((False, 1), [(True, 0, 9), (True, 1, None)]))

    def test_the_schedule_chooses_where_the_ring_is_not_full(self) -> None:
        for choice, then in (("yes", "E11"), ("no", "E4")):
            world = after(ENQ, "go 1 x3", "deq 2", "go 2 x5", "go 1 x3", ring=4)
            self.assertEqual(play(world, f"starve 1 {choice}"), [then])


class Races(unittest.TestCase):
    """Steps that find what others left."""

    def test_a_second_maker_helps_the_first(self) -> None:
        world = full()
        play(world, "enq 1 8", "go 1 x8", "enq 2 9", "go 2 x3", "go 1")
        self.assertEqual((point(world, 1), point(world, 2)), ("E14", "E12"))
        self.assertEqual(play(world, "go 2 x5"), ["E13", "E1", "E2", "E3", "E1"])
        self.assertEqual(world.places["qtail"], "1.0")
        self.assertEqual(play(world, "go 1"), ["Idle"])
        self.assertEqual((world.places["qtail"], world.places["next 0.0"]), ("1.0", "1.0"))

    def test_a_lost_swap_leads_on(self) -> None:
        rows = [
            ((ENQ, "go 1 x5", "deq 2", "go 2 x5"), "E8", "E9"),
            (("enq 2 7", "go 2 x5", "deq 1", "go 1 x4", "go 2"), "Q7", "Q3"),
        ]
        for before, swap, then in rows:
            with self.subTest(swap):
                world = after(*before)
                self.assertEqual(point(world, 1), swap)
                self.assertEqual(play(world, "go 1"), [then])

    def test_a_dequeue_that_comes_a_round_too_early_makes_the_cell_unsafe(self) -> None:
        world = after(ENQ, "go 1 x6", "deq 2", "go 2 x2", "deq 3", "go 3 x2", "deq 4", "go 4 x2")
        self.assertEqual(play(world, "go 4 x3"), ["Q4", "Q6", "Q8"])
        self.assertEqual(cells(world)[0], (False, 0, 7))
        self.assertEqual(play(world, "go 2 x3"), ["Q4", "Q5", "Idle"])
        self.assertEqual(cells(world)[0], (False, 2, None))

    def test_an_unsafe_cell_is_used_only_before_the_head(self) -> None:
        for head, then in ((2, "E8"), (3, "E9")):
            world = fresh_world(1, 2)
            world.places |= {"head 0.0": head, "tail 0.0": Tail(False, 2), "cell 0.0 0": Cell(False, 2, None)}
            self.assertEqual(play(world, ENQ, "go 1 x6")[-2:], ["E7", then])

    def test_a_tail_that_moved_is_read_again(self) -> None:
        for steps, before in ((8, "Q11"), (9, "Q12")):
            world = after("deq 1", f"go 1 x{steps}", "enq 2 7", "go 2 x3")
            self.assertEqual((point(world, 1), play(world, "go 1")), (before, ["Q9"]))

    def test_a_dequeue_looks_twice_before_it_leaves_a_ring(self) -> None:
        world = full()
        play(world, "enq 1 9", "go 1 x10", "deq 1", "go 1 x5", "deq 1", "go 1 x5")
        points = play(world, "deq 1", "go 1 x18")
        self.assertEqual(" ".join(points[9:]), "Q13 Q2 Q3 Q4 Q7 Q8 Q9 Q10 Q11 Q14")
        self.assertEqual(play(world, "go 1"), ["Q1"])
        self.assertEqual((world.places["qhead"], world.places["qtail"]), ("1.0", "1.0"))


class Runs(unittest.TestCase):
    """Random runs."""

    def test_no_line_is_refused(self) -> None:
        for enqueues in (0.0, 0.5, 1.0):
            world, lines = fresh_world(3, 2), random_run(400, enqueues, 3, 2)
            for line in lines:
                word, actor = line.split(" ")[0], int(line.split(" ")[1])
                place = point(world, actor)
                self.assertEqual({"enq": "Idle", "deq": "Idle", "starve": "E10"}.get(word, word), self.asks(place))
                play(world, line)
            self.assertEqual(len(lines), 400)
            words = {line.split(" ")[0] for line in lines}
            self.assertEqual(("enq" in words, "deq" in words), (enqueues > 0, enqueues < 1))

    def asks(self, place: str) -> str:
        """What an actor asks for where it is: a call or a choice, by the place, or a step."""
        return place if place in ("Idle", "E10") else "go"

    def test_it_is_the_same_each_time(self) -> None:
        self.assertEqual(random_run(50), random_run(50))
