"""Taking a port's side: what is changed in a start, which changes are tried, and what goes on."""

import copy
import tempfile
import unittest
from pathlib import Path
from unittest import mock

from lcrq_tools import program
from lcrq_tools.port import port_side
from lcrq_tools.port.port_side import Change, Side
from lcrq_tools.program import Ended
from lcrq_tools.records import Place
from lcrq_tools.start.starts import IDLE as IDLE_ACTOR, Start, set_content, with_words
from lcrq_tools.tests.replay_stub import ENQUEUE, IDLE, LOG, START, Told, actor, compared, with_record

SHOWN = {"show tail 0.0": "is open 0"}
CALLED = with_words(IDLE_ACTOR, {"pc": "E4", "op": ["enq", 7]})  # actor 1 where the model is in these tests


def start() -> Start:
    """The start."""
    return copy.deepcopy(START["start"])


def side(*texts: str, told: Told | None = None) -> Side:
    """The side of the port at the first difference of these records, where actor 1 is at E4."""
    comparison = compared(*texts, replay=told or Told())
    found = comparison.difference()
    assert found
    made = Side(comparison, found)
    made.world["start"]["actors"][0] = CALLED
    return made


class Changes(unittest.TestCase):
    """The changes that are tried."""

    def test_a_call_has_its_actor_idle(self) -> None:
        [change] = side(*with_record(2, "3 1 deq")).changes()
        self.assertEqual((change.said, change.start["start"]["actors"][0]), ("the actor is in no call", IDLE_ACTOR))

    def test_another_line_has_the_actor_there_with_few_other_words(self) -> None:
        said = [it.said for it in side(*with_record(3, "4 1 E5 value root 0"), told=Told(shown=SHOWN)).changes()]
        self.assertEqual(said[:3], ["pc E5", "pc E5, val null", "pc E5, val 0"])
        words = port_side.one_word(IDLE_ACTOR)
        pairs = len(words) * (len(words) - 1) // 2
        self.assertEqual(sum(it.startswith("pc E5") for it in said), 1 + len(words) + pairs)
        self.assertEqual(said[-1], "tail 0.0 is closed 0")

    def test_another_place_without_a_label_may_be_of_any_point(self) -> None:
        said = [it.said for it in side(*with_record(3, "4 1 head root"), told=Told(shown=SHOWN)).changes()]
        self.assertEqual(said[:2], ["pc E1", "pc E2"])

    def test_contents_are_what_the_port_found_first(self) -> None:
        rows = {
            "4 1 E4 tail root; wrote; open 5": ["tail 0.0 is open 5", "tail 0.0 is open 0", "tail 0.0 is closed 0"],
            "4 1 E4 tail root; wrote; closed": ["tail 0.0 is open 0", "tail 0.0 is closed 0"],
        }
        for text, said in rows.items():
            self.assertEqual([it.said for it in side(*with_record(3, text), told=Told(shown=SHOWN)).changes()], said)

    def test_a_swap_that_has_to_lose_finds_another_cell_and_it_is_put_back(self) -> None:
        told = Told(shown={"show cell 0.0 0": "is 1 0 none"})
        changes = [*side(*with_record(6, "7 1 E8 lost"), told=told).changes()]
        self.assertEqual([it.said for it in changes][-1], "cell 0.0 0 is 1 1 none")
        self.assertEqual({it.restored for it in changes}, {(Place.read("cell 0.0 0"), "1 0 none")})


class Trials(unittest.TestCase):
    """What a trial says, and what follows it."""

    def take(self, made: Side, *outputs: str) -> str:
        """What is changed where the trials write these texts in turn."""
        given = iter(outputs)
        self.scripts: list[str] = []

        def run(_words: list[str], script: bytes) -> Ended:
            self.scripts.append(script.decode("ascii"))
            text = next(given, "")
            return Ended(0 if text else 1, text.encode("ascii"), "")

        with tempfile.TemporaryDirectory() as folder, mock.patch.object(program, "run", run):
            made.replay.folder = Path(folder)
            return made.take()

    def test_the_first_change_that_does_what_the_port_did_is_taken(self) -> None:
        made = side(*with_record(3, "4 1 E4 tail root; wrote; open 5"), told=Told(shown=SHOWN))
        told, state = made.replay, actor("E5", t=5)
        assert isinstance(told, Told)
        right = f"{actor('E4')}\nok 1\nstep 1; go 1; tail 0.0; wrote; open 5; -\n{state}\n"
        self.assertEqual(self.take(made, right), "tail 0.0 is open 5")
        self.assertEqual(self.scripts, ["actor 1\ngo 1\nstep 1\nactor 1\n"])
        self.assertEqual(told.opened[0]["start"]["segments"][0][0]["tail"], 5)

    def test_a_change_that_the_program_refuses_is_not_taken(self) -> None:
        text = with_record(3, "4 1 E4 tail root; wrote; open 5")
        wrong = f"{actor('E4')}\nok 1\nstep 1; go 1; tail 0.0; wrote; open 0; -\n{actor('E5')}\n"
        refused = f"{actor('E4')}\nrefused 6 CounterEnd\n\n\n"
        self.assertEqual(self.take(side(*text, told=Told(shown=SHOWN)), "", refused, wrong), "")
        self.assertEqual(len(self.scripts), 3)

    def test_a_call_is_over_where_the_port_says_so(self) -> None:
        made = side(*with_record(2, "3 1 enqueued"))
        self.assertEqual((made.take(), made.comparison.next), ("the actor is in no call", 3))
        over = side(*LOG, "8 1 empty")
        self.assertEqual((over.take(), over.found.state), ("nothing: both calls are over", IDLE))

    def test_a_name_that_is_used_again_is_the_new_segments(self) -> None:
        steps = [ENQUEUE[0], ("go 1", "qtail; read; 0.0; -", actor("E12")),
                 ("go 1", "whole 1.0; wrote; made 1.0; -", actor("E13", new="1.0"))]
        made = side(LOG[0], "2 1 E1 qtail; read; p", "3 1 E12 made p", told=Told(steps))
        self.assertEqual(made.found.kind, "reuse")
        self.assertEqual(self.take(made), "nothing: the name is the new segment's from here on")
        self.assertEqual((made.comparison.next, made.comparison.names.segments), (3, {"p": "1.0"}))

    def test_a_choice_that_has_no_record_is_made(self) -> None:
        begun = ("enq 1 7", "-; none; -; -", actor("E9"))
        steps = [begun, ("go 1", "head 0.0; read; 0; -", actor("E10")), ("starve 1 yes", "-; none; -; -", IDLE)]
        fork = [("starve 1 yes", "-; none; -; -", actor("E11")), ("go 1", "tail 0.0; wrote; open 0; -", actor("E12"))]
        texts = ("1 1 enq 7", "2 1 E9 0", "3 1 E11 open 0", "4 1 E10 no")
        made = side(*texts, told=Told(steps, forks={"starve 1 yes": fork}))
        said = "nothing: the choice at E10 follows from the record"
        self.assertEqual((made.found.kind, made.take()), ("choice", said))
        self.assertEqual((made.comparison.next, made.replay.lines()[2:]), (3, ["starve 1 yes", "go 1"]))

    def test_a_word_is_that_of_the_port_after_the_step(self) -> None:
        made = side(*with_record(3, "4 1 E4 tail root; wrote; open 0; t 9"))
        told = made.replay
        assert isinstance(told, Told)
        self.assertEqual((made.take(), made.comparison.next, told.count()), ("t 9", 4, 4))
        self.assertEqual([it["t"] for it in told.opened[0]["start"]["actors"]], [9, 0])
        self.assertEqual(side(*with_record(3, "4 1 E4 tail root; wrote; open 0; t many")).take(), "")

    def test_what_the_step_only_had_to_find_is_put_back(self) -> None:
        told = Told([*ENQUEUE[:6], ("go 1", "cell 0.0 0; read; lost; -", actor("E9"))])
        made = side(*with_record(6, "7 1 E8 won; enqueued"), told=told)
        changed, cell = copy.deepcopy(made.world), Place.read("cell 0.0 0")
        set_content(changed["start"], cell, "1 1 none")
        made.go_on(Change("cell 0.0 0 is 1 1 none", changed, (cell, "0 4 none")))
        cells = [it["start"]["segments"][0][0]["cells"][0] for it in told.opened]
        self.assertEqual((cells, made.comparison.next), ([[True, 1, None], [False, 4, None]], 7))
