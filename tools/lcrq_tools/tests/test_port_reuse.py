"""Who has a segment whose name is used again."""

import unittest

from lcrq_tools.port.port_reuse import has, held, holders, linked
from lcrq_tools.records import Step
from lcrq_tools.tests.replay_stub import IDLE, Told, actor

WORDS = ("crq", "new", "next")


class Words(unittest.TestCase):
    """Which words of an actor count."""

    def test_a_word_counts_from_where_it_is_set_to_its_last_use(self) -> None:
        rows = {
            "E1": "", "E2": "crq", "E3": "crq next", "E4": "crq", "E12": "crq", "E13": "crq new", "E14": "crq new",
            "Q1": "", "Q2": "crq", "Q13": "crq", "Q14": "crq next", "A1": "", "B2": "", "Idle": "",
        }
        for point, words in rows.items():
            self.assertEqual(" ".join(word for word in WORDS if has(actor(point), word)), words, point)

    def test_in_the_second_pass_the_next_one_is_still_needed(self) -> None:
        second = {point: has(actor(point, "deq", **{"pass": 2}), "next") for point in ("Q1", "Q2", "Q12")}
        self.assertEqual(second, {"Q1": False, "Q2": True, "Q12": True})


class Holders(unittest.TestCase):
    """Who has a segment."""

    def told(self) -> Told:
        """A run in which actor 2 is at E13 over 1.0, which 0.0 has as the next one."""
        shown = {"qhead": "0.0", "qtail": "1.0", "next 0.0": "1.0", "next 1.0": "none", "next 3.0": "none"}
        made = Told([], {f"show {place}": f"is {content}" for place, content in shown.items()})
        made.states = [IDLE, actor("E13", crq="1.0", new="3.0")]
        rows = [("E13", "next 0.0; wrote; won; -"), ("E1", "qtail; read; 1.0; -"), ("E14", "qtail; wrote; won; -")]
        for (_, did), (point, _) in zip(rows, [*rows[1:], ("Q1", "")]):
            made.steps.add(Step.read(f"step 1; go 2; {did}"), actor(point))
        made.steps.first[2] = str(actor(rows[0][0])).encode("ascii")
        return made

    def test_each_is_named_with_the_step_since_when(self) -> None:
        wanted = {
            "1.0": ["actor 2 has it as crq, since step 2", "QTail has it, since step 3",
                    "Next of 0.0 has it, since step 1"],
            "3.0": ["actor 2 has it as new, since the start"],
            "0.0": ["QHead has it, since the start"], "2.0": [],
        }
        self.assertEqual({segment: [*holders(self.told(), segment)] for segment in wanted}, wanted)

    def test_what_is_unlinked_and_left_has_no_next_that_counts(self) -> None:
        made = self.told()
        self.assertEqual([*held(made)], [(2, "crq", "1.0"), (2, "new", "3.0")])
        self.assertEqual(linked(made, {"qhead": "0.0", "qtail": "1.0"}), {"0.0": "1.0", "1.0": "", "3.0": ""})
