"""A run of the program for a port's log, with sed in the place of the program."""

import contextlib
import json
import tempfile
import unittest
from collections.abc import Iterator
from pathlib import Path
from unittest import mock

from lcrq_tools import program
from lcrq_tools.port.port_replay import Replay
from lcrq_tools.program import Broken
from lcrq_tools.records import Step
from lcrq_tools.tests.replay_stub import IDLE, START, actor

# It replies to what a run asks first, as two actors over rings of 4, and to other lines with themselves.
FAKE = rf"""#!/bin/sh
exec sed -u -e 's/^len$/at 2 0/; s/^actor [12]$/{IDLE}/; s/^actor [0-9]*$/refused 1 NoActor/' \
    -e 's/^show index 0.0 [0-3]$/is 1 0/; s/^show index.*/refused 19 NoSuchPlace/; /^end/q'
"""

CALLED, WENT = (Step.read(text) for text in ("step 3; deq 2; -; none; -; -", "step 4; go 2; qhead; read; 0.0; -"))


@contextlib.contextmanager
def replay() -> Iterator[Replay]:
    """A run of that program."""
    with tempfile.TemporaryDirectory() as folder:
        fake = Path(folder) / "fake"
        fake.write_text(FAKE, encoding="ascii")
        fake.chmod(0o755)
        made = Replay(str(fake), Path(folder), ["run", "-"])
        try:
            yield made
        finally:
            made.close()


class Runs(unittest.TestCase):
    """A run that is asked many lines at a time."""

    def test_it_asks_what_its_world_is(self) -> None:
        with replay() as made:
            self.assertEqual((made.first, made.ring, made.states), (2, 4, [IDLE, IDLE]))
            self.assertEqual((made.before, made.count(), made.live()), (0, 0, 2))

    def test_the_replies_to_many_lines_come_in_their_order(self) -> None:
        lines = [f"show cell 0.0 {at}" for at in range(2 * program.LINES + 1)]
        with replay() as made:
            self.assertEqual((made.ask(lines), made.ask([]), made.ask(["a"])), (lines, [], ["a"]))

    def test_lines_that_are_written_ahead_are_replied_in_their_order(self) -> None:
        lines = [f"show cell 0.0 {at}".encode() for at in range(30_000)]
        with replay() as made:
            for part in (lines[:20_000], lines[20_000:]):
                made.send(b"".join(line + b"\n" for line in part))
            self.assertEqual((made.take(5_000) + made.take(25_000), made.ask(["a"])), (lines, ["a"]))
            made.send(b"end\na\n")
            with self.assertRaisesRegex(Broken, "^the program ended"):
                made.take(2)

    def test_a_program_that_ends_is_a_fault(self) -> None:
        with replay() as made:
            with self.assertRaisesRegex(Broken, "^the program ended at `end` with status 0$"):
                made.ask(["end", "a"])
            with self.assertRaisesRegex(Broken, "^the program ended at `b`: "):
                made.ask(["b"])

    def test_a_program_that_says_nothing_is_a_fault(self) -> None:
        with replay() as made, mock.patch.object(made.driven, "seconds", 0.01):
            with self.assertRaisesRegex(Broken, "^`a` took more than 0.01 s$"), mock.patch("os.write"):
                made.ask(["a"])

    def test_steps_are_kept_and_taken_back(self) -> None:
        with replay() as made:
            made.keep(CALLED, actor("Q1", "deq"))
            made.keep(WENT, actor("Q2", "deq"))
            self.assertEqual((made.count(), made.live(), made.states), (2, 4, [IDLE, actor("Q2", "deq")]))
            made.drop(actor("Q1", "deq"))
            self.assertEqual((made.lines(), [*made.steps]), (["deq 2"], [("Idle", CALLED)]))
            self.assertEqual(made.states[1], actor("Q1", "deq"))

    def test_over_a_start_the_steps_before_it_stay_counted(self) -> None:
        with replay() as made:
            made.keep(CALLED, actor("Q1", "deq"))
            made.open_start(START)
            file = made.folder / "1.trace"
            self.assertEqual(made.options, ["load", "--", str(file)])
            self.assertEqual(json.loads(file.read_text(encoding="ascii"))["start"], START["start"])
            self.assertEqual((made.before, made.lines(), made.count(), made.live()), (1, [], 1, 2))
