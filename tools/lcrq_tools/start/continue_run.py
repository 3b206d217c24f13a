"""Goes on from a trace at random, until all actors are idle, and takes what is in the queue then.

    python3 tools/continue_run.py TRACE [--runs N] [--seed S] [-o OUT.script] [--program P]

Of N continuations (100), each of its own seed from S (1) on, each lets a random actor that is in a
call make its next step, a random choice at E10 included, until no actor is in a call. Then actor 1
dequeues until the queue is empty. All values that were in a cell or in the call of an enqueue at the
beginning should have been taken then, each once. What became of them is printed, one line for all
continuations that came to the same, with the first seed that did; -o writes the lines of the first
continuation as a script. What becomes of the array queue is not looked at.

The status is 1, with the reason in one line, if the trace can't be loaded or the script can't be
written; 0 whatever became of the values. Only Python's standard library is used.
"""

import argparse
import collections
import random
from pathlib import Path

from lcrq_tools import program
from lcrq_tools.faults import Fault, Parser
from lcrq_tools.options import add_program
from lcrq_tools.program import Broken, Driven
from lcrq_tools.records import Made, read_reply
from lcrq_tools.start.starts import Asked, values_in

MOST_STEPS = 20_000  # of a continuation


class Continuation:
    """A run over a trace that goes on at random."""

    def __init__(self, program_path: str, trace: str, seed: int):
        self.chance = random.Random(seed)
        self.lines: list[str] = []
        self.taken: collections.Counter[str] = collections.Counter()
        with Driven([program_path, "load", "--", trace]) as driven:
            self.driven = driven
            start = Asked(driven.ask_all).trace()["start"]
            self.there = collections.Counter(map(str, values_in(start, ("enq",))))
            self.go_on([number for number, actor in enumerate(start["actors"], 1) if actor["pc"] != "Idle"])
            while self.take():
                pass

    def ask(self, line: str) -> str:
        """The reply to a line."""
        return self.driven.ask(line)[0]

    def make(self, line: str) -> str:
        """Makes a step; returns what its call replied, `-` where it goes on, or nothing if it is refused."""
        reply = read_reply(self.ask(line))
        if not isinstance(reply, Made):
            return ""
        self.lines.append(line)
        if len(self.lines) > MOST_STEPS:
            raise Broken(f"no end after {MOST_STEPS} steps")
        if reply.ended.startswith("value "):
            self.taken[reply.ended.removeprefix("value ")] += 1
        return reply.ended or "-"

    def step(self, actor: int) -> str:
        """Lets an actor make its next step; returns what its call replied, or `-`."""
        return self.make(f"go {actor}") or self.make(f"starve {actor} {self.chance.choice(['yes', 'no'])}")

    def go_on(self, actors: list[int]) -> None:
        """Goes on until none of these actors is in a call."""
        while actors:
            actor = self.chance.choice(actors)
            reply = self.step(actor)
            if not reply:
                raise Broken(f"actor {actor} can't go on: {self.ask(f'go {actor}')}")
            if reply != "-":
                actors.remove(actor)

    def take(self) -> bool:
        """Lets actor 1 dequeue; returns whether it took a value."""
        reply = self.make("deq 1")
        while reply == "-":
            reply = self.step(1)
        return reply.startswith("value ")

    def outcome(self) -> str:
        """What became of the values."""
        rows = (self.there - self.taken, "never taken"), (self.taken - self.there, "taken too often")
        faults = [f"{', '.join(sorted(values.elements(), key=int))} {what}" for values, what in rows if values]
        return "; ".join(faults) or f"all taken, each once: {program.counted(self.there.total(), 'value')}"


def go_on(given: argparse.Namespace) -> None:
    """Makes the continuations, and prints what became of the values."""
    output: Path | None = given.output
    outcomes: dict[str, list[int]] = {}
    for seed in range(given.seed, given.seed + given.runs):
        continued = Continuation(given.program, given.trace, seed)
        if seed == given.seed and output:
            output.write_bytes(program.script_of(continued.lines))
        outcomes.setdefault(continued.outcome(), []).append(seed)
    for outcome, seeds in sorted(outcomes.items(), key=lambda row: -len(row[1])):
        print(f"{len(seeds)} of {given.runs} continuations, the first of seed {seeds[0]}: {outcome}")


def main() -> int:
    """Makes the continuations that the command line asks for; returns the exit status."""
    parser = Parser(__doc__, "poised.trace --runs 20")
    parser.add_argument("trace", metavar="TRACE", help="the trace from which it goes on")
    parser.add_argument("--runs", type=int, default=100, metavar="N", help="how many continuations (100)")
    parser.add_argument("--seed", type=int, default=1, metavar="S", help="the seed of the first one (1)")
    output = "where the lines of the first one go"
    parser.add_argument("-o", dest="output", type=Path, metavar="OUT.script", help=output)
    add_program(parser)
    given = parser.parse_args()
    try:
        ended = program.run([given.program, "load", "--", given.trace])
        if ended.status:
            raise Broken(ended.errors.strip())
        go_on(given)
    except Broken as fault:
        raise Fault(f"{given.trace}: {fault}") from fault
    return 0
