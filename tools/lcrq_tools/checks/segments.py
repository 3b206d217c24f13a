"""Two orders of 65,528 steps by eight actors, each on its own segment: what comparing, rolling back
and undoing answers, and how long it takes.

    python3 tools/check.py segments [--program P] [--limit MS]

P is the built program. The world is one written by hand, in which each actor dequeues forever on
its own segment, in rounds of five steps. So no step depends on another actor's, and each reply can
be worked out from the table of control points in docs/MODEL.md: that is done here, and nothing is
taken from the program. A line that takes longer than MS milliseconds, 1,000 without the option, is
wrong too. That is twenty times what a line may take, so that a busy machine passes, and what grows
with the square of the steps does not. Each check prints one line with the slowest line that it
asked, and the status is 1 if any of them is wrong. Only Python's standard library is used.
"""

import argparse
from collections.abc import Iterator

from lcrq_tools.checks.answers import file_of
from lcrq_tools.faults import Parser
from lcrq_tools.options import add_program
from lcrq_tools.program import Broken, Driven, print_checks
from lcrq_tools.start.starts import FAR, dequeuers

ACTORS = 8
EACH = 8_191  # steps of an actor
STEPS = ACTORS * EACH
RING = 4

Step = tuple[int, int]  # an actor, and how many steps of that actor are before it
Lines = list[tuple[str, str]]  # lines with their replies
Checks = Iterator[tuple[str, Lines]]

# ---- What the program has to answer --------------------------------------------------------------


def record(actor: int, before: int) -> str:
    """What `step K` says of the step after this many others of the actor, without its number: its
    rounds are Q2, Q3, Q4, Q7 and Q8."""
    drawn, part = divmod(before, 5)
    cell = f"{actor}.0 {drawn % RING}"
    rows = [f"head {actor}.0; wrote; {drawn}", f"value {cell}; read; none", f"index {cell}; read; 1 {drawn}"]
    rows += [f"cell {cell}; wrote index; won", f"tail {actor}.0; read; open {FAR}"]
    return f"go {actor}; {rows[part]}; -"


def in_turn() -> list[Step]:
    """The steps in turn."""
    return [(actor, before) for before in range(EACH) for actor in range(1, ACTORS + 1)]


def one_by_one() -> list[Step]:
    """All steps of the first actor, then all of the second one, and so on."""
    return sorted(in_turn())


def rolled_back(steps: list[Step], number: int) -> tuple[list[Step], list[Step]]:
    """The steps that stay when this one is rolled back, and those that go: the ones of its actor
    from there on."""
    before, later, actor = steps[:number - 1], steps[number - 1:], steps[number - 1][0]
    return before + [step for step in later if step[0] != actor], [step for step in later if step[0] == actor]


def makes(steps: list[Step]) -> Lines:
    """The lines that make these steps, the first of a run, with their replies."""
    return [(f"go {actor}", f"ok {number}") for number, (actor, _) in enumerate(steps, 1)]


def records(steps: list[Step], first: int = 1) -> Lines:
    """Lines that ask for the records of these steps, which are in a run from this number on, with
    their replies."""
    return [(f"step {number}", f"step {number}; {record(*step)}") for number, step in enumerate(steps, first)]


# ---- Checks --------------------------------------------------------------------------------------


def making() -> Checks:
    """Both orders, with a bookmark at each."""
    turn, single = in_turn(), one_by_one()
    yield "steps in turn", makes(turn) + [("mark turn", f"marked {STEPS}")]
    yield "their records", records(turn)
    yield "all of them back", [(f"back {STEPS}", f"at 0 {STEPS}")]
    yield "the same actor by actor", makes(single) + [("mark single", f"marked {STEPS}"), ("len", f"at {STEPS} 0")]
    yield "their records", records(single)


def comparing() -> Checks:
    """What `same` says: yes of two orders of independent steps, and no where one actor made a step
    less and another a step more."""
    yield "`same` of both orders", [("same turn single", "same yes"), ("same single turn", "same yes")]
    other = [("goto turn", f"at {STEPS} 0"), ("undo", f"at {STEPS - 1} 1"), ("go 1", f"ok {STEPS}")]
    yield "a last step by another actor", [*other, ("mark other", f"marked {STEPS}")]
    pairs = (("turn", "other"), ("other", "turn"), ("single", "other"), ("other", "single"))
    yield "`same` of that and each order", [(f"same {mark} {other}", "same no") for mark, other in pairs]
    yield "going back", [("goto turn", f"at {STEPS} 0"), ("drop other", "dropped")]


def rolling(number: int) -> Checks:
    """Rolling back a step of the run in turn, and redoing what went."""
    stay, gone = rolled_back(in_turn(), number)
    left = len(stay)
    yield f"`roll {number}`", [(f"roll {number}", f"at {left} {len(gone)}"), ("len", f"at {left} {len(gone)}")]
    yield f"the {left} steps that stay", records(stay) + [(f"step {left + 1}", f"refused 12 NoSuchStep {left}")]
    yield f"the {len(gone)} that went, redone", [(f"forward {len(gone)}", f"at {STEPS} 0"), *records(gone, left + 1)]
    pairs = (("turn", "rolled"), ("rolled", "turn"), ("single", "rolled"))
    compared = [(f"same {mark} {other}", "same yes") for mark, other in pairs]
    yield "`same` of the run and this", [("mark rolled", f"marked {STEPS}"), *compared]
    yield "going back", [("goto turn", f"at {STEPS} 0"), ("drop rolled", "dropped")]


def undoing() -> Checks:
    """Undoing a step alone: refused where its actor went on, and done where it did not; and last
    writers."""
    number = STEPS - ACTORS + 1
    yield "`undo 1`", [("undo 1", f"refused 13 Depended {ACTORS + 1}")]
    undone = [(f"undo {number}", f"at {STEPS - 1} 1"), ("redo", f"at {STEPS} 0")]
    yield "the last step of actor 1 alone", undone + records([(1, EACH - 1)], STEPS)
    compared = [("same turn alone", "same yes"), ("same alone turn", "same yes")]
    yield "`same` of the run and this", [("mark alone", f"marked {STEPS}"), *compared]
    yield "going back", [("goto turn", f"at {STEPS} 0"), ("drop alone", "dropped")]
    draws = (EACH - 1) // 5 * 5  # how many steps of an actor are before its last draw
    heads = [(f"writer head {actor}.0", f"writer {draws * ACTORS + actor}") for actor in range(1, ACTORS + 1)]
    yield "last writers", heads + [(f"writer tail {actor}.0", "writer none") for actor in range(1, ACTORS + 1)]


def all_checks() -> Checks:
    """The checks in the order of one session: each a name, and lines with their replies."""
    yield from making()
    yield from comparing()
    for number in (1, STEPS // 2, STEPS):
        yield from rolling(number)
    yield from undoing()


def slowest_and_fault(driven: Driven, lines: Lines, limit: float) -> tuple[str, str]:
    """What the slowest of these lines took; and what is wrong with their replies or with that time, or nothing."""
    fault, most, slowest = "", 0.0, ""
    for line, wanted in lines:
        reply, took, _ = driven.ask(line)
        if took > most:
            most, slowest = took, line
        if reply != wanted and not fault:
            fault = f"`{line}` has the reply `{reply}`, wanted `{wanted}`"
    if most > limit and not fault:
        fault = f"`{slowest}` took {most:,.0f} ms"
    return f"`{slowest}` took {most:.1f} ms", fault


def faults(given: argparse.Namespace) -> Iterator[tuple[str, str]]:
    """The checks, each a name with its slowest line and what is wrong, or nothing; and the end of the program."""
    with file_of(dequeuers(RING, range(1, ACTORS + 1))) as trace, Driven([given.program, "load", trace]) as driven:
        try:
            for name, lines in all_checks():
                slowest, fault = slowest_and_fault(driven, lines, given.limit)
                yield f"{name}: {slowest}", fault
            status = driven.end()
            yield "the end", f"the status is {status}" if status else ""
        except Broken as fault:
            yield "the end", str(fault)


def main() -> int:
    """Prints each check; returns the exit status."""
    parser = Parser(__doc__, "--limit 2000")
    add_program(parser)
    parser.add_argument("--limit", type=float, default=1000.0, help="the most milliseconds of a line (1000)")
    return print_checks(faults(parser.parse_args()))
