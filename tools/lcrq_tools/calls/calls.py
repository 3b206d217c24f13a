"""Draws the calls of a run, or of a port's log, as intervals, and looks for an order that a FIFO queue could have
answered so.

    python3 tools/calls.py session.script --fifo -o calls.svg

SCRIPT is run by the program, and its live steps give the calls: what was undone is no part of the run. `--history`
takes what viewers did in its place. A port's logs, whose form docs/MANUAL.md has under PORTS, are read alone and
compared with nothing, so a port may differ from the model. A call begins where it is asked, and ends with its reply.

With --fifo an order of the calls is looked for: each call at a point in its interval, so that a FIFO queue replies the
same. LCRQ and the array queue are two queues. A call that never ended may or may not have taken effect. An order has
its points in the picture, and its calls are listed in it; where there is none, a set of calls is named that has none,
and no part of it can be left out. Whether there is an order is decided for most histories at once; where values are
put more often than once, up to --tries configurations are tried. What is found is about these calls, and about
nothing else.

The status is 0; with --fifo, 1 if there is no order, 3 if that was not decided. It is 2 for any fault.
"""

import argparse
from collections.abc import Iterator, Sequence

from lcrq_tools import options
from lcrq_tools.calls import intervals
from lcrq_tools.calls.culprits import culprits_of
from lcrq_tools.calls.intervals import ARRAY, RING, Call, Found
from lcrq_tools.calls.orders import Answer, answer_of
from lcrq_tools.calls.whiteboard import JUDGED, Board, draw
from lcrq_tools.faults import FAULTS, Fault, Parser, say, text_of
from lcrq_tools.program import counted

NO_ORDER, NOT_DECIDED = 1, 3  # the statuses of --fifo beside 0
TRIES = 100_000

# ---- The command line -----------------------------------------------------------------------------


def parser() -> Parser:
    """The command line."""
    command = Parser(__doc__, "session.script --fifo -o calls.svg")
    named = "a script, or logs of a port, which are merged by their stamps; - is standard input"
    command.add_argument("names", metavar="SCRIPT|LOG", nargs="*", help=named)
    viewers = "in place of SCRIPT: what `lcrqdb view FILE.. --history` wrote, or its lines `V LINE`"
    command.add_argument("--history", metavar="FILE", help=viewers)
    command.add_argument("--fifo", action="store_true", help="look for an order that a FIFO queue could have answered")
    tries = f"how many configurations may be tried ({TRIES:,})"
    command.add_argument("--tries", metavar="N", type=options.number_above_0, default=TRIES, help=tries)
    options.add_output(command, "OUT.svg")
    options.add_world(command)
    options.add_refused(command)
    options.add_program(command)
    command.set_defaults(lines=None, program=None)  # a log is read without the program
    return command


# ---- What is found --------------------------------------------------------------------------------


def listed(calls: Sequence[Call]) -> Iterator[str]:
    """Calls, a line each."""
    yield from (f"  {number}. {call}" for number, call in enumerate(calls, 1))


def judged(queue: str, calls: Sequence[Call], tries: int) -> tuple[Answer, tuple[Call, ...], str]:
    """The answer about the calls of a queue, the culprits where it has no order, and the answer in words."""
    answer = answer_of(calls, tries)
    number = counted(len(calls), "call")
    if answer.order is not None:
        return answer, (), f"{queue}, {number}: a FIFO queue can have answered so in the order that the points have"
    if not answer.is_decided:
        return answer, (), f"{queue}, {number}: not decided after {counted(answer.tried, 'configuration')}"
    culprits = culprits_of(calls, tries)
    return answer, culprits.calls, f"{queue}, {number}: no FIFO queue can have answered so: {culprits.why}"


def board_of(found: Found, is_judged: bool, tries: int) -> tuple[Board, list[str], int]:
    """What is drawn of calls, what is printed, and the status."""
    if not is_judged:
        return Board(found.name, found.calls), [*map(str, found.calls)], 0
    if found.hindrance:
        raise Fault(f"{found.name}: {found.hindrance}")
    said, printed, statuses = [], [], [0]
    orders: list[tuple[Call, ...]] = []
    culprits: tuple[Call, ...] = ()
    for queue in (RING, ARRAY):
        calls = [call for call in found.calls if call.queue() == queue]
        if not calls:
            continue
        answer, wrong, words = judged(queue, calls, tries)
        said.append(words)
        printed += [words.replace("the order that the points have", "this order"), *listed(answer.order or wrong)]
        orders += [answer.order] if answer.order is not None else []
        culprits += wrong
        statuses.append(0 if answer.order is not None else NO_ORDER if answer.is_decided else NOT_DECIDED)
    status = NO_ORDER if NO_ORDER in statuses else max(statuses)
    board = Board(found.name, found.calls, tuple(orders), culprits, (*said, JUDGED))
    return board, [*printed, JUDGED], status


def drawn_of(arguments: argparse.Namespace) -> tuple[str, str]:
    """The calls that are asked for as SVG, and what to say of refused lines."""
    found = intervals.read(arguments)
    return draw(board_of(found, arguments.fifo, arguments.tries)[0]), found.said


def show(arguments: argparse.Namespace) -> int:
    """Draws and prints the calls that are asked for; returns the exit status."""
    found = intervals.read(arguments)
    if found.said:
        say(found.said)
    if not found.calls:
        raise Fault(f"{found.name}: no call")
    board, printed, status = board_of(found, arguments.fifo, arguments.tries)
    if arguments.out is not None:
        options.write(arguments.out, draw(board))
    if arguments.out != "-":
        print("\n".join(printed))
    return status


def main(words: Sequence[str] | None = None) -> int:
    """Shows the calls of a command line. Its status is 1 where they have no order, and so 2 for a fault."""
    try:
        return show(parser().parse_args(words))
    except FAULTS as fault:
        raise Fault(text_of(fault), 2) from fault
