"""Says what each line of a run did, in a sentence behind its reply, for whoever reads or teaches the run.

    python3 tools/explain.py (SCRIPT | --history FILE) [--table] [--lines N] [-o OUT] [--actors A] [--ring R]
        [--trace FILE] [--refused] [--program P]

Each line of the script, or each call of a history, gets a line: its number, its text, its reply, and what that
means (`teller.py`). With `--table` these are the rows of a Markdown table, as in the lessons. The script goes
on to its end, but the status is 1, with the reason in one line, where a line that makes a step is refused, or
one that is no command, unless `--refused` is given. Only Python's standard library is used.
"""

import argparse
from collections.abc import Iterable, Sequence

from lcrq_tools.draw.figure import given_of, words_of
from lcrq_tools.draw.viewer_marks import viewer_name
from lcrq_tools.faults import say
from lcrq_tools.options import number_above_0, run_parser, settled, write
from lcrq_tools.program import Driven, lines_of, refusals_of, row_of
from lcrq_tools.speak.teller import Spoken, Teller

HEAD = ("Line", "Reply", "What happens")
Row = tuple[str, str, str, str]  # a line's number, its text, its reply, and what it did
MOST_WIDE = 32  # letters of a column that all rows keep free


def spoken_of(words: list[str], lines: Iterable[str]) -> list[Spoken]:
    """What a run of the program by these words says of these lines."""
    with Driven(words) as driven:
        teller = Teller(driven.ask_all)
        return [teller.tell(line) for line in lines]


def plain(rows: Sequence[Row]) -> str:
    """Rows as text, with columns below each other. The last column is as wide as it is."""
    widths = [min(MOST_WIDE, max(map(len, column))) for column in zip(*rows)][:-1]
    texts = ("  ".join([*map(str.ljust, row, widths), row[-1]]) for row in rows)
    return "".join(f"{text}\n" for text in texts)


def table(rows: Sequence[Row]) -> str:
    """Rows as a Markdown table, without their numbers."""
    quoted = (row_of(f"`{line}`", f"`{reply}`", what) for _, line, reply, what in rows)
    return "\n".join([row_of(*HEAD), "|---" * len(HEAD) + "|", *quoted, ""])


def text_of(arguments: argparse.Namespace, spoken: list[Spoken], viewers: tuple[int, ...]) -> str:
    """The lines of a run with what they did, as the command line asks."""
    asked = [f"{viewer_name(viewer)}: " for viewer in viewers] or [""] * len(spoken)
    rows = [
        (f"{number:>4}", each.line, each.reply, f"{viewer}{each.sentence}")
        for number, (each, viewer) in enumerate(zip(spoken, asked), 1)
    ]
    if not rows:
        return ""
    return table(rows) if arguments.table else plain(rows)


def main() -> int:
    """Says what each line did; returns the exit status."""
    parser = run_parser(__doc__, "session.script", "OUT")
    parser.add_argument("--lines", type=number_above_0, metavar="N", help="run the first N lines of the script alone")
    parser.add_argument("--table", action="store_true", help="a Markdown table, as in the lessons")
    arguments = settled(parser)
    script, viewers = given_of(arguments)
    spoken = spoken_of(words_of(arguments), lines_of(script.decode("latin-1")))
    write(arguments.out, text_of(arguments, spoken, viewers))
    refused, has_fault = refusals_of(script, [each.reply for each in spoken])
    if has_fault and not arguments.refused:
        say(f"{refused}; --refused takes it as it is")
    return int(has_fault and not arguments.refused)
