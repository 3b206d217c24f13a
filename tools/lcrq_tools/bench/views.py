"""Several viewers at once: how long their calls take beside one viewer's and beside `run`, and how much memory they
need.

    python3 tools/bench.py views [--program P] [--runs N] [--lines N] [--null]

Timed are `view` of four scripts of N lines each, `view` of one script of 4 N lines, and `run` of that script, in turn;
standard output gets one Markdown table. Every other line of a script is a step, the others are `len`. The replies are
counted: each viewer has one reply for each of its lines, and the history follows. With --null they go into /dev/null
instead, where a write costs next to nothing. Only Python's standard library is used.
"""

import functools
import itertools
import tempfile
from pathlib import Path

from lcrq_tools import program
from lcrq_tools.bench.measures import SPREAD, in_turn, print_times, script_in, watched
from lcrq_tools.faults import Parser
from lcrq_tools.options import add_program

VIEWERS = 4


def script_of(actor: int, lines: int) -> list[str]:
    """Dequeues of an empty queue by one actor, with a `len` after each of their steps."""
    steps = [f"deq {actor}"] + [f"go {actor}"] * 11
    return [line for number in range(lines // 2) for line in (steps[number % 12], "len")]


def runs_of(lines: int, folder: Path) -> dict[str, tuple[list[str], int]]:
    """The three ways by their names: the words, and how many lines are to be written."""
    scripts = [script_of(number, lines) for number in range(1, VIEWERS + 1)]
    files = [str(script_in(folder / f"viewer-{number}", script)) for number, script in enumerate(scripts, 1)]
    whole, total = str(script_in(folder / "whole", itertools.chain(*scripts))), VIEWERS * lines
    return {
        f"`view`, {VIEWERS} viewers of {lines:,} lines": (["view", *files], total + VIEWERS + 1),
        f"`view`, one viewer of {total:,} lines": (["view", whole], total + 2),
        f"`run` of {total:,} lines": (["run", whole], total),
    }


def main() -> int:
    parser = Parser(__doc__, "--runs 3")
    add_program(parser)
    parser.add_argument("--runs", type=int, default=9, help="how often each is run (9)")
    parser.add_argument("--lines", type=int, default=20_000, help="lines of each script (20000)")
    parser.add_argument("--null", action="store_true", help="write into /dev/null")
    given = parser.parse_args()
    with tempfile.TemporaryDirectory() as folder:
        ways = {
            name: functools.partial(watched, name, [given.program, *words], wanted, keeps=not given.null)
            for name, (words, wanted) in runs_of(given.lines, Path(folder)).items()
        }
        taken = in_turn(ways, given.runs)
    program.print_head("What", *SPREAD, "Peak")
    for name, runs in taken.items():
        peak = max(run.peak_kib for run in runs) / 1024
        print_times(name, [run.seconds for run in runs], "{:.3f} s", f"{peak:.0f} MiB")
    return 0
