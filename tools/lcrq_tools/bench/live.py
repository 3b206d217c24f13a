"""Live viewers: how long their calls take beside those of `view`, and a reply over pipes beside one of `run`.

    python3 tools/bench.py live [--program P] [--runs N] [--lines N] [--asked N]

Timed are `view --live` and `view` of four plain files with N lines each, in turn; then, in turn too, lines of a live
viewer at two named pipes and of `run -` at two pipes, each line written when the reply to the one before is there.
Standard output gets one Markdown table, and how many times as long the live viewers take, best run beside best run.
Every other line is a step, the others are `len`. The replies are counted. Only Python's standard library is used.

A history has 100,000 calls at most, so four files can have 25,000 lines each. A round trip begins when the client
writes the line; what the client takes itself is in both times.
"""

import os
import tempfile
import time
from collections.abc import Callable, Sequence
from pathlib import Path

from lcrq_tools import program
from lcrq_tools.bench.measures import SPREAD, in_turn, print_times, script_in, watched
from lcrq_tools.bench.views import VIEWERS, script_of
from lcrq_tools.clients import Client, Live, finish, piped, replies_of, talk
from lcrq_tools.faults import Fault, Parser
from lcrq_tools.options import add_program

FIRST = 100  # lines that are asked before the clock starts
MOST_VIEW, MOST_TRIP = 1.5, 2.0  # times as long as the other way: no more is wanted

Ways = dict[str, Callable[[], float]]  # by name what runs a way and returns its seconds: live viewers, then the other


# ---- Files ---------------------------------------------------------------------------------------


def live_seconds(built: str, files: Sequence[Path], lines: int) -> float:
    """The seconds of live viewers of files with so many lines each."""
    ended = watched("view", [built, "view", "--live", *map(str, files)], 1)
    for file in map(replies_of, files):
        replies = file.read_bytes().count(b"\n")
        file.unlink()
        if replies != lines:
            raise Fault(f"{file.name} has {replies} replies to {lines} lines")
    return ended.seconds


def ways_of_files(built: str, folder: Path, lines: int) -> Ways:
    """Both ways to read files, which are written into a folder."""
    numbers = range(1, VIEWERS + 1)
    files = [script_in(folder / f"viewer-{number}", script_of(number, lines)) for number in numbers]
    view, written = [built, "view", *map(str, files)], VIEWERS * (lines + 1) + 1
    name = f"{VIEWERS} files of {lines:,} lines"
    return {
        f"`view --live`, {name}": lambda: live_seconds(built, files, lines),
        f"`view`, {name}": lambda: watched("view", view, written).seconds,
    }


# ---- Round trips ---------------------------------------------------------------------------------


def round_trip(client: Client) -> float:
    """The milliseconds between a line and its reply, of all lines of a client but the first ones."""
    talk([client], FIRST)
    begin = time.perf_counter()
    talk([client])
    seconds = time.perf_counter() - begin
    finish([client])
    return 1000 * seconds / (len(client.lines) - FIRST)


def live_trip(built: str, folder: Path, script: Sequence[str]) -> float:
    """The round trip of a live viewer at named pipes, which are made in a folder."""
    asked = folder / "asked"
    for pipe in (asked, replies_of(asked)):
        pipe.unlink(missing_ok=True)
        os.mkfifo(pipe)
    with Live([built, "view", "--live", str(asked)]) as live:
        took = round_trip(live.client("the viewer", asked, script))
        ended = live.end()
    if ended.status:
        raise Fault(ended.errors.strip())
    return took


def run_trip(built: str, script: Sequence[str]) -> float:
    """The round trip of a run."""
    with piped([built, "run", "-"], "the run", script) as (_, client):
        return round_trip(client)


def ways_of_pipes(built: str, folder: Path, asked: int) -> Ways:
    """Both ways to ask so many lines over pipes."""
    script = script_of(1, asked + FIRST)
    return {
        f"a reply of `view --live`, {asked:,} lines": lambda: live_trip(built, folder, script),
        f"a reply of `run -`, {asked:,} lines": lambda: run_trip(built, script),
    }


def main() -> int:
    parser = Parser(__doc__, "--runs 3")
    add_program(parser)
    parser.add_argument("--runs", type=int, default=5, help="how often each is run (5)")
    parser.add_argument("--lines", type=int, default=20_000, help="lines of each file (20000)")
    parser.add_argument("--asked", type=int, default=5_000, help="lines over pipes (5000)")
    given = parser.parse_args()
    with tempfile.TemporaryDirectory() as name:
        files = in_turn(ways_of_files(given.program, Path(name), given.lines), given.runs)
        trips = in_turn(ways_of_pipes(given.program, Path(name), given.asked), given.runs)
    program.print_head("What", *SPREAD)
    for taken, unit in ((files, "s"), (trips, "ms")):
        for way, times in taken.items():
            print_times(way, times, f"{{:.3f}} {unit}")
    for taken, most in ((files, MOST_VIEW), (trips, MOST_TRIP)):
        live, other = (min(times) for times in taken.values())
        print(f"{live / other:.2f} times as long, at most {most} is wanted")
    return 0
