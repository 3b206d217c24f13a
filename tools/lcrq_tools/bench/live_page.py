"""The live page: how long it takes to open a run, and until a click's effect is there.

    python3 tools/bench.py live_page [--program P] [--steps 400,60000] [--asked N]

Of each length a random run is opened. Timed are the start of `live.py` until it prints its address, and of N lines of
each kind the time from the request of a tab to the event that tells what changed. Where Debian's chromium,
chromium-driver and python3-selenium are, by /usr/bin/python3, it is timed in the browser too, from a click to the
frame that shows it. Standard output gets one Markdown table.
"""

import tempfile
import time
from collections.abc import Callable, Iterator, Sequence
from pathlib import Path

from lcrq_tools import program
from lcrq_tools.bench.measures import SPREAD, lengths, print_times, script_in
from lcrq_tools.bench.random_runs import random_run
from lcrq_tools.checks import browser
from lcrq_tools.checks.live_clients import Follower, Served
from lcrq_tools.faults import Parser
from lcrq_tools.options import add_program

WORLD = ["--actors", "4", "--ring", "4"]
MIB = 1024  # KiB
# From a line that a page asks to the frame behind the one in which it is shown.
SHOWN = """
const done = arguments[arguments.length - 1], begin = performance.now();
submit(arguments[0]).then(() => requestAnimationFrame(() => setTimeout(() => done(performance.now() - begin), 0)));
"""


def kinds(steps: int) -> dict[str, list[str]]:
    """Lines that change a run of so many steps and lead back, by what they are called."""
    return {
        "an undo and its redo": ["undo", "redo"], "a refused undo": ["undo 1"],
        "a bookmark and back": ["mark a", "goto a", "drop a"],
        f"back and forward by {min(steps, 100)}": [f"back {min(steps, 100)}", f"forward {min(steps, 100)}"],
    }


def told(served: Served, lines: Sequence[str], count: int) -> Iterator[float]:
    """The milliseconds from each request to its event."""
    tab = served.tab("tab-of-a-measurement").join("bench")
    follower = Follower(tab)
    follower.start()
    for number in range(count):
        begin = time.perf_counter()
        answer = tab.ask(lines[number % len(lines)])
        follower.await_line(answer["call"])
        yield 1000 * (time.perf_counter() - begin)


def seen(served: Served, lines: Sequence[str], count: int) -> Iterator[float]:
    """The milliseconds from each click to the frame that shows it, in a browser."""
    page = browser.Browser()
    try:
        page.driver.get(served.addresses[0])
        while not page.ask("typeof page !== 'undefined' && page.states.length > 0 && live.viewer > 0"):
            time.sleep(0.1)
        for number in range(count):
            yield page.driver.execute_async_script(SHOWN, lines[number % len(lines)])
    finally:
        page.driver.quit()


def measure(built: str, steps: int, count: int, folder: Path) -> None:
    """Prints the rows of a run of so many steps."""
    script = script_in(folder / f"{steps}.script", random_run(steps))
    begin = time.perf_counter()
    with Served(built, folder, str(script), *WORLD) as served:
        program.print_row(f"{steps:,} steps: opened", f"{time.perf_counter() - begin:.2f} s", "", "")
        ways: list[tuple[str, Callable[[Served, Sequence[str], int], Iterator[float]]]] = [("told", told)]
        ways += [] if browser.missing() else [("on the screen", seen)]
        for what, way in ways:
            for name, lines in kinds(steps).items():
                print_times(f"{steps:,} steps: {name}, {what}", [*way(served, lines, count)], "{:.0f} ms")
        peak = program.peak_of(served.child.pid)
        program.print_row(f"{steps:,} steps: most memory of the server", f"{peak / MIB:.0f} MiB", "", "")


def main() -> int:
    """Prints the table; returns the exit status."""
    parser = Parser(__doc__, "--steps 400")
    parser.add_argument("--steps", type=lengths, default=[400, 60_000], metavar="N,N..", help="lengths (400,60000)")
    parser.add_argument("--asked", type=int, default=30, metavar="N", help="lines of each kind (30)")
    add_program(parser)
    given = parser.parse_args()
    program.print_head("What", *SPREAD)
    with tempfile.TemporaryDirectory() as name:
        for steps in given.steps:
            measure(given.program, steps, given.asked, Path(name))
    return 0
