"""A stress of a desk: 64 viewers at once, whose history is replayed.

    python3 tools/check.py viewers [--runs N]

The program in `viewers.rattle` is written into a temporary folder beside a copy of the crates, and `rt try`
builds and runs it there; it is not proved. In each run 64 viewers ask 1,560 commands each in threads of their
own, some of which may be refused. Then the history of the closed desk is replayed over a fresh
book: every answer has to come again, and the calls of each viewer are in its order. Last, one
viewer alone fills a history of 100,000 calls, and the program writes the most memory that it ever
held.

`rt` has to be on the PATH. Only Python's standard library is used.
"""

import re
import sys
from pathlib import Path

from lcrq_tools import program
from lcrq_tools.faults import Parser

USES = "rd_step rd_journal rd_marks rd_lock rd_desk".split()
BELOW = "rd_cell rd_ring rd_actor rd_segments rd_inverse rd_depend rd_equivalence rd_origin".split() + USES

PROGRAM = Path(__file__).with_suffix(".rattle")  # `rt ci` takes a file that ends with .rt for one of a crate


def main() -> int:
    parser = Parser(__doc__, "--runs 3")
    parser.add_argument("--runs", type=int, default=9, help="how often the 64 viewers ask (9)")
    runs = parser.parse_args().runs
    source = PROGRAM.read_text(encoding="utf-8").replace("RUNS", str(runs)).replace("CALLS", "1_560")
    ran = program.try_program(source, USES, BELOW, "--seconds", "1200")
    replayed = re.findall(r"replayed (\d+)", ran.stdout)
    peak, call = re.search(r"VmHWM:\s+(\d+) kB", ran.stdout), re.search(r"call (\d+)", ran.stdout)
    if len(replayed) != runs or not peak or not call:
        print(ran.stdout[-4000:], ran.stderr[-4000:], sep="\n", file=sys.stderr)
        return 1
    calls, held, own = int(replayed[0]), int(peak[1]) / 1024, 100_000 * int(call[1]) / 2**20
    print(f"{runs} runs of 64 viewers, {calls:,} calls each, replayed to the same answers.")
    print(f"100,000 calls of one viewer: at most {held:.1f} MiB, of which the history is {own:.1f}.")
    return 0
