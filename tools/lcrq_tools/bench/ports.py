"""Logs of a port: how many records a second `conform.py` compares, with words, and what it holds.

    python3 tools/bench.py ports [--program P] [--calls N] [--ring R] [--seed S]

The worked port of examples/port/ is built, and four threads make N calls each, in an order that the seed draws.
Its log is compared from a file, and from a pipe. Standard output gets one Markdown table: records, seconds,
records a second, and the most memory of the tool. With 250,000 calls, rings of 8 and seed 3 a log has some ten
million records. A build of `quick_build.py` has checks of memory, and does about a thousand records a second:
take a proved one for long logs.
"""

import re
import subprocess
import sys
import tempfile
from pathlib import Path

from lcrq_tools import program
from lcrq_tools.faults import Fault, Parser
from lcrq_tools.options import add_program, add_ring
from lcrq_tools.places import EXAMPLES, TOP
from lcrq_tools.program import print_head, print_row

SECONDS = 3600.0  # a comparison that takes longer has failed


def log_of(folder: Path, words: list[str]) -> Path:
    """The log of a run of the port, which is built."""
    made = program.run(["make", "-s", "-C", str(EXAMPLES / "port"), f"OUT={folder}"])
    if made.status:
        raise Fault(made.errors.strip())
    log = folder / "port.log"
    with log.open("wb") as output:
        program.run([str(folder / "lcrq"), "--turns", *words], stdout=output, timeout=SECONDS)
    return log


def measure(name: str, words: list[str], given: int) -> None:
    """Prints the row of a comparison, which has to agree."""
    ended = program.watch(words, given, seconds=SECONDS, look_every=0.1)
    found = re.match(rb"agrees: ([0-9,]+) steps, .* ([0-9,]+) replies", ended.output)
    if ended.status or not found:
        raise Fault(f"{name}: status {ended.status}: {ended.errors or ended.output.decode()[:200]}")
    records = sum(int(count.replace(b",", b"")) for count in found.groups())
    rate = f"{records / ended.seconds:,.0f}"
    print_row(name, f"{records:,}", f"{ended.seconds:.1f}", rate, f"{ended.peak_kib / 1024:.0f} MiB")


def main() -> int:
    """Measures both ways."""
    command = Parser(__doc__, "--calls 25000")
    command.add_argument("--calls", type=int, default=25_000, help="of each of four threads (25000)")
    command.add_argument("--seed", type=int, default=3, help="of the order (3)")
    add_ring(command)
    add_program(command)
    given = command.parse_args()
    ring = ["--ring", str(given.ring or 8)]
    with tempfile.TemporaryDirectory() as folder:
        log = log_of(Path(folder), [*ring, "--calls", str(given.calls), "--seed", str(given.seed)])
        words = [sys.executable, str(TOP / "tools/conform.py"), *ring, "--program", given.program]
        print_head("Log", "records", "seconds", "records/s", "memory")
        measure("a file", [*words, str(log)], subprocess.DEVNULL)
        with log.open("rb") as pipe:
            measure("standard input", [*words, "-"], pipe.fileno())
    return 0
