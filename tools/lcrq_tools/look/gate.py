"""Shows where the processor minutes of a gate go: proofs, proofs of tests and must-fail edits, crate by crate.

    python3 tools/gate.py --watch TIMES
    python3 tools/gate.py TIMES.. [--of FOLDER]

With --watch it looks five times a second at the checker's processes on this machine, and appends a line to TIMES for
each that has ended: processor seconds, seconds, most memory in KiB, the folder that it was called in, and its words,
with tabs between. It goes on until it is stopped. Start it before `rt ci`.

Otherwise it prints a table for each TIMES. With --of, calls count only if they were made below this folder, the top of
the repository that `rt ci` proves, or for must-fail edits, so that checks elsewhere at the same time don't. The unit is
one proof of rd_step alone. Only Python's standard library is used.
"""

import os
import re
import time
from collections import defaultdict
from typing import NamedTuple, NoReturn

from lcrq_tools.faults import Fault, Parser
from lcrq_tools.program import peak_of, print_head, print_row

UNIT = ("rd_step", "proofs")
KINDS = ("proofs", "tests", "edits")
LOOK_EVERY = 0.2

Times = defaultdict[tuple[str, str], float]  # processor seconds by crate and kind


class Seen(NamedTuple):
    """What a process of the checker has taken so far, and what it was called for."""

    seconds: float  # of the processor
    peak: int  # KiB
    folder: str
    words: str


# ---- Watching ------------------------------------------------------------------------------------


def text_of(path: str) -> bytes:
    """The bytes of a file of /proc; none if the process has gone."""
    try:
        with open(path, "rb") as file:
            return file.read()
    except OSError:
        return b""


def folder_of(number: str) -> str:
    """The folder in which a process runs; nothing if it has gone."""
    try:
        return os.readlink(f"/proc/{number}/cwd")
    except OSError:
        return ""


def look() -> dict[tuple[str, str], Seen]:
    """The checker's processes: processor seconds, most memory, folder and words, by number and start."""
    found: dict[tuple[str, str], Seen] = {}
    tick = os.sysconf("SC_CLK_TCK")
    for number in filter(str.isdigit, os.listdir("/proc")):
        stat = text_of(f"/proc/{number}/stat")
        if b"(rattle)" not in stat:
            continue
        fields = stat[stat.rindex(b")") + 2:].split()
        words = text_of(f"/proc/{number}/cmdline").decode(errors="replace")
        # its own time, and that of the processes that it started and that have ended
        seconds = sum(map(int, fields[11:15])) / tick
        called = re.sub(r"[\0\t\n]", " ", words)
        found[number, fields[19].decode()] = Seen(seconds, peak_of(int(number)), folder_of(number), called)
    return found


def watch(path: str) -> NoReturn:
    """Appends what each process took when it has ended."""
    seen: dict[tuple[str, str], Seen] = {}
    began: dict[tuple[str, str], float] = {}
    with open(path, "a", encoding="utf-8", buffering=1) as times:
        while True:
            now = look()
            for key in [key for key in seen if key not in now]:
                seconds, peak, folder, words = seen.pop(key)
                times.write(f"{seconds:.2f}\t{time.time() - began.pop(key):.2f}\t{peak}\t{folder}\t{words}\n")
            for key in now:
                began.setdefault(key, time.time())
            # a process that is ending has no memory, folder or words any more: what was seen before
            # stays
            seen |= {key: process for key, process in now.items() if process.words or key not in seen}
            time.sleep(LOOK_EVERY)


# ---- The table -----------------------------------------------------------------------------------


def kind_of(folder: str, words: str) -> tuple[str, str] | None:
    """Returns the crate and what a call of the checker was for; none for what checks no crate."""
    crate = re.search(r"--crate-name (\w+)", words)
    if not crate:
        return None
    if "rt-edit" in folder:
        return crate[1], "edits"
    # the tests of rd_x are the crate rd_x_tests
    name = crate[1].removesuffix("_tests")
    return name, "tests" if name != crate[1] or " --test " in f"{words} " else "proofs"


def times_of(path: str, top: str = "") -> Times:
    """Returns the processor seconds by crate and kind, of calls below a folder and of must-fail edits."""
    times: Times = defaultdict(float)
    with open(path, encoding="utf-8") as lines:
        for line in lines:
            seconds, _, _, folder, words = line.rstrip("\n").split("\t", 4)
            kind = kind_of(folder, words)
            if kind and (kind[1] == "edits" or f"{folder}/".startswith(top)):
                times[kind] += float(seconds)
    if not times:
        raise Fault(f"{path} has no such call of the checker")
    return times


def show(times: Times) -> None:
    """Prints the table of one gate."""
    unit, total = times[UNIT] or 1.0, sum(times.values())
    print_head("Crate", "Proofs", "Tests", "Edits", "Share")
    for crate in sorted({crate for crate, _ in times}, key=lambda crate: -sum(times[crate, kind] for kind in KINDS)):
        parts = [times[crate, kind] / unit for kind in KINDS]
        print_row(crate, *(f"{part:.1f}" for part in parts), f"{sum(parts) * unit / total:.0%}")
    sums = [sum(seconds for (_, kind), seconds in times.items() if kind == which) for which in KINDS]
    print_row("all", *(f"{part / unit:.1f}" for part in sums), f"{total / unit:.0f} units")
    print(f"\n{total / 60:.0f} processor minutes; the unit is {unit / 60:.2f} of them.")


def main() -> int:
    """Watches, or prints the tables, as the command line asks; returns the exit status."""
    parser = Parser(__doc__, "--watch times")
    parser.add_argument("times", nargs="+", help="the files of times; with --watch the one to append to")
    parser.add_argument("--watch", action="store_true", help="watch the checker's processes until stopped")
    parser.add_argument("--of", default="", metavar="FOLDER", help="count only calls below this folder, and edits")
    given = parser.parse_args()
    times: list[str] = given.times
    if given.watch:
        watch(times[0])
    for path in times:
        show(times_of(path, os.path.join(os.path.abspath(given.of), "") if given.of else ""))
    return 0
