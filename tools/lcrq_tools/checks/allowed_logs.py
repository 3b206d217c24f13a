"""Compares runs of the worked port in which it does on purpose something else than the pseudo-code, for
`check.py ports`: without --allow they differ, with it they agree and each use is counted.

How often the port does it, this finds in the log alone.
"""

import re
from collections.abc import Callable, Iterator

from lcrq_tools.checks.port_runs import Bench, Report, agrees, differs, steps_with
from lcrq_tools.port.port_log import Record
from lcrq_tools.program import EXAMPLES, counted

SEEDS = range(1, 5)
FILES = {"--keep": EXAMPLES / "port/keep.allow", "--cell": EXAMPLES / "port/cell.allow"}
WHAT = {"--keep": "E12 reuses its own unlinked ring", "--cell": "E5 reads the whole cell"}
SAID = {"--keep": "the port is at E13, the model at E12", "--cell": "at E5 the port found "}

Row = tuple[int, Record, Record | None]  # a step, its record, and the actor's record before it
# Whether the port does it at a record.
DOES: dict[str, Callable[[Row], bool]] = {
    "--keep": lambda row: row[1].label == "E13" and row[2] is not None and row[2].label != "E12",
    "--cell": lambda row: row[1].label == "E5" and len(row[1].answer) == 3,
}


def uses_fault(report: Report, line: str) -> str:
    """What is wrong where a log should agree, and this line count the uses; or nothing."""
    last = report[1].splitlines()[-1]
    return agrees(report) or ("" if last == line else f"`{last}`, where `{line}` is wanted")


def changed_fault(bench: Bench, option: str, rows: list[Row], uses: list[int]) -> str:
    """What is wrong where another access found something else, behind the first use; or nothing."""
    later = ((index, row) for index, row in enumerate(rows) if index > uses[0])
    index, row = next((index, row) for index, row in later if row[1].label == "Q8")
    lines = [record.text for _, record, _ in rows]
    lines[index] = re.sub(r"[0-9]+$", lambda found: str(int(found[0]) + 1), lines[index])
    step = row[0] + sum(use < index for use in uses)
    return differs(bench.compare(lines, "--ring", 2, "--allow", FILES[option]), "at Q8 the port found", step)


def run_fault(bench: Bench, option: str, seed: int) -> tuple[int, str]:
    """How often the port does it in a run, and what is wrong with what is said of it, or nothing."""
    log = bench.log_of("lcrq", "--ring", 2, "--seed", seed, "--calls", 12, "--turns", option)
    rows = [*steps_with(bench.records_of(log))]
    uses = [index for index, row in enumerate(rows) if DOES[option](row)]
    if not uses:
        return 0, agrees(bench.compare(log, "--ring", 2))
    line = f"allowed: `{WHAT[option]}` {counted(len(uses), 'time')}"
    fault = differs(bench.compare(log, "--ring", 2), SAID[option], rows[uses[0]][0])
    fault = fault or uses_fault(bench.compare(log, "--ring", 2, "--allow", FILES[option]), line)
    return len(uses), fault or changed_fault(bench, option, rows, uses)


def allowed_runs(bench: Bench) -> Iterator[tuple[str, str]]:
    """The runs of each option."""
    for option, what in WHAT.items():
        found = [run_fault(bench, option, seed) for seed in SEEDS]
        count, fault = sum(count for count, _ in found), next((fault for _, fault in found if fault), "")
        name = f"{what}: {count} times in {len(SEEDS)} runs, with and without --allow"
        yield name, fault or ("" if count else "never")
    yield from file_runs(bench)


def file_runs(bench: Bench) -> Iterator[tuple[str, str]]:
    """Other files."""
    file = bench.folder / "both.allow"
    file.write_text("".join(path.read_text(encoding="ascii") for path in FILES.values()), encoding="ascii")
    log = bench.log_of("lcrq", "--ring", 2, "--seed", 1, "--calls", 12, "--turns")
    names = ", ".join(f"`{what}` ({file}:{number})" for number, what in zip((2, 4), WHAT.values()))
    report = bench.compare(log, "--ring", 2, "--allow", file)
    yield "what is allowed and never used is named", uses_fault(report, f"allowed: never used: {names}")
    log = bench.log_of("lcrq-lost-race-fails", "--ring", 2, "--seed", 1, "--calls", 20, "--turns")
    file.write_text("E14 replied failed: the caller tries again\n", encoding="ascii")
    report = bench.compare(log, "--ring", 2, "--allow", file)
    count = sum(record.reply == ("failed",) for record in bench.records_of(log))
    line = f"allowed: `E14 replied failed` {counted(count, 'time')}"
    yield f"{count} differences that are allowed as a report says them", uses_fault(report, line)
