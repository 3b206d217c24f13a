"""Compares logs that come slowly, that are long, and whose folder for files is none, for `check.py ports`:
`tools/conform.py` says what differs as soon as it comes, and holds no more for a longer log.
"""

import contextlib
import os
import pty
import random
import re
import select
import subprocess
import sys
import time
from collections.abc import Iterator
from pathlib import Path

from lcrq_tools import program
from lcrq_tools.checks.port_runs import DIFFERS, Bench, Report, agrees, steps_with
from lcrq_tools.program import TOP, script_of

LATE, LATE_UNPROVED = 0.2, 5.0  # seconds from a record to the difference that it makes
STARTED = 4.0  # seconds in which the tool has started, and compared what is there
MOST_KIB = 100_000  # that the tool may hold
CALLS, MANY = 60, 1600  # of each of four threads


def told_in_pipe(bench: Bench, log: list[str], at: int) -> tuple[str, float]:
    """The first line that is said of a log in a pipe whose record at this place comes late, and how long after it;
    the pipe stays open."""
    words = [sys.executable, str(TOP / "tools/conform.py"), "-", "--ring", "2", "--program", bench.program]
    with subprocess.Popen(words, stdin=subprocess.PIPE, stdout=subprocess.PIPE) as child:
        assert child.stdin and child.stdout  # pipes
        child.stdin.write(script_of(log[:at]))
        child.stdin.flush()
        time.sleep(LATE_UNPROVED if is_slow(bench) else STARTED)
        child.stdin.write(script_of(log[at : at + 1]))
        child.stdin.flush()
        begin = time.monotonic()
        line = child.stdout.readline().decode()
        seconds = time.monotonic() - begin
        child.kill()
        with contextlib.suppress(BrokenPipeError):
            child.stdin.close()
    return line, seconds


def is_slow(bench: Bench) -> bool:
    """Whether the program has checks of memory."""
    return program.is_unproved(Path(bench.program).read_bytes())


def pipe_fault(bench: Bench) -> str:
    """What is wrong with what is said of a difference in a pipe, or nothing."""
    log = bench.log_of("lcrq", "--ring", 2, "--seed", 2, "--calls", 12, "--turns")
    step, at = next((step, at) for at, (step, it, _) in enumerate(steps_with(bench.records_of(log))) if it.label == "Q8")
    words = log[at].split(" ")
    line, seconds = told_in_pipe(bench, [*log[:at], " ".join([*words[:-1], "9999"])], at)
    found = DIFFERS.match(line)
    if not found or int(found[1]) != step:
        return f"`{line}` is said, where step {step} is wanted"
    most = LATE_UNPROVED if is_slow(bench) else LATE
    return "" if seconds <= most else f"it is said after {seconds:.2f} s, {most} at most are wanted"


def memory_fault(bench: Bench, calls: int) -> str:
    """What is wrong with what the tool holds for a log, or nothing."""
    log = bench.file_of(bench.log_of("lcrq", "--ring", 8, "--seed", 3, "--calls", calls, "--turns"))
    words = [sys.executable, str(TOP / "tools/conform.py"), log, "--ring", "8", "--program", bench.program]
    ended = program.watch(words, look_every=0.05)
    if ended.status:
        return f"status {ended.status}: {ended.errors}"
    return "" if ended.peak_kib <= MOST_KIB else f"it holds {ended.peak_kib:,} KiB, {MOST_KIB:,} at most are wanted"


def progress_fault(bench: Bench) -> str:
    """What is wrong with what a terminal shows while a log is compared that doesn't end, or nothing."""
    log = bench.log_of("lcrq", "--ring", 2, "--seed", 2, "--calls", 12, "--turns")
    words = [sys.executable, str(TOP / "tools/conform.py"), "-", "--ring", "2", "--program", bench.program]
    terminal, its = pty.openpty()
    with subprocess.Popen(words, stdin=subprocess.PIPE, stdout=subprocess.PIPE, stderr=its) as child:
        assert child.stdin and child.stdout  # pipes
        os.close(its)
        child.stdin.write(script_of(log[: len(log) // 2]))
        child.stdin.flush()
        is_told = bool(select.select([terminal], [], [], STARTED + (LATE_UNPROVED if is_slow(bench) else 1.0))[0])
        said = os.read(terminal, 200).decode() if is_told else ""
        child.kill()
        with contextlib.suppress(BrokenPipeError):
            child.stdin.close()
    os.close(terminal)
    return "" if re.search(r"[0-9,]+ records", said) else f"a terminal shows {said!a} after half of the log"


def go_on_fault(bench: Bench) -> str:
    """What is wrong with how long `--go-on` takes beside a run that agrees, or nothing."""
    log = bench.log_of("lcrq", "--ring", 8, "--seed", 3, "--calls", CALLS if is_slow(bench) else MANY, "--turns")
    at = next(at for at in range(len(log) // 2, len(log)) if " Q2 " in log[at])
    changed = [*log]
    changed[at] = re.sub(r"(?<= Q2 )\d+", lambda found: str(int(found[0]) + 1), log[at])
    begin = time.monotonic()
    agreed = bench.compare(log, "--ring", 8)
    middle = time.monotonic()
    differs = bench.compare(changed, "--ring", 8, "--go-on")
    took = middle - begin, time.monotonic() - middle
    if agreed[0] or not differs[0]:
        return f"status {agreed[0]} and {differs[0]}: {differs[1][:200]}"
    return "" if took[1] <= 2 * took[0] + 1 else f"it takes {took[1]:.1f} s, and {took[0]:.1f} s where all agrees"


def folder_fault(bench: Bench, log: list[str]) -> str:
    """What is wrong with what is done to the folder of -o, or nothing."""
    folder = bench.folder / "older"
    folder.mkdir()
    for name in ("to.script", "steps.html", "mine"):
        (folder / name).write_text("old")
    fault = agrees(bench.compare(log, "-o", folder))
    left = [path.name for path in folder.iterdir()]
    if fault or left != ["mine"]:
        return fault or f"{left} are left of an older run"
    status, text = bench.compare(log, "-o", folder / "mine")
    return "" if (status, text.count("\n")) == (2, 1) and "File exists" in text else f"a file: status {status}: {text}"


def order_fault(bench: Bench, log: list[str]) -> str:
    """What is wrong with what is said of a pipe whose records are in no order, or nothing."""
    mixed = [*log]
    random.Random(1).shuffle(mixed)
    return agrees(bench.run_tool("conform.py", "-", given=script_of(mixed)))


def late_choice(bench: Bench) -> Report:
    """What is said of a log that has the last of its records of E10 alone."""
    logs = (bench.log_of("lcrq", "--ring", 2, "--seed", seed, "--calls", 12, "--turns") for seed in range(1, 40))
    log = next(log for log in logs if sum(" E10 " in line for line in log) > 3)
    last = max(at for at, line in enumerate(log) if " E10 " in line)
    return bench.compare((line for at, line in enumerate(log) if " E10 " not in line or at == last), "--ring", 2)


def streamed_runs(bench: Bench) -> Iterator[tuple[str, str]]:
    """All of these."""
    log = bench.log_of("lcrq", "--seed", 3, "--calls", 20, "--turns")
    yield "a difference in a pipe that stays open, said at once", pipe_fault(bench)
    calls = CALLS if is_slow(bench) else MANY
    yield f"no more than {MOST_KIB:,} KiB for {calls} calls of each thread", memory_fault(bench, calls)
    yield "progress at a terminal", progress_fault(bench)
    yield "the time of --go-on beside that of a log that agrees", go_on_fault(bench)
    yield "the folder of -o, emptied or no folder", folder_fault(bench, log)
    yield "a pipe whose records are in no order", order_fault(bench, log)
    status, text = late_choice(bench)
    yield "a record of E10 behind one that is left out", "" if status and "record is missing" in text else text[:200]
