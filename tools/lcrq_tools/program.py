"""Runs the built program, asks it lines and watches it, and prints tables and what checks find, for the tools,
the checks and the measurements.

`run` gives what a run wrote; `watch` also its time and its most memory; `Driven` is asked lines while it
runs. `try_program` has a throw-away program built beside a copy of some crates and run.
"""

import argparse
import functools
import itertools
import os
import re
import select
import shutil
import statistics
import subprocess
import sys
import tempfile
import time
from collections.abc import Callable, Iterable, Iterator, Mapping, Sequence
from contextlib import AbstractContextManager
from pathlib import Path
from typing import IO, NamedTuple, ParamSpec

from lcrq_tools import drafts
from lcrq_tools.faults import FAULTS, Fault, Parser, text_of
from lcrq_tools.options import add_program
from lcrq_tools.places import CRATES as CRATES, EXAMPLES as EXAMPLES, TOP as TOP  # which most take from here

BY_RATTLE = ".by-rattle"  # behind the name of the program, as `rt ci` has it built by Rattle's own compiler
SECONDS = 120.0  # a run, or a line, that takes longer has failed
LOOK_EVERY = 0.001
PIPE_BYTES = 1 << 16
LINES = 300  # that are written before their replies are read: these fit into a pipe
ELF = b"\x7fELF"  # how a program begins

# The lines that make a step, and the replies to a line that is no command.
MAKES_A_STEP = re.compile(rb"(a?enq|a?deq|go|starve) ")
NO_COMMAND = ("refused 22 ", "refused 23 ")

# What makes the checks of a command line, each a name and what is wrong, or nothing.
Checks = Callable[[argparse.Namespace], Iterable[tuple[str, str]]]
# Rows that are tried with each build: a name, and what finds what is wrong with a build, or nothing.
Rows = Sequence[tuple[str, Callable[[str], str]]]
Given = ParamSpec("Given")


class Ended(NamedTuple):
    """What a run gave."""

    status: int
    output: bytes
    errors: str


class Watched(NamedTuple):
    """What a run gave, what it took, and whether it ended in time."""

    seconds: float
    peak_kib: int
    status: int
    output: bytes
    errors: str
    is_in_time: bool


class Broken(Fault):
    """The program ended, took too long or gave another reply than the one that is wanted."""


def is_unproved(data: bytes) -> bool:
    """Whether a file is a program that `rt try` built, which puts checks of memory into it."""
    return data.startswith(ELF) and b"AddressSanitizer" in data


def builds_of(built: str) -> list[Path]:
    """A program, and what Rattle's own compiler built beside it, if that is there."""
    both = [Path(built).absolute(), Path(built + BY_RATTLE).absolute()]
    return [path for path in both if path.is_file()]


# ---- Runs ----------------------------------------------------------------------------------------


def run(
    words: Sequence[str | bytes],
    given: bytes = b"",
    stdout: int | IO[bytes] = subprocess.PIPE,
    timeout: float = SECONDS,
    env: Mapping[str, str] | None = None,
    cwd: Path | None = None,
    preexec_fn: Callable[[], None] | None = None,
    executable: str | None = None,
) -> Ended:
    """What a run gives: its status, its output as bytes, and its standard error as text. The first
    word is what the program takes as its own name; the file to run, if it has another one, is
    `executable`."""
    ended = subprocess.run(
        words, input=given, stdout=stdout, stderr=subprocess.PIPE, timeout=timeout, env=env, cwd=cwd,
        preexec_fn=preexec_fn, executable=executable, check=False,
    )
    return Ended(ended.returncode, ended.stdout, ended.stderr.decode(errors="replace"))


def script_of(lines: Iterable[str], encoding: str = "ascii") -> bytes:
    """The script of these lines."""
    return "".join(f"{line}\n" for line in lines).encode(encoding)


def replies_to(words: Sequence[str], script: bytes) -> list[str]:
    """The replies of a run to a script, which it has to take."""
    ended = run(words, script)
    if ended.status:
        raise Fault(ended.errors.strip() or f"the program ended with status {ended.status}")
    return ended.output.decode("ascii").splitlines()


def lines_of(text: str) -> list[str]:
    """The lines of a text. Only a line feed ends one."""
    return text.removesuffix("\n").split("\n") if text else []


@functools.cache
def standard_input() -> bytes:
    """All of standard input, which can be read only once."""
    return sys.stdin.buffer.read()


def bytes_of(name: str) -> bytes:
    """The bytes of a file, of a draft those of its plain script; `-` is standard input."""
    if drafts.is_draft(name):
        return drafts.read(name).script().encode("latin-1", "replace")
    return standard_input() if name == "-" else Path(name).read_bytes()


def refusals_of(script: bytes, replies: Sequence[str]) -> tuple[str, bool]:
    """What to say of the refused lines of a script, nothing if there is none; and whether one of
    them makes a step or is no command, so that the run is hardly the one that is meant. A refused
    `undo` or `roll` is a question that was answered."""
    lines = script.removesuffix(b"\n").split(b"\n")
    refused = [row for row in zip(itertools.count(1), lines, replies) if row[2].startswith("refused ")]
    if not refused:
        return "", False
    number, _, reply = refused[0]
    has_fault = any(MAKES_A_STEP.match(line) or reply.startswith(NO_COMMAND) for _, line, reply in refused)
    returns = "; the script has carriage returns" if b"\r" in script else ""
    return f"{len(refused)} of {len(lines)} lines are refused, the first is line {number}: {reply}{returns}", has_fault


def counted(count: int, noun: str) -> str:
    """So many of something."""
    return f"{count} {noun}{'' if count == 1 else 's'}"


def world_of(actors: int, ring: int) -> str:
    """How many actors a world has, and cells its rings, in words."""
    return f"{counted(actors, 'actor')}, rings of {ring} cells (R = {ring})"


def peak_of(process: int) -> int:
    """The most KiB that a running process has held so far; 0 if it has gone."""
    try:
        with open(f"/proc/{process}/status", encoding="utf-8") as status:
            return next((int(line.split()[1]) for line in status if line.startswith("VmHWM:")), 0)
    except OSError:
        return 0


def next_of(child: subprocess.Popen[bytes], seconds: float) -> bytes | None:
    """What a process has written, if its output comes here, and nothing when it has ended; none if neither
    is so in time."""
    if child.stdout:
        is_there = select.select([child.stdout], [], [], seconds)[0]
        return os.read(child.stdout.fileno(), PIPE_BYTES) if is_there else None
    try:
        child.wait(seconds)
    except subprocess.TimeoutExpired:
        return None
    return b""


def read_all(child: subprocess.Popen[bytes], seconds: float, rest: float, look_every: float) -> tuple[bytes, int, bool]:
    """All that a process writes, its peak, and whether it ended in time. The reader rests after each read."""
    chunks: list[bytes] = []
    peak, looked, end = 0, 0.0, time.perf_counter() + seconds
    while (now := time.perf_counter()) < end:
        if now - looked >= look_every:
            peak, looked = max(peak, peak_of(child.pid)), now
        chunk = next_of(child, look_every)
        if chunk == b"":
            return b"".join(chunks), peak, True
        if chunk:
            chunks.append(chunk)
            if rest:
                time.sleep(rest)
    return b"".join(chunks), peak, False


def watch(
    words: Sequence[str],
    given: int | IO[bytes] = subprocess.DEVNULL,
    rest: float = 0.0,
    seconds: float = SECONDS,
    keeps: bool = True,
    look_every: float = LOOK_EVERY,
) -> Watched:
    """A run, with its time from start to end and the most memory that it was seen to hold. Its
    replies go through a pipe, or, where they aren't kept, into /dev/null."""
    stdout = subprocess.PIPE if keeps else subprocess.DEVNULL
    with tempfile.TemporaryFile() as errors:
        begin = time.perf_counter()
        with subprocess.Popen(words, stdin=given, stdout=stdout, stderr=errors) as child:
            output, peak, is_in_time = read_all(child, seconds, rest, look_every)
            if not is_in_time:
                child.kill()
            status = child.wait()
        took = time.perf_counter() - begin
        errors.seek(0)
        text = errors.read().decode(errors="replace")
    return Watched(took, peak, status, output, text, is_in_time)


def processor_ticks() -> tuple[int, int]:
    """How long the processors have worked, and how long their host gave them to others when they
    had work; zeros if it isn't known."""
    try:
        with open("/proc/stat", encoding="ascii") as stat:
            user, nice, system, _, _, irq, softirq, steal = map(int, stat.readline().split()[1:9])
    except (OSError, ValueError):
        return 0, 0
    return user + nice + system + irq + softirq, steal


def stolen_since(ticks: tuple[int, int]) -> float:
    """Of the time with work since these ticks, the share that the host gave to others."""
    worked, stolen = (after - before for after, before in zip(processor_ticks(), ticks))
    return stolen / (worked + stolen) if stolen else 0.0


# ---- A line at a time ----------------------------------------------------------------------------


class Driven(AbstractContextManager["Driven"]):
    """A run of the program, to be asked a line at a time, or many: it writes one reply to each."""

    def __init__(self, words: Sequence[str], seconds: float = SECONDS) -> None:
        self.seconds = seconds
        pipe = subprocess.PIPE  # in a session of its own, so that Control-C at a terminal isn't for the program
        self.child = subprocess.Popen(words, stdin=pipe, stdout=pipe, start_new_session=True)
        assert self.child.stdin and self.child.stdout  # pipes
        self.stdin, self.stdout = self.child.stdin, self.child.stdout
        # the clock of the child's processor time, by the number that clock_getcpuclockid(3) gives
        self.clock = (~self.child.pid << 3) | 2

    def __exit__(self, *_: object) -> None:
        self.child.kill()  # nothing, if it has ended
        self.child.wait()
        self.stdin.close()
        self.stdout.close()

    def end(self) -> int:
        """The exit status, with no more lines."""
        self.stdin.close()
        try:
            return self.child.wait(self.seconds)
        except subprocess.TimeoutExpired as fault:
            raise Broken(f"the program did not end in {self.seconds} s") from fault

    def ask(self, line: str) -> tuple[str, float, float]:
        """The reply to a line, whose letters are its bytes, and how many milliseconds it took from
        end to end, and of the program's processor time."""
        worked, begin = time.clock_gettime_ns(self.clock), time.perf_counter_ns()
        reply = self.ask_some([line])[0]
        end = time.perf_counter_ns()
        return reply, (end - begin) / 1e6, (time.clock_gettime_ns(self.clock) - worked) / 1e6

    def ask_all(self, lines: Sequence[str]) -> list[str]:
        """The replies to lines, of which many are written before their replies are read."""
        parts = (lines[first : first + LINES] for first in range(0, len(lines), LINES))
        return [reply for part in parts for reply in self.ask_some(part)]

    def ask_some(self, lines: Sequence[str]) -> list[str]:
        """The replies to lines that all fit into a pipe, as their replies do."""
        pieces: list[bytes] = []
        pipe, missing = self.stdout.fileno(), len(lines)
        try:
            os.write(self.stdin.fileno(), script_of(lines, "latin-1"))
        except OSError as fault:
            raise Broken(f"the program ended at `{lines[0]}`: {fault}") from fault
        while missing > 0:
            if not select.select([pipe], [], [], self.seconds)[0]:
                raise Broken(f"`{lines[0]}` took more than {self.seconds} s")
            pieces.append(os.read(pipe, PIPE_BYTES))
            if not pieces[-1]:
                raise Broken(f"the program ended at `{lines[0]}` with status {self.child.wait(self.seconds)}")
            missing -= pieces[-1].count(b"\n")
        return lines_of(b"".join(pieces).decode("ascii", "replace"))


# ---- Throw-away programs -------------------------------------------------------------------------


def lay_out(folder: Path, source: str, uses: Sequence[str], below: Sequence[str]) -> Path:
    """Writes the repository of a program beside the crates below it; returns its folder."""
    for name in below:
        ignored = shutil.ignore_patterns("out", "must-fail")
        shutil.copytree(CRATES / name, folder / "crates" / name, ignore=ignored)
    program = folder / "crates" / "tried"
    (program / "src").mkdir(parents=True)
    (program / "src" / "main.rt").write_text(source)
    rows = (TOP / "crates.txt").read_text().splitlines()
    kept = [row for row in rows if row.split(":")[0] in below]
    (folder / "crates.txt").write_text("\n".join([*kept, f"tried: {' '.join(uses)}", ""]))
    shutil.copy(TOP / "HANDLES", folder / "HANDLES")
    return program


def try_program(
    source: str, uses: Sequence[str], below: Sequence[str], *options: str
) -> subprocess.CompletedProcess[str]:
    """What `rt try` says of a program of this source, which is built unproved."""
    with tempfile.TemporaryDirectory() as folder:
        program = lay_out(Path(folder), source, uses, below)
        words = ["rt", "try", *options]
        return subprocess.run(words, cwd=program, capture_output=True, text=True, check=False)


# ---- Tables --------------------------------------------------------------------------------------


def row_of(*cells: object) -> str:
    """A row of a Markdown table."""
    return "".join(f"| {cell} " for cell in cells) + "|"


def print_head(*names: str) -> None:
    """Prints the head of a table."""
    print(row_of(*names) + "\n" + "|---" * len(names) + "|", flush=True)


def print_row(*cells: object) -> None:
    """Prints a row of a table."""
    print(row_of(*cells), flush=True)


def spread_of(values: Sequence[float]) -> tuple[float, float, float]:
    """The median, the least and the greatest."""
    return statistics.median(values), min(values), max(values)


# ---- Checks --------------------------------------------------------------------------------------


class Skipped(str):
    """In the place of what is wrong: the names of what isn't here, so that the check didn't run. Without a
    name nothing is missing, and nothing is wrong."""


def missing_of(tools: Iterable[str]) -> str:
    """The names of these programs that aren't here, or nothing."""
    return ", ".join(name for name in tools if not shutil.which(name))


def tried(check: Callable[Given, str], *given: Given.args, **named: Given.kwargs) -> str:
    """What a check finds wrong, or nothing; what it can't read or run is wrong too."""
    try:
        return check(*given, **named)
    except (*FAULTS, ValueError) as fault:
        return text_of(fault)


def run_checks(about: str | None, checks: Checks) -> int:
    """What `entry.py` does for a check that has no option but the program: prints what `checks` finds with
    these options, and returns the exit status."""
    parser = Parser(about)
    add_program(parser)
    return print_checks(checks(parser.parse_args()))


def by_each_build(built: str, rows: Rows) -> Iterator[tuple[str, str]]:
    """Each row by each build of the program, with what is wrong, or nothing."""
    for build in builds_of(built):
        for name, check in rows:
            yield f"{name}, by {build.name}", tried(check, str(build))


def line_of(name: str, fault: str) -> str:
    """The line of a check."""
    if not fault:
        return f"ok    {name}"
    return f"skipped: {fault}: {name}" if isinstance(fault, Skipped) else f"WRONG {name}: {fault}"


def print_checks(checks: Iterable[tuple[str, str]]) -> int:
    """Prints each check, a name and what is wrong or nothing, and how many there are of each kind; returns the
    exit status. A run in which all checks are skipped has shown nothing, so its status is 1 too."""
    right, wrong, skipped = 0, 0, 0
    missing: dict[str, None] = {}  # in the order in which they are named
    for name, fault in checks:
        print(line_of(name, fault), flush=True)
        if fault and isinstance(fault, Skipped):
            skipped += 1
            missing |= dict.fromkeys(fault.split(", "))
        else:
            right, wrong = right + (not fault), wrong + bool(fault)
    print(f"{right} right, {wrong} wrong" + (f", {skipped} skipped: {', '.join(missing)}" if skipped else ""))
    return 1 if wrong or skipped and not right else 0
