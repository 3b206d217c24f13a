"""How fast the program answers, how much memory it takes, and how both grow with the run's length.

    python3 tools/bench.py commands [--program P] [--quick] [--runs N] [--lengths N,N,..] [--marks N]
        [--seconds N] [--rest N] [--only TEXT]

P is the built program; it is called as `P run FILE --actors A --ring R`. Standard output gets one Markdown table,
standard error what is being measured. Only Python's standard library is used. All scripts are written into a temporary
folder.

Each row is the median of several runs. The replies go through a pipe that is read all the time, or with `--rest` by a
reader that rests after each read; a reader that does not is woken by nearly every reply, which costs the program time.
They are checked: a row whose replies are not those that it is meant to time says `wrong`, and the status is 1 then.

Columns. Steps: how many steps are live when the timed lines begin. Lines: how many lines are timed. Seconds: time from
start to end of the process, without that of the same script that lacks the timed lines; with < before it, no more than
that is left, for the runs differ by as much. Peak MiB: the most memory that the whole process held, looked at every few
milliseconds (`VmHWM` of /proc); nothing where it ended before a look. Time x and Memory x: the row divided by the same
measure at the next smaller length. Stolen: of the time in which the processors had work while the row was measured, the
share that the machine's host gave to others (`steal` of /proc/stat); where that is much, the row says little of the
program.
"""

import argparse
import itertools
import random
import statistics
import sys
import tempfile
from collections.abc import Iterator
from dataclasses import dataclass
from pathlib import Path

from lcrq_tools import program
from lcrq_tools.bench.measures import MOST_STEPS, lengths, script_in
from lcrq_tools.bench.random_runs import SEED, random_run
from lcrq_tools.faults import Parser
from lcrq_tools.options import add_program

FEWEST_STEPS = 100
LOOK_EVERY = 0.005  # seldom, so that the looks take no time of the program
LEAST_KIB = 1024  # a process that held less when it was looked at was still being loaded
SPARE = 12  # actors 5 to 16 in the scripts that have steps on which nothing depends
SPARE_STEPS = 3  # each of them: a call and two reads of places that these scripts never write


@dataclass
class Job:
    """A script and what to expect of it. The seconds of `base` are taken off, and only `timed` lines count."""

    name: str
    steps: int
    lines: list[str]
    timed: int
    base: "Job | None" = None
    last: str | None = None  # the last reply, or none where it is not known before
    refused: int = 0
    actors: int = 4
    often: int = 1  # how many times as many runs as the command line says

    def then(self, name: str, lines: list[str], last: str | None = None, refused: int = 0) -> "Job":
        """This script and then these lines, which are timed."""
        return Job(name, self.steps, self.lines + lines, len(lines), self, last, refused, self.actors)


@dataclass
class Measure:
    """What the runs of a job gave."""

    seconds: float = 0.0  # 0 where no more than the spread is left
    peak_kib: float = 0.0  # 0 where it was not seen
    fault: str = ""
    spread: float = 0.0  # twice the median distance of a run from the median
    stolen: float = 0.0  # of the time with work, the share that the machine's host gave to others


# ---- Jobs ----------------------------------------------------------------------------------------


def start_jobs(few: bool) -> Iterator[Job]:
    """Starting up, and lines that change nothing."""
    start = Job("start-up: the empty script", 0, [], 0, often=4)
    yield start
    yield start.then("`len`", ["len"] * (100_000 if few else 1_000_000), "at 0 0")


def walking_jobs(base: Job, few: bool) -> Iterator[Job]:
    """The steps of a run one by one back and forth, and many at once; and rolling back the first step and one in the
    middle, each with all that depends on it."""
    steps, far = base.steps, base.steps * 10 // 13
    undone = base.then("`undo` of each step", ["undo"] * steps, f"at 0 {steps}")
    yield undone
    yield undone.then("`redo` of each step", ["redo"] * steps, f"at {steps} 0")
    moves = [f"back {far}", f"forward {far}"] * (10 if few else 20)
    yield base.then("`back` and `forward` of 10/13 of the steps", moves, f"at {steps} 0")
    yield base.then("`roll` of the first step", ["roll 1"])
    yield base.then("`roll` of a step in the middle", [f"roll {steps // 2}"])


def spare_steps() -> list[list[str]]:
    """A call, a read of the queue's tail and a read of the root's next, by each actor that the others do not have."""
    return [[f"enq {actor} 1", f"go {actor}", f"go {actor}"] for actor in range(5, 5 + SPARE)]


def run_without_spares(steps: int) -> list[str]:
    """Random dequeues, which write neither the queue's ends nor the root's next: what a run of this length has beside
    the spare steps."""
    return random_run(steps - SPARE * SPARE_STEPS, enqueues=0.0)


def lone_undo_jobs(steps: int) -> Iterator[Job]:
    """Lone undos of steps on which nothing depends, at the front and in the middle; and rollbacks of the same."""
    for where, before in (("at the front", 0), ("in the middle", steps // 2)):
        run = run_without_spares(steps)
        run[before:before] = itertools.chain(*spare_steps())
        base = Job(f"run with free steps {where}", steps, run, steps, actors=4 + SPARE)
        for word in ("undo", "roll"):
            undone = [f"{word} {before + k}" for _ in range(SPARE) for k in range(SPARE_STEPS, 0, -1)]
            last = f"at {steps - len(undone)} {len(undone)}"
            yield base.then(f"`{word} K` of a free step {where}", undone, last)


def free_steps_job(steps: int) -> Job:
    """Free steps at random places of a run, each undone alone and redone, so that it is last."""
    source, lines = random.Random(SEED), run_without_spares(steps)
    free: list[int] = []  # where each spare actor's last step is, from 1
    for place, spare in zip(sorted(source.sample(range(len(lines)), SPARE)), spare_steps()):
        begin = place + len(free) * SPARE_STEPS
        lines[begin:begin] = spare
        free.append(begin + SPARE_STEPS)
    base = Job("run with free steps at random", steps, lines, steps, actors=4 + SPARE)
    source.shuffle(free)
    pairs = []
    for number, place in enumerate(free):
        moved = sum(earlier < place for earlier in free[:number])
        pairs += [f"undo {place - moved}", "redo"]
    job = base.then("`undo K` and `redo` of a free step at random", pairs, f"at {steps} 0")
    job.timed = SPARE  # pairs of lines
    return job


def refused_undo_jobs(steps: int, few: bool) -> Iterator[Job]:
    """Lone undos that only the last step of the run refuses: the actor of the step goes on at the end."""
    times = 50 if few else 200
    for where, before in (("at the front", 0), ("in the middle", steps // 2)):
        run = random_run(steps - 2)
        run = run[:before] + ["enq 5 1"] + run[before:] + ["go 5"]
        base = Job(f"run with a step {where} that the last one depends on", steps, run, steps, actors=5)
        name, undos = f"`undo K` {where}, refused by the last step", [f"undo {before + 1}"] * times
        yield base.then(name, undos, f"refused 13 Depended {steps}", times)


def goes_along_marks(base: Job, marks: int, few: bool) -> Iterator[Job]:
    """Bookmarks all along a random run, and going from one to another, also by chance."""
    steps, source = base.steps, random.Random(SEED)
    ends = [steps * number // marks for number in range(marks + 1)]
    parts = (base.lines[begin:end] for begin, end in itertools.pairwise(ends))
    lines = [line for number, part in enumerate(parts, 1) for line in (*part, f"mark m{number}")]
    marked = Job(f"`mark`, {marks} along the run", steps, lines, marks, base, f"marked {steps}")
    yield marked
    goes = ["goto m1", f"goto m{marks}"] * (5 if few else 10)
    yield marked.then("`goto` the first mark and the last", goes, f"at {steps} 0")
    chosen = [source.randint(1, marks) for _ in range(20 if few else 200)]
    goes = [f"goto m{number}" for number in chosen]
    yield marked.then(f"`goto` among {marks} marks by chance", goes, f"at {ends[chosen[-1]]} 0")


def compared_marks(base: Job, few: bool) -> Iterator[Job]:
    """Two bookmarks of nearly the same list or of the same: going to and fro, and comparing; and comparing a run with
    itself when its first step is last."""
    steps, times = base.steps, 5 if few else 10
    lines = ["mark a", "undo", "mark b"]
    near = base.then("`mark` of a run and of all but its last step", lines, f"marked {steps - 1}")
    near.timed = 2
    yield near
    goes = ["goto a", "goto b"] * (100 * times)
    yield near.then("`goto` a mark that has one step more or less", goes, f"at {steps - 1} 0")
    two = base.then("`mark` of the whole run", ["mark a", "mark b"], f"marked {steps}")
    yield two
    yield two.then("`same` of equal lists", ["same a b"] * times, "same yes")
    lines = ["enq 5 1", *random_run(steps - 1), "mark a", "undo 1", "redo", "mark b"]
    moved = Job("run with its first step moved to the end", steps, lines, steps, actors=5)
    yield moved.then("`same` when the first step is last", ["same a b"] * times, "same yes")


def all_jobs(options: argparse.Namespace) -> Iterator[Job]:
    """The jobs, each length after the shorter ones."""
    few = options.quick
    yield from start_jobs(few)
    for steps in options.lengths:
        base = Job("random run of `enq`, `deq`, `go`, `starve`", steps, random_run(steps), steps)
        yield base
        yield from walking_jobs(base, few)
        yield from lone_undo_jobs(steps)
        yield free_steps_job(steps)
        yield from refused_undo_jobs(steps, few)
        yield from goes_along_marks(base, min(options.marks, steps), few)
        yield from compared_marks(base, few)


# ---- Runs ----------------------------------------------------------------------------------------


def fault_in(job: Job, ended: program.Watched) -> str:
    """What is wrong with the replies of a run, or nothing."""
    if not ended.is_in_time:
        return "too long"
    got = ended.output.decode("ascii", "replace").splitlines()
    refused = sum(reply.startswith("refused") for reply in got)
    if ended.status != 0:
        return "wrong status"
    if len(got) != len(job.lines):
        return f"wrong: {len(got)} replies to {len(job.lines)} lines"
    if refused != job.refused:
        return f"wrong: {refused} refused, {job.refused} wanted"
    if job.last is not None and got[-1] != job.last:
        return f"wrong: last reply '{got[-1]}', '{job.last}' wanted"
    return ""


def measure(options: argparse.Namespace, job: Job, folder: Path) -> Measure:
    """The medians of several runs of a job; the first fault ends them."""
    script = script_in(folder / "script", job.lines)
    words = [options.program, "run", str(script), "--actors", str(job.actors), "--ring", "4"]
    times: list[float] = []
    peaks: list[int] = []
    ticks = program.processor_ticks()
    for _ in range(options.runs * job.often):
        ended = program.watch(words, rest=options.rest, seconds=options.seconds, look_every=LOOK_EVERY)
        times.append(ended.seconds)
        if ended.peak_kib >= LEAST_KIB:
            peaks.append(ended.peak_kib)
        if fault := fault_in(job, ended):
            return Measure(fault=fault)
    seconds = statistics.median(times)
    spread = 2 * statistics.median(abs(time - seconds) for time in times)
    return Measure(seconds, statistics.median(peaks or [0]), "", spread, program.stolen_since(ticks))


# ---- The table -----------------------------------------------------------------------------------


def ratio(new: float, old: float) -> str:
    """How many times as much, or nothing to say."""
    return f"{new / old:.1f}" if new and old else ""


def rate(lines: int, seconds: float) -> str:
    """Lines a second, or nothing to say."""
    if not lines or not seconds:
        return ""
    return f"{lines / seconds:,.0f}" if lines / seconds >= 10 else f"{lines / seconds:.2g}"


def cells_of(job: Job, done: Measure, shorter: Measure) -> tuple[str, ...]:
    """The cells of a row, which is compared with the measure of the next smaller length."""
    head = (job.name, f"{job.steps:,}", f"{job.timed:,}")
    if done.fault:
        return (*head, done.fault, "", "", "", "", "")
    shown = f"{done.seconds:.4f}" if done.seconds else f"<{done.spread:.4f}"
    peak = f"{done.peak_kib / 1024:.1f}" if done.peak_kib else ""
    growth = ratio(done.seconds, shorter.seconds), ratio(done.peak_kib, shorter.peak_kib)
    return (*head, shown, rate(job.timed, done.seconds), peak, *growth, f"{done.stolen:.0%}")


def without(base: Measure, done: Measure) -> Measure:
    """The measure of a job without its base, whose seconds are left if they are more than the spread of both."""
    seconds = done.seconds - base.seconds
    spread = max(done.spread + base.spread, -seconds)
    left = seconds if seconds > spread else 0.0
    return Measure(left, done.peak_kib, base.fault or done.fault, spread, done.stolen)


def print_table(options: argparse.Namespace, folder: Path) -> bool:
    """Measures the jobs and prints a row for each; returns whether all replies are right."""
    whole: dict[tuple[str, int], Measure] = {}
    shorter: dict[str, Measure] = {}
    is_right = True

    def measured(job: Job) -> Measure:
        """The job's measure, taken once."""
        key = (job.name, job.steps)
        if key not in whole:
            print(f"{job.name}, {job.steps} steps, {len(job.lines)} lines", file=sys.stderr, flush=True)
            whole[key] = measure(options, job, folder)
        return whole[key]

    head = ("Seconds", "Lines a second", "Peak MiB", "Time x", "Memory x", "Stolen")
    program.print_head("What", "Steps", "Lines", *head)
    for job in all_jobs(options):
        if options.only in job.name:
            done = measured(job)
            done = without(measured(job.base), done) if job.base else done
            program.print_row(*cells_of(job, done, shorter.get(job.name, Measure())))
            shorter[job.name] = Measure() if done.fault else done
            is_right = is_right and not done.fault.startswith("wrong")
    return is_right


def read_options() -> argparse.Namespace:
    """The command line."""
    parser = Parser(__doc__, "--quick")
    add_program(parser)
    parser.add_argument("--quick", action="store_true", help="short runs, few repetitions")
    parser.add_argument("--runs", type=int, help="runs of each script (5, quick: 3)")
    about = "steps of the runs, rising (1000,8000,65000, quick: 1000,8000)"
    parser.add_argument("--lengths", type=lengths, help=about)
    parser.add_argument("--marks", type=int, help="bookmarks of the run with many (64, quick: 8)")
    parser.add_argument("--seconds", type=float, default=120.0, help="the longest time of one run (120)")
    parser.add_argument("--rest", type=float, default=0.0, help="seconds that the reader rests after each read (0)")
    parser.add_argument("--only", default="", help="only the rows whose name has this text")
    options = parser.parse_args()
    usual = (3, 8, [1000, 8000]) if options.quick else (5, 64, [1000, 8000, 65_000])
    for name, value in zip(("runs", "marks", "lengths"), usual):
        setattr(options, name, getattr(options, name) or value)
    if not all(FEWEST_STEPS <= steps <= MOST_STEPS for steps in options.lengths):
        parser.error(f"--lengths: {FEWEST_STEPS} to {MOST_STEPS} steps each")
    return options


def main() -> int:
    options = read_options()
    with tempfile.TemporaryDirectory() as folder:
        return 0 if print_table(options, Path(folder)) else 1
