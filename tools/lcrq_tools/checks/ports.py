"""Compares the worked port of examples/port/ with the model by `tools/conform.py`, plain and with
each of its bugs, and lets that tool find what is changed in logs that agree.

    python3 tools/check.py ports [--program P]

The gate runs it, over the program that `rt ci` leaves. Where `cc` or `make` is missing, a line for each
kind of run that needs them says `skipped`.

- 60 runs of the port, over rings of 2, 4 and 8, in an order that a seed draws or by free threads,
  agree with the model; they make each line of the pseudo-code, and each CAS wins and loses.
- Of each bug the tool names the step that is wrong. Which one that is, this script finds in the log
  alone. The files that the tool writes lead there, and with --go-on it names each later one too.
- Logs with one answer, label, place, word or reply changed, or one record left out, differ there.
- Logs in which a ring's memory is used again, in time and too early, that leave out records of E10, that
  are cut, or of another ring: each with what is said, and the status.
- The form without labels, logs in parts, names of threads, logs from a pipe, and logs of more than
  65,535 steps; and lines that can't be read.
- A difference in a pipe is said at once; memory does not grow; the folder of -o is looked at first.
- Runs that do two things in another way on purpose agree with --allow, differ without it, and a
  change in one of their logs is found.
- 8 runs of four threads without a lock, whose stamps are the processor's, agree in the order found.
- Logs of 200 random runs whose stamps are blurred agree in the order found, and 20 with a bug that no
  order excuses differ, as `open_logs.py` finds by brute force.
- What lesson 16 shows of its log and its continuations, and `tools/freeze.py --check` of each flaw.

What it does not see: memory order, since most logs are made under one lock, and so their accesses are
sequentially consistent. Only Python's standard library is used.
"""

import argparse
import contextlib
import json
import shutil
import tempfile
from collections.abc import Callable, Iterator
from pathlib import Path
from typing import Any

from lcrq_tools import model, program
from lcrq_tools.checks import allowed_logs, changed_logs, open_logs, planted_logs, streamed_logs
from lcrq_tools.checks.allowed_logs import FILES
from lcrq_tools.checks.port_runs import RINGS, Bench, Report, agrees, differs, steps_with
from lcrq_tools.port.port_log import Record
from lcrq_tools.port.port_orders import open_records
from lcrq_tools.program import EXAMPLES, TOP

PORT = EXAMPLES / "port"
SOUND = EXAMPLES / "15-why-a-dequeue-looks-twice-1.trace"
LESSON, LESSON_LOG = "16-a-port-beside-the-model", "unsafe-ignored.log"
TURNS, FREE = 16, 4  # runs over each ring, in turns and by free threads
HARDWARE, CLOCK = 8, {"rdtscp", "constant_tsc", "nonstop_tsc"}  # runs without a lock, and what they need
PROCESSOR = Path("/proc/cpuinfo")
BUG_SEEDS = range(1, 7)


# ---- The plain port ------------------------------------------------------------------------------


def signs(record: Record) -> set[str]:
    """A record's label, the label with the first word of its answer, and its reply."""
    return {record.label, " ".join([record.label, *record.answer[:1]]), *record.reply[:1]}


def wanted_outcomes() -> set[str]:
    """Each label of the queue's pseudo-code, and each CAS with won and lost."""
    page = model.PAGE.read_text(encoding="utf-8")
    steps = [step for label, step in model.read(page)[0].items() if label[0] in "EQ"]
    cas = [step.label for step in steps if getattr(step.body[0], "form", "").startswith("cas")]
    return {step.label for step in steps} | {f"{label} {way}" for label in cas for way in ("won", "lost")}


def plain_runs(bench: Bench) -> Iterator[tuple[str, str]]:
    """The runs of the plain port, and what they reach."""
    seen: set[str] = set()
    count = 0
    ways: list[tuple[list[str], int]] = [(["--turns"], TURNS), ([], FREE)]
    for ring in RINGS:
        for words, runs in ways:
            fault = ""
            for seed in range(1, runs + 1):
                log = bench.log_of("lcrq", "--ring", ring, "--seed", seed, "--threads", 2 + seed % 4, *words)
                found = agrees(bench.compare(log, "--ring", ring))
                fault = fault or found and f"seed {seed}: {found}"
                seen = seen.union(*map(signs, bench.records_of(log)))
                count += len(log)
            yield f"{runs} runs {'in turns' if words else 'of free threads'} over rings of {ring}", fault
    missing = ", ".join(sorted(wanted_outcomes() - seen))
    yield f"each line, and each CAS won and lost, in {count:,} records", missing and f"no run has {missing}"


def has_clock() -> bool:
    """Whether the stamps of the processor's cores are those of one clock."""
    return PROCESSOR.exists() and CLOCK <= {*PROCESSOR.read_text(encoding="utf-8").split()}


def hardware_runs(bench: Bench) -> Iterator[tuple[str, str]]:
    """Runs without a lock, with two stamps of the processor around each access."""
    if not has_clock():
        yield "runs with the processor's stamps", program.Skipped(", ".join(sorted(CLOCK)))
        return
    build(bench.folder, "hardware")
    fault, overlap, count = "", 0, 0
    for seed in range(1, HARDWARE + 1):
        log = bench.log_of("lcrq-hardware", "--threads", 4, "--ring", RINGS[seed % len(RINGS)], "--seed", seed)
        records = bench.records_of(log)
        overlap, count = overlap + open_records(records), count + len(records)
        found = agrees(bench.compare(log, "--ring", RINGS[seed % len(RINGS)]))
        fault = fault or found and f"seed {seed}: {found}"
    name = f"{HARDWARE} runs of four threads with the processor's stamps"
    yield f"{name}: {overlap:,} of {count:,} records overlap others", fault
    file = bench.folder / "hardware.allow"
    file.write_text("".join(path.read_text(encoding="ascii") for path in FILES.values()), encoding="ascii")
    log = bench.log_of("lcrq-hardware", "--ring", 2, *FILES)
    yield "one more, with all that --allow may name", agrees(bench.compare(log, "--ring", 2, "--allow", file))


# ---- Bugs ----------------------------------------------------------------------------------------


# The bugs, each with signs of an actor's record and of its next one that show it in a log, and what the tool
# says of it: an unsafe cell is used without a look at the head; a ring is left after one look; the tail isn't
# repaired; an enqueue fails that has linked its segment.
BUGS: dict[str, tuple[str, set[str], str]] = {
    "unsafe-ignored": ("E6 0", {"E8"}, "the port is at E8, the model at E7"),
    "one-look": ("Q13", {"Q14"}, "the port is at Q14, the model at Q2"),
    "no-repair": ("Q8", {"Q13", "Q14"}, "the model at Q9"),
    "lost-race-fails": ("E14", {"failed"}, "at E14 the port replied failed, the model enqueued"),
}


def bug_run_fault(bench: Bench, log: list[str], wrong: list[int], said: str) -> str:
    """What is wrong with what the tool says of a run of a bug, which is wrong at these steps, or
    nothing."""
    if not wrong:
        return agrees(bench.compare(log, "--ring", 2))
    folder = bench.folder / "files"
    shutil.rmtree(folder, ignore_errors=True)
    report = bench.compare(log, "--ring", 2, "-o", folder)
    return differs(report, said, wrong[0]) or bench.files_fault(folder, report[1])


def bug_runs(bench: Bench) -> Iterator[tuple[str, str]]:
    """The runs of each bug; --go-on is tried with the one that is wrong the fewest times."""
    for bug, (first, then, said) in BUGS.items():
        found, fault = [], ""
        for seed in BUG_SEEDS:
            log = bench.log_of(f"lcrq-{bug}", "--ring", 2, "--seed", seed, "--calls", 20, "--turns")
            rows = steps_with(bench.records_of(log))
            pairs = ((step, signs(record), signs(before)) for step, record, before in rows if before)
            wrong = [step for step, now, before in pairs if first in before and not then.isdisjoint(now)]
            run_fault = bug_run_fault(bench, log, wrong, said)
            fault = fault or run_fault and f"seed {seed}: {run_fault}"
            found += [(len(wrong), log)] * bool(wrong)
        name = f"{bug}: {len(found)} of {len(BUG_SEEDS)} runs differ, at the step that is wrong"
        yield name, fault or ("" if found else "none does")
        if found:
            yield f"{bug}: all differences, with --go-on", go_on_fault(bench, *min(found))


def go_on_fault(bench: Bench, count: int, log: list[str]) -> str:
    """What is wrong with the list of all differences of a log that has so many, or nothing."""
    text = bench.compare(log, "--ring", 2, "--go-on")[1]
    if f"\n{program.counted(count, 'difference')} to the end of the log:\n" not in text:
        return f"{count} are wrong, and it says {text[-300:]}"
    return "it stopped before the end" if "is not compared" in text else ""


# ---- Starts with a flaw --------------------------------------------------------------------------

# What freeze.py --check says of a start, by what changes the sound one so.
FLAWS: dict[str, Callable[[Any], object]] = {
    "no flaw": lambda start: None,
    "Flaw 1: There are 1 to 16 actors": lambda start: start["segments"].pop(),
    "Flaw 2, qtail: ": lambda start: start.update(qtail=[4, 0]),
    "Flaw 2, next of segment 0.0: ": lambda start: start["segments"][0][0].update(next=[2, 0]),
    "Flaw 3, actor 2 at Q13: ": lambda start: start["actors"][1].update(new=[9, 9]),
    "Flaw 4, segment 3.0: ": lambda start: start["segments"][3][0].update(tail=2**62 + 1),
    "Flaw 5, segment 0.0: ": lambda start: start["segments"][0][0]["cells"][1].__setitem__(1, 2**62 + 3),
    "Flaw 6, the array: ": lambda start: start["array"].update(head=65),
    "Flaw 7, actor 1 at E8: ": lambda start: start["actors"][0].update(t=2**62 + 1),
    "Flaw 8, actor 1 at E8: E1 to E14: ": lambda start: start["actors"][0].update(idx=2),
    "Flaw 8, actor 2 at Q13: Q1 to Q14: ": lambda start: start["actors"][1].update({"pass": 2}),
    "Flaw 8, actor 4 at Idle: Idle: the record is the idle one; the flaw is gone with the t of":
        lambda start: start["actors"][3].update(t=3),
    "refused 27 BadTrace": lambda start: start.update(qtail=7),
}


def flaw_runs(bench: Bench) -> Iterator[tuple[str, str]]:
    """The starts, each with what is wrong with what is said of it, or nothing."""
    for said, change in FLAWS.items():
        trace = json.loads(SOUND.read_text(encoding="ascii"))
        change(trace["start"])
        file = bench.folder / "flaw.trace"
        file.write_text(json.dumps(trace), encoding="ascii")
        status, text = bench.run_tool("freeze.py", "--check", file)
        is_right = status == (said != "no flaw") and text.startswith(f"{file}: {said}") and text.count("\n") == 1
        yield f"freeze.py --check: {said.strip()}", "" if is_right else f"status {status}: {text}"


# ---- The lesson ----------------------------------------------------------------------------------


def shown_fault(report: Report, status: int) -> str:
    """What is wrong where the lesson should show what a tool says, with this status, or nothing."""
    page = (EXAMPLES / f"{LESSON}.md").read_text(encoding="utf-8")
    is_right = report[0] == status and f"```text\n{report[1]}```" in page
    return "" if is_right else f"status {report[0]}, and the page does not show: {report[1]}"


def lesson_runs(bench: Bench) -> Iterator[tuple[str, str]]:
    """What the lesson for porters shows of its log, and of what comes of it on both sides."""
    with contextlib.chdir(TOP):
        yield f"the report of {LESSON}", shown_fault(bench.conform(f"examples/port/{LESSON_LOG}", "--ring", 2), 1)
    start, said = (EXAMPLES / f"{LESSON}.trace").read_text(encoding="ascii"), ""
    for point in ("E7", "E8"):
        file = bench.folder / "start.trace"
        file.write_text(start.replace('"pc": "E7"', f'"pc": "{point}"'), encoding="ascii")
        said += bench.run_tool("continue_run.py", file)[1]
    yield f"the continuations of {LESSON}", shown_fault((0, said), 0)


# ---- All -----------------------------------------------------------------------------------------


def build(folder: Path, what: str = "all") -> None:
    """Builds the port."""
    ended = program.run(["make", "-s", "-C", str(PORT), f"OUT={folder}", what])
    if ended.status or ended.errors:
        raise program.Broken(f"make in {PORT}: {ended.errors.strip()}")


# What runs the port that is built, each with what a line calls it where that can't be built.
OF_THE_PORT: dict[str, Callable[[Bench], Iterator[tuple[str, str]]]] = {
    "runs of the port": plain_runs,
    "runs with the processor's stamps": hardware_runs,
    "runs of each bug": bug_runs,
    "changed logs": changed_logs.change_runs,
    "planted logs": planted_logs.planted_runs,
    "differences that are meant": allowed_logs.allowed_runs,
    "other forms of logs": changed_logs.form_runs,
    "logs that come slowly": streamed_logs.streamed_runs,
    "logs of more than 65,535 steps": changed_logs.long_runs,
}


def checks(given: argparse.Namespace) -> Iterator[tuple[str, str]]:
    """The checks, each a name and what is wrong, or nothing."""
    with tempfile.TemporaryDirectory() as name:
        bench = Bench(Path(name), given.program)
        for runs in (flaw_runs, lesson_runs, changed_logs.unreadable_runs, open_logs.open_runs):
            yield from runs(bench)
        if missing := program.missing_of(("cc", "make")):
            yield from ((kind, program.Skipped(missing)) for kind in OF_THE_PORT)
            return
        try:
            build(bench.folder)
            for of_the_port in OF_THE_PORT.values():
                yield from of_the_port(bench)
        except program.Broken as fault:
            yield "the port", str(fault)
