"""Changes logs that agree, writes them in other forms and makes long ones and lines that can't be read, for
`check.py ports`: `tools/conform.py` has to tell them apart.
"""

import os
import random
import re
import sys
from collections.abc import Iterator

from lcrq_tools import program
from lcrq_tools.checks.port_runs import DIFFERS, RINGS, Bench, Report, agrees, differs, steps_with
from lcrq_tools.port.port_log import Record
from lcrq_tools.program import TOP, script_of
from lcrq_tools.records import Step

LONG_CALLS = 1600  # of each of four threads: some 90,000 steps
LONG = 70_000  # so many steps, at least: more than are live at a time
OTHERS = {"won": "lost", "lost": "won", "open": "closed", "closed": "open", "none": "7", "(nil)": "7"}
LABELS = ("E1", "E5", "E9", "Q3", "Q8", "Q13")
UNKNOWN_NAME = "0x1"
COUNTED = ("t", "h", "pass")  # the words that the port logs


# ---- Changes -------------------------------------------------------------------------------------


def other_word(word: str, known: set[str], chance: random.Random) -> str:
    """Another word in place of one of an answer, or nothing. A name has to be known by then."""
    if word in known:
        return UNKNOWN_NAME
    return str(int(word) + chance.choice([1, 2, 100])) if word.isdecimal() else OTHERS.get(word, "")


def changed(record: Record, known: set[str], chance: random.Random) -> tuple[str, str]:
    """The text of a record with one word changed, and what is said of it; nothing if it has no word to
    change."""
    head, *parts = record.text.split("; ")  # the port's own words, which are changed as they stand
    words = head.split(" ")
    if record.kind == "reply":
        return f"{record.stamp} {record.name} failed", "replied failed"
    if record.kind == "call" or record.choice:
        return "", ""
    if parts and chance.random() < 0.3 and parts[-1].split(" ")[0] in COUNTED:
        word, value = parts[-1].split(" ")
        return f"{head}; {word} {int(value) + 1}", f"the port has {word} {int(value) + 1}"
    if chance.random() < 0.3:
        index, other = 2, chance.choice([label for label in LABELS if label != record.label])
        said = f"the port is at {other}"
    else:
        index, said = chance.randrange(3, len(words)), f"at {record.label} the port "
        other = other_word(words[index], known, chance)
    words[index] = other
    return ("; ".join([" ".join(words), *parts]), said) if other else ("", "")


def change_fault(bench: Bench, records: list[Record], ring: int, chance: random.Random) -> str:
    """What is wrong where one word of a log is changed, or nothing."""
    rows, text = [*steps_with(records)], ""
    while not text:
        index = chance.randrange(len(rows))
        step, record, _ = rows[index]
        known = {word for _, before, _ in rows[:index] for word in before.answer if word.startswith("0x")}
        text, said = changed(record, known, chance)
    log = (text if other is record else other.text for other in records)
    return differs(bench.compare(log, "--ring", ring), said, step)


def left_out_fault(bench: Bench, records: list[Record], ring: int, chance: random.Random) -> str:
    """What is wrong where a step is left out, or nothing: it differs at the actor's next record at the
    latest. A reply belongs to the step before the one that is left out then."""
    rows = [*steps_with(records)]
    index = chance.choice([index for index, row in enumerate(rows[:-40]) if row[1].label not in ("", "E10")])
    step, record, _ = rows[index]
    last = next(number for number, other, _ in rows[index + 1 :] if other.actor == record.actor)
    first = max(number for number, other, _ in rows[:index] if other.actor == record.actor)
    status, text = bench.compare((other.text for other in records if other is not record), "--ring", ring)
    line = text.partition("\n")[0]
    found = DIFFERS.match(line)
    if status == 1 and found and (first if "replied" in line else step) <= int(found[1]) <= last:
        return ""
    return f"without `{record.text}`: status {status}, `{line[:200]}`"


# How many logs are changed over each ring, how, and what finds what is wrong with one.
CHANGES = ((30, "with one word changed", change_fault), (10, "without one step", left_out_fault))


def change_runs(bench: Bench) -> Iterator[tuple[str, str]]:
    """Logs with one change."""
    chance = random.Random(1)
    for ring in RINGS:
        log = bench.log_of("lcrq", "--ring", ring, "--seed", 2, "--calls", 12, "--turns")
        records = bench.records_of(log)
        for count, name, fault_of in CHANGES:
            faults = (fault_of(bench, records, ring, chance) for _ in range(count))
            yield f"{count} logs {name}, rings of {ring}", next(filter(None, faults), "")


# ---- Forms ---------------------------------------------------------------------------------------


def without_labels(bench: Bench, log: list[str]) -> list[str]:
    """A log that agrees, as one of places, accesses and answers: what the program says of its steps. The
    choices are left out."""
    lines = [record.line() for record in bench.records_of(log) if record.kind != "reply"]
    asked = [f"step {number}" for number in range(1, len(lines) + 1)]
    made = []
    for number, reply in enumerate(bench.replies(["run", "-"], lines + asked)[len(lines) :], 1):
        step = Step.read(reply)
        did = step.event.called() if step.event.is_call() else step.did()
        made += [] if step.event.choice else [f"{number} {step.event.actor} {did}"]
    return made


def form_runs(bench: Bench) -> Iterator[tuple[str, str]]:
    """Logs of other forms."""
    log = bench.log_of("lcrq", "--seed", 3, "--calls", 20, "--turns")
    made = without_labels(bench, log)
    report = bench.compare(made)
    no_choice = "" if "nothing checked the decision to starve" in report[1] else "no choice was left out"
    yield "a log without labels", agrees(report) or no_choice
    index = next(index for index in range(100, len(made)) if " value 0.0 " in made[index])
    answer = made[index].replace("; read; ", "; read; 9")
    place = re.sub(r"value 0\.0 ([0-9])", lambda cell: f"value 0.0 {(int(cell[1]) + 1) % 4}", made[index])
    for name, other, said in (("answer", answer, "found 9"), ("place", place, "the port accessed value 0.0 ")):
        report = bench.compare([*made[:index], other, *made[index + 1 :]])
        yield f"a log without labels, one {name} changed", differs(report, said)
    yield "a log of two files, threads with names", parts_fault(bench, log)
    yield "a log from a pipe", agrees(bench.run_tool("conform.py", "-", given=script_of(log)))


def parts_fault(bench: Bench, log: list[str]) -> str:
    """What is wrong with a log whose records are in two files and in no order, by threads with names."""
    lines = [re.sub(r"^(\S+) (\S+)", r"\1 thread-\2", line) for line in log]
    random.Random(1).shuffle(lines)
    files = [bench.folder / "one.log", bench.folder / "other.log"]
    for file, part in zip(files, (lines[::2], lines[1::2])):
        file.write_bytes(script_of(part))
    status, text = bench.conform(*files)
    named, _, rest = text.partition("\n")
    return agrees((status, rest)) or ("" if ": the actors of the logs: thread-" in named else named)


def long_runs(bench: Bench) -> Iterator[tuple[str, str]]:
    """A run of more steps than are live at a time, and the same with one answer changed near its end."""
    log = bench.log_of("lcrq", "--seed", 5, "--calls", LONG_CALLS, "--ring", 4, "--turns")
    report = bench.compare(log)
    count = re.match(r"agrees: ([0-9,]+) steps", report[1])
    is_long = count and int(count[1].replace(",", "")) > LONG
    yield f"a run of {count[1] if count else 'no'} steps", agrees(report) or ("" if is_long else f"{LONG:,} are wanted")
    rows = [*steps_with(bench.records_of(log))]
    step, record, _ = next(row for row in rows[-9000:] if row[1].label == "Q8")
    other = re.sub(r"[0-9]+$", "1", record.text)
    folder = bench.folder / "long"
    report = bench.compare((other if line == record.text else line for line in log), "-o", folder)
    fault = differs(report, "at Q8 the port found", step) or bench.files_fault(folder, report[1])
    yield "the same with one answer changed", fault


# ---- Lines that can't be read --------------------------------------------------------------------

# A log, and what is said of it.
DIGITS = "1" * 5000
UNREADABLE = [
    ("1 1", "a record is a stamp"),
    ("a 1 deq", "a record is a stamp"),
    ("1 1 enq", "a call is enq X, deq"),
    ("1 1 enq 18446744073709551616", "with X up to 18446744073709551615"),
    ("1 1 deq 4", "a call is enq X, deq"),
    ("1 1 E99 none", "no call, label, place or reply"),
    ("1 1 starve maybe", "the choice is yes or no"),
    ("1 1 starve", "the choice is yes or no"),
    ("1 1 deq\n2 1 Q1 p; hh 3", "a.log:2: `2 1 Q1 p; hh 3`: `hh 3` is no reply, and an actor has no word hh"),
    ("1 1 deq\n2 1 Q1 p; t 3 hh 3", "an actor has no word hh"),
    ("1 1 deq\n2 1 Q1 p; value v", "an actor has no word value"),
    ("\ufeff1 1 deq", "a.log:1: `\ufeff1 1 deq`: a byte-order mark comes before it"),
    ("\ufffd\ufffd1\0 \0", "a byte-order mark comes before it"),
    (f"1 1 deq\n{DIGITS} 1 Q1", "a.log:2: `111"),
    (f"1 1 enq {DIGITS}", "a word of it has 5,000 letters"),
    (f"1 1 deq\n2 1 Q1 p\n3 1 Q2 {DIGITS}", "a.log:3: `3 1 Q2 111"),
    ("1 1 deq\n3-2 2 deq", "the stamp after it, 2, is before the one before it, 3"),
    ("1- 1 deq", "a record is a stamp"),
    ("1 1 E6 1 0; t", "should be words of an actor, each with its value"),
    ("1 1 tail 0.0; read; open 3; t 3 closed", "should be words of an actor, each with its value"),
    ("# nothing", "no record"),
    ("\n".join(f"{number} t{number} deq" for number in range(1, 18)), "17 actors"),
]


def unreadable_runs(bench: Bench) -> Iterator[tuple[str, str]]:
    """Logs that can't be read."""
    for log, said in UNREADABLE:
        status, text = bench.compare(log.splitlines())
        is_right = status == 2 and said in text and text.count("\n") == 1
        yield f"the line `{log.splitlines()[-1][:40]}`", "" if is_right else f"status {status}: {text}"
    yield "standard input given twice", status_fault(bench.conform("-", "-"), "- is given twice")
    yield "a pipe that nobody reads", closed_pipe_fault(bench)


def status_fault(report: Report, said: str) -> str:
    """What is wrong where a tool should say this in one line, with status 2, or nothing."""
    status, text = report
    return "" if status == 2 and said in text and text.count("\n") == 1 else f"status {status}: {text}"


def closed_pipe_fault(bench: Bench) -> str:
    """What is wrong where nobody reads what the tool says of a log that differs, or nothing."""
    read, write = os.pipe()
    os.close(read)
    command = [sys.executable, str(TOP / "tools/conform.py"), bench.file_of(["1 1 Q1"]), "--program", bench.program]
    with os.fdopen(write, "wb") as output:
        ended = program.run(command, stdout=output)
    return status_fault((ended.status, ended.errors), "nobody reads what is said here")
