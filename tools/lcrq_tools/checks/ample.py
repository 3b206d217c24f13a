"""Tries the built program at its limits with ample memory, and with inputs that can be read only once.

    python3 tools/check.py ample [--program P]

A contract allows a call to fail where memory is refused, and can't tell a refusal in vain from that. So each row here
asks for much of one thing, and nothing of it may be refused memory: steps at many places, makings by one actor, a
`goto` across makings, bookmarks of long runs, a viewer's long script, a long trace. What a run holds is compared with
docs/PERFORMANCE.md. A trace comes through a named pipe that is written once, and a script from a terminal whose end is
typed once. Each reply is worked out from the table of docs/MODEL.md. Each row prints a line; the status is 1 if one is
wrong. A row that measures memory is skipped where the program has checks of memory, as those of `quick_build.py`. Only
Python's standard library is used.
"""

import argparse
import contextlib
import os
import pty
import re
import resource
import subprocess
import tempfile
import threading
from collections.abc import Callable, Iterator, Sequence
from pathlib import Path

from lcrq_tools import program
from lcrq_tools.checks.answers import differs, file_of
from lcrq_tools.program import TOP, Driven, Skipped, script_of, tried
from lcrq_tools.start.starts import EMPTY, IDLE, ROOT, Name, Segment, Start, dequeuers, segment, text_of

MOST_STEPS = 65_535
MOST_SEGMENTS = 65_535  # of one maker
SECONDS = 20.0  # a run that reads on after the end of its input takes longer
NO_MEMORY, NOT_RECORDED = "refused 20 NoMemory", "refused 31 NotRecorded"

Asked = Sequence[tuple[str, str]]  # lines with their replies


def steps_fault(replies: Sequence[str], first: int = 1) -> str:
    """What is wrong with the first of these replies that isn't that of the next live step, or nothing."""
    for number, reply in enumerate(replies, first):
        if reply.split(" ")[:2] != ["ok", str(number)]:
            return f"step {number} of {first + len(replies) - 1} has the reply `{reply}`"
    return ""


def asked_fault(driven: Driven, asked: Asked) -> str:
    """What is wrong with the first reply that isn't the one that is wanted, or nothing."""
    replies = driven.ask_all([line for line, _ in asked])
    pairs = zip(asked, replies, strict=True)
    return next((f"`{line}` has the reply `{reply}`, wanted `{wanted}`"
                 for (line, wanted), reply in pairs if reply != wanted), "")


def goes(actor: int, count: int) -> list[str]:
    """This many steps of an actor."""
    return [f"go {actor}"] * count


# ---- Many places ---------------------------------------------------------------------------------

ROUND = 19  # steps of a dequeue over a closed, empty ring of two cells, which it goes over twice
OF_A_ROUND = 7  # places: head, tail, next and four halves of cells
TAKES = 6  # steps of a value's way through the array
WALK = MOST_STEPS - 2 * TAKES - 1  # steps of the dequeue behind its call
RINGS, REST = divmod(WALK, ROUND)  # the whole rounds, and the steps of the last one


def closed_ring(after: Name | None) -> Segment:
    """A closed, empty ring of two cells, which is linked to another one."""
    ring = segment(2, 0)
    ring["closed"], ring["next"] = True, after
    return ring


def chained() -> str:
    """A trace of closed, empty rings, each linked to the next, for a dequeue that never comes to the last."""
    names: list[Name] = [ROOT, *([1, number] for number in range(RINGS + 1))]
    rings = [closed_ring(after) for after in [*names[1:], None]]
    start: Start = {"actors": [IDLE] * 4, "segments": [rings[:1], rings[1:], [], [], []], "qhead": ROOT,
                    "qtail": names[-1], "array": EMPTY}
    return text_of({"ring": 2, "start": start})


def taken(actor: int, value: int) -> list[str]:
    """The steps that put a value into the array and take it out."""
    return [f"aenq {actor} {value}", *goes(actor, 2), f"adeq {actor}", *goes(actor, 2)]


def walk() -> list[str]:
    """The run of 65,535 steps: a dequeue over all rings between two takes."""
    return [*taken(2, 5), "deq 1", *goes(1, WALK), *taken(3, 9)]


def both_ends() -> Asked:
    """Questions and undos at both ends of the run of 65,535 steps, and their replies."""
    before, last = TAKES + 1, MOST_STEPS  # the call of the dequeue, and the last take
    turn = before + ROUND * RINGS  # the last step that moved the queue's head on
    rolled = WALK + 1
    return [
        ("deq 4", "refused 9 TooLong"), ("len", f"at {last} 0"),
        ("origin 6", "origin call 1 put 3 take 6"),
        (f"origin {last}", f"origin call {last - 5} put {last - 3} take {last}"),
        ("writer acell 0", "writer 6"), ("writer acell 1", f"writer {last}"), ("writer qhead", f"writer {turn}"),
        ("writer head 0.0", f"writer {before + 11}"), ("writer index 0.0 0", f"writer {before + 5}"),
        ("writer value 0.0 0", "writer none"), (f"writer head 1.{RINGS - 1}", f"writer {turn + 2}"),
        (f"writer index 1.{RINGS - 1} 0", f"writer {turn + 5}"),
        ("undo 1", "refused 13 Depended 2"), (f"undo {last}", f"at {last - 1} 1"), ("redo", f"at {last} 0"),
        ("undo 6", f"at {last - 1} 1"), ("redo", f"at {last} 0"),
        (f"origin {last}", f"origin call 1 put 3 take {last}"),
        ("roll 6", f"at {last - rolled} {rolled}"), (f"forward {rolled}", f"at {last} 0"),
        ("writer qhead", f"writer {last - rolled + 1 + ROUND * RINGS}"),
        ("roll 1", f"at {last - 2 * TAKES + 1} {2 * TAKES - 1}"),  # all at the array but the second `aenq`
    ]


def places_fault(built: str) -> str:
    """What is wrong with a run of 65,535 steps at as many places as there can be, or nothing."""
    with file_of(chained()) as trace, Driven([built, "load", trace]) as driven:
        if fault := steps_fault(driven.ask_all(walk())):
            return fault
        records = driven.ask_all([f"step {number}" for number in range(1, MOST_STEPS + 1)])
        places = {record.split("; ")[2] for record in records}
        halves = [place for place in places if not place.startswith("cell ")]
        if len(halves) < OF_A_ROUND * RINGS:
            return f"the steps have only {len(halves)} places"
        return asked_fault(driven, both_ends())


# ---- Many makings --------------------------------------------------------------------------------

FILLS = ["enq 1 7", *goes(1, 6)]  # into the second cell of a ring of two
ENDS = ["enq 1 7", *goes(1, 7)]  # up to the making, since the ring is full and is closed
MAKES = goes(1, 3)  # makes the next ring and links it
AT_MOST = 1 + (MOST_STEPS - len(ENDS + MAKES)) // len(FILLS + ENDS + MAKES)  # makings in a session

# How many segments actor 1 has at the start, and how many it makes then. Lists that grow by doubling are full
# somewhere in these rows.
MAKINGS = {0: AT_MOST, 3_000: AT_MOST, 8_180: 30, 16_370: 30, 32_750: 30, 50_000: 30, MOST_SEGMENTS - 30: 30}


def with_segments(count: int) -> str:
    """A trace with a full root and so many segments of actor 1, which nobody uses."""
    root = segment(2, 2, 7)
    root["cells"][1] = [True, 1, 8]
    start: Start = {"actors": [IDLE], "segments": [[root], [segment(2, 0)] * count], "qhead": ROOT, "qtail": ROOT,
                    "array": EMPTY}
    return text_of({"ring": 2, "start": start})


def makings_fault(built: str, before: int, count: int) -> str:
    """What is wrong with so many makings by one actor, or nothing; the 65,536th is refused."""
    lines = ((FILLS + ENDS + MAKES) * count)[len(FILLS):]  # the root is full
    after = before + count
    made = [(f"show whole 1.{after - 1}", "is exists"), (f"show whole 1.{after}", "refused 19 NoSuchPlace")]
    with file_of(with_segments(before)) as trace, Driven([built, "load", trace]) as driven:
        fault = steps_fault(driven.ask_all(lines)) or asked_fault(driven, made)
        if fault or after < MOST_SEGMENTS:
            return fault
        fault = steps_fault(driven.ask_all(FILLS + ENDS), len(lines) + 1)
        return fault or asked_fault(driven, [(MAKES[0], "refused 7 SegmentsEnd")])


# ---- A goto across makings -----------------------------------------------------------------------

ACTORS = 16
RACES = 703
RACED = ACTORS * RACES  # makings
SPARE = 1.1  # the limit, of what the run took before


def raced(races: int = RACES) -> list[str]:
    """A run in which sixteen actors find each of these rings closed, so that each makes the next one."""
    everyone = range(1, ACTORS + 1)
    lines = FILLS + FILLS + [f"enq {actor} 7" for actor in everyone]
    lines += [line for actor in everyone for line in goes(actor, 2)] + goes(1, 5)  # actor 1 closes the root
    for turn in range(races):
        closer = 2 if turn else 1
        lines += [f"go {actor}" for actor in everyone if actor != closer]  # each finds the ring closed
        lines += [f"go {actor}" for actor in everyone] * 2  # each makes one, and actor 1 links its own
        lines += ["go 1", "enq 1 7"] + [line for actor in everyone for line in goes(actor, 2)]
        lines += goes(1, 1) + goes(2, 5) + goes(1, 3) + ["enq 1 7", *goes(1, 2)]  # actor 2 closes it
    return lines


def space_of(process: int) -> int:
    """The most bytes of address space that a running process has had."""
    status = Path(f"/proc/{process}/status").read_text(encoding="ascii")
    return 1024 * next(int(line.split()[1]) for line in status.splitlines() if line.startswith("VmPeak:"))


def limit(driven: Driven, share: float) -> None:
    """Limits the address space of a run to a share of the most that it has had."""
    most = int(space_of(driven.child.pid) * share)
    resource.prlimit(driven.child.pid, resource.RLIMIT_AS, (most, resource.RLIM_INFINITY))


def goto_fault(built: str) -> str:
    """What is wrong with going across all makings with a tenth more memory than the run took, or nothing."""
    if program.is_unproved(Path(built).read_bytes()):
        return Skipped("a program without checks of memory")
    lines = raced()
    half, whole = len(lines) // 2, f"at {len(lines)} 0"
    with Driven([built, "run", "-", "--actors", str(ACTORS), "--ring", "2"]) as driven:
        if fault := (asked_fault(driven, [("mark start", "marked 0")]) or steps_fault(driven.ask_all(lines[:half]))
                     or asked_fault(driven, [("mark half", f"marked {half}")])  # so that the other is in two parts
                     or steps_fault(driven.ask_all(lines[half:]), half + 1)):
            return fault
        limit(driven, 1.0)  # which shows that limits are kept
        if fault := asked_fault(driven, [("mark end", NO_MEMORY)]):
            return fault
        limit(driven, 4.0)
        made = (f"show whole {ACTORS}.{RACES - 1}", "is exists")
        gone = (made[0], "refused 19 NoSuchPlace")
        if fault := asked_fault(driven, [made, ("mark end", f"marked {len(lines)}"), ("goto start", "at 0 0"), gone]):
            return fault
        limit(driven, SPARE)
        return asked_fault(driven, [("goto end", whole), made, ("goto start", "at 0 0"), ("deq 1", "ok 1"),
                                    ("goto end", whole), made])


# ---- Bookmarks -----------------------------------------------------------------------------------

MARKED = 30_000


def marks_fault(built: str) -> str:
    """What is wrong with bookmarks of runs of 30,000 steps, or nothing."""
    half = MARKED // 2
    turn, single = (goes(1, 1) + goes(2, 1)) * half, goes(2, half) + goes(1, half)
    at = f"at {MARKED} 0"
    two: Asked = [("goto half", f"at {half} 0"), ("goto whole", at), ("same half whole", "same no"),
                  (f"back {half}", f"at {half} {half}"), (f"forward {half}", at), ("same whole half", "same no"),
                  ("goto half", f"at {half} 0"), (f"back {half}", f"at 0 {half}")]
    apart: Asked = [("mark single", f"marked {MARKED}"), ("same whole single", "same yes"), ("goto whole", at),
                    ("same single whole", "same yes"), ("goto single", at), ("undo", f"at {MARKED - 1} 1"),
                    ("go 2", f"ok {MARKED}"), ("mark other", f"marked {MARKED}"), ("same other whole", "same no"),
                    (f"back {MARKED}", f"at 0 {MARKED}"), ("deq 3", "ok 1"), ("mark alone", "marked 1"),
                    ("same alone whole", "same no"), ("goto other", at)]
    with file_of(dequeuers(4, (1, 2), 1)) as trace, Driven([built, "load", trace]) as driven:
        return (steps_fault(driven.ask_all(turn[:half]))
                or asked_fault(driven, [("mark half", f"marked {half}")])
                or steps_fault(driven.ask_all(turn[half:]), half + 1)
                or asked_fault(driven, [("mark whole", f"marked {MARKED}"), *two])
                or steps_fault(driven.ask_all(single))
                or asked_fault(driven, apart))


# ---- Viewers -------------------------------------------------------------------------------------

LONG = ["enq 1 7", "go 1", "len", "show tail 0.0"] * 500
SHORT = ["deq 2", "go 2", "undo", "marks"] * 125


def view_fault(built: str) -> str:
    """What is wrong with a view of 2,000 commands beside 500 others, or nothing."""
    scripts = [LONG, SHORT]
    with contextlib.ExitStack() as files:
        names = [files.enter_context(file_of(script_of(lines))) for lines in scripts]
        output = program.run([built, "view", *names, "--history"]).output.decode()
    head, _, history = output.partition("history ")
    parts = [part.splitlines()[1:] for part in head.split("viewer ")[1:]]
    refused = [reply for part in parts for reply in part if reply in (NO_MEMORY, NOT_RECORDED)]
    count, *recorded = history.splitlines()
    counts, wanted = [*map(len, parts), int(count)], [*map(len, scripts), len(LONG) + len(SHORT)]
    if refused or counts != wanted:
        return f"{counts} replies and calls, {wanted} are wanted, {len(refused)} were refused memory: {refused[:1]}"
    calls = [line.partition(" ") for line in recorded]
    replies = program.replies_to([built, "run", "-"], script_of(line for _, _, line in calls))
    for number, lines in enumerate(scripts):
        own = [(line, reply) for (viewer, _, line), reply in zip(calls, replies) if viewer == str(number + 1)]
        if own != list(zip(lines, parts[number])):
            return f"viewer {number + 1} has other replies than the history"
    return ""


# ---- Inputs that come once -----------------------------------------------------------------------

LONG_TRACE = 600_000  # bytes


def write_once(pipe: str, data: bytes) -> None:
    """Writes into a named pipe, once, what its first reader gets."""
    with contextlib.suppress(BrokenPipeError), open(pipe, "wb") as opened:
        opened.write(data)


def small_trace(_built: str) -> tuple[bytes, str]:
    """A trace of two steps, and the reply to `len` over it."""
    return b'{"actors":4,"events":[["enq",1,7],["go",1]],"ring":4,"version":1}\n', "at 2 0"


def long_trace(built: str) -> tuple[bytes, str]:
    """A trace of more than 600,000 bytes, that of the run of makings, and the reply to `len` over it."""
    words = [built, "run", "-", "--actors", str(ACTORS), "--ring", "2", "--trace"]
    lines = raced()
    trace = program.run(words, script_of(lines)).output.splitlines()[-1]
    if len(trace) <= LONG_TRACE:
        raise program.Broken(f"the trace has only {len(trace)} bytes")
    return trace, f"at {len(lines)} 0"


def load_fault(built: str, made: Callable[[str], tuple[bytes, str]], is_piped: bool) -> str:
    """What is wrong with loading a trace from a file or through a pipe, or nothing."""
    data, reply = made(built)
    with tempfile.TemporaryDirectory() as folder:
        name = str(Path(folder) / "given.trace")
        if is_piped:
            os.mkfifo(name)
            threading.Thread(target=write_once, args=(name, data), daemon=True).start()
        else:
            Path(name).write_bytes(data)
        try:
            ended = program.run([built, "load", name], b"len\n", timeout=SECONDS)
        except subprocess.TimeoutExpired:
            return f"it has not ended after {SECONDS} s"
    return differs(ended, program.Ended(0, f"{reply}\n".encode(), ""))


# Traces, and whether each comes through a pipe that is written once.
LOADS = {
    "a trace from a file": (small_trace, False),
    "a trace from a pipe that is written once": (small_trace, True),
    "a trace of more than 600,000 bytes from a file": (long_trace, False),
    "a trace of more than 600,000 bytes from a pipe that is written once": (long_trace, True),
}

END = "\x04"  # Control-D: what was typed, and nothing more behind it

# What is typed at a terminal, and the replies.
TYPED = {
    f"len{END}{END}": "at 0 0\n",
    f"enq 1 7\nlen{END}{END}": "ok 1\nat 1 0\n",
    f"enq 1 7\n{END}": "ok 1\n",
    END: "",
}


def typed_fault(built: str, keys: str, wanted: str) -> str:
    """What is wrong with a script that is typed, whose end is typed only once, or nothing."""
    screen, inside = pty.openpty()
    try:
        with subprocess.Popen([built, "run", "-"], stdin=inside, stdout=subprocess.PIPE) as child:
            os.write(screen, keys.encode())
            try:
                output, _ = child.communicate(timeout=SECONDS / 4)
            except subprocess.TimeoutExpired:
                child.kill()
                return "it reads on after the end"
        return differs((child.returncode, output.decode()), (0, wanted))
    finally:
        os.close(inside)
        os.close(screen)


# ---- What a run holds ----------------------------------------------------------------------------

HELD = 65_000  # steps
UNDONE = 1_000
PAGE = TOP / "docs" / "PERFORMANCE.md"
BOUNDS = re.compile(r"most memory with 65,000 live steps; with 64 bookmarks too \|[^|]*\((\d+) MB\);[^|]*\((\d+) MB\)")


def undos() -> Asked:
    """65,000 steps, and `undo K` of each of the first 1,000, on which no other actor's depend."""
    lines = goes(2, UNDONE) + goes(1, HELD - UNDONE)
    asked = [(line, f"ok {number}") for number, line in enumerate(lines, 1)]
    asked += [(f"undo {number}", f"at {HELD - 1 - UNDONE + number} {UNDONE + 1 - number}")
              for number in range(UNDONE, 0, -1)]
    return [*asked, (f"forward {UNDONE}", f"at {HELD} 0"), ("len", f"at {HELD} 0")]


def bookmarks() -> Asked:
    """65,000 steps with 64 bookmarks among them."""
    asked: list[tuple[str, str]] = []
    for part in range(1, 66):
        asked += [("go 1", f"ok {number}") for number in range(1000 * part - 999, 1000 * part + 1)]
        asked += [(f"mark m{part}", f"marked {1000 * part}")] * (part > 1)
    return asked


HOLDING = {f"`undo K` of {UNDONE:,} of {HELD:,} steps": undos, f"64 bookmarks of {HELD:,} steps": bookmarks}


def held_fault(built: str, asked: Asked, most: int) -> str:
    """What is wrong with a run that may hold this many MB, or nothing."""
    if program.is_unproved(Path(built).read_bytes()):
        return Skipped("a program without checks of memory")
    with file_of(dequeuers(4, (1, 2))) as trace, file_of(script_of(line for line, _ in asked)) as script:
        with open(script, "rb") as given:
            ended = program.watch([built, "load", trace], given)
    replies = ended.output.decode().splitlines()
    wrong = [pair for pair in zip(asked, replies) if pair[0][1] != pair[1]]
    if wrong or len(replies) != len(asked) or ended.status:
        return f"status {ended.status}, {len(replies)} replies to {len(asked)} lines, {wrong[:1]}"
    return "" if 0 < ended.peak_kib * 1024 <= most * 1_000_000 else f"it holds {ended.peak_kib:,} KiB, not {most} MB"


# ---- All -----------------------------------------------------------------------------------------


def checks(given: argparse.Namespace) -> Iterator[tuple[str, str]]:
    """The rows, each a name and what is wrong, or nothing."""
    built = given.program
    yield f"{MOST_STEPS:,} steps at {OF_A_ROUND * RINGS:,} places, and one too many", tried(places_fault, built)
    for before, count in MAKINGS.items():
        yield f"{count:,} makings by an actor with {before:,} segments", tried(makings_fault, built, before, count)
    yield f"a `goto` across {RACED:,} makings with little memory", tried(goto_fault, built)
    yield f"bookmarks of {MARKED:,} steps", tried(marks_fault, built)
    yield f"a viewer of {len(LONG):,} commands beside one of {len(SHORT)}", tried(view_fault, built)
    for name, (made, is_piped) in LOADS.items():
        yield name, tried(load_fault, built, made, is_piped)
    for keys, wanted in TYPED.items():
        yield f"{keys!r} typed at a terminal", tried(typed_fault, built, keys, wanted)
    bounds = BOUNDS.search(PAGE.read_text(encoding="utf-8"))
    for (name, asked), most in zip(HOLDING.items(), bounds.groups() if bounds else ("0", "0")):
        yield f"{name}, in {most} MB", tried(held_fault, built, asked(), int(most))
