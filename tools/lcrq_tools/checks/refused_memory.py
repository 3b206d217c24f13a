"""Refuses memory to the tests of `crates/rd_memory_tests` and to the built program, at each point in turn, and looks at what
they answer.

    python3 tools/check.py refused_memory [PART..] [--program P] [--tests T]

Parts, all of them if none is named:

    devices   the tests of crates/rd_memory_tests over devices that fail at each of their calls, which the
              gate runs too
    tests     the other tests of crates/rd_memory_tests, each one of their allocations refused in turn
    none      its tests of calls that take no memory, all allocations refused from each one on
    one       the program, with each one of its allocations refused in turn
    rest      the program, with all allocations refused from each one on
    undos     the program, all refused from a line on: undos, redos and queries answer as ever
    limits    the program under a limit of its address space that is lowered step by step
    back      the program, with nothing refused: what 62 of 64 bookmarks had is given back when they
              are dropped

P is the built program, and T the built tests of crates/rd_memory_tests, for the first three parts; `rt ci` leaves both in the
crates' folders out/. Each part prints a line with how many points were refused, and the status is 1 if anything is
wrong. It needs a C compiler (`cc`) and `prlimit`. Only Python's standard library is used.
"""

import argparse
import bisect
import concurrent.futures
import contextlib
import functools
import itertools
import os
import re
import resource
import struct
import subprocess
import tempfile
from collections.abc import Callable, Iterable, Iterator, Sequence
from pathlib import Path
from typing import NamedTuple

from lcrq_tools import manual, program
from lcrq_tools.checks.answers import actor_at, differs, file_of, refusal, report_of, session_of, start_of
from lcrq_tools.faults import Parser
from lcrq_tools.options import add_program
from lcrq_tools.places import required
from lcrq_tools.program import run, script_of

LAST = 2**63  # the number of an allocation that no program reaches
BLOCK = 64  # runs that are begun at once
HERE = Path(__file__).resolve().parent
NO_MEMORY = refusal("20 NoMemory")
REFUSED, NOT_RECORDED = b"refused 20 NoMemory", b"refused 31 NotRecorded"
# the first words of the lines that may be refused memory
MAY_TAKE = {b"enq", b"deq", b"aenq", b"adeq", b"go", b"starve", b"mark", b"goto", b"same"}


class Counted(NamedTuple):
    """What a run gives, how many allocations it asked for, and how many of these were refused."""

    status: int
    output: bytes
    errors: str
    calls: int
    refused: int


Run = program.Ended | Counted
Words = tuple[str, ...]  # of a command line, after the program


class CommandLine(NamedTuple):
    """A command line of the program."""

    name: str
    words: Words
    script: bytes  # on standard input
    fault_in: Callable[[str, Words, bytes, Run], str]  # of a program, words, a script and their run, what is wrong


# Names, how many points were refused if memory is refused there, and what is wrong or nothing.
Outcomes = Iterator[tuple[str, int | None, str]]

# ---- Runs that are refused memory ----------------------------------------------------------------


class Refuser:
    """Runs programs with allocations refused by number, and counts them."""

    def __init__(self, folder: Path) -> None:
        self.library = str(folder / "refuse.so")
        self.folder = folder
        flags = ["-O2", "-Wall", "-fPIC", "-shared", "-fno-builtin"]
        subprocess.run(["cc", *flags, "-o", self.library, str(HERE / "refuse.c")], check=True)

    @contextlib.contextmanager
    def counting(self) -> Iterator[tuple[dict[str, str], Callable[[], tuple[int, ...]]]]:
        """The environment in which a program is counted, and what says how many allocations it asked for, how many
        of these were refused, and how many bytes it holds."""
        with file_of(bytes(24)) as file:
            names = {"LD_PRELOAD": self.library, "REFUSE_COUNTS": file}
            yield names, lambda: struct.unpack("QQq", Path(file).read_bytes())

    def run(self, words: Sequence[str], first: int, last: int = LAST, given: bytes = b"") -> Counted:
        """A run in which the allocations of these numbers are refused."""
        with self.counting() as (names, counts):
            names |= {"REFUSE_FIRST": str(first), "REFUSE_LAST": str(last)}
            ended = run(words, given, env={**os.environ, **names})
            return Counted(*ended, *counts()[:2])

    def each_refused(self, words: Sequence[str], is_alone: bool, given: bytes = b"") -> Iterator[tuple[str, Counted]]:
        """The runs in which allocation 1, 2, .. is refused, alone or with all after it, up to the first that met no
        refusal, which is left out."""
        def refused(number: int) -> Counted:
            return self.run(words, number, number if is_alone else LAST, given)

        with concurrent.futures.ThreadPoolExecutor(os.cpu_count()) as pool:
            for first in itertools.count(1, BLOCK):
                for number, ended in enumerate(pool.map(refused, range(first, first + BLOCK)), first):
                    if not ended.refused:
                        return
                    yield f"allocation {number}", ended

    @contextlib.contextmanager
    def driven(self, words: Sequence[str]) -> Iterator[tuple[program.Driven, Callable[[], int]]]:
        """A run that is asked a line at a time, and what says how many bytes it holds."""
        with self.counting() as (names, counts):
            with program.Driven(["env", *(f"{name}={value}" for name, value in names.items()), *words]) as asked:
                yield asked, lambda: counts()[2]


def first_fault(ends: Iterable[tuple[str, Run]], fault_in: Callable[[Run], str]) -> tuple[int, str]:
    """How many of these runs there are, and what is wrong with the first that is wrong, or nothing."""
    faults = [(name, fault_in(ended)) for name, ended in ends]
    return len(faults), next((f"{name}: {fault}" for name, fault in faults if fault), "")


# ---- What a run may answer -----------------------------------------------------------------------


@functools.lru_cache(maxsize=4096)
def usual(built: str, words: Words, script: bytes) -> bytes:
    """The replies to a script with ample memory."""
    return report_of(run([built, *words], script)).encode()


def kept_lines(script: bytes, report: bytes) -> bytes:
    """The lines of a script that were not refused memory."""
    pairs = zip(script.splitlines(), report.splitlines())
    return b"".join(line + b"\n" for line, reply in pairs if reply != REFUSED)


def fault_in_report(built: str, words: Words, script: bytes, output: bytes) -> str:
    """What is wrong with the report of a script that was refused memory here and there. A line that was refused memory
    may be one that takes some, and all others are answered as if it weren't there."""
    lines, replies = script.splitlines(), output.splitlines()
    if not output.endswith(b"\n") or len(lines) != len(replies):
        return f"{len(replies)} replies to {len(lines)} lines, the last {output[-40:]!r}"
    wanted = iter(usual(built, words, kept_lines(script, output)).splitlines())
    for number, (line, reply) in enumerate(zip(lines, replies), 1):
        if reply == REFUSED:
            if line.split(b" ")[0] not in MAY_TAKE:
                return f"{line!r} was refused memory"
        elif reply != (other := next(wanted, b"")):
            return f"line {number}, {line!r}, has the reply {reply!r}, wanted {other!r}"
    return differs([*wanted], [])


def fault_in_run(built: str, words: Words, script: bytes, ended: Run) -> str:
    """What is wrong with a run of a script."""
    if (ended.status, ended.errors) == (0, ""):
        return fault_in_report(built, words, script, ended.output)
    return f"status {ended.status}, {ended.errors!r}, {ended.output[-40:]!r}"


def fault_in_traced_run(built: str, words: Words, script: bytes, ended: Run) -> str:
    """What is wrong with a run of a script that writes its trace: there is the whole trace of what
    was done, or none of it."""
    report, trace = split_trace(ended.output)
    wanted = usual(built, words, kept_lines(script, report)) if trace else b""
    if (ended.status, ended.errors) != ((0, "") if trace else (1, NO_MEMORY.errors)) or not wanted.endswith(trace):
        return f"status {ended.status}, {ended.errors!r}, {trace!r}"
    return fault_in_report(built, tuple(word for word in words if word != "--trace"), script, report)


def split_trace(output: bytes) -> tuple[bytes, bytes]:
    """The report of a run that writes its trace, and the trace, which is nothing where there is
    none: its line alone begins with a brace."""
    lines = output.splitlines(keepends=True)
    return (b"".join(lines[:-1]), lines[-1]) if lines and lines[-1].startswith(b"{") else (output, b"")


def viewers_in(output: bytes) -> tuple[list[list[bytes]], str]:
    """The replies to each viewer, and the number of recorded calls, of the text of a view."""
    text, _, calls = output.rpartition(b"history ")
    viewers = re.split(rb"^viewer [0-9]+\n", text, flags=re.MULTILINE)[1:]
    return [replies.splitlines() for replies in viewers], calls.decode().strip()


def fault_in_view(built: str, words: Words, _script: bytes, ended: Run) -> str:
    """What is wrong with a view of scripts of queries: each viewer has its usual answers, or was
    not started; a call that is not recorded says so, and is not counted."""
    if (ended.status, ended.errors) != (0, "") or not ended.output.endswith(b"\n"):
        return f"status {ended.status}, {ended.errors!r}, {ended.output[-40:]!r}"
    (viewers, calls), (wanted, _) = viewers_in(ended.output), viewers_in(usual(built, words, b""))
    if len(viewers) != len(wanted):
        return f"{len(viewers)} viewers, wanted {len(wanted)}"
    recorded = 0
    for number, (replies, others) in enumerate(zip(viewers, wanted), 1):
        if replies == [REFUSED]:
            continue
        answers = [other if reply == NOT_RECORDED else reply for reply, other in zip(replies, others)]
        if answers != others or len(replies) != len(others):
            return f"viewer {number}: {replies}"
        recorded += sum(not reply.startswith((NOT_RECORDED, b"refused 22")) for reply in replies)
    return "" if calls == str(recorded) else f"history {calls}, wanted {recorded}"


def fault_in_words(built: str, words: Words, _script: bytes, ended: Run) -> str:
    """What is wrong with a command line that asks for help or is a mistake."""
    return differs(ended[:3], tuple(run([built, *words])))


def fault_with(built: str, line: CommandLine, ended: Run) -> str:
    """What is wrong with a run of a command line, which may be refused memory before it writes anything."""
    return "" if ended[:3] == NO_MEMORY else line.fault_in(built, line.words, line.script, ended)


# ---- Scripts -------------------------------------------------------------------------------------

NAMES = ("0.0", "1.0", "2.0")  # of segments
QUERIES = ["len", "marks", "markat 1", "markat 2", "show qhead", "show qtail", "show ahead", "show atail"]
QUERIES += ["show acell 0", "show acell 1"]
QUERIES += [f"show {kind} {name}" for name in NAMES for kind in ("head", "tail", "next", "whole")]
QUERIES += [f"show {kind} {name} {at}" for name in NAMES for kind in ("cell", "value", "index") for at in (0, 1)]
QUERIES += [f"actor {number}" for number in (1, 2, 3, 4)]
QUERIES += ["step 1", "step 7", "step 26", "step 28", "writer qtail", "writer tail 0.0", "writer cell 0.0 0"]
QUERIES += ["writer value 0.0 0", "origin 7"]
QUERIES += manual.lines_beside(manual.QUERIES, QUERIES)

# up to the two makings of a ring after a full one, that of actor 1 last, and both actors' next
# step: over rings of two cells
RACE = ["enq 1 7"] + ["go 1"] * 6 + ["enq 1 8"] + ["go 1"] * 6 + ["enq 1 9"] + ["go 1"] * 2
RACE += ["enq 2 10"] + ["go 2"] * 2 + ["go 1"] * 5
RACE += ["go 2", "go 1", "go 2", "undo 27", "redo", "go 2", "go 1"]
# before them, two bookmarks of which neither begins the other
APART = ["deq 3", "mark x", "undo", "deq 4", "mark y", "undo"]
# what comes of them, which takes no memory
UNDOS = {"undo": "at 29 1", "undo 28": "at 28 2", "back 3": "at 25 5", "redo": "at 26 4", "forward 2": "at 28 2"}
UNDOS |= {"roll 27": "at 26 4", "undo 30": "refused 12 NoSuchStep 26", "undo 1": "refused 13 Depended 2"}
UNDOS |= {"forward 5": "refused 11 NothingToRedo"}
MORE = ["mark a", "undo", "undo 28", "back 3", "forward 2", "mark b", "hello", "same a b", "deq 3", "go 3", "mark c"]
MORE += ["same a c", "goto a", "starve 1 yes", "aenq 4 5", "go 4", "adeq 4", "goto c", "drop b", "goto b", "same c a"]
MORE += ["back 30", "enq 4 5", "mark A", "roll 1"]
MORE += manual.lines_beside(manual.FORMS, RACE + MORE + QUERIES)

TRACE = b'{"actors":4,"events":[["enq",1,7],["go",1],["aenq",2,5],["deq",3],["go",3]],"ring":4,"version":1}\n'
# a start by hand, whose actor makes the next ring, with live and undone events and two bookmarks
# that share two
SEGMENT = '{"cells":[[true,0,7],[true,1,8]],"closed":false,"head":0,"next":null,"tail":2}'
START = start_of(actor_at("E11", 2), '{"cells":[[1,"top"],[63,5]],"head":2,"tail":3}', SEGMENT)
STEP = '["go",1]'
MARKED = ",".join([STEP] * 4)
MARKS = f'[{{"events":[{STEP},{STEP}],"name":"a"}},{{"events":[{MARKED},["adeq",1]],"name":"b"}}]'
SESSION = session_of(f"[{STEP},{STEP},{STEP}]", MARKS, START, f"[{STEP}]")


def asked_behind(lines: Iterable[str]) -> bytes:
    """The text of these lines with all queries after each that may take memory."""
    asked = ([line, *(QUERIES if line.split(" ")[0].encode() in MAY_TAKE else [])] for line in lines)
    return script_of([*itertools.chain.from_iterable(asked), *QUERIES])


def command_lines(folder: Path) -> list[CommandLine]:
    """The command lines, over files of this folder."""
    script = asked_behind(RACE + MORE)
    texts = {"script": script, "trace": TRACE, "session": SESSION.encode() + b"\n"}
    texts |= {"first": b"len\nhello\nshow qhead\n", "second": b"show tail 0.0\nactor 1\n"}
    for name, text in texts.items():
        (folder / name).write_bytes(text)
    file, trace, session, first, second = (str(folder / name) for name in texts)
    rings = ("run", "-", "--ring", "2")
    few = script_of(["len", "go 1", "undo", "mark a", "len"])
    marked = script_of(RACE[:9] + ["mark a", "back 2", "mark b"])
    moves = ["len", "marks", "markat 2", "redo", "deq 1", "same a b", "goto b", "undo", "mark c", "goto a", "go 1"]
    moved = script_of([*moves, "len", "show whole 1.0"])
    return [
        CommandLine("run", rings, script, fault_in_run),
        CommandLine(
            "run of a file", ("run", file, *rings[2:]), b"",
            lambda built, _words, _script, ended: fault_in_run(built, rings, script, ended),
        ),
        CommandLine("run --trace", (*rings, "--trace"), marked, fault_in_traced_run),
        CommandLine("load", ("load", trace), few, fault_in_run),
        CommandLine("load of a whole session", ("load", session), moved, fault_in_run),
        CommandLine("load --trace", ("load", session, "--trace"), moved, fault_in_traced_run),
        CommandLine("view", ("view", first, second, first, second), b"", fault_in_view),
        CommandLine("help", ("run", "--help"), b"", fault_in_words),
        CommandLine("a mistake", ("run", "-", "--ring", "3"), b"", fault_in_words),
    ]


# ---- Parts ---------------------------------------------------------------------------------------


DEVICES = "tests::devices::"  # tests of which to refuse each allocation would take hours
NONE = "tests::none_left::"  # tests that pass whatever is refused to them from some point on


def tests_of(tests: str) -> list[str]:
    """The names of the tests in a built test program."""
    listed = run([tests, "--list"]).output.decode()
    return [line.removesuffix(": test") for line in listed.splitlines() if line.endswith(": test")]


def devices_part(given: argparse.Namespace, _refuser: Refuser) -> Outcomes:
    """Each test over devices that fail, once."""
    for name in tests_of(given.tests):
        if name.startswith(DEVICES):
            ended = run([given.tests, name])
            yield name.removeprefix("tests::"), None, fault_in_test(ended)


def fault_in_test(ended: Run) -> str:
    """What is wrong with a run of a test."""
    return "" if ended.status == 0 else f"status {ended.status}, {ended.errors.strip()!r}"


def tests_part(given: argparse.Namespace, refuser: Refuser, is_alone: bool) -> Outcomes:
    """Each test with each one of its allocations refused; or each test of calls that take no memory, with all
    allocations refused from each one on."""
    for name in tests_of(given.tests):
        if not name.startswith(DEVICES) if is_alone else name.startswith(NONE):
            ends = refuser.each_refused([given.tests, name], is_alone)
            yield name.removeprefix("tests::"), *first_fault(ends, fault_in_test)


def program_part(given: argparse.Namespace, refuser: Refuser, is_alone: bool) -> Outcomes:
    """Each command line with each one of its allocations refused, alone or with all after it."""
    for line in command_lines(refuser.folder):
        ends = refuser.each_refused([given.program, *line.words], is_alone, line.script)
        yield line.name, *first_fault(ends, functools.partial(fault_with, given.program, line))


def undos_part(given: argparse.Namespace, refuser: Refuser) -> Outcomes:
    """Undos, redos and queries with all allocations refused from the line before them on: it
    compares two bookmarks, which needs some."""
    words = [given.program, "run", "-", "--ring", "2"]
    before = script_of(APART + RACE)
    taken = refuser.run(words, LAST, given=before).calls
    later = script_of([*UNDOS, *QUERIES, "drop x", "marks", "markat 1", "len"])
    ended = refuser.run(words, taken + 1, given=before + b"same x y\n" + later)
    wanted = usual(given.program, tuple(words[1:]), before + later).splitlines()
    first = len(before.splitlines())
    wanted[first:first + len(UNDOS)] = [REFUSED, *(reply.encode() for reply in UNDOS.values())]
    replies = enumerate(itertools.zip_longest(ended.output.splitlines(), wanted), 1)
    wrong = [(number, *pair) for number, pair in replies if pair[0] != pair[1]]
    fault = f"status {ended.status}, {ended.errors!r}, {wrong[:3]}" if wrong or ended.status or ended.errors else ""
    yield f"{len(later.splitlines())} lines after {taken} allocations", ended.refused, fault


def run_limited(built: str, words: Sequence[str], script: bytes, limit: int) -> program.Ended:
    """A run under a limit of its address space."""
    return run(["prlimit", f"--as={limit}", built, *words], script)


def lowest_limit(built: str) -> int:
    """The lowest limit, in steps of a page, under which the program starts: the loader and the C library need it."""
    pages = range(0, (1 << 30) + 1, resource.getpagesize())

    def starts(limit: int) -> bool:
        return run_limited(built, ["--version"], b"", limit).status == 0

    return pages[bisect.bisect_left(pages, True, hi=len(pages) - 1, key=starts)]


def long_script() -> bytes:
    """A script of some 9,600 steps with bookmarks, undos and queries among them."""
    lines: list[str] = []
    for call in range(800):
        lines += ["deq 1"] + ["go 1"] * 11 + ["undo", "redo"]
        if call % 200 == 100:
            lines += [f"mark a{call}", "back 500", "undo", "enq 2 5", f"mark b{call}"]
            lines += [f"same a{call} b{call}", f"goto a{call}", *QUERIES]
    return script_of(lines + QUERIES)


def limits_part(given: argparse.Namespace, refuser: Refuser) -> Outcomes:
    """Runs under limits that are lowered step by step, to the lowest under which the program starts."""
    floor, many = lowest_limit(given.program), refuser.folder / "many"
    # few lines: viewers take turns, and 64 threads that do so are slow on a machine that does other
    # work too
    many.write_bytes(b"len\nshow tail 0.0\n")
    runs = [
        (CommandLine("run", ("run", "-", "--ring", "2"), long_script(), fault_in_run), 64 << 10, 130),
        (CommandLine("view of 64", ("view", *[str(many)] * 64), b"", fault_in_view), 8 << 20, 80),
    ]
    for line, step, steps in runs:
        limits = [floor + step * part // 4 for part in range(4 * 4)] + [floor + step * part for part in range(4, steps)]
        with concurrent.futures.ThreadPoolExecutor(os.cpu_count()) as pool:
            ends = [*pool.map(functools.partial(run_limited, given.program, line.words, line.script), limits)]
        short = sum(REFUSED in ended.output or ended.status == 1 for ended in ends)
        names = (f"{limit >> 10} KiB" for limit in limits)
        _, fault = first_fault(zip(names, ends), functools.partial(fault_with, given.program, line))
        yield f"{line.name}, {len(limits)} limits from {limits[-1] >> 10} to {floor >> 10} KiB", short, fault


BRANCHES = 63  # and a bookmark at no step
CALLS = 40  # in each of them


def back_part(given: argparse.Namespace, refuser: Refuser) -> Outcomes:
    """Bookmarks on branches that have no step in common, all but one of which are dropped: at most
    a tenth of what they took is held then."""
    with refuser.driven([given.program, "run", "-"]) as (asked, held):
        asked.ask("mark start")
        before = held()
        for branch in range(BRANCHES):
            for line in [f"enq 1 {branch}", *["deq 2", *["go 2"] * 11] * CALLS, f"mark m{branch}", "goto start"]:
                asked.ask(line)
        full = held()
        for branch in range(1, BRANCHES):
            asked.ask(f"drop m{branch}")
        left = held() - before
        nodes = asked.ask("marks")[0]
    taken = full - before
    fault = "" if 0 <= left * 10 <= taken else f"{left} bytes are left of {taken}, at `{nodes}`"
    yield f"{left >> 10} KiB are left of {taken >> 10}", None, fault


Part = Callable[[argparse.Namespace, Refuser], Outcomes]
OF_TESTS: dict[str, Part] = {
    "devices": devices_part,
    "tests": functools.partial(tests_part, is_alone=True),
    "none": functools.partial(tests_part, is_alone=False),
}
PARTS: dict[str, Part] = OF_TESTS | {
    "one": functools.partial(program_part, is_alone=True),
    "rest": functools.partial(program_part, is_alone=False),
    "undos": undos_part,
    "limits": limits_part,
    "back": back_part,
}


def checks_of(given: argparse.Namespace, parts: Iterable[str]) -> Iterator[tuple[str, str]]:
    """The checks of these parts, each a name and what is wrong, or nothing: with how many points were refused, if a
    part is one that refuses, and then how many in all of it."""
    with tempfile.TemporaryDirectory() as folder:
        refuser = Refuser(Path(folder))
        for part in parts:
            total = 0
            for name, points, fault in PARTS[part](given, refuser):
                total += points or 0
                count = "" if points is None else f": {points} refused"
                yield f"{part}: {name}{count}", fault or ("nothing was refused" if points == 0 else "")
            if total:
                yield f"{part}: {total} points refused", ""


def main() -> int:
    """Prints each check; returns the exit status."""
    parser = Parser(__doc__, "tests none")
    about = f"{', '.join(PARTS)}; all if none is named"
    parser.add_argument("parts", nargs="*", choices=[[], *PARTS], metavar="PART", help=about)
    add_program(parser)
    tests = str(program.CRATES / "rd_memory_tests" / "out" / "rd_memory_tests_tests")
    parser.add_argument("--tests", default=tests, help="the built tests of crates/rd_memory_tests")
    given = parser.parse_args()
    parts = given.parts or list(PARTS)
    if not OF_TESTS.keys().isdisjoint(parts):
        required(given.tests, "rt ci, which is the gate")
    return program.print_checks(checks_of(given, parts))
