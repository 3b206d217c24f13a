"""Runs the built program itself: its options, exit statuses, standard error and traces; and the tools as
their help shows.

    python3 tools/check.py statuses [--program P]

`rt ci` gives the program one command line; this gives it others, and compares. Each tool that takes a
moment does what the example in its help says, in a copy of `examples/`. The status is 1 if anything
differs. Only Python's standard library is used; where `jsonschema` isn't there, a line says `skipped`.
"""

import argparse
import os
import shlex
import shutil
import sys
import tempfile
import tomllib
from collections.abc import Iterator
from pathlib import Path
from typing import IO

from lcrq_tools import entry, manual, program, schema
from lcrq_tools.checks import command_rows
from lcrq_tools.checks.answers import TRACE, WRITE, differs, file_of, run_over, session_of, start_of
from lcrq_tools.program import EXAMPLES, TOP, Ended, Skipped

# A name, the words, standard input, and the answer: what standard output has, with status 0; or else what standard
# error has, with status 1 after a refusal, and 2 after a mistake in the words.
Row = tuple[str, str, str, str]
REFUSED, MISTAKE = "lcrqdb: refused ", "error: "

# Of these the answer begins so, if it isn't empty.
ROWS: list[Row] = [
    ("an empty script", "run -", "", ""),
    ("a last line without its line feed", "run -", "len", "at 0 0\n"),
    ("two actors", "run - --actors 2", "deq 3\n", "refused 1 NoActor\n"),
    ("sixteen actors", "run --actors=16 -", "deq 16\n", "ok 1\n"),
    ("a ring of two cells", "run --ring 2 -", "show cell 0.0 2\n", "refused 19 NoSuchPlace\n"),
    ("a ring of eight cells", "run --ring 8 -", "show cell 0.0 7\n", "is 1 7 none\n"),
    ("a refused line", "run -", "hello\n", "refused 22 BadLine\n"),
    ("help", "--help", "", "A causal reversible debugger for LCRQ\n"),
    ("the version", "--version", "", "lcrqdb "),
    ("a ring of three cells", "run - --ring 3", "", MISTAKE),
    ("no actor", "run - --actors 0", "", MISTAKE),
    ("seventeen actors", "run - --actors 17", "", MISTAKE),
    ("an option that is not there", "run - --foo", "", MISTAKE),
    ("no words", "", "", MISTAKE),
    ("no file", "run", "", MISTAKE),
    ("a file that is not there", "run /nowhere/script", "", f"{REFUSED}24 Read\n"),
    ("a folder for a file", "run /", "", f"{REFUSED}24 Read\n"),
    (
        "a trace after the report",
        "run - --trace --actors 2",
        "deq 1\nmark a\nundo\n",
        'ok 1\nmarked 1\nat 0 1\n{"events":[],"marks":[{"events":[["deq",1]],"name":"a"}],"ring":4,'
        '"start":{"fresh":2},"undone":[["deq",1]],"version":2}\n',
    ),
    ("a trace that is not there", "load /nowhere/trace", "len\n", f"{REFUSED}24 Read\n"),
    ("no trace", "load", "", MISTAKE),
    ("a trace with a ring", "load a --ring 2", "", MISTAKE),
    ("--trace and no trace", "load --trace", "", MISTAKE),
    ("an option of load that is not there", "load a --trace --foo", "", MISTAKE),
]

# A name, the text of a script and its report. The program reads a file in portions of 4,096 bytes.
SCRIPTS = [
    ("a script of a few bytes", "len\n", "at 0 0\n"),
    ("a script of 120,006 bytes", "len\n" * 30_000 + "hello\n", "at 0 0\n" * 30_000 + "refused 22 BadLine\n"),
]

MANY = "len\n" * 1000  # a script of a thousand lines
UNORDERED = '{"version":1, "ring":2, "events":[], "actors":1}'  # a trace whose keys aren't in their order
OWN = start_of()
FLAWED = OWN.replace('"head":0,"next":null', '"head":4611686018427387905,"next":null')
LONG = ",".join(((['["deq",1]'] + ['["go",1]'] * 11) * 5462)[:65_536])  # 65,536 events


def world_with(events: str, version: str = "1") -> str:
    """A trace of version 1, of a world with four actors."""
    return f'{{"actors":4,"events":{events},"ring":4,"version":{version}}}'


def mark_of(events: str) -> str:
    """A list of one bookmark."""
    return f'[{{"events":{events},"name":"a"}}]'


def session(**parts: str) -> str:
    """A trace of version 2, as the program writes it."""
    return f"{session_of(**parts)}\n"


# The same of `load`: the text of a trace is in the place of the words, and this is the whole answer.
TRACES: list[Row] = [
    ("a trace", f"{TRACE}\n", "len\n", "at 2 0\n"),
    ("a trace in another order", UNORDERED, "deq 2\n", "refused 1 NoActor\n"),
    ("a trace above 2 MB", UNORDERED + " " * 2_200_000, "len\n", "at 0 0\n"),
    ("half a trace", '{"actors":4,"ev', "len\n", f"{REFUSED}27 BadTrace\n"),
    ("a float in a trace", world_with("[]", "1.0"), "len\n", f"{REFUSED}27 BadTrace\n"),
    (
        "a refused event", world_with('[["enq",1,7],["go",1],["starve",1,true]]'), "len\n",
        f"{REFUSED}28 TraceStep 3 cause 5 NoChoice\n",
    ),
    ("65,536 events", world_with(f"[{LONG}]"), "len\n", f"{REFUSED}28 TraceStep 65536 cause 9 TooLong\n"),
    ("an undone event", session(events='[["enq",1,7]]', undone='[["go",1]]'), "len\nredo\n", "at 1 1\nat 2 0\n"),
    ("a bookmark", session(marks=mark_of('[["deq",1]]')), "len\nmarks\ngoto a\n", "at 0 0\nmarks 1\nat 1 0\n"),
    (
        "a refused event of a bookmark", session(marks=mark_of('[["go",1]]')), "len\n",
        f"{REFUSED}32 TraceMark 1 1 cause 3 Idle\n",
    ),
    (
        "a refused undone event", session(events='[["deq",1]]', undone='[["go",1],["deq",1]]'), "",
        f"{REFUSED}28 TraceStep 3 cause 2 NotIdle\n",
    ),
    ("a start of one's own", session(start=OWN), "go 1\nshow tail 0.0\n", "ok 1\nis open 1\n"),
    ("a flaw", session(start=FLAWED), "len\n", f"{REFUSED}26 Flaw 4\n"),
    ("a start with too many actors", session(start='{"fresh":17}'), "len\n", f"{REFUSED}27 BadTrace\n"),
    (
        "65,536 events of a bookmark", session(marks=mark_of(f"[{LONG}]")), "len\n",
        f"{REFUSED}32 TraceMark 1 65536 cause 9 TooLong\n",
    ),
]

# The same of `load --trace`.
MARKS = mark_of('[["deq",1]]')
UNDONE = session(events='[["enq",1,7]]', marks=MARKS, undone='[["go",1]]')
REDONE = session(events='[["enq",1,7],["go",1]]', marks=MARKS)
SAVED: list[Row] = [
    ("a session saved as it was", UNDONE, "", UNDONE),
    ("a session gone on with and saved", UNDONE, "redo\n", f"at 2 0\n{REDONE}"),
    (
        "a trace of version 1 saved", '{"actors":1,"events":[],"ring":2,"version":1}', "len\n",
        f"at 0 0\n{session()}",
    ),
    ("a saved start of one's own", session(start=OWN), "go 1\n", "ok 1\n" + session(events='[["go",1]]', start=OWN)),
    ("half a trace is not saved", UNDONE[:40], "len\n", f"{REFUSED}27 BadTrace\n"),
]


# ---- Runs ----------------------------------------------------------------------------------------


def wanted_of(answer: str) -> tuple[int, str, str]:
    """The status, standard output and standard error of an answer."""
    if answer.startswith((REFUSED, MISTAKE)):
        return 1 if answer.startswith(REFUSED) else 2, "", answer
    return 0, answer, ""


def answer_fault(ended: Ended, answer: str, is_whole: bool = True) -> str:
    """What is wrong with the end of a run, which shall have this answer, or an answer that begins so; or nothing."""
    got, wanted = (ended.status, ended.output.decode(), ended.errors), wanted_of(answer)
    pairs = zip(got[1:], wanted[1:])
    begins = got[0] == wanted[0] and all(text.startswith(start) if start else not text for text, start in pairs)
    return "" if got == wanted or begins and not is_whole else differs(got, wanted)


def script_fault(built: str, script: str, report: str) -> str:
    """What is wrong with the run of one script in a file; standard input has another one."""
    with file_of(script) as file:
        status, output, errors = program.run([built, "run", file], b"deq 1\n")
    if (status, output.decode(), errors) == (0, report, ""):
        return ""
    return differs((status, len(output), output[-40:].decode(), errors), (0, len(report), report[-40:], ""))


def write_fault(built: str, output: IO[bytes], words: list[str], given: str) -> str:
    """What is wrong where standard output takes nothing: status 1 and the text of a failed write."""
    status, _, errors = program.run([built, *words], given.encode(), stdout=output)
    return "" if (status, errors) == WRITE[::2] else f"status {status}, {errors!r}"


def pipe_fault(built: str) -> str:
    """What is wrong with a pipe that nobody reads."""
    reading, writing = os.pipe()
    os.close(reading)
    with open(writing, "wb") as pipe:
        return write_fault(built, pipe, ["run", "-"], MANY)


def device_fault(built: str, words: list[str], given: str) -> str:
    """What is wrong with a full device."""
    with open("/dev/full", "wb", buffering=0) as full:
        return write_fault(built, full, words, given)


def help_fault(built: str) -> str:
    """Which lines and places the help of `run` leaves out or the manual does not have, or nothing."""
    text = program.run([built, "run", "--help"]).output.decode()
    end = "".join(text.partition("Lines of a script:\n")[1:]).rstrip("\n")
    return ", ".join(sorted(command_rows.listed_in(end) ^ {*manual.FORMS, *manual.PLACES}))


# ---- Tools ---------------------------------------------------------------------------------------

# The tools whose examples are run, each with the status that comes of it: conform.py's log differs. The gate
# runs the checks themselves; a measurement, an archive and a build take long, and a server doesn't end.
LEFT_OUT = ("bench", "check", "gate", "live", "quick_build", "release")
RUN_NOTHING = ("draft", "schema")
SHOWN = {tool: 0 for tool in entry.TOOLS if tool not in LEFT_OUT} | {"conform": 1}


def version_fault(built: str) -> str:
    """What is wrong with the version of what pip installs, or nothing: it is the program's."""
    project = tomllib.loads((TOP / "tools" / "pyproject.toml").read_text(encoding="utf-8"))["project"]
    said = program.run([built, "--version"]).output.decode()
    return "" if said == f"lcrqdb {project['version']}\n" else f"the program is {said.strip()}"


def example_fault(tool: str, built: str) -> str:
    """What is wrong with what comes of the example in a tool's help, or nothing."""
    if tool == "schema" and not schema.HAS_LIBRARY:
        return Skipped("jsonschema")
    begin = [sys.executable, str(TOP / "tools" / f"{tool}.py")]
    with tempfile.TemporaryDirectory() as name:
        folder = shutil.copytree(EXAMPLES, Path(name) / "examples")
        example = program.run([*begin, "--help"], cwd=folder).output.decode().rpartition("example:\n")[2]
        script, *words = shlex.split(example)
        if script != f"{tool}.py":
            return f"it begins with {script}"
        runs = tool not in RUN_NOTHING and not entry.TOOLS[tool].startswith("look.")
        ended = program.run([*begin, *words, *(["--program", built] if runs else [])], cwd=folder)
        made = [word for option, word in zip(words, words[1:]) if option == "-o"]
        missing = [word for word in made if not (folder / word).exists()]
    if missing:
        return f"it makes no {missing[0]}"
    return "" if ended.status == SHOWN[tool] else f"status {ended.status}: {ended.errors.strip()}"


# ---- All -----------------------------------------------------------------------------------------


def checks(given: argparse.Namespace) -> Iterator[tuple[str, str]]:
    """The checks, each a name and what is wrong, or nothing."""
    built = given.program
    for name, words, script, answer in ROWS:
        yield name, answer_fault(program.run([built, *words.split()], script.encode()), answer, is_whole=False)
    for name, script, report in SCRIPTS:
        yield name, script_fault(built, script, report)
    loads: list[tuple[list[Row], list[str]]] = [(TRACES, []), (SAVED, ["--trace"])]
    for rows, flags in loads:
        for name, trace, script, answer in rows:
            yield name, answer_fault(run_over(built, trace, script, *flags), answer)
    yield "the help has the lines and the places of the manual", help_fault(built)
    yield "a closed pipe", pipe_fault(built)
    yield "a full device", device_fault(built, ["run", "-"], MANY)
    saving = ["load", str(EXAMPLES / "poised.trace"), "--trace"]
    yield "a full device for a saved session", device_fault(built, saving, "")
    yield "the version of what pip installs", version_fault(built)
    for tool in SHOWN:
        yield f"the example of {tool}.py --help", example_fault(tool, str(Path(built).absolute()))
