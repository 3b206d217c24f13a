"""Writes the world at a script's end as a start of one's own: a trace over which `lcrqdb load` runs other
scripts.

    python3 tools/freeze.py SCRIPT -o START.trace [--actors A] [--ring R] [--refused] [--program P]
    python3 tools/freeze.py SCRIPT -o START.trace --trace TRACE [--refused] [--program P]
    python3 tools/freeze.py --check TRACE [--program P]

The script runs over a fresh world of A actors and rings of R cells, 4 each if left out, or over a
trace. `-` is standard input for SCRIPT, and standard output for START.trace. At the script's end
all actors and places are asked for, by `actor` and `show`, so each part of the start is a reply of
the program. Steps, undone steps and bookmarks are left out: over the start, steps count from 1, and
what was there before has no writer and no origin.

Standard error says how many actors and cells the start has, and how many lines of the script are
refused. The status is 1, with the reason in one line, if a file can't be read or written, if the
program does not run the script, or if a line is refused that makes a step or is no command, unless
`--refused` is given. `--check` says instead whether the program takes the start of a trace: of a
`Flaw N` it names the first part and the condition, which it finds by trying parts through the
program (`flaws.py`), with status 1. Only Python's standard library is needed; where
`jsonschema` is there too, the start is checked against docs/trace.schema.json.
"""

import argparse
import json
import subprocess
import sys

from lcrq_tools import options, program, schema
from lcrq_tools.faults import Fault, Parser, say
from lcrq_tools.program import Broken, Driven
from lcrq_tools.start import flaws, starts
from lcrq_tools.start.starts import Asked, Trace


def look_for_refusals(words: list[str], script: bytes, takes_refused: bool) -> None:
    """Runs a script, and says how many of its lines are refused; a refused event ends it."""
    ended = program.run(words, script)
    if ended.status:
        raise Fault(f"`{' '.join(words)}` ended with status {ended.status}: {ended.errors.strip()}")
    replies = ended.output.decode().splitlines()
    said, has_fault = program.refusals_of(script, replies)
    if has_fault and not takes_refused:
        raise Fault(f"{said}; --refused writes the start all the same")
    if said:
        say(said)


def trace_after(words: list[str], script: bytes) -> Trace:
    """The world at the end of a script, as a start."""
    lines = script.decode("latin-1").split("\n")
    with Driven(words) as driven:
        for line in lines if lines[-1] else lines[:-1]:
            driven.ask(line)
        return Asked(driven.ask_all).trace()


def read_options() -> argparse.Namespace:
    """The command line."""
    parser = Parser(__doc__, "session.script -o start.trace")
    options.add_script(parser)
    options.add_output(parser, "START.trace")
    parser.add_argument("--check", metavar="TRACE", help="say which part of a trace's start has a flaw")
    options.add_world(parser)
    options.add_refused(parser)
    options.add_program(parser)
    given = options.settled(parser)
    if not given.check and not (given.script and given.out):
        parser.error("SCRIPT and -o START.trace are wanted, or --check TRACE")
    return given


def check(program_path: str, name: str) -> int:
    """Says what is wrong with the start of a trace; returns the exit status."""
    try:
        trace: Trace = json.loads(program.bytes_of(name))
        has_start = isinstance(trace, dict) and "actors" in trace.get("start", {})
    except ValueError:
        has_start = False
    ended = program.run([program_path, "load", "--", name])
    said = ended.errors.strip().removeprefix("lcrqdb: ")
    if has_start and "refused 26 " in said:
        said = flaws.flaw_in(program_path, trace)
    print(f"{name}: {said or 'no flaw'}", file=sys.stderr if said else sys.stdout)
    return 1 if said else 0


def main() -> int:
    """Writes the start that the command line asks for, or checks one; returns the exit status."""
    given = read_options()
    program_path: str = given.program
    if given.check:
        return check(program_path, given.check)
    script = program.bytes_of(given.script)
    words = [program_path, *options.start_words(given.trace, given.actors, given.ring)]
    try:
        look_for_refusals(words, script, given.refused)
        trace = trace_after(words, script)
    except (Broken, OSError, subprocess.TimeoutExpired) as fault:
        raise Fault(f"the script can't be run: {fault}") from fault
    text = starts.text_of(trace)
    if schema.HAS_LIBRARY and (wrong := schema.fault_of(json.loads(text))):
        raise Fault(f"the schema of traces refuses this start: {wrong}")
    options.write(given.out, text)
    say(f"a start with {program.world_of(len(trace['start']['actors']), trace['ring'])}")
    return 0
