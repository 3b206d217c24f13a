"""The options that several tools have: what is run, over which world, by which program, and where the result
goes. Each is defined here, and reads and says the same in every tool. Only Python's standard library is used.
"""

import argparse
import sys
from collections.abc import Sequence
from pathlib import Path

from lcrq_tools import drafts
from lcrq_tools.faults import Fault, Parser, say
from lcrq_tools.places import found_program, required

MOST_ACTORS, RINGS = 16, (2, 4, 8)  # how many actors a world may have, and cells its rings

# ---- Options --------------------------------------------------------------------------------------


def number_above_0(text: str) -> int:
    """A number of the command line, 1 at least."""
    if not text.isdecimal() or int(text) == 0:
        raise argparse.ArgumentTypeError(f"{text} is no number from 1 on")
    return int(text)


def add_program(parser: argparse.ArgumentParser) -> None:
    """Adds the option that names the built program, which has to be there."""
    about = "the program (the built one; else lcrqdb on the PATH)"
    parser.add_argument("--program", type=lambda path: required(path), default=found_program(), help=about)


def add_refused(parser: argparse.ArgumentParser) -> None:
    """Adds the option that takes a script although lines are refused that make a step."""
    about = "go on although a line that makes a step, or one that is no command, is refused"
    parser.add_argument("--refused", action="store_true", help=about)


def add_script(parser: "argparse._ActionsContainer") -> None:
    """Adds the script."""
    parser.add_argument("script", metavar="SCRIPT", nargs="?", help="the script; - is standard input")


def add_output(parser: argparse.ArgumentParser, metavar: str, default: str | None = None) -> None:
    """Adds the option that names the file for `write`."""
    about = "the file that is written; - is standard output"
    parser.add_argument("-o", dest="out", metavar=metavar, default=default, help=about)


def add_ring(parser: argparse.ArgumentParser) -> None:
    """Adds the option for the rings of a fresh world."""
    about = "how many cells the rings of the fresh world have: 2, 4 or 8 (4)"
    parser.add_argument("--ring", type=int, choices=RINGS, metavar="R", help=about)


def add_trace(parser: argparse.ArgumentParser) -> None:
    """Adds the option for a start in place of a fresh world."""
    parser.add_argument("--trace", metavar="TRACE", help="the trace over which the run begins")


def add_world(parser: argparse.ArgumentParser) -> None:
    """Adds the options that say over which world a script is run."""
    add_trace(parser)
    actors = f"how many actors the fresh world has: 1 to {MOST_ACTORS} (4)"
    parser.add_argument("--actors", type=int, choices=range(1, MOST_ACTORS + 1), metavar="A", help=actors)
    add_ring(parser)


def run_parser(about: str | None, example: str, out: str = "OUT.svg") -> Parser:
    """The command line of a tool that shows the run of a script or of a history."""
    parser = Parser(about, example)
    given = parser.add_mutually_exclusive_group(required=True)
    add_script(given)
    calls = "in place of SCRIPT: what `lcrqdb view FILE.. --history` wrote, or its lines `V LINE`; - is standard input"
    given.add_argument("--history", metavar="FILE", help=calls)
    add_output(parser, out, "-")
    add_world(parser)
    add_refused(parser)
    add_program(parser)
    return parser


def world_of(draft: drafts.Draft, name: str) -> dict[str, object]:
    """The options of a draft's world, by their names."""
    world = Parser("")
    add_world(world)
    try:
        return vars(world.parse_args(draft.options))
    except Fault as fault:
        raise Fault(f"{name}, `{drafts.RUN_WITH}{' '.join(draft.options)}`: {fault}") from fault


def settled(parser: argparse.ArgumentParser, words: Sequence[str] | None = None) -> argparse.Namespace:
    """The command line of a tool that takes a script. A draft brings the options of its world along, and it is
    said how it is run; an option that differs from them is a fault."""
    arguments = parser.parse_args(words)
    name: str = arguments.script or ""
    if drafts.is_draft(name):
        draft = drafts.read(name)
        for option, chosen in world_of(draft, name).items():
            given = getattr(arguments, option)
            if given not in (None, chosen):
                raise Fault(f"{name} says {f'--{option} {chosen}' if chosen else f'no --{option}'}, not {given}")
            setattr(arguments, option, chosen)
        say(f"{name} is run as `{draft.command('its-lines')}`")
    return arguments


# ---- What they mean -------------------------------------------------------------------------------


def start_words(trace: str | None, actors: int | None, ring: int | None) -> list[str]:
    """The words behind the program's name with which it runs standard input over a trace, or over a fresh
    world."""
    if trace is None:
        chosen = [("--actors", actors), ("--ring", ring)]
        return ["run", "-", *(word for option, value in chosen if value for word in (option, str(value)))]
    if actors or ring:
        raise Fault("a trace has its own actors and rings: --trace comes without --actors and --ring")
    return ["load", "--", trace]


def write(out: str, text: str) -> None:
    """Writes a text into the file of `-o`."""
    if out == "-":
        sys.stdout.write(text)
    else:
        Path(out).write_text(text, encoding="utf-8")
