"""Says with what a live run begins: a script, a draft, a trace, a history or what was kept of a run, for `live.py` and
`room.py`.

What it is, its text says: a trace begins with a brace, a history's line with the number of a viewer, and a line of a
draft may have a comment, a count, or spaces that a script doesn't have.
"""

import argparse
import re
from dataclasses import replace
from pathlib import Path

from lcrq_tools import drafts
from lcrq_tools.faults import Fault
from lcrq_tools.history import COUNT, PART, history_of
from lcrq_tools.live.kept import Kept, is_kept, kept_in
from lcrq_tools.live.links import is_link, linked_in
from lcrq_tools.options import MOST_ACTORS, RINGS, world_of
from lcrq_tools.program import bytes_of, lines_of

A_CALL = re.compile("[0-9]+ ")
A_DRAFTS_LINE = re.compile(r"|.*#.*|\s.*|.*\s\s.*|.*\s|.* x[0-9]+")


def is_history(text: str) -> bool:
    """Whether a text is a history, by its first line that is no comment."""
    line = next((line for line in lines_of(text) if line and not line.startswith("#")), "")
    return bool(A_CALL.match(line) or PART.fullmatch(line) or COUNT.fullmatch(line))


def is_draft(text: str) -> bool:
    """Whether a text has a line that only drafts have."""
    return any(A_DRAFTS_LINE.fullmatch(line) for line in lines_of(text))


def script_in(lines: list[str]) -> Kept:
    """The run of a script, whose lines nobody asked."""
    return Kept(lines=lines, viewers=[0] * len(lines))


def linked(title: str, text: str) -> Kept:
    """The run of a link."""
    link = linked_in(text)
    if link.actors not in range(1, MOST_ACTORS + 1) or link.ring not in RINGS:
        raise Fault(f"the link has a world of {link.actors} actors and rings of {link.ring}, which is none")
    return replace(script_in(link.lines), title=title, actors=link.actors, ring=link.ring)


def opened_text(title: str, text: str, actors: int | None = None, ring: int | None = None) -> Kept:
    """The run of a text that came from a page, which names no file."""
    if is_link(text):
        return linked(title, text)
    if text.lstrip().startswith("{"):
        return Kept(title, trace=" ".join(text.split()))
    if is_kept(text):
        return replace(kept_in(title, text), title=title)
    if is_history(text):
        calls = history_of(title, text)
        return Kept(title, actors, ring, lines=calls.lines, viewers=calls.viewers)
    if not is_draft(text):
        return replace(script_in(lines_of(text)), title=title, actors=actors, ring=ring)
    draft = drafts.parsed(text, title)
    world = world_of(draft, title)
    if world["trace"]:
        raise Fault(f"{title} is run over a trace: open both by live.py")
    given = {"actors": actors, "ring": ring}
    chosen = {name: given[name] or world[name] for name in given}
    return replace(script_in([*draft.lines]), title=title, **chosen)


def opened_file(arguments: argparse.Namespace) -> Kept:
    """The run that a command line asks for, which has the options of a draft already."""
    name: str = arguments.script or ""
    if is_link(name):
        return linked("link", name)
    text = "" if drafts.is_draft(name) or not name else bytes_of(name).decode("latin-1")
    if is_kept(text):
        if arguments.trace or arguments.actors or arguments.ring:
            raise Fault(f"{name} has a world of its own: it comes without --trace, --actors and --ring")
        return kept_in(name, text)
    trace = Path(arguments.trace).read_bytes().decode("latin-1").strip() if arguments.trace else ""
    if is_history(text):
        calls = history_of(name, text)
        begun = Kept(lines=calls.lines, viewers=calls.viewers)
    else:
        begun = script_in(lines_of(bytes_of(name).decode("latin-1")) if name else [])
    title = Path(name or arguments.trace or "run").stem
    return replace(begun, title=title, actors=arguments.actors, ring=arguments.ring, trace=" ".join(trace.split()))
