"""Reads the link of a live page, which carries a whole schedule behind `#`, for `opened.py`.

It is `#run=aARR;LINE;LINE..`: A actors, rings of R cells, and the lines. A line of one number is a step of this actor,
`_` stands for a blank, `*N` behind a line means N times, and other letters are as addresses spell them.
`live_tools.js` writes such links.
"""

import re
from typing import NamedTuple
from urllib.parse import unquote

from lcrq_tools.faults import Fault

BEGIN = "#run="
WORLD = re.compile("a([0-9]{1,2})r([0-9])")
LINE = re.compile(r"([^*]*)(?:\*([1-9][0-9]{0,4}))?")
MOST_LINES = 65_535


class Linked(NamedTuple):
    """What a link carries."""

    actors: int
    ring: int
    lines: list[str]


def is_link(text: str) -> bool:
    """Whether a text is an address that carries a schedule."""
    return BEGIN in text


def lines_of(part: str) -> list[str]:
    """The lines that a part of a link stands for."""
    found = LINE.fullmatch(part)
    if not found:
        raise Fault(f"{part!a} is no line of a link")
    line = unquote(found[1].replace("_", " "))
    return [f"go {line}" if line.isdecimal() else line] * int(found[2] or 1)


def linked_in(text: str) -> Linked:
    """What a link carries."""
    world, *parts = text.strip().partition(BEGIN)[2].split(";")
    found = WORLD.fullmatch(world)
    if not found:
        raise Fault("the link doesn't say its actors and its rings, as `#run=a2r4;` does")
    lines = [line for part in parts if part for line in lines_of(part)]
    if len(lines) > MOST_LINES or any("\n" in line for line in lines):
        raise Fault("the link is no schedule")
    return Linked(int(found[1]), int(found[2]), lines)
