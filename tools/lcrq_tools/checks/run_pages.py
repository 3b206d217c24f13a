"""Compares what the pages of runs have with what the program replies when it is asked in another way.

    python3 tools/check.py run_pages [--program P]

The gate runs it. `tools/page.py` makes a page of each lesson, of the session of the README and of the guide's
first run, twice, to the same bytes; and of some runs and some histories of viewers at random. The differences
in a page's data are made states again here. The session after so many lines is loaded as a trace, and its
replies are compared with the state. Each line and each step of a history has to have the mark of the viewer who
asked it. Letters have to have a contrast of 4.5 on each ground. `tools/check.py browser` looks at the pages
themselves. Each check prints a line; the status is 1 if one of them fails.
"""

import argparse
import functools
import itertools
import json
import math
import random
import re
import tempfile
from collections.abc import Iterator
from pathlib import Path
from typing import Any

from lcrq_tools import program
from lcrq_tools.checks import histories, pictures, replies
from lcrq_tools.checks.histories import Run
from lcrq_tools.checks.random_scripts import LONG, MARKED, drawing_words, random_script
from lcrq_tools.checks.replies import Replies
from lcrq_tools.draw.boxes import SLOTS
from lcrq_tools.faults import Fault
from lcrq_tools.history import History
from lcrq_tools.live.folded import moments_of
from lcrq_tools.page import page, page_parts

STEPS = 60  # the lines of a run at random
EACH = 6  # of how many moments of such a run one is compared
MOST_BYTES = 1_000_000  # of a page of 400 lines
CONTRAST = 4.5
OTHERS = {"session": "", "guide-1": ""}  # pages beside those of the lessons: the script, and its world

RANDOM: list[tuple[str, int, pictures.RunOf]] = [
    ("runs at random", 20, functools.partial(histories.short_run, forms=MARKED, count=STEPS)),
    ("histories of viewers", 10, functools.partial(histories.viewed_run, count=STEPS)),
]

State = dict[str, Any]  # a moment of a page's data, as JSON has it
Data = dict[str, Any]  # all of them, the same way


# ---- The pages ------------------------------------------------------------------------------------


def pages() -> dict[str, str]:
    """The scripts and histories that have a page, and of each the options of its world."""
    return OTHERS | {lesson.name: lesson.world_options() for lesson in pictures.LESSONS}


def arguments_of(name: str, options: str, program_path: str) -> argparse.Namespace:
    """The command line of an example's page."""
    return pictures.arguments_of(page, pictures.source_of(name), options, program_path)


def states_in(text: str) -> tuple[Data, list[State]]:
    """The data of a page, and its moments as whole states."""
    found = re.search(r'<script type="application/json" id="run">(.*?)</script>', text, re.DOTALL)
    assert found, "the page has no data"
    data: Data = json.loads(found[1])
    return data, moments_of(data)


# ---- The same moments, asked in another way -------------------------------------------------------


def array_fault(state: State) -> str:
    """Which slot with a value or a counter is not among those of the array that are shown, or nothing."""
    places, ends = state["places"], [int(state["places"][name]) for name in ("ahead", "atail")]
    used = [slot for slot in range(SLOTS) if places.get(f"acell {slot}", "empty") != "empty"]
    used += ends if used or any(ends) else []
    first, last = state["array"] or (SLOTS + 1, 0)
    return "".join(f"slot {slot} is not in {state['array']}" for slot in used if not first <= slot <= last)


def rows_fault(data: Data, state: State, asked: Replies, words: list[str]) -> str:
    """Which step isn't as a run of these words replies, or nothing."""
    counts, listed = (state["live"], state["undone"]), state["rows"]
    if counts != (asked.live, asked.undone) or len(listed) != sum(counts) - data["above"]:
        return f"{counts} steps are live and undone in {listed}, and {asked.live}, {asked.undone} as the program says"
    last = asked.steps[asked.live - 1].event.actor if asked.live else 0
    if state["by"] != last or asked.live > data["above"] and state["last"] != listed[asked.live - data["above"] - 1]:
        return f"the last step is {state['last']} of {state['by']}, and of {last} as the program replies"
    pairs = zip(listed, replies.labels_along(words, asked.steps)[data["above"]:])
    rows = ((row, data["rows"][str(row)]["about"], label) for row, label in pairs)
    return next((f"row {row} is {about}, wanted {label}" for row, about, label in rows if about != label), "")


def words_fault(state: State, line: str, reply: str, told: str) -> str:
    """What of a line and its words isn't as the program replies, or nothing."""
    found = (state["text"], state["reply"], state["words"])
    if found != (line, reply, told) or f"{line}: {reply}. {told}" not in state["said"]:
        return f"it says {found} and {state['said']}, wanted {line}: {reply}. {told}"
    why = told if reply.startswith("refused ") else ""
    is_so = state["why"].rstrip(".").lower() == why.rstrip(".").lower()
    return "" if is_so else f"it says {state['why']}, wanted {why}"


def state_fault(text: str, arguments: argparse.Namespace, each: int) -> str:
    """The first thing that is wrong with the data of a page, or nothing."""
    data, states = states_in(text)
    run = page.session_of(arguments)
    told, given = replies.told_by(run.words, run.lines), run.replies_to(run.lines)
    for index in sorted({*range(0, len(states), each), len(states) - 1}):
        state, line = states[index], data["first"] + index
        session = run.at(line)
        asked = replies.asked_at(session)
        begun = "" if f"{asked.live} live steps" in state["said"] else f"it says {state['said']}"
        fault = (
            asked.drawn_fault(state)
            or array_fault(state)
            or asked.chips_fault(state["actors"])
            or rows_fault(data, state, asked, session.words)
            or (words_fault(state, run.text(line), given[line - 1], told[line - 1]) if index else begun)
            or ("" if state["line"] == line else f"it is line {state['line']}")
        )
        if fault:
            return f"line {line}: {fault}"
    return ""


# ---- Viewers --------------------------------------------------------------------------------------

def lines_fault(text: str, asked: History) -> str:
    """Which line has another viewer than who asked it, or isn't said to be of that viewer, or nothing."""
    data, states = states_in(text)
    wanted = [0, *asked.viewers][data["first"]: data["first"] + len(states)]
    found = [state["viewer"] for state in states]
    if found != wanted:
        return f"the lines have the viewers {found}, wanted {wanted}"
    begins = [f"Line {state['line']}, viewer {viewer}, " for state, viewer in zip(states, wanted)]
    pairs = [*zip((state["said"] for state in states), begins)][1:]
    return next((f"it says {said}" for said, begin in pairs if not said.startswith(begin)), "")


def askers_wanted(text: str, arguments: argparse.Namespace, run: Run) -> dict[int, int]:
    """The viewer of each row: of the line that makes its step. What else is first there at a line, such as
    the steps of a bookmark, is found by all lines before."""
    data, states = states_in(text)
    wanted: dict[int, int] = {}
    for line, state in enumerate(states, data["first"]):
        fresh = [row for row in state["rows"] if row not in wanted]
        if fresh and line > data["first"] and ": ok " in state["said"]:
            wanted[fresh[0]] = run.calls.viewers[line - 1]
        elif fresh:
            viewers = zip(state["rows"], histories.viewers_after(line, arguments, run)[data["above"]:])
            wanted |= {row: viewer for row, viewer in viewers if row in fresh}
    return wanted


def askers_fault(text: str, wanted: dict[int, int]) -> str:
    """Which step has another viewer than who asked it, or which viewer has no name or no mark, or nothing."""
    data, states = states_in(text)
    found = {int(row): about["viewer"] for row, about in data["rows"].items()}
    if found != {row: wanted[row] for row in found}:
        return f"the rows have the viewers {found}, wanted {wanted}"
    used = {*found.values(), *(state["viewer"] for state in states)} - {0}
    names = {str(viewer): f"viewer {viewer}" for viewer in used}
    marks = {viewer: mark[1] for viewer, mark in data["marks"]["of"].items()}
    if data["names"] != names or marks != {str(viewer): f"V{viewer}" for viewer in used}:
        return f"the viewers {used} have the names {data['names']} and the marks {marks}"
    return ""


# ---- The checks -----------------------------------------------------------------------------------


def faults_of(text: str, arguments: argparse.Namespace, run: Run, each: int) -> str:
    """What is wrong with the page of a run at each of so many moments, or nothing."""
    fault = ""
    if run.calls.lines:
        fault = lines_fault(text, run.calls) or askers_fault(text, askers_wanted(text, arguments, run))
    return fault or state_fault(text, arguments, each)


def page_fault(arguments: argparse.Namespace) -> str:
    """What is wrong with a page, or nothing."""
    text = page.page_of(arguments)[0]
    if text != page.page_of(arguments)[0]:
        return "it has other bytes when it is made again"
    return faults_of(text, arguments, histories.stored(arguments), 1)


def random_fault(chance: random.Random, run: Run) -> str:
    """What is wrong with the page of a run at random, or nothing. About each third one is of a part of it."""
    part = ["--lines", f"{chance.randint(2, 30)}:{chance.randint(31, STEPS)}"] if chance.random() < 1 / 3 else []
    arguments = page.parser().parse_args([*run.words, *part])
    return faults_of(page.page_of(arguments)[0], arguments, run, EACH)


def brightness(colour: str) -> float:
    """How bright a colour is, as contrast counts it."""
    parts = [part / 255 for part in bytes.fromhex(colour.removeprefix("#"))]
    red, green, blue = (part / 12.92 if part <= 0.04045 else math.pow((part + 0.055) / 1.055, 2.4) for part in parts)
    return 0.2126 * red + 0.7152 * green + 0.0722 * blue


def contrast_fault() -> str:
    """Which letters have too little contrast on a ground where they stand, or nothing."""
    grounds = ("ground", "band", "mark", "warned", "depends")
    for light, actors in enumerate((page_parts.ACTORS_BY_DAY, page_parts.IN_THE_DARK)):
        colours = {name: variants[light] for name, variants in page_parts.COLOURS.items()}
        letters_on = [*itertools.product(("text", "soft"), grounds), *(("asked", ground) for ground in grounds[:4])]
        pairs = [(colours[letters], colours[ground]) for letters, ground in letters_on]
        pairs += [(dark, colours[ground]) for _, dark, _ in actors for ground in grounds]
        pairs += [(colours["text"], tint) for _, _, tint in actors]
        for letters, ground in pairs:
            more, less = sorted(map(brightness, (letters, ground)), reverse=True)
            if (more + 0.05) / (less + 0.05) < CONTRAST:
                return f"{letters} on {ground} has {(more + 0.05) / (less + 0.05):.1f}"
    return ""


def long_words(lines: int, folder: Path, given: argparse.Namespace) -> list[str]:
    """The words that draw a run of so many lines by four actors."""
    return drawing_words(folder, random_script(random.Random(lines), LONG, 4, lines), given.program)


def long_fault(given: argparse.Namespace) -> str:
    """What is wrong with the page of a long run, or nothing: 400 lines have one, and of more a part."""
    with tempfile.TemporaryDirectory() as name:
        folder, parser = Path(name), page.parser()
        size = len(page.page_of(parser.parse_args(long_words(400, folder, given)))[0].encode())
        if size >= MOST_BYTES:
            return f"400 lines take {size} bytes"
        words = long_words(401, folder, given)
        try:
            page.page_of(parser.parse_args(words))
            return "401 lines have a page"
        except Fault as fault:
            if "--lines A:B" not in str(fault):
                return str(fault)
        return page_fault(parser.parse_args([*words, "--lines", "390:401"]))


def checks(given: argparse.Namespace) -> Iterator[tuple[str, str]]:
    """The checks, each a name and what is wrong, or nothing."""
    for name, options in pages().items():
        yield f"the page of {name}", page_fault(arguments_of(name, options, given.program))
    for name, count, run_of in RANDOM:
        yield f"the pages of {count} {name}", pictures.random_faults(given, count, run_of, random_fault)
    yield "a run of more than 400 lines", long_fault(given)
    yield "the contrast of letters", contrast_fault()
