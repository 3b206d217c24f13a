"""Makes scripts at random for the checks of pictures, pages and viewers: each line has a form, of which a table
says how often a script has it, and chance fills in what the form leaves open. Only Python's standard library is used.
"""

import random
from collections.abc import Mapping, Sequence
from pathlib import Path

from lcrq_tools.program import script_of

Forms = Mapping[str, int]  # how often a script has a line of each form

NAMES = ("a", "b", "c")  # of bookmarks
MOST_NAMED = 30  # up to which number steps are named

STEPS: Forms = {
    "go {actor}": 28, "enq {actor} {value}": 6, "deq {actor}": 6, "aenq {actor} {value}": 2, "adeq {actor}": 2,
    "starve {actor} yes": 2, "starve {actor} no": 2,
}
RUN: Forms = {**STEPS, "undo": 2, "redo": 2}
MOVED: Forms = {**RUN, "undo {step}": 2, "roll {step}": 2, "back {count}": 2, "forward {count}": 2}
MARKED: Forms = {**MOVED, "mark {name}": 2, "goto {name}": 2}
LONG: Forms = {"go {actor}": 18, "enq {actor} {value}": 1, "deq {actor}": 1}


def line_of(chance: random.Random, forms: Forms, actors: int, live: int) -> str:
    """A line, where so many steps are live. It may name the step behind them, which is not there."""
    form = chance.choices([*forms], [*forms.values()])[0]
    return form.format(
        actor=chance.randint(1, actors), value=chance.randint(0, 99), step=chance.randint(1, live + 1),
        count=chance.randint(0, 3), name=chance.choice(NAMES),
    )


def random_script(chance: random.Random, forms: Forms, actors: int, count: int) -> list[str]:
    """A script of so many lines, some of which are refused."""
    return [line_of(chance, forms, actors, min(line, MOST_NAMED)) for line in range(count)]


def crowded_script(chance: random.Random) -> list[str]:
    """A longer script of six actors, some at a time, whose enqueues make many segments over rings
    of 2 cells: some are linked, and others lose the race."""
    script = []
    for _ in range(8):
        actors = chance.sample(range(1, 7), chance.randint(1, 3))
        goes = [f"go {actor}" for actor in actors for _ in range(14)]
        goes += [f"starve {actor} yes" for actor in actors for _ in range(4)]
        chance.shuffle(goes)
        calls = [f"enq {actor} {chance.randint(0, 2 ** 64 - 1)}" for actor in actors]
        script += [*calls, f"deq {chance.randint(1, 6)}", *goes[chance.randint(0, 9):]]
    return [*script, *["undo"] * chance.randint(0, 3)]


# ---- Scripts in files ----------------------------------------------------------------------------


def written_script(path: Path, script: Sequence[str]) -> str:
    """Writes a script; returns the name of its file."""
    path.write_bytes(script_of(script))
    return str(path)


def drawing_words(folder: Path, script: Sequence[str], program_path: str, *options: str) -> list[str]:
    """The words that draw a script, which is written into a folder."""
    return [written_script(folder / "drawn.script", script), "--refused", *options, "--program", program_path]
