"""Reads and writes the file in which `live.py` keeps a run, so that nothing is lost when a process is killed.

The file is a history: a line `V LINE` for each call, where 0 stands for lines that were opened. Lines behind `#` have
the world, the trace over which the run began, the names of viewers, and notes such as the seed of steps at random.
Each line is written at once, before its reply is shown. So a last line without a line feed was never answered, and
is dropped.
"""

import fcntl
import json
import os
import re
import time
from collections.abc import Sequence
from dataclasses import dataclass, field, replace
from pathlib import Path
from typing import Any

from lcrq_tools.drafts import RUN_WITH
from lcrq_tools.faults import Fault
from lcrq_tools.history import history_of
from lcrq_tools.options import start_words

KEPT_BY, TRACE, NAME, NOTE = "# kept by live.py ", "# trace ", "# name ", "# note "
ENDING = ".history"
MOST_NAME, MOST_NOTE = 40, 200  # letters
UNSAFE = re.compile("[^A-Za-z0-9_-]+")  # what the names of its files have none of


@dataclass(frozen=True)
class Note:
    """What somebody noted behind so many calls."""

    calls: int
    text: str


@dataclass(frozen=True)
class Kept:
    """A run as it is kept, and as a new one begins."""

    title: str = "run"
    actors: int | None = None
    ring: int | None = None
    trace: str = ""  # over which it began, as text; nothing, if its world was fresh
    lines: Sequence[str] = ()
    viewers: Sequence[int] = ()  # who asked each line; 0 of one that was opened
    people: int = 0  # how many viewers the page had; 0, if that isn't known
    names: dict[int, str] = field(default_factory=dict)
    notes: tuple[Note, ...] = ()

    def options(self) -> list[str]:
        """The options of a fresh world."""
        return start_words(None, self.actors, self.ring)[2:]

    def only(self, places: Sequence[int]) -> "Kept":
        """The run with these of its lines alone."""
        notes = tuple(replace(note, calls=sum(place < note.calls for place in places)) for note in self.notes)
        lines, viewers = [self.lines[place] for place in places], [self.viewers[place] for place in places]
        return replace(self, lines=lines, viewers=viewers, notes=notes)

    def text(self) -> str:
        """The whole file."""
        rows = [f"{RUN_WITH}{' '.join(self.options())}".rstrip()]
        rows.append(KEPT_BY + json.dumps({"title": self.title, "people": self.people}))
        rows += [TRACE + self.trace] if self.trace else []
        rows += [name_line(viewer, name) for viewer, name in self.names.items()]
        notes = [*self.notes]
        for count, (viewer, line) in enumerate(zip(self.viewers, self.lines)):
            rows += [note_line(note.text) for note in notes if note.calls == count]
            rows.append(call_line(viewer, line))
        rows += [note_line(note.text) for note in notes if note.calls >= len(self.lines)]
        return "".join(f"{row}\n" for row in rows)


# ---- Lines ----------------------------------------------------------------------------------------


def call_line(viewer: int, line: str) -> str:
    """The line of a call."""
    return f"{viewer} {line}"


def name_line(viewer: int, name: str) -> str:
    """The line that gives a viewer a name."""
    return f"{NAME}{json.dumps([viewer, name])}"


def note_line(text: str) -> str:
    """The line of a note."""
    return NOTE + json.dumps(text)


def is_kept(text: str) -> bool:
    """Whether a text is what is kept of a run."""
    return text.startswith(RUN_WITH.rstrip()) and f"\n{KEPT_BY}" in text[:1000]


# ---- Reading --------------------------------------------------------------------------------------


def noted(kept: Kept, line: str, calls: int) -> Kept:
    """A run with what a line behind `#` says, which stands behind so many calls."""
    if line.startswith(KEPT_BY):
        about: dict[str, Any] = json.loads(line.removeprefix(KEPT_BY))
        return replace(kept, title=str(about["title"]), people=int(about["people"]))
    if line.startswith(TRACE):
        return replace(kept, trace=line.removeprefix(TRACE))
    if line.startswith(NAME):
        viewer, name = json.loads(line.removeprefix(NAME))
        return replace(kept, names=kept.names | {int(viewer): str(name)})
    if line.startswith(NOTE):
        return replace(kept, notes=(*kept.notes, Note(calls, str(json.loads(line.removeprefix(NOTE))))))
    return kept


def world_in(line: str) -> dict[str, int]:
    """The options of a fresh world in a file's first line."""
    words = line.removeprefix(RUN_WITH.rstrip()).split()
    return {option.removeprefix("--"): int(value) for option, value in zip(words[::2], words[1::2])}


def kept_in(where: str, text: str) -> Kept:
    """The run that a text keeps, without a last line that is cut; `where` names it in a fault."""
    whole = text[: text.rfind("\n") + 1]
    calls = history_of(where, whole)
    count = 0
    try:
        world = world_in(whole.partition("\n")[0])
        kept = Kept("run", world.get("actors"), world.get("ring"), "", calls.lines, calls.viewers)
        for line in whole.split("\n"):
            if line.startswith("#"):
                kept = noted(kept, line, count)
            else:
                count += 1
    except (ValueError, KeyError, TypeError) as fault:
        raise Fault(f"{where}: `{line[:MOST_NAME]}` is not what live.py keeps") from fault
    return kept


# ---- Writing --------------------------------------------------------------------------------------


class Keep:
    """The file of a run, to which lines are appended. No two processes have it."""

    def __init__(self, path: Path, kept: Kept | None) -> None:
        """Makes the file of a new run; goes on in one that is there, if no run is given."""
        self.path = path
        if kept is not None:
            made = path.with_name(f"{path.name}.new")
            made.write_text(kept.text(), encoding="latin-1")
            os.replace(made, path)
        self.end = os.open(path, os.O_RDWR | os.O_APPEND)
        try:
            fcntl.flock(self.end, fcntl.LOCK_EX | fcntl.LOCK_NB)
        except OSError as fault:
            os.close(self.end)
            raise Fault(f"{path}: another live.py keeps its run there") from fault
        text = path.read_bytes()
        self.size = text.rfind(b"\n") + 1
        os.ftruncate(self.end, self.size)

    def add(self, line: str) -> None:
        """Appends a line, whole or not at all."""
        data = f"{line}\n".encode("latin-1")
        try:
            written = os.write(self.end, data)
        except OSError as fault:
            raise Fault(f"the line can't be kept: {fault.strerror}") from fault
        if written < len(data):
            os.ftruncate(self.end, self.size)
            raise Fault("the line can't be kept: no room is left")
        self.size += written

    def close(self) -> None:
        """Closes the file."""
        if self.end >= 0:
            os.close(self.end)
        self.end = -1


def safe_name(title: str) -> str:
    """A name for files of a run of this title."""
    return UNSAFE.sub("-", title)[:MOST_NAME].strip("-") or "run"


def free_path(folder: Path, title: str) -> Path:
    """A name for a new run, which no file has: that of its title, with the time."""
    begin = f"{safe_name(title)}-{time.strftime('%Y-%m-%d-%H%M%S')}"
    names = (f"{begin}{f'-{number}' if number > 1 else ''}{ENDING}" for number in range(1, 1000))
    return next(folder / name for name in names if not (folder / name).exists())
