"""Makes files of a live run for whoever looks at its page: script, draft, history, trace, stored page and picture.

`server.py` calls it. The trace is what the program writes of the script; page and picture are made by their tools in a
process of their own, so that the server goes on.
"""

import os
import subprocess
import sys
import tempfile
from collections.abc import Callable, Mapping
from pathlib import Path
from typing import NamedTuple

from lcrq_tools.drafts import RUN_WITH
from lcrq_tools.faults import Fault
from lcrq_tools.live.kept import Kept, safe_name
from lcrq_tools.options import start_words
from lcrq_tools.places import PACKAGE
from lcrq_tools.program import run, script_of

SECONDS = 120.0
MOST_LINES, MOST_STEPS = 400, 100  # of a page and of a picture, which show the last ones of a longer run
BY_NAME = "import sys; from lcrq_tools.entry import lcrq; sys.exit(lcrq())"


class Source(NamedTuple):
    """Of what a file is made."""

    program: str
    kept: Kept
    live: int  # how many steps are live
    folder: Path  # for files


class File(NamedTuple):
    """What is handed out."""

    ending: str
    kind: str
    data: bytes


def draft_of(kept: Kept) -> bytes:
    """The run as a draft, with its notes."""
    rows = [f"{RUN_WITH}{' '.join(kept.options())}".rstrip()] if not kept.trace else ["# over a trace"]
    notes = [*kept.notes]
    for count, line in enumerate([*kept.lines, ""]):
        rows += [f"# {note.text}" for note in notes if note.calls == count]
        rows += [line] if line else []
    return script_of(rows, "latin-1")


def trace_of(source: Source) -> bytes:
    """The trace of the run."""
    kept = source.kept
    words = [source.program, *start_words(start_of(source), kept.actors, kept.ring), "--trace"]
    ended = run(words, script_of(kept.lines, "latin-1"))
    if ended.status:
        raise Fault(ended.errors.strip() or "the program writes no trace")
    return ended.output.splitlines(keepends=True)[-1]


def start_of(source: Source) -> str | None:
    """The file of the trace over which a run began; none of a fresh world."""
    if not source.kept.trace:
        return None
    path = source.folder / "start.trace"
    path.write_text(source.kept.trace, encoding="latin-1")
    return str(path)


def part_of(tool: str, source: Source) -> list[str]:
    """The options by which a tool draws the end of a run that is too long for it."""
    count = len(source.kept.lines)
    if tool == "page" and count > MOST_LINES:
        return ["--lines", f"{count - MOST_LINES + 1}:{count}"]
    return ["--from", str(source.live - MOST_STEPS + 1)] if tool == "picture" and source.live > MOST_STEPS else []


def drawn(tool: str, source: Source) -> bytes:
    """What a tool draws of the run; who asked is shown if that were viewers."""
    kept, folder = source.kept, source.folder
    is_viewed = any(kept.viewers)
    given = folder / f"{safe_name(kept.title)}.{'history' if is_viewed else 'script'}"
    given.write_bytes(kept.text().encode("latin-1") if is_viewed else script_of(kept.lines))
    trace, out = start_of(source), folder / "out"
    words = ["--history", str(given)] if is_viewed else [str(given)]
    words += ["--trace", trace] if trace else kept.options()
    words += [*part_of(tool, source), "--refused", "--program", source.program, "-o", str(out)]
    ended = subprocess.run(
        [sys.executable, "-c", BY_NAME, tool, *words], env=os.environ | {"PYTHONPATH": str(PACKAGE.parent)},
        capture_output=True, timeout=SECONDS, check=False, text=True,
    )
    if ended.returncode:
        raise Fault((ended.stderr.strip() or "it isn't drawn").replace(str(folder), "").partition("\n")[0])
    return out.read_bytes()


Maker = Callable[[Source], bytes]

# The files by the names under which they are asked for: how the name ends, what it is, and what makes it.
FILES: Mapping[str, tuple[str, str, Maker]] = {
    "script": ("script", "text/plain", lambda source: script_of(source.kept.lines)),
    "draft": ("draft", "text/plain", lambda source: draft_of(source.kept)),
    "history": ("history", "text/plain", lambda source: source.kept.text().encode("latin-1")),
    "trace": ("trace", "application/json", trace_of),
    "page": ("html", "text/html", lambda source: drawn("page", source)),
    "picture": ("svg", "image/svg+xml", lambda source: drawn("picture", source)),
}


def file_of(name: str, program: str, kept: Kept, live: int) -> File:
    """The file of this name, of a run with so many live steps."""
    ending, kind, made = FILES[name]
    with tempfile.TemporaryDirectory(prefix="lcrq-live-") as folder:
        return File(ending, kind, made(Source(program, kept, live, Path(folder))))
