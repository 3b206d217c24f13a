"""Reads drafts, which are scripts for people to write, for every tool that takes a script.

A draft has comments behind `#`, empty lines, and counts: `go 1 x6` stands for six lines `go 1`. Its first
comments may say what it is run with: `# lcrqdb --ring 2 --actors 5`, or `# lcrqdb --trace T`, a file beside the
draft. The program takes plain scripts only. Only Python's standard library is used.
"""

import itertools
import re
import shlex
from dataclasses import dataclass
from pathlib import Path

from lcrq_tools.faults import Fault

ENDING = ".draft"
RUN_WITH = "# lcrqdb "
MOST_TIMES = 65_535  # of one line: a run has no more steps


@dataclass(frozen=True)
class Draft:
    """What a draft says: its lines, each with its comment, and the options that it is run with."""

    lines: tuple[str, ...]
    comments: tuple[str, ...]
    options: tuple[str, ...]

    def script(self) -> str:
        """The plain script."""
        return "".join(f"{line}\n" for line in self.lines)

    def command(self, script: str) -> str:
        """The command that runs the script of this name."""
        if self.options[:1] == ("--trace",):
            return f"lcrqdb load {shlex.quote(self.options[1])} < {shlex.quote(script)}"
        return shlex.join(["lcrqdb", "run", script, *self.options])


def is_draft(name: str) -> bool:
    """Whether a file is a draft, by its name."""
    return name.endswith(ENDING)


def options_of(text: str, folder: Path) -> tuple[str, ...]:
    """The options in a draft's first comments. A trace lies in this folder."""
    first = itertools.takewhile(lambda line: line.startswith("#") or not line.strip(), text.splitlines())
    words = [word for line in first if line.startswith(RUN_WITH) for word in line.split()[2:]]
    beside = zip(["", *words], words)
    return tuple(str(folder / word) if before == "--trace" else word for before, word in beside)


def repeated(line: str, where: str) -> list[str]:
    """The lines for which a line of a draft stands, without its comment."""
    line, _, times = line.partition(" x") if re.fullmatch(".* x[0-9]+", line) else (line, "", "1")
    if not 1 <= int(times) <= MOST_TIMES:
        raise Fault(f"{where}: a count is from 1 to {MOST_TIMES}")
    return [line] * int(times) if line else []


def parsed(text: str, name: str) -> Draft:
    """The draft of a text. A fault names the file and the line."""
    lines: list[str] = []
    comments: list[str] = []
    for number, line in enumerate(text.splitlines(), 1):
        code, _, comment = line.partition("#")
        own = repeated(" ".join(code.split()), f"{name}:{number}")
        lines += own
        comments += [comment.strip()] * len(own)
    return Draft(tuple(lines), tuple(comments), options_of(text, Path(name).parent))


def read(name: str) -> Draft:
    """The draft in a file."""
    return parsed(Path(name).read_text(encoding="utf-8"), name)
