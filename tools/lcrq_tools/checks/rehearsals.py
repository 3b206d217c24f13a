"""Runs command lines of the program, and compares what comes of each with a stored text.

    python3 tools/check.py rehearsals [--program P]

A row of the stored text, `rehearsed/stdout`, has a command line, what is on standard input, and, as `room`, how
many bytes standard output takes before it fails, if it does. Then it has the status, and what is on the two
streams and in the files of replies that `view --live` writes, line by line; `FORMS` in a help stands for that
constant of rd_text. Where a row opens a file, standard input has another script, so that mixing them up shows.
Scripts and traces are in `rehearsed/`, and each row runs in a copy of it. What comes of a row was checked by hand
against the table of control points and the manual. It differs if the program ignores an option, a file or a line,
or exchanges two commands, faults, streams or statuses.

Each row runs with each build of the program that is there: that of LLVM and, beside it, that of Rattle's own
compiler. The status is 1 if a row is another one. Only Python's standard library is used.
"""

import functools
import re
import resource
import shutil
import signal
import tempfile
import textwrap
from pathlib import Path
from typing import NamedTuple

from lcrq_tools import program
from lcrq_tools.checks import command_rows
from lcrq_tools.checks.answers import difference
from lcrq_tools.program import Ended, lines_of

REHEARSED = Path(__file__).resolve().parent / "rehearsed"
STORED = REHEARSED / "stdout"
FORMS = "FORMS"  # the constant of rd_text, and what stands for it
SHOWN = 60  # letters of a command line in the name of its row


class Rehearsal(NamedTuple):
    """One run of the program."""

    words: str  # of the command line after the program's name
    given: str  # on standard input
    room: int | None = None  # how many bytes standard output takes before it fails, if it does
    wanted: str = ""  # what the stored text has of it, without what is given


def rehearsals_of(stored: str) -> list[Rehearsal]:
    """The rows of the stored text."""
    rows = []
    for part in re.split(r"(?<=\n)(?=lcrqdb )", stored):
        given = "".join(re.findall(r"^  input\|(.*\n)", part, re.MULTILINE))
        room = re.search(r"^  room: ([0-9]+)\n", part, re.MULTILINE)
        wanted = re.sub(r"^  (?:input\||room: ).*\n", "", part, flags=re.MULTILINE)
        words = part.partition("\n")[0].removeprefix("lcrqdb ")
        rows.append(Rehearsal(words, given, int(room[1]) if room else None, wanted))
    return rows


def stored_rows() -> list[Rehearsal]:
    """The rows of the stored text that is there."""
    return rehearsals_of(STORED.read_bytes().decode())


# ---- Runs ----------------------------------------------------------------------------------------


def limit_files(most: int) -> None:
    """Lets this process write so many bytes of a file; the write of the next one fails."""
    signal.signal(signal.SIGXFSZ, signal.SIG_IGN)  # which would end it
    resource.setrlimit(resource.RLIMIT_FSIZE, (most, most))


def end_of(built: str, row: Rehearsal, folder: Path) -> Ended:
    """What a row gives in a folder by this build, which is called `lcrqdb` whatever its file is. An
    output with little room is a file; standard error is always a pipe, which has no limit."""
    words, given = ["lcrqdb", *row.words.split(" ")], row.given.encode()
    if row.room is None:
        return program.run(words, given, cwd=folder, executable=built)
    with tempfile.TemporaryFile() as output:
        limit = functools.partial(limit_files, row.room)
        ended = program.run(words, given, stdout=output, cwd=folder, preexec_fn=limit, executable=built)
        output.seek(0)
        return ended._replace(output=output.read())


def end_in_copy(built: str, row: Rehearsal) -> tuple[Ended, dict[str, str]]:
    """What a row gives in a copy of the folder, and the texts that are then in files of replies."""
    with tempfile.TemporaryDirectory() as name:
        folder = Path(shutil.copytree(REHEARSED, Path(name) / "rehearsed"))
        ended = end_of(built, row, folder)
        return ended, {path.name: path.read_text(encoding="ascii") for path in sorted(folder.glob("*.replies"))}


# ---- The stored text -----------------------------------------------------------------------------


def shown_stream(name: str, taken: str) -> str:
    """What a stream has taken, with the stream's name before each line. One line says so if it took
    nothing, or no line feed at the end."""
    if not taken:
        return f"  {name}: nothing\n"
    lines = "".join(f"  {name}|{line}\n" for line in lines_of(taken))
    return lines if taken.endswith("\n") else f"{lines}  {name}: no line feed at the end\n"


def shown_row(row: Rehearsal, ended: Ended, replies: dict[str, str], forms: str) -> str:
    """What comes of a row, as the stored text has it, with the texts of files of replies by their names.
    `FORMS` stands for these forms."""
    streams = {"output": ended.output.decode(), "errors": ended.errors} | replies
    texts = (shown_stream(name, taken.replace(forms, FORMS)) for name, taken in streams.items())
    return "".join([f"lcrqdb {row.words}\n", f"  status: {ended.status}\n", *texts])


def row_fault(row: Rehearsal, built: str) -> str:
    """What is wrong with a row, or nothing."""
    forms = command_rows.texts_of(command_rows.KEYWORDS, FORMS)[0]
    return difference(shown_row(row, *end_in_copy(built, row), forms), row.wanted)


def rows() -> program.Rows:
    """Each command line."""
    names = ((f"{number}: {textwrap.shorten(row.words, SHOWN)}", row) for number, row in enumerate(stored_rows(), 1))
    return [(name, functools.partial(row_fault, row)) for name, row in names]
