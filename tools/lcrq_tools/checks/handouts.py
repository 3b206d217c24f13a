"""Looks at the handouts that `tools/release.py` makes, as a teacher does before a class.

    python3 tools/check.py handouts [--program P]

The folder of the output has to be made, or named as missing before any work. Answers that are apart have to be in
an archive of their own, a worksheet may have no reply, and a lesson that needs another one has to say so. Where
Chromium or weasyprint and pdftoppm (Debian's package poppler-utils) are there, handout and worksheet are printed on
A4 and on Letter: no page but the last may be half empty.

Each check prints a line; the status is 1 if one of them fails. It needs pandoc, as tools/release.py does.
"""

import argparse
import re
import shutil
import sys
import tarfile
import tempfile
import time
from collections.abc import Iterator
from pathlib import Path

from lcrq_tools import program
from lcrq_tools.checks.answers import file_of
from lcrq_tools.program import TOP
from lcrq_tools.release import handout, paper, release
from lcrq_tools.release.release_pages import LESSONS, Choice

RELEASE = [sys.executable, str(TOP / "tools" / "release.py")]
SECONDS, AT_ONCE = 600, 30.0  # that making an archive may take, and a refusal on a busy machine
LEAST = 0.5  # of a page that is printed on
INK, DOTS, FOOT = 235, 36, 0.945  # below which a dot is dark, dots of an inch, and where a page number begins


def pages_in(pgm: bytes) -> Iterator[float]:
    """How far down each page of a printed file is used."""
    at = 0
    while found := re.match(rb"P5\s(\d+)\s(\d+)\s(\d+)\s", pgm[at: at + 40]):
        wide, high = int(found[1]), int(found[2])
        begin, end = at + found.end(), int(high * FOOT)
        rows = [pgm[begin + y * wide: begin + (y + 1) * wide] for y in range(end)]
        yield max((y for y, row in enumerate(rows) if min(row) < INK), default=0) / end
        at = begin + wide * high


def fill_fault(choice: Choice) -> str:
    """What is wrong with a handout as it is printed, or nothing."""
    with file_of(release.pdf_of(handout.page_of("0", choice), choice)) as name:
        used = [*pages_in(release.output_of(["pdftoppm", "-gray", "-r", str(DOTS), name]))]
    empty = [f"page {at} of {len(used)}" for at, it in enumerate(used[:-1], 1) if it < LEAST]
    return f"{empty[0]} is half empty" if empty else "" if used else "it has no pages"


def width_fault(choice: Choice) -> str:
    """What is wrong with the pictures of a handout, or nothing."""
    widest = paper.widest_in(handout.page_of("0", choice).decode())
    return "" if 0 < widest <= paper.WIDE else f"a picture has {widest} pixels beside each other"


def sheet_fault() -> str:
    """What is wrong with a worksheet, or nothing."""
    page = handout.page_of("0", Choice((2, 12, 14), "none", True)).decode()
    numbered = re.findall(r'<table class="numbered">.*?</table>', page, re.DOTALL)
    replies = [it for table in numbered for it in re.findall(r"<code[^>]*>((?:\d+ )?(?:ok|at|refused) [^<]*)", table)]
    if len(numbered) != 4:
        return f"it has {len(numbered)} tables of lines, and not 4"
    return f"it has the reply `{replies[0]}`" if replies else ""


def apart_fault(built: str) -> str:
    """What is wrong where answers are apart, or nothing."""
    with tempfile.TemporaryDirectory() as name:
        out = Path(name) / "class" / "one"
        ended = program.run([*RELEASE, "--lessons", "7", "--answers", "apart", "--program", built, "-o", str(out)],
                            timeout=SECONDS)
        if ended.status:
            return ended.errors.strip()
        if "lesson 7 needs 6" not in ended.errors:
            return "it doesn't say that lesson 7 needs 6"
        names = {}
        for path in sorted(out.glob("*.tar.gz")):
            with tarfile.open(path) as archive:
                names[path.name] = [it for it in archive.getnames() if Path(it).stem == "answers"]
    own = [name for name in names if name.endswith("-answers.tar.gz")]
    others = [name for name, them in names.items() if name not in own and them]
    return f"{others[0]} has answers" if others else "" if own else "no archive has the answers"


def folder_fault(built: str) -> str:
    """What is wrong where the folder of the output can't be made, or nothing."""
    with tempfile.NamedTemporaryFile() as file:
        begin = time.monotonic()
        ended = program.run([*RELEASE, "--lessons", "7", "--program", built, "-o", f"{file.name}/one"], timeout=SECONDS)
        seconds = time.monotonic() - begin
    if not ended.status or file.name not in ended.errors:
        return f"status {ended.status}: {ended.errors.strip()}"
    return "" if seconds < AT_ONCE else f"it takes {seconds:.0f} seconds to say so"


def checks(given: argparse.Namespace) -> Iterator[tuple[str, str]]:
    """All checks, each a name and what is wrong, or nothing."""
    built = str(Path(given.program).resolve())
    yield "a folder that can't be made is named at once", folder_fault(built)
    yield "a worksheet has no reply", sheet_fault()
    yield "the pictures of all lessons fit a page", width_fault(Choice(tuple(LESSONS), "none"))
    yield "answers apart have an archive of their own", apart_fault(built)
    lacks = program.missing_of(["pdftoppm"])
    has_printer = any(map(shutil.which, ("weasyprint", *release.BROWSERS)))
    missing = lacks or ("" if has_printer else "chromium or weasyprint")
    for size in handout.PAPERS:
        for choice in (Choice(tuple(LESSONS), "with", False, size), Choice((2, 6, 7), "none", True, size)):
            name = f"no page is half empty: {'worksheet' if choice.worksheet else 'all lessons'}, {size}"
            yield name, program.Skipped(missing) if missing else fill_fault(choice)
