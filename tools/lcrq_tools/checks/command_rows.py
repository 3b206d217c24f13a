"""The commands as the code lists them: the help's forms of lines, and the rows that tests walk.
`tools/check.py pages` compares them with docs/MANUAL.md. Only Python's standard library is used.
"""

import json
import re
from collections.abc import Iterable, Iterator
from pathlib import Path

from lcrq_tools import manual, program

KEYWORDS = program.CRATES / "rd_text" / "src" / "reading" / "keywords.rt"
ROWS = program.CRATES / "test_kit" / "src" / "commands.rt"
TEXT = re.compile(r'"((?:[^"\\]|\\.)*)"', re.DOTALL)
# The help's end: a row of forms for each kind of line, and where the manual is.
HELP = re.compile(r"Lines of a script:\n((?:  [a-z]+ +[^\n]+\n)+)\nThe manual is (\S+) in the repository of lcrqdb")


def texts_of(path: Path, name: str) -> list[str]:
    """The texts of a constant, in order."""
    found = re.search(rf"^pub const {name}: .*?;$", path.read_text(encoding="utf-8"), re.DOTALL | re.MULTILINE)
    if not found:
        raise program.Broken(f"{path.relative_to(program.TOP)} has no constant {name}")
    return [json.loads(f'"{text}"') for text in TEXT.findall(re.sub(r"\\\n\s*", "", found[0]))]


def asked_rows() -> list[tuple[str, str]]:
    """Lines of all commands, to be asked in order, each with its reply."""
    texts = texts_of(ROWS, "ASKED")
    return [(line, reply.removesuffix("\n")) for line, reply in zip(texts[::2], texts[1::2], strict=True)]


def keywords_in(lines: Iterable[str]) -> set[str]:
    """The first words of lines."""
    return {line.split(" ")[0] for line in lines}


def listed_in(text: str) -> set[str]:
    """The lines and places of a help's end."""
    found = HELP.fullmatch(text)
    if not found or not (program.TOP / found[2]).is_file():
        raise program.Broken("FORMS of rd_text has another form")
    return {form for row in found[1].splitlines() for form in row.split(maxsplit=1)[1].split(", ")}


def list_faults() -> Iterator[tuple[str, str]]:
    """Each list of commands, and what it has more or less than the manual's table of lines."""
    forms = listed_in(texts_of(KEYWORDS, "FORMS")[0])
    yield "the help's forms", ", ".join(sorted(forms ^ {*manual.FORMS, *manual.PLACES}))
    wanted = keywords_in(manual.FORMS)
    events = {word for word in wanted if program.MAKES_A_STEP.match(f"{word} ".encode())}
    lists = {
        "the manual's table of replies": {*manual.ANSWERED, *events},
        "ASKED of test_kit": keywords_in(line for line, _ in asked_rows()),
        "KINDS of test_kit": {*keywords_in(texts_of(ROWS, "KINDS")), "go"},
    }
    for name, words in lists.items():
        yield name, ", ".join(sorted(wanted - words))
