"""The tables of docs/MANUAL.md that say what a line is and how a reply begins.

`FORMS` are the lines of a script, `QUERIES` those that ask, and `PLACES` the places in them, each as
the manual spells it. `ANSWERED` are the lines of the table of replies, and `REPLIES` the first words
of the replies. Only Python's standard library is used.
"""

import re
from collections.abc import Iterable

from lcrq_tools.faults import Fault
from lcrq_tools.markdown import QUOTED, rows_of
from lcrq_tools.program import TOP

PAGE = (TOP / "docs" / "MANUAL.md").read_text(encoding="utf-8")


def quoted_in(page: str, head: str, column: int) -> list[str]:
    """What is quoted in this column of each table whose head begins so."""
    quoted = [text for row in rows_of(page, head) for text in QUOTED.findall(row[column])]
    if not quoted:
        raise Fault(f"docs/MANUAL.md has no table whose head begins {head}")
    return quoted


FORMS = quoted_in(PAGE, "| Line | Meaning |", 0)
QUERIES = quoted_in(PAGE.partition("\n### Queries\n")[2], "| Line | Meaning |", 0)
PLACES = quoted_in(PAGE, "| PLACE | Is |", 0)
ANSWERED = quoted_in(PAGE, "| After | Reply |", 0)
REPLIES = {word for reply in quoted_in(PAGE, "| After | Reply |", 1) for word in re.findall("^[a-z]+", reply)}


def meanings() -> dict[str, str]:
    """What each line of a script does, by its form."""
    rows: dict[str, str] = {}
    for lines, what, *_ in rows_of(PAGE, "| Line | Meaning |"):
        rows |= dict.fromkeys(QUOTED.findall(lines), re.sub(r"\[([^]]*)\]\([^)]*\)", r"\1", what))
    return rows


MEANINGS = meanings()


def line_of(form: str) -> str:
    """A line of this form: `a` for a name, and 1 for any other word that the manual has in capitals."""
    line = form.replace("PLACE", PLACES[0])
    return re.sub("[A-Z]+", lambda word: "a" if word[0] == "NAME" else "1", line)


def lines_beside(forms: Iterable[str], lines: Iterable[str]) -> list[str]:
    """A line of each form with whose first word none of these lines begins."""
    words = {line.split(" ")[0] for line in lines}
    return [line_of(form) for form in forms if form.split(" ")[0] not in words]


def refusals() -> dict[str, str]:
    """Why a line is refused and what to do, by the number of the refusal."""
    rows = rows_of(PAGE.replace("`", ""), "| No | Name | Data | When |")
    return {number: f"{name}: {when}. What to do: {what}." for number, name, _, when, what in rows}
