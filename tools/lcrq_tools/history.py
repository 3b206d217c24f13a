"""Reads a history of viewers for tools and checks: their calls in order, as `lcrqdb view FILE.. --history` writes them.

Its text has a part for each viewer, then a line `history H`, and then the H calls, each a line `V LINE`: the number of
the viewer and the line that it asked. The session's trace may follow. The lines `V LINE` by themselves are a history
too. Without their viewers the lines are a script, which `lcrqdb run` answers as the viewers were answered. What
`live.py` keeps has notes behind `#`, which are skipped, and calls of 0, which is nobody. Only Python's standard library
is used.
"""

import re
from dataclasses import dataclass

from lcrq_tools.faults import Fault
from lcrq_tools.program import bytes_of, lines_of, script_of

MOST_VIEWERS = 64
SHOWN = 40  # letters of a line that a fault shows

PART = re.compile("viewer [0-9]+")
COUNT = re.compile("history ([0-9]+)")
CALL = re.compile("([0-9]+) (.+)")
TRACE = "{"  # how the line of a trace begins
NOTE = "#"  # how a line begins that is no call
NOBODY = "0"  # in the place of a viewer, for a line that was there before any viewer


@dataclass(frozen=True)
class History:
    """The calls of viewers in their order."""

    viewers: tuple[int, ...]  # which viewer asked each line
    lines: tuple[str, ...]  # whose letters are their bytes

    def first(self, count: int | None) -> "History":
        """The first calls, so many of them; all of them, if no number is given."""
        return History(self.viewers[:count], self.lines[:count])

    def script(self) -> bytes:
        """The lines as a script."""
        return script_of(self.lines, "latin-1")


def read(name: str) -> History:
    """The history in a file; `-` is standard input."""
    where = "standard input" if name == "-" else name
    return history_of(where, bytes_of(name).decode("latin-1"))


def history_of(where: str, text: str) -> History:
    """The history that a text is; `where` names it in a fault."""
    lines = lines_of(text)
    if lines and lines[-1].startswith(TRACE):
        lines.pop()
    head = head_of(where, lines)
    most = sum(1 for line in lines[:head] if PART.fullmatch(line)) or MOST_VIEWERS
    numbered = ((number, line) for number, line in enumerate(lines[head:], head + 1) if not line.startswith(NOTE))
    calls = [call_of(f"{where}: line {number}", line, most) for number, line in numbered]
    if head and lines[head - 1] != f"history {len(calls)}":
        hint = "" if calls else ": `lcrqdb view FILE.. --history` writes them"
        what = f"`{shown(lines[head - 1])}`, and the number of calls behind it is {len(calls)}"
        raise Fault(f"{where}: line {head}: {what}{hint}")
    return History(tuple(viewer for viewer, _ in calls), tuple(line for _, line in calls))


def head_of(where: str, lines: list[str]) -> int:
    """How many lines stand before the first call: none, or all as far as the line `history H`."""
    head = next((number for number, line in enumerate(lines, 1) if COUNT.fullmatch(line)), 0)
    if not head and lines and PART.fullmatch(lines[0]):
        raise Fault(f"{where}: no line `history H` leads to the calls")
    return head


def call_of(where: str, line: str, most: int) -> tuple[int, str]:
    """The viewer and the line of a call, where so many viewers are there."""
    found = CALL.fullmatch(line)
    if not found:
        raise Fault(f"{where}: `{shown(line)}` is no call, which is a viewer's number and its line, as `2 go 1`")
    number, asked = found.groups()
    if number == NOBODY:
        return 0, asked
    if number.startswith("0") or len(number) > len(str(most)) or int(number) > most:
        raise Fault(f"{where}: `{shown(line)}` is of no viewer: they are numbered from 1 to {most}")
    return int(number), asked


def shown(text: str) -> str:
    """The beginning of a text, as a fault shows it."""
    return ascii(text[:SHOWN])[1:-1]
