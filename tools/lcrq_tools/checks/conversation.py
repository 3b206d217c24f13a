"""Talks to the built program: each line is written when the reply to the one before it is there.

    python3 tools/check.py conversation [--program P]

The programs of the gate have their whole input before them, so none of them shows that a reply goes out before the next
line is read. Here the program gets no line more until it has replied. The lines and their replies are the rows `ASKED`
of `test_kit`, which have each command. One viewer asks them too. Each line prints one line, and so does the view; the
status is 1 if a reply is another, or has not come after ten seconds. Only Python's standard library is used.
"""

import argparse
from collections.abc import Iterator

from lcrq_tools import program
from lcrq_tools.checks import command_rows
from lcrq_tools.checks.answers import file_of

SECONDS = 10.0  # a reply that takes longer does not come


def checks_of(driven: program.Driven, asked: list[tuple[str, str]]) -> Iterator[tuple[str, str]]:
    """Asks each line, and gives the line with what is wrong with the reply, or nothing. The first
    line without a reply is the last one."""
    for line, wanted in asked:
        try:
            reply = driven.ask(line)[0]
        except program.Broken as fault:
            yield line, str(fault)
            return
        yield line, "" if reply == wanted else f"{reply}, wanted {wanted}"


def view_fault(built: str, asked: list[tuple[str, str]]) -> str:
    """What is wrong with a view of a script of all lines, or nothing."""
    with file_of(program.script_of(line for line, _ in asked)) as script:
        ended = program.run([built, "view", script])
    wanted = "\n".join(["viewer 1", *(reply for _, reply in asked), f"history {len(asked)}", ""])
    return "" if ended == (0, wanted.encode(), "") else f"{ended}, wanted {wanted!r}"


def checks(given: argparse.Namespace) -> Iterator[tuple[str, str]]:
    """Each line, with what is wrong with the reply to it, or nothing; then the view."""
    asked = command_rows.asked_rows()
    with program.Driven([given.program, "run", "-"], SECONDS) as driven:
        yield from checks_of(driven, asked)
    yield "a view of all lines", view_fault(given.program, asked)
