"""Runs the answers to the lessons' exercises, and compares the replies with those on the pages.

    python3 tools/check.py exercises [--program P]

An answer that can be run has one or more tables `| Line | Reply |`. The line before each says which lines of the
lesson's script come before its own; they run with the options and over the trace that the page names:

    From the start:                              none
    After line 12:                               the first 12
    After line 6 and 63 times lines 7 to 11:     the first 6, and then these 5 again and again

Where a lesson has two scripts, `of the first script` or `of the second script` stands before the colon. A table `| In
place of | Write |` before them changes the text of the lesson's trace for all tables after it.

Each lesson has such a table. The status is 1 if a reply differs, if a table has no such line before it, or such a line
no table. Only Python's standard library is used.
"""

import argparse
import re
from collections.abc import Iterator
from dataclasses import dataclass

from lcrq_tools import program
from lcrq_tools.checks.answers import report_of, run_over
from lcrq_tools.checks.lessons import LESSONS, options_in, text_of
from lcrq_tools.faults import Fault
from lcrq_tools.program import EXAMPLES, lines_of, script_of

HEAD, CHANGES = "| Line | Reply |\n|---|---|\n", "| In place of | Write |\n|---|---|\n"
# Which lines come before those of a table: how many, how often which ones again, of which script.
BEGINS = re.compile(
    r"(?:From the start|After line (\d+)(?: and (\d+) times lines (\d+) to (\d+))?)(?: of the (first|second) script)?:"
)
TABLE = re.compile(rf"(?:([^\n]*)\n\n)?({re.escape(HEAD)}|{re.escape(CHANGES)})((?:\|[^\n]*\n)*)")
ROW = re.compile(r"\| `([^`]+)` \| `([^`]+)` \|")
PARTS = {None: "", "first": "-1", "second": "-2"}  # how the name of a script ends

Rows = list[tuple[str, str]]  # the two texts of each row of a table


@dataclass
class Answer:
    """A table of an answer."""

    begins: re.Match[str]  # the line before it
    rows: Rows  # each a line and its reply
    changes: Rows  # of the trace, each a text and what is in its place


# ---- What a page has -----------------------------------------------------------------------------


def rows_of(text: str) -> Rows:
    """The two cells of each row of a table."""
    rows = [(row[1], row[2]) for row in map(ROW.fullmatch, text.splitlines()) if row]
    if not rows or len(rows) < len(text.splitlines()):
        raise Fault("a table has no rows, or one that is not two texts in backticks")
    return rows


def answers_of(page: str) -> list[Answer]:
    """The tables of a page's answers, in order."""
    answers: list[Answer] = []
    changes: Rows = []
    for before, head, text in TABLE.findall(page):
        begins = BEGINS.fullmatch(before)
        if head == CHANGES:
            changes = rows_of(text)
        elif begins:
            answers.append(Answer(begins, rows_of(text), changes))
        else:
            raise Fault(f"the line before a table doesn't say where its lines begin: {before}")
    if not answers:
        raise Fault("it has no answer that can be run")
    if len(answers) < sum(bool(BEGINS.fullmatch(line)) for line in page.splitlines()):
        raise Fault("a line that says where lines begin has no table after it")
    return answers


# ---- Runs ----------------------------------------------------------------------------------------


def lines_before(begins: re.Match[str], script: str) -> list[str]:
    """The lines of the script of this file that come before those of a table."""
    first, times, start, end = (int(count or 0) for count in begins.groups()[:4])
    lines = lines_of(text_of(script)) if first else []
    if max(first, end) > len(lines):
        raise Fault(f"{script} has {len(lines)} lines")
    return lines[:first] + lines[start - 1:end] * times if times else lines[:first]


def with_changes(trace: str, changes: Rows) -> str:
    """A trace with other texts in place of some, each of which it has once."""
    for old, new in changes:
        if trace.count(old) != 1:
            raise Fault(f"the trace has {old} {trace.count(old)} times")
        trace = trace.replace(old, new)
    return trace


def answer_fault(built: str, lesson: str, page: str, answer: Answer) -> str:
    """What is wrong with one answer on the page of a lesson, or nothing."""
    name = lesson + PARTS[answer.begins[5]]
    before, trace = lines_before(answer.begins, f"{name}.script"), f"{name}.trace"
    script = script_of([*before, *(line for line, _ in answer.rows)])
    if (EXAMPLES / trace).exists():
        ended = run_over(built, with_changes(text_of(trace), answer.changes), script)
    elif answer.changes or "\nRun over " in page:
        raise Fault(f"there is no {trace}")
    else:
        ended = program.run([built, "run", "-", *options_in(page)], script)
    pairs = zip(answer.rows, lines_of(report_of(ended))[len(before):], strict=True)
    wrong = (f"`{line}` has {said}, and the reply is {reply}" for (line, said), reply in pairs if said != reply)
    return next(wrong, "")


def checks_of(built: str, lesson: str) -> Iterator[tuple[str, str]]:
    """The checks of a lesson, each a name and what is wrong, or nothing."""
    name, page = lesson, text_of(f"{lesson}.md")
    try:
        for answer in answers_of(page):
            name = f"{lesson}, {answer.begins[0].removesuffix(':')}"
            yield name, answer_fault(built, lesson, page, answer)
    except (Fault, OSError, ValueError) as fault:
        yield name, str(fault)


def checks(given: argparse.Namespace) -> Iterator[tuple[str, str]]:
    """The answers of all lessons, each with what is wrong with it, or nothing."""
    for lesson in LESSONS:
        yield from checks_of(given.program, lesson)
