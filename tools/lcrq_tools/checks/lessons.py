"""Runs the scripts of the lessons, of the guide and of the sessions, and compares the replies with their pages.

    python3 tools/check.py lessons [--program P]

A page of `examples/` has its script beside the replies in a table, with words in the last column, which are for readers
alone. It has just the tables and traces that its scripts give, in this order, byte for byte. A lesson runs over a fresh
world, with the defaults, unless its page has one of these lines:

    Run with: --ring 2         with these options
    Run over: `NAME.trace`     over the trace of the lesson's name; the page may show it before its table
    Run over two starts.       script and trace end in -1 and -2: two traces, each with its table
    Run live by Anna, viewer 1, and Ben, viewer 2.
                               its table says who types which line, also one that is no command

What viewers type live goes into named pipes, in the order of the table: each line has its reply before the next one is
typed. The history that the program then writes is `NAME.history`, its lines are `NAME.script`, and one run of that
script has to reply the same.

The guide has the tables of guide-1 to guide-7 with traces between them, and a table of mistakes in a trace, each with
the line that `load` writes to standard error. In its table of two viewers, letters stand for the numbers that another
order of their calls would change. Each session, of the README, the manual or the recipes, has a report beside its
script, and may run over the trace of its name.

Each row runs with each build of the program that is there: that of LLVM and, beside it, that of Rattle's own compiler.
The status is 1 if a page or report is another one. Only Python's standard library is used.
"""

import functools
import os
import re
import tempfile
from collections.abc import Iterable, Iterator, Sequence
from pathlib import Path

from lcrq_tools import history, program
from lcrq_tools.checks.answers import difference, report_of, run_over
from lcrq_tools.clients import Live, finish, replies_of, talk
from lcrq_tools.program import EXAMPLES, Broken, lines_of, row_of

# The lessons, in the order of reading: each has a page and a script of this name.
LESSONS = sorted(path.stem for path in EXAMPLES.glob("[0-9]*.md"))
GUIDE = "guide"
# The sessions, and whether each runs over the trace of its name: that of README.md, the examples of
# docs/MANUAL.md, and two draws from the poised world.
SESSIONS = dict.fromkeys(["session", "manual-1", "manual-2", "manual-3", "manual-4"], False)
SESSIONS |= {"manual-5": True, "poised": True}
# Mistakes in the guide's start: the text that is there, and the wrong text in its place.
MISTAKES = [
    ('"ring": 2', '"ring": 4'),
    ('"qtail": [0, 0]', '"qtail": [1, 0]'),
    ('"tail": 2', '"tail": 4611686018427387905'),
    ('"op": ["enq", 9]', '"op": ["deq"]'),
    ('"marks": []', '"marks": [{"name": "a", "events": [["go", 1], ["go", 2]]}]'),
    ('"events": []', '"events": [["enq", 1, 7]]'),
]

# What a page has: how a table of lines and replies, one of what viewers type live, one of mistakes, and
# a trace begin.
HEADINGS = "| Line | Reply | What happens |"
LIVE_HEADINGS = f"| Who {HEADINGS}"
MISTAKES_HEAD = "| In place of | Somebody writes | `load` answers |"
TRACE_HEAD = "```json\n"
ROW = re.compile(r"\| (?:\w+ \| )?`")  # how one begins below the head of the first two
LIVE_ROW = re.compile(r"^\| (\w+) \| `([^`]*)` \| `([^`]*)` \|", re.MULTILINE)  # who types what, and the reply
OPTIONS = re.compile(r"^Run with: (.+)$", re.MULTILINE)
OVER_TRACE, TWO_STARTS = "\nRun over: `{}.trace`\n", "\nRun over two starts.\n"
LIVE = re.compile(r"^Run live by (\w+), viewer 1, and (\w+), viewer 2\.$", re.MULTILINE)


def text_of(name: str) -> str:
    """The text of a file of the examples, whose line ends stay as they are."""
    return (EXAMPLES / name).read_bytes().decode()


def options_in(page: str) -> list[str]:
    """The options with which the script of a page runs over a fresh world."""
    found = OPTIONS.search(page)
    return found[1].split() if found else []


# ---- Runs ----------------------------------------------------------------------------------------


def report(built: str, *words: str) -> str:
    """The report of a command line over files of the examples."""
    return report_of(program.run([built, *words], cwd=EXAMPLES))


def report_over(built: str, trace: str, script: str) -> str:
    """The report of the script of this file over the run of a trace."""
    return report_of(run_over(built, trace, text_of(script)))


def typed_in_turn(built: str, names: Sequence[str], typed: Sequence[tuple[str, str]]) -> tuple[list[str], str]:
    """The replies to lines that viewers of these names type, each a name and a line, and the history that
    the program then writes. Each line has its reply before the next one is typed."""
    replies = []
    with tempfile.TemporaryDirectory() as folder:
        files = [Path(folder) / name for name in names]
        for pipe in (*files, *map(replies_of, files)):
            os.mkfifo(pipe)
        with Live([built, "view", "--live", *map(str, files), "--history"]) as live:
            clients = {}
            for name, file in zip(names, files):
                clients[name] = live.client(name, file, [line for who, line in typed if who == name])
            for who, _ in typed:
                talk([clients[who]], len(clients[who].replies) + 1)
                replies.append(clients[who].replies[-1])
            finish([*clients.values()])
            return replies, report_of(live.end())


# ---- Tables and traces ---------------------------------------------------------------------------


def code_cells(*texts: str) -> tuple[str, ...]:
    """Cells of a table that are code."""
    return tuple(f"`{text}`" for text in texts)


def table(head: str, rows: Iterable[Sequence[str]]) -> str:
    """A table with this head, between two empty lines."""
    lines = "".join(f"{row_of(*row)}\n" for row in rows)
    return f"\n{head}\n{'|---' * (head.count('|') - 1)}|\n{lines}\n"


def table_of(script: str, replies: list[str]) -> str:
    """The table of a script's lines and the replies to them."""
    lines = lines_of(script)
    if len(lines) != len(replies):
        raise Broken(f"{len(lines)} lines have {len(replies)} replies")
    return table(HEADINGS, map(code_cells, lines, replies))


def trace_block(trace: str) -> str:
    """A trace as a page shows it."""
    return f"{TRACE_HEAD}{trace}```\n"


def table_over(built: str, trace: str, script: str) -> str:
    """The table of the script of this file over the run of a trace."""
    return table_of(text_of(script), lines_of(report_over(built, trace, script)))


def table_and_trace(built: str, script: str) -> tuple[str, str]:
    """The table of the script of this file over a fresh world, and the trace of its run."""
    *replies, trace = lines_of(report(built, "run", script, "--trace"))
    return table_of(text_of(script), replies), f"{trace}\n"


def mask_numbers(reply: str) -> str:
    """A reply with letters in place of the numbers that another order of the viewers' calls would
    change: those of steps, how many are live, and a tail's counter."""
    reply = re.sub(r"^ok [^ ]*", "ok K", reply)
    reply = re.sub(r"^is open .*", "is open N", reply)
    return re.sub(r"^at [^ ]* ", "at L ", reply)


def table_of_viewers(built: str, name: str) -> str:
    """The table of two scripts that run at once: of each viewer the file beside its heading, and its
    lines beside the replies; last the number of recorded calls."""
    files = [f"{name}-1.script", f"{name}-2.script"]
    lines = "".join(f"{file}\n{text_of(file)}" for file in files)
    replies = lines_of(report(built, "view", *files))
    return table_of(f"{lines}the end\n", [mask_numbers(reply) for reply in replies])


def table_at_terminals(built: str, name: str, names: Sequence[str], page: str) -> str:
    """The table of what viewers of these names type live, as the page has it: who types which line, and
    the reply at that viewer's terminal."""
    typed = [(who, line) for who, line, _ in LIVE_ROW.findall(page)]
    if {who for who, _ in typed} != {*names}:
        raise Broken(f"its table is not of {' and '.join(names)}")
    replies, written = typed_in_turn(built, names, typed)
    script = history.history_of("the view", written).script().decode("ascii")
    for file, text in ((f"{name}.history", written), (f"{name}.script", script)):
        if text_of(file) != text:
            raise Broken(f"{file} has other calls than its table")
    answers = enumerate(lines_of(report(built, "run", f"{name}.script")), 1)
    if [f"{number} {answer}" for number, answer in answers] != [text for text in replies if not text.startswith("- ")]:
        raise Broken(f"a run of {name}.script has other replies than the viewers")
    return table(LIVE_HEADINGS, [(who, *code_cells(line, reply)) for (who, line), reply in zip(typed, replies)])


def table_of_mistakes(built: str, trace: str) -> str:
    """The table of what `load` answers to each mistake in a trace. A mistake has no row if the trace doesn't have
    its right text or still loads."""
    rows = []
    for right, wrong in MISTAKES:
        answers = lines_of(run_over(built, trace.replace(right, wrong, 1)).errors) if right in trace else []
        rows += [code_cells(right, wrong, answer) for answer in answers]
    return table(MISTAKES_HEAD, rows)


# ---- What a page must have -----------------------------------------------------------------------


def over_trace(built: str, name: str, shows: bool = True) -> Iterator[str]:
    """The trace of this name, if the page shows it, and the table over its run."""
    trace = text_of(f"{name}.trace")
    if shows:
        yield trace_block(trace)
    yield table_over(built, trace, f"{name}.script")


def lesson_blocks(built: str, name: str, page: str) -> Iterable[str]:
    """The traces and tables of a lesson, in order, as its page says how it runs."""
    if TWO_STARTS in page:
        return [*over_trace(built, f"{name}-1"), *over_trace(built, f"{name}-2")]
    if OVER_TRACE.format(name) in page:
        return over_trace(built, name, TRACE_HEAD in page)
    if live := LIVE.search(page):
        return [table_at_terminals(built, name, live.groups(), page)]
    script = f"{name}.script"
    return [table_of(text_of(script), lines_of(report(built, "run", script, *options_in(page))))]


def guide_blocks(built: str) -> Iterator[str]:
    """The tables and traces of the guide, in order."""
    lines, drawn = table_and_trace(built, "guide-1.script")
    yield from (lines, trace_block(drawn))
    for script in ("guide-2.script", "guide-3.script"):
        yield table_over(built, drawn, script)
    yield from over_trace(built, "guide-4")
    yield table_of_mistakes(built, text_of("guide-4.trace"))
    yield table_of_viewers(built, "guide-5")
    lines, handed_on = table_and_trace(built, "guide-6.script")
    yield from (lines, trace_block(handed_on), table_over(built, handed_on, "guide-7.script"))


# ---- What a page has -----------------------------------------------------------------------------


def without_words(page: str) -> str:
    """A page without the last column of its tables of lines and replies. A row that has more or fewer
    cells than its head becomes one that no such table has."""
    bare, is_table = "", False
    for line in lines_of(page):
        is_table = line in (HEADINGS, LIVE_HEADINGS) or is_table and line.startswith("|")
        is_row = is_table and ROW.match(line)
        bare += (re.sub(r"\|[^|]*\|$", "|", line) if is_row else line) + "\n"
    return bare


def blocks_fault(page: str, blocks: Iterable[str]) -> str:
    """What is wrong with a page that shall have these tables and traces, in this order and no other
    ones, or nothing."""
    begins, rest = (HEADINGS, MISTAKES_HEAD, TRACE_HEAD), page
    for number, block in enumerate(blocks, 1):
        before, found, behind = rest.partition(block)
        if not found:
            missing = (line for line in lines_of(block) if f"\n{line}\n" not in f"\n{rest}")
            return f"table or trace {number} of its page lacks {next(missing, 'its lines, in a row')}"
        if any(begin in before for begin in begins):
            return f"its page has another table or trace before its number {number}"
        rest = behind
    return "its page has one more table or trace" if any(begin in rest for begin in begins) else ""


# ---- All of it -----------------------------------------------------------------------------------


def page_fault(name: str, built: str) -> str:
    """What is wrong with the page of a lesson, or with the guide, or nothing."""
    page = text_of(f"{name}.md")
    blocks = guide_blocks(built) if name == GUIDE else lesson_blocks(built, name, page)
    return blocks_fault(without_words(page), blocks)


def session_fault(name: str, over_a_trace: bool, built: str) -> str:
    """What is wrong with the report of a session, or nothing."""
    script = f"{name}.script"
    replies = report_over(built, text_of(f"{name}.trace"), script) if over_a_trace else report(built, "run", script)
    return difference(replies, text_of(f"{name}.report"))


def rows() -> program.Rows:
    """Each lesson, the guide and each session, with what finds what is wrong with a build."""
    pages = [(name, functools.partial(page_fault, name)) for name in (*LESSONS, GUIDE)]
    return pages + [(name, functools.partial(session_fault, name, is_over)) for name, is_over in SESSIONS.items()]
