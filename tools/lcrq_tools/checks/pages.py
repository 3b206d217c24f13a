"""Compares each block of lines and replies in README.md, docs/MANUAL.md and docs/RECIPES.md with the
file of it that the gate compares with the program.

    python3 tools/check.py pages [--store]

It looks up these, too:

- What docs/PROVED.md and the READMEs of the crates name in backticks is in the tree, and in the file that is
  named for it: functions, clauses, definitions, types and files.
- The numbers on docs/PROVED.md, docs/STATEMENT.md and docs/ARCHITECTURE.md are those of `tools/definitions.py`. A
  fault names the right number, and --store puts it there. So it does with what docs/STATEMENT.md has from
  `tools/definitions.py --statement`.
- The scripts of tools/ that a page names are there, and the check or measurement that each runs. .ci/run has
  the README's test command. Each link leads to a file and a heading that are there.
- Each line of the manual's tables is in the help, and each keyword in its table of replies and in the rows that
  tests walk.

The session of the README and the examples of the manual are in `examples/`, each a script beside its report;
`tools/check.py lessons` compares these with the program. A view, and the line of a trace, are in the stored
text of `tools/check.py rehearsals`, and the scripts of a view are in `examples/` too, byte for byte. What two
people type and see live is how the table of lesson 12 begins. A block that shows a reply and is none of these
is a fault, and so is a line of docs/MODEL.md's pseudo-code that `model.py` can't read, or a session in the
laws of `witness` that isn't the README's. Each check prints a line; the status is 1 if one of them finds a
fault. Only Python's standard library is used.
"""

import collections
import json
import re
from collections.abc import Iterable, Iterator
from pathlib import Path

from lcrq_tools import manual, model
from lcrq_tools.checks import command_rows, lessons, rehearsals
from lcrq_tools.entry import TOOLS, tools_in
from lcrq_tools.faults import Parser
from lcrq_tools.look import contracts, reached, statement
from lcrq_tools.markdown import LINK, QUOTED, blocks_of, headings_of
from lcrq_tools.program import CRATES, EXAMPLES, TOP, print_checks, tried

REPLY = re.compile(rf"(?:{'|'.join(sorted(manual.REPLIES))}|viewer|history)\b.*")
NUMBERED = re.compile(rf" *(?:\d+|-) {REPLY.pattern}")  # a reply to a viewer of `view --live`
OUTPUT = "  output|"  # before each line of standard output in the stored text of `rehearsals`

Checks = Iterator[tuple[str, str]]  # each a name and what is wrong, or nothing
Rows = list[list[str]]  # each a line and its reply
Numbers = tuple[str, str, str]  # a name, the numbers that a page has for it, and those that are right
Example = tuple[str, str | None]  # a name, and that of the one whose lines a page leaves out before it

# The pages, and of each the examples in their order.
PAGES: dict[str, list[Example]] = {
    "README.md": [("session", None)],
    "docs/MANUAL.md": [("manual-1", None), ("manual-2", None), ("manual-3", "manual-1"), ("manual-4", None)],
    "docs/RECIPES.md": [("poised", None)],
}

# All pages, the lessons among them.
ALL = ["*.md", "docs/*.md", "tools/*.md", "examples/*.md", "crates/*/README.md"]

LIVE = "12-two-viewers"  # the lesson with a table of what people type live

# The scripts of `rehearsals` that the manual names, for whoever types its commands in `examples/`.
COPIED = ["questions.script", "question.script"]

# The lines and replies of the session of which the laws of `witness` are.
WITNESS = CRATES / "witness/specs/Session.antt"


def text_of(page: Path) -> str:
    """The text of a page."""
    return page.read_text(encoding="utf-8")


def name_of(page: Path) -> str:
    """The name of a page as the checks show it."""
    return str(page.relative_to(TOP))


def rows_of(lines: list[str]) -> Rows | None:
    """The lines and the replies of a block, what is after a reply left out; none if it is no such
    block."""
    rows = [re.split(r" {2,}", line)[:2] for line in lines]
    return rows if all(len(row) == 2 and REPLY.fullmatch(row[1]) for row in rows) else None


def example(name: str) -> Rows:
    """The lines of an example with the replies of its report."""
    files = [EXAMPLES / f"{name}.{kind}" for kind in ("script", "report")]
    lines, replies = (file.read_text(encoding="ascii").splitlines() for file in files)
    if len(lines) != len(replies):
        raise ValueError(f"{name}.script has {len(lines)} lines, and {name}.report has {len(replies)}")
    return [list(row) for row in zip(lines, replies)]


def is_example(rows: Rows, name: str, before: str | None) -> str:
    """What is wrong with these lines and replies, or nothing, where they are those of an example
    after those of another."""
    left_out = example(before) if before else []
    return "" if left_out + rows == example(name) else f"it is not {name}.script beside {name}.report"


def is_rehearsed(lines: list[str]) -> str:
    """What is wrong with a block of a command line and what it writes, or of a trace alone, or
    nothing."""
    stored = "".join(row.wanted for row in rehearsals.stored_rows())
    head = [lines[0], "  status: 0"] if lines[0].startswith("lcrqdb ") else []
    wanted = "\n".join(head + [OUTPUT + line for line in lines[len(head[:1]):]]) + "\n"
    return "" if wanted in stored else "it is not in the stored text of rehearsals"


def is_live(lines: list[str]) -> str:
    """What is wrong with a block of what people type and see live, each below their name, or nothing, where
    this is how the table of a lesson begins."""
    names = {name.start(): name[0] for name in re.finditer(r"\w+", lines[0])}
    block = [(names.get(len(line) - len(line.lstrip())), line.strip()) for line in lines[1:] if line]
    rows = lessons.LIVE_ROW.findall((EXAMPLES / f"{LIVE}.md").read_text(encoding="utf-8"))
    typed = [(who, text) for who, *texts in rows for text in texts]
    return "" if block == typed[:len(block)] else f"it is not the beginning of the table of {LIVE}.md"


def value_of(text: str) -> str | None:
    """A text of JSON in one spelling: in Python itself, 1 equals 1.0 and true. None of any other text."""
    try:
        return json.dumps(json.loads(text), sort_keys=True)
    except ValueError:
        return None


def is_a_trace(lines: list[str]) -> str:
    """What is wrong with a trace that is written by hand, or nothing, where it is one of the traces
    of the examples, which the gate loads."""
    traces = [value_of(path.read_text(encoding="ascii", errors="replace")) for path in EXAMPLES.glob("*.trace")]
    trace = value_of("\n".join(lines))
    return "" if trace is not None and trace in traces else "no example has this trace"


def is_copied(name: str) -> str:
    """What is wrong with a script of `rehearsals` among the examples, or nothing."""
    copy, source = EXAMPLES / name, rehearsals.REHEARSED / name
    return "" if copy.read_bytes() == source.read_bytes() else f"it is not {source.relative_to(TOP)}"


def is_witnessed() -> str:
    """What is wrong with the session of the laws of `witness`, or nothing, where it is the README's and one more
    line with its reply."""
    texts = re.findall(r'codes "([^"]*)"', text_of(WITNESS))
    half = len(texts) // 2
    rows = [list(row) for row in zip(texts[:half], texts[half:])]
    return "" if rows[:-1] == example("session") else "it is not session.script beside session.report and one more"


def is_read() -> str:
    """What of the pseudo-code can't be read, or nothing."""
    model.read(text_of(model.PAGE))
    return ""


def checks_of(name: str, examples: list[Example]) -> Checks:
    """The checks of the blocks of a page."""
    left = list(examples)
    for kind, lines in blocks_of(text_of(TOP / name)):
        if kind == "sh":
            continue
        rows = rows_of(lines)
        if rows and left:
            example_name, before = left.pop(0)
            yield f"{name}: {example_name}", tried(is_example, rows, example_name, before)
        elif rows:
            yield f"{name}: {lines[0]}", "it is none of the examples"
        elif any(NUMBERED.fullmatch(line) for line in lines):
            yield f"{name}: {lines[0]}", tried(is_live, lines)
        elif lines[0].startswith('{"version"'):
            yield f"{name}: a trace by hand", tried(is_a_trace, lines)
        elif lines[0].startswith('{"') or any(REPLY.fullmatch(line) for line in lines):
            yield f"{name}: {lines[0]}", tried(is_rehearsed, lines)
    for example_name, _ in left:
        yield f"{name}: {example_name}", "it is not on the page"


def block_checks() -> Checks:
    """The checks of all blocks, of the scripts that pages name, of the session of `witness`, and of the
    pseudo-code."""
    for name, examples in PAGES.items():
        yield from checks_of(name, examples)
    for name in COPIED:
        yield f"examples/{name}", tried(is_copied, name)
    yield name_of(WITNESS), tried(is_witnessed)
    yield "docs/MODEL.md: the pseudo-code", tried(is_read)


# ---- Names ---------------------------------------------------------------------------------------

CITED = re.compile(r"((?:`[^`]+`|[^`()|])+)\(`([\w/]+\.\w+)`\)")  # what a row cites, and of which file
NAME = re.compile(r"(?:\w+::)*([A-Za-z_]\w+)")
FILE = re.compile(r"[\w.-]*/[\w./-]*|\w+\.(?:rt|antt|py|md)")


def missing_of(line: str) -> Iterator[str]:
    """What a row cites, as `name`: `label` (`file`), and the file doesn't have."""
    for cited, file in CITED.findall(line) if line.startswith("|") else []:
        path = CRATES / file
        for part in cited.split(";") if path.is_file() else []:
            names, _, labels = part.partition("`: `")
            for name in QUOTED.findall(f"{names}`"):
                known = contracts.labels_of(path, name)
                if known is None:
                    yield f"{name} in {file}"
                else:
                    yield from (f"{label} of {name}" for label in QUOTED.findall(f"`{labels}") if label not in known)


def unknown_in(page: Path, line: str, names: set[str]) -> Iterator[str]:
    """The files and the names of a line that are not in the tree."""
    for word in QUOTED.findall(line):
        name = NAME.fullmatch(re.sub("<.*>", "", word))
        if name:
            is_there = name[1] in names
        elif FILE.fullmatch(word) and "/" in word:
            places = [TOP / word, CRATES / word, *page.parent.rglob(word)]
            is_there = word.strip("/") in names or any(place.exists() for place in places)
        else:
            is_there = word in names or not FILE.fullmatch(word)
        if not is_there:
            yield word


def name_faults(pages: Iterable[Path]) -> Checks:
    """Each line with a name that is not in the tree, or not in the file that is named for it."""
    names = {name for path in CRATES.rglob("*") for name in contracts.names_in(path)}
    names |= {"ensures", "requires", *re.findall(r"\w+", text_of(TOP / "crates.txt"))}
    for page in pages:
        for number, line in enumerate(text_of(page).splitlines(), 1):
            for name in [*missing_of(line), *unknown_in(page, line, names)]:
                yield f"{name_of(page)}:{number}", f"no {name}"


# ---- Tools ---------------------------------------------------------------------------------------

# A script with the name of what it runs, or a file that is in tools/ or was in a folder of its own.
RUN = re.compile(r"(?:python3 |`)tools/(check|bench)\.py ([a-z]\w*)")
BY_LCRQ = re.compile(r"`lcrq ([a-z]\w*)")  # a tool of the command that pip installs
OF_TOOLS = re.compile(r"(?<![\w/.-])(?:tools|checks|bench)/[\w/]+\.(?:py|js|css|html|c)\b")
FOLDERS = {"check": "checks", "bench": "bench"}  # of the package, by the script that runs what is there
COMMAND = re.compile(r"^```sh\n(python3 tools/check\.py .*?)^```$", re.MULTILINE | re.DOTALL)


def unknown_tools(text: str) -> Iterator[str]:
    """The scripts that a text names, and what they run, as far as that is not there."""
    yield from (file for file in OF_TOOLS.findall(text) if not (TOP / file).is_file())
    for script, name in RUN.findall(text):
        if name not in tools_in(FOLDERS[script]):
            yield f"{name} for tools/{script}.py"
    yield from (f"{name} for lcrq" for name in BY_LCRQ.findall(text) if name not in TOOLS)


def is_gate() -> str:
    """What is wrong with the gate, or nothing: its commands are those of the README."""
    command = COMMAND.search(text_of(TOP / "README.md"))
    wanted = re.split(r"\s*&&\s*", command[1].strip()) if command else []
    lines = text_of(TOP / ".ci" / "run").splitlines()
    first = next((index for index, line in enumerate(lines) if line.startswith("cd ")), 0) + 1
    return "" if lines[first:] == wanted else "it is not the README's test command"


def tool_faults(pages: Iterable[Path]) -> Checks:
    """Each script that a page names and that is not there, and what is wrong with the gate."""
    yield from ((name_of(page), f"no {name}") for page in pages for name in unknown_tools(text_of(page)))
    if fault := is_gate():
        yield ".ci/run", fault


# ---- Numbers -------------------------------------------------------------------------------------

PROVED = TOP / "docs" / "PROVED.md"
ARCHITECTURE = TOP / "docs" / "ARCHITECTURE.md"
STATEMENT = TOP / "docs" / "STATEMENT.md"
# A guarantee: the words for the script; then definitions, lines and lines of comments.
GUARANTEE = re.compile(r"\| \[.*\| (?:`([^`]*)`|no argument) \| ([\d,]+ \| [\d,]+ \| [\d,]+) \|")
# A row of what one must read: its files; then lines and lines of comments; then minutes.
READ = re.compile(r"\| \d+ \| (.*?) \| .* \| ([\d,]+ \| [\d,]+) \| (\d+) \|")
TOTAL = re.compile(r"([\d,]+) in ([\d,]+) files, with ([\d,]+) lines and ([\d,]+) of comments")
MINUTES = re.compile(r"(\d+) minutes in all")
# The clauses that are followed to their last definition, and how many files the page says they take.
FOLLOWED = ["rd_journal/src/sessions.rt", "undo_at.answer", "undo_at.run"]
FILES = re.compile(r"the script prints (\d+) files")


def in_row(numbers: Iterable[int]) -> str:
    """Numbers as the cells of a row have them."""
    return " | ".join(f"{number:,}" for number in numbers)


def said_in(pattern: re.Pattern[str], text: str) -> str:
    """The numbers of a sentence on a page, as the cells of a row."""
    found = pattern.search(" ".join(text.split()))
    return " | ".join(found.groups()) if found else "no such sentence"


def guarantees() -> Iterator[Numbers]:
    """The rows of the guarantees."""
    text = text_of(PROVED)
    rows = GUARANTEE.findall(text)
    yield "rows of guarantees with numbers", str(len(rows)), str(text.count("\n| ["))
    for words, numbers in rows:
        count, _, *lines = reached.reached_from(words.split() or reached.HEADLINE).totals()
        yield words or "the headline", numbers, in_row([count, *lines])


def files_of(cell: str) -> list[Path]:
    """The files that a cell names; one without a folder is in that of the file before it."""
    found: list[Path] = []
    for name in QUOTED.findall(cell):
        found.append(CRATES / name if "/" in name else found[-1].parent / name)
    return found


def only_in(paths: Iterable[Path], others: Iterable[Path]) -> str:
    """The files that are in the one list and not in the other, or more often."""
    more = collections.Counter(paths) - collections.Counter(others)
    return ", ".join(sorted(str(path.relative_to(CRATES)) for path in more.elements())) or "no other file"


def reading() -> Iterator[Numbers]:
    """The rows of what one must read to believe the headline, and what they add up to."""
    text, found = text_of(STATEMENT), reached.reached_from(reached.HEADLINE)
    rows = [(files_of(cell), numbers, int(minutes)) for cell, numbers, minutes in READ.findall(text)]
    for number, (files, numbers, _) in enumerate(rows, 1):
        counts = [found.counts(*key) for key in found.texts if key[0] in files]
        yield f"row {number} of the files", numbers, in_row(map(sum, zip(*counts)))
    named, right = [path for files, _, _ in rows for path in files], {path for path, _ in found.texts}
    yield "files of all rows", only_in(named, right), only_in(right, named)
    yield "the headline's total", said_in(TOTAL, text), in_row(found.totals())
    yield "the headline's minutes", said_in(MINUTES, text), str(sum(minutes for *_, minutes in rows))


def followed() -> Iterator[Numbers]:
    """The number of files of the guarantee that is followed down."""
    wanted = str(reached.reached_from(FOLLOWED).totals()[1])
    yield "files of undo_at", said_in(FILES, text_of(ARCHITECTURE)), wanted


def with_numbers(text: str, numbers: str, wanted: str) -> str:
    """A text with other numbers in place of some that it has, in one row or sentence of it."""
    old, new = numbers.split(" | "), wanted.split(" | ")
    found = re.search(r"(\D+)".join(rf"(?<![\d,]){number}(?![\d,])" for number in old), text)
    if not found or len(old) == 1:
        return text
    return text[:found.start()] + new[0] + "".join(map("".join, zip(found.groups(), new[1:]))) + text[found.end():]


def number_faults(rows: Iterable[tuple[Path, Numbers]], is_stored: bool) -> Checks:
    """Each number on a page that `definitions.py` doesn't give, with the one that it gives, which may be stored."""
    for page, (name, numbers, wanted) in rows:
        if numbers != wanted:
            yield f"{name_of(page)}: {name}", f"it has {numbers}, and it should have {wanted}"
            if is_stored:
                page.write_text(with_numbers(text_of(page), numbers, wanted), encoding="utf-8")


def part_faults(is_stored: bool) -> Checks:
    """Each part of docs/STATEMENT.md that isn't what the tree says, which may be stored."""
    for name in statement.parts():
        there, wanted = statement.on_page(name, text_of(STATEMENT)), statement.marked(name)
        if there != wanted:
            yield f"{name_of(STATEMENT)}: {name}", "it isn't what tools/definitions.py --statement prints"
            if is_stored and there:
                STATEMENT.write_text(text_of(STATEMENT).replace(there, wanted), encoding="utf-8")


# ---- Links ---------------------------------------------------------------------------------------


def dead_links(page: Path) -> Iterator[str]:
    """The links of a page that lead to no file, or to no heading of the page there."""
    for name, heading in LINK.findall(text_of(page)):
        file = page.parent / name if name else page
        if not file.exists() or heading and heading not in headings_of(text_of(file)):
            yield f"{name}#{heading}" if heading else name


# ---- All checks ----------------------------------------------------------------------------------


def faults_of(faults: Iterable[tuple[str, str]], about: str) -> Checks:
    """These faults, or, where there are none, that all this is right."""
    yield from [*faults] or [(about, "")]


def all_checks(is_stored: bool) -> Checks:
    """The checks of all pages."""
    yield from block_checks()
    pages = sorted({page for pattern in ALL for page in TOP.glob(pattern)})
    proved = [PROVED, STATEMENT, *sorted(CRATES.glob("*/README.md"))]
    yield from faults_of(name_faults(proved), f"the names of {len(proved)} pages")
    current = [page for page in pages if page.name != "CHANGELOG.md"]  # which may name what was there
    yield from faults_of(tool_faults(current), f"the scripts of {len(current)} pages, and the gate")
    yield from faults_of(part_faults(is_stored), f"{len(statement.parts())} parts of {name_of(STATEMENT)}")
    pages_rows = [(PROVED, guarantees), (STATEMENT, reading), (ARCHITECTURE, followed)]
    numbers = [(page, row) for page, rows in pages_rows for row in rows()]
    yield from faults_of(number_faults(numbers, is_stored), f"{len(numbers)} numbers of definitions, files and lines")
    links = ((name_of(page), f"no {link}") for page in pages for link in dead_links(page))
    yield from faults_of(links, f"the links of {len(pages)} pages")
    lists = (row for row in command_rows.list_faults() if row[1])
    yield from faults_of(lists, f"the lists of {len(manual.FORMS)} lines")


def main() -> int:
    """Prints the checks of all pages; returns the exit status."""
    parser = Parser(__doc__)
    parser.add_argument("--store", action="store_true", help="put right what comes from tools/definitions.py")
    return print_checks(all_checks(parser.parse_args().store))
