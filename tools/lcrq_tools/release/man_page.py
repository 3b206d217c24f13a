"""Makes the man page of the archive, lcrqdb.1, of docs/MANUAL.md; `release.py` calls it.

The passages are those of the archive, and a link names the page of the archive to which it leads. Headings
become sections, code stands as it is, and a table of two columns becomes a list of its first cells. So does
one of more than four, whose short first columns are the tag together; others go through tbl. Markdown that
the manual doesn't have, such as a list in a list, isn't known here. `man -l` shows the page. Only Python's
standard library is used.
"""

import re
import textwrap
import time
from collections.abc import Callable, Iterator
from typing import NamedTuple

from lcrq_tools.release.release_pages import DOCS, Choice, Part

WIDTH = 80  # letters of a line of the source
COLUMNS, BETWEEN = 70, 3  # letters of a table that tbl sets, and of them those between two columns
MOST_COLUMNS = 4  # of a table that tbl sets
TAG, INDENT = 16, 7  # letters of a cell that can be a part of a tag, and of the indent of the text behind one
CODE = 68  # letters of a line of code; a longer one goes on in the next line, if it has a place for that
# what a line of roff would take for something else, or show as another letter
SPECIAL = {"\\": r"\e", "^": r"\(ha", "~": r"\(ti", "`": r"\(ga"}
IN_CODE = SPECIAL | {"-": r"\-", "'": r"\(aq", '"': r"\(dq"}  # which is there to be copied
INLINE = re.compile(r"`(?P<code>[^`]+)`|\*\*(?P<bold>.+?)\*\*|!?\[(?P<text>[^][]*)\]\((?P<url>[^()\s]*)\)")
NAME = re.compile(r"\b\w+\.md$")  # of a page of the repository, at the end of a link's text
ITEM = re.compile(r"(-|\d+\.) +")
COMMENTED = re.compile(r"(.*\S) +(# .*)")  # a command with a comment
AFTER_A_PIPE, AT_A_WORD = re.compile(r"(?<= \|) "), re.compile(r"(?<=\S) (?=\S)(?![^\[]*\])")
# no word parted and no line spread, for many are commands to type
HEAD = """\
'\\" t
.\\" Made of the manual.
.TH LCRQDB 1 {date} "lcrqdb {version}"
.nh
.ad l
"""


class Block(NamedTuple):
    """A block of Markdown: its kind and its lines."""

    kind: str  # "heading", "code", "table", "item" or "text"
    lines: list[str]


# ---- Markdown ------------------------------------------------------------------------------------


def kind_of(line: str) -> str:
    """The kind of the block that a line begins."""
    if line.startswith("#"):
        return "heading"
    if line.startswith("```"):
        return "code"
    if line.startswith("|"):
        return "table"
    return "item" if ITEM.match(line) else "text"


def goes_on(kind: str, line: str) -> bool:
    """Whether a block of this kind goes on with this line."""
    if kind == "code":
        return not line.startswith("```")
    if kind == "heading" or not line.strip():
        return False
    return kind_of(line.lstrip()) == ("table" if kind == "table" else "text")


def blocks_of(text: str) -> Iterator[Block]:
    """The blocks of a text."""
    left = text.splitlines()[::-1]
    while left:
        first = left.pop()
        if not first.strip():
            continue
        block = Block(kind_of(first), [first])
        while left and goes_on(block.kind, left[-1]):
            block.lines.append(left.pop())
        if block.kind == "code":
            left = left[:-1]  # the fence below
        yield block


def rows_of(block: Block) -> list[list[str]]:
    """The cells of a table, those of its head first."""
    rows = [re.split(r"(?<!\\)\|", line.strip().strip("|")) for line in block.lines]
    return [[cell.strip().replace("\\|", "|") for cell in row] for row in (rows[0], *rows[2:])]


# ---- Text ----------------------------------------------------------------------------------------


def escaped(text: str, letters: dict[str, str]) -> str:
    """A text with what stands for these letters, and for those that are not ASCII."""
    return "".join(letters.get(it, it if it.isascii() else rf"\[u{ord(it):04X}]") for it in text)


def link_of(text: str, url: str) -> str:
    """The text of a link, and after it the page to which it leads, unless it is on this one."""
    page = url.partition("#")[0]
    if not page or text == page:
        return text
    return NAME.sub(page, text) if NAME.search(text) else f"{text} ({page})"


def inline(text: str) -> str:
    """A text with what it has in bold: code, and what is strong."""
    done, at = "", 0
    for found in INLINE.finditer(text):
        done += escaped(text[at:found.start()], SPECIAL)
        if found["code"]:
            done += rf"\fB{escaped(found['code'], IN_CODE)}\fR"
        elif found["bold"]:
            done += rf"\fB{escaped(found['bold'], SPECIAL)}\fR"
        else:
            done += inline(link_of(found["text"], found["url"]))
        at = found.end()
    return done + escaped(text[at:], SPECIAL)


def shown(text: str) -> int:
    """How many letters a text of Markdown takes on the page."""
    plain = INLINE.sub(lambda found: found["code"] or found["bold"] or link_of(found["text"], found["url"]), text)
    return len(plain.replace("`", ""))


def lines_of(text: str) -> list[str]:
    """A text of Markdown as lines of roff, none of which is a request."""
    lines = textwrap.wrap(inline(" ".join(text.split())), WIDTH, break_long_words=False, break_on_hyphens=False)
    return [rf"\&{line}" if line.startswith((".", "'")) else line for line in lines]


# ---- Blocks --------------------------------------------------------------------------------------


def heading(block: Block) -> list[str]:
    """A section, or a part of one; the title of the page is none."""
    marks, _, text = block.lines[0].partition(" ")
    if len(marks) == 1:
        return []
    return [f".SH {text.upper()}" if len(marks) == 2 else f'.SS "{inline(text)}"']


def parted(line: str, is_shell: bool) -> list[str]:
    """A line of code, or lines that fit the page: a command is parted behind a `|`, with its comment in front of
    it, and any other line between words, but within no brackets."""
    if len(line) <= CODE:
        return [line]
    found = COMMENTED.fullmatch(line) if is_shell else None
    command, comment = found.groups() if found else (line, "")
    gap = None if is_shell else re.search(r"\S {2,}(?=\S)", command)
    pieces = (AFTER_A_PIPE if is_shell else AT_A_WORD).split(command)
    lines = [comment, pieces[0]] if comment else pieces[:1]
    for piece in pieces[1:]:
        if len(lines[-1]) + 1 + len(piece) <= CODE:
            lines[-1] += f" {piece}"
        else:
            lines.append(" " * (gap.end() if gap else 4) + piece)
    return lines


def code(block: Block) -> list[str]:
    """Lines as they are, as far as they fit the page."""
    is_shell = block.lines[0] == "```sh"
    lines = [escaped(it, IN_CODE) for line in block.lines[1:] for it in parted(line, is_shell)]
    return [".PP", ".RS 4", ".nf", *(rf"\&{it}" if it.startswith(".") else it for it in lines), ".fi", ".RE"]


def text_block(block: Block) -> list[str]:
    """A paragraph."""
    return [".PP", *lines_of(" ".join(block.lines))]


def item(block: Block) -> list[str]:
    """An item of a list."""
    mark, text = " ".join(block.lines).split(" ", 1)
    return [r".IP \(bu 2" if mark == "-" else f".IP {mark} 4", *lines_of(text)]


def tags_of(rows: list[list[str]]) -> int:
    """How many of the first columns are a tag together: the short ones, one at least and not all."""
    short = [all(shown(cell) <= TAG for cell in column) for column in zip(*rows)]
    return min([*short, False].index(False) or 1, len(short) - 1)


def tagged(rows: list[list[str]]) -> list[str]:
    """A table as a list: the tag of each row, then its other cells, from the second on behind the names of
    their columns. The names of the first ones are above the list."""
    count = 1 if len(rows[0]) == 2 else tags_of(rows)
    lines = [f".TP {INDENT}", rf"\fI{' '.join(rows[0][:count])}\fR", rf"\fI{rows[0][count]}\fR"]
    for row in rows[1:]:
        tag = " ".join(filter(None, row[:count]))
        (_, first), *others = zip(rows[0][count:], row[count:])
        text = ". ".join([first, *(f"{name}: {cell}" for name, cell in others if cell)])
        lines += [f".TP {INDENT}", " ".join(lines_of(tag if count == 1 else f"**{tag}**")), *lines_of(text)]
    return lines


def widths_of(rows: list[list[str]]) -> list[int]:
    """How wide the columns of a table are to be: as wide as their widest cell, and where that is too much,
    the wide ones equal."""
    widest = [max(map(shown, column)) for column in zip(*rows)]
    left = COLUMNS - BETWEEN * (len(widest) - 1)
    widths: dict[int, int] = {}
    for count, at in enumerate(sorted(range(len(widest)), key=lambda at: widest[at])):
        widths[at] = min(widest[at], left // (len(widest) - count))
        left -= widths[at]
    return [widths[at] for at in range(len(widest))]


def by_tbl(rows: list[list[str]]) -> list[str]:
    """A table that tbl sets."""
    columns = [f"lw({width}n)" for width in widths_of(rows)]
    bold = [f"lBw({width}n)" for width in widths_of(rows)]
    lines = [".PP", ".TS", " ".join(bold), f"{' '.join(columns)}."]
    for row in rows:
        cells = ["\n".join(["T{", *lines_of(cell), "T}"]) for cell in row]
        lines += "\t".join(cells).split("\n")
    return [*lines, ".TE"]


def table(block: Block) -> list[str]:
    """A table as a list, or as tbl sets it."""
    rows = rows_of(block)
    return by_tbl(rows) if 2 < len(rows[0]) <= MOST_COLUMNS else tagged(rows)


MADE: dict[str, Callable[[Block], list[str]]] = {
    "heading": heading, "code": code, "table": table, "item": item, "text": text_block,
}


def roff_of(text: str) -> str:
    """A text of Markdown as roff."""
    return "".join(f"{line}\n" for block in blocks_of(text) for line in MADE[block.kind](block))


def man_page(version: str, seconds: int, choice: Choice) -> bytes:
    """The manual as a man page of this version, with the day of these seconds."""
    text = Part(choice, "manual", DOCS / "MANUAL.md").text()
    head = HEAD.format(date=time.strftime("%Y-%m-%d", time.gmtime(seconds)), version=version)
    page = roff_of(text).replace("\nlcrqdb - ", "\nlcrqdb \\- ", 1)  # by which `apropos` finds it
    return (head + page).encode("ascii")
