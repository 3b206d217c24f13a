"""Reads what `manual.py`, `model.py` and the check of the pages take of Markdown: blocks of code, tables and links.
Only Python's standard library is used.
"""

import re
from collections.abc import Iterator

BLOCK = re.compile(r"^( *)```(\w+)\n(.*?)^ *```$", re.MULTILINE | re.DOTALL)
QUOTED = re.compile(r"`([^`]+)`")  # what stands in backticks
LINK = re.compile(r"\]\(([^)\s#:]*)(?:#([^)\s]+))?\)")  # a file of the repository, and a heading there


def blocks_of(page: str) -> Iterator[tuple[str, list[str]]]:
    """The blocks of a page, each its kind and its lines, without what a list puts before them."""
    for block in BLOCK.finditer(page):
        yield block[2], [line.removeprefix(block[1]) for line in block[3].splitlines()]


def rows_of(page: str, head: str) -> list[list[str]]:
    """The cells of each row of the tables whose head begins so."""
    tables = re.findall(rf"^{re.escape(head)}.*\n\|[-|]+\n((?:\|.*\n)*)", page, re.MULTILINE)
    return [[cell.strip() for cell in row.split("|")[1:-1]] for table in tables for row in table.splitlines()]


def headings_of(page: str) -> set[str]:
    """The names by which links know the headings of a page."""
    headings = re.findall("^#+ (.*)", BLOCK.sub("", page), re.MULTILINE)
    return {re.sub(r"[^\w -]", "", heading.lower()).replace(" ", "-") for heading in headings}
