"""The tables of a lesson for a class: numbered lines, and on a worksheet empty columns to fill in.

`release_pages.py` changes the pages of the archive by it, and `handout.py` those on paper. A lesson is a list of
pandoc's blocks. On a worksheet the cells of `Reply` and `What happens` are empty, and the sections that say what
they would have are left out; `key_of` is what a teacher has of these.
"""

from lcrq_tools.release.elements import Element, Json, text_in

HEADS = (["Line", "Reply", "What happens"], ["Who", "Line", "Reply", "What happens"])  # of a script's tables
EMPTY = 2  # columns at the end of such a table
ANSWERING = ("What to see", "Which undo is refused, and why")  # the sections that say what came out


def cells_of(row: Json) -> list[str]:
    """The texts of a row's cells."""
    return [text_in(cell[4]) for cell in row[1]]


def is_script(block: Element) -> bool:
    """Whether a block is the table of a script. One of several viewers at once has no one order of its lines."""
    if block["t"] != "Table":
        return False
    *_, head, bodies, _ = block["c"]
    rows = [cells_of(row) for body in bodies for row in body[3]]
    is_named = any(cells_of(row) in HEADS for row in head[1])
    return is_named and not any(cell.startswith("viewer ") for row in rows for cell in row)


def numbered(block: Element) -> Element:
    """A script's table in a style that numbers its lines; any other block as it is."""
    if not is_script(block):
        return block
    (name, classes, pairs), *others = block["c"]
    return {"t": "Table", "c": [[name, [*classes, "numbered"], pairs], *others]}


def emptied(block: Element) -> Element:
    """A script's table with empty cells to fill in; any other block as it is."""
    if not is_script(block):
        return block
    *others, bodies, foot = block["c"]
    rows = [[*body[:3], [[row[0], blank(row[1])] for row in body[3]]] for body in bodies]
    return {"t": "Table", "c": [*others, rows, foot]}


def blank(cells: list[Json]) -> list[Json]:
    """The cells of a row, the last ones empty."""
    return [*cells[:-EMPTY], *([*cell[:4], []] for cell in cells[-EMPTY:])]


def sections_of(blocks: list[Element]) -> list[list[Element]]:
    """The blocks in sections, each with its heading; the first with that of all."""
    sections: list[list[Element]] = [[]]
    for block in blocks:
        if block["t"] == "Header":
            sections.append([])
        sections[-1].append(block)
    return [it for it in sections if it]


def is_answering(section: list[Element]) -> bool:
    """Whether a section says what came out."""
    return section[0]["t"] == "Header" and text_in(section[0]["c"][2]) in ANSWERING


def worksheet_of(blocks: list[Element]) -> list[Element]:
    """A lesson as a worksheet."""
    kept = [block for section in sections_of(blocks) if not is_answering(section) for block in section]
    return [emptied(block) for block in kept]


def key_of(blocks: list[Element]) -> list[Element]:
    """What a worksheet lacks: the tables whole, and what came out."""
    found: list[Element] = []
    for section in sections_of(blocks):
        found += section if is_answering(section) else [it for it in section if is_script(it)]
    return found
