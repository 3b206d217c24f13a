"""Writes the parts of docs/STATEMENT.md that are taken from the tree, for `definitions.py --statement`.

`parts` gives the lines of each by its name: the theorem as it stands in the sources, and the chain from `main` down to
it. On the page, a part stands between two comments, as `marked` gives it; `check.py pages` compares each with the tree.
"""

import functools
import re
from collections.abc import Iterator, Sequence

from lcrq_tools.look.chain import GOAL, Link, chain_of
from lcrq_tools.look.contracts import code_of
from lcrq_tools.look.reached import HEADLINE, reached_from
from lcrq_tools.program import CRATES

MAIN = "lcrqdb/src/main.rt"
THEOREM = [GOAL, "IsRunOfLive"]  # what stands below the clause, in this order
END = "<!-- end -->"


def fitting(space: re.Match[str]) -> str:
    """What stands in one line for the space between two words of a signature."""
    return space[0].strip().rstrip(",") or " " * (not space.string.startswith(")", space.end()))


def theorem() -> Iterator[str]:
    """The function that promises the headline, with what it requires and the clause; then the record."""
    reached = reached_from(HEADLINE)
    yield "```text"
    for (_, _, function), clauses in reached.clauses.items():
        yield re.sub(r"\(\s+|,?\s+(?=\))|\s+", fitting, function.signature)
        for clause in clauses:
            yield from clause.text.splitlines()
    for name in THEOREM:
        yield ""
        yield from next(code_of(text, ".antt") for own, text in reached.texts.items() if own.name == name).splitlines()
    yield "```"


def shown_links(links: Sequence[Link]) -> list[Link]:
    """The links down to the headline, and of those behind them, which other options lead to, the ones that leave
    something open."""
    first = next(number for number, link in enumerate(links) if link.own.name == GOAL)
    return [link for number, link in enumerate(links) if number <= first or link.exist or link.on_bytes]


def chain() -> Iterator[str]:
    """The chain from `main` down in columns: names, files where they change, and what is left open. A fact that a
    stream was not used is left out."""
    links = shown_links(chain_of([MAIN]))
    name_width = max(len(link.own.name) for link in links)
    files = [str(link.own.path.relative_to(CRATES)) for link in links]
    file_width = max(map(len, files))
    yield "```text"
    for (own, exist, on_bytes), file, before in zip(links, files, ["", *files]):
        some = ", ".join(name for name, _ in exist)
        moved = ", ".join(name for name in on_bytes if not name.endswith("Unused"))
        opens = [f"some {some}"] * bool(some) + [f"bytes: {moved}"] * bool(moved)
        shown = file if file != before else ""
        yield f"{own.name:{name_width}}  {shown:{file_width}}  {'; '.join(opens)}".rstrip()
    yield "```"


@functools.cache
def parts() -> dict[str, list[str]]:
    """The lines of each part, by its name."""
    return {"theorem": [*theorem()], "chain": [*chain()]}


def begin_of(name: str) -> str:
    """The comment in front of a part."""
    return f"<!-- definitions.py --statement: {name} -->"


def marked(name: str) -> str:
    """A part as it stands on the page, between its comments."""
    return "\n".join([begin_of(name), *parts()[name], END])


def on_page(name: str, page: str) -> str:
    """What a page has in the place of a part, with the comments around it; nothing if it has no such place."""
    found = re.search(rf"^{re.escape(begin_of(name))}\n.*?^{re.escape(END)}$", page, re.MULTILINE | re.DOTALL)
    return found[0] if found else ""
