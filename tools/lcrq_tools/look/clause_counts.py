"""Counts the clauses of each crate's contracts, and those that are wide or cite a view by a function.

    python3 tools/contracts.py

Standard output gets a Markdown table in the order of crates.txt, a row a crate, without those that have `test` in their
names: functions with clauses; clauses; clauses with a line wider than 100 columns; and clauses that apply a function of
`VIEWS` to a value before or after a call, or to a part of it, as in `state self.old`. The last row is the sum. Tests in
`src/` don't count. Only Python's standard library is used.
"""

import re
from collections import Counter
from pathlib import Path

from lcrq_tools.faults import Parser
from lcrq_tools.look.contracts import functions_of, imports_of
from lcrq_tools.look.lines import crate_names, kind_of, sources_of
from lcrq_tools.program import CRATES, print_head, print_row

WIDTH = 100  # columns: a clause with a longer line is wide

# The functions of the crates' definitions that give what a value of the code stands for, or a part or a
# size of that; and the kit's `view`. A file may import one under another name, which counts too.
VIEWS = (
    "ahead_entries", "any_state", "array_contents", "book_state", "capacity", "contents",
    "entries_capacity", "here_entries", "index", "journal", "kept_entries", "list_count", "named_entries_in",
    "live_entries", "making_count", "model", "name_room", "pending_bytes", "position_count",
    "probe_count", "room", "segment_contents", "session_of", "spare", "state", "track", "view",
)
COLUMNS = ("Functions with clauses", "Clauses", f"Wider than {WIDTH} columns", "Cite a view by a function")


def view_in(path: Path) -> re.Pattern[str]:
    """What applies a view to a value before or after a call, by the names that a file has for views."""
    renamed = {name for name, (_, original) in imports_of(path).items() if original in VIEWS}
    return re.compile(rf"(?<![\w.])(?:{'|'.join(sorted({*VIEWS, *renamed}))}) \(*\w+(?:\.\w+)*\.(?:old|new|now)\b")


def counts_in(path: Path) -> Counter[str]:
    """The counts of a source file, by column."""
    view, functions = view_in(path), [function for function in functions_of(path) if function.clauses]
    texts = [clause.text for function in functions for clause in function.clauses]
    wide = sum(any(len(line) > WIDTH for line in text.splitlines()) for text in texts)
    counts = len(functions), len(texts), wide, sum(bool(view.search(text)) for text in texts)
    return Counter(dict(zip(COLUMNS, counts)))


def counts_of(crate: Path) -> Counter[str]:
    """The counts of a crate, by column."""
    paths = (path for path in sources_of(crate) if kind_of(path.relative_to(crate).parts) == "code")
    return sum(map(counts_in, paths), Counter[str]())


def print_counts() -> None:
    """Prints the table."""
    print_head("Crate", *COLUMNS)
    rows = {name: counts_of(CRATES / name) for name in crate_names() if "test" not in name}
    for name, counts in [*rows.items(), ("all", sum(rows.values(), Counter[str]()))]:
        print_row(name, *(f"{counts[column]:,}" for column in COLUMNS))


def main() -> int:
    """Prints the table; returns the exit status."""
    Parser(__doc__).parse_args()
    print_counts()
    return 0
