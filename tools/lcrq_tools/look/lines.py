"""Counts the lines of code, definitions, proofs and tests of each crate.

    python3 tools/lines.py

It prints a Markdown table, a row a crate in the order of crates.txt. Code is what `src/` has but tests, contracts
included; definitions are `specs/`, proofs are `proofs/`; tests are `src/tests.rt`, `src/tests/` and the proofs of
these, in the crate or in the one with `_tests` after its name, and all that the crates of several crates' tests and
`test_kit` have. Which definitions a contract reaches is said by `definitions.py`.

A line counts if it is neither blank nor a comment alone. Only Python's standard library is used.
"""

from collections import Counter
from collections.abc import Sequence
from pathlib import Path

from lcrq_tools.faults import Parser
from lcrq_tools.program import CRATES, TOP, print_head, print_row

KINDS = ("code", "definitions", "proofs", "tests")
TESTS = "_tests"  # after the name of a crate: that of the crate of its tests
KIT = "test_kit"  # the crate of what the crates of tests share
COMMENT = {".rt": "//", ".antt": "--"}


def counts_as_line(line: str, suffix: str) -> bool:
    """Whether a line of a file with this suffix counts."""
    return bool(line.strip()) and not line.strip().startswith(COMMENT[suffix])


def lines_in(path: Path) -> int:
    """How many lines of a file count."""
    return sum(counts_as_line(line, path.suffix) for line in path.read_text(encoding="utf-8").splitlines())


def kind_of(parts: Sequence[str]) -> str | None:
    """The kind of the file that is in its crate under these names; none if it isn't counted."""
    if parts[0] not in ("src", "specs", "proofs"):
        return None
    if parts[0] != "specs" and len(parts) > 1 and Path(parts[1]).stem == "tests":
        return "tests"
    return {"src": "code", "specs": "definitions", "proofs": "proofs"}[parts[0]]


def counts_of(crate: Path) -> Counter[str]:
    """The lines of a crate by their kind."""
    counts = Counter(dict.fromkeys(KINDS, 0))
    has_tests_alone = crate.name.endswith(TESTS) or crate.name == KIT
    for path in crate.rglob("*"):
        kind = kind_of(path.relative_to(crate).parts)
        if kind and path.suffix in COMMENT:
            counts["tests" if has_tests_alone else kind] += lines_in(path)
    return counts


def crate_names() -> list[str]:
    """The names of all crates, lowest first."""
    rows = (TOP / "crates.txt").read_text(encoding="utf-8").splitlines()
    return [row.split(":")[0].split()[0] for row in rows if row.strip()]


def sources_of(crate: Path) -> list[Path]:
    """The source files of a crate."""
    return sorted((crate / "src").rglob("*.rt"))


def print_crates() -> None:
    """Prints the table of all crates, each with the crate of its tests."""
    names = crate_names()
    rows = {
        name: counts_of(CRATES / name) + counts_of(CRATES / (name + TESTS))
        for name in names
        if not name.endswith(TESTS) or name.removesuffix(TESTS) not in names
    }
    print_head("Crate", "Code", "Definitions", "Proofs", "Tests", "All")
    for name, counts in [*rows.items(), ("all", sum(rows.values(), Counter[str]()))]:
        print_row(name, *(f"{counts[kind]:,}" for kind in KINDS), f"{counts.total():,}")


def main() -> int:
    """Prints the table; returns the exit status."""
    Parser(__doc__).parse_args()
    print_crates()
    return 0
