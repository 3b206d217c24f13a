"""Lists what each crate promises: its public functions, its laws, and what every value of a type keeps.

    python3 tools/promises.py [CRATE..]

Standard output gets a Markdown table in the order of crates.txt, or of the crates that are named: a row a function or
type, with the labels of its clauses, and its file. A clause without a label is `-`; `keeps` comes before the ghost
fields of a type; a law is a function of `laws`. Public is what the crate's `lib.rt` names. Which promises carry the
guarantees is in docs/PROVED.md, and what the words of a clause mean is printed by `definitions.py`. Only Python's
standard library is used.
"""

import functools
import re
import signal
from collections.abc import Iterator, Sequence
from pathlib import Path

from lcrq_tools.faults import Fault, Parser
from lcrq_tools.look.contracts import blocks_of, functions_of, ghosts_of, lines_of
from lcrq_tools.look.lines import KIT, crate_names, sources_of
from lcrq_tools.program import CRATES, print_head, print_row

EXPORT = re.compile(r"^pub use (?:\w+::)*(?:\{([^}]*)\}|(\w+));", re.MULTILINE)
PUBLIC_MODULE = re.compile(r"^pub mod (\w+);", re.MULTILINE)


@functools.cache
def exports_of(crate: str) -> tuple[set[str], set[str]]:
    """The names that a library exports, and its public modules."""
    library = CRATES / crate / "src" / "lib.rt"
    text = "\n".join(lines_of(library)) if library.is_file() else ""
    names = (name.strip() for pair in EXPORT.findall(text) for name in ",".join(pair).split(","))
    return set(names), set(PUBLIC_MODULE.findall(text))


def functions_in(crate: str, path: Path) -> Iterator[tuple[str, str]]:
    """The rows of the public functions of a file: a name, and what the function ensures."""
    names, modules = exports_of(crate)
    module = f"{path.stem}::" if path.stem in modules else ""
    for function in functions_of(path):
        is_exported = (function.owner or function.name) in names or (module and not function.owner)
        if function.is_public and is_exported:
            labels = [clause.label or "-" for clause in function.clauses if clause.kind == "ensures"]
            yield module + "::".join(filter(None, function[:2])), ", ".join(labels)


def types_in(crate: str, path: Path) -> Iterator[tuple[str, str]]:
    """The rows of the exported types of a file that keep something: a name, and what is kept."""
    for name, text in blocks_of(path).items():
        if name in exports_of(crate)[0] and ghosts_of(text):
            yield name, f"keeps {', '.join(ghosts_of(text))}"


def print_promises(crates: Sequence[str]) -> None:
    """Prints the table of these crates."""
    print_head("Promise", "Clauses", "File")
    for crate in crates:
        for path in sorted(sources_of(CRATES / crate), key=lambda path: path.with_suffix("").parts):
            for name, clauses in [*types_in(crate, path), *functions_in(crate, path)]:
                print_row(name, clauses, path.relative_to(CRATES))


def main() -> int:
    """Prints the table that the command line asks for; returns the exit status."""
    parser = Parser(__doc__, "rd_ring")
    parser.add_argument("crates", nargs="*", metavar="CRATE", help="a crate; else all of them")
    given = parser.parse_args()
    signal.signal(signal.SIGPIPE, signal.SIG_DFL)  # who reads the output may stop
    known, crates = crate_names(), list[str](given.crates)
    if unknown := [name for name in crates if name not in known]:
        raise Fault(f"no crate {unknown[0]} in crates.txt")
    print_promises(crates or [name for name in known if name != KIT])
    return 0
