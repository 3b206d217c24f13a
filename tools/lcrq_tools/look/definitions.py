"""Lists the definitions and types that a contract reaches: what its reader has to believe.

    python3 tools/definitions.py [--text | --chain] [FILE FUNCTION[.LABEL]..]..
    python3 tools/definitions.py --statement

FILE is a source file, named from `crates/`, and each FUNCTION one of its functions: with a LABEL its clause of this
label (`Book::obey.answer`), else all that it ensures. What a function requires goes with each of its clauses. A type in
place of a FUNCTION means what each of its values keeps, as `World.well_formed`. Without a FILE it is the clause of a
script's run, from which the record `Headline` is reached.

The words of a clause are followed through `ghost use` into `specs/`, from there through the imports of each definition,
and from types of the code into `src/`. The type of a field is followed only if something that is reached names the
field. Ghost fields are left out, since the checker proves them. Names are found by their words, so a few definitions
too many may be listed.

Standard output gets a Markdown table from the contract down: a row a file, in the order in which the files are reached,
with the lines of what is listed that are neither blank nor a comment alone, and those of the comments above and inside
it. The rows after the total are the kit's files with the names that are taken from them, operators left out; of a type
also the fields that are named. What these names reach in turn is not listed. With `--text` standard output gets the
definitions themselves, in this order.

With `--chain` the table has only what lies between the clauses and the headline, a row a definition: what it says only
that there is some of, and its facts on bytes, which say nothing where no contract knows the bytes. A FILE alone means
what its `main` calls: `--chain crates/lcrqdb/src/main.rt`. With `--statement` standard output gets the parts of
docs/STATEMENT.md that are written so. Only Python's standard library is used.
"""

import signal
from collections.abc import ItemsView, Iterable, Iterator, Sequence
from pathlib import Path

from lcrq_tools.faults import Parser
from lcrq_tools.look.chain import chain_of
from lcrq_tools.look.reached import HEADLINE, Reached, grouped, reached_from
from lcrq_tools.look.statement import marked, parts
from lcrq_tools.program import CRATES, print_head, print_row

# ---- What is printed -----------------------------------------------------------------------------


def by_file(named: Iterable[tuple[Path, str]]) -> ItemsView[Path, list[str]]:
    """Names as lists, by their files."""
    return grouped((path.relative_to(CRATES), name) for path, name in named).items()


def clause_names(reached: Reached) -> Iterator[tuple[Path, str]]:
    """The files and the names of the clauses."""
    for (path, name, _), clauses in reached.clauses.items():
        labels = [clause.label for clause in clauses if clause.kind == "ensures"]
        yield from ((path, f"{name}.{label}" if label else name) for label in labels)


def print_table(reached: Reached) -> None:
    """Prints the clauses, and then what is reached, a row a file."""
    print_head("File", "Lines", "Comments", "What is read there")
    for path, names in by_file(clause_names(reached)):
        print_row(path, "", "", ", ".join(names))
    for path, names in by_file(reached.texts):
        code, comments = map(sum, zip(*(reached.counts(CRATES / path, name) for name in names)))
        print_row(path, f"{code:,}", f"{comments:,}", ", ".join(names))
    definitions, files, code, comments = reached.totals()
    print_row("all", f"{code:,}", f"{comments:,}", f"{definitions} definitions and types in {files} files")
    for file, names in sorted(reached.from_kit()):
        print_row(f"kit: {file}", "", "", ", ".join(names))


def print_texts(reached: Reached) -> None:
    """Prints the clauses, definitions and types themselves, each with its file."""
    contracts = [
        (path, "\n".join([function.signature, *(clause.text for clause in clauses)]))
        for (path, _, function), clauses in reached.clauses.items()
    ]
    last = None
    for path, text in [*contracts, *((path, text) for (path, _), text in reached.texts.items())]:
        if path != last:
            print(f"==== {path.relative_to(CRATES)}\n")
        print(f"{text}\n")
        last = path
    print("==== the kit\n")
    for file, names in sorted(reached.from_kit()):
        print(f"{file}: {', '.join(names)}")


def print_chain(words: Sequence[str]) -> None:
    """Prints what lies between these clauses and the headline."""
    links = chain_of(words)
    print_head("Clause or definition", "File", "There is only some", "Facts on bytes")
    for own, exist, on_bytes in links:
        some = "; ".join(map(" : ".join, exist))
        print_row(own.name, own.path.relative_to(CRATES), some, ", ".join(on_bytes))


def main() -> int:
    """Prints what the command line asks for; returns the exit status."""
    parser = Parser(__doc__, " ".join(HEADLINE))
    kinds = parser.add_mutually_exclusive_group()
    kinds.add_argument("--text", action="store_true", help="print the definitions themselves")
    kinds.add_argument("--chain", action="store_true", help="print what lies between clauses and the headline")
    kinds.add_argument("--statement", action="store_true", help="print what docs/STATEMENT.md has of the tree")
    words = "a source file, from crates/, and functions of it, with or without a label; else the headline's"
    parser.add_argument("words", nargs="*", metavar="FILE FUNCTION[.LABEL]", help=words)
    given = parser.parse_args()
    asked: list[str] = given.words or HEADLINE
    signal.signal(signal.SIGPIPE, signal.SIG_DFL)  # who reads the output may stop
    if given.statement:
        print("\n\n".join(map(marked, parts())))
    elif given.chain:
        print_chain(asked)
    else:
        (print_texts if given.text else print_table)(reached_from(asked))
    return 0
