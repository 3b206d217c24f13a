"""Makes the archive that is handed out: lcrqdb-VERSION-x86_64.tar.gz, with VERSION from
`lcrqdb --version`.

    python3 tools/release.py [-o FOLDER] [--lessons 5,14,15] [--with-needed] [--answers with|apart|none]
        [--worksheet] [--paper A4|Letter] [--pdf] [--program P]

In it are the program, its man page made of docs/MANUAL.md, a page of HTML each for manual, recipes,
model, guide and lessons with their pictures in them, the examples with a report of each script that
one run has, and a page of the run, the scripts that the pages name with what they import, the JSON
Schema of traces, and a README. `release_pages.py` makes the pages.

`--lessons` leaves all other lessons out, and their examples; `--with-needed` adds those that these
need. `--answers` has the answers to the exercises with them, apart, or not at all. Apart they are on
docs/answers.html in a second archive, which unpacks into the same folder. `--worksheet` empties the
columns of the lessons' tables that a class fills in; what they had is with the answers.

docs/handout.html has the lessons for paper, and *The queue* on two pages (`handout.py`). `--pdf` also
prints it, guide and answers, and the pages of runs of chosen lessons, into the archive and beside it;
that takes Chromium or weasyprint. The folder of `-o` is made first.

The same commit, program and choice give the same bytes, those of a PDF left out: names are sorted,
and the time of each file is that of the last commit. It needs pandoc (Debian's package pandoc). The
status is 1, with the reason in one line, where that, the program or a picture is missing.
"""

import argparse
import fnmatch
import gzip
import io
import os
import re
import shutil
import sys
import tarfile
import tempfile
from dataclasses import dataclass
from pathlib import Path

from lcrq_tools import entry, program
from lcrq_tools.faults import Fault, Parser, say
from lcrq_tools.options import add_program
from lcrq_tools.program import EXAMPLES, TOP
from lcrq_tools.release import handout
from lcrq_tools.release.man_page import man_page
from lcrq_tools.release.release_pages import (
    DOCS, HANDED_OUT, LESSONS, PORT, SCHEMA, Choice, Part, is_chosen, page_of,
)

TOOLS = TOP / "tools"
BUILD = TOOLS / "lcrq_tools" / "release"
COMPLETION = BUILD / "lcrqdb.bash"
INSTALLED = (TOOLS / "pyproject.toml", BUILD / "__init__.py", BUILD / "wheel.py")  # by which pip installs the tools
PRINTED = ("guide", "handout", "answers")  # the pages that are made as PDF
BROWSERS = ("chromium", "chromium-browser", "google-chrome")

# What a page says of how a script is run.
VIEWED = re.compile(r"lcrqdb view ((?:[\w.-]+\.script ?)+)")
LOADED = re.compile(r"lcrqdb load ([\w.-]+)\.trace < ([\w.-]+\.script)")
WITH = re.compile(r"^Run with: (.*)$", re.MULTILINE)

# What the README says of the files that are there.
CONTENTS = """\
bin/lcrqdb                the program, for Linux on x86-64; it needs the C library alone
docs/guide.html           from a whiteboard to the step to blame, in 30 minutes: begin here
docs/lessons.html         lessons{numbers} on concurrent queues, for teachers
docs/handout.html         the lessons to print, with the queue on two pages
docs/answers.html         the answers to their exercises
docs/manual.html          every line and every reply; share/man/ has it as a man page
docs/recipes.html         commands to print, draw and compare runs, and to write a start
docs/model.html           the queue and the simulated machine
docs/*.pdf                guide and handout to print; a PDF has other bytes each time that it is made
docs/*.md                 what the scripts read of manual and model
docs/trace.schema.json    a JSON Schema of traces, for an editor and for schema.py
examples/                 the scripts and traces of these pages, with their pictures; each script that
                          runs alone has its report and a page of its run
tools/                    scripts that draw a run, and more: {scripts}
"""
README = """\
lcrqdb {version}: a causal reversible debugger for LCRQ

{contents}

Nothing has to be installed to run it. In this folder:

    export PATH="$PWD/bin:$PWD/tools:$PATH"
    man lcrqdb
    cd examples
    lcrqdb run session.script | paste session.script -
    lcrqdb run session.script | diff session.report -

The last line prints nothing: the replies are as they should be. In bash, source
share/bash-completion/completions/lcrqdb to complete subcommands, options and files.

The scripts of tools/ need Python 3.11 and nothing else; schema.py also needs its library
jsonschema. They draw a run of yours, in any folder:

    cp session.script mine.script
    picture.py mine.script -o mine.svg
    page.py mine.script -o mine.html

Or `pip install ./tools` in this folder, which needs no network, has them without that PATH: `lcrq`
lists them, and `lcrq picture` is picture.py.
"""

# ---- Runs of the examples ------------------------------------------------------------------------


@dataclass(frozen=True)
class Run:
    """How a script of the examples is run: over this trace, or else with these options."""

    script: Path
    trace: str | None
    options: tuple[str, ...]


def runs_of(choice: Choice) -> list[Run]:
    """The chosen scripts that are run one at a time, as their pages say."""
    texts = {path.stem: path.read_text(encoding="utf-8") for paths in choice.pages().values() for path in paths}
    whole = "\n".join(texts.values())
    viewed = {name for names in VIEWED.findall(whole) for name in names.split()}
    over = {script: trace for trace, script in LOADED.findall(whole)}
    runs = []
    for script in sorted(EXAMPLES.glob("*.script")):
        if script.name in viewed or not is_chosen(script, choice):
            continue
        own = script.stem if script.with_suffix(".trace").is_file() else None
        options = WITH.search(texts.get(script.stem, ""))
        runs.append(Run(script, over.get(script.name, own), tuple(options[1].split()) if options else ()))
    return runs


def trace_of(built: str, name: str) -> bytes:
    """The trace of this name: an example, or that of the run of the script of this name."""
    path = EXAMPLES / f"{name}.trace"
    if path.is_file():
        return path.read_bytes()
    return output_of([built, "run", "--trace", str(EXAMPLES / f"{name}.script")]).splitlines(keepends=True)[-1]


def output_of(words: list[str], given: bytes = b"") -> bytes:
    """What a command writes, which has to succeed."""
    ended = program.run(words, given)
    if ended.status:
        raise Fault(f"`{' '.join(words)}` ended with status {ended.status}: {ended.errors.strip()}")
    return ended.output


def report_of(built: str, run: Run, folder: Path) -> bytes:
    """The report of a run: as it is stored, or else as the program writes it."""
    stored = run.script.with_suffix(".report")
    if stored.is_file():
        return stored.read_bytes()
    if not run.trace:
        return output_of([built, "run", *run.options, str(run.script)])
    return output_of([built, "load", str(folder / f"{run.trace}.trace")], run.script.read_bytes())


def run_page_of(built: str, run: Run, folder: Path) -> bytes:
    """The page of a run, or of the history whose lines a script has. Some of its lines may be refused."""
    out, history = folder / "page.html", run.script.with_suffix(".history")
    over = ["--trace", str(folder / f"{run.trace}.trace")] if run.trace else list(run.options)
    source = ["--history", str(history)] if history.is_file() else [str(run.script)]
    words = [sys.executable, str(TOOLS / "page.py"), *source, *over, "--refused"]
    output_of([*words, "--program", built, "-o", str(out)])
    return out.read_bytes()


def examples_of(built: str, choice: Choice) -> dict[str, bytes]:
    """The chosen files of the examples, with what is made of the scripts, by their names."""
    paths = [path for path in EXAMPLES.iterdir() if path.suffix in HANDED_OUT]
    paths += [path for path in PORT.iterdir() if path.is_file()]
    files = {str(path.relative_to(EXAMPLES)): path.read_bytes() for path in paths if is_chosen(path, choice)}
    with tempfile.TemporaryDirectory() as name:
        folder = Path(name)
        for run in runs_of(choice):
            if run.trace:
                (folder / f"{run.trace}.trace").write_bytes(trace_of(built, run.trace))
            files[f"{run.script.stem}.report"] = report_of(built, run, folder)
            files[f"{run.script.stem}.html"] = run_page_of(built, run, folder)
    return files


# ---- Scripts that the pages name -----------------------------------------------------------------

NAMED = re.compile(r"(?<![\w/.-])(tools/)?(\w+\.py)\b")
IMPORTED = re.compile(r"^ *from (lcrq_tools[\w.]*) import (?:\(([^)]*)\)|(.*))", re.MULTILINE)
BESIDE = re.compile(r'"(\w+\.(?:js|css|html))"')  # a part of a page
READ = re.compile(r'"docs" / "(\w+\.md)"')


def named_in(text: str) -> set[Path]:
    """The scripts of tools/ that a text names; a name without a folder may be that of another file."""
    found = {(folder, TOOLS / name) for folder, name in NAMED.findall(text)}
    return {path for folder, path in found if folder or path.is_file()}


def needed_by(path: Path) -> list[Path]:
    """The files that a script of tools/ takes: its tool, and the modules that each imports, with what makes
    their folders packages, the other files of a module's name, and those beside it that it names."""
    if path.parent == TOOLS:
        beside = [entry.file_of(entry.TOOLS[path.stem])] if path.stem in entry.TOOLS else []
    else:
        beside = [*path.parent.glob(f"{path.stem}.*"), path.parent / "__init__.py"]
    text = path.read_text(encoding="utf-8")
    beside += [path.parent / name for name in BESIDE.findall(text)]
    for package, *names in IMPORTED.findall(text):
        module = TOOLS.joinpath(*package.split("."))
        within = [module / f"{name}.py" for name in re.findall(r"\w+", " ".join(names))]
        beside += [module.with_suffix(".py"), module / "__init__.py", *within]
    return sorted(file for file in beside if file.is_file())


def scripts_of(texts: list[str]) -> dict[str, bytes]:
    """The scripts that these texts name, with the files that they take, by their paths."""
    left = [path for text in texts for path in named_in(text)]
    found: dict[str, bytes] = {}
    while left:
        path = left.pop()
        name = str(path.relative_to(TOP))
        if name in found:
            continue
        if not path.is_file():
            raise Fault(f"a page names {name}, which is not there")
        found[name] = path.read_bytes()
        left += needed_by(path) if path.suffix == ".py" else []
    return found


def pages_read_by(scripts: dict[str, bytes], choice: Choice) -> dict[str, bytes]:
    """The pages of the repository that scripts read, as text that leads to the pages of the archive."""
    names = {name for script in scripts.values() for name in READ.findall(script.decode())}
    return {f"docs/{name}": Part(choice, "", DOCS / name).text().encode() for name in sorted(names)}


# ---- PDF -----------------------------------------------------------------------------------------


def printer() -> list[str]:
    """The words that print a page, before the PDF and the page."""
    browser = next((path for name in BROWSERS if (path := shutil.which(name))), None)
    if not browser and shutil.which("weasyprint"):
        return ["weasyprint"]
    if not browser:
        raise Fault("a PDF takes Chromium or weasyprint (packages of Debian, too): neither is there")
    sandbox = ["--no-sandbox"] if os.geteuid() == 0 else []
    return [browser, "--headless", "--disable-gpu", *sandbox, "--no-pdf-header-footer"]


def pdf_of(page: bytes, choice: Choice) -> bytes:
    """A page as PDF on the chosen paper, with all that is folded unfolded."""
    page = page.replace(b"<style>", f"<style>\n@page {{ size: {choice.paper}; }}".encode(), 1)
    words = printer()
    with tempfile.TemporaryDirectory() as folder:
        html, out = Path(folder) / "page.html", Path(folder) / "page.pdf"
        html.write_bytes(page.replace(b"<details>", b"<details open>"))
        given = [str(html), str(out)] if words[0] == "weasyprint" else [f"--print-to-pdf={out}", html.as_uri()]
        output_of([*words, *given])
        if not out.is_file():
            raise Fault(f"{words[0]} has printed no PDF")
        return out.read_bytes()


def printed_of(files: dict[str, bytes], choice: Choice) -> list[str]:
    """The pages that are printed: those for readers, and where lessons are chosen those of their runs,
    which a script draws, and so a browser alone."""
    pages = [f"docs/{page}.html" for page in PRINTED if f"docs/{page}.html" in files]
    is_drawn = not choice.is_all and not choice.worksheet and printer()[0] != "weasyprint"
    return pages + [name for name in sorted(files) if is_drawn and re.match(r"examples/\d.*\.html", name)]


# ---- The archive ---------------------------------------------------------------------------------


def version_of(built: str) -> str:
    """The version that the program says."""
    ended = program.run([built, "--version"])
    name, _, version = ended.output.decode(errors="replace").strip().partition(" ")
    if ended.status or name != "lcrqdb" or not version:
        raise Fault(f"{built} is not lcrqdb: --version writes {ended.output[:40]!r}")
    return version


def last_commit() -> int:
    """When the last commit was made, in seconds; 0 where that isn't known."""
    try:
        return int(program.run(["git", "-C", str(TOP), "log", "-1", "--format=%ct"]).output)
    except (OSError, ValueError):
        return 0


def readme(version: str, choice: Choice, files: dict[str, bytes]) -> str:
    """The README of an archive with these files."""
    numbers = "" if choice.is_all else " " + ", ".join(map(str, choice.lessons))
    pages = [data.decode() for path, data in files.items() if path.endswith(".html")]
    scripts = ", ".join(sorted({path.name for page in pages for path in named_in(page)}))
    lines, is_there = [], False
    for line in CONTENTS.splitlines():
        if pattern := line.partition(" ")[0]:
            is_there = any(fnmatch.fnmatch(name, f"{pattern}*") for name in files)
        lines += [line.format(numbers=numbers, scripts=scripts)] if is_there else []
    return README.format(version=version, contents="\n".join(lines))


def files_of(built: str, version: str, seconds: int, choice: Choice, with_pdf: bool) -> dict[str, bytes]:
    """The files of the archive by their names."""
    examples = examples_of(built, choice)
    run_pages = sorted(name for name in examples if name.endswith(".html"))
    files = {f"docs/{page}.html": page_of(page, version, choice, run_pages) for page in choice.pages()}
    scripts = scripts_of([*(page.decode() for page in files.values()), README])
    files |= scripts | pages_read_by(scripts, choice)
    files |= {str(path.relative_to(TOP)): path.read_bytes() for path in INSTALLED}
    files |= {f"examples/{name}": data for name, data in examples.items()}
    files["docs/handout.html"] = handout.page_of(version, choice)
    if with_pdf:
        files |= {f"{name.removesuffix('html')}pdf": pdf_of(files[name], choice) for name in printed_of(files, choice)}
    files["share/man/man1/lcrqdb.1"] = man_page(version, seconds, choice)
    files["share/bash-completion/completions/lcrqdb"] = COMPLETION.read_bytes()
    files |= {"bin/lcrqdb": Path(built).read_bytes(), f"docs/{SCHEMA.name}": SCHEMA.read_bytes()}
    return files | {"README": readme(version, choice, files).encode()}


def archive_of(files: dict[str, bytes], folder: str, seconds: int) -> bytes:
    """The archive of these files, in this folder of it."""
    packed = io.BytesIO()
    with tarfile.open(fileobj=packed, mode="w", format=tarfile.USTAR_FORMAT) as archive:
        for name, data in sorted(files.items()):
            packed_file = tarfile.TarInfo(f"{folder}/{name}")
            packed_file.size, packed_file.mtime = len(data), seconds
            packed_file.mode = 0o755 if name.startswith("bin/") or data.startswith(b"#!") else 0o644
            archive.addfile(packed_file, io.BytesIO(data))
    return gzip.compress(packed.getvalue(), mtime=seconds)


# ---- The command line ----------------------------------------------------------------------------


def lessons_in(text: str) -> tuple[int, ...]:
    """The lessons of the command line, by their numbers."""
    words = text.split(",")
    if wrong := [word for word in words if not (word.isdecimal() and int(word) in LESSONS)]:
        raise argparse.ArgumentTypeError(f"no lesson has the number {wrong[0]!r}; they are 1 to {max(LESSONS)}")
    return tuple(sorted(set(map(int, words))))


def parser() -> Parser:
    """The command line."""
    parser = Parser(__doc__, "--lessons 5,14,15 --answers apart")
    add = parser.add_argument
    add("-o", dest="folder", type=Path, default=".", metavar="FOLDER", help="where it goes (this folder)")
    add("--lessons", type=lessons_in, default=tuple(LESSONS), metavar="N,N..", help="these lessons alone")
    about = "where the answers to exercises are: with them (so if left out), apart on a page, or nowhere"
    add("--answers", choices=("with", "apart", "none"), default="with", help=about)
    add("--pdf", action="store_true", help="print guide, handout and answers, too")
    handout.add_options(parser)
    add_program(parser)
    return parser


def write(out: Path, folder: str, files: dict[str, bytes], seconds: int) -> None:
    """Writes the archives of this folder's name, and beside them what is printed; prints the path of each."""
    archives = handout.archives_of(folder, files)
    made = {f"{name}.tar.gz": archive_of(own, folder, seconds) for name, own in archives.items()}
    made |= {f"{folder}-{Path(path).name}": data for path, data in files.items() if path.endswith(".pdf")}
    for path, data in made.items():
        (out / path).write_bytes(data)
        print(out / path)


def main() -> int:
    """Makes the archive that the command line asks for."""
    given = parser().parse_args()
    if not shutil.which("pandoc"):
        raise Fault("the pages are made by pandoc: install Debian's package pandoc")
    if given.pdf:
        printer()
    choice, out = handout.choice_of(given), Path(given.folder)
    out.mkdir(parents=True, exist_ok=True)
    if lacks := handout.lacks_of(choice.lessons):
        say(lacks)
    built: str = given.program
    version, seconds = version_of(built), last_commit()
    files = files_of(built, version, seconds, choice, given.pdf)
    if program.is_unproved(files["bin/lcrqdb"]):
        say(f"{built} is not proved: this archive is to try out")
    chosen = "" if choice.is_all else "-lessons-" + "-".join(map(str, choice.lessons))
    write(out, f"lcrqdb-{version}-x86_64{chosen}", files, seconds)
    return 0
