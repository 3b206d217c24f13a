"""Tries the archives that `tools/release.py` makes, as somebody does who has unpacked one.

    python3 tools/check.py release [--program P]

It makes archives with several choices of lessons and answers, and unpacks each in a folder of its
own. There it runs each command that the README, a page or its block of lines has, in the order of
the page, in one shell a page: each has to succeed, a pipe in each of its parts, and to write what
the page shows after it. What a page calls a script of your own is one that is laid there. The
commands of all pages run in `examples/` of the repository too. Then each link of a page has to lead
to a place, and each file that a page, the man page or the README names has to be there; none may
name a folder that the archive doesn't have, or the command of the kit. From the archive, and from the
repository, pip has to install the tools without a network, and they have to make a page elsewhere.

Each check prints a line; the status is 1 if one of them fails. It needs pandoc, as tools/release.py
does. Where man, column, rlwrap, make, jsonschema or a printer of PDF isn't installed, the line of what
needs it says `skipped`.
"""

import argparse
import importlib.util
import os
import re
import shutil
import subprocess
import sys
import tarfile
import tempfile
from collections.abc import Iterator, Mapping, Sequence
from html.parser import HTMLParser
from pathlib import Path
from typing import NamedTuple

from lcrq_tools import program
from lcrq_tools.program import TOP
from lcrq_tools.release import release, release_pages

RELEASE = [sys.executable, str(TOP / "tools" / "release.py")]
SECONDS = 600  # that making an archive, or the commands of a page, may take

# The archives: the options, and whether the commands of its pages are run.
ARCHIVES: list[tuple[list[str], bool]] = [
    ([], True),
    (["--lessons", "5,14,15", "--answers", "apart"], True),
    (["--lessons", "12", "--answers", "none"], True),
    (["--lessons", "6", "--answers", "with"], False),
    (["--answers", "apart"], False),
    (["--answers", "none"], False),
]

# A script of one's own for the recipes, over rings of 2: it fills a ring, closes it and goes on.
OWN = [
    *("enq 1 7", "go 1 x6", "enq 1 8", "go 1 x6", "enq 1 9", "go 1 x8", "enq 2 5", "go 2 x6"),
    *("deq 3", "go 3 x5", "undo 5", "show next 0.0"),
]
# What stands for a word in capitals.
STANDS_FOR = {
    "FILE..": "questions.script question.script",
    "FILE": "s.trace",
    "TRACE": "s.trace",
    "SCRIPT": "s.script",
    "N": "12",
    "OUT.svg": "out.svg",
    "OUT.html": "out.html",
    "DIR/before.trace": "s.trace",
}
PASSED_OVER = ("man", "column", "rlwrap", "make")  # where they aren't installed
# The logs of a port, for the recipes: one that takes a value out, and one that puts it in.
LOGS = {
    "t1.log": "1 1 enq 7|2 1 E1 r0|3 1 E2 none|4 1 E4 open 0|5 1 E5 none|6 1 E6 1 0|7 1 E8 won; enqueued",
    "t2.log": "8 2 deq|9 2 Q1 r0|10 2 Q2 0|11 2 Q3 7",
}

PROGRAMS = r"python3|\w+\.py|awk -f|od|tr|tail -c|ls -l"
COMMAND = re.compile(rf"lcrqdb (?:(?:run|load|view|help) \S.*|--\w+)|(?:{PROGRAMS}) \S.*")
PATH = re.compile(r"(?<![\w./-])(?:\.{1,2}/)*((?:crates|tools|checks|bench|docs|examples|bin|share)/[\w./*-]*)")
FILE = re.compile(r"[\w.-]+\.(?:script|trace|report|svg|html|json|py|pdf|awk|md)")
KIT = re.compile(r"\brt (?:try|run|ci|check|test|must-fail|fmt)\b|\bthe repository\b")
CRATE = re.compile(r"\brd_\w+")
SAYS_SO = "is a definition of the repository"  # on a page that names crates
PLACEHOLDERS = {"NAME.report", "OUT.svg", "OUT.html", "START.trace"}
PLACEHOLDERS |= {"to.script", "before.trace", "from.trace", "port.trace", "steps.svg", "steps.html"}  # of conform.py

# ---- Pages ---------------------------------------------------------------------------------------


Checks = Iterator[tuple[str, str]]  # each a name and what is wrong, or nothing
Rows = list[list[str]]  # the cells of each row of a table


class Item(NamedTuple):
    """A piece of code with its language, `code` within a line, or a table."""

    kind: str
    text: str = ""
    rows: Rows | None = None


class Page(HTMLParser):
    """A page of the archive: its code, tables and links in order, its names, and its text. The code of a table
    comes after it."""

    def __init__(self, path: Path) -> None:
        super().__init__()
        self.path, self.text = path, ""
        self.items: list[Item] = []
        self.links: list[str] = []
        self.names: set[str] = set()
        self.kind = "code"  # of the code that comes next
        self.begins: dict[str, int] = {}  # where in the text the last element of each tag begins
        self.rows: Rows = []  # of the last table
        self.feed(path.read_text(encoding="utf-8"))

    def handle_starttag(self, tag: str, attributes: list[tuple[str, str | None]]) -> None:
        """Begins an element."""
        given = {name: value for name, value in attributes if value is not None}
        self.names |= {given["id"]} if "id" in given else set()
        self.links += [given["href"]] if "href" in given else []
        self.begins[tag] = len(self.text)
        if tag == "pre":
            self.kind = given.get("data-language", "")
        elif tag == "table":
            self.rows = []
            self.items.append(Item("table", rows=self.rows))
        elif tag == "tr":
            self.rows.append([])

    def handle_endtag(self, tag: str) -> None:
        """Ends an element."""
        text = self.text[self.begins.get(tag, 0):]
        if tag == "code":
            self.items.append(Item(self.kind, text))
        elif tag == "pre":
            self.kind = "code"
        elif tag in ("td", "th"):
            self.rows[-1].append(text)

    def handle_data(self, data: str) -> None:
        """Takes text."""
        self.text += data


# ---- Commands ------------------------------------------------------------------------------------


class Command(NamedTuple):
    """What a page has to type, and what it shows of what that writes, if it does."""

    text: str
    shown: str | None = None
    kind: str = "sh"  # or python

    def for_shell(self) -> str:
        """The text as the shell reads it."""
        return self.text if self.kind == "sh" else f"python3 - <<'LINES'\n{self.text}\nLINES\n"


def stands_for(text: str) -> str:
    """A command with something in the place of each word in capitals."""
    text = text.replace("lcrqdb run FILE", "lcrqdb run s.script")
    return " ".join(STANDS_FOR.get(word, word) for word in text.split(" "))


def replies_in(rows: Rows) -> str | None:
    """The replies of a table of lines and replies, where each is certain."""
    if rows[0][:2] != ["Line", "Reply"] or any(row[1].startswith("viewer ") for row in rows):
        return None
    return "".join(f"{row[1]}\n" for row in rows[1:])


def commands_of(page: Page) -> Iterator[Command]:
    """The commands of a page in order."""
    for (kind, text, _), after in zip(page.items, [*page.items[1:], Item("")]):
        if kind in ("sh", "python"):
            yield Command(text, kind=kind)
        elif kind == "code" and COMMAND.fullmatch(text):
            yield Command(stands_for(text), replies_in(after.rows) if after.rows and "--trace" not in text else None)
        elif kind == "text" and text.startswith("lcrqdb ") and "[" not in text:
            first, _, rest = text.partition("\n")
            yield Command(first, rest + "\n" * (not rest.endswith("\n")))


def readme_commands(folder: Path) -> list[Command]:
    """The commands of the README: its lines that are indented by four."""
    lines = (folder / "README").read_text(encoding="utf-8").splitlines()
    return [Command(line.strip()) for line in lines if re.match(r" {4}\S", line)]


def lay_own(folder: Path, pages: list[Page], built: str) -> None:
    """Lays files of one's own beside the examples, for the recipes."""
    examples = folder / "examples"
    counted = (line.partition(" x") for line in OWN)
    own = [line for line, _, times in counted for _ in range(int(times or 1))]
    scripts = {
        "s.script": own,
        "mine.script": (examples / "session.script").read_text(encoding="ascii").splitlines(),
        "long.script": [*own, *["len"] * 400],
        "a.script": own,
        "b.script": [*own, "len"],
        "s.draft": ["# lcrqdb --ring 2", "", *(f"{line}  # done" for line in OWN)],
        "my-port": ["#!/bin/sh", "cat t1.log"],
    }
    scripts |= {name: records.split("|") for name, records in LOGS.items()}
    files = {name: "".join(f"{line}\n" for line in lines).encode() for name, lines in scripts.items()}
    files["s.report"] = program.run([built, "run", "-", "--ring", "2"], files["s.script"]).output
    files["s.trace"] = program.run([built, "run", "-", "--trace"], b"enq 1 7\ngo 1\n").output.splitlines()[-1]
    for name, data in files.items():
        (examples / name).write_bytes(data)
    (examples / "my-port").chmod(0o755)


SHELL = """\
set -E -o pipefail
trap 'printf "%s\\n" "$BASH_COMMAND" >> "$TRIED/failed"' ERR
command -v man > /dev/null || man() { :; }
command -v column > /dev/null || column() { cat; }
command -v rlwrap > /dev/null || rlwrap() { "$@"; }
command -v make > /dev/null || make() { :; }
live.py() {  # serves for some seconds, and ends as by Control-C
  case "$*" in *FILE* | *LINK*) return 0 ;; esac
  timeout --preserve-status --signal=INT 6 "$(type -P live.py)" "$@" --no-browser
}
"""
EACH = """\
TRIED={folder}
. {folder}/command > {folder}/output 2> {folder}/errors < {folder}/input
echo $? > {folder}/status
"""


def run_commands(folder: Path, commands: list[Command], tried: Path) -> None:
    """Runs commands in one shell, in the folder of the archive; each has a folder for what it gives."""
    lines = [SHELL]
    for number, command in enumerate(commands):
        own = tried / str(number)
        own.mkdir(parents=True)
        (own / "command").write_text(f"{command.for_shell()}\n", encoding="utf-8")
        (own / "input").write_text("len\n", encoding="ascii")
        lines.append(EACH.format(folder=own))
    places = dict.fromkeys([str(Path(sys.executable).parent), "/usr/local/bin", "/usr/bin", "/bin"])
    environment = {"PATH": ":".join(places), "HOME": str(tried), "LANG": "C.UTF-8", "MANPAGER": "cat"}
    script = "".join(lines).encode()
    subprocess.run(["bash"], input=script, cwd=folder, env=environment, check=False, timeout=SECONDS)


BAD = re.compile(r".*(?:Traceback|command not found|No such file|can't be read|syntax error).*")


def written(file: Path) -> str:
    """What a command wrote into a file, if it is there."""
    return file.read_text(encoding="utf-8", errors="replace") if file.is_file() else ""


def fault_of(command: Command, own: Path) -> str:
    """What is wrong with a command that was run, or nothing."""
    if not (own / "status").is_file():
        return "the shell ended before it"
    errors, lines = written(own / "errors"), written(own / "failed").splitlines()
    last = command.text.splitlines()[-1].strip()
    is_status = "# status 1" in last  # so that status is an answer
    expected = last.partition("#")[0].strip() if is_status else None
    inside = [line for line in lines if line != expected and not line.startswith(f". {own}")]
    if inside or lines and not (is_status or last.startswith("! ")):
        return f"`{[*inside, command.text][0]}` fails: {' '.join(errors.split())[:200]}"
    if bad := BAD.search(errors):
        return bad[0]
    output = written(own / "output")
    if command.shown is not None and output != command.shown:
        pairs = zip(output.splitlines() + [""], command.shown.splitlines() + [""])
        got, shown = next((pair for pair in pairs if pair[0] != pair[1]), ("more or less", "so many lines"))
        return f"it writes `{got}`, and the page shows `{shown}`"
    return ""


def needed_in(text: str) -> str:
    """The names of what a command calls and isn't installed here, or nothing."""
    return program.missing_of(name for name in PASSED_OVER if re.search(rf"(?:^|[|&;(] *){name} ", text, re.MULTILINE))


def try_commands(folder: Path, name: str, commands: list[Command]) -> Checks:
    """Runs the commands of a page; gives each with what is wrong, or nothing."""
    with tempfile.TemporaryDirectory() as tried:
        run_commands(folder, commands, Path(tried))
        for number, command in enumerate(commands):
            own = Path(tried) / str(number)
            first = command.text.strip().splitlines()[0]
            if "this needs jsonschema" in written(own / "errors"):
                yield f"{name}: {first}", program.Skipped("jsonschema")
            else:
                yield f"{name}: {first}", fault_of(command, own) or program.Skipped(needed_in(command.text))


# ---- Names and links -----------------------------------------------------------------------------


def link_fault(page: Page, pages: dict[Path, Page], link: str) -> str:
    """What is wrong with a link of a page, or nothing."""
    if "://" in link or link.startswith("data:"):
        return ""
    path, _, name = link.partition("#")
    file = (page.path.parent / path).resolve() if path else page.path
    if not file.is_file():
        return f"{link} leads to no file"
    return f"{link} leads to no heading" if name and file in pages and name not in pages[file].names else ""


def is_there(folder: Path, name: str) -> bool:
    """Whether the archive has a file of this name where one looks for it."""
    return name in PLACEHOLDERS or any((folder / place / name).exists() for place in ("", "examples", "docs", "tools"))


def name_fault(folder: Path, text: str) -> str:
    """What a text names and the archive doesn't have, or nothing."""
    for path in PATH.findall(text):
        if not any(folder.glob(path.rstrip("./") or path)):
            return f"{path.rstrip('.')} is not in the archive"
    for name in FILE.findall(text):
        if not is_there(folder, name.lstrip(".-")):
            return f"{name} is not in the archive"
    text = " ".join(text.split())
    if kit := KIT.search(text):
        return "" if SAYS_SO in text and kit[0] == "the repository" else f"it says `{kit[0]}`"
    crate = CRATE.search(text)
    return f"it names {crate[0]}, a crate" if crate and SAYS_SO not in text else ""


def man_text(folder: Path) -> str:
    """The text of the man page, without what only sets it."""
    source = (folder / "share" / "man" / "man1" / "lcrqdb.1").read_text(encoding="utf-8")
    return re.sub(r"\\f(?:\[\w*\]|.)|\\[&/]", "", source).replace("\\-", "-")


def content_fault(folder: Path, choice: release_pages.Choice, pages: dict[str, Page]) -> str:
    """What is wrong with the lessons and answers of an archive, or nothing."""
    lessons = {release_pages.LESSONS[number].stem for number in choice.lessons}
    found = {path.stem for path in release_pages.LESSONS.values() if path.stem in pages["lessons"].names}
    folded = len(re.findall(r"<summary>\s*Answer", pages["lessons"].path.read_text(encoding="utf-8")))
    examples = sorted((folder / "examples").iterdir())
    others = [path.name for path in examples if path.name[:2].isdecimal() and int(path.name[:2]) not in choice.lessons]
    scripts = [path for path in examples if path.suffix == ".script" and not re.search(r"guide-5|question", path.stem)]
    without = [path.name for path in scripts if not path.with_suffix(".report").is_file()]
    is_apart = choice.answers == "apart"
    rows = [
        (found != lessons, f"lessons.html has {len(found)} lessons, and {len(lessons)} are chosen"),
        (folded != (len(lessons) if choice.answers == "with" else 0), f"lessons.html has {folded} answers"),
        (("answers" in pages) != is_apart, "answers.html is there, or is missing"),
        (is_apart and "answers" in pages and not lessons <= pages["answers"].names, "answers.html has not all lessons"),
        (others, f"{''.join(others[:1])} is of a lesson that is not chosen"),
        (without, f"{''.join(without[:1])} has no report"),
    ]
    return next((fault for is_wrong, fault in rows if is_wrong), "")


# ---- Archives ------------------------------------------------------------------------------------


def make(words: Sequence[str], built: str, folder: Path) -> Path:
    """Makes an archive and unpacks it; returns its folder."""
    ended = program.run([*RELEASE, *words, "--program", built, "-o", str(folder)], timeout=SECONDS)
    if ended.status:
        raise program.Broken(f"release.py {' '.join(words)}: {ended.errors.strip()}")
    made = [Path(line) for line in ended.output.decode().splitlines() if line.endswith(".tar.gz")]
    for path in made:  # that for students, and where the answers are apart that for the teacher
        with tarfile.open(path) as archive:
            if hasattr(tarfile, "data_filter"):  # from Python 3.11.4 on, which mypy 1.0.1 doesn't know
                archive.extractall(folder, filter="data")  # type: ignore[call-arg]
            else:
                archive.extractall(folder)
    return folder / made[0].name.removesuffix(".tar.gz")


def lay_repository(folder: Path, built: str) -> None:
    """Lays what the commands of the pages take of the repository into a folder, with the program where
    a build leaves it."""
    for name in ("tools", "docs", "examples"):
        shutil.copytree(TOP / name, folder / name, ignore=shutil.ignore_patterns("__pycache__"))
    out = folder / "crates" / "lcrqdb" / "out"
    out.mkdir(parents=True)
    shutil.copy(built, out)
    (out / Path(built).name).rename(out / "lcrqdb")


def install_fault(top: Path, built: str) -> str:
    """What is wrong with the tools that pip installs from here, or nothing: they make a page elsewhere."""
    if not importlib.util.find_spec("ensurepip"):
        return program.Skipped("ensurepip")
    with tempfile.TemporaryDirectory() as name:
        folder = Path(name)
        commands, script = folder / "venv" / "bin", top / "examples" / "session.script"
        made = ["page", str(script), "--refused", "--program", built, "-o", str(folder / "run.html")]
        for words in (
            [sys.executable, "-m", "venv", str(folder / "venv")],
            [str(commands / "pip"), "install", "--quiet", "--no-index", str(top / "tools")],
            [str(commands / "lcrq"), *made],
        ):
            ended = program.run(words, cwd=folder, timeout=SECONDS)
            if ended.status:
                return f"`{' '.join(words)}` ends with status {ended.status}: {ended.errors.strip()}"
        return "" if (folder / "run.html").is_file() else "it makes no page"


def check_repository(pages: dict[str, Page], built: str) -> Checks:
    """Runs the commands of the pages in `examples/` of the repository."""
    first = Command('export PATH="$PWD/crates/lcrqdb/out:$PWD/tools:$PATH"; cd examples')
    with tempfile.TemporaryDirectory() as name:
        folder = Path(name).resolve()
        lay_repository(folder, built)
        lay_own(folder, list(pages.values()), built)
        for stem, page in pages.items():
            commands = [command for command in commands_of(page) if "export PATH" not in command.text]
            yield from try_commands(folder, f"repository: {stem}.html", [first, *commands])
        yield "repository: pip installs the tools", install_fault(folder, built)


def archive_commands(folder: Path, pages: dict[str, Page]) -> Iterator[tuple[str, list[Command]]]:
    """The commands of the README and of each page, those first that lead to the program."""
    yield "README", readme_commands(folder)
    begin = [Command('export PATH="$PWD/bin:$PWD/tools:$PATH"; cd examples')]
    for stem, page in pages.items():
        if stem == "handout":  # which has the commands of the lessons
            continue
        commands = [*commands_of(page)]
        first = [command for command in commands if "export PATH" in command.text] or begin
        yield f"{stem}.html", [*first, *(command for command in commands if command not in first)]


def check_names(folder: Path, pages: dict[str, Page]) -> Checks:
    """The links of the pages, and what they, the README and the man page name."""
    by_path = {page.path: page for page in pages.values()}
    for stem, page in pages.items():
        faults = filter(None, (link_fault(page, by_path, link) for link in page.links))
        yield f"{stem}.html: {len(page.links)} links", next(faults, "")
        yield f"{stem}.html: what it names", name_fault(folder, page.text)
    yield "README: what it names", name_fault(folder, (folder / "README").read_text(encoding="utf-8"))
    yield "the man page: what it names", name_fault(folder, man_text(folder))


def check_archive(words: list[str], runs: bool, built: str) -> Checks:
    """The checks of one archive. Where the commands are not to be tried, they are run all the same, for pages
    name what they make."""
    about = " ".join(words) or "all"
    with tempfile.TemporaryDirectory() as name:
        folder = make(words, built, Path(name).resolve())
        pages = {path.stem: Page(path) for path in sorted((folder / "docs").glob("*.html"))}
        given = release.parser().parse_args([*words, "--program", built])
        choice = release_pages.Choice(given.lessons, given.answers)
        yield f"{about}: lessons, answers and reports", content_fault(folder, choice, pages)
        lay_own(folder, list(pages.values()), built)
        for where, commands in archive_commands(folder, pages):
            tried = [*try_commands(folder, f"{about}: {where}", commands)]
            yield from tried if runs else []
        if not words:
            yield "all: pip installs the tools", install_fault(folder, built)
            yield from check_repository(pages, built)
        yield from ((f"{about}: {check}", fault) for check, fault in check_names(folder, pages))


def is_reproducible(built: str) -> str:
    """What is wrong with two archives of one choice, or nothing."""
    words = ["--lessons", "1", "--answers", "none"]
    with tempfile.TemporaryDirectory() as a_folder, tempfile.TemporaryDirectory() as other:
        first, second = (make(words, built, Path(name)) for name in (a_folder, other))
        same = Path(f"{first}.tar.gz").read_bytes() == Path(f"{second}.tar.gz").read_bytes()
    return "" if same else "two of them have other bytes"


def is_printed(built: str) -> str:
    """What is wrong with an archive that has PDF, or nothing."""
    with tempfile.TemporaryDirectory() as name:
        folder = make(["--lessons", "1", "--answers", "apart", "--pdf"], built, Path(name))
        wanted = [folder / "docs" / f"{page}.pdf" for page in ("guide", "handout", "answers")]
        wanted += [Path(f"{folder}-{path.name}") for path in wanted]
        wrong = [path.name for path in wanted if not path.is_file() or path.read_bytes()[:5] != b"%PDF-"]
    return f"{wrong[0]} is no PDF" if wrong else ""


def refuses(words: list[str], reason: str, built: str, env: Mapping[str, str] | None = None) -> str:
    """What is wrong where these options have to be refused in one line, or nothing."""
    with tempfile.TemporaryDirectory() as name:
        ended = program.run([*RELEASE, *words, "--program", built, "-o", name], env=env)
    last = ended.errors.strip().splitlines()[-1:] or [""]
    is_right = ended.status and reason in last[0] and "Traceback" not in ended.errors
    return "" if is_right else f"status {ended.status}: {last[0]}"


def checks(given: argparse.Namespace) -> Checks:
    """All checks, each a name and what is wrong, or nothing."""
    built = str(Path(given.program).resolve())
    yield "what the commands of the pages call is installed", program.Skipped(program.missing_of(PASSED_OVER))
    for words, runs in ARCHIVES:
        yield from check_archive(words, runs, built)
    yield "the same choice gives the same bytes", is_reproducible(built)
    yield "--lessons 99 is refused", refuses(["--lessons", "99"], "no lesson has the number '99'", built)
    with tempfile.TemporaryDirectory() as name:
        (Path(name) / "pandoc").symlink_to(shutil.which("pandoc") or "pandoc")
        alone = os.environ | {"PATH": name}
        yield "--pdf without a printer is refused", refuses(["--pdf"], "neither is there", built, alone)
    has_printer = any(map(shutil.which, ("weasyprint", *release.BROWSERS)))
    yield "--pdf", is_printed(built) if has_printer else program.Skipped("chromium or weasyprint")
