"""Proves the crates that the program is made of, those that don't need each other side by side.

`quick_build.py --proved` calls this. `rt run` proves one crate after another, and most of a check has work
for fewer than two processors. Here the check of a crate begins when those that it uses are proved, the one
with the longest chain of crates above it first. If no check that has yet to begin has a longer one, it may use
all processors, else half of them, and the shorter its chain, the more it leaves them to the others (`nice`). A
chain is as long as its crates have lines. No proof rests on the order.

`rt` has one run at a time in the folders of a crate and of those below it, and reads a crate's files anew for each
path that leads to it in crates.txt. So this calls the checker itself, with the words that `rt ci` gives it. A library
has the statements that the crates above can cite, and no proofs, which take long to read. A crate that was proved
so before, with the same text above the same libraries, isn't proved again.
"""

import concurrent.futures
import functools
import hashlib
import os
import subprocess
import time
from collections.abc import Callable, Iterator
from pathlib import Path

from lcrq_tools.faults import Fault, say
from lcrq_tools.look.kit import kit
from lcrq_tools.places import CRATES, TOP

PROGRAM = "lcrqdb"
AT_ONCE = 3  # crates: with more, the longest chain gets less of the processors
LEAVES = 10  # the niceness of a check that others shall not wait for
SLACK = 0.25  # the part of the longest chain by which a chain has to be shorter for that niceness
SOURCES = ("src", "specs", "proofs")  # what of a crate is proved, in its folder
C_CODE = ("libos_c.a", "liblibc_c.a")  # the kit's, which programs are linked with
MADE = CRATES / PROGRAM / "out"  # where the program goes, as by `rt run`
LIBRARIES = MADE / "libraries"
Uses = dict[str, list[str]]  # of each crate of the repository, the crates and the kit's libraries that it uses
Proves = Callable[[str, int], int]  # a crate, by its name, at this niceness: the exit status


def uses_in(text: str) -> Uses:
    """What crates.txt says that each crate uses."""
    rows = (row.partition(":") for row in text.splitlines() if row.strip())
    return {name.split()[0]: used.split() for name, _, used in rows}


def needed(uses: Uses, name: str) -> Uses:
    """What a crate and those of the repository below it use."""
    found: Uses = {}
    waiting = [name]
    while waiting:
        crate = waiting.pop()
        if crate in uses and crate not in found:
            found[crate] = uses[crate]
            waiting += uses[crate]
    return found


def sources_of(name: str) -> Iterator[Path]:
    """The files of a crate that are proved, in a fixed order."""
    for folder in SOURCES:
        yield from sorted(path for path in (CRATES / name / folder).rglob("*") if path.is_file())


def heights(lines: dict[str, int], uses: Uses) -> dict[str, int]:
    """Of each crate, how many lines the longest chain from it upwards has."""
    found: dict[str, int] = {}

    def height(name: str) -> int:
        if name not in found:
            found[name] = lines[name] + max((height(above) for above, used in uses.items() if name in used), default=0)
        return found[name]

    return {name: height(name) for name in uses}


def niceness_of(chain: int, longest: int) -> int:
    """The niceness of the check of a crate with a chain of so many lines, beside one with the longest chain."""
    return min(LEAVES, round(LEAVES * (longest - chain) / (SLACK * longest)))


def words_of(uses: Uses, name: str, jobs: int) -> list[str]:
    """The words that have `rattle` build a crate over the libraries that were made of those below it."""
    home = kit().parent
    words = ["--crate-name", name, "src/main.rt" if name == PROGRAM else "src/lib.rt", "--links", f"{name}="]
    for used in ["std", *uses[name]]:
        words += ["--extern", f"{used}={LIBRARIES if used in uses else home / 'rlibs'}/{used}.rlib"]
    words += ["-L", f"dependency={home}/rlibs", "-L", f"dependency={LIBRARIES}", "--jobs", str(jobs)]
    words += ["--antt-project", f"{kit()}/logic/antt-project.json", "--logic-built", f"{home}/logic_built"]
    if name == PROGRAM:
        return [*words, "--toolchain", f"{home}/toolchain", "-o", f"{MADE}/{name}.o"]
    return [*words, "--statements", "-o", f"{LIBRARIES}/{name}.rlib"]


def link_words() -> list[str]:
    """The words that have `rattle-link` make the program of what was built."""
    home = kit().parent
    words = ["--target", "x86_64-unknown-linux-gnu", "--toolchain", f"{home}/toolchain", "-o", f"{MADE}/{PROGRAM}"]
    return [*words, f"{MADE}/{PROGRAM}.o", *(f"{home}/c/{name}" for name in C_CODE)]


def sum_of(uses: Uses, name: str) -> str:
    """The sum of all that a crate is proved from: the checker, the sums of the crates below it, and its files."""
    sums = [(LIBRARIES / f"{used}.sum").read_text() for used in uses[name] if used in uses]
    found = hashlib.sha256(repr([(kit().parent / "KIT-ID").read_text(), uses[name], sums]).encode())
    for path in sources_of(name):
        found.update(repr((str(path.relative_to(CRATES)), path.read_bytes())).encode())
    return found.hexdigest()


def ran(tool: str, words: list[str], name: str, niceness: int = 0) -> int:
    """The exit status of a tool of the kit in a crate's folder. If it fails, what it says goes to standard error, but
    not what is proved."""
    command = ["nice", "-n", str(niceness), str(kit().parent / "bin" / tool), *words]
    ended = subprocess.run(
        command, cwd=CRATES / name, stdout=subprocess.PIPE, stderr=subprocess.STDOUT, text=True, check=False
    )
    if ended.returncode:
        say("\n".join(line for line in ended.stdout.splitlines() if not line.endswith(": proved")))
    return ended.returncode


def prove(uses: Uses, name: str, niceness: int) -> int:
    """Has a library or the program proved and built; not a library that was so before."""
    kept, proved_from = LIBRARIES / f"{name}.sum", sum_of(uses, name)
    if name != PROGRAM and kept.is_file() and kept.read_text() == proved_from:
        return 0
    kept.unlink(missing_ok=True)
    processors = os.cpu_count() or 1
    words = words_of(uses, name, max(1, processors // 2) if niceness else processors)
    status = ran("rattle", ["build", *words], name, niceness)
    if not status and name == PROGRAM:
        status = ran("rattle-link", link_words(), name)
    if not status and sum_of(uses, name) != proved_from:
        say(f"{name}: a file was changed meanwhile")
        return 1
    if not status:
        kept.write_text(proved_from)
    return status


def prove_in_turn(chains: dict[str, int], uses: Uses, proves: Proves, at_once: int = AT_ONCE) -> None:
    """Proves each crate when those that it uses are proved. Where one isn't, none is begun after it."""
    order = sorted(uses, key=lambda name: -chains[name])
    proved: set[str] = set()
    running: dict[concurrent.futures.Future[int], str] = {}
    begun: dict[str, float] = {}
    with concurrent.futures.ThreadPoolExecutor(at_once) as pool:
        while len(proved) < len(uses):
            waiting = [name for name in order if name not in begun]
            longest = max((chains[name] for name in waiting), default=0)
            ready = [name for name in waiting if proved.issuperset(set(uses[name]) & set(uses))]
            for name in ready[: at_once - len(running)]:
                begun[name] = time.monotonic()
                running[pool.submit(proves, name, niceness_of(chains[name], longest))] = name
            for ended in concurrent.futures.wait(running, return_when=concurrent.futures.FIRST_COMPLETED).done:
                name = running.pop(ended)
                if ended.result():
                    raise Fault(f"{name} is not proved")
                proved.add(name)
                say(f"{name}: proved in {time.monotonic() - begun[name]:.0f} s, {len(proved)} of {len(uses)}")


def build() -> Path:
    """Proves the program and its libraries, and builds it; returns where it is."""
    uses = needed(uses_in((TOP / "crates.txt").read_text(encoding="utf-8")), PROGRAM)
    LIBRARIES.mkdir(parents=True, exist_ok=True)
    lines = {name: sum(len(path.read_bytes().splitlines()) for path in sources_of(name)) for name in uses}
    prove_in_turn(heights(lines, uses), uses, functools.partial(prove, uses))
    return MADE / PROGRAM
