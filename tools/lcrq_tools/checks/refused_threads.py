"""Views whose threads the system refuses: a viewer without a thread asks nothing.

`check.py views` calls this. No contract tells a started viewer from one whose thread was refused, so here the
system refuses all of them, by a limit on processes. Root is held to no such limit, so the program then runs as
nobody. Only Python's standard library is used.
"""

import os
import resource
import shutil
import subprocess
import tempfile
from pathlib import Path

from lcrq_tools import program
from lcrq_tools.checks.answers import differs
from lcrq_tools.program import Ended, Skipped

NOBODY = 65_534
SCRIPTS = {"first.script": b"enq 1 7\ngo 1\n", "second.script": b"deq 2\n"}
REFUSED = b"refused 20 NoMemory\n"
VIEWED = b"viewer 1\n" + REFUSED + b"viewer 2\n" + REFUSED + b"history 0\n"
TOLD = "".join(f"lcrqdb: viewer {viewer}: refused 20 NoMemory\n" for viewer in (1, 2))


class Unlimited(Exception):
    """Threads are not refused here."""


def refuse_threads() -> None:
    """Has the system refuse all threads to this process, and to the program that takes its place."""
    if os.geteuid() == 0:
        os.setgroups([])
        os.setgid(NOBODY)
        os.setuid(NOBODY)
    resource.setrlimit(resource.RLIMIT_NPROC, (0, 0))
    try:
        child = os.fork()
    except BlockingIOError:
        return
    if child == 0:
        os._exit(0)
    os.waitpid(child, 0)
    raise Unlimited


def fault(built: str) -> str:
    """What is wrong with views of two scripts, one after the other and live, without a thread, or nothing."""
    with tempfile.TemporaryDirectory() as name:
        folder = Path(name)
        folder.chmod(0o777)  # nobody writes the files of replies
        copy = folder / "lcrqdb"
        shutil.copy(built, copy)
        copy.chmod(0o755)
        for script, text in SCRIPTS.items():
            (folder / script).write_bytes(text)
        try:
            ends = [program.run([str(copy), *words, *SCRIPTS], cwd=folder, preexec_fn=refuse_threads)
                    for words in (["view"], ["view", "--live"])]
        except subprocess.SubprocessError:  # from `refuse_threads`
            return Skipped("a system that refuses threads")
        replies = [path.name for path in folder.glob("*.replies")]
    return (differs(ends[0], Ended(0, VIEWED, "")) or differs(ends[1], Ended(1, b"history 0\n", TOLD))
            or (f"{', '.join(replies)} written by a viewer without a thread" if replies else ""))
