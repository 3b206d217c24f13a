"""Types at `tools/prompt.py` in a terminal and compares what it shows with what it should: run by the gate.

    python3 tools/check.py prompt [--program P]

The terminal is one of Python's `pty`: keys go in, and what the screen gets is read. Tried are replies with their
sentences, slips, keys, completion, each word that is the prompt's own, a narrow window, a terminal without colours,
a history from session to session, and standard input that is a pipe. Where `tmux` is there, a session in it shows
the same. Each row prints a line; the status is 1 if one is wrong. Only Python's standard library is used.
"""

import argparse
import contextlib
import fcntl
import os
import pty
import re
import select
import shutil
import struct
import subprocess
import sys
import tempfile
import termios
import time
from collections.abc import Callable, Iterator, Sequence
from contextlib import AbstractContextManager
from pathlib import Path

from lcrq_tools import program
from lcrq_tools.program import EXAMPLES, TOP, Broken, Skipped, tried

SECONDS = 30.0  # after which what the screen doesn't show is wrong
SETTLES = 0.3  # seconds: Python sees a Control-C only at the next key if it comes while a key is taken
UP, LEFT, DELETE, ENTER, TAB, STOP, END = "\033[A", "\033[D", "\x7f", "\r", "\t", "\x03", "\x04"
CODES = re.compile(r"\033\[[0-9;?]*[a-zA-Z]|\033[=>]|\a|\x0f")
CALL = ["enq 1 7", "go 1 x3"]


class Terminal(AbstractContextManager["Terminal"]):
    """The prompt in a terminal of its own. It is killed at the end."""

    def __init__(self, words: Sequence[str], folder: str, columns: int = 100, kind: str = "xterm") -> None:
        self.screen, inside = pty.openpty()
        fcntl.ioctl(inside, termios.TIOCSWINSZ, struct.pack("HHHH", 40, columns, 0, 0))
        env = {**os.environ, "TERM": kind, "HOME": folder, "XDG_STATE_HOME": folder}
        for name in ("COLUMNS", "LINES", "NO_COLOR", "INPUTRC"):
            env.pop(name, None)
        self.child = subprocess.Popen(words, stdin=inside, stdout=inside, stderr=inside, env=env, cwd=folder,
                                      start_new_session=True, preexec_fn=lambda: fcntl.ioctl(0, termios.TIOCSCTTY, 0))
        os.close(inside)
        self.raw = ""

    def __exit__(self, *_: object) -> None:
        self.child.kill()
        self.child.wait()
        os.close(self.screen)

    def read(self) -> bool:
        """Reads what is there; returns whether the terminal is still open."""
        if not select.select([self.screen], [], [], SECONDS)[0]:
            raise Broken(f"nothing comes behind {self.text()[-200:]!r}")
        try:
            piece = os.read(self.screen, 1 << 16)
        except OSError:  # the other end is closed
            return False
        self.raw += piece.decode(errors="replace")
        return bool(piece)

    def text(self) -> str:
        """What was shown, without colours and other codes."""
        return CODES.sub("", self.raw).replace("\r", "")

    def until(self, wanted: str, begin: int = 0) -> str:
        """What is shown from here on, once this is there."""
        while wanted not in self.text()[begin:]:
            if not self.read():
                raise Broken(f"ended without {wanted!r}, behind {self.text()[begin:]!r}")
        return self.text()[begin:]

    def type(self, keys: str, wanted: str = "> ") -> str:
        """Presses keys; returns what is shown, once this is there."""
        begin = len(self.text())
        os.write(self.screen, keys.encode())
        return self.until(wanted, begin)

    def enter(self, line: str, wanted: str = "") -> str:
        """Types a line; returns what is shown up to the next prompt."""
        shown = self.type(line + ENTER, wanted or "\n")
        begin = len(self.text()) - len(shown)
        return self.until("> ", begin + shown.rindex(wanted or "\n") + 1) and self.text()[begin:]

    def end(self, keys: str) -> int:
        """Presses keys that end the prompt; returns its status."""
        os.write(self.screen, keys.encode())
        while self.read():
            pass
        return self.child.wait(SECONDS)


@contextlib.contextmanager
def at_prompt(path: str, *options: str, columns: int = 100, kind: str = "xterm") -> Iterator[Terminal]:
    """The prompt, once it is there, in a folder of its own."""
    with tempfile.TemporaryDirectory() as folder:
        with opened(path, folder, *options, columns=columns, kind=kind) as shown:
            yield shown


def opened(path: str, folder: str, *options: str, columns: int = 100, kind: str = "xterm") -> Terminal:
    """The prompt, once it is there, in this folder."""
    script = str(TOP / "tools" / "prompt.py")
    shown = Terminal([sys.executable, script, "--program", path, *options], folder, columns, kind)
    shown.until("> ")
    return shown


def lacks(shown: str, *wanted: str) -> str:
    """What isn't shown of what should be, or nothing."""
    missing = [text for text in wanted if text not in shown]
    return f"{missing} isn't in {shown!r}" if missing else ""


# ---- Rows -----------------------------------------------------------------------------------------

Typed = tuple[str, str, tuple[str, ...]]  # a line, what is waited for behind it, and what is shown up to the next prompt
# What is typed at a prompt with these options, and what it shows.
TYPED: dict[str, tuple[list[str], list[Typed]]] = {
    "Each reply comes with its sentence, behind a prompt that counts": ([], [
        ("enq 1 7", "", ("ok 1  begins to enqueue 7", "1 live> ")),
        ("go 1", "", ("ok 2  E1: reads the queue's tail: 0.0", "2 live> ")),
        ("undo", "", ("at 1 1  takes back step 2", "1 live, 1 undone> ")),
    ]),
    "Arrows move in a line and recall the one before, and a letter is taken back": ([], [
        ("enq 1 7", "", ()), (f"gx{DELETE} 1{LEFT}{LEFT}o", "ok 2", ("ok 2",)), (UP, "ok 3", ("ok 3",)),
    ]),
    "`help` and `?` list the commands, and `help WORD` says more": ([], [
        ("help", "queue", ("enq A X", "markat I", "until", "save")), ("?", "queue", ("enq A X", "markat I")),
        ("help go", "next atomic step", ("go A",)),
    ]),
    "`where` shows the actors, and `queue` the queue, also with undone steps, which stay": ([], [
        *((line, "", ()) for line in (*CALL, "undo")),
        ("where", "actor 4", (
            "actor 1 is at E4 of `enq 7`, would write the tail of ring 0.0", "which grows by 1",
        )),
        ("queue", "no value", ("0.0  head 0  tail 0  QHead  QTail", "index  0  1  2  3")),
        ("len", "at 3 1", ("at 3 1",)),
    ]),
    "A count repeats a line, and `until` goes on to the end of a call": ([], [
        (CALL[0], "", ()), (CALL[1], "ok 4", ("ok 4",)), ("until 1", "ok 7 enqueued", ("ok 7 enqueued",)),
        ("until 1", "refused 3 Idle", ("actor 1 is in no call",)), ("until", "expected `until A`", ()),
    ]),
    "The options of a world are what the session begins with": (["--ring", "2", "--actors", "2"], [
        ("show cell 0.0 2", "", ("NoSuchPlace",)), ("deq 3", "", ("there is no actor 3",)),
    ]),
}


def typed_fault(options: Sequence[str], lines: Sequence[Typed], path: str) -> str:
    """What isn't shown of what should be where these lines are typed, or nothing."""
    with at_prompt(path, *options) as terminal:
        return next(filter(None, (lacks(terminal.enter(line, wait), *shown) for line, wait, shown in lines)), "")


def slips(path: str) -> str:
    """A slip isn't sent, and the prompt says what was meant."""
    said = {"go1": "did you mean `go 1`?", "Go 1": "did you mean `go 1`?", "enq 1": "expected `enq A X`, as `enq 1 7`",
            "undoo 3": "did you mean `undo 3`?", "cell 0.0 0": "did you mean `show cell 0.0 0`?", "foo": "`help` lists"}
    with at_prompt(path) as terminal:
        wrong = [lacks(terminal.enter(line), f"not sent: {'' if text[0] in 'de' else 'no command'}", text, "0 live> ")
                 for line, text in said.items()]
        return next(filter(None, wrong), "") or lacks(terminal.enter("len"), "at 0 0")


def completion(path: str) -> str:
    """Tab completes words, actors, places that are there and bookmarks."""
    with at_prompt(path) as terminal:
        shown = terminal.enter(f"or{TAB}1", "refused 12") + terminal.enter("enq 4 1") + terminal.enter("go 4")
        shown += terminal.enter("mark here") + terminal.enter(f"goto h{TAB}", "goes to bookmark here")
        shown += terminal.enter(f"show ta{TAB}0{TAB}", "the tail of ring 0.0 is open, at 0")
        both = terminal.type(f"deq {TAB}{TAB}", "4")
    return lacks(shown, "goes to bookmark here", "the tail of ring 0.0") or lacks(both, "1", "2", "3", "4")


def leaving(path: str) -> str:
    """Control-C leaves the line and never the session; Control-D and `quit` end the prompt."""
    with at_prompt(path) as terminal:
        terminal.enter("enq 1 7")
        terminal.type("go 1", "go 1")
        time.sleep(SETTLES)
        terminal.type(STOP, "1 live> ")
        shown, status = terminal.enter("len"), terminal.end(END)
    with at_prompt(path) as terminal:
        both = (status, terminal.end(f"quit{ENTER}"))
    return lacks(shown, "at 1 0") or ("" if both == (0, 0) else f"statuses {both}")


def saving(path: str) -> str:
    """`save` writes a script, a trace, a page and a picture, and `open` begins anew with a file."""
    begins = {"script": "enq 1 7\n", "trace": '{"events"', "html": "<!DOCTYPE html>", "svg": "<svg "}
    with tempfile.TemporaryDirectory() as folder, opened(path, folder) as terminal:
        for line in CALL:
            terminal.enter(line)
        for ending in begins:
            terminal.enter(f"save r.{ending}", f"saved r.{ending}")
        texts = {name: (Path(folder) / f"r.{name}").read_text() for name in begins}
        wrong = [name for name, begin in begins.items() if not texts[name].startswith(begin)]
        shown = terminal.enter("open r.script", "4 live> ") + terminal.enter("open r.trace", "4 live> ")
        shown += terminal.enter("save r", "expected")
        lost = terminal.enter("open none.script", "no such file")
    return f"no {wrong}" if wrong else lacks(shown + lost, "expected `save FILE`", "none.script: no such file")


def narrow(path: str) -> str:
    """In a narrow window no line is wider than it."""
    with at_prompt(path, columns=40) as terminal:
        shown = "".join(terminal.enter(line) for line in ("enq 1 7", "go 1", "go 1", "go 1"))
    wide = [line for line in shown.splitlines() if len(line) > 40]
    return f"too wide: {wide}" if wide else lacks(" ".join(shown.split()), "E4: adds 1 to the tail of ring 0.0")


def plain(path: str) -> str:
    """A terminal without colours gets none, and another one gets sentences that are dim."""
    with at_prompt(path, kind="dumb") as terminal:
        terminal.enter("enq 1 7")
        dumb = terminal.raw
    with at_prompt(path) as terminal:
        terminal.enter("enq 1 7", "enqueue 7")
        dim = terminal.raw
    return "colours" if "\033[2m" in dumb else lacks(dim, "\033[2mbegins to enqueue 7\033[0m")


def remembering(path: str) -> str:
    """The lines of a session are there in the next one."""
    with tempfile.TemporaryDirectory() as folder:
        with opened(path, folder) as terminal:
            terminal.enter("deq 3")
            terminal.end(END)
        with opened(path, folder) as terminal:
            return lacks(terminal.enter(UP, "ok 1"), "begins to dequeue")


def beginning(path: str) -> str:
    """A script is what the session begins with."""
    with at_prompt(path, str(EXAMPLES / "session.script")) as terminal:
        return lacks(terminal.text(), "19 lines are run, 1 refused", "14 live> ")


def piped(path: str) -> str:
    """A pipe gets the replies of `run -`, each with its sentence."""
    script = (EXAMPLES / "session.script").read_bytes() + b"go1\n\n"
    prompt = program.run([sys.executable, str(TOP / "tools" / "prompt.py"), "--program", path], script)
    replies = program.run([path, "run", "-"], script).output.decode().splitlines()
    lines = prompt.output.decode().splitlines()
    pairs = [(line, reply) for line, reply in zip(lines, replies) if not line.startswith(f"{reply}  ")]
    return f"{pairs[0]}" if pairs else "" if len(lines) == len(replies) else f"{len(lines)} lines"


def in_tmux(path: str) -> str:
    """The same in a terminal that people use."""
    if not shutil.which("tmux"):
        return Skipped("tmux")
    words = [sys.executable, str(TOP / "tools" / "prompt.py"), "--program", path]
    with tempfile.TemporaryDirectory() as folder:
        server = ["tmux", "-L", Path(folder).name, "-f", "/dev/null"]
        env = {**os.environ, "TERM": "xterm", "XDG_STATE_HOME": folder, "LC_ALL": "C.UTF-8"}

        def tmux(*given: str) -> str:
            return subprocess.run([*server, *given], env=env, capture_output=True, text=True, check=False).stdout

        tmux("new-session", "-d", "-x", "100", "-y", "30", *words)
        try:
            return typed(tmux)
        finally:
            tmux("kill-server")


def typed(tmux: Callable[..., str]) -> str:
    """What is wrong with a call that is typed in a terminal of tmux, or nothing."""
    keys: list[list[str]] = [["enq 1 7", "Enter"], ["go 1", "Enter"], ["Up", "Enter"], ["go1", "Enter"]]
    wanted = ["0 live> ", "1 live> ", "2 live> ", "3 live> ", "not sent: did you mean `go 1`?"]
    end = time.monotonic() + SECONDS
    for number, text in enumerate(wanted):
        while text.strip() not in (shown := tmux("capture-pane", "-p")):
            if time.monotonic() > end:
                return f"{text!r} isn't in {shown!r}"
            time.sleep(0.05)
        for key in keys[number] if number < len(keys) else []:
            tmux("send-keys", key)
    return lacks(tmux("capture-pane", "-p"), "E1: reads the queue's tail: 0.0", "E2: reads which segment follows 0.0")


ROWS = (slips, completion, leaving, saving, narrow, plain, remembering, beginning, piped, in_tmux)


def checks(arguments: argparse.Namespace) -> Iterator[tuple[str, str]]:
    """All rows, each with what is wrong, or nothing."""
    for name, (options, lines) in TYPED.items():
        yield name, tried(typed_fault, options, lines, arguments.program)
    for row in ROWS:
        yield (row.__doc__ or "").rstrip("."), tried(row, arguments.program)
