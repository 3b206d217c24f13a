"""Runs lcrqdb at a terminal: a prompt with completion, sentences and help, for whoever tries runs by hand.

    python3 tools/prompt.py [SCRIPT] [--trace TRACE] [--actors A] [--ring R] [--program P]

Each line goes to the program, and its reply is shown with what it means. SCRIPT, a script or a draft, is run
first. An invalid line isn't sent: the prompt says what was expected. Beside the lines of a script there are
`help`, `where`, `queue`, `until A`, `go A xN`, `save FILE`, `open FILE` and `quit`. Control-C leaves the line, and
Control-D the prompt. If standard input is no terminal, each line is answered by its reply and a sentence.
Only Python's standard library is used.
"""

import argparse
import contextlib
import functools
import os
import re
import shutil
import signal
import sys
import tempfile
import textwrap
from collections.abc import Callable, Iterator, Sequence
from pathlib import Path

from lcrq_tools import entry, manual
from lcrq_tools.faults import FAULTS, Fault, Parser, text_of
from lcrq_tools.options import add_program, add_script, add_world, settled, start_words
from lcrq_tools.places import state_folder
from lcrq_tools.program import Driven, bytes_of, lines_of as lines_of_text, run, script_of
from lcrq_tools.records import Counts, all_of
from lcrq_tools.speak import board, completion, forms
from lcrq_tools.speak.teller import Spoken, Teller

MOST_STEPS = 1000  # of `until`
PLAIN_WIDTH = 80  # letters of a line where the terminal doesn't say
OWN = {
    "help": "lists the commands; `help go` says more of one",
    "where": "shows where each actor is, its next line of pseudo-code, and the place that it would touch",
    "queue": "draws the queue",
    "until": "`until 1` lets actor 1 go on until its call ends, or has a choice",
    "save": "saves the run: FILE ends with .script, .trace, .html or .svg",
    "open": "begins anew with a FILE: a .script, a .draft or a .trace",
    "quit": "ends the prompt, as Control-D does",
}
OPENED = (".script", ".draft", ".trace")  # how the names of files end that can be opened
SAVED_BY = {".html": "page.page", ".svg": "draw.picture"}  # the module that makes such a file of a script


# ---- The session ----------------------------------------------------------------------------------


class Session:
    """A run of the program, with the lines that it was given."""

    def __init__(self, program: str, arguments: argparse.Namespace) -> None:
        self.program, self.trace, self.lines = program, arguments.trace, list[str]()
        self.world = start_words(arguments.trace, arguments.actors, arguments.ring)
        self.driven = Driven([program, *self.world])
        self.teller = Teller(self.driven.ask_all)
        self.counts = Counts(len(self.teller.live), 0)
        self.actors = sum(1 for _ in all_of(self.driven.ask_all, "actor {}", 1))

    def close(self) -> None:
        """Ends the run."""
        self.driven.__exit__()

    def tell(self, line: str) -> Spoken:
        """Sends a line; returns its reply with what it means."""
        spoken = self.teller.tell(line)
        self.lines.append(line)
        self.counts = Counts.read(self.teller.ask("len"))
        return spoken

    def script(self) -> bytes:
        """All lines so far."""
        return script_of(self.lines)

    def twin(self) -> Driven:
        """Another run of the same lines."""
        twin = Driven([self.program, *self.world])
        for begin in range(0, len(self.lines), 256):
            twin.ask_all(self.lines[begin:begin + 256])
        return twin

    def trace_text(self) -> bytes:
        """The trace of the run."""
        ended = run([self.program, *self.world, "--trace"], self.script())
        if ended.status:
            raise Fault(ended.errors.strip())
        return ended.output.splitlines(keepends=True)[-1]

    def options(self) -> list[str]:
        """The options with which a tool runs its script."""
        return ["--program", self.program, *(["--trace", self.trace] if self.trace else self.world[2:])]


# ---- Completion -----------------------------------------------------------------------------------


def marks_of(session: Session) -> list[str]:
    """The bookmarks' names."""
    return [reply.split(" ")[1] for reply in all_of(session.driven.ask_all, "markat {}", 1)]


def known_of(session: Session) -> completion.Known:
    """What the run has that lines name."""
    segments = functools.partial(board.segments_of, session.driven.ask_all, session.actors)
    return completion.Known(session.actors, lambda: [*segments()], lambda: marks_of(session))


def completions(session: Session, before: str) -> list[str]:
    """What may come next behind the words of a line that are whole, the prompt's own ones too."""
    words = before.split()
    if not words or words == ["help"]:
        return [*forms.WORDS, *OWN]
    if words == ["until"]:
        return [str(actor) for actor in range(1, session.actors + 1)]
    if words[0] == "open":
        return sorted(path for path in os.listdir() if path.endswith(OPENED))
    return completion.completions(known_of(session), before)


def completed(session: Session, line: str, text: str) -> list[str]:
    """What the last word of a line, begun so, may become."""
    whole = line[: len(line) - len(text)]
    return [f"{word} " for word in completions(session, whole) if word.startswith(text)]


# ---- The prompt -----------------------------------------------------------------------------------


def meaning_of(word: str) -> Iterator[str]:
    """What the help says of a word."""
    if word in OWN:
        yield f"{word}: {OWN[word]}"
    for form in forms.forms_for([word]):
        yield f"{form:<14} {manual.MEANINGS[form]}"
    if word not in OWN and word not in forms.WORDS:
        yield forms.expected(word)


class Prompt:
    """What a person types lines at. Each command of its own is a method."""

    def __init__(self, program: str, arguments: argparse.Namespace, is_terminal: bool, is_fancy: bool = False) -> None:
        self.program, self.is_terminal = program, is_terminal
        self.session = Session(program, arguments)
        self.paint: board.Paint = board.in_colour if is_fancy else board.without_colour
        self.commands: dict[str, Callable[[str], object]] = {
            "help": self.help, "?": self.help, "where": self.where, "queue": self.queue, "until": self.until,
            "save": self.save, "open": self.open,
        }

    def text(self) -> str:
        """The prompt: how many steps are live and undone."""
        counts = self.session.counts
        return f"{counts.live} live{f', {counts.undone} undone' if counts.undone else ''}> "

    def show(self, spoken: Spoken) -> None:
        """Shows a reply, with what it means behind it or, where there is no room, below it."""
        width = shutil.get_terminal_size((PLAIN_WIDTH, 24)).columns
        if len(spoken.reply) + 2 + len(spoken.sentence) < width or not self.is_terminal:
            print(f"{spoken.reply}  {self.paint(spoken.sentence, board.DIM)}", flush=True)
            return
        print(spoken.reply)
        indent = "  "
        for line in textwrap.wrap(spoken.sentence, max(width - 1, 20), initial_indent=indent, subsequent_indent=indent):
            print(self.paint(line, board.DIM))

    def take(self, line: str) -> bool:
        """Does what a line says; returns whether the prompt goes on. What isn't from a terminal is sent as it is."""
        if self.is_terminal:
            line = " ".join(line.partition("#")[0].split())
        word, _, rest = line.partition(" ")
        if word in ("quit", "exit"):
            return False
        if word in self.commands:
            self.commands[word](rest)
            return True
        repeated = re.fullmatch(r"(.*) x([1-9][0-9]{0,4})", line)
        one, times = (repeated[1], int(repeated[2])) if repeated else (line, 1)
        if not self.is_terminal or forms.is_command(one):
            self.send(one, times)
        elif line:
            print(f"not sent: {forms.expected(one)}")
        return True

    def send(self, line: str, times: int) -> None:
        """Sends a line so many times, but no more after it is refused."""
        for _ in range(times):
            spoken = self.session.tell(line)
            self.show(spoken)
            if spoken.reply.startswith("refused "):
                return

    def run_script(self, lines: Sequence[str]) -> None:
        """Sends the lines of a script, and shows the last reply."""
        spoken = [self.session.tell(line) for line in lines]
        refused = sum(each.reply.startswith("refused ") for each in spoken)
        if spoken:
            print(f"{len(spoken)} lines are run, {refused or 'none'} refused. The last one: {spoken[-1].line}")
            self.show(spoken[-1])

    # The prompt's own commands.

    def help(self, word: str) -> None:
        """Lists all commands, or says what one of them does."""
        if word:
            print("\n".join(meaning_of(word)))
            return
        print("\n".join(f"{form:<16} {what}" for form, what in [*manual.MEANINGS.items(), *OWN.items()]))

    def where(self, _: str) -> None:
        """Shows where the actors are."""
        session = self.session
        with session.twin() as twin:
            print("\n".join(board.where_lines(twin.ask_all, session.counts.live, session.actors, self.paint)))

    def queue(self, _: str) -> None:
        """Draws the queue."""
        print("\n".join(board.queue_lines(self.session.driven.ask_all, self.session.actors, self.paint)))

    def until(self, actor: str) -> None:
        """Lets an actor go on until its call ends."""
        if not forms.is_command(line := f"go {actor}"):
            print("expected `until A`, as `until 1`")
            return
        for _ in range(MOST_STEPS):
            spoken = self.session.tell(line)
            self.show(spoken)
            if spoken.seen is None or spoken.seen.after.is_idle():
                return
        print(f"its call doesn't end in {MOST_STEPS} steps")

    def save(self, name: str) -> None:
        """Saves the run, as the ending of a name says."""
        path = Path(name)
        if path.suffix == ".script":
            path.write_bytes(self.session.script())
        elif path.suffix == ".trace":
            path.write_bytes(self.session.trace_text())
        elif path.suffix in SAVED_BY:
            self.save_drawn(name, SAVED_BY[path.suffix])
        else:
            raise Fault("expected `save FILE`, where FILE ends with .script, .trace, .html or .svg")
        print(f"saved {name}")

    def save_drawn(self, name: str, module: str) -> None:
        """Saves the page or the picture of the run, which a module makes."""
        with tempfile.TemporaryDirectory() as folder:
            script = Path(folder) / f"{Path(name).stem}.script"
            script.write_bytes(self.session.script())
            if status := entry.run("save", module, [str(script), "-o", name, "--refused", *self.session.options()]):
                raise Fault(f"{name} isn't made: status {status}")

    def open(self, name: str) -> None:
        """Begins anew with the run of a file."""
        session = Session(self.program, arguments_of(name))
        self.session.close()
        self.session = session
        if not name.endswith(".trace"):
            self.run_script(script_lines(name))


def script_lines(name: str) -> list[str]:
    """The lines of a script or a draft."""
    return lines_of_text(bytes_of(name).decode("latin-1"))


def arguments_of(name: str) -> argparse.Namespace:
    """With what a file is run: a trace over itself, a draft with its options, and a script over a fresh world."""
    if not Path(name).is_file():
        raise Fault(f"{name}: no such file")
    parser = Parser("")
    add_script(parser)
    add_world(parser)
    return settled(parser, ["--trace", name] if name.endswith(".trace") else [name])


# ---- The terminal ---------------------------------------------------------------------------------


@contextlib.contextmanager
def line_editing(prompt: Prompt) -> Iterator[None]:
    """Editing of lines, completion, and a history that is kept across sessions, where Python has `readline`."""
    try:
        import readline
    except ImportError:
        yield
        return
    found: list[str] = []

    def complete(text: str, number: int) -> str | None:
        if number == 0:
            found[:] = completed(prompt.session, readline.get_line_buffer()[: readline.get_endidx()], text)
        return found[number] if number < len(found) else None

    readline.set_completer(complete)
    readline.set_completer_delims(" ")
    readline.parse_and_bind("tab: complete")
    kept = state_folder() / "history"  # the lines of earlier sessions
    with contextlib.suppress(OSError):
        readline.read_history_file(kept)
    yield
    with contextlib.suppress(OSError):
        kept.parent.mkdir(parents=True, exist_ok=True)
        readline.write_history_file(kept)


def lines_of(prompt: Prompt) -> Iterator[str]:
    """The lines that are typed, or those of standard input. Control-C leaves a line, and Control-D ends them."""
    if not prompt.is_terminal:
        yield from (line.removesuffix("\n") for line in sys.stdin)
        return
    while True:
        try:
            yield input(prompt.text())
        except KeyboardInterrupt:
            print()
        except EOFError:
            print()
            return


def take_lines(prompt: Prompt) -> None:
    """Does what the lines say. While it does, Control-C is left alone: each line gets its reply."""
    for line in lines_of(prompt):
        before = signal.signal(signal.SIGINT, signal.SIG_IGN)
        try:
            if not prompt.take(line):
                return
        except FAULTS as fault:
            print(text_of(fault), flush=True)
        finally:
            signal.signal(signal.SIGINT, before)


def main() -> int:
    """Runs the prompt; returns the exit status."""
    parser = Parser(__doc__, "session.script")
    add_script(parser)
    add_world(parser)
    add_program(parser)
    arguments = settled(parser)
    is_terminal = sys.stdin.isatty() and sys.stdout.isatty()
    is_fancy = is_terminal and os.environ.get("TERM", "dumb") != "dumb" and "NO_COLOR" not in os.environ
    prompt = Prompt(arguments.program, arguments, is_terminal, is_fancy)
    if arguments.script:
        prompt.run_script(script_lines(arguments.script))
    if is_terminal:
        print("`help` lists the commands, Control-D ends.")
    with line_editing(prompt) if is_terminal else contextlib.nullcontext():
        take_lines(prompt)
    prompt.session.close()
    return 0
