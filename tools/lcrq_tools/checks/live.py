"""Lets clients, some of them hostile, talk to `view --live` at once, and replays the history by `run`.

    python3 tools/check.py live [--program P]

A client writes the lines of its viewer into a named pipe and reads the replies from another one; it
awaits each reply before it writes the next line. In some rows a client leaves in the middle of a line
or is killed there, stops reading, comes late, or writes a line of 100,000 bytes; or a viewer's file
is a plain one, a folder, or isn't there. The other clients ask their whole scripts meanwhile. A row is
right if

- the history, which `--history` writes, has of each viewer its lines without the faulty ones, in
  their order, and no other call; of a client that left, it may have only the first ones;
- each reply has the number of its call in the history, and is what `run`, or `load` over the trace of
  `--start`, replies to the history as a script; a faulty line gets a hyphen and its refusal;
- no call stands before one that was answered before it was asked;
- the trace that `--trace` writes is that of this run, byte for byte, and `load` writes it again;
- standard error names the viewers' faults in the order of the viewers, and the status is 1 if there
  are any.

Each row prints one line for each build of the program; the status is 1 if one of them is wrong. What
doesn't come in a minute is wrong. Linux and Python's standard library are all that is needed.
"""

import functools
import os
import random
import tempfile
from collections.abc import Callable, Iterator, Mapping, Sequence
from enum import Enum, auto
from pathlib import Path
from typing import NamedTuple

from lcrq_tools import history, program
from lcrq_tools.checks import histories, replies
from lcrq_tools.checks.random_scripts import random_script, written_script
from lcrq_tools.checks.replies import TRACE
from lcrq_tools.checks.histories import HISTORY, Machine, difference
from lcrq_tools.clients import Client, Dialogue, Live, ask_until_full, finish, piped, replies_of, serve, talk
from lcrq_tools.faults import Fault
from lcrq_tools.history import History
from lcrq_tools.program import Broken

READ, WRITE = "24 Read", "25 Write"
SHARED = "lcrqdb: no two viewers of --live can share a file\n"
NO_CALL = "-"  # the number of a line that is no call
LONG = "x" * 100_000  # a line
KEPT = "at 7 7\n"  # what a file of replies may have had before
HALF = 50  # so many lines are asked before something happens
BROKEN = "enq 1 7"  # what is written of `enq 1 77`

# A client in a process of its own: it hands each line to the viewer, and the reply back. Before it writes a last line
# that lacks its line feed, it closes the pipe of the replies, since a killed process closes its files in any order.
# Then it says by an empty line that it has done so, and waits.
RELAY = """exec 4>"$0" 3<"$0.replies"
while IFS= read -r line; do printf '%s\\n' "$line" >&4; IFS= read -r reply <&3; printf '%s\\n' "$reply"; done
exec 3<&-; printf %s "$line" >&4; echo; exec sleep 600"""


# ---- What is wrong -------------------------------------------------------------------------------


def dialogue_fault(viewer: int, dialogue: Dialogue, asked: History, answers: Sequence[str]) -> str:
    """What is wrong with the calls of a viewer in this history, or with its replies, or nothing."""
    numbered = [f"{number} {answer}" for number, answer in enumerate(answers, 1)]
    wanted = histories.replies_to(viewer, dialogue.lines, asked, numbered, f"{NO_CALL} ")
    wanted = wanted[:len(dialogue.replies)] if dialogue.is_cut else wanted
    fault = histories.calls_fault(viewer, dialogue.lines, asked, dialogue.is_cut)
    return fault or difference(f"viewer {viewer}: reply", dialogue.replies, wanted)


def order_fault(dialogues: Sequence[Dialogue]) -> str:
    """Which call stands before one that was answered before it was asked, or nothing."""
    rows = (row for dialogue in dialogues for row in zip(dialogue.replies, dialogue.begun, dialogue.came))
    calls = ((int(reply.split(" ")[0]), begun, came) for reply, begun, came in rows if reply[0] != NO_CALL)
    last, latest = 0, 0.0  # of the calls so far, the one that was asked last, and when that was
    for number, begun, came in sorted(calls):
        if came < latest:
            return f"call {last} was asked when call {number} had been answered"
        last, latest = (number, begun) if begun > latest else (last, latest)
    return ""


def trace_fault(got: str, wanted: str) -> str:
    """Where a trace first differs from the one that is wanted, or nothing."""
    at = len(os.path.commonprefix([got, wanted]))
    shown, other = history.shown(got[at:]), history.shown(wanted[at:])
    return "" if got == wanted else f"the trace has `{shown}` at byte {at}, wanted `{other}`"


def faults_of(text: str, dialogues: Sequence[Dialogue], replay: list[str]) -> Iterator[str]:
    """What is wrong with the text that `--history --trace` writes, and with the dialogues, where these
    words replay a history. Each fault is a text, which may be empty."""
    asked, lines = history.history_of("the output", text), program.lines_of(text)
    yield difference("line", lines[:1], [f"history {len(asked.lines)}"])
    *answers, trace = histories.answers_to(replay, asked)
    strangers = [viewer for viewer in asked.viewers if viewer > len(dialogues)]
    yield f"a call is of viewer {strangers[0]}, and there are {len(dialogues)}" if strangers else ""
    yield from (dialogue_fault(viewer, dialogue, asked, answers) for viewer, dialogue in enumerate(dialogues, 1))
    yield order_fault(dialogues)
    yield trace_fault(lines[-1], trace) or ("" if text.endswith("\n") else "the output lacks its last line feed")


# ---- A scene -------------------------------------------------------------------------------------


class Kind(Enum):
    """What is in the place of a viewer's two named pipes."""

    PLAIN = auto()  # a plain file; the program makes that of its replies
    APPENDED = auto()  # the same, and a file that has a reply
    NO_FILE = auto()
    FOLDER = auto()
    FOLDER_FOR_REPLIES = auto()  # behind a plain file: the viewer asks nothing


# The faults of a viewer by what it finds.
REFUSED = {Kind.NO_FILE: READ, Kind.FOLDER: READ, Kind.FOLDER_FOR_REPLIES: WRITE}


def plain_dialogue(file: Path, script: Sequence[str], kept: str) -> Dialogue:
    """What the viewer of a plain file was asked, and what is behind this text in the file of its
    replies."""
    text = replies_of(file).read_text(encoding="latin-1")
    if not text.startswith(kept) or not text.endswith("\n"):
        raise Fault(f"{replies_of(file).name} doesn't begin with `{kept.strip()}`, or ends within a line")
    return Dialogue(script, program.lines_of(text.removeprefix(kept)))


class Scene:
    """Viewers with random scripts, each at two named pipes where it has no files of another kind."""

    live: Live  # once the program has started

    def __init__(
        self, folder: Path, machine: Machine, scripts: Sequence[list[str]], kinds: Mapping[int, Kind]
    ) -> None:
        self.folder, self.machine, self.scripts = folder, machine, scripts
        self.files = [folder / f"viewer-{viewer}" for viewer in range(1, len(scripts) + 1)]
        self.at_pipes = [viewer for viewer in range(1, len(scripts) + 1) if viewer not in kinds]
        self.refused = {viewer: REFUSED[kind] for viewer, kind in kinds.items() if kind in REFUSED}
        self.dialogues: dict[int, Callable[[], Dialogue]] = {}  # what gives them at the end
        for viewer in self.at_pipes:
            os.mkfifo(self.files[viewer - 1])
            os.mkfifo(replies_of(self.files[viewer - 1]))
        for viewer, kind in kinds.items():
            self.lay_out(viewer, kind)

    def lay_out(self, viewer: int, kind: Kind) -> None:
        """Makes the files of a viewer that is not at pipes."""
        file, script = self.files[viewer - 1], self.scripts[viewer - 1]
        if kind is Kind.FOLDER:
            file.mkdir()
        elif kind is not Kind.NO_FILE:
            written_script(file, script)
        if kind is Kind.FOLDER_FOR_REPLIES:
            replies_of(file).mkdir()
        if kind is Kind.APPENDED:
            replies_of(file).write_text(KEPT, encoding="ascii")
        if kind not in REFUSED:
            kept = KEPT if kind is Kind.APPENDED else ""
            self.dialogues[viewer] = functools.partial(plain_dialogue, file, script, kept)

    def words(self) -> list[str]:
        """The words that view all files."""
        files = map(str, self.files)
        return [self.machine.built, "view", "--live", *files, *self.machine.options(), HISTORY, TRACE]

    def clients(self, viewers: Sequence[int] = ()) -> list[Client]:
        """The clients of these viewers, or of all that are at pipes."""
        return [self.client(viewer) for viewer in viewers or self.at_pipes]

    def client(self, viewer: int) -> Client:
        """The client of a viewer."""
        client = self.live.client(f"viewer {viewer}", self.files[viewer - 1], self.scripts[viewer - 1])
        self.dialogues[viewer] = client.dialogue
        return client

    def fault(self) -> str:
        """What is wrong with the end of the program, or nothing."""
        ended = self.live.end()
        said = (f"lcrqdb: viewer {viewer}: refused {why}\n" for viewer, why in sorted(self.refused.items()))
        wanted = (1 if self.refused else 0, "".join(said))
        if (ended.status, ended.errors) != wanted:
            return f"it ends with {(ended.status, ended.errors)!r}, wanted {wanted!r}"
        # a viewer whose file or replies can't be opened has an empty dialogue
        dialogues = [self.dialogues.get(viewer, Dialogue)() for viewer in range(1, len(self.scripts) + 1)]
        text = ended.output.decode("latin-1")
        if fault := next(filter(None, faults_of(text, dialogues, self.machine.replay())), ""):
            return fault
        trace = program.lines_of(text)[-1]
        name = written_script(self.folder / "left.trace", [trace])
        fault = trace_fault("\n".join(replies.written([self.machine.built, "load", name, TRACE])), trace)
        return f"loaded, {fault}" if fault else ""


# ---- What the clients do -------------------------------------------------------------------------


def all_ask(scene: Scene) -> None:
    """All clients ask their whole scripts."""
    finish(scene.clients())


def ask_long_line(scene: Scene) -> None:
    """All clients ask their whole scripts, one with a line that is far too long."""
    scene.scripts[0][HALF] = LONG
    all_ask(scene)


def break_off(scene: Scene) -> None:
    """The first client leaves in the middle of a line; what is there of it is obeyed."""
    first, *others = scene.clients()
    talk([first, *others], HALF)
    first.break_off(BROKEN)
    finish([first, *others])


def kill(scene: Scene) -> None:
    """The first client is killed in the middle of a line: the reply to what is there of it can't be
    written."""
    scene.refused[1] = WRITE
    others = scene.clients(scene.at_pipes[1:])
    words = ["sh", "-c", RELAY, str(scene.files[0])]
    with piped(words, "viewer 1", scene.scripts[0]) as (child, first):
        talk([first, *others], HALF)
        first.break_off(BROKEN)
        serve([first], Client.is_answered)
        child.kill()
        child.wait()
        first.replies.pop()  # by which it said that it had written the half
        first.stop_reading()
        scene.dialogues[1] = first.dialogue
    finish(others)


def stop_reading(scene: Scene, leaves: bool = False) -> None:
    """The first client asks on without reading, until its viewer is stopped. When the others have ended,
    it reads on, or leaves."""
    first, *others = scene.clients()
    ask_until_full(first)
    finish(others)
    if leaves:
        scene.refused[1] = WRITE
        first.leave()
    else:
        finish([first])


def close_replies(scene: Scene) -> None:
    """The first client closes the pipe of its replies, and asks once more. It never closes the other
    one."""
    scene.refused[1] = WRITE
    first, *others = scene.clients()
    talk([first, *others], HALF)
    first.stop_reading()
    first.aim(HALF + 1)
    finish(others)


def come_late(scene: Scene) -> None:
    """The first client comes when the others have ended."""
    finish(scene.clients(scene.at_pipes[1:]))
    finish(scene.clients(scene.at_pipes[:1]))


# ---- All rows ------------------------------------------------------------------------------------


class Case(NamedTuple):
    """What clients do at once, and which viewers are not at pipes."""

    name: str
    act: Callable[[Scene], None] = all_ask
    kinds: Mapping[int, Kind] = {}  # of the viewers that are not at pipes
    viewers: int = 4
    lines: int = 2 * HALF  # of each
    is_continued: bool = False  # whether the viewers go on with the session of a trace


STOP_AND_LEAVE = functools.partial(stop_reading, leaves=True)
FAULTY = {5: Kind.FOLDER_FOR_REPLIES, 4: Kind.NO_FILE, 2: Kind.FOLDER}  # the last one first

CASES = [
    Case("4 clients at pipes", lines=500),
    Case("4 clients at pipes once more", lines=500),
    Case("4 clients at pipes, over a trace", lines=500, is_continued=True),
    Case("4 viewers of plain files", kinds=dict.fromkeys(range(1, 5), Kind.PLAIN), lines=500),
    Case("64 clients", viewers=64, lines=20),
    Case("a client leaves in the middle of a line", break_off),
    Case("a client is killed in the middle of a line", kill),
    Case("a client stops reading until the others have ended", stop_reading, lines=500),
    Case("a client stops reading, and leaves when the others have ended", STOP_AND_LEAVE, lines=500),
    Case("a client closes the pipe of its replies", close_replies),
    Case("a client comes when the others have ended", come_late),
    Case("a client asks a line of 100,000 bytes", ask_long_line),
    Case("a file isn't there", kinds={1: Kind.NO_FILE}),
    Case("a file is a folder", kinds={1: Kind.FOLDER}),
    Case("a file of replies is a folder", kinds={1: Kind.FOLDER_FOR_REPLIES}),
    Case("a file of replies had some before", kinds={1: Kind.APPENDED}),
    Case("viewers 1, 2, 4 and 5 of 5 have faults", close_replies, FAULTY, viewers=5),
]


def case_fault(case: Case, built: str) -> str:
    """What is wrong with a build in a case, or nothing."""
    chance = random.Random(case.name)
    machine = histories.fresh_machine(chance, built)
    with tempfile.TemporaryDirectory() as name:
        folder = Path(name)
        script_of = functools.partial(random_script, chance, histories.LINES, machine.actors, case.lines)
        if case.is_continued:
            machine = histories.continued(machine, folder, script_of())
        scripts = [script_of() for _ in range(case.viewers)]
        scene = Scene(folder, machine, scripts, case.kinds)
        with Live(scene.words()) as scene.live:
            try:
                case.act(scene)
                return scene.fault()
            except Broken as fault:
                return f"{fault}{scene.live.last_words()}"


def shared_fault(names: Sequence[str], built: str) -> str:
    """What is wrong with the end of a build whose viewers would share a file, or nothing."""
    with tempfile.TemporaryDirectory() as folder:
        files = [os.path.join(folder, name) for name in names]
        written_script(Path(folder) / "a", ["len"])
        ended = program.run([built, "view", "--live", *files])
        left = os.listdir(folder)
    wanted = ((2, b"", SHARED), ["a"])
    return "" if (ended, left) == wanted else f"{(*ended, left)}, wanted {wanted}"


def rows() -> program.Rows:
    """Each case, and viewers who would share a file."""
    return [
        *((case.name, functools.partial(case_fault, case)) for case in CASES),
        ("a file is named twice", functools.partial(shared_fault, ["a", "b", "a"])),
        ("a file is that of another's replies", functools.partial(shared_fault, ["a.replies", "b", "a"])),
    ]
