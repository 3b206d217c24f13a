"""A program for tests that replies as lcrqdb does to a few lines: `run -`, `load` and `view --live` of it count steps.

A line that begins with `enq` or `go` makes a step, `undo` and `back N` take some back, `mark` marks, `len` asks. `die`
kills the program. A trace is taken if it begins with a brace, and `lie` is answered by the desk alone with `ok 99`.
"""

import json
import os
import sys
import tempfile
import threading
from collections.abc import Iterator
from contextlib import contextmanager
from pathlib import Path

NO_STEP = "refused 10 NothingToUndo"
PACKAGE = Path(__file__).resolve().parent.parent


class Machine:
    """The steps, and the calls of all viewers."""

    def __init__(self, is_desk: bool) -> None:
        self.live, self.undone, self.is_desk = 0, 0, is_desk
        self.calls: list[str] = []
        self.lock = threading.Lock()

    def reply(self, line: str) -> str:
        """The reply to a line."""
        word, _, rest = line.partition(" ") if line.isascii() else ("", "", "")
        count = int(rest or "1") if word in ("undo", "back") else 0
        if word in ("enq", "go"):
            self.live, self.undone = self.live + 1, 0
            return f"ok {self.live}"
        if word in ("undo", "back"):
            if count > self.live:
                return f"{NO_STEP} {self.live}"
            self.live, self.undone = self.live - count, self.undone + count
        if word == "mark":
            return f"marked {self.live}"
        if word == "lie":
            return f"ok {99 if self.is_desk else 98}"
        if word == "die":
            os._exit(3)
        return f"at {self.live} {self.undone}" if word in ("undo", "back", "len") else "refused 22 BadLine"

    def call(self, viewer: int, line: str) -> str:
        """The numbered reply to a line of a viewer."""
        with self.lock:
            reply = self.reply(line)
            if reply.startswith("refused 22"):
                return f"- {reply}"
            self.calls.append(f"{viewer} {line}")
            return f"{len(self.calls)} {reply}"

    def view(self, viewer: int, file: str) -> None:
        """Answers a viewer."""
        with open(file, encoding="latin-1", newline="\n") as lines:
            with open(f"{file}.replies", "a", encoding="ascii") as replies:
                for line in lines:
                    print(self.call(viewer, line.removesuffix("\n")), file=replies, flush=True)


def main() -> None:
    """Does what the command line says."""
    command, *words = [word for word in sys.argv[1:] if word not in ("--history", "--trace", "--")]
    start = words[-1] if command == "load" or "--start" in words else ""
    if start and not Path(start).read_text(encoding="latin-1").startswith("{"):
        print("lcrqdb: refused 27 BadTrace", file=sys.stderr)
        sys.exit(1)
    machine = Machine(command == "view")
    files = [word for word in words if "viewer-" in word]
    threads = [threading.Thread(target=machine.view, args=each) for each in enumerate(files, 1)]
    for thread in threads:
        thread.start()
    for thread in threads:
        thread.join()
    if files:
        print(f"history {len(machine.calls)}", *machine.calls, "{}", sep="\n")
        return
    for line in sys.stdin:
        print(machine.reply(line.removesuffix("\n")), flush=True)
    if "--trace" in sys.argv:
        print(json.dumps({"events": machine.live}))


@contextmanager
def stub_program() -> Iterator[str]:
    """The name of a file that runs this."""
    with tempfile.TemporaryDirectory() as folder:
        path = Path(folder) / "lcrqdb"
        way = f"import sys; sys.path.insert(0, {str(PACKAGE.parent)!r})"
        path.write_text(f"#!{sys.executable}\n{way}\nfrom {__name__} import main\nmain()\n", encoding="utf-8")
        path.chmod(0o755)
        yield str(path)
