"""Runs the worked port of examples/port/, and `tools/conform.py` over its logs, for `check.py ports`.
"""

import contextlib
import io
import json
import re
import sys
from collections.abc import Iterable, Iterator
from dataclasses import dataclass
from pathlib import Path

from lcrq_tools import program
from lcrq_tools.faults import status_of
from lcrq_tools.port import conform
from lcrq_tools.port.port_log import Record
from lcrq_tools.port.port_stream import read_logs
from lcrq_tools.program import TOP, lines_of, replies_to, script_of
from lcrq_tools.start.starts import Start, Trace, segment_names

RINGS = (2, 4, 8)
DIFFERS = re.compile(r"step ([0-9]+): ")

Report = tuple[int, str]  # the status of a tool, and what it writes


@dataclass
class Bench:
    """Where the built ports and the logs are, and the program beside which they are replayed."""

    folder: Path
    program: str

    def log_of(self, name: str, *options: object) -> list[str]:
        """The lines of the log of a run of the port, or of one of its bugs."""
        ended = program.run([str(self.folder / name), *map(str, options)])
        if ended.status:
            raise program.Broken(f"{name} ended with status {ended.status}: {ended.errors.strip()}")
        return lines_of(ended.output.decode("ascii"))

    def file_of(self, log: Iterable[str]) -> str:
        """A file with this log."""
        file = self.folder / "a.log"
        file.write_bytes(script_of(log, "utf-8"))
        return str(file)

    def compare(self, log: Iterable[str], *options: object) -> Report:
        """What conform.py says of a log."""
        return self.conform(self.file_of(log), *options)

    def conform(self, *words: object) -> Report:
        """What conform.py says by these words of its command line."""
        output = io.StringIO()
        with contextlib.redirect_stdout(output), contextlib.redirect_stderr(output):
            status = status_of(conform.main, [*map(str, words), "--program", self.program])
        return status, output.getvalue()

    def run_tool(self, tool: str, *words: object, given: bytes = b"") -> Report:
        """What a tool of tools/ says by these words, with this standard input."""
        command = [sys.executable, str(TOP / "tools" / tool), *map(str, words), "--program", self.program]
        ended = program.run(command, given)
        return ended.status, ended.output.decode() + ended.errors

    def replies(self, words: list[str], script: list[str]) -> list[str]:
        """What the program replies to a script."""
        return replies_to([self.program, *words], script_of(script))

    def records_of(self, log: Iterable[str]) -> list[Record]:
        """The records of a log."""
        return read_logs([self.file_of(log)]).records

    def files_fault(self, folder: Path, text: str) -> str:
        """What is wrong with the files about a difference, or nothing: the script leads to the model's
        step, and the start before it is the world before that step."""
        script = (folder / "to.script").read_text(encoding="ascii").splitlines()
        start, before = folder / "from.trace", folder / "before.trace"
        trace: Trace = json.loads(before.read_text(encoding="ascii"))
        fresh = ["run", "-", "--actors", str(len(trace["start"]["actors"])), "--ring", "2"]
        words, over = ["load", str(start)] if start.exists() else fresh, ["load", str(before)]
        whole = self.replies(words, [*script, f"step {len(script)}"])
        alone = self.replies(over, [script[-1], "step 1"])
        step, other = (replies[-1].partition("; ")[2] for replies in (whole, alone))
        if not step or step != other or any(reply.startswith("refused") for reply in whole):
            return f"the last step of to.script is `{step}`, and over before.trace it is `{other}`"
        if step.partition("; ")[2] not in text:
            return f"the step `{step}` is not in what the tool says"
        asked = questions_of(trace["start"])
        if self.replies(words, [*script[:-1], *asked])[-len(asked) :] != self.replies(over, asked):
            return "before.trace is another world than the one to which to.script leads before its last line"
        return "" if (folder / "steps.svg").exists() else "there is no picture"


def questions_of(start: Start) -> list[str]:
    """The lines that ask for all actors, segments and ends of a start."""
    lines = [f"actor {number}" for number in range(1, len(start["actors"]) + 2)] + ["show qhead", "show qtail"]
    lines += [f"show whole {maker}.{len(made)}" for maker, made in enumerate(start["segments"])]
    for name, maker, number in segment_names(start):
        lines += [f"show {kind} {name}" for kind in ("head", "tail", "next")]
        lines += [f"show cell {name} {cell}" for cell, _ in enumerate(start["segments"][maker][number]["cells"])]
    return lines


# ---- What is wanted ------------------------------------------------------------------------------


def agrees(report: Report) -> str:
    """What is wrong where a log should agree, or nothing."""
    status, text = report
    return "" if status == 0 and text.startswith("agrees: ") else f"status {status}: {text.strip()[:300]}"


def differs(report: Report, said: str, step: int | None = None) -> str:
    """What is wrong where a log should differ at this step, where it is known, in a headline that has
    these words, or nothing."""
    status, text = report
    line = text.partition("\n")[0]
    found = DIFFERS.match(line)
    if status == 1 and found and said in line and step in (None, int(found[1])):
        return ""
    return f"status {status}, `{line[:200]}`, where step {step or 'N'} with `{said}` is wanted"


def steps_with(records: list[Record]) -> Iterator[tuple[int, Record, Record | None]]:
    """Each record with the number of its step, or of the last one of its actor for a reply, and with
    its actor's record before it."""
    last: dict[int, tuple[int, Record]] = {}
    number = 0
    for record in records:
        number += record.kind != "reply"
        before = last.get(record.actor)
        step = before[0] if record.kind == "reply" and before else number
        yield step, record, before and before[1]
        last[record.actor] = step, record
