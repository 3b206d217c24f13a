"""Gives texts to the built program and compares its answers, for the checks `hostile`, `statuses`, `lessons`,
`exercises` and `refused_memory`. Only Python's standard library is used.
"""

import contextlib
import itertools
import tempfile
from collections.abc import Iterator

from lcrq_tools import program
from lcrq_tools.program import Broken, Ended


# ---- Texts ---------------------------------------------------------------------------------------

TRACE = '{"actors":4,"events":[["enq",1,7],["go",1]],"ring":4,"version":1}'
SEGMENT = '{"cells":[[true,0,null],[true,1,null]],"closed":false,"head":0,"next":null,"tail":0}'


def actor_at(point: str, tail: int) -> str:
    """An actor of a start, in `enq 1` at this control point, who has read this tail."""
    words = '"closed":false,"crq":[0,0],"h":0,"idx":0,"new":[0,0],"next":[0,0],"op":["enq",1],"pass":0'
    return f'{{{words},"pc":"{point}","safe":false,"t":{tail},"val":null}}'


ENQUEUES = actor_at("E4", 0)  # is at the fetch-and-add of the enqueue


def start_of(actor: str = ENQUEUES, array: str = '{"cells":[],"head":0,"tail":0}', segment: str = SEGMENT) -> str:
    """A start with one actor and one segment."""
    ends = '"qhead":[0,0],"qtail":[0,0]'
    return f'{{"actors":[{actor}],"array":{array},{ends},"segments":[[{segment}],[]]}}'


def session_of(events: str = "[]", marks: str = "[]", start: str = '{"fresh":1}', undone: str = "[]") -> str:
    """A trace of version 2 over rings of two cells."""
    return f'{{"events":{events},"marks":{marks},"ring":2,"start":{start},"undone":{undone},"version":2}}'


# ---- Answers -------------------------------------------------------------------------------------


def refusal(why: str) -> Ended:
    """What a run gives that is refused so."""
    return Ended(1, b"", f"lcrqdb: refused {why}\n")


READ, WRITE, BAD_TRACE = refusal("24 Read"), refusal("25 Write"), refusal("27 BadTrace")


def bytes_of(text: str | bytes) -> bytes:
    """The bytes of a text."""
    return text.encode() if isinstance(text, str) else text


@contextlib.contextmanager
def file_of(text: str | bytes) -> Iterator[str]:
    """The name of a file that has this text for a while."""
    with tempfile.NamedTemporaryFile() as file:
        file.write(bytes_of(text))
        file.flush()
        yield file.name


def run_over(built: str, trace: str | bytes, script: str | bytes = "", *flags: str) -> Ended:
    """What a run of a script over the run of a trace gives."""
    with file_of(trace) as name:
        return program.run([built, "load", name, *flags], bytes_of(script))


def report_of(ended: Ended) -> str:
    """What a run wrote, which has to end well."""
    if ended.status or ended.errors:
        raise Broken(f"the program ended with status {ended.status}: {ended.errors.strip()}")
    return ended.output.decode()


def differs(got: object, wanted: object) -> str:
    """How an answer differs from the one that is wanted, or nothing."""
    return "" if got == wanted else f"{got!r}, wanted {wanted!r}"


def difference(got: str, wanted: str) -> str:
    """The first line in which two texts differ, or nothing."""
    pairs = itertools.zip_longest(program.lines_of(got), program.lines_of(wanted), fillvalue="nothing more")
    lines = (f"`{line}`, and stored is `{other}`" for line, other in pairs if line != other)
    return "" if got == wanted else next(lines, "the stored text has no line feed at the end")
