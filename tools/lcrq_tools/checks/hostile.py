"""Throws hostile scripts, traces, command lines and devices at the built program, and compares what it answers with the
manual.

    python3 tools/check.py hostile [--program P]

What a line is comes from the tables of docs/MANUAL.md, and what a trace is from a grammar here that is written from
that page: neither from the code. On each trace that is loaded docs/trace.schema.json is tried too: what it refuses has
to be BadTrace, and what it takes may be BadTrace only where no schema can say so. Each check prints one line; the
status is 1 if any of them differs. The timed ones say how time and memory grow with the text. Like schema.py it needs
`jsonschema`: python3-jsonschema of Debian, or jsonschema of pip.
"""

import argparse
import functools
import itertools
import json
import os
import re
import subprocess
from collections.abc import Callable, Iterable, Iterator, Sequence
from typing import Any

from lcrq_tools import manual, program, schema
from lcrq_tools.checks.answers import (
    BAD_TRACE, ENQUEUES, READ, SEGMENT, TRACE, WRITE,
    bytes_of, differs, file_of, refusal, run_over, session_of, start_of,
)
from lcrq_tools.faults import Fault
from lcrq_tools.program import SECONDS, Ended

START_KIB = 8 * 1024  # more than a start takes

Json = Any  # what a text of JSON holds
Fits = Callable[[Json], bool]  # whether a value is what it has to be
Checks = Iterator[tuple[str, str]]  # names, each with what is wrong or nothing
# The text of a trace with its name, and what the program ends with that loads it and is asked for `len`.
TraceRow = tuple[str, str | bytes, Ended]

# ---- The grammar of lines ------------------------------------------------------------------------

# The greatest number for which a word of a form stands, or none for a name.
MOST = {"A": 2**8 - 1, "X": 2**64 - 1, "M": 2**8 - 1, "S": 2**32 - 1, "I": 2**8 - 1, "NAME": None}
NAME = re.compile(rb"[a-z0-9-]{1,16}")
MOST_BYTES = 256


def forms_of(line: str) -> list[str]:
    """The forms of a line of the manual: X for a number that is not an actor's, and each place."""
    form = re.sub(r"\b[KNI]\b", "X", line)
    return [form.replace("PLACE", place) for place in manual.PLACES] if "PLACE" in form else [form]


def form_of(form: str) -> tuple[re.Pattern[bytes], list[int | None]]:
    """A form as a pattern with a group for each of its numbers and names, and what each is at most."""
    words = [word for word in re.split("[ .]", form) if word.isupper()]
    if unknown := next((word for word in words if word not in MOST), None):
        raise Fault(f"no range for the {unknown} of {form}")
    pattern = re.sub("[A-Z]+", lambda word: "([!-~]+)" if word[0] == "NAME" else "(0|[1-9][0-9]*)", re.escape(form))
    return re.compile(pattern.encode()), [MOST[word] for word in words]


FORMS = [form for line in manual.FORMS for form in forms_of(line)]
GRAMMAR = [form_of(form) for form in FORMS]


def fault_of(line: bytes) -> bytes | None:
    """The reply to a line that spells no command, or none."""
    if len(line) > MOST_BYTES:
        return b"refused 23 LineTooLong"
    for pattern, ranges in GRAMMAR:
        found = pattern.fullmatch(line)
        if found and all(most is None or int(word) <= most for word, most in zip(found.groups(), ranges)):
            names = [word for word, most in zip(found.groups(), ranges) if most is None]
            return None if all(NAME.fullmatch(name) for name in names) else b"refused 17 BadName"
    return b"refused 22 BadLine"


# ---- Lines ---------------------------------------------------------------------------------------

SPELLED = ["enq 1 7", "enq 255 18446744073709551615", "deq 2", "aenq 1 0", "adeq 16", "go 1", "starve 1 yes"]
SPELLED += ["starve 1 no", "undo", "undo 3", "roll 1", "back 0", "redo", "forward 2", "mark a"]
SPELLED += ["mark abcdefghij-45678", "drop a", "goto a-1", "marks", "markat 1", "same a b", "origin 4", "writer qtail"]
SPELLED += ["writer cell 0.0 0", "show qhead", "show head 1.0", "show tail 255.4294967295", "show next 0.0"]
SPELLED += ["show cell 0.0 255", "show whole 1.0", "show ahead", "show atail"]
SPELLED += ["show value 0.0 3", "show index 255.4294967295 255", "writer value 0.0 0", "writer index 16.1 10"]
SPELLED += ["show acell 63", "actor 1", "step 1", "len"]
SPELLED += [
    manual.line_of(form) for form in FORMS if not any(form_of(form)[0].fullmatch(line.encode()) for line in SPELLED)
]


def replies_fit(built: str, script: bytes) -> str:
    """Whether each line of a script has the reply that the grammar wants; says the first that has not."""
    status, output, errors = program.run([built, "run", "-"], script)
    lines, replies = script.removesuffix(b"\n").split(b"\n"), output.split(b"\n")[:-1]
    if (status, errors) != (0, "") or len(lines) != len(replies):
        return f"status {status}, {len(replies)} replies to {len(lines)} lines, {errors!r}"
    faults = (b"refused 17 BadName", b"refused 22 BadLine", b"refused 23 LineTooLong")
    for line, reply in zip(lines, replies):
        wanted = fault_of(line)
        if (reply != wanted) if wanted else (reply in faults):
            return f"{line!r} has the reply {reply!r}, wanted {wanted!r}"
    return ""


def mutations(line: bytes) -> Iterator[bytes]:
    """The beginnings of a line, and the line with each byte left out, changed to each other, or put in."""
    for end in range(len(line) + 1):
        before, behind = line[:end], line[end + 1:]
        yield before
        yield before + behind
        for byte in range(256):
            yield before + bytes([byte]) + line[end:]
            yield before + bytes([byte]) + behind


def line_checks(built: str) -> Checks:
    """Scripts of hostile lines."""
    alone = b"".join(bytes([byte]) + b"\n" for byte in range(256))
    yield "each of the 256 bytes alone is a line", replies_fit(built, alone)
    yield "`len` with a carriage return", replies_fit(built, b"len\r\nlen\n")
    yield "names of 17 letters and with a capital", replies_fit(built, b"mark " + b"a" * 17 + b"\nsame A b\nmark A\n")
    longs = b"\n".join(b"x" * count for count in (255, 256, 257, 100_000, 1_000_000)) + b"\nlen\n"
    yield "lines of 255 to 1,000,000 bytes", replies_fit(built, longs)
    padded = b"".join(line.encode().ljust(length) + b"\n" for line in SPELLED for length in (256, 257))
    yield "a spelled command with spaces up to 256 and 257 bytes", replies_fit(built, padded)
    for line in SPELLED:
        script = b"\n".join(mutations(line.encode())) + b"\n"
        count = script.count(b"\n")
        yield f"`{line}`, {count:,} lines that nearly spell it", replies_fit(built, script)


# ---- The grammar of traces of version 2 ----------------------------------------------------------


def constant(*values: Json) -> Fits:
    """Whether a value is one of these, and no other one that is equal, as 1 is to true."""
    return lambda value: any(type(value) is type(known) and value == known for known in values)


def number(most: int = 2**64 - 1) -> Fits:
    """Whether a value is a whole number up to this one."""
    return lambda value: type(value) is int and 0 <= value <= most


def row(*parts: Fits) -> Fits:
    """Whether a value is a list of these parts."""
    return lambda value: (
        type(value) is list and len(value) == len(parts) and all(fits(part) for fits, part in zip(parts, value))
    )


def many(part: Fits) -> Fits:
    """Whether a value is a list of any number of these."""
    return lambda value: type(value) is list and all(map(part, value))


def members(**parts: Fits) -> Fits:
    """Whether a value is an object with exactly these keys, where `_` may stand behind one, and each member is
    what it has to be."""
    fitting = {key.rstrip("_"): fits for key, fits in parts.items()}
    return lambda value: (
        type(value) is dict and value.keys() == fitting.keys() and all(fitting[key](value[key]) for key in fitting)
    )


def either(*kinds: Fits) -> Fits:
    """Whether a value is of one of these kinds."""
    return lambda value: any(fits(value) for fits in kinds)


NONE, BIT, BYTE, NUMBER = constant(None), constant(False, True), number(2**8 - 1), number()
SEGMENT_NAME, VALUE = row(BYTE, number(2**32 - 1)), either(NONE, NUMBER)
CALLS = (row(constant("enq", "aenq"), NUMBER), row(constant("deq", "adeq")))
EVENTS = many(
    either(
        row(constant("go", "deq", "adeq"), BYTE),
        row(constant("enq", "aenq"), BYTE, NUMBER),
        row(constant("starve"), BYTE, BIT),
    )
)
POINT = constant("Idle", *(f"{letter}{at}" for letter in "EQ" for at in range(1, 15)), "A1", "A2", "B1", "B2", "B3")
ACTORS = many(
    members(
        crq=SEGMENT_NAME, new=SEGMENT_NAME, next=SEGMENT_NAME, op=either(NONE, *CALLS), closed=BIT, safe=BIT,
        h=NUMBER, idx=NUMBER, t=NUMBER, val=VALUE, pass_=BYTE, pc=POINT,
    )
)
CELLS = many(row(BIT, NUMBER, VALUE))
SLOTS = many(row(number(63), either(constant("top"), NUMBER)))
MARKS = many(members(events=EVENTS, name=lambda name: type(name) is str and bool(NAME.fullmatch(name.encode()))))


def is_slots(value: Json) -> bool:
    """Whether a value is a list of slots of the array with their positions, which rise."""
    return SLOTS(value) and all(before[0] < behind[0] for before, behind in itertools.pairwise(value))


def is_marks(value: Json) -> bool:
    """Whether a value is a list of bookmarks: 64 at most, with different names."""
    return MARKS(value) and len(value) <= 64 and len({mark["name"] for mark in value}) == len(value)


def is_trace(value: Json) -> bool:
    """Whether a value is a trace of version 2."""
    ring = value.get("ring") if type(value) is dict else None
    segment = members(
        closed=BIT, head=NUMBER, tail=NUMBER, next=either(NONE, SEGMENT_NAME),
        cells=lambda cells: CELLS(cells) and len(cells) == ring,
    )
    array = members(cells=is_slots, head=NUMBER, tail=NUMBER)
    parts = members(qhead=SEGMENT_NAME, qtail=SEGMENT_NAME, array=array, actors=ACTORS, segments=many(many(segment)))
    start = either(members(fresh=constant(*range(1, 17))), parts)
    whole = members(
        events=EVENTS, undone=EVENTS, marks=is_marks, start=start, ring=constant(2, 4, 8), version=constant(2)
    )
    return whole(value)


# ---- Texts that are no trace ---------------------------------------------------------------------

WRONG = ['"actors":0', '"actors":17', '"ring":3', '"ring":16']
WRONG += ['"version":0', '"version":3', '"version":1.0', '"version":"1"']
BAD_EVENTS = ['["go",256]', '["go",-1]', '["go"]', '["enq",1]', '["starve",1,1]', '["hop",1]', '["go",1.0]']
BAD_EVENTS += ['["go",1e0]', '["go",1,1]', "[]", "{}", "null", '"go"', '["go","1"]', '["enq",1,18446744073709551616]']
BAD_EVENTS += ['["enq",1,-1]', '["deq",1,2]', '["Go",1]']


def first_bad_traces() -> Iterator[tuple[str, str | bytes]]:
    """Texts that are no trace of version 1, by what is wrong with them."""
    for part in WRONG:
        yield part, re.sub(part.partition(":")[0] + ":[0-9]", part, TRACE)
    yield "a key more", TRACE.replace('"ring"', '"rung":1,"ring"')
    whole = json.loads(TRACE)
    for key in whole:
        yield f"no key {key}", json.dumps({other: value for other, value in whole.items() if other != key})
    for event in BAD_EVENTS:
        yield f"the event {event}", TRACE.replace('["go",1]', event)
    yield "200 opening brackets", "[" * 200
    yield "bytes that are no UTF-8", TRACE.encode().replace(b"enq", b"\xff\xfe")
    yield "an empty text", ""
    yield "a second value after it", TRACE * 2


# an actor at the fetch-and-add of its enqueue, with two bookmarks, a live and an undone event
ACTOR_LIST, SEGMENT_LISTS, SLOT_LIST = f"[{ENQUEUES}]", f"[[{SEGMENT}],[]]", '[[0,"top"],[5,7]]'
ARRAY = f'{{"cells":{SLOT_LIST},"head":0,"tail":0}}'
START = start_of(array=ARRAY)
MARK_LIST = '[{"events":[["go",1],["go",1]],"name":"a"},{"events":[],"name":"b-2"}]'
SECOND = session_of('[["go",1]]', MARK_LIST, START, '[["go",1]]')


def second_with(old: str, new: str) -> str:
    """That trace with another text for a part of it."""
    assert old in SECOND, old
    return SECOND.replace(old, new, 1)


def second_bad_traces() -> Iterator[tuple[str, str | bytes]]:
    """Texts that are no trace of version 2 and no value that JSON's own writer gives, by what is wrong with them."""
    name = '"name":"a"'
    for digits in ("0.0", "0e0", "1e0", "1E400", "00", "+0", "0x0", "1" * 5000, "NaN", "Infinity"):
        yield f"the number {digits[:20]}", second_with('"t":0', f'"t":{digits}')
    for old in (START, ACTOR_LIST, SEGMENT, ARRAY, MARK_LIST, '[["go",1]]', name, "[0,0]"):
        key = '"name":' if old == name else ""
        for opened, closed in (("[", "]"), ('{"a":', "}")):
            yield f"200 {opened} for {old[:20]}", second_with(old, key + opened * 200)
            text = key + opened * 200 + "0" + closed * 200
            yield f"200 {opened} and as many {closed} for {old[:20]}", second_with(old, text)
    yield "65 bookmarks", second_with(MARK_LIST, json.dumps([{"events": [], "name": f"n{n}"} for n in range(65)]))
    yield "a name that is no UTF-8", second_with(name, '"name":"?"').encode().replace(b"?", b"\xc0\x80")
    yield "a name with an escaped NUL", second_with(name, '"name":"\\u0000"')
    yield "half of a surrogate pair", second_with(name, '"name":"\\ud800"')
    yield "a name that is not closed", second_with(name, '"name":"a')
    yield "a second version after the first trace", SECOND + TRACE


OTHERS: list[Json] = [None, True, False, -1, 0, 1, 2, 3, 4, 16, 17, 63, 64, 255, 256, 2**32 - 1, 2**32, 2**62]
OTHERS += [2**62 + 1, 2**64 - 1, 2**64, 10**400, 1.0, 0.5, "", "a", "A", "a" * 16, "a" * 17, "top", "empty"]
OTHERS += ["E4", "E15", "go", [], [0], [0, 0], [1, 7], [0, 0, 0], [True, 0, None], ["deq"], ["enq", 7], ["go", 1]]
OTHERS += [["go", 0], ["starve", 1, True], {}, {"fresh": 1}, {"fresh": 0}]
OTHERS += [{"events": [], "name": "c"}, {"events": [], "name": "a"}]


def nearly(value: Json) -> Iterator[Json]:
    """All values that are nearly this one: each value in it changed to others, left out or doubled, each key
    misspelled, a key more in each object."""
    if type(value) is dict:
        yield value | {"more": 0}
        for key, part in value.items():
            rest = {other: value[other] for other in value if other != key}
            yield from (rest, rest | {key.upper(): part})
            yield from (value | {key: other} for other in (*OTHERS, *nearly(part)))
    elif type(value) is list:
        for place, part in enumerate(value):
            before, behind = value[:place], value[place + 1:]
            yield from (before + behind, [*before, part, part, *behind])
            yield from ([*before, other, *behind] for other in (*OTHERS, *nearly(part)))


# ---- Traces ----# ---- Traces --------------------------------------------------------------------------------------

LOADED, NO_ROOM = Ended(0, b"at 1 1\n", ""), refusal("26 Flaw 1")


def huge_traces() -> Iterator[TraceRow]:
    """Texts of huge parts."""
    for count, wanted in [(65_535, LOADED), (65_536, NO_ROOM)]:
        many_segments = ",".join([SEGMENT] * count)
        yield f"{count:,} segments of an actor", second_with(SEGMENT_LISTS, f"[[{SEGMENT}],[{many_segments}]]"), wanted
    for count, name, wanted in [(16, "16 actors", LOADED), (17, "17 actors", NO_ROOM)]:
        actors = second_with(ACTOR_LIST, f"[{','.join([ENQUEUES] * count)}]")
        yield name, actors.replace("],[]]", "]" + ",[]" * count + "]"), wanted
    yield "no actor", second_with(ACTOR_LIST, "[]"), NO_ROOM
    yield "a list of a maker too much", second_with(SEGMENT_LISTS, f"[[{SEGMENT}],[],[]]"), NO_ROOM
    yield "two segments of maker 0", second_with(SEGMENT_LISTS, f"[[{SEGMENT},{SEGMENT}],[]]"), NO_ROOM
    yield "a full array", second_with(SLOT_LIST, json.dumps([[slot, 2**64 - 1] for slot in range(64)])), LOADED
    names = json.dumps([{"events": [["go", 1]], "name": f"{n:-^16}"} for n in range(64)])
    yield "64 bookmarks with names of 16 bytes", second_with(MARK_LIST, names), LOADED


# Changes of that trace, each with why it is then refused.
REFUSED = [
    (MARK_LIST, MARK_LIST.replace('"go",1', '"go",0', 1), "32 TraceMark 1 1 cause 1 NoActor"),
    ('"events":[["go",1]],"marks"', '"events":[["go",0]],"marks"', "28 TraceStep 1 cause 1 NoActor"),
    ('"undone":[["go",1]]', '"undone":[["go",1],["go",0]]', "28 TraceStep 3 cause 1 NoActor"),
    ('"head":0,"next"', '"head":4611686018427387905,"next"', "26 Flaw 4"),
]


def spell_otherwise(trace: str) -> str:
    """A trace in other white space, order of keys and escapes."""
    other = json.dumps(dict(reversed(json.loads(trace).items())), indent=3).replace("enq", "\\u0065nq")
    return f"\n\t{other}\r\n"


def first_rows() -> Iterator[TraceRow]:
    """Texts of traces of version 1."""
    yield from ((f"no trace: {name}", text, BAD_TRACE) for name, text in first_bad_traces())
    refused = TRACE.replace('["enq",1,7]', '["go",0]')
    yield "an event of no actor", refused, refusal("28 TraceStep 1 cause 1 NoActor")
    yield "other white space, order of keys and escapes", spell_otherwise(TRACE), Ended(0, b"at 2 0\n", "")


def second_rows() -> Iterator[TraceRow]:
    """Texts of traces of version 2."""
    yield from ((f"no trace of version 2: {name}", text, BAD_TRACE) for name, text in second_bad_traces())
    yield from huge_traces()
    yield from ((f"{why} of a whole session", second_with(old, new), refusal(why)) for old, new, why in REFUSED)


def load(built: str, text: str | bytes, script: str = "len\n") -> Ended:
    """Loads a trace and runs a script over it. Where the schema differs from the answer, that is
    after standard error."""
    ended = run_over(built, text, script)
    return ended._replace(errors=ended.errors + schema_fault(bytes_of(text), ended.errors == BAD_TRACE.errors))


def beginnings_fault(built: str, trace: str) -> str:
    """Which beginnings of a trace are loaded, or otherwise no BadTrace, or nothing."""
    ends = (load(built, trace[:end]) for end in range(len(trace)))
    return differs([ended for ended in ends if ended != BAD_TRACE], [])


def nearly_trace_fault(built: str, values: Iterable[Json]) -> str:
    """Whether just those of these values are no trace that the grammar says; says the first that is not answered so. A
    value that is a trace is loaded, or its start is flawed, or an event of it is refused."""
    for value in values:
        text = json.dumps(value)
        status, output, errors = ended = load(built, text)
        refused = re.fullmatch(r"lcrqdb: refused (26 Flaw|28 TraceStep|32 TraceMark) [0-9].*\n", errors)
        fits = (status, output) == (1, b"") and bool(refused) or (status, errors) == (0, "")
        if not fits if is_trace(value) else ended != BAD_TRACE:
            return f"{text}: status {status}, {output!r}, {errors!r}"
    return ""


def trace_checks(built: str) -> Checks:
    """Texts of traces."""

    def answers(rows: Iterable[TraceRow]) -> Checks:
        return ((name, differs(load(built, text), wanted)) for name, text, wanted in rows)

    yield f"each of the {len(TRACE)} beginnings of a trace", beginnings_fault(built, TRACE)
    yield from answers(first_rows())
    ended = load(built, SECOND, "len\nmarks\nredo\n")
    yield "a whole session", differs(ended, Ended(0, b"at 1 1\nmarks 2\nat 2 0\n", ""))
    yield f"each of the {len(SECOND)} beginnings of a whole session", beginnings_fault(built, SECOND)
    values = [*nearly(json.loads(SECOND))]
    yield f"{len(values):,} values that are nearly a whole session", nearly_trace_fault(built, values)
    yield from answers(second_rows())
    for key, value in json.loads(SECOND).items():
        ended = load(built, second_with(f'"{key}":', f'"{key}":{json.dumps(value)},"{key}":'))
        fault = "" if ended.status == 0 or ended[::2] == BAD_TRACE[::2] else f"status {ended.status}, {ended.errors!r}"
        yield f"the key {key} twice ends as some trace or as none", fault
    ended = load(built, spell_otherwise(SECOND))
    yield "a whole session in other white space, order of keys and escapes", differs(ended, LOADED)


# ---- The schema of traces ------------------------------------------------------------------------

MOST_FOR_SCHEMA = 1_000_000  # bytes of a text on which the schema is tried


def with_one_key_each(pairs: list[tuple[str, Json]]) -> dict[str, Json]:
    """An object of these keys and values; none if a key is there twice, of which nothing is promised."""
    if len(dict(pairs)) < len(pairs):
        raise ValueError("a key is there twice")
    return dict(pairs)


def values_in(value: Json) -> Iterator[Json]:
    """A value, and all values in it."""
    yield value
    if type(value) in (dict, list):
        for part in value.values() if type(value) is dict else value:
            yield from values_in(part)


def is_beyond_schemas(value: Json) -> bool:
    """Whether a value has what is no trace and what no schema can say: a number as 1.0, one name
    twice, slots that do not rise."""
    slots = many(lambda slot: type(slot) is list and bool(slot) and type(slot[0]) is int)
    objects = many(lambda mark: type(mark) is dict)
    for part in values_in(value):
        if slots(part) and [slot[0] for slot in part] != sorted({slot[0] for slot in part}):
            return True
        if type(part) is float or objects(part) and len({str(mark.get("name")) for mark in part}) < len(part):
            return True
    return False


def schema_fault(text: bytes, is_bad: bool) -> str:
    """Where the schema differs from the program on a text, which answers that it is BadTrace or
    not; nothing if it does not differ."""
    try:
        value = json.loads(text, object_pairs_hook=with_one_key_each) if len(text) <= MOST_FOR_SCHEMA else None
    except (ValueError, RecursionError):
        return ""  # no JSON, or none of which anything is promised
    if value is None:
        return ""
    fault = schema.fault_of(value)
    if fault and not is_bad:
        return f"the schema refuses it: {fault}"
    return "the schema takes it" if is_bad and not fault and not is_beyond_schemas(value) else ""


# ---- Growth --------------------------------------------------------------------------------------


def with_many(old: str, item: str, count: int) -> str:
    """That trace with a list of this many of these items for a part of it."""
    return second_with(old, "[" + ",".join([item] * count) + "]")


# Long texts by their names, each with why it is refused.
GROWING: dict[str, tuple[Callable[[int], str], Ended]] = {
    "opening brackets": (lambda n: "[" * n, BAD_TRACE),
    "a string": (lambda n: '"' + "a" * (10 * n) + '"', BAD_TRACE),
    "a number's digits": (lambda n: "7" * (n // 100), BAD_TRACE),
    "empty arrays in an array": (lambda n: "[" + "[]," * (10 * n) + "[]]", BAD_TRACE),
    "opening brackets of a start": (lambda n: second_with('"start":', '"start":' + "[" * n), BAD_TRACE),
    "a bookmark's name": (lambda n: second_with('"name":"a"', f'"name":"{"a" * (10 * n)}"'), BAD_TRACE),
    "bookmarks": (lambda n: with_many(MARK_LIST, '{"events":[],"name":"a"}', n // 10), BAD_TRACE),
    "slots of the array": (lambda n: with_many(SLOT_LIST, '[7,"top"]', n // 10), BAD_TRACE),
    "cells of a ring": (lambda n: with_many("[[true,0,null],[true,1,null]]", "[true,0,null]", n // 10), BAD_TRACE),
    "actors": (lambda n: with_many(ACTOR_LIST, ENQUEUES, n // 10), NO_ROOM),
    "lists of makers": (lambda n: with_many(SEGMENT_LISTS, "[]", n), NO_ROOM),
    "segments": (lambda n: with_many(SEGMENT_LISTS, f"[{SEGMENT}]", n // 10), NO_ROOM),
}


def growth_checks(built: str) -> Checks:
    """Long texts that are refused: with ten times the bytes at most twenty times the time and the
    memory, beside a start's own."""
    for name, (text_of, wanted) in GROWING.items():
        watched = []
        for text in (text_of(100_000), text_of(1_000_000)):
            with file_of(text) as file:
                watched.append(program.watch([built, "load", file]))
        few, many_times = watched
        fits = [(ended.status, ended.output, ended.errors) == wanted for ended in watched]
        grew = many_times.seconds > 20 * few.seconds + 0.1
        grew = grew or many_times.peak_kib > 20 * max(few.peak_kib, START_KIB)
        first, second = (f"{ended.seconds:.3f} s and {ended.peak_kib / 1024:.0f} MiB" for ended in watched)
        fault = "" if all(fits) and not grew else f"refused {fits[0]} {fits[1]}"
        yield f"{name} of {len(text):,} bytes: {first}, ten times as long {second}", fault


# ---- Command lines and devices -------------------------------------------------------------------


def word_checks(built: str) -> Checks:
    """Command lines, and streams that are empty. Of what they end with only the first parts are compared that are
    wanted."""
    with file_of("len\n") as file:
        viewers = b"".join(b"viewer %d\nat 0 0\n" % viewer for viewer in range(1, 65)) + b"history 64\n"
        two = b"viewer 1\nat 0 0\nviewer 2\nat 0 0\nhistory 2\n"
        rows: list[tuple[str, list[str | bytes], tuple[object, ...]]] = [
            ("a word that is no UTF-8", ["run", b"\xff\xfe"], (2,)),
            ("an empty name", ["run", ""], READ),
            ("a name of 100,000 bytes", ["run", "a" * 100_000], READ),
            ("an option of 100,000 bytes", ["run", "-", "--ring", "4" * 100_000], (2, b"")),
            ("64 files for `view`", ["view", *[file] * 64], (0, viewers, "")),
            ("65 files for `view`", ["view", *[file] * 65], (2, b"", "lcrqdb: 1 to 64 files\n")),
            ("two views of one file", ["view", file, file], (0, two, "")),
            ("a file of a view that is not there", ["view", file, "/nowhere/script"], READ),
            ("`view` of a folder", ["view", "/"], READ),
            ("`load` of a folder", ["load", "/"], READ),
            ("/dev/null for a script", ["run", "/dev/null"], (0, b"", "")),
            ("a folder for a script", ["run", "/"], READ),
        ]
        for name, words, wanted in rows:
            yield name, differs(tuple(program.run([built, *words]))[:len(wanted)], tuple(wanted))


# Standard streams by their numbers, which are closed before the program starts: a script, and what it ends with.
CLOSED = [("input", "-", READ), ("output", "-", WRITE), ("error", "/nowhere", Ended(1, b"", ""))]


def stream_checks(built: str) -> Checks:
    """Streams that are closed or endless."""
    for number_of, (name, script, wanted) in enumerate(CLOSED):
        ended = program.run([built, "run", script], b"len\n", preexec_fn=functools.partial(os.close, number_of))
        yield f"a closed standard {name}", differs(ended, wanted)
    yield "100,000,000 zero bytes and no line feed", endless_fault(built, 100_000_000)


def endless_fault(built: str, count: int) -> str:
    """Reads this many bytes of a device that gives no line feed: one line that is too long, in the
    memory of any other."""
    with subprocess.Popen(["head", "-c", str(count), "/dev/zero"], stdout=subprocess.PIPE) as zeros:
        assert zeros.stdout  # a pipe
        ended = program.watch([built, "run", "-"], zeros.stdout)
    fits = (ended.status, ended.output) == (0, b"refused 23 LineTooLong\n") and 0 < ended.peak_kib < START_KIB
    return "" if fits else f"status {ended.status}, {ended.output[:80]!r}, {ended.peak_kib} KiB"


def shrinking_fault(built: str) -> str:
    """A file that is made empty while its script runs: whole lines were read, so each reply is whole."""
    pipe = subprocess.PIPE
    with file_of("len\n" * 1_000_000) as file:
        with subprocess.Popen([built, "run", file], bufsize=0, stdout=pipe, stderr=pipe) as child:
            assert child.stdout  # a pipe
            first = child.stdout.read(7)
            os.truncate(file, 0)
            rest, errors = child.communicate(timeout=SECONDS)
    replies = set((first + rest).split(b"\n")[:-1])
    # what was read may end within a line, which then is the last and spells another command or none
    fits = child.returncode == 0 and not errors and replies <= {b"at 0 0", b"refused 22 BadLine"}
    return "" if fits else f"status {child.returncode}, {errors!r}, {sorted(replies)[:3]}"


def leaving_fault(built: str, lines: int) -> str:
    """For each reply a reader that goes away after it: the program ends with status 1 and says so,
    or had written all."""
    pipe = subprocess.PIPE
    for taken in range(lines):
        reading, writing = os.pipe()
        with subprocess.Popen([built, "run", "-"], bufsize=0, stdin=pipe, stdout=writing, stderr=pipe) as child:
            assert child.stdin  # a pipe
            os.close(writing)
            for _ in range(taken):
                child.stdin.write(b"len\n")
                os.read(reading, 7)
            os.close(reading)
            errors = child.communicate(b"len\n", SECONDS)[1].decode()
        if (child.returncode, errors) != WRITE[::2]:
            return f"after {taken} replies: status {child.returncode}, {errors!r}"
    return ""


def device_checks(built: str) -> Checks:
    """Files and readers that change while the program runs."""
    yield "a file that shrinks while it is read", shrinking_fault(built)
    yield "a reader that leaves after each of 50 replies", leaving_fault(built, 50)


def checks(given: argparse.Namespace) -> Checks:
    """The checks, each a name and what is wrong, or nothing."""
    parts = (line_checks, trace_checks, growth_checks, word_checks, stream_checks, device_checks)
    return itertools.chain.from_iterable(checks(given.program) for checks in parts)
