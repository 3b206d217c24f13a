"""The pseudo-code of docs/MODEL.md: its lines by control point, and what each line says.

`lines_of` gives the lines of each control point as they stand on the page, and `read` what they
say, by a grammar that has just the forms of that page. A line of another form is a fault, and so is
a control point of the table without a line. `tools/check.py pseudo_code` executes what `read` gives, by
words of its own: it shares nothing with `records.py`. Only Python's standard library is used.
"""

import re
from dataclasses import dataclass

from lcrq_tools.faults import Fault
from lcrq_tools.markdown import blocks_of, rows_of
from lcrq_tools.program import TOP

PAGE = TOP / "docs" / "MODEL.md"

# The head of each column, and the word of a script that begins this call.
CALLS = {
    "enqueue(x)": "enq",
    "dequeue()": "deq",
    "enqueue(x) on the array": "aenq",
    "dequeue() on the array": "adeq",
}
MARGIN = 5  # how many letters of a column are for its labels
LABEL = "[EQAB][1-9][0-9]*"


class Unreadable(Fault, ValueError):
    """What of the page can't be read, and why."""


# ---- Lines ---------------------------------------------------------------------------------------


def heads_of(line: str) -> list[tuple[int, str]]:
    """The two heads in a line, each with where its column begins; nothing of any other line."""
    found = [(head.start() - MARGIN, head[0]) for head in re.finditer(r"\S+(?: \S+)*", line)]
    return found if len(found) == 2 and all(name in CALLS for _, name in found) else []


def block_of(page: str) -> list[str]:
    """The lines of the one block that begins with two heads."""
    found = [lines for _, lines in blocks_of(page) if lines and heads_of(lines[0])]
    if len(found) != 1:
        raise Unreadable(f"{len(found)} blocks begin with the heads of two calls")
    return found[0]


def columns_of(page: str) -> dict[str, list[str]]:
    """The lines under each head."""
    columns: dict[str, list[str]] = {}
    heads: list[tuple[int, str]] = []
    for line in block_of(page):
        begins = heads_of(line)
        if begins:
            heads = begins
            if any(name in columns for _, name in heads):
                raise Unreadable(f"the heads `{line.strip()}` are there twice")
            columns |= {name: [] for _, name in heads}
            continue
        middle = heads[1][0]
        if line[middle - 1:middle].strip():
            raise Unreadable(f"no gap between the columns of `{line}`")
        for (_, name), part in zip(heads, (line[:middle], line[middle:])):
            columns[name] += [part.rstrip()] if part.strip() else []
    if columns.keys() != CALLS.keys():
        raise Unreadable(f"no column has the head {', '.join(CALLS.keys() - columns.keys())}")
    return columns


def lines_of(page: str) -> dict[str, dict[str, list[str]]]:
    """For each call, by its word in a script, the lines of each of its control points, without the
    label. A line that goes on with the one before it is indented."""
    calls: dict[str, dict[str, list[str]]] = {}
    known: set[str] = set()
    for head, rows in columns_of(page).items():
        lines = calls.setdefault(CALLS[head], {})
        for row in rows:
            label, text = row[:MARGIN].strip(), row[MARGIN:]
            if label:
                if label in known or not re.fullmatch(LABEL, label):
                    raise Unreadable(f"{label} is no label, or is there twice")
                known.add(label)
                lines[label] = []
            if not lines:
                raise Unreadable(f"no label before `{text}`")
            [*lines.values()][-1].append(text)
    return calls


def control_points(page: str) -> list[str]:
    """The control points of the table, Idle left out."""
    return [label for label, *_ in rows_of(page, "| Control point | Its access |") if label != "Idle"]


# ---- The grammar ---------------------------------------------------------------------------------

NAME, NUMBER, BIT = "(?:crq|new|next)", "(?:t|h|idx)", "(?:closed|safe)"
SUM = rf"(?:{NUMBER}|[0-9]+)(?: \+ (?:R|[0-9]+))?"
TAIL, NEXT = rf"Tail\({NAME}\)", rf"Next\({NAME}\)"
COUNTER = rf"(?:Head\({NAME}\)|ArrHead|ArrTail|the counter of {TAIL})"
CELL = rf"cell {NUMBER} mod R"

# What a sentence may be. Where it has a `place`, it makes the step's access there.
FORMS = {
    "name": rf"(?P<word>{NAME}) := (?P<place>QHead|QTail)",
    "counter": rf"(?P<word>{NUMBER}) := (?P<place>{COUNTER})",
    "add": rf"(?P<word>{NUMBER}) := (?P<place>{COUNTER}), which grows by 1",
    "tail": rf"(?P<bit>{BIT}), (?P<word>{NUMBER}) := (?P<place>{TAIL})",
    "value": rf"val := the value of (?P<place>{CELL})",
    "index": rf"(?P<bit>{BIT}), (?P<word>{NUMBER}) := safe bit and index of (?P<place>{CELL})",
    "cas": rf"CAS (?P<place>QHead|QTail|{NEXT}) from (?P<old>{NAME}|none) to (?P<new>{NAME})",
    "cas_tail": rf"CAS (?P<place>{TAIL}) from \(open, (?P<old>{SUM})\) to \(open, (?P<new>{SUM})\)",
    "cas2": rf"CAS2 (?P<place>{CELL}) from \((?P<old>{BIT}, {NUMBER}, (?:val|none))\)"
    rf" to \((?P<new>(?:true|false), {SUM}, (?:x|val|none)|{BIT}, {SUM}, (?:x|val|none))\)",
    "close": rf"close (?P<place>{TAIL})",
    "make": rf"(?P<word>{NAME}) := a new segment that holds"
    r" (?P<place>x in cell (?P<cell>[0-9]+) and has tail (?P<tail>[0-9]+))",
    "swap": rf"swap (?P<what>x|top) into (?P<place>ArrCell\({NUMBER}\))",
    "set": r"pass := (?P<number>[0-9]+)",
    "take": rf"(?P<word>{NAME}) := it",
    "go": rf"go to (?P<to>{LABEL})(?:, or in pass (?P<number>[0-9]+) to (?P<then>{LABEL}))?",
    "answer": r"return (?P<what>enqueued|empty|val|v)",
}

# What may be between `if` and the colon; `or` joins several of them.
CONDITIONS = {
    "has_none": rf"(?P<place>{NEXT}) is none",
    "was_closed": r"that tail was closed",
    "has_value": r"there is a value",
    "has_no_value": r"there is no value",
    "bit": rf"(?P<word>{BIT})",
    "compare": rf"(?:(?P<place>{COUNTER})|(?P<left>{SUM})) (?P<sign>>=|<=|>|<) (?P<right>{SUM})",
    "changed": rf"(?P<place>{TAIL}) is not \((?P<bit>{BIT}), (?P<word>{NUMBER})\) any more",
    "chosen": r"the schedule's choice starve is (?P<choice>yes|no)",
    "was_empty": r"it was empty",
    "was_value": r"a value v was there",
}


OUTCOMES = ("won", "lost")  # of a CAS: the forms of a condition that stands before a colon without `if`


@dataclass(frozen=True)
class Sentence:
    """A sentence without `if`, or a condition: the name of its form, and the parts of it."""

    text: str
    form: str
    parts: dict[str, str]

    def accesses(self) -> int:
        """How many accesses it makes."""
        return 1 if self.parts.get("place") else 0


@dataclass
class Branch:
    """A sentence with `if`, or what follows an outcome of a CAS."""

    conditions: list[Sentence]  # one that holds is enough
    then: Sentence
    other: Sentence | None = None

    def accesses(self) -> int:
        """How many accesses its conditions make."""
        return sum(condition.accesses() for condition in self.conditions)


Part = Sentence | Branch


@dataclass
class Step:
    """What the lines of a control point say."""

    label: str
    body: list[Part]
    after: str | None  # the control point at which the text goes on

    def has_choice(self) -> bool:
        """Whether it asks for the schedule's choice."""
        first = self.body[0]
        return isinstance(first, Branch) and first.conditions[0].form == "chosen"


def sentence_of(text: str, forms: dict[str, str]) -> Sentence:
    """The sentence of a text, by one of these forms."""
    for name, form in forms.items():
        if found := re.fullmatch(form, text):
            return Sentence(text, name, {key: part for key, part in found.groupdict().items() if part})
    raise Unreadable(f"no form of a line has `{text}`")


def is_outcome(text: str) -> bool:
    """Whether a text is what follows an outcome of a CAS."""
    return text.partition(":")[0] in OUTCOMES


def joined(lines: list[str]) -> list[str]:
    """The lines of a control point, each with what goes on under it. An outcome of a CAS begins
    anew."""
    whole: list[str] = []
    for line in lines:
        if whole and line.startswith(" ") and not is_outcome(line.strip()):
            whole[-1] += f" {line.strip()}"
        else:
            whole.append(line.strip())
    return whole


def part_of(text: str) -> Part:
    """What one sentence says, or an `if` with its `else`, or what follows an outcome of a CAS."""
    word, _, rest = text.partition(" ")
    if is_outcome(text):
        return Branch([Sentence(word[:-1], word[:-1], {})], sentence_of(rest, FORMS))
    if word != "if":
        return sentence_of(text, FORMS)
    conditions, _, ends = rest.partition(": ")
    then, _, other = ends.partition("; else ")
    either = [sentence_of(condition, CONDITIONS) for condition in conditions.split(" or ")]
    return Branch(either, sentence_of(then, FORMS), sentence_of(other, FORMS) if other else None)


def body_of(lines: list[str]) -> list[Part]:
    """The sentences of a control point. In its line an `if` is followed by its `else` alone, and an
    outcome of a CAS by the other one."""
    body: list[Part] = []
    for line in lines:
        texts = re.split("; (?!else )", line)
        for before, text in zip(["", *texts], texts):
            if before.startswith("if ") or is_outcome(before) and not is_outcome(text):
                raise Unreadable(f"`{text}` can't follow in `{line}`")
            body.append(part_of(text))
    return body


def check_step(step: Step, labels: list[str]) -> None:
    """That a step begins with its one access or with a choice, that nothing follows a sentence that
    always leads away, and that what it leads to is there."""
    first, *rest = (part.accesses() for part in step.body)
    if first + step.has_choice() != 1 or any(rest):
        raise Unreadable(f"{step.label} does not begin with its one access")
    if any(isinstance(part, Sentence) and part.form in ("go", "answer") for part in step.body[:-1]):
        raise Unreadable(f"{step.label} goes on after it has led away")
    for part in step.body:
        ends = [part] if isinstance(part, Sentence) else [end for end in (part.then, part.other) if end]
        for end in ends:
            if isinstance(part, Branch) and end.accesses():
                raise Unreadable(f"an access under a condition: `{end.text}`")
            for label in (end.parts.get("to"), end.parts.get("then")):
                if label and label not in labels:
                    raise Unreadable(f"`{end.text}`: there is no such line")


def read(page: str) -> tuple[dict[str, Step], dict[str, str]]:
    """What the page says: the step of each control point, and the first control point of each call.
    Labels are those of the table, in its order. `that cell` is the last one that the column names."""
    steps: dict[str, Step] = {}
    firsts: dict[str, str] = {}
    for call, column in lines_of(page).items():
        cell, labels = None, [*column]
        firsts[call] = labels[0]
        for label, after in zip(labels, [*labels[1:], None]):
            lines = joined(column[label])
            cell = (re.findall(CELL, " ".join(lines)) or [cell])[-1]
            lines = [line.replace("that cell", cell or "that cell") for line in lines]
            steps[label] = Step(label, body_of(lines), after)
    if [*steps] != control_points(page):
        raise Unreadable("the lines have other labels than the table of control points, or another order")
    for step in steps.values():
        check_step(step, [*steps])
    return steps, firsts
