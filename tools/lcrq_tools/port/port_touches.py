"""Says what each record of a port's log touches, by the log alone, for the search of `port_orders.py`.

The label gives the kind of the place; the actor's records before it give the segment, by the port's name, and the
position, and so the cell. What they leave out may be anything. Only records that agree are of interest, and they
touch what the log says.
"""

from collections.abc import Iterator, Sequence
from dataclasses import dataclass

from lcrq_tools.port.port_log import ABSENT, SEGMENT, Record, number_of

# The kinds of places, each with the labels that read it, and with those that may write it.
READS = {"qtail": "E1", "next": "E2 Q13", "value": "E5 Q3", "index": "E6 Q4", "head": "E7 E9 Q10", "qhead": "Q1"}
READS |= {"tail": "Q8 Q9 Q11", "atail": "B3"}
WRITES = {"qtail": "E3 E14", "tail": "E4 E11 Q12", "cell": "E8 Q5 Q6 Q7", "whole": "E12", "next": "E13", "head": "Q2"}
WRITES |= {"qhead": "Q14", "atail": "A1", "acell": "A2 B2", "ahead": "B1"}
READ_BY = {label: kind for kind, labels in READS.items() for label in labels.split(" ")}
TOUCHED_BY = READ_BY | {label: kind for kind, labels in WRITES.items() for label in labels.split(" ")}

HALVES = {"cell": ("value", "index")}  # the kinds of places that a kind names
OF_A_CELL, OF_A_SEGMENT = ("value", "index", "cell"), ("head", "tail", "next")
OF_NAMES = ("qhead", "qtail", "next", "whole")  # the kinds of places whose answers are names
ANYTHING = "anything"  # the kind of a place that isn't known


@dataclass(frozen=True, slots=True)
class Touch:
    """What a record touches. What isn't known is empty."""

    kinds: tuple[str, ...] = ()  # of places; none where it touches none
    segment: str = ""  # as the port names it
    index: str = ""  # of a cell
    writes: bool = False
    names: frozenset[str] = frozenset()  # of segments, that it has
    changes: bool = False  # the meaning of a name that has one

    def meets(self, other: "Touch") -> bool:
        """Whether the two records may depend on each other."""
        if self.changes or other.changes:
            return True
        if "whole" in (*self.kinds, *other.kinds) and not self.names.isdisjoint(other.names):
            return True
        is_one = all(own == its or not own or not its for own, its in zip(self.where(), other.where()))
        return (self.writes or other.writes) and is_one and self.shares(other)

    def where(self) -> tuple[str, str]:
        """The segment and the cell."""
        return self.segment, self.index

    def shares(self, other: "Touch") -> bool:
        """Whether the two may touch places of one kind."""
        if not self.kinds or not other.kinds:
            return False
        return ANYTHING in (*self.kinds, *other.kinds) or not set(self.kinds).isdisjoint(other.kinds)


def kind_of(record: Record) -> str:
    """The kind of place that a record touches; nothing for one that touches none."""
    if record.kind != "step" or record.choice:
        return ""
    kind = record.place[0] if record.place else TOUCHED_BY.get(record.label, ANYTHING)
    return "cell" if kind == "value" and len(record.answer) > 1 else kind  # a whole cell that is read at once


def names_in(record: Record) -> Iterator[str]:
    """The words of a record that are names of segments, or may be."""
    kind = kind_of(record)
    words = [*record.place[1:2], *(record.answer[-1:] if kind in (*OF_NAMES, ANYTHING) else ())]
    return (word for word in words if word not in (*ABSENT, "won", "lost", "made"))


class Reader:
    """Reads the records of one actor, one after the other, and knows where it is."""

    def __init__(self, ring: int):
        self.ring, self.segment, self.index = ring, "", ""

    def touch(self, record: Record, changes: bool) -> Touch:
        """What the next record touches."""
        kind = kind_of(record)
        if not kind:
            return Touch()
        segment, index = self.where(record, kind)
        is_read = record.label in READ_BY or record.access == ("read",) or record.answer == ("lost",)
        self.go_on(record)
        names = frozenset(names_in(record))
        return Touch(HALVES.get(kind, (kind,)), segment, index, not is_read, names, changes)

    def where(self, record: Record, kind: str) -> tuple[str, str]:
        """The segment and the cell that a record names, or that its actor has."""
        if record.place:
            segment, index = (*map(str, record.place[1:]), "", "")[:2]
            return plain(segment), number_of(index)
        if kind == "whole":
            return next(names_in(record), ""), ""
        segment = self.segment if kind in (*OF_A_CELL, *OF_A_SEGMENT) else ""
        return segment, self.index if kind in OF_A_CELL else ""

    def go_on(self, record: Record) -> None:
        """Notes the segment and the cell that the actor has behind a record."""
        last = record.answer[-1] if record.answer else ""
        if record.label in ("E1", "Q1", ""):
            self.segment, self.index = plain(last) if record.label else "", ""
        elif record.label in ("E4", "Q2"):
            position = number_of(last)
            self.index = str(int(position) % self.ring) if position else ""


def plain(name: str) -> str:
    """A port's name of a segment. The model's own may be another name of the same one."""
    return "" if SEGMENT.fullmatch(name) else name


def renaming(records: Sequence[Record]) -> set[int]:
    """The numbers of the makings that give another meaning to a name: a record before has it."""
    known: set[str] = set()
    found: set[int] = set()
    for number, record in enumerate(records):
        names = {*names_in(record)}
        if kind_of(record) in ("whole", ANYTHING) and not known.isdisjoint(names):
            found.add(number)
        known |= names
    return found


def touches_of(records: Sequence[Record], ring: int) -> list[Touch]:
    """What each record of a log touches."""
    readers = {record.actor: Reader(ring) for record in records}
    changing = renaming(records)
    return [readers[record.actor].touch(record, number in changing) for number, record in enumerate(records)]
