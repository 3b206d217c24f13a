"""Plants what a port may do wrong beside its accesses, for `check.py ports`: logs of the worked port in which
memory is used again, that leave out what was chosen at E10, that are cut, or that are of another ring.

Who has a ring at a record, this finds in the log alone. A log in which rings are used again is that of the
port, with an older ring's address in the place of a new one's from its making on.
"""

import random
import re
from collections.abc import Callable, Iterator

from lcrq_tools.checks.port_runs import DIFFERS, RINGS, Bench, Report, agrees, differs, steps_with
from lcrq_tools.port.port_log import ABSENT, Record
from lcrq_tools.program import script_of

ADDRESS = re.compile(r"0x[0-9a-f]+")
SEEDS, CALLS = range(1, 4), 12
NO_CHOICE = "nothing checked the decision to starve"

# ---- Who has a ring ------------------------------------------------------------------------------


class Rings:
    """Who has which ring, by the port's own records."""

    def __init__(self) -> None:
        self.ends: dict[str, str] = {}  # of the queue: "head" and "tail"
        self.nexts: dict[str, str] = {}  # the ring after each
        self.words: dict[int, dict[str, tuple[str, int]]] = {}  # of each actor: a word, its ring, and since when
        self.made: list[str] = []  # rings, the oldest first

    def see(self, record: Record, step: int) -> None:
        """Goes on over a record, which is this step."""
        words, answer = self.words.setdefault(record.actor, {}), record.answer[-1:]
        won = answer == ("won",)
        if record.kind != "step":
            words.clear()
        elif record.label in ("E1", "Q1"):
            words.clear()
            words["crq"] = answer[0], step
            for end in ("head", "tail") if not self.made else ():
                self.ends[end] = answer[0]
            self.made = self.made or [answer[0]]
        elif record.label in ("E2", "Q13") and answer[0] not in ABSENT:
            words["next"] = answer[0], step
        elif record.label == "E12":
            words["new"] = answer[0], step
            self.made.append(answer[0])
        elif record.label == "E13" and won:
            self.nexts[words["crq"][0]] = words["new"][0]
        elif record.label in ("E3", "E14", "Q14") and won:
            to = "new" if record.label == "E14" else "next"
            self.ends["head" if record.label == "Q14" else "tail"] = words[to][0]
        if record.label in ("E3", "E14", "Q14") or record.label == "E13" and not won:
            words.clear()

    def linked(self) -> Iterator[str]:
        """The rings to which an end leads, and those after the rings that actors have."""
        for ring in self.ends.values():
            while ring:
                yield ring
                ring = self.nexts.get(ring, "")
        yield from (self.nexts.get(ring, "") for words in self.words.values() for ring, _ in words.values())

    def left(self) -> list[str]:
        """Rings to which nothing in the queue leads; actors may have them."""
        linked = {*self.linked()}
        return [ring for ring in self.made if ring not in linked]

    def who(self, ring: str) -> list[str]:
        """Which actors have a ring, as the tool says it."""
        rows = ((actor, word, has) for actor, words in sorted(self.words.items()) for word, has in words.items())
        return [f"actor {actor} has it as {word}, since step {step}" for actor, word, (at, step) in rows if at == ring]


# What chooses the older ring whose address a new one gets, or nothing.
Chooser = Callable[[Rings], str]


def reused(records: list[Record], choose: Chooser) -> tuple[list[str], list[tuple[int, str, list[str]]]]:
    """The lines of a log in which rings get the addresses that are chosen; and for each of these, the
    step, the address and who has the older ring."""
    rings, lines, names = Rings(), list[str](), dict[str, str]()
    rows: list[tuple[int, str, list[str]]] = []
    for step, record, _ in steps_with(records):
        if record.label == "E12":
            chosen = choose(rings)
            if chosen:
                address = names.get(chosen, chosen)
                rows.append((step, address, rings.who(chosen)))
                names[record.answer[-1]] = address
                rings.made.remove(chosen)
        rings.see(record, step)
        lines.append(ADDRESS.sub(lambda found: names.get(found[0], found[0]), record.text))
    return lines, rows


def free_ring(rings: Rings) -> str:
    """A ring that nobody has, if there is one."""
    return next((ring for ring in reversed(rings.left()) if not rings.who(ring)), "")


class FirstHeld:
    """Chooses, once, a ring that an actor still has as this word."""

    def __init__(self, word: str) -> None:
        self.said, self.is_over = f" has it as {word}, ", False

    def __call__(self, rings: Rings) -> str:
        held = (ring for ring in rings.left() if any(self.said in who for who in rings.who(ring)))
        chosen = "" if self.is_over else next(held, "")
        self.is_over = self.is_over or bool(chosen)
        return chosen


def held_fault(bench: Bench, records: list[Record], word: str, is_permitted: bool) -> tuple[int, str]:
    """How many rings of a log are used again while an actor has them as this word, and what is wrong with
    what is said of it, or nothing. Where it is permitted, nothing is said."""
    lines, rows = reused(records, FirstHeld(word))
    if not rows:
        return 0, ""
    step, address, who = rows[0]
    report = bench.compare(lines, "--ring", 2, *(["--reuse"] if is_permitted else []))
    if is_permitted:
        return 1, f"with --reuse: {report[1][:200]}" if " anew " in report[1] else ""
    return 1, differs(report, f"{address} was made anew while {who[0]}", step)


def reuse_runs(bench: Bench) -> Iterator[tuple[str, str]]:
    """Logs of ports that use the memory of rings again."""
    logs = [bench.log_of("lcrq", "--ring", 2, "--seed", seed, "--calls", CALLS, "--turns") for seed in SEEDS]
    count, fault = 0, ""
    for log in logs:
        lines, rows = reused(bench.records_of(log), free_ring)
        count, fault = count + len(rows), fault or agrees(bench.compare(lines, "--ring", 2))
    yield f"{count} rings whose memory is used again when nobody has it", fault or ("" if count else "none is")
    for word, is_permitted in (("crq", False), ("new", False), ("crq", True)):
        found = [held_fault(bench, bench.records_of(log), word, is_permitted) for log in logs]
        count, fault = sum(count for count, _ in found), next((fault for _, fault in found if fault), "")
        name = f"{count} rings whose memory is used again while an actor has it as {word}"
        yield f"{name}, with --reuse" if is_permitted else name, fault or ("" if count else "none is")


# ---- Choices, cuts and rings ---------------------------------------------------------------------


def numbered(records: list[Record]) -> list[tuple[int, Record]]:
    """Each record with the number of its step."""
    return [(step, record) for step, record, _ in steps_with(records)]


def choice_fault(bench: Bench, records: list[Record], chance: random.Random) -> str:
    """What is wrong where a log leaves out some of its choices, or nothing: it differs at the first record
    that follows one of these by its actor."""
    chosen = [index for index, record in enumerate(records) if record.choice][:-1]
    gone = sorted(chance.sample(chosen, min(3, len(chosen))))
    kept = [record for index, record in enumerate(records) if index not in gone]
    after = [next(record for record in records[index + 1 :] if record.actor == records[index].actor) for index in gone]
    step = next(step for step, record in numbered(kept) if any(record is other for other in after))
    return differs(bench.compare([record.text for record in kept], "--ring", 2), "whose record is missing", step)


def choice_runs(bench: Bench) -> Iterator[tuple[str, str]]:
    """Logs that leave out choices at E10: some, and all."""
    chance, logs = random.Random(1), list[list[Record]]()
    for seed in range(1, 40):
        log = bench.records_of(bench.log_of("lcrq", "--ring", 2, "--seed", seed, "--calls", CALLS, "--turns"))
        logs += [log] * (sum(bool(record.choice) for record in log) > 3)
        if len(logs) == 2:
            break
    fault = next(filter(None, (choice_fault(bench, log, chance) for log in logs)), "")
    yield f"{len(logs)} logs without some of their records of E10", fault
    without = [record.text for record in logs[0] if not record.choice]
    report = bench.compare(without, "--ring", 2)
    yield "a log without any record of E10", agrees(report) or ("" if NO_CHOICE in report[1] else report[1])
    yield "the same, with --strict", differs(bench.compare(without, "--ring", 2, "--strict"), "whose record is missing")


def cut_fault(report: Report, status: int, said: str) -> str:
    """What is wrong where a log that agrees should end with this status, and say so in its last line, or
    nothing."""
    last = report[1].splitlines()[-1]
    is_right = report[0] == status and report[1].startswith("agrees: ") and said in last
    return "" if is_right else f"status {report[0]}: `{last[:200]}`"


def cut_runs(bench: Bench) -> Iterator[tuple[str, str]]:
    """Logs that end in the middle of a record."""
    log = bench.log_of("lcrq", "--ring", 2, "--seed", 2, "--calls", 8, "--turns")
    whole = script_of(log)
    file = bench.folder / "cut.log"
    end = whole.rindex(b"; ") + 1  # behind the last `;`, in the middle of a record
    rows = [
        ("in a record", whole[:-3], "has no line feed and is not compared"),
        ("before its last line feed", whole[:-1], "has no line feed and is not compared"),
        ("behind a `;`", whole[:end] + b"\n", "ends behind a `;`"),
    ]
    for name, text, said in rows:
        file.write_bytes(text)
        where = f"the log is cut: {file}:{len(text.splitlines())} {said}"
        yield f"a log that ends {name}", cut_fault(bench.conform(file, "--ring", 2), 1, where)
        yield "the same, with --cut", cut_fault(bench.conform(file, "--ring", 2, "--cut"), 0, where)


def ring_runs(bench: Bench) -> Iterator[tuple[str, str]]:
    """Logs of a port with other rings than the model's."""
    for ring in RINGS:
        log = bench.log_of("lcrq", "--ring", ring, "--seed", 3, "--calls", 12, "--turns")
        for other in RINGS:
            if other != ring:
                status, text = bench.compare(log, "--ring", other)
                said = f"\n  with --ring {ring} this is no difference, and all {len(log):,} records agree: "
                fault = "" if status == 1 and said in text and DIFFERS.match(text) else f"status {status}: {text[:300]}"
                yield f"a log of rings of {ring}, with --ring {other}", fault


def planted_runs(bench: Bench) -> Iterator[tuple[str, str]]:
    """All of these."""
    for runs in (reuse_runs, choice_runs, cut_runs, ring_runs):
        yield from runs(bench)
