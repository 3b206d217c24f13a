"""Follows a contract down to the headline, for `definitions.py --chain`: each definition on the way, and what is left
open there.

`chain_of` gives a `Link` for each: first the clause, then the definitions between it and the record `Headline`, each
before those that it names. Where one of these hands a fact on the way to another definition, as a run of a script does
to a conversation, that one is on the way too. A link has the variables that the definition only says exist, and its
facts on bytes: these say nothing of bytes that no contract knows. All of this is found by words, as in `reached.py`.
"""

import functools
import re
from collections.abc import Collection, Iterator, Sequence
from pathlib import Path
from typing import NamedTuple

from lcrq_tools.look.contracts import Function, body_of, code_of, functions_of, lines_of
from lcrq_tools.look.lines import sources_of
from lcrq_tools.look.reached import WORD, OfKit, Own, Reached, Unknown, asked_for, crates_of_names, reached_from
from lcrq_tools.program import CRATES

GOAL = "Headline"
CALL = re.compile(r"\b([a-z]\w*)\(")
BINDER = re.compile(r"\(([\w']+) : ")  # a variable with its type, in parentheses
RECORD_FIELD = re.compile(r"^ +pub ([\w']+) : (.*)", re.MULTILINE)
NEXT_FACT = re.compile(r" [×⊎] ")
FACT = re.compile(r"\((\w+) : (?:[^()]|\([^()]*\))*→ Type 0\)")  # a parameter that is a fact
KNOWN_BYTES = "Io.KnownBytes"  # the module of the kit with the facts on bytes


class Link(NamedTuple):
    """A clause or a definition on the way, with the variables that it says exist and its facts on bytes."""

    own: Own
    exist: list[tuple[str, str]]
    on_bytes: list[str]


# ---- What a definition leaves open ---------------------------------------------------------------


def end_of(text: str, first: int) -> int:
    """The place behind the parenthesis that closes the one at this place."""
    depth = 0
    for place in range(first, len(text)):
        depth += {"(": 1, ")": -1}.get(text[place], 0)
        if not depth:
            return place + 1
    return len(text)


def names(text: str, name: str) -> bool:
    """Whether a text has this word."""
    return bool(re.search(rf"(?<![\w'.]){name}(?![\w'])", text))


def bound_in(text: str) -> Iterator[tuple[str, str]]:
    """The variables of which a text says that they exist, `(name : type) × ..`, each with its type; without those that
    are the argument of a constructor in an equation, as in `result ≡ Err fault`."""
    for found in BINDER.finditer(text):
        end = end_of(text, found.start())
        if text[end:].lstrip().startswith("×") and not re.search(rf"≡ (?:[A-Z]\w* \(?)+{found[1]}\b", text[end:]):
            yield found[1], text[found.end() : end - 1]


def exist_in(text: str) -> list[tuple[str, str]]:
    """What a definition says exists, each with its type: bound variables, or those fields of a record that other fields
    of it name."""
    if "record " not in text.partition("\n")[0]:
        return list(dict.fromkeys(bound_in(text)))
    fields = RECORD_FIELD.findall(text)
    return [(name, kind) for name, kind in fields if any(names(other, name) for _, other in fields)]


# ---- The way -------------------------------------------------------------------------------------


def is_fact(own: Own) -> bool:
    """Whether this is a clause or the definition of a fact, which is named like a type."""
    return own.path.suffix == ".rt" or own.name[0].isupper()


@functools.cache
def facts_of(path: Path) -> set[str]:
    """The names of the parameters of a file's definitions that are facts."""
    return set(FACT.findall("\n".join(lines_of(path))))


def is_fact_on_bytes(name: str, used: OfKit, code: str) -> bool:
    """Whether a name of the kit, in a definition with this code, states a fact on bytes, if they are known."""
    return used.module.endswith(KNOWN_BYTES) and name[0].isupper() or name == "IfSome" and "remaining" in code


class Way:
    """What lies between clauses and the headline."""

    def __init__(self, reached: Reached) -> None:
        self.reached = reached
        self.links: dict[Own, None] = {}
        self.on = {own for own in reached.texts if own.name == GOAL}
        users: dict[Own, list[Own]] = {}
        for owner, uses in reached.uses.items():
            for used in uses:
                if isinstance(used, Own):
                    users.setdefault(used, []).append(owner)
        waiting = list(self.on)
        while waiting:
            new = {own for own in users.get(waiting.pop(), []) if is_fact(own)} - self.on
            self.on |= new
            waiting += new

    def code_of(self, own: Own) -> str:
        """A definition without comments; nothing of a clause."""
        text = self.reached.texts.get(own)
        return code_of(text, own.path.suffix) if text else ""

    def named_by(self, own: Own) -> list[Own]:
        """The definitions that one names, in order."""
        uses = self.reached.uses.get(own, ())
        return [used for used in uses if isinstance(used, Own) and used.path.suffix == ".antt"]

    def takes_fact(self, own: Own, seen: Collection[Own] = ()) -> bool:
        """Whether a definition names a parameter that is a fact, itself or through those that it names."""
        words = WORD.findall(self.code_of(own))
        return own not in seen and (any(word in facts_of(own.path) for word in words) or any(
            self.takes_fact(used, {*seen, own}) for used in self.named_by(own)))

    def gets_fact(self, own: Own, used: Own) -> bool:
        """Whether a definition hands a fact on to one that it names: one on the way, or a parameter."""
        facts = facts_of(own.path) if own not in self.on else {on.name for on in self.on}
        lines = (line.partition(used.name)[2] for line in self.code_of(own).splitlines())
        is_handed = any(word in facts for rest in lines for word in WORD.findall(NEXT_FACT.split(rest)[0]))
        return self.takes_fact(used) and (is_handed or own not in self.on and own.path == used.path)

    def next_of(self, own: Own) -> list[Own]:
        """What comes next on the way."""
        named = self.named_by(own) if own.name != GOAL else []
        return [used for used in named if used in self.on or self.gets_fact(own, used)]

    def go_from(self, own: Own) -> None:
        """Adds what is on the way from here on to the links."""
        if own not in self.links:
            self.links[own] = None
            for used in self.next_of(own):
                self.go_from(used)

    def on_bytes(self, own: Own, seen: Collection[Own] = ()) -> list[str]:
        """The facts on bytes that a definition names: the kit's, and definitions off the way that rest on these."""
        code = self.code_of(own)
        of_kit = [used.name for used in self.reached.uses.get(own, ())
                  if isinstance(used, OfKit) and is_fact_on_bytes(used.name, used, code)]
        off = [used for used in self.named_by(own) if used not in seen and used not in self.links]
        return of_kit + [used.name for used in off if is_fact(used) and self.on_bytes(used, {*seen, own})]


def links_of(words: Sequence[str]) -> list[Link]:
    """The links from the clauses that a command line names to the headline."""
    way = Way(reached_from(words))
    for path, name, _ in way.reached.clauses:
        for own in [own for own in way.on if own.path == path and own.name.partition(".")[0] == name]:
            way.go_from(own)
    if not way.links:
        raise Unknown(f"no clause of {' '.join(words)} reaches {GOAL}")
    return [Link(own, exist_in(way.code_of(own)), way.on_bytes(own)) for own in way.links]


# ---- What `main` calls ---------------------------------------------------------------------------


def called_by(path: Path, name: str) -> Iterator[tuple[Path, Function]]:
    """The functions of other crates that a function calls, and that ensure something."""
    for call in dict.fromkeys(CALL.findall(body_of(path, name))):
        for crate in crates_of_names(path).get(call, []):
            for source in sources_of(CRATES / crate) if (CRATES / crate).is_dir() else ():
                yield from ((source, function) for function in functions_of(source)
                            if function.name == call and not function.owner and function.clauses)


def words_below(path: Path, name: str) -> list[str]:
    """The clauses of what a function calls that reach the headline, as on a command line."""
    for source, function in called_by(path, name):
        file = str(source.relative_to(CRATES))
        for clause in function.clauses:
            words = [file, f"{function.name}.{clause.label}" if clause.label else function.name]
            if clause.kind == "ensures" and any(own.name == GOAL for own in reached_from(words).texts):
                return words
    raise Unknown(f"nothing that {name} calls reaches {GOAL}")


def chain_of(words: Sequence[str]) -> list[Link]:
    """The links from what a command line names; from a file alone it is its `main`, and what this calls."""
    asked = asked_for(words)
    path = CRATES / asked[0][0]
    if not path.is_file() or path.suffix != ".rt":
        raise Unknown(f"no source file {asked[0][0]} in crates/")
    if asked[0][1]:
        return links_of(words)
    if not any(function.name == "main" for function in functions_of(path)):
        raise Unknown(f"which function of {asked[0][0]}?")
    return [Link(Own(path, "main"), [], []), *links_of(words_below(path, "main"))]
