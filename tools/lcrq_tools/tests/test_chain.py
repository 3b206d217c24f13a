"""The way from `main` to the headline, and the page's parts, on a small crate."""

import functools
import re
from unittest import mock

from lcrq_tools.look import chain, contracts, statement
from lcrq_tools.look.reached import Own, Unknown
from lcrq_tools.tests.test_look import Tree

MAIN = """\
//! The program.
use low::talk;

fn main(rt: HostRuntime) -> ExitCode {
    talk(&rt)
}
"""
TALK = """\
//! What the program calls.
ghost use Rattle.low.specs.Talk.{Talks, IsBook};

pub fn talk(
    rt: &Runtime,
    more: u32,
) -> ExitCode
    requires works { IsBook rt }
    ensures talks { Talks rt result }
    ensures other { result ≡ 0 }
{
    go(rt)
}
"""
SPECS = """\
-- What a talk does.
use Rattle.std.specs.Io.KnownBytes.{Appends}

-- it was asked, or not
abbrev pub Talks : Rt → Nat → Type 0
Talks rt result =
    ((fault : Fault) × (result ≡ Err (Stopped fault)) × IsUnused rt)
    ⊎ ((opened : File) × (book : List (A × B)) × Ran rt book)

-- it ran
pub record Ran (rt : Rt) (book : Book) : Type 0 where
  pub after : State
  pub given' : List Nat
  pub took : Appends rt given'
  pub done : Converses (Headline after) rt

-- nothing was used
abbrev pub IsUnused : Rt → Type 0
IsUnused rt = Appends rt []

-- a book
abbrev pub IsBook : Rt → Type 0
IsBook rt = rt ≡ rt

module _ (Done : List Nat → Type 0) where
  -- a conversation
  abbrev pub Converses : Rt → Type 0
  Converses rt = (lines : List Nat) × Done lines

-- the headline
pub record Headline (old : State) (lines : List Nat) : Type 0 where
  pub is_run : IsRunOfLive old

-- the run
pub record IsRunOfLive (old : State) : Type 0 where
  pub state : old ≡ old
"""
CLAUSE = ["low/src/talk.rt", "talk.talks"]


class Talking(Tree):
    """A tree with a program that reaches a headline."""

    def setUp(self) -> None:
        super().setUp()
        crates = self.top / "crates"
        for name, text in {"low/src/talk.rt": TALK, "high/src/main.rt": MAIN, "low/specs/Talk.antt": SPECS}.items():
            (crates / name).write_text(text, encoding="utf-8")
        self.specs = crates / "low/specs/Talk.antt"


class Chain(Talking):
    """What lies between a clause and the headline."""

    def links(self, *words: str) -> list[tuple[str, list[str], list[str]]]:
        """The links, each with the names of what exists."""
        return [(own.name, [name for name, _ in exist], on_bytes) for own, exist, on_bytes in chain.chain_of(words)]

    def test_the_way_begins_at_what_main_calls(self) -> None:
        self.assertEqual(self.links("crates/high/src/main.rt"), [("main", [], []), *self.links(*CLAUSE)])

    def test_each_definition_has_what_it_leaves_open(self) -> None:
        self.assertEqual(self.links(*CLAUSE), [
            ("talk.talks", [], []), ("Talks", ["opened", "book"], ["IsUnused"]),
            ("Ran", ["after", "given'"], ["Appends"]), ("Converses", ["lines"], []), ("Headline", [], []),
        ])

    def test_what_exists_has_its_type(self) -> None:
        exist = dict(chain.chain_of(CLAUSE)[1].exist)
        self.assertEqual(exist, {"opened": "File", "book": "List (A × B)"})

    def test_no_way_is_a_fault(self) -> None:
        for words, said in (
            (["low/src/none.rt"], "^no source file low/src/none.rt in crates/$"),
            (["low/src/talk.rt"], "^which function of low/src/talk.rt\\?$"),
            (["low/src/talk.rt", "talk.other"], "^no clause of low/src/talk.rt talk.other reaches Headline$"),
        ):
            with self.subTest(words), self.assertRaisesRegex(Unknown, said):
                chain.chain_of(words)

    def test_a_main_that_calls_nothing_of_it_is_a_fault(self) -> None:
        (self.top / "crates/high/src/main.rt").write_text(MAIN.replace("talk(", "walk("), encoding="utf-8")
        contracts.lines_of.cache_clear()
        with self.assertRaisesRegex(Unknown, "^nothing that main calls reaches Headline$"):
            chain.chain_of(["high/src/main.rt"])

    def test_a_function_ends_at_its_brace(self) -> None:
        self.assertTrue(contracts.body_of(self.top / "crates/low/src/talk.rt", "talk").endswith("    go(rt)"))

    def test_links_behind_the_headline_are_shown_if_they_leave_something_open(self) -> None:
        opens: dict[str, list[tuple[str, str]]] = {"A": [], "Headline": [], "B": [], "C": [("x", "Nat")]}
        links = [chain.Link(Own(self.specs, name), exist, []) for name, exist in opens.items()]
        self.assertEqual([link.own.name for link in statement.shown_links(links)], ["A", "Headline", "C"])


class Statement(Talking):
    """The parts of the page."""

    def setUp(self) -> None:
        super().setUp()
        uncached = functools.cache(statement.parts.__wrapped__)
        self.enterContext(mock.patch.multiple(statement, MAIN="high/src/main.rt", HEADLINE=CLAUSE, parts=uncached))

    def test_the_theorem_is_clause_and_record(self) -> None:
        lines = statement.parts()["theorem"]
        self.assertEqual(lines[1:4], [
            "pub fn talk(rt: &Runtime, more: u32) -> ExitCode", "    requires works { IsBook rt }",
            "    ensures talks { Talks rt result }",
        ])
        self.assertIn("pub record IsRunOfLive (old : State) : Type 0 where", lines)
        self.assertNotIn("-- the headline", lines)

    def test_the_chain_names_a_file_where_it_changes(self) -> None:
        text = [" ".join(line.split()) for line in statement.parts()["chain"]]
        self.assertEqual(text[1:5], [
            "main high/src/main.rt", "talk.talks low/src/talk.rt",
            "Talks low/specs/Talk.antt some opened, book", "Ran some after, given'; bytes: Appends",
        ])

    def test_a_part_is_found_on_a_page(self) -> None:
        marked = statement.marked("chain")
        self.assertEqual(statement.on_page("chain", f"# Head\n\n{marked}\n\nMore.\n"), marked)
        self.assertEqual(statement.on_page("theorem", marked), "")
        self.assertTrue(re.match(r"<!-- .*chain -->\n```text\n", marked))
