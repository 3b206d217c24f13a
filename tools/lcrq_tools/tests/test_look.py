"""What is read of the repository's crates, on a small tree of two crates."""

import contextlib
import io
import tempfile
import unittest
from collections.abc import Callable
from pathlib import Path
from unittest import mock

from lcrq_tools.look import chain, clause_counts, contracts, definitions, kit, lines, promises, reached, statement
from lcrq_tools.look.reached import Unknown

COUNTER = """\
//! A counter that stays small.
ghost use Rattle.low.specs.Counts.{IsSmall, IsUnused as IsIdle};

use std::fmt::Debug;

/// How far it counts.
pub const MOST: u32 = 10;

/// A counter.
pub struct Counter {
    pub count: u32,
    pub mark: Mark,
    ghost small: { IsSmall count },
}

/// What is beside it.
pub struct Mark {
    pub at: u32,
}

impl Counter {
    /// Adds to the count.
    pub fn add(&mut self, more: u32)
        requires room { IsSmall (self.old.count + more) }
        ensures ok { IsSmall self.new.count }
        ensures same {
            self.new.count ≡ self.old.count + more
        }
    {
        self.count += more;
    }

    fn idle(&self) -> bool
        ensures { IsIdle result }
    {
        false
    }
}
"""
COUNTS = """\
-- What counters are.
use Rattle.kit.Order.{IsBelow};

-- The words of a count, which stands
-- for two lines of comments.
abbrev pub IsSmall : Nat → Prop
IsSmall count = IsBelow count (limit count)

abbrev pub limit : Nat → Nat
limit count = 10

abbrev pub IsUnused : Bool → Prop
IsUnused is = is ≡ true
"""
VIEWED = f"""\
//! Counters that are looked at.
ghost use Rattle.low.specs.Counts.{{state, room as room_of_all}};

pub fn idle() {{}}

pub fn look(it: &mut Counter)
    ensures ok {{ state it.new ≡ state it.old }}
    ensures room {{ room_of_all (it.old) 1 }}
    ensures length {{ length it.now ≡ 1 }}
    ensures wide {{ {'IsIdle ' * 13}}}
{{
}}
"""
FILES = {
    "crates.txt": "low\nhigh: low\nlow_tests: low\n",
    "crates/low/src/lib.rt": "//! Counters.\nmod counter;\n\npub use counter::Counter;\n",
    "crates/low/src/counter.rt": COUNTER,
    "crates/low/specs/Counts.antt": COUNTS,
    "crates/low/proofs/Small.antt": "-- A proof.\n\nlemma is-small\n",
    "crates/high/src/lib.rt": "//! What uses them.\n\npub fn twice() {}\n",
    "crates/low_tests/src/tests.rt": "#[test]\nfn it_counts() {}\n",
}


class Tree(unittest.TestCase):
    """A small tree in the place of the repository."""

    def setUp(self) -> None:
        self.top = Path(self.enterContext(tempfile.TemporaryDirectory()))
        for name, text in FILES.items():
            path = self.top / name
            path.parent.mkdir(parents=True, exist_ok=True)
            path.write_text(text, encoding="utf-8")
        crates = self.top / "crates"
        modules = (chain, clause_counts, contracts, definitions, lines, promises, reached, statement)
        places = [(it, "CRATES", crates) for it in modules]
        for module, name, value in [*places, (lines, "TOP", self.top), (kit, "has_kit", lambda: False)]:
            self.enterContext(mock.patch.object(module, name, value))
        forget: list[Callable[[], None]] = [
            reached.types.cache_clear, reached.crates_of_names.cache_clear, promises.exports_of.cache_clear
        ]
        for clear in forget:
            clear()
            self.addCleanup(clear)
        self.counter, self.counts = crates / "low/src/counter.rt", crates / "low/specs/Counts.antt"


class Lines(Tree):
    """How many lines a crate has."""

    def test_crates_are_in_their_order(self) -> None:
        self.assertEqual(lines.crate_names(), ["low", "high", "low_tests"])

    def test_blank_lines_and_comments_do_not_count(self) -> None:
        self.assertEqual(lines.lines_in(self.counts), 7)
        self.assertTrue(lines.counts_as_line("x // y", ".rt"))
        self.assertFalse(lines.counts_as_line("   // y", ".rt"))
        self.assertFalse(lines.counts_as_line("", ".antt"))

    def test_lines_are_by_kind(self) -> None:
        wanted = {"code": lines.lines_in(self.counter) + 2, "definitions": 7, "proofs": 1, "tests": 0}
        self.assertEqual(lines.counts_of(self.top / "crates" / "low"), wanted)
        self.assertEqual(lines.counts_of(self.top / "crates" / "low_tests")["tests"], 2)
        self.assertEqual(lines.kind_of(("src", "tests", "rows.rt")), "tests")
        self.assertEqual(lines.kind_of(("must-fail", "a.edit")), None)

    def test_a_crate_has_the_lines_of_its_tests(self) -> None:
        told = io.StringIO()
        with contextlib.redirect_stdout(told):
            lines.print_crates()
        rows = told.getvalue().splitlines()
        self.assertEqual([row.split("|")[1].strip() for row in rows], ["Crate", "---", "low", "high", "all"])
        self.assertEqual([cell.strip() for cell in rows[2].split("|")[3:6]], ["7", "1", "2"])


class Contracts(Tree):
    """Functions, clauses, definitions and types."""

    def test_a_function_has_its_clauses(self) -> None:
        add, idle = contracts.functions_of(self.counter)
        self.assertEqual((add.owner, add.name, add.is_public), ("Counter", "add", True))
        self.assertEqual([(it.kind, it.label) for it in add.clauses],
                         [("requires", "room"), ("ensures", "ok"), ("ensures", "same")])
        self.assertTrue(add.clauses[2].text.endswith("self.old.count + more\n        }"))
        self.assertEqual((idle.is_public, [it.label for it in idle.clauses]), (False, [None]))

    def test_a_block_has_the_comment_above_it(self) -> None:
        blocks = contracts.blocks_of(self.counts)
        self.assertEqual([*blocks], ["IsSmall", "limit", "IsUnused"])
        self.assertEqual(len(blocks["IsSmall"].splitlines()), 4)
        self.assertEqual(contracts.blocks_of(self.counter).keys(), {"MOST", "Counter", "Mark"})

    def test_an_import_may_give_another_name(self) -> None:
        found = contracts.imports_of(self.counter)
        self.assertEqual(found["IsIdle"], ("Rattle.low.specs.Counts", "IsUnused"))
        self.assertEqual(found["IsSmall"], ("Rattle.low.specs.Counts", "IsSmall"))

    def test_labels_are_those_of_the_file(self) -> None:
        self.assertEqual(contracts.labels_of(self.counter, "Counter::add"), {"room", "ok", "same"})
        self.assertEqual(contracts.labels_of(self.counter, "Counter"), {"count", "mark", "small"})
        self.assertIsNone(contracts.labels_of(self.counter, "Other::add"))

    def test_a_struct_comes_apart(self) -> None:
        text = contracts.without_ghosts(contracts.blocks_of(self.counter)["Counter"])
        self.assertNotIn("ghost", text)
        self.assertEqual(contracts.parts_of(contracts.code_of(text, ".rt")),
                         ("pub struct Counter {", [("count", "u32,"), ("mark", "Mark,")]))


class Definitions(Tree):
    """Which definitions a contract reaches."""

    def reached(self, *words: str) -> dict[str, list[str]]:
        """What a command line reaches, by file."""
        found = definitions.by_file(reached.reached_from(list(words)).texts)
        return {str(path): names for path, names in found}

    def test_words_are_followed_through_imports(self) -> None:
        found = self.reached("low/src/counter.rt", "add.ok")
        self.assertEqual(found["low/specs/Counts.antt"], ["IsSmall", "limit"])
        self.assertEqual(found["low/src/counter.rt"], ["Counter"])

    def test_the_type_of_a_field_is_followed_if_something_names_it(self) -> None:
        self.counter.write_text(COUNTER.replace("{ IsIdle result }", "{ IsIdle self.mark }"), encoding="utf-8")
        self.assertIn("Mark", self.reached("low/src/counter.rt", "idle")["low/src/counter.rt"])
        self.assertNotIn("Mark", self.reached("low/src/counter.rt", "add.ok")["low/src/counter.rt"])

    def test_an_alias_leads_to_the_definition(self) -> None:
        self.assertEqual(self.reached("low/src/counter.rt", "idle")["low/specs/Counts.antt"], ["IsUnused"])

    def test_what_a_type_keeps_is_a_clause(self) -> None:
        self.assertEqual(self.reached("low/src/counter.rt", "Counter.small")["low/specs/Counts.antt"],
                         ["IsSmall", "limit"])

    def test_lines_and_comments_are_counted(self) -> None:
        found = reached.reached_from(["low/src/counter.rt", "add.ok"])
        self.assertEqual(found.counts(self.counts, "IsSmall"), (2, 2))
        count, files, _, _ = found.totals()
        self.assertEqual((count, files), (3, 2))
        self.assertEqual([*found.from_kit()], [("Rattle.kit.Order", ["IsBelow"])])

    def test_what_is_not_there_is_a_fault(self) -> None:
        for words, said in (
            (["low/src/none.rt", "add"], "^no source file low/src/none.rt in crates/$"),
            (["low/src/counter.rt"], "^which function of low/src/counter.rt\\?$"),
            (["low/src/counter.rt", "take"], "^no function take in low/src/counter.rt$"),
            (["low/src/counter.rt", "add.err"], "^no clause err of add, which ensures ok, same$"),
        ):
            with self.subTest(words), self.assertRaisesRegex(Unknown, said):
                self.reached(*words)

    def test_a_file_may_have_several_functions(self) -> None:
        self.assertEqual(reached.asked_for(["crates/a.rt", "f", "g.ok", "b.rt", "h"]),
                         [("a.rt", ["f", "g.ok"]), ("b.rt", ["h"])])


class Promises(Tree):
    """What a crate promises."""

    def test_public_functions_have_their_labels(self) -> None:
        told = io.StringIO()
        with contextlib.redirect_stdout(told):
            promises.print_promises(["low"])
        text = told.getvalue()
        self.assertRegex(text, r"Counter \| keeps small")
        self.assertRegex(text, r"add.* \| .*ok, same")
        self.assertNotIn("idle", text)


class ClauseCounts(Tree):
    """How many clauses the crates have."""

    def test_each_crate_has_a_row_before_the_sum(self) -> None:
        (self.top / "crates/high/src/lib.rt").write_text(VIEWED, encoding="utf-8")
        told = io.StringIO()
        with contextlib.redirect_stdout(told):
            clause_counts.print_counts()
        rows = [[cell.strip() for cell in row.split("|")[1:-1]] for row in told.getvalue().splitlines()]
        wanted = [["low", "2", "4", "0", "0"], ["high", "1", "4", "1", "2"], ["all", "3", "8", "1", "2"]]
        self.assertEqual(rows[2:], wanted)
