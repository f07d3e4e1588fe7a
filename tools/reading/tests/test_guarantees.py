"""What has to be read: closures, their order and sizes, and the pages that tools/guarantees writes."""

from __future__ import annotations

import contextlib
import io
import tempfile
import unittest
from pathlib import Path

from tools.checks.theorems import Theorem
from tools.reading import pages
from tools.reading.closure import once, weights
from tools.reading.command import main
from tools.reading.definitions import Definition, Sources
from tools.reading.guarantees import Shelf
from tools.reading.statements import Unknown, statements_of
from tools.survey.tree import Fault

SOURCE = """\
ghost use Rattle.std.specs.Prelude.{IfOk, ◌≡◌};
ghost use Rattle.upper.specs.Rounds.{Keeps, is_small};
ghost use Rattle.upper.specs.Rounds as rounds;

/// Plays.
pub fn play(keeps: usize) -> usize
    requires { is_small keeps }
    ensures kept { IfOk result (λ r. Keeps r) }
    ensures swapped { rounds.Swaps result.now }
{
    keeps
}

/// A law.
pub fn one_way()
    ensures { (n : ℕ) → Keeps n }
{}
"""
ROUNDS = """\
-- What rounds keep.
use Rattle.std.specs.Prelude.{ℕ, Bool, true}
use Rattle.lower.specs.Journal.{Entry, length_of}
use Rattle.lower.specs.Journal.Entry.{Command}
use Rattle.lower.specs.declared.types.Setting.{Setting}
use Rattle.journal_protocol.specs.Bytes.{is_read}

-- The journal is kept. It has a second sentence.
abbrev pub Keeps : ℕ → Type 0
-- a remark
Keeps n = Holds (first n)

  where
    first : ℕ → Entry
    first n = Command n

record Holds (e : Entry) (w : Setting) : Type 0 where
  long : length_of e ≡ 0
  read : is_read e ≡ true

abbrev pub is_small : ℕ → Bool
is_small length_of = true

abbrev mutual
  pub Swaps : ℕ → Type 0
  Swaps n = Swapped n

  pub Swapped : ℕ → Type 0
  Swapped n = Swaps n
"""
JOURNAL = """\
-- Journals.
use Rattle.std.specs.Prelude.{ℕ}

-- an entry
pub data Entry : Type 0 where
  Command : ℕ → Entry
  Note : Entry

abbrev pub length_of : Entry → ℕ
length_of (Command n) = n + one
length_of Note = one

abbrev one : ℕ
one = 1

abbrev pub unused : ℕ
unused = 2
"""
README = """\
| | Guarantee | Stated at |
|---|---|---|
| 1 | **Kept.** It is kept. | [`play`](crates/upper/src/play.rt): `kept` |
| 2 | **Kept twice**, and swapped. | [`play`](crates/upper/src/play.rt): `kept`, `swapped` |
"""
THEOREMS = f"""\
# What is proved

{pages.MARKS[0]}
{pages.MARKS[1]}

## Tables

| [`play`](../crates/upper/src/play.rt) | `kept` | It keeps. |
| [`one_way`](../crates/upper/src/play.rt) | | A law. |
"""
FILES = {
    "crates.txt": "journal_protocol:\nlower: journal_protocol\nupper: lower\n",
    "README.md": README,
    "docs/THEOREMS.md": THEOREMS,
    "crates/journal_protocol/specs/Bytes.antt": "abbrev pub is_read : ℕ → ℕ\nis_read n = n\n",
    "crates/lower/specs/Lib.antt": "pub mod Journal\n",
    "crates/lower/specs/Journal.antt": JOURNAL,
    "crates/lower/src/types.rt": "pub struct Setting {\n    pub version: u8,\n}\n",
    "crates/upper/specs/Rounds.antt": ROUNDS,
    "crates/upper/src/play.rt": SOURCE,
}


class TreeTest(unittest.TestCase):
    """A test over a small tree."""

    def setUp(self) -> None:
        room = tempfile.TemporaryDirectory()
        self.addCleanup(room.cleanup)
        self.top = Path(room.name)
        for name, text in FILES.items():
            self.write(name, text)

    def write(self, name: str, text: str) -> None:
        path = self.top / name
        path.parent.mkdir(parents=True, exist_ok=True)
        path.write_text(text, encoding="utf-8")

    def theorem(self, name: str, *clauses: str) -> Theorem:
        return Theorem(self.top / "crates/upper/src/play.rt", name, clauses)

    def names(self, *clauses: str) -> list[str]:
        return [it.place.name for it in Shelf(self.top).closure([self.theorem("play", *clauses)]).above]

    def definition(self, name: str) -> Definition:
        sources = Sources(self.top)
        return sources.definition(sources.place("Rattle.upper.specs.Rounds", name))


class Closures(TreeTest):
    def test_each_definition_stands_after_those_that_mention_it(self) -> None:
        self.assertEqual(self.names("kept"), ["is_small", "Keeps", "Holds", "length_of", "one", "Entry"])

    def test_a_definition_of_which_only_another_clause_speaks_is_left_out(self) -> None:
        self.assertNotIn("Swaps", self.names("kept"))

    def test_definitions_that_mention_each_other_are_both_there(self) -> None:
        self.assertEqual(self.names("swapped"), ["is_small", "Swaps", "Swapped"])

    def test_a_parameter_hides_a_definition_of_its_name(self) -> None:
        self.assertEqual(list(self.definition("is_small").cites), [])

    def test_a_constructor_stands_for_its_type(self) -> None:
        self.assertIn("Entry", [it.name for it in self.definition("Keeps").cites])

    def test_messages_and_types_are_counted_apart(self) -> None:
        closure = Shelf(self.top).closure([self.theorem("play", "kept")])
        self.assertEqual([it.place.name for it in closure.messages], ["is_read"])
        self.assertEqual([it.name for it in closure.types], ["Setting"])

    def test_a_name_that_another_module_passes_on_is_found(self) -> None:
        self.write("crates/middle/specs/Lib.antt", "pub use Rattle.lower.specs.Journal\n")
        self.write("crates/upper/specs/Rounds.antt", ROUNDS.replace("Rattle.lower.specs.Journal.{", "Rattle.middle.specs.Journal.{"))
        self.assertIn("length_of", self.names("kept"))

    def test_the_weight_of_a_definition_is_what_is_read_for_it_alone(self) -> None:
        closure = Shelf(self.top).closure([self.theorem("play", "kept")])
        heaviest = {it.place.name: {other.place.name for other in those} for it, those in weights(closure)}
        self.assertEqual(heaviest["Holds"], {"Holds", "length_of", "one"})
        self.assertEqual(heaviest["Entry"], {"Entry"})

    def test_what_only_one_definition_mentions_can_become_part_of_it(self) -> None:
        closure = Shelf(self.top).closure([self.theorem("play", "kept")])
        found = {it.place.name: [other.place.name for other in those] for it, those in once(closure)}
        self.assertEqual(found, {"Keeps": ["Holds"], "Holds": ["length_of"], "length_of": ["one"]})


class Definitions(TreeTest):
    def test_lines_are_counted_without_comments_and_blank_lines(self) -> None:
        self.assertEqual(len(self.definition("Keeps").lines), 4)

    def test_the_words_are_the_first_sentence_above_it(self) -> None:
        self.assertEqual(self.definition("Keeps").words, "The journal is kept.")
        self.assertEqual(self.definition("is_small").words, "")

    def test_the_line_is_that_of_its_type(self) -> None:
        self.assertEqual(self.definition("Keeps").line, 9)


class Statements(TreeTest):
    def test_a_clause_comes_with_what_is_required(self) -> None:
        found = statements_of(Sources(self.top), self.theorem("play", "kept"))
        self.assertEqual([(it.kind, it.name) for it in found], [("requires", ""), ("ensures", "kept")])

    def test_a_clause_that_is_not_there_is_refused(self) -> None:
        with self.assertRaisesRegex(Unknown, "play has no clause agreed; it has kept, swapped"):
            statements_of(Sources(self.top), self.theorem("play", "agreed"))


class Pages(TreeTest):
    def wrong(self) -> list[tuple[str, str | None]]:
        return [it for it in pages.check(self.top) if it[1]]

    def test_what_was_written_passes(self) -> None:
        pages.write(self.top)
        self.assertEqual(self.wrong(), [])
        self.assertEqual(sorted(it.name for it in (self.top / "docs/guarantees").iterdir()), ["1-kept.md", "2-kept-twice.md", "README.md"])

    def test_a_definition_that_changed_makes_its_pages_wrong(self) -> None:
        pages.write(self.top)
        self.write("crates/lower/specs/Journal.antt", JOURNAL.replace("one = 1", "one =\n    1"))
        names = ["1-kept.md", "2-kept-twice.md", "README.md", "THEOREMS.md"]
        self.assertEqual([Path(name).name for name, _ in self.wrong()], names)

    def test_a_page_without_a_guarantee_is_wrong(self) -> None:
        pages.write(self.top)
        self.write("docs/guarantees/3-old.md", "# Old\n")
        self.assertEqual(self.wrong(), [("docs/guarantees/3-old.md", "no guarantee has this page any more; remove it")])

    def test_a_clause_of_two_guarantees_is_listed_once(self) -> None:
        pages.write(self.top)
        text = (self.top / "docs/guarantees/2-kept-twice.md").read_text(encoding="utf-8")
        self.assertIn("They are on the page of [guarantee 1](1-kept.md).", text)
        self.assertNotIn("| `Holds` |", text)
        self.assertIn("| `Swaps` |", text)

    def test_without_the_layer_of_messages_it_says_so(self) -> None:
        self.write("crates.txt", "lower:\nupper: lower\n")
        [(_, why)] = self.wrong()
        self.assertTrue((why or "").startswith("crates.txt names no journal_protocol"), why)

    def test_without_marks_nothing_is_written(self) -> None:
        self.write("docs/THEOREMS.md", THEOREMS.replace(pages.MARKS[1], ""))
        with self.assertRaisesRegex(Fault, "two marks aren't there"):
            pages.write(self.top)


class Command(TreeTest):
    def run_it(self, *words: str) -> tuple[int, str]:
        out = io.StringIO()
        with contextlib.redirect_stdout(out), contextlib.redirect_stderr(out):
            status = main([*words, "--top", str(self.top)])
        return status, out.getvalue()

    def test_it_prints_a_guarantee_with_its_text(self) -> None:
        status, out = self.run_it("1", "--text")
        self.assertEqual(status, 0)
        self.assertIn("crates/upper/specs/Rounds.antt:9: Keeps, 4 lines. The journal is kept.\n    abbrev pub Keeps : ℕ → Type 0\n", out)
        self.assertTrue(out.endswith("6 definitions, 17 lines in 2 files; 1 types\nand of messages and bytes 1 definitions, 2 lines\n"), out)

    def test_it_prints_a_law(self) -> None:
        status, out = self.run_it("one_way")
        self.assertEqual((status, "Holds" in out, "is_small" in out), (0, True, False))

    def test_it_lists_guarantees_and_laws(self) -> None:
        status, out = self.run_it()
        self.assertEqual((status, len(out.splitlines())), (0, 3))

    def test_a_name_that_no_page_has_is_refused(self) -> None:
        status, out = self.run_it("two_ways")
        self.assertEqual((status, out.startswith("guarantees: docs/THEOREMS.md names no two_ways")), (1, True))
