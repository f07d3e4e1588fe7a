"""A program with edits: each edit still fits the sources, and the copies name each other."""

from __future__ import annotations

import tempfile
import unittest
from pathlib import Path

from tools.kit import edited
from tools.kit.crates import Crates
from tools.kit.edited import TOP, Edit
from tools.kit.errors import Refused


class Edits(unittest.TestCase):
    def test_there_are_thirteen_faults_and_what_chooses_one(self) -> None:
        self.assertEqual([it.number for it in edited.edits()], list(range(14)))

    def test_an_edit_that_fits_nowhere_is_refused(self) -> None:
        for name, old in (("a.rt", "two"), ("a.rt", "one"), ("b.rt", "one")):
            with self.assertRaisesRegex(Refused, "01: ..rt has [02] times what is to be replaced"):
                Edit(1, "", ((name, old, "x"),)).apply({"a.rt": "one one\n"})


class Copies(unittest.TestCase):
    def setUp(self) -> None:
        self.room = Path(self.enterContext(tempfile.TemporaryDirectory()))

    def test_all_fit_the_sources_together(self) -> None:
        crates = Crates(TOP)
        made = edited.write_edited(crates, edited.edits(), self.room)
        self.assertEqual([it.name for it in made], [f"edited_{it}" for it in ("engine_inboxes", "engine_lines", "engines", "engine_scripts", "vmengine")])
        for it in edited.edits():
            self.assertTrue(it.changes, it.what)
            for name, _, new in it.changes:
                self.assertIn(new, (self.room / name.replace("crates/", "edited_")).read_text(encoding="utf-8"), it.what)
        beside = crates.beside(made)
        self.assertEqual(crates.programs(), [it for it in beside.programs() if it != "edited_vmengine"])
        self.assertEqual({it.name for it in beside.below(["edited_vmengine"])} & {it.name.removeprefix("edited_") for it in made}, set())

    def test_what_is_copied_names_its_copies(self) -> None:
        (self.room / "crates.txt").write_text("low:\nbeside: low\nchanged: low\nabove: changed beside\nvmengine: above\nother: changed\n", encoding="utf-8")
        for name, text in (("low", ""), ("beside", ""), ("changed", "1\n"), ("above", "use changed::{a};\nuse crate::changed::b;\nbeside::c(unchanged::d)\n")):
            (self.room / f"crates/{name}/src").mkdir(parents=True)
            (self.room / f"crates/{name}/src/lib.rt").write_text(text, encoding="utf-8")
        (self.room / "crates/vmengine/src").mkdir(parents=True)
        (self.room / "crates/vmengine/src/main.rt").write_text("(above::e, changed::f)\n", encoding="utf-8")
        made = edited.write_edited(Crates(self.room), [Edit(1, "", (("crates/changed/src/lib.rt", "1", "2"),))], self.room / "made")
        found = [(it.name, it.uses, [file.read_text(encoding="utf-8") for file in it.sources()], it.is_program) for it in made]
        wanted = [
            ("edited_changed", ("low",), ["2\n"], False),
            ("edited_above", ("edited_changed", "beside"), ["use edited_changed::{a};\nuse crate::changed::b;\nbeside::c(unchanged::d)\n"], False),
            ("edited_vmengine", ("edited_above",), ["(edited_above::e, edited_changed::f)\n"], True),
        ]
        self.assertEqual(found, wanted)


if __name__ == "__main__":
    unittest.main()
