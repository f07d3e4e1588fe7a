"""docs/DIFFERENCES.md is held against the original's public items: tools/checks/original.py."""

from __future__ import annotations

import sys
import tempfile
import unittest
from pathlib import Path

from tools.checks import original

TOP = Path(__file__).resolve().parents[3]
CRATES = "types: bytes\ninvocation_vm: types\nelsewhere: types\n"
TYPES = """//! Types.
use bytes::Bytes;

/// A value.
#[derive(Clone, Debug, Drop)]
pub enum Value {
    Void,
    Pair { left: u32 },
}

impl Value {
    pub fn name(&self) -> &'static str
        ensures { result ≡ result }
    {
        "Void"
    }
}

impl From<u32> for Value {
    fn from(number: u32) -> Value {
        Value::Pair { left: number }
    }
}

pub struct Handle(pub u32);
"""
VM = """//! The VM.
mod vm;

pub use types::{Handle as Given, Value};
pub use vm::VM;
"""
FACADE = """//! The front door.
pub use invocation_vm::{Given, VM};
pub use types::Value;
"""
TRAIT = """//! The trait.
pub trait VM: Sized {
    fn sleep(&mut self);
}
"""
ITEMS = """# Items.
same enum Value: Void Pair left name
same impl Value: Clone Debug From<u32>
same struct Given
same trait VM: sleep
other mod fmt = the module fmt
"""
PAGE = "| Original | Here |\n|---|---|\n| the module `fmt` | `Debug` |\n"


class OfAFolder(unittest.TestCase):
    def setUp(self) -> None:
        room = tempfile.TemporaryDirectory()
        self.addCleanup(room.cleanup)
        self.root = Path(room.name)
        for name, text in {
            "crates.txt": CRATES,
            "crates/types/src/lib.rt": TYPES,
            "crates/invocation_vm/src/lib.rt": VM,
            "crates/invocation_vm/src/vm.rt": TRAIT,
            "crates/palqytun/src/vm.rt": FACADE,
            "crates/elsewhere/src/lib.rt": "pub struct Other {\n    pub part: u32,\n}\n",
            "tools/checks/original.items": ITEMS,
            "docs/DIFFERENCES.md": PAGE,
        }.items():
            self.write(name, text)

    def write(self, name: str, text: str) -> None:
        path = self.root / name
        path.parent.mkdir(parents=True, exist_ok=True)
        path.write_text(text, encoding="utf-8")

    def wrong(self) -> list[str]:
        return [f"{where}: {wrong}" for where, wrong in original.check(self.root) if wrong]

    def with_line(self, line: str) -> list[str]:
        self.write("tools/checks/original.items", f"{ITEMS}{line}\n")
        return self.wrong()

    def test_all_is_well(self) -> None:
        self.assertEqual(self.wrong(), [])

    def test_a_member_that_is_not_there(self) -> None:
        renamed = "if it is renamed or left out, write 'other' and a row in docs/DIFFERENCES.md"
        self.assertEqual(self.with_line("same enum Value: Failure"), [f"tools/checks/original.items:7: Value has no Failure; {renamed}"])

    def test_a_trait_that_is_not_there(self) -> None:
        self.assertIn("Value has no Hash", self.with_line("same impl Value: Hash")[0])

    def test_an_item_of_another_kind(self) -> None:
        self.assertIn("no crate has a public struct Value", self.with_line("same struct Value")[0])

    def test_an_item_that_is_not_passed_on(self) -> None:
        self.write("crates/palqytun/src/vm.rt", FACADE.replace("pub use types::Value;\n", ""))
        self.assertIn("crates/palqytun/src/vm.rt doesn't pass Value on", self.wrong()[0])

    def test_an_item_of_a_crate_that_is_not_below(self) -> None:
        self.assertIn("no crate has a public struct Other", self.with_line("same struct Other: part")[0])

    def test_a_row_that_is_not_there(self) -> None:
        wrong = "tools/checks/original.items:7: macro race: no row of docs/DIFFERENCES.md has 'race!' in its first column"
        self.assertEqual(self.with_line("other macro race = race!"), [wrong])

    def test_a_row_counts_by_its_first_column(self) -> None:
        self.assertEqual(len(self.with_line("other text = Debug")), 1)

    def test_a_line_of_no_form(self) -> None:
        for line in ("same fmt", "same class Value", "other fmt", "Value"):
            with self.subTest(line):
                self.assertIn("it is no line 'same KIND NAME: MEMBER ..'", self.with_line(line)[0])

    def test_a_function_beyond_the_original_has_to_be_named(self) -> None:
        self.write("crates/invocation_vm/src/vm.rt", TRAIT.replace("sleep(&mut self);", "sleep(&mut self);\n    fn wake(&mut self);"))
        self.assertEqual(self.wrong(), ["docs/DIFFERENCES.md: it doesn't name what VM has beyond the original: wake"])
        self.write("docs/DIFFERENCES.md", f"{PAGE}\nIt has `wake` too.\n")
        self.assertEqual(self.wrong(), [])


class OfTheRepository(unittest.TestCase):
    def test_each_row_is_missed(self) -> None:
        """Each line `other` fails once the rows that it asks for are taken out."""
        page = (TOP / original.PAGE).read_text(encoding="utf-8")
        sources = original.Sources(TOP)
        lines = (TOP / original.ITEMS).read_text(encoding="utf-8").splitlines()
        texts = [found["text"] for line in lines if (found := original.LINE.fullmatch(line)) and found["text"]]
        self.assertGreater(len(texts), 40)
        for text in texts:
            with self.subTest(text):
                rest = "\n".join(line for line in page.splitlines() if not any(text in cell for cell in original.first_cells(line)))
                wrong = [it for _, it in original.check_lines(TOP, sources, rest) if it]
                self.assertTrue(any(repr(text) in it for it in wrong))


if __name__ == "__main__":
    unittest.main()
