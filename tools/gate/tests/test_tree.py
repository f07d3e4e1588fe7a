"""The folder in which crates are proved: which they are, and what goes back to the repository."""

import tempfile
import unittest
from pathlib import Path

from tools.gate import tree
from tools.gate.proofs import Crate, read_crates
from tools.gate.texts import sum_of_crates


class Trees(unittest.TestCase):
    def setUp(self) -> None:
        room = Path(self.enterContext(tempfile.TemporaryDirectory()))
        self.top, self.tree = room / "top", room / "tree"
        for name in ("low", "high", "test_bytes", "test_low"):
            (self.top / "crates" / name / "src").mkdir(parents=True)
            (self.top / "crates" / name / "src/lib.rt").write_text(f"// {name}\n")
        self.out("top", "low", "rlib/low.rlib").write_text("made by its author")
        (self.top / "crates/low/wrong-bodies").mkdir()
        (self.top / "crates.txt").write_text("# all\nlow:\ntest_bytes:\nhigh: low test_bytes\ntest_low staticlib: low\n")
        (self.top / "HANDLES").write_text("Handles allowed: none.\n")

    def out(self, place: str, crate: str, name: str) -> Path:
        """A file of out/, in a folder that is there."""
        found = (self.top if place == "top" else self.tree) / "crates" / crate / "out" / name
        found.parent.mkdir(parents=True, exist_ok=True)
        return found

    def make(self) -> None:
        tree.make(self.top, self.tree, tree.promising(read_crates(self.top, ())))

    def test_crates_of_tests_are_left_out_but_those_that_others_need(self) -> None:
        self.assertEqual(tree.promising(read_crates(self.top, ())), ["low", "test_bytes", "high"])
        self.assertEqual(tree.promising({"test_a": Crate("test_a"), "vmbench": Crate("vmbench", ("test_a",))}), [])

    def test_a_copy_is_a_repository_without_what_was_built(self) -> None:
        for _ in range(2):
            self.make()
            self.out("tree", "low", "left").touch()
        self.make()
        found = sorted(str(it.relative_to(self.tree)) for it in self.tree.rglob("*") if it.is_file())
        self.assertEqual(found, ["HANDLES", "crates.txt", *(f"crates/{it}/src/lib.rt" for it in ("high", "low", "test_bytes"))])
        self.assertEqual((self.tree / "crates.txt").read_text(), "low:\ntest_bytes:\nhigh: low test_bytes\n")
        self.assertTrue((self.tree / ".git").is_dir())

    def test_what_was_built_replaces_what_was_there(self) -> None:
        self.make()
        self.out("top", "high", "high").write_text("old")
        self.out("tree", "high", "high").write_text("new")
        self.out("tree", "low", "rlib/low.rlib").write_text("proved")
        self.assertEqual(tree.take(self.tree, self.top), 2)
        self.assertEqual(self.out("top", "high", "high").read_text(), "new")
        self.assertEqual(self.out("top", "low", "rlib/low.rlib").read_text(), "proved")
        self.assertEqual((self.top / "crates/low" / tree.TEXT).read_text(), sum_of_crates(self.top, ["low"]))
        self.assertFalse(self.tree.exists())

    def test_a_library_that_its_author_has_built_stays(self) -> None:
        self.make()
        self.out("top", "low", tree.STAMP).touch()
        self.out("tree", "low", "rlib/low.rlib").write_text("proved")
        tree.take(self.tree, self.top)
        self.assertEqual(self.out("top", "low", "rlib/low.rlib").read_text(), "made by its author")

    def test_the_sum_is_that_of_the_text_that_was_proved(self) -> None:
        self.make()
        self.out("tree", "high", "rlib/high.rlib").touch()
        was = sum_of_crates(self.top, ["high", "low", "test_bytes"])
        (self.top / "crates/low/src/lib.rt").write_text("// another\n")
        tree.take(self.tree, self.top)
        self.assertEqual((self.top / "crates/high" / tree.TEXT).read_text(), was)
        self.assertNotEqual(sum_of_crates(self.top, ["high", "low", "test_bytes"]), was)


if __name__ == "__main__":
    unittest.main()
