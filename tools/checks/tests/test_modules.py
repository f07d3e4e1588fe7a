"""Which module a name stands for, and of which library it is."""

import tempfile
import unittest
from pathlib import Path

from tools.checks.modules import Modules


class Libraries(unittest.TestCase):
    def setUp(self) -> None:
        self.top = Path(self.enterContext(tempfile.TemporaryDirectory()))
        for crate in ("low", "high", "beside"):
            (self.top / "crates" / crate).mkdir(parents=True)
        (self.top / "crates.txt").write_text("# Bottom up.\nlow:\nhigh: low bytes\nbeside staticlib: bytes\n", encoding="utf-8")

    def test_a_library_that_a_line_names(self) -> None:
        tree = Modules(self.top)
        self.assertIsNone(tree.unlisted("high", "Rattle.low.specs.Lists"))
        self.assertIsNone(tree.unlisted("high", "Rattle.high.specs.Lists"))
        self.assertIsNone(tree.unlisted("high", "Rattle.std.specs.Prelude"))

    def test_a_library_that_a_line_lacks(self) -> None:
        self.assertEqual(Modules(self.top).unlisted("beside", "Rattle.low.specs.Lists"), "beside names low, which its line of crates.txt lacks")

    def test_a_tree_without_lines(self) -> None:
        (self.top / "crates.txt").unlink()
        self.assertIsNone(Modules(self.top).unlisted("beside", "Rattle.low.specs.Lists"))


if __name__ == "__main__":
    unittest.main()
