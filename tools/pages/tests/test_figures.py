"""Figures in pages are those that the sources have."""

from __future__ import annotations

import tempfile
import unittest
from pathlib import Path

from tools.pages import figures


class Figures(unittest.TestCase):
    def setUp(self) -> None:
        room = tempfile.TemporaryDirectory()
        self.addCleanup(room.cleanup)
        self.root = Path(room.name)
        (self.root / "crates/a/must-fail").mkdir(parents=True)
        (self.root / "crates/a/must-fail/x.edit").touch()
        (self.root / "docs").mkdir()
        self.page = self.root / "docs/A.md"

    def wrong(self) -> list[str]:
        return [wrong for _, wrong in figures.check(self.root) if wrong]

    def test_a_stale_figure_is_found_and_written(self) -> None:
        self.page.write_text("There are <!-- figure must-fail -->7<!-- --> of them.\n")
        self.assertEqual(self.wrong(), ["the figure must-fail is 1, and not 7; write it by tools/figures --write"])
        figures.write(self.root)
        self.assertEqual(self.page.read_text(), "There are <!-- figure must-fail -->1<!-- --> of them.\n")
        self.assertEqual(self.wrong(), [])

    def test_an_unknown_figure(self) -> None:
        self.page.write_text("<!-- figure moons -->1<!-- -->\n")
        self.assertIn("there is no figure moons", self.wrong()[0])

    def test_lines_are_rounded(self) -> None:
        source = self.root / "crates/a/src/lib.rt"
        source.parent.mkdir()
        source.write_text("line\n\n" * 1234)
        self.assertEqual(figures.shown(self.root, "core-lines"), "1,200")
        for said, holds in (("1,200", True), ("1,000", True), ("900", False), ("many", False)):
            self.assertEqual(figures.holds(self.root, "core-lines", said), holds, said)


if __name__ == "__main__":
    unittest.main()
