"""Small trees for the tests of the survey."""

from __future__ import annotations

import tempfile
import unittest
from collections.abc import Mapping
from pathlib import Path

from tools.survey.tree import House


class TreeTest(unittest.TestCase):
    """A test that writes trees, which are removed after it."""

    def tree(self, files: Mapping[str, str]) -> House:
        """Writes files, each by its path below a new top, and returns the tree of them."""
        folder = tempfile.TemporaryDirectory()
        self.addCleanup(folder.cleanup)
        top = Path(folder.name)
        for name, text in files.items():
            path = top / name
            path.parent.mkdir(parents=True, exist_ok=True)
            path.write_text(text, encoding="utf-8")
        return House(top)

    def again(self, house: House) -> House:
        """Returns the tree as it is written now."""
        return House(house.top)
