"""The reference of a package is made from its docstrings."""

from __future__ import annotations

import tempfile
import unittest
from pathlib import Path

from tools.pages import api

CORE = '''"""The core."""
__all__ = ["Thing", "made"]

class Thing:
    """A thing.

    >>> Thing(1).size
    1
    """

    def __init__(self, size: int, *, is_open: bool = False) -> None: ...

    @property
    def size(self) -> int:
        """How large it is."""

    def grow(self, by: int = 1) -> int:
        """Grows, and returns the size."""

    def close(self, *bare: Never, now: bool = False) -> None:
        """Ends it. A parameter that takes nothing isn't shown."""

    def _hidden(self) -> None:
        """Nobody's."""


def made(size: int) -> Thing:
    """Makes one."""
'''


class Pages(unittest.TestCase):
    def setUp(self) -> None:
        room = tempfile.TemporaryDirectory()
        self.addCleanup(room.cleanup)
        self.root = Path(room.name)
        package = self.root / "python/src/palqytun"
        (package / "runtime").mkdir(parents=True)
        (self.root / "docs").mkdir()
        (package / "core.py").write_text(CORE)
        (package / "__init__.py").write_text('"""All."""\nfrom palqytun.core import *\nfrom palqytun.core import __all__ as __all__\n')
        (package / "runtime/__init__.py").write_text('"""It runs."""\nfrom ..core import Thing\n\n__all__ = ["Thing"]\n')

    def test_each_public_name_with_its_signature(self) -> None:
        text = api.text(self.root)
        for wanted in ("`Thing(size: int, *, is_open: bool=False)`", "#### `size`", "#### `grow(by: int=1) -> int`", "#### `close(*, now: bool=False) -> None`", "### `made(size: int) -> Thing`"):
            self.assertIn(wanted, text)
        self.assertIn("\n    >>> Thing(1).size\n    1", text)
        self.assertNotIn("_hidden", text)
        self.assertEqual(text.count("### `Thing`"), 2)

    def test_another_page_is_found(self) -> None:
        (self.root / api.PAGE).write_text(api.text(self.root))
        self.assertEqual([wrong for _, wrong in api.check(self.root)], [None])
        (self.root / api.PAGE).write_text(api.text(self.root).replace("Grows", "Shrinks"))
        self.assertIsNotNone(next(api.check(self.root))[1])


if __name__ == "__main__":
    unittest.main()
