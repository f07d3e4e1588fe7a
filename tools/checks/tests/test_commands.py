"""Tests of tools/checks/commands.py."""

import tempfile
import unittest
from pathlib import Path

from tools.checks import commands


class Commands(unittest.TestCase):
    def setUp(self) -> None:
        made = tempfile.TemporaryDirectory()
        self.addCleanup(made.cleanup)
        self.root = Path(made.name)
        for name, text in {"tools/play": "from tools.parts import it\n'--all'", "tools/parts/it.py": "'--write'", "test": "'--list'"}.items():
            (self.root / name).parent.mkdir(parents=True, exist_ok=True)
            (self.root / name).write_text(text)

    def wrong(self, *lines: str) -> list[str]:
        return [why for _, why in commands.check(self.root, "page", list(lines)) if why is not None]

    def test_what_is_there(self) -> None:
        self.assertEqual(self.wrong("Do `tools/play --all --write FILE`, and `./test --list`."), [])

    def test_what_is_not_there(self) -> None:
        self.assertEqual(self.wrong("Do `tools/gone`."), ["there is no command tools/gone"])
        self.assertEqual(self.wrong("Do `tools/play --none=1`; `./test --all`"), ["tools/play has no option --none", "test has no option --all"])

    def test_blocks_that_nothing_runs(self) -> None:
        self.assertEqual(len(self.wrong("", "    TMPDIR=x tools/play --all", "", "    palqytun run app.py")), 2)
        self.assertEqual(self.wrong("", "    $ tools/play", "", "    what it prints"), [])


if __name__ == "__main__":
    unittest.main()
