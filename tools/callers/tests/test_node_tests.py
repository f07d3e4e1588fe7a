"""Files of tests for Node: those that pass, fail, are empty, or stay open."""

from __future__ import annotations

import contextlib
import io
import shutil
import tempfile
import unittest
from pathlib import Path

from tools.callers.node_tests import main

PASSES = "const { test } = require('node:test');\ntest('one', () => undefined);\ntest('two', () => undefined);\n"
FAILS = "const { test } = require('node:test');\ntest('one', () => { throw new Error('it is wrong'); });\n"
STAYS = f"{PASSES}setInterval(() => undefined, 1000);\n"


@unittest.skipUnless(shutil.which("node"), "node not found")
class NodeTests(unittest.TestCase):
    def ran(self, **files: str) -> tuple[int, str]:
        """Runs files of these names and texts."""
        with tempfile.TemporaryDirectory() as room, contextlib.redirect_stdout(io.StringIO()) as said:
            names = []
            for name, text in files.items():
                Path(room, f"{name}.js").write_text(text, encoding="utf-8")
                names.append(f"{room}/{name}.js")
            status = main(["--limit", "10", *names])
        return status, said.getvalue()

    def test_those_that_pass_are_counted(self) -> None:
        self.assertEqual(self.ran(first=PASSES, second=PASSES), (0, "4 passed, 0 failed, 0 skipped\n"))

    def test_one_that_fails_is_shown(self) -> None:
        status, said = self.ran(first=PASSES, second=FAILS)
        self.assertEqual((status, said.splitlines()[-1]), (1, "2 passed, 1 failed, 0 skipped"))
        self.assertIn("/second.js: 0 passed, 1 failed, 0 skipped\n", said)
        self.assertIn("it is wrong", said)
        self.assertNotIn("/first.js", said)

    def test_one_without_a_test_fails(self) -> None:
        self.assertEqual(self.ran(empty="")[1].splitlines()[-1], "0 passed, 1 failed, 0 skipped")

    def test_one_that_stays_open_is_named_with_what_keeps_it_open(self) -> None:
        status, said = self.ran(stays=STAYS)
        self.assertEqual((status, said.splitlines()[-1]), (1, "0 passed, 1 failed, 0 skipped"))
        self.assertRegex(said, r"what keeps it open: .*Timeout\b")
        self.assertIn("/stays.js had not ended after 10 seconds\n", said)


if __name__ == "__main__":
    unittest.main()
