"""tools/checks/model_rows.py: a table, a column, a function or an event that isn't there is found, and a line without a test."""

from __future__ import annotations

import shutil
import tempfile
import unittest
from pathlib import Path

from tools.checks import model_rows

TOP = Path(__file__).resolve().parents[3]
LINE = "| the clock (`Engine::clock`) | `timers.due` | `claiming.Claimer.claim` | none | [test_a](test_a.py): `test_x` |"


class Page(unittest.TestCase):
    def setUp(self) -> None:
        folder = tempfile.TemporaryDirectory()
        self.addCleanup(folder.cleanup)
        self.root = Path(folder.name)
        for it in (*model_rows.ENGINE, model_rows.RUNTIME):
            shutil.copytree(TOP / it, self.root / it, ignore=shutil.ignore_patterns("out", "__pycache__"))
        (self.root / model_rows.PAGE).parent.mkdir(parents=True)

    def wrong(self, page: str) -> list[str]:
        (self.root / model_rows.PAGE).write_text(page, encoding="utf-8")
        return [it for _, it in model_rows.check(self.root) if it is not None]

    def test_the_page(self) -> None:
        self.assertEqual(self.wrong((TOP / model_rows.PAGE).read_text(encoding="utf-8")), [])

    def test_names_that_are_not_there(self) -> None:
        head = f"{model_rows.HEAD} What differs | Shown by |\n|---|---|---|---|---|\n"
        missing = len(self.wrong(""))
        self.assertEqual(missing, 8 + 4 + 4)
        self.assertEqual(len(self.wrong(head + LINE)), missing)
        for old, new, said in (
            ("Engine::clock", "Engine::watch", "the engine has no Engine::watch"),
            ("timers.due", "timers.time", "the schema has no timers.time"),
            ("timers.due", "invocations.future", "the schema has no invocations.future"),
            ("timers.due", "clocks", "the schema has no clocks"),
            ("Claimer.claim", "Claimer.take", "the runtime has no function claiming.Claimer.take"),
            ("Claimer.claim", "Owner.claim", "the runtime has no function claiming.Owner.claim"),
            ("[test_a](test_a.py): `test_x`", "", "no test shows this line"),
        ):
            with self.subTest(new):
                self.assertIn(said, self.wrong(head + LINE.replace(old, new)))
        self.assertNotIn("no line is about Effect::Wait", self.wrong(head + LINE.replace("`Engine::clock`", "`Effect::Wait`")))


if __name__ == "__main__":
    unittest.main()
