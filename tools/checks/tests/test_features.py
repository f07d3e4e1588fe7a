"""tools/checks/features.py: a test that isn't there is found, and a feature that nothing shows."""

import tempfile
import unittest
from pathlib import Path

from tools.checks import features

HEAD = ["| Feature | State | Shown by |", "|---|---|---|"]
SHOWN = "[test_a](../tests/test_a.py): `test_one`, `test_two`"


class Features(unittest.TestCase):
    def setUp(self) -> None:
        self.root = Path(self.enterContext(tempfile.TemporaryDirectory()))
        (self.root / "docs").mkdir()
        (self.root / "tests").mkdir()
        (self.root / "tests/test_a.py").write_text("def test_one(self): ..\nasync def test_two(self): ..\n")

    def wrong(self, *lines: str, page: str = features.PAGE) -> list[tuple[str, str]]:
        return [(where, it) for where, it in features.check(self.root, page, [*lines]) if it is not None]

    def test_what_is_right(self) -> None:
        rows = [f"| kill | there | {SHOWN} |", f"| page | in part: no search | {SHOWN} |", "| TLS | not there: a proxy has it | |"]
        self.assertEqual(self.wrong(*HEAD, *rows, "", "| other | table |"), [])
        self.assertEqual(len(list(features.check(self.root, features.PAGE, [*HEAD, *rows]))), 4 + 3)

    def test_a_test_that_is_not_there(self) -> None:
        line = "[test_a](../tests/test_a.py): `test_one`, `test_three`; [test_b](../tests/test_b.py): `test_one`"
        found = [("docs/OTHER.md:1", "there is no test_three in ../tests/test_a.py"), ("docs/OTHER.md:1", "there is no test_one in ../tests/test_b.py")]
        self.assertEqual(self.wrong(line, page="docs/OTHER.md"), found)

    def test_a_feature_that_nothing_shows(self) -> None:
        self.assertEqual(self.wrong(*HEAD, "| kill | there | by hand |"), [("docs/FEATURES.md:3", "no test shows 'kill'")])

    def test_a_state_that_is_none(self) -> None:
        said = "the state 'thereabouts' begins with none of there, in part, not there"
        self.assertEqual(self.wrong(*HEAD, f"| kill | thereabouts | {SHOWN} |"), [("docs/FEATURES.md:3", said)])


if __name__ == "__main__":
    unittest.main()
