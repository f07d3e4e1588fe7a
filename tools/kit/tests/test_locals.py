"""How many locals the functions of a library have."""

import json
import tempfile
import unittest
from pathlib import Path

from tools.kit.crates import Crates
from tools.kit.errors import Refused
from tools.kit.locals import Function, functions, lowered


class Locals(unittest.TestCase):
    def setUp(self) -> None:
        room = Path(self.enterContext(tempfile.TemporaryDirectory()))
        (room / "crates.txt").write_text("low: bytes\nhigh: low\n")
        self.crates = Crates(room)

    def make_library(self, name: str, *held: tuple[str, int]) -> None:
        file = lowered(self.crates[name])
        file.parent.mkdir(parents=True)
        file.write_text(json.dumps([[path, {"locals": [{}] * many}] for path, many in held]))

    def test_the_most_come_first_and_what_is_another_crates_is_left_out(self) -> None:
        self.make_library("low", ("low::f", 3), ("low::g", 7))
        self.make_library("high", ("high::f", 7), ("low::g", 7))
        self.assertEqual(functions(self.crates), [Function("high::f", 7), Function("low::g", 7), Function("low::f", 3)])

    def test_of_a_crate_alone(self) -> None:
        self.make_library("low", ("low::f", 3))
        self.make_library("high", ("high::f", 7))
        self.assertEqual(functions([self.crates["low"]]), [Function("low::f", 3)])

    def test_with_no_library_it_says_what_makes_one(self) -> None:
        with self.assertRaisesRegex(Refused, "./prove leaves one of each crate"):
            functions(self.crates)


if __name__ == "__main__":
    unittest.main()
