"""What the tests of one crate printed among those of several, and for which sources it counts."""

import tempfile
import unittest
from pathlib import Path

from tools.kit.crates import Crate, Crates
from tools.kit.results import Results, own
from tools.kit.toolchain import Kit

LINES = ["tests: 3", "test one::a::b ... ok", "test two::a ... ok", "test two::one::c ... ok", "test result: ok. 3 passed; 0 failed; 0 ignored; 0 filtered out"]


class Fixed(Kit):
    def identity(self) -> str:
        return self.version


class Own(unittest.TestCase):
    def test_as_the_crate_alone_would_have_printed(self) -> None:
        wanted = ["tests: 2", "test a ... ok", "test one::c ... ok", "test result: ok. 2 passed; 0 failed; 0 ignored; 0 filtered out", ""]
        self.assertEqual(own("two", LINES), "\n".join(wanted))

    def test_nothing_unless_all_passed(self) -> None:
        self.assertIsNone(own("three", LINES))
        self.assertIsNone(own("one", [it.replace("b ... ok", "b ... FAILED") for it in LINES]))
        self.assertIsNone(own("one", [it.replace("two::a ... ok", "two::a ... ignored") for it in LINES]))
        self.assertIsNone(own("one", LINES[:-1]))


class Kept(unittest.TestCase):
    def setUp(self) -> None:
        self.room = Path(self.enterContext(tempfile.TemporaryDirectory()))
        self.write("crates/low/src/lib.rt", "low")
        self.write("crates.txt", "low:\nother:\n")
        self.write("shown/one/src/lib.rt", "one")
        self.write("copy/one/src/lib.rt", "one")

    def write(self, place: str, text: str) -> None:
        (self.room / place).parent.mkdir(parents=True, exist_ok=True)
        (self.room / place).write_text(text, encoding="utf-8")

    def of(self, uses: tuple[str, ...] = ("low",), kit: str = "kit") -> str | None:
        return self.results(kit).of(Crate("one", uses, self.room / "copy/one"))

    def results(self, kit: str = "kit") -> Results:
        return Results(self.room / "kept", Fixed(self.room, kit), Crates(self.room))

    def test_of_the_same_sources_alone(self) -> None:
        self.assertIsNone(self.of())
        one = Crate("one", ("low",), self.room / "shown/one")
        self.results().keep(one, [it.replace("one::a::b ... ok", "one::a::b ... FAILED") for it in LINES])
        self.assertIsNone(self.of())
        self.results().keep(one, LINES)
        self.assertEqual(self.of(), own("one", LINES))
        self.assertIsNone(self.of(kit="another"))
        self.assertIsNone(self.of(uses=("low", "other")))
        for place in ("copy/one/src/lib.rt", "crates/low/src/lib.rt"):
            was = (self.room / place).read_text(encoding="utf-8")
            self.write(place, "changed")
            self.assertIsNone(self.of())
            self.write(place, was)
            self.assertIsNotNone(self.of())


if __name__ == "__main__":
    unittest.main()
