"""The seconds of the modules that a prover checks, by the lines that it prints."""

import sys
import tempfile
import unittest
from pathlib import Path

from tools.kit.crates import Crates
from tools.kit.errors import Refused
from tools.kit.proof_times import LOADING, Times, measured, words
from tools.kit.toolchain import Kit

BEGUN, ENDED = "antt: cache: {}: elaborating (no artifact)", "antt: cache: {}: artifact encoded and written in 0.4 ms (1089 bytes)"


class Modules(unittest.TestCase):
    def test_what_is_taken_between_two_lines_is_for_the_module_begun_last(self) -> None:
        times = Times()
        for line, used in ((BEGUN.format("a"), 5), (BEGUN.format("b"), 6), (ENDED.format("b"), 9), ("fn a: proved", 50), (ENDED.format("a"), 10), (BEGUN.format("c"), 12)):
            times.said(line, used)
        self.assertEqual(dict(times.seconds), {LOADING: 7, "a": 2, "b": 3})
        self.assertEqual(times.lines(2), ["   7.00  (loading)", "   3.00  b", "  12.00  in all"])

    def test_the_end_of_a_module_that_was_not_begun_ends_none(self) -> None:
        times = Times()
        for line, used in ((BEGUN.format("a"), 1), (ENDED.format("b"), 3), (ENDED.format("a"), 4)):
            times.said(line, used)
        self.assertEqual(dict(times.seconds), {LOADING: 1, "a": 3})


class Running(unittest.TestCase):
    def run_program(self, text: str) -> tuple[Times, list[str]]:
        told: list[str] = []
        return measured([sys.executable, "-c", text], Path(), told.append), told

    def test_a_busy_module_has_its_seconds_and_what_is_not_proved_is_told(self) -> None:
        busy = "import time\nwhile time.process_time() < 0.3: pass"
        lines = f"print({BEGUN.format('a')!r}, flush=True)\n{busy}\nprint({ENDED.format('a')!r}, flush=True)"
        times, told = self.run_program(f"{lines}\nprint('fn x: proved\\nfn y: not proved')")
        self.assertGreater(times.seconds["a"], 0.1)
        self.assertEqual(told, ["fn y: not proved"])

    def test_a_prover_that_fails_is_refused(self) -> None:
        with self.assertRaisesRegex(Refused, "status 3"):
            self.run_program("raise SystemExit(3)")


class Words(unittest.TestCase):
    def setUp(self) -> None:
        self.room = Path(self.enterContext(tempfile.TemporaryDirectory()))
        (self.room / "crates.txt").write_text("low: bytes\nhigh: low\n")

    def words(self) -> list[str]:
        crates = Crates(self.room)
        return words(crates, Kit(Path("kit"), "kit"), crates["high"], ["high::f"])

    def test_over_the_libraries_that_were_left(self) -> None:
        (self.room / "crates/low/out/rlib/low.rlib").mkdir(parents=True)
        found = self.words()
        self.assertIn(f"low={self.room}/crates/low/out/rlib/low.rlib", found)
        self.assertEqual(found[-2:], ["--only", "high::f"])

    def test_without_a_library_it_says_which_and_how_it_is_made(self) -> None:
        with self.assertRaisesRegex(Refused, "low has no library in crates/low/out/rlib: ./prove"):
            self.words()


if __name__ == "__main__":
    unittest.main()
