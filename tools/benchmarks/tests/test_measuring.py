"""How the output of players and of callgrind is read, what is measured, and which sides are refused."""

import stat
import tempfile
import unittest
from pathlib import Path
from unittest import mock

from tools.benchmarks import measuring
from tools.benchmarks.cases import Case
from tools.benchmarks.measuring import Player, Point, Setting
from tools.kit.errors import Refused

SAID = "awake={awake} sent=150 taken=7 fed=187 ns={ns} peak=80 allocations=30 copied=70"
CALLGRIND = """==7== Events    : Ir
==7== Collected : 69368320
==7==
==7== I   refs:      69,368,320
"""


def point(size: int = 10, case: Case | None = None) -> Point:
    return Point(case or Case("sleeps", "a sleep"), size, Setting(True))


class Reading(unittest.TestCase):
    def test_fields(self) -> None:
        found = measuring.read_fields(SAID.format(awake=5, ns=9))
        self.assertEqual((found["awake"], found["taken"], found["ns"], found["peak"]), (5, 7, 9, 80))

    def test_no_fields(self) -> None:
        with self.assertRaisesRegex(Refused, "a player printed 'awake=1 ns=2'"):
            measuring.read_fields("awake=1 ns=2")

    def test_callgrind(self) -> None:
        self.assertEqual(measuring.read_counted(CALLGRIND), 69_368_320)
        with self.assertRaisesRegex(Refused, "callgrind counted nothing"):
            measuring.read_counted("==7== Events    : Ir")

    def test_rounds(self) -> None:
        self.assertEqual([measuring.rounds_of(point(it)) for it in (5, 10_000, 1_000_000)], [200, 20, 1])
        large = Case("megabytes_in", "", most=100)
        self.assertEqual([measuring.rounds_of(point(it, large)) for it in (5, 100)], [20, 1])


class Choosing(unittest.TestCase):
    def test_points(self) -> None:
        cases = [Case("a", ""), Case("b", "", least=100), Case("c", "", most=500)]
        found = [(it.case.name, it.size) for it in measuring.points(cases, [5, 1000, 5], [Setting(True)])]
        self.assertEqual(found, [("a", 5), ("a", 1000), ("b", 1000), ("c", 5), ("c", 500)])

    def test_the_original_is_left_out(self) -> None:
        those = [Player("original", Path("o")), Player("here", Path("h"))]
        case = Case("tree", "", most_of_original=100)
        self.assertEqual(measuring.players_of(those, point(100, case)), those)
        self.assertEqual(measuring.players_of(those, point(101, case)), those[1:])


class Running(unittest.TestCase):
    """Players that are scripts."""

    def player(self, side: str, said: str, status: int = 0) -> Player:
        file = Path(self.enterContext(tempfile.TemporaryDirectory()), side)
        file.write_text(f"#!/bin/sh\n[ \"$*\" = 'sleeps 10 20 on' ] || [ \"$*\" = 'sleeps 10 2 on' ] || exit 9\n{said}\nexit {status}\n")
        file.chmod(file.stat().st_mode | stat.S_IXUSR)
        return Player(side, file)

    def says(self, side: str, awake: int = 10, ns: int = 500) -> Player:
        return self.player(side, f"echo {SAID.format(awake=awake, ns=ns)}")

    def test_heap(self) -> None:
        row = measuring.heap(Path(""))([self.says("original"), self.says("here")], point())
        self.assertEqual((row.of("here", "peak"), row.of("here", "allocations"), row.of("here", "copied"), row.ratio("peak")), (80, 3, 7, 1))

    def test_time(self) -> None:
        self.enterContext(mock.patch.object(measuring, "MOST_ROUNDS", 20))
        row = measuring.clock(3)([self.says("original", ns=500), self.says("here", ns=250)], point())
        self.assertEqual((row.of("original", "ns"), row.of("here", "ns"), row.ratio("ns")), (50, 25, 0.5))

    def test_other_work(self) -> None:
        with self.assertRaisesRegex(Refused, "sleeps at 10, default options: the sides did other work"):
            measuring.heap(Path(""))([self.says("original", awake=9), self.says("here")], point())

    def test_a_player_that_fails(self) -> None:
        self.enterContext(mock.patch.object(measuring, "MOST_ROUNDS", 20))
        with self.assertRaisesRegex(Refused, "here, sleeps at 10, default options: status 1: typed: a call: status 5"):
            measuring.clock(1)([self.player("here", "echo 'typed: a call: status 5' >&2", 1)], point(10))


if __name__ == "__main__":
    unittest.main()
