"""The cases are those of both players, and the scripts are those of the VM's lines."""

import re
import unittest
from pathlib import Path

from tools.benchmarks import lines
from tools.benchmarks.cases import CASES, NAMES

HERE = Path(__file__).resolve().parents[1]
CUT = {"cut_64": "64", "cut_4k": "4096", "cut_64k": "65536"}


class Players(unittest.TestCase):
    def test_the_player_in_c(self) -> None:
        text = (HERE / "c/typed.c").read_text(encoding="utf-8")
        rows = re.findall(r'^    \{"(\w+)", \w+, \w+, (\d+)\},$', text, re.M)
        self.assertEqual(rows, [(it, CUT.get(it, "0")) for it in NAMES])

    def test_the_player_of_the_original(self) -> None:
        text = (HERE / "original/src/player/cases.rs").read_text(encoding="utf-8")
        rows = re.findall(r'^    (?:case|cut)\("(\w+)", \w+, \w+(?:, (\d+))?\),$', text, re.M)
        self.assertEqual(rows, [(it, CUT.get(it, "")) for it in NAMES])

    def test_sizes(self) -> None:
        self.assertEqual([it.name for it in CASES if not it.is_at(5)], list(CUT))
        self.assertEqual([it.name for it in CASES if not it.is_at(100_000)], ["calls_10k", "megabytes_out", "megabytes_in"])


class Scripts(unittest.TestCase):
    def test_a_script(self) -> None:
        given = lines.script(lines.sleeps, 1).splitlines()
        self.assertEqual(given[0], 'vm "application/vnd.restate.invocation.v7" cancel=off')
        self.assertEqual(given[2:4], ["sys_input", 'sleep "" 1000'])
        self.assertEqual(given[4], "input 0x001e0000000000000006000000000100")
        self.assertEqual(given[5:], ["await 17", "take 17", "end", "output"])

    def test_a_world(self) -> None:
        given = lines.script(lines.arrivals, 1).splitlines()
        arrival = "arrive Notification id=completion(1) result=void"
        self.assertEqual(given, ['entry Input value="input"', "entry Sleep wake_up_time=1000 result_completion_id=1", "round", arrival])


if __name__ == "__main__":
    unittest.main()
