"""How far rt ci is, and how long it will take."""

import json
import os
import subprocess
import tempfile
import unittest
from pathlib import Path

from tools.gate.proofs import BEHIND, Crate, Processors, Proofs, read_crates, read_times

CRATES = {
    "low": Crate("low"),
    "left": Crate("left", ("low",)),
    "right": Crate("right", ("low",), has_tests=True),
    "top": Crate("top", ("left", "right"), has_edits=True),
}
LAST = {"low": 100.0, "left": 50.0, "right": 30.0, "top": 20.0}


class Left(unittest.TestCase):
    def proofs(self, **more: dict[str, float]) -> Proofs:
        return Proofs(CRATES, LAST, **more)  # type: ignore[arg-type]

    def test_the_longest_chain_or_the_work_over_the_cores(self) -> None:
        self.assertEqual(self.proofs().left(100), 170)
        self.assertEqual(self.proofs().left(1), 200)

    def test_what_is_done_takes_no_more(self) -> None:
        it = self.proofs()
        it.said("rt: low is kept: an earlier run on this machine proved the same files over the same libraries")
        it.said("rt: left proved")
        self.assertEqual((it.done(), it.left(1)), (2, 50))

    def test_tests_and_edits_come_after_a_proof(self) -> None:
        it = self.proofs()
        it.spent = {"right": 10.0, "top": 30.0}
        it.said("rt: right proved")
        it.said("rt: top proved")
        self.assertEqual((it.left_of("right"), it.left_of("top")), (20, 0))
        it.said("rt: right: its tests are proved")
        self.assertEqual(it.left_of("right"), 0)

    def test_other_lines_say_nothing(self) -> None:
        it = self.proofs()
        for line in ("rt: low: trying its must-fail edits (3)", "low proved", "rt: low proved it", "logic=proved functions=3"):
            it.said(line)
        self.assertEqual((it.done(), it.left(1)), (0, 200))

    def test_a_crate_without_a_time_takes_the_average(self) -> None:
        last = {f"crate{at}": 10.0 for at in range(9)}
        crates = {name: Crate(name) for name in [*last, "new"]}
        self.assertEqual(Proofs(crates, last).left(1), 100)

    def test_too_few_times_foretell_nothing(self) -> None:
        self.assertIsNone(Proofs(CRATES, {"low": 100.0}).left(4))
        self.assertIsNone(Proofs(CRATES, {}).left(4))

    def test_times_for_the_next_run(self) -> None:
        it = self.proofs()
        it.spent = {"low": 1.0, "left": 60.0, "other": 5.0}
        it.said("rt: low is kept: an earlier run on this machine proved the same files over the same libraries")
        it.said("rt: left proved")
        self.assertEqual(it.times(), {"low": 100, "left": 60, "right": 30, "top": 20})

    def test_what_this_run_proved_and_then_took_has_its_time(self) -> None:
        it = self.proofs()
        it.spent = {"low": 60.0}
        it.said("rt: low proved")
        it.said("rt: low is kept: an earlier run on this machine proved the same files over the same libraries")
        self.assertEqual((it.done(), it.times()["low"]), (1, 60))


class Files(unittest.TestCase):
    def setUp(self) -> None:
        self.room = Path(self.enterContext(tempfile.TemporaryDirectory()))

    def test_crates(self) -> None:
        (self.room / "crates.txt").write_text("# all\nlow: bytes\ntop staticlib: low bytes\n")
        (self.room / "crates/top/must-fail").mkdir(parents=True)
        (self.room / "crates/top/must-fail/one.edit").touch()
        wanted = {"low": Crate("low", (), True), "top": Crate("top", ("low",), has_edits=True)}
        self.assertEqual(read_crates(self.room, ["low"]), wanted)

    def test_times(self) -> None:
        file = self.room / "times.json"
        self.assertEqual(read_times(file), {})
        for bad in ("", "[1]", '{"a": "b"}', '{"a": null}'):
            file.write_text(bad)
            self.assertEqual(read_times(file), {}, bad)
        file.write_text(json.dumps({"low": 3}))
        self.assertEqual(read_times(file), {"low": 3.0})

    def test_processes_are_looked_at(self) -> None:
        it = Processors()
        it.look()
        self.assertEqual(it.running, set())

    def test_what_the_chain_does_not_wait_for_stays_behind(self) -> None:
        words = ("sh", "-c", "echo here; read line", "--crate-name")
        those = {name: subprocess.Popen([*words, name], stdin=subprocess.PIPE, stdout=subprocess.PIPE) for name in ("low", "side")}
        it, ours = Processors(), os.getpriority(os.PRIO_PROCESS, 0)
        for process in those.values():
            self.enterContext(process)
            assert process.stdout
            process.stdout.readline()
        it.look()
        self.assertEqual(it.running, {"low", "side"})
        it.put_behind({"low"})
        found = {name: os.getpriority(os.PRIO_PROCESS, process.pid) for name, process in those.items()}
        self.assertEqual(found, {"low": ours, "side": max(BEHIND, ours)})
        for process in those.values():
            process.communicate()
        it.put_behind(set())  # neither is there any more


if __name__ == "__main__":
    unittest.main()
