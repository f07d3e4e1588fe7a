"""What ./prove runs, and in which order."""

import os
import subprocess
import tempfile
import time
import unittest
from pathlib import Path
from unittest import mock

from tools.gate import proving, tree
from tools.gate.environment import TOP, lanes
from tools.gate.jobs import Job
from tools.gate.proofs import read_crates

TREES = {it: Path(it) for it in (*(run.job for run in proving.CHAIN), proving.LOW)}


class Order(unittest.TestCase):
    def runs(self, after: int | None = None, trees: dict[str, Path] | None = TREES) -> dict[str, Job]:
        """Those of rt ci, by their names."""
        return {it.name: it for it in proving.every_job(trees, after) if it.part == proving.PROOFS}

    def begins(self, words: tuple[str, ...]) -> subprocess.Popen[str]:
        """A command that waits as a run does, and says that it has begun."""
        self.assertEqual(words[-2:], ("rt", "ci"))
        return subprocess.Popen((*words[:-2], "echo", "begun"), stdout=subprocess.PIPE, text=True)

    def test_the_chain_has_as_many_processes_as_rt_gives_a_check(self) -> None:
        runs = self.runs()
        self.assertEqual(list(runs), [*TREES, proving.PROOFS])
        for it in proving.CHAIN:
            self.assertEqual((runs[it.job].folder, runs[it.job].env, runs[it.job].after), (it.job, {"RT_JOBS": ""}, ()))
        self.assertEqual(runs[proving.CHAIN[0].job].words, ("rt", "ci"))
        low, proofs = runs[proving.LOW], runs[proving.PROOFS]
        self.assertEqual((low.folder, low.after, low.cores), (proving.LOW, (), 0))
        self.assertEqual((proofs.folder, proofs.after, proofs.cores), (str(tree.place()), (), 0))
        self.assertEqual([it.env for it in (low, proofs)], [{"RT_JOBS": str(lanes() + 1)}, {"RT_JOBS": str(lanes())}])

    def test_what_stands_beside_the_chain_waits_for_a_process_if_one_is_named(self) -> None:
        with subprocess.Popen(("sleep", "0.5")) as other:
            waits = self.begins(self.runs(after=other.pid)[proving.LOW].words)
            self.assertIsNone(waits.poll())
        self.assertEqual(waits.communicate(timeout=60)[0], "begun\n")

    def test_what_waits_for_nothing_begins_a_moment_after_the_first(self) -> None:
        with mock.patch.object(proving, "MOMENT", 0.5):
            runs = self.runs()
        for it in (*(run.job for run in proving.CHAIN[1:] if not run.after), proving.LOW):
            begun = time.monotonic()
            self.assertEqual(self.begins(runs[it].words).communicate(timeout=60)[0], "begun\n")
            self.assertGreaterEqual(time.monotonic() - begun, 0.5)

    def test_a_process_that_does_not_end_is_not_waited_for_without_end(self) -> None:
        with mock.patch.object(proving, "PATIENCE", 1):
            low = self.runs(after=os.getpid())[proving.LOW]
        self.assertEqual(self.begins(low.words).communicate(timeout=60)[0], "begun\n")

    def test_the_others_wait_until_a_run_before_them_has_proved_a_crate(self) -> None:
        room = Path(self.enterContext(tempfile.TemporaryDirectory()))
        with mock.patch.object(proving, "TOP", room):
            words = {it.after: proving.once_proved(it.after, proving.CHAIN[:at], ("rt", "ci")) for at, it in enumerate(proving.CHAIN) if it.after}
        logs = Path(room, proving.OUT, "logs")
        logs.mkdir(parents=True)
        for at, it in enumerate(proving.CHAIN):
            if it.after:
                command = (*words[it.after][:2], str(TOP / "tools/gate/waiting.py"), *words[it.after][3:])
                waits = self.begins(command)
                time.sleep(1)
                self.assertIsNone(waits.poll(), it)
                (logs / proving.CHAIN[at - 1].log.name).write_text(f"rt: {it.after} proved\n", encoding="utf-8")
                self.assertEqual(waits.communicate(timeout=60)[0], "begun\n")

    def test_each_waits_for_a_crate_that_a_run_before_it_proves(self) -> None:
        crates = read_crates(TOP, ())
        for at, it in enumerate(proving.CHAIN):
            before = tree.below(crates, [end for run in proving.CHAIN[:at] for end in run.ends])
            self.assertTrue(not it.after or it.after in before, it)
        self.assertIn(proving.BEFORE_ALL, before)

    def test_all_is_proved_at_once_if_nothing_is_kept(self) -> None:
        for after in (None, os.getpid()):
            (proofs,) = self.runs(after, trees=None).values()
            self.assertEqual((proofs.name, proofs.words, proofs.after, proofs.env), (proving.PROOFS, ("rt", "ci"), (), {}))

    def test_the_library_is_tried_beside_the_proofs_and_before_it_is_moved(self) -> None:
        those = {it.name: it for it in proving.every_job(None)}
        self.assertEqual((those["bindings"].needs, those["bindings"].after, those["bindings"].cores), (("library",), (), 0))
        self.assertIn(str(tree.place() / proving.ARCHIVE), those["bindings"].words)
        self.assertIn("bindings", those[proving.BUILDS].after)


class Trees(unittest.TestCase):
    def setUp(self) -> None:
        self.room = Path(self.enterContext(tempfile.TemporaryDirectory()))
        self.enterContext(mock.patch.object(tree, "place", side_effect=lambda name: self.room / name))
        self.crates = read_crates(TOP, ())

    def made(self, keeps: bool = True, free: int = 1 << 40, is_set: bool = False) -> dict[str, Path] | None:
        with mock.patch.object(proving, "keeps_proofs", return_value=keeps), mock.patch.object(proving, "free_memory", return_value=free):
            return proving.made_trees(self.crates, is_set=is_set)

    def test_they_have_the_pieces_of_the_longest_chain_and_what_does_not_stand_on_its_last_part(self) -> None:
        found = self.made()
        assert found is not None
        self.assertEqual(list(found), list(TREES))
        for it in proving.CHAIN:
            self.assertEqual(set(read_crates(found[it.job], ())), tree.below(self.crates, it.ends))
        self.assertEqual(set(read_crates(found[proving.LOW], ())), {it for it in self.crates if proving.LINE not in tree.below(self.crates, [it])})
        self.assertEqual(list(self.room.glob("*/crates/*/must-fail")), [])

    def test_there_are_none_where_crates_would_be_proved_twice_or_memory_is_short_or_jobs_are_set(self) -> None:
        for more in ({"keeps": False}, {"free": 1 << 20}, {"is_set": True}):
            self.assertIsNone(self.made(**more))  # type: ignore[arg-type]
        self.assertEqual(list(self.room.iterdir()), [])


if __name__ == "__main__":
    unittest.main()
