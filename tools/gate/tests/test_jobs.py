"""Jobs are run side by side, in order, and what fails isn't lost."""

import os
import sys
import tempfile
import time
import unittest
from pathlib import Path

from tools.gate.counts import Counts
from tools.gate.jobs import Done, Job, Runner, chains, total, with_needed


LONG = 600  # seconds after which a test that waits has failed, however busy its host is


class Quiet:
    """Notes what it gets."""

    def __init__(self) -> None:
        self.begun: list[str] = []
        self.done: list[Done] = []

    def started(self, job: Job) -> None:
        self.begun.append(job.name)

    def ended(self, done: Done) -> None:
        self.done.append(done)

    def ticked(self) -> None:
        pass


def says(name: str, text: str, seconds: int = 1, status: int = 0, **more: object) -> Job:
    """A job that prints a text and ends with a status."""
    return Job(name, (sys.executable, "-c", f"print({text!r}); raise SystemExit({status})"), seconds, **more)  # type: ignore[arg-type]


class Running(unittest.TestCase):
    def run_jobs(self, *jobs: Job, cores: int = 2) -> tuple[dict[str, Done], Quiet]:
        watch = Quiet()
        return Runner(list(jobs), cores, Path(self.enterContext(tempfile.TemporaryDirectory())), watch).run(), watch

    def test_counts_and_logs(self) -> None:
        jobs = says("a/x", "one\n2 passed, 0 failed"), says("a/y", "3 passed, 1 failed, 2 skipped", status=1), says("b", "nothing")
        done, _ = self.run_jobs(*jobs)
        self.assertEqual([done[it].counts for it in ("a/x", "a/y", "b")], [Counts(2), Counts(3, 1, 2), Counts(failed=1)])
        self.assertEqual(total(done, False), Counts(5, 2, 2))
        self.assertEqual(total(done, True), Counts(5, 4))

    def test_a_job_leaves_the_processors_to_others(self) -> None:
        asks = "import os; print(os.nice(0)); print('1 passed, 0 failed')"
        jobs = [Job(f"{nice}", (sys.executable, "-c", asks), 1, nice=nice) for nice in (0, 3)]
        done, _ = self.run_jobs(*jobs)
        first, second = (int(done[it].log.read_text().split()[0]) for it in ("0", "3"))
        self.assertEqual((first, second), (os.nice(0), min(os.nice(0) + 3, 19)))

    def test_what_needs_a_failure_is_not_run(self) -> None:
        jobs = says("a", "0 passed, 1 failed"), says("b", "1 passed, 0 failed", needs=("a",)), says("c", "1 passed, 0 failed", needs=("b",))
        done, watch = self.run_jobs(*jobs, says("d", "1 passed, 0 failed", after=("a",)))
        self.assertEqual(sorted(watch.begun), ["a", "d"])
        self.assertEqual(total(done, False), Counts(1, 3))

    def test_the_longest_chain_first(self) -> None:
        jobs = [says("short", "1 passed, 0 failed", 1), says("long", "1 passed, 0 failed", 9), says("first", "1 passed, 0 failed", 2)]
        jobs.append(says("last", "1 passed, 0 failed", 20, needs=("first",)))
        self.assertEqual(chains(jobs), {"short": 1, "long": 9, "first": 22, "last": 20})
        self.assertEqual(self.run_jobs(*jobs, cores=1)[1].begun, ["first", "last", "long", "short"])

    def test_a_job_of_all_cores_runs_alone(self) -> None:
        """But one that takes none goes on beside it: the first of them ends once the other has."""
        room = self.enterContext(tempfile.TemporaryDirectory())
        says, waits = "echo 1 passed, 0 failed", "while [ ! -e c ]; do sleep 0.05; done"
        jobs = ("a", f"{waits}; {says}", 9, 100), ("b", says, 5, 1), ("c", f"{says}; touch c", 1, 0)
        done, _ = self.run_jobs(*(Job(name, ("sh", "-c", words), seconds, cores=cores, folder=room, limit=LONG) for name, words, seconds, cores in jobs))
        self.assertGreaterEqual(done["b"].begun, done["a"].ended)
        self.assertEqual(total(done, True), Counts(3))

    def test_one_more_begins_while_processors_are_idle(self) -> None:
        """The first two end once the third has begun, for which there is no core."""
        room = Path(self.enterContext(tempfile.TemporaryDirectory()))
        says, waits = "echo 1 passed, 0 failed", "while [ ! -e c ]; do sleep 0.05; done"
        jobs = [Job(name, ("sh", "-c", f"{waits}; {says}"), 9, folder=str(room), limit=LONG) for name in "ab"]
        jobs.append(Job("c", ("sh", "-c", f"touch c; {says}"), 1, folder=str(room)))
        done = Runner(jobs, 2, room / "logs", Quiet(), spare=lambda: True).run()
        self.assertEqual(total(done, True), Counts(3))

    def test_what_does_not_end_fails_and_ends(self) -> None:
        words = ("sh", "-c", "sleep 3600 & echo 1 passed, 0 failed; sleep 3600")
        begun = time.monotonic()
        done, _ = self.run_jobs(Job("a", words, 1, limit=1))
        self.assertLess(time.monotonic() - begun, LONG)
        self.assertEqual(done["a"].counts.failed, 1)
        self.assertIn("had not ended after 1 seconds", done["a"].log.read_text())

    def test_the_seconds_of_a_core(self) -> None:
        words = (sys.executable, "-c", "import time\nwhile time.process_time() < 0.3: pass\nprint('1 passed, 0 failed')")
        done, _ = self.run_jobs(Job("a", words, 1))
        self.assertGreaterEqual(done["a"].used, 0.3)

    def test_a_command_that_is_not_there_fails(self) -> None:
        done, _ = self.run_jobs(Job("a", ("/no/such/command",), 1))
        self.assertEqual(done["a"].counts, Counts(failed=1))

    def test_a_need_that_is_no_job(self) -> None:
        with self.assertRaisesRegex(ValueError, "what a needs is no job"):
            self.run_jobs(says("a", "1 passed, 0 failed", needs=("b",)))

    def test_what_is_needed_comes_along(self) -> None:
        jobs = [says("a", ""), says("b", "", needs=("a",)), says("c", "", needs=("b",)), says("d", "")]
        self.assertEqual([it.name for it in with_needed([jobs[2]], jobs)], ["a", "b", "c"])


if __name__ == "__main__":
    unittest.main()
