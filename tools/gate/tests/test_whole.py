"""The gate adds the counts of its steps, and ends with one line."""

import contextlib
import io
import unittest

from tools.gate.counts import Counts
from tools.gate.whole import Step, gate


def step(name: str, command: str, counts: bool = True) -> Step:
    return Step(name, ("sh", "-c", command), counts)


NOTHING = step("packages", "true", counts=False)


class Gate(unittest.TestCase):
    def gate(self, test: str, prove: str, first: Step = NOTHING) -> tuple[Counts, list[str]]:
        said = io.StringIO()
        with contextlib.redirect_stdout(said):
            found = gate(first, step("test", test), step("prove", prove))
        return found, said.getvalue().splitlines()

    def test_counts_are_added(self) -> None:
        found, said = self.gate("echo x; echo 3 passed, 0 failed, 0 skipped", "echo 4 passed, 0 failed")
        self.assertEqual(found, Counts(7))
        self.assertIn("test: 3 passed, 0 failed, 0 skipped", said)
        self.assertEqual(said[-1], "== seconds: packages 0 s, test 0 s, prove 0 s, all 0 s")

    def test_the_proofs_begin_beside_the_tests_and_know_their_process(self) -> None:
        found, said = self.gate("sleep 0.5; echo late; echo 3 passed, 0 failed", 'kill -0 "$1" && echo early; echo 4 passed, 0 failed')
        self.assertEqual(found, Counts(7))
        self.assertEqual([it for it in said if it in ("early", "late")], ["late", "early"])

    def test_a_skip_is_a_failure(self) -> None:
        self.assertEqual(self.gate("echo 3 passed, 0 failed, 2 skipped", "echo 4 passed, 0 failed")[0], Counts(7, 2))

    def test_what_counts_nothing_is_a_failure(self) -> None:
        self.assertEqual(self.gate("echo 3 passed, 0 failed; echo more", "echo 4 passed, 0 failed")[0], Counts(4, 1))
        self.assertEqual(self.gate("echo 3 passed, 0 failed; exit 1", "echo 4 passed, 0 failed")[0], Counts(7, 1))

    def test_all_steps_are_run(self) -> None:
        found, said = self.gate("exit 1", "echo 1 passed, 0 failed", step("packages", "exit 100", counts=False))
        self.assertEqual(found, Counts(1, 1))
        self.assertIn("packages ended with status 100: what is missing fails below", said)


if __name__ == "__main__":
    unittest.main()
