"""What waits for the proof of some crates."""

import tempfile
import threading
import time
import unittest
from pathlib import Path

from tools.gate.waiting import wait_for

KEPT = "rt: low is kept: an earlier run on this machine proved the same files over the same libraries"


class Waiting(unittest.TestCase):
    def setUp(self) -> None:
        self.room = Path(self.enterContext(tempfile.TemporaryDirectory()))
        self.log = self.room / "log"

    def test_it_waits_until_all_are_proved(self) -> None:
        self.log.write_text(f"{KEPT}\n")
        said = threading.Timer(0.2, lambda: self.log.write_text(f"{KEPT}\nrt: high proved\n"))
        begun = time.monotonic()
        said.start()
        self.assertEqual(wait_for(["low", "high"], [self.log], 0.01), [])
        self.assertGreater(time.monotonic() - begun, 0.1)
        said.join()

    def test_it_ends_with_the_run_that_it_waits_for(self) -> None:
        self.log.write_text(f"{KEPT}\nrt: high NOT PROVED\n1 passed, 1 failed\n")
        self.assertEqual(wait_for(["low", "high"], [self.log], 0.01), ["high"])

    def test_it_looks_at_several_runs_and_ends_with_the_last(self) -> None:
        other = self.room / "other"
        self.log.write_text("rt: low proved\n1 passed, 0 failed\n")
        ends = threading.Timer(0.2, lambda: other.write_text("rt: high proved\n2 passed, 1 failed\n"))
        ends.start()
        self.assertEqual(wait_for(["low", "high", "highest"], [self.log, other], 0.01), ["highest"])
        ends.join()


if __name__ == "__main__":
    unittest.main()
