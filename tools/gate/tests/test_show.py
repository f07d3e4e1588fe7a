"""What is printed of parts, of failures and of skips."""

import contextlib
import io
import tempfile
import unittest
from dataclasses import replace
from pathlib import Path

from tools.gate.counts import Counts
from tools.gate.jobs import Done, Job
from tools.gate.show import Show, minutes, skips, times


class Showing(unittest.TestCase):
    def setUp(self) -> None:
        self.room = Path(self.enterContext(tempfile.TemporaryDirectory()))

    def done(self, name: str, counts: Counts, output: str = "", seconds: float = 1) -> Done:
        log = self.room / f"{name.replace('/', '-')}.log"
        log.write_text(output)
        return Done(Job(name, ("true",), 1), counts, 10, 10 + seconds, log, seconds / 2)

    def printed(self, *those: Done, is_strict: bool = False) -> list[str]:
        said = io.StringIO()
        with contextlib.redirect_stdout(said):
            show = Show([it.job for it in those], is_strict)
            for it in those:
                show.started(it.job)
                show.ended(it)
            show.close()
        return said.getvalue().splitlines()

    def test_a_line_a_part(self) -> None:
        lines = self.printed(self.done("a/x", Counts(2)), self.done("b", Counts(1), seconds=130), self.done("a/y", Counts(3)))
        self.assertEqual(lines, ["b  1 passed, 0 failed, 0 skipped, 2 min 10 s, 65 s of a core", "a  5 passed, 0 failed, 0 skipped, 1 s, 1 s of a core"])

    def test_when_jobs_began_and_ended(self) -> None:
        later = replace(self.done("b/x", Counts(1)), begun=12.5, ended=20.0)
        wanted = "  began   ended    core  job\n    0.0     3.0     1.5  a\n    2.5    10.0     0.5  b/x\n"
        self.assertEqual(times([later, self.done("a", Counts(2), seconds=3)]), wanted)

    def test_the_output_of_what_fails(self) -> None:
        lines = self.printed(self.done("a", Counts(2, 1), "what is wrong\n2 passed, 1 failed\n"))
        self.assertIn("what is wrong", lines)
        self.assertEqual(lines[-1], "a  2 passed, 1 failed, 0 skipped, 1 s, 0 s of a core")

    def test_why_things_are_skipped(self) -> None:
        output = "skipped: java: apt-get install jdk\ntest_x (T.test_x) ... skipped 'no server'\n"
        output += "test_y (T.test_y) ... skipped 'no server'\nskipped 4: no driver\n"
        lines = self.printed(self.done("a", Counts(2, 0, 3), output), self.done("b", Counts(1, 0, 1), "nothing"))
        self.assertIn("skipped: java: apt-get install jdk", lines)
        self.assertIn("skipped 2 times: no server", lines)
        self.assertIn("skipped 4 times: no driver", lines)
        self.assertTrue(any(it.startswith("skipped 1 of b: ") for it in lines), lines)
        self.assertEqual(skips(self.room / "a.log").total(), 7)

    def test_a_skip_shows_its_output_if_it_is_a_failure(self) -> None:
        it = self.done("a", Counts(2, 0, 1), "the whole output\n")
        self.assertNotIn("the whole output", self.printed(it))
        self.assertIn("the whole output", self.printed(it, is_strict=True))

    def test_minutes(self) -> None:
        self.assertEqual([minutes(it) for it in (3.4, 99, 100, 3605)], ["3 s", "99 s", "1 min 40 s", "60 min 05 s"])


if __name__ == "__main__":
    unittest.main()
