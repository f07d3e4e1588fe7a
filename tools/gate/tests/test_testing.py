"""Which jobs ./test runs for which parts."""

from __future__ import annotations

import contextlib
import io
import unittest

from tools.gate.parts import BEHIND, FIRST, PARTS, SECONDS, TAKEN, all_jobs
from tools.gate.testing import arguments, wanted


class Wanted(unittest.TestCase):
    def test_each_job_stands_once_and_what_it_needs_is_one(self) -> None:
        names = [it.name for it in all_jobs()]
        self.assertEqual(len(names), len(set(names)))
        for it in all_jobs():
            self.assertLessEqual({*it.needs, *it.after}, set(names), it.name)
            self.assertIn(it.part, {part.name for part in PARTS})

    def test_seconds_are_those_of_jobs_or_of_their_parts(self) -> None:
        known = {name for it in all_jobs() for name in (it.name, it.part)}
        self.assertLessEqual(SECONDS.keys(), known)

    def test_a_part_comes_with_what_it_needs(self) -> None:
        self.assertEqual([it.name for it in wanted(["header"])], ["library", "header"])

    def test_shares_of_a_pass_take_tests_in_one_folder(self) -> None:
        """Each share is there, and they differ in nothing else. Those of another pass, or of another folder of tests, take theirs elsewhere (tools/runtime)."""
        found: dict[tuple[str, ...], list[str]] = {}
        for it in all_jobs():
            if "--taken" in it.words:
                at = it.words.index("--share") + 1
                self.assertEqual(it.words[it.words.index("--taken") + 1], TAKEN)
                found.setdefault((*it.words[:at], *it.words[at + 1 :]), []).append(it.words[at])
        self.assertTrue(found)
        for shares in found.values():
            self.assertEqual(shares, [f"{it}/{len(shares)}" for it in range(1, len(shares) + 1)])

    def test_how_far_it_stays_behind_other_work(self) -> None:
        self.assertEqual((arguments([]).nice, arguments(["--nice", "10"]).nice), (0, 10))
        for it in ("-1", "11"):
            with self.assertRaises(SystemExit), contextlib.redirect_stderr(io.StringIO()) as said:
                arguments(["--nice", it])
            self.assertIn("--nice wants a number from 0 to 10", said.getvalue())

    def test_nothing_is_before_what_most_jobs_wait_for(self) -> None:
        """What needs nothing begins with the library and the programs, and has less of the cores."""
        those = {it.name: it for it in all_jobs()}
        self.assertLessEqual({*FIRST}, those.keys())
        self.assertEqual({it.nice for it in those.values() if it.name in FIRST}, {0})
        self.assertEqual({it.nice for it in those.values() if not (it.needs or it.after) and it.name not in FIRST}, {BEHIND})
        for name in ("library", "programs"):
            self.assertEqual(those[name].needs, ())

    def test_what_a_job_only_comes_after_is_left_out_with_its_part(self) -> None:
        alone = {it.name: it for it in wanted(["tutorial"])}
        self.assertNotIn("crates", alone)
        self.assertEqual(alone["tutorial/handlers"].after, ())
        whole = {it.name: it for it in wanted([])}
        self.assertEqual(whole["tutorial/handlers"].after, ("crates",))


if __name__ == "__main__":
    unittest.main()
