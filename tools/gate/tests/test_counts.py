"""Counts as commands print them, and what counts nothing."""

import unittest

from tools.gate.counts import Counts, of_last_line, of_status, of_tests, of_unittest

TESTS = "test a::b ... ok\ntest result: ok. 5 passed; 0 failed; 0 ignored; 0 filtered out\nrun=ended status=0 proved=no\n"


class OfLastLines(unittest.TestCase):
    def test_two_and_three_numbers(self) -> None:
        self.assertEqual(of_last_line("== x\n3 passed, 0 failed\n", 0), Counts(3, 0, 0))
        self.assertEqual(of_last_line("3 passed, 1 failed, 2 skipped", 1), Counts(3, 1, 2))

    def test_what_counts_nothing_fails(self) -> None:
        for output in ("", "\n", "ok\n", "3 passed, 0 failed (more)\n", "3 passed\n", "3 passed, 0 failed\nmore\n", "0 passed, 0 failed\n"):
            self.assertEqual(of_last_line(output, 0), Counts(failed=1), output)

    def test_a_status_is_a_failure(self) -> None:
        self.assertEqual(of_last_line("3 passed, 0 failed\n", 1), Counts(3, 1))
        self.assertEqual(of_last_line("3 passed, 2 failed\n", 1), Counts(3, 2))
        self.assertEqual(of_last_line("3 passed, 2 failed\n", 0), Counts(3, 2))


class OfOthers(unittest.TestCase):
    def test_tests_of_a_crate(self) -> None:
        self.assertEqual(of_tests(TESTS, 0), Counts(5))
        self.assertEqual(of_tests(TESTS, 101), Counts(5, 1))
        self.assertEqual(of_tests("error: it doesn't compile\n", 2), Counts(failed=1))
        self.assertEqual(of_tests("nothing\n", 0), Counts(failed=1))

    def test_an_ignored_test_fails(self) -> None:
        self.assertEqual(of_tests(TESTS.replace("0 ignored", "2 ignored"), 0), Counts(5, 2))

    def test_unittest(self) -> None:
        self.assertEqual(of_unittest("Ran 7 tests in 0.1s\n\nOK\n", 0), Counts(7))
        self.assertEqual(of_unittest("Ran 7 tests in 0.1s\n\nFAILED (failures=1, errors=2, skipped=1)\n", 1), Counts(3, 3, 1))
        self.assertEqual(of_unittest("Ran 0 tests in 0.0s\n\nOK\n", 0), Counts(failed=1))
        self.assertEqual(of_unittest("ImportError\n", 1), Counts(failed=1))

    def test_a_thing_that_is_made(self) -> None:
        self.assertEqual((of_status("", 0), of_status("", 3)), (Counts(1), Counts(failed=1)))


class Sums(unittest.TestCase):
    def test_a_skip_is_a_failure_if_that_is_asked(self) -> None:
        found = Counts(3, 1, 2) + Counts(1)
        self.assertEqual((found, found.strict()), (Counts(4, 1, 2), Counts(4, 3, 0)))
        self.assertEqual(str(found), "4 passed, 1 failed, 2 skipped")


if __name__ == "__main__":
    unittest.main()
