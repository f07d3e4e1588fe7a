"""How many checks passed, failed and were skipped, as the last line of a command's output says."""

from __future__ import annotations

import re
from dataclasses import dataclass

LINE = re.compile(r"(\d+) passed, (\d+) failed(?:, (\d+) skipped)?")
TESTS = re.compile(r"^test result: \w+\. (\d+) passed; (\d+) failed; (\d+) ignored;", re.M)


@dataclass(frozen=True)
class Counts:
    """How many checks passed, failed and were skipped."""

    passed: int = 0
    failed: int = 0
    skipped: int = 0

    def __add__(self, other: Counts) -> Counts:
        return Counts(self.passed + other.passed, self.failed + other.failed, self.skipped + other.skipped)

    def __str__(self) -> str:
        return f"{self.passed} passed, {self.failed} failed, {self.skipped} skipped"

    def strict(self) -> Counts:
        """These counts if a skip is a failure."""
        return Counts(self.passed, self.failed + self.skipped, 0)


def with_status(found: Counts | None, status: int) -> Counts:
    """The counts of a command that ended with this status. A command that fails, or that counts nothing, is a failure itself."""
    if found is None or found == Counts():
        return Counts(failed=1)
    return Counts(found.passed, max(found.failed, 1), found.skipped) if status else found


def of_last_line(output: str, status: int) -> Counts:
    """The counts of a command whose last line is `N passed, M failed` or `N passed, M failed, K skipped`, and nothing more."""
    lines = output.rstrip().splitlines()
    found = LINE.fullmatch(lines[-1]) if lines else None
    return with_status(Counts(*(int(it or 0) for it in found.groups())) if found else None, status)


def of_tests(output: str, status: int) -> Counts:
    """The counts of `rt try --test`. A test that is ignored is a failure: nothing would run it."""
    found = TESTS.search(output)
    return with_status(Counts(int(found[1]), int(found[2]) + int(found[3])) if found else None, status)


def of_status(output: str, status: int) -> Counts:
    """The counts of a command that makes one thing, or fails."""
    return Counts(failed=1) if status else Counts(passed=1)


def of_unittest(output: str, status: int) -> Counts:
    """The counts of a run of unittest."""
    ran = re.search(r"^Ran (\d+) tests?", output, re.M)
    said = {word: int(count) for word, count in re.findall(r"\b(failures|errors|skipped)=(\d+)", output)}
    failed, skipped = said.get("failures", 0) + said.get("errors", 0), said.get("skipped", 0)
    return with_status(Counts(max(int(ran[1]) - failed - skipped, 0), failed, skipped) if ran else None, status)
