"""Runs the tests of a folder: suite.py [--only DATABASE | --but DATABASE] [--files NAME,..] [--share N/OF [--taken NEW]] [--stalls CHANCE] FOLDER. A line for
each, with its seconds, and those of a processor; then what failed and why, the slowest, and what was skipped. The last line is 'N passed, M failed, K skipped'.
With --only just the tests on this database are run, sqlite or postgres, and with --but all others, also those on none. With --files just those of these files
are run. With --share they are divided, so that all shares side by side are all tests. With --taken too each share takes the next test that none has taken, by
files in NEW, a folder that all shares of one run have and no other run; so they end at about one time. With --stalls each iteration of an event loop begins
late by this chance (stalls.py), which shows tests that go by chance."""

from __future__ import annotations

import argparse
import os
import pathlib
import sys
import time
import unittest
from collections import Counter
from collections.abc import Iterable, Iterator
from types import TracebackType

import stalls

SLOW = 5.0  # seconds; the tests that take longer are named
MOST = 10  # of them
DATABASES = ("sqlite", "postgres")


def used() -> float:
    """The seconds of a processor that this process has taken, with those that it has started and waited for."""
    return sum(os.times()[:4])


class Result(unittest.TestResult):
    """Says each test with its seconds as soon as it has ended."""

    def __init__(self) -> None:
        super().__init__()
        self.seconds: dict[str, float] = {}
        self.counts: Counter[str] = Counter(passed=0, failed=0, skipped=0)
        self._begun, self._used, self._before = 0.0, 0.0, (0, 0)
        self._is_running = False

    def _found(self) -> tuple[int, int]:
        """How much has failed so far, and how much was skipped."""
        return len(self.failures) + len(self.errors) + len(self.unexpectedSuccesses), len(self.skipped)

    def startTest(self, test: unittest.TestCase) -> None:
        super().startTest(test)
        self._begun, self._used, self._before, self._is_running = time.monotonic(), used(), self._found(), True

    def stopTest(self, test: unittest.TestCase) -> None:
        super().stopTest(test)
        bad, skipped = (now - before for now, before in zip(self._found(), self._before))
        how = "failed" if bad else "skipped" if skipped else "passed"
        self.counts[how] += 1
        self.seconds[str(test)] = took = time.monotonic() - self._begun
        self._is_running = False
        print(f"{how:<7} {took:6.1f} s {used() - self._used:6.1f} s  {test}", flush=True)

    def addError(self, test: unittest.TestCase, err: tuple[type[BaseException], BaseException, TracebackType] | tuple[None, None, None]) -> None:
        super().addError(test, err)
        if not self._is_running:  # a class or a module couldn't be set up
            self.counts["failed"] += 1

    def addSkip(self, test: unittest.TestCase, reason: str) -> None:
        super().addSkip(test, reason)
        if not self._is_running:  # a whole class
            self.counts["skipped"] += 1

    def say(self) -> None:
        """Says what failed, the slowest, and why tests were skipped."""
        for test, text in self.failures + self.errors:
            print(f"\nFAILED {test}\n{text}")
        slowest = sorted(self.seconds.items(), key=lambda it: -it[1])
        for name, seconds in [it for it in slowest if it[1] >= SLOW][:MOST]:
            print(f"slow: {seconds:.1f} s  {name}")
        for why, count in Counter(why for _, why in self.skipped).items():
            print(f"skipped {count}: {why}")
        print(f"{self.counts['passed']} passed, {self.counts['failed']} failed, {self.counts['skipped']} skipped", flush=True)


def tests_of(suite: unittest.TestSuite, options: argparse.Namespace) -> Iterator[unittest.TestCase]:
    """The tests of a suite that the options want. One that couldn't be loaded is run, and fails."""
    for it in suite:
        if isinstance(it, unittest.TestSuite):
            yield from tests_of(it, options)
        elif type(it).__name__ == "_FailedTest":
            yield it
        else:
            kind = getattr(it, "kind", None)
            if options.only in (None, kind) and (options.but is None or kind != options.but):
                yield it


def share(text: str) -> tuple[int, int]:
    """A share: its number from 1 on, and of how many."""
    number, _, of = text.partition("/")
    found = int(number), int(of)
    if not 1 <= found[0] <= found[1]:
        raise ValueError
    return found


def units(tests: Iterable[unittest.TestCase]) -> list[list[unittest.TestCase]]:
    """What isn't divided: a test, or the tests of a class that sets something up for all of them."""
    found = dict[str, list[unittest.TestCase]]()
    for it in tests:
        kind = type(it)
        is_whole = any("setUpClass" in vars(one) for one in kind.__mro__ if one is not unittest.TestCase)
        found.setdefault(f"{kind.__module__}.{kind.__qualname__}" if is_whole else it.id(), []).append(it)
    return list(found.values())


def take(folder: pathlib.Path, at: int) -> bool:
    """Whether nobody has taken the unit of this number before."""
    try:
        (folder / f"{at}").touch(exist_ok=False)
    except FileExistsError:
        return False
    return True


class Share(unittest.TestSuite):
    """The tests of a share. If there is a folder in which units are taken, its first one is its own, so that each share has one, and then it takes what
    is left."""

    _cleanup = False  # the suite's own list is empty

    def __init__(self, tests: Iterable[unittest.TestCase], number: int, of: int, taken: pathlib.Path | None) -> None:
        super().__init__()
        self._units, self._number, self._of, self._taken = units(tests), number, of, taken

    def __iter__(self) -> Iterator[unittest.TestCase]:
        for at, unit in enumerate(self._units):
            if self._taken is None or at < self._of:
                is_own = at % self._of == self._number - 1
            else:
                is_own = take(self._taken, at)
            if is_own:
                yield from unit


def main() -> int:
    parser = argparse.ArgumentParser("suite.py", description="Runs the tests of a folder.")
    parser.add_argument("folder", type=pathlib.Path)
    which = parser.add_mutually_exclusive_group()
    which.add_argument("--only", choices=DATABASES, help="only the tests on this database")
    which.add_argument("--but", choices=DATABASES, help="all tests but those on this database")
    parser.add_argument("--files", type=lambda it: it.split(","), default=[], metavar="NAME,..", help="only the tests of these files")
    parser.add_argument("--share", type=share, default=(1, 1), metavar="N/OF", help="only the tests of this share, as of 2/3")
    parser.add_argument("--taken", type=pathlib.Path, metavar="NEW", help="the folder in which the shares of this run take tests")
    parser.add_argument("--stalls", type=float, default=0.0, metavar="CHANCE", help="event loops go on late, by this chance at each iteration")
    options = parser.parse_args()
    if not options.folder.is_dir():
        parser.error(f"there is no folder {options.folder}")
    folder = options.folder.resolve()
    if unknown := [it for it in options.files if not (folder / f"{it}.py").is_file()]:
        parser.error(f"{folder.name} has no file {unknown[0]}.py")
    if options.taken is not None:
        options.taken.mkdir(parents=True, exist_ok=True)
        if not take(options.taken, options.share[0] - 1):
            parser.error(f"{options.taken} is of another run: its share {options.share[0]} has taken its tests")
    sys.path.insert(0, str(folder.parent))
    if options.stalls:
        stalls.begin(options.stalls)
    patterns = [f"{it}.py" for it in options.files] or ["test*.py"]
    found = unittest.TestSuite(unittest.TestLoader().discover(str(folder), it) for it in patterns)
    result = Result()
    Share(tests_of(found, options), *options.share, options.taken).run(result)
    result.say()
    return 1 if result.counts["failed"] else 0


if __name__ == "__main__":
    sys.exit(main())
