""".ci/run: the gate. It installs what tests need, and then runs ./test and ./prove, each without a skip. The proofs begin beside
./test, and before it in priority: the whole waits for them, and their first minutes are one crate after another, which leaves cores idle."""

from __future__ import annotations

import os
import queue
import shlex
import subprocess
import sys
import threading
import time
from collections.abc import Iterator, Sequence
from dataclasses import dataclass
from pathlib import Path

from .counts import LINE, Counts, of_last_line
from .environment import TOP
from .show import minutes


@dataclass(frozen=True)
class Step:
    """A step of the gate: its name, its command, and whether it counts checks."""

    name: str
    words: tuple[str, ...]
    counts: bool = True


PACKAGES = Step("packages", (sys.executable, "-m", "tools.gate.packages", "--install"), counts=False)


def step_of(command: str) -> Step:
    """A step that runs a command of the repository, and has its name."""
    words = tuple(shlex.split(command))
    return Step(Path(words[0]).name, words)


class Running:
    """A step that has begun. What it says is read at once, and printed when its turn comes."""

    def __init__(self, step: Step, after: Running | None = None) -> None:
        """Begins the step; one that comes after another is told that one's process."""
        beside = () if after is None else ("--after", str(after.process.pid))
        self.step, self.begun = step, time.monotonic()
        self.process = subprocess.Popen(
            (*step.words, *beside), cwd=TOP, stdin=subprocess.DEVNULL, stdout=subprocess.PIPE, stderr=subprocess.STDOUT, text=True, errors="replace"
        )
        self.ended = self.begun
        self.said: queue.Queue[str | None] = queue.Queue()
        self.reader = threading.Thread(target=self._read, daemon=True)
        self.reader.start()

    def _read(self) -> None:
        for line in self.process.stdout or ():
            self.said.put(line.rstrip("\n"))
        self.process.wait()
        self.ended = time.monotonic()
        self.said.put(None)

    def lines(self) -> Iterator[str]:
        """What it says, until it has ended."""
        yield from iter(self.said.get, None)

    def counts(self) -> Counts:
        """Prints what it says, and returns its counts. Its last line is of the form in which the whole ends, so it is printed with the step's name."""
        step, last = self.step, ""
        print(f"== {step.name}: {' '.join(step.words)}", flush=True)
        for last in self.lines():
            print(f"{step.name}: {last}" if LINE.fullmatch(last) else last, flush=True)
        status = self.process.returncode
        if step.counts:
            return of_last_line(last, status).strict()
        if status:
            print(f"{step.name} ended with status {status}: what is missing fails below", flush=True)
        return Counts()

    def took(self) -> str:
        return f"{self.step.name} {minutes(self.ended - self.begun)}"


def gate(first: Step, test: Step, beside: Step) -> Counts:
    """Runs a step, and then two beside each other, also after one that fails, and prints the seconds of each and of all."""
    packages = Running(first)
    found = packages.counts()
    tests = Running(test)
    proofs = Running(beside, after=tests)
    found += tests.counts()
    found += proofs.counts()
    whole = minutes(max(tests.ended, proofs.ended) - packages.begun)
    print(f"== seconds: {', '.join(it.took() for it in (packages, tests, proofs))}, all {whole}", flush=True)
    return found


def main(commands: Sequence[str]) -> int:
    os.chdir(TOP)
    found = gate(PACKAGES, *map(step_of, commands))
    print(f"{found.passed} passed, {found.failed} failed", flush=True)
    return 1 if found.failed else 0


if __name__ == "__main__":
    sys.exit(main(sys.argv[1:]))
