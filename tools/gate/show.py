"""What a run of jobs prints: a line a part, the output of what failed, and on a terminal a bar."""

from __future__ import annotations

import re
import shutil
import sys
import time
from collections import Counter
from collections.abc import Iterable
from pathlib import Path

from .counts import Counts
from .jobs import Done, Job

QUIET = 60  # seconds after which a run whose output is no terminal says what it does
MOST = 200  # lines that are printed of what failed
SKIP = re.compile(r"^(?:skipped(?: (?P<count>\d+))?: (?P<why>.+)|.*\.\.\. skipped (['\"])(?P<quoted>.*)\3)$", re.M)


def minutes(seconds: float) -> str:
    """Seconds, as minutes if they are many."""
    return f"{seconds:.0f} s" if seconds < 100 else f"{int(seconds) // 60} min {int(seconds) % 60:02} s"


def skips(log: Path) -> Counter[str]:
    """Why things were skipped, and how many, as a job's output says: in lines `skipped: WHY` or `skipped 3: WHY`, or as unittest does."""
    found: Counter[str] = Counter()
    for it in SKIP.finditer(log.read_text(encoding="utf-8", errors="replace")):
        found[it["why"] or it["quoted"]] += int(it["count"] or 1)
    return found


def shown(log: Path) -> str:
    """The output of a job that failed, or its end if it is long."""
    lines = log.read_text(encoding="utf-8", errors="replace").splitlines()
    left = [] if len(lines) <= MOST else [f".. {len(lines) - MOST} lines before this are in {log}"]
    return "\n".join([*left, *lines[-MOST:]])


def times(done: Iterable[Done]) -> str:
    """A line for each job: when it began and ended, in seconds since the first one began, and the seconds of a core that it took."""
    those = sorted(done, key=lambda it: it.begun)
    rows = (f"{it.begun - those[0].begun:7.1f} {it.ended - those[0].begun:7.1f} {it.used:7.1f}  {it.job.name}\n" for it in those)
    return "".join([f"{'began':>7} {'ended':>7} {'core':>7}  job\n", *rows])


class Show:
    """Prints how far jobs are."""

    def __init__(self, jobs: Iterable[Job], is_strict: bool = False) -> None:
        self.left: dict[str, set[str]] = {}
        self.seconds = {it.name: it.seconds for it in jobs}
        for name in self.seconds:
            self.left.setdefault(name.partition("/")[0], set()).add(name)
        self.is_strict, self.is_terminal = is_strict, sys.stdout.isatty()
        self.done: list[Done] = []
        self.running: dict[str, float] = {}
        self.width = max(map(len, self.left), default=0)
        self.said = time.monotonic()

    def started(self, job: Job) -> None:
        self.running[job.name] = time.monotonic()

    def ended(self, done: Done) -> None:
        self.running.pop(done.job.name, None)
        self.done.append(done)
        if self._failed(done.counts):
            self._say(f"== {done.job.name}: {done.counts} ({done.log})\n{shown(done.log)}\n==")
        part = done.job.part
        self.left[part].discard(done.job.name)
        if not self.left[part]:
            self._say(self._line(part))

    def ticked(self) -> None:
        if self.is_terminal:
            print(f"\r\033[K{self._bar()}", end="", flush=True)
        elif time.monotonic() - self.said >= QUIET and self.running:
            self._say(self._quiet())

    def close(self) -> None:
        """Ends the bar, and says what was skipped and why."""
        self._say("")
        reasons = sum((skips(it.log) for it in self.done), Counter[str]())
        for reason, count in sorted(reasons.items()):
            self._say(f"skipped{f' {count} times' if count > 1 else ''}: {reason}")
        for done in self.done:
            if done.counts.skipped and not skips(done.log):
                self._say(f"skipped {done.counts.skipped} of {done.job.name}: {done.log} has the reason")

    def _failed(self, counts: Counts) -> bool:
        return bool(counts.failed or (self.is_strict and counts.skipped))

    def _line(self, part: str) -> str:
        those = [it for it in self.done if it.job.part == part]
        took = max(it.ended for it in those) - min(it.begun for it in those)
        used = sum(it.used for it in those)
        return f"{part:{self.width}}  {sum((it.counts for it in those), Counts())}, {minutes(took)}, {minutes(used)} of a core"

    def _share(self) -> float:
        """How much of the work is done, by the jobs' usual seconds."""
        now = time.monotonic()
        done = float(sum(it.job.seconds for it in self.done))
        done += sum(min(now - begun, 0.9 * self.seconds[name]) for name, begun in self.running.items())
        return done / max(sum(self.seconds.values()), 1)

    def _quiet(self) -> str:
        """The line of a run whose output is no terminal."""
        return f".. {self._share():.0%}: {self._names()}"

    def _names(self) -> str:
        return ", ".join(sorted(self.running))

    def _bar(self) -> str:
        if not self.running:
            return ""
        share, columns = self._share(), shutil.get_terminal_size().columns
        full = round(20 * share)
        return f"[{'#' * full}{'.' * (20 - full)}] {share:4.0%} {self._names()}"[: columns - 1]

    def _say(self, text: str) -> None:
        self.said = time.monotonic()
        before = "\r\033[K" if self.is_terminal else ""
        print(f"{before}{text}" if text else before, end="\n" if text else "", flush=True)
