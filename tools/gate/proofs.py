"""How far `rt ci` is: which crates are proved, as its output says, and how long the others will take, by the processor time that they
took last time on this machine."""

from __future__ import annotations

import json
import os
import re
from collections.abc import Container, Iterable, Mapping
from contextlib import suppress
from dataclasses import dataclass, field
from pathlib import Path

PROVED = re.compile(r"^rt: (\w+) proved$")
SAYS_KEPT = "is kept: "  # of a crate, by rt ci, if it takes what an earlier run has proved
KEPT = re.compile(rf"^rt: (\w+) {SAYS_KEPT}")
FAILED = re.compile(r"^rt: (\w+) NOT PROVED")
TESTS = re.compile(r"^rt: (\w+): its tests are ")
TICKS = os.sysconf("SC_CLK_TCK")
ENOUGH = 0.9  # of the crates have to have a time before one is foretold
BEHIND = 15  # the niceness of a process for which the longest chain doesn't wait


@dataclass(frozen=True)
class Crate:
    """A crate: the libraries of the repository that it names, and what rt ci does with it beside its proof."""

    name: str
    below: tuple[str, ...] = ()
    has_tests: bool = False
    has_edits: bool = False


def read_crates(top: Path, tested: Iterable[str]) -> dict[str, Crate]:
    """The crates of crates.txt, of which these have tests."""
    lines = [it.partition("#")[0] for it in (top / "crates.txt").read_text(encoding="utf-8").splitlines()]
    rows = {left.split()[0]: right.split() for left, _, right in (it.partition(":") for it in lines) if left.strip()}
    with_tests = set(tested)
    found = {}
    for name, libraries in rows.items():
        has_edits = any((top / "crates" / name / "must-fail").glob("*.edit"))
        found[name] = Crate(name, tuple(it for it in libraries if it in rows), name in with_tests, has_edits)
    return found


@dataclass
class Proofs:
    """The crates, the seconds of a processor that each took last time, and what of this run is known."""

    crates: Mapping[str, Crate]
    last: Mapping[str, float] = field(default_factory=dict)
    proved: set[str] = field(default_factory=set)
    kept: set[str] = field(default_factory=set)
    ended: set[str] = field(default_factory=set)
    spent: dict[str, float] = field(default_factory=dict)

    def said(self, line: str) -> None:
        """Takes a line of rt ci's output. What an rt ci of this run has proved, and a second one takes, is proved and not kept."""
        if found := KEPT.match(line):
            if found[1] not in self.proved:
                self.kept.add(found[1])
            self.ended.add(found[1])
        elif found := PROVED.match(line) or FAILED.match(line):
            self.proved.add(found[1])
            if (it := self.crates.get(found[1])) and not it.has_tests and not it.has_edits:
                self.ended.add(found[1])
        elif (found := TESTS.match(line)) and (it := self.crates.get(found[1])) and not it.has_edits:
            self.ended.add(found[1])

    def done(self) -> int:
        """How many crates are proved, or were in an earlier run."""
        return len((self.proved | self.kept) & set(self.crates))

    def left_of(self, name: str) -> float:
        """The seconds of a processor that a crate will still take. One that has no time takes as long as the others do on the average."""
        if name in self.ended:
            return 0
        usual = sum(self.last.values()) / max(len(self.last), 1)
        return max(self.last.get(name, usual) - self.spent.get(name, 0), 0)

    def left(self, cores: int) -> float | None:
        """The seconds that all will still take: the work over the cores, or the longest chain if that is longer. None if too few times are
        known."""
        if len(self.last) < ENOUGH * len(self.crates):
            return None
        work = {it: self.left_of(it) for it in self.crates}
        chains: dict[str, float] = {}

        def chain(name: str) -> float:
            if name not in chains:
                chains[name] = work[name] + max((chain(it) for it in self.crates[name].below), default=0)
            return chains[name]

        return max(sum(work.values()) / cores, max(map(chain, work), default=0))

    def times(self) -> dict[str, float]:
        """The seconds of each crate, for the next time: those of this run if all of it was proved anew, and else those of last time."""
        new = {name: spent for name, spent in self.spent.items() if name in self.proved - self.kept and name in self.crates}
        return {name: round(it, 1) for name, it in sorted({**self.last, **new}.items()) if name in self.crates}


def read_times(path: Path) -> dict[str, float]:
    """The seconds that are kept in a file; none if it isn't there or can't be read."""
    try:
        found = json.loads(path.read_text(encoding="utf-8"))
        return {str(name): float(it) for name, it in found.items()}
    except (OSError, ValueError, AttributeError, TypeError):
        return {}


@dataclass
class Processors:
    """The processor time that each crate takes, of the processes below this one that name it."""

    spent: dict[int, tuple[str, float]] = field(default_factory=dict)
    running: set[str] = field(default_factory=set)
    seen: dict[int, str] = field(default_factory=dict)

    def look(self) -> None:
        """Looks at the processes there are. What a process takes after the last look at it isn't counted."""
        rows = {pid: row for pid in map(int, filter(str.isdigit, os.listdir("/proc"))) if (row := _row(pid))}
        ours = {os.getpid()}
        while more := {pid for pid, (parent, _) in rows.items() if parent in ours and pid not in ours}:
            ours |= more
        self.seen = {pid: name for pid in ours & rows.keys() if (name := _crate(pid))}
        self.running = set(self.seen.values())
        self.spent.update((pid, (name, rows[pid][1])) for pid, name in self.seen.items())

    def put_behind(self, chain: Container[str]) -> None:
        """Puts the processes that were seen last behind those that work on a crate of this chain. One that has ended meanwhile is left out."""
        for pid in (pid for pid, name in self.seen.items() if name not in chain):
            with suppress(OSError):
                os.setpriority(os.PRIO_PROCESS, pid, max(BEHIND, os.getpriority(os.PRIO_PROCESS, pid)))

    def by_crate(self) -> dict[str, float]:
        found: dict[str, float] = {}
        for name, seconds in self.spent.values():
            found[name] = found.get(name, 0) + seconds
        return found


def _row(pid: int) -> tuple[int, float] | None:
    """A process's parent, and its seconds of a processor."""
    try:
        words = Path(f"/proc/{pid}/stat").read_text(encoding="utf-8", errors="replace").rpartition(")")[2].split()
    except OSError:
        return None
    return int(words[1]), (int(words[11]) + int(words[12])) / TICKS


def _crate(pid: int) -> str | None:
    """The crate that a process of the prover works on."""
    try:
        words = Path(f"/proc/{pid}/cmdline").read_bytes().split(b"\0")
    except OSError:
        return None
    at = words.index(b"--crate-name") + 1 if b"--crate-name" in words else len(words)
    return words[at].decode(errors="replace") if at < len(words) else None
