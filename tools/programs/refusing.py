"""Runs a program, and once more without each of its allocations in turn: see refuse.c."""

from __future__ import annotations

import os
import shutil
import signal
import subprocess
import tempfile
from collections.abc import Mapping
from dataclasses import dataclass
from pathlib import Path

SECONDS = 3000  # for all runs of a program; refuse.c has those of one


@dataclass(frozen=True)
class Run:
    """A run's status as subprocess gives it, or None if it hadn't ended in time, and what it wrote to its output and its standard error."""

    status: int | None
    output: bytes
    said: bytes

    def ended(self) -> str:
        if self.status is None:
            return "had not ended in time"
        return f"was stopped by signal {-self.status}" if self.status < 0 else f"ended with status {self.status}"


def read(path: str) -> bytes:
    return Path(path).read_bytes()


def all_runs(room: str, words: list[str], given: bytes, env: Mapping[str, str]) -> tuple[Run, list[Run]]:
    """Returns the ordinary run, and those that lack one allocation each, in the order of the allocations. The ordinary one counts as one that
    hadn't ended if it didn't wait for each of the others."""
    each = tempfile.mkdtemp(dir=room)
    Path(each, "in").write_bytes(given)
    with open(f"{each}/in", "rb") as source, open(f"{each}/out", "wb") as out, open(f"{each}/err", "wb") as err:
        try:
            status = subprocess.run(words, stdin=source, stdout=out, stderr=err, env={**env, "REFUSE_EACH": each}, timeout=SECONDS).returncode
        except subprocess.TimeoutExpired:
            status = None
    ordinary = Run(status, read(f"{each}/out"), read(f"{each}/err"))
    runs = []
    ends = read(f"{each}/ends").splitlines() if os.path.exists(f"{each}/ends") else []
    for at, wrote, said, status_of_wait in sorted([int(it) for it in line.split()] for line in ends):
        ended = os.waitstatus_to_exitcode(status_of_wait)
        output, error = ordinary.output[:wrote] + read(f"{each}/{at}.out"), ordinary.said[:said] + read(f"{each}/{at}.err")
        runs.append(Run(None if ended == -signal.SIGALRM else ended, output, error))
    children = sum(it.endswith(".out") for it in os.listdir(each))
    shutil.rmtree(each)
    return (ordinary if children == len(runs) else Run(None, b"", b"")), runs
