"""Runs of `vmengine`: scripts in, reports out."""

from __future__ import annotations

import subprocess
from dataclasses import dataclass

from tools.simulation.program import Bad

SECONDS = 300  # a run has no more


@dataclass(frozen=True)
class Program:
    path: str

    def report(self, version: int, script: str) -> str:
        words = [self.path, f"application/vnd.restate.invocation.v{version}"]
        try:
            ran = subprocess.run(words, input=script, capture_output=True, text=True, timeout=SECONDS)
        except subprocess.TimeoutExpired:
            raise Bad(f"it hasn't ended after {SECONDS} seconds") from None
        if ran.returncode != 0 or ran.stderr:
            raise Bad(f"status {ran.returncode}, {ran.stdout[:500]!r}, {ran.stderr[:500]!r}")
        return ran.stdout
