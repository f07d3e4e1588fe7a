"""Whether there is room for one more job than there are cores: jobs that wait for leases, disks and clocks leave some of the processors idle."""

from __future__ import annotations

import os
import time
from pathlib import Path

from .environment import free_memory, processors

SECONDS = 2.0  # between two looks: a job that was begun is seen by the next
IDLE = 0.5  # of a processor, that has nothing to do


def idle_seconds() -> float:
    """For how long the processors had nothing to do since the host began, or only waited for disks."""
    words = Path("/proc/stat").read_text(encoding="ascii").partition("\n")[0].split()
    return (int(words[4]) + int(words[5])) / os.sysconf("SC_CLK_TCK")


class Spare:
    """Says whether one more job may begin: a processor was idle since the last look, and there is memory for it. Where other processes have processors of
    their own, theirs are idle too, so there it always says no."""

    def __init__(self, memory: int) -> None:
        self.memory, self.is_known = memory, processors() == os.cpu_count()
        self.looked, self.idle = time.monotonic(), idle_seconds()

    def __call__(self) -> bool:
        now = time.monotonic()
        if not self.is_known or now - self.looked < SECONDS:
            return False
        idle, lasted = idle_seconds(), now - self.looked
        share, self.looked, self.idle = (idle - self.idle) / lasted, now, idle
        return share >= IDLE and free_memory() >= self.memory
