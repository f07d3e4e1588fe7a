"""What a long build says while it goes on."""

from __future__ import annotations

import sys
import time
from dataclasses import dataclass, field


@dataclass
class Progress:
    """Prints each step as a line on standard error, with the seconds since the beginning. `is_quiet` prints none."""

    is_quiet: bool = False
    start: float = field(default_factory=time.monotonic)

    @property
    def seconds(self) -> float:
        return time.monotonic() - self.start

    def step(self, text: str) -> None:
        if not self.is_quiet:
            print(f"{self.seconds:5.0f} s  {text}", file=sys.stderr, flush=True)
