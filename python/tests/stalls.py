"""Stalls: an event loop of this process now and then goes on late, as on a host that has other work, or that stands still. A test that goes by chance
fails by this within some runs: `suite.py --stalls 0.002 --files test_acts python/tests/runtime`."""

from __future__ import annotations

import asyncio
import random
import time

LONGEST = 2.0  # seconds


def begin(chance: float) -> None:
    """From now on each iteration of a loop has this chance to begin late, by some seconds at most."""
    once, drawn = asyncio.BaseEventLoop._run_once, random.Random()  # type: ignore[attr-defined]

    def late(loop: asyncio.BaseEventLoop) -> None:
        if drawn.random() < chance:
            time.sleep(LONGEST * drawn.random())
        once(loop)

    asyncio.BaseEventLoop._run_once = late  # type: ignore[attr-defined]
