"""Work that is long, in turns: what else the event loop has to do isn't kept waiting by it."""

from __future__ import annotations

import asyncio
import time

_TURN = 0.005  # seconds of work at a time


class Turn:
    """Some work's turn. It asks `end` again and again, as after each entry of a journal that it reads."""

    def __init__(self) -> None:
        self._begun = time.monotonic()

    @property
    def is_over(self) -> bool:
        """Whether this turn was long enough."""
        return time.monotonic() - self._begun > _TURN

    async def end(self) -> None:
        """If this turn was long enough, others have theirs."""
        if self.is_over:
            await asyncio.sleep(0)
            self._begun = time.monotonic()
