"""What the log says of invocations: an attempt that failed, a pause, an end by a failure, a send that nobody serves. A transaction makes notes, and they are
logged once it is committed.

Each is one line, and has its parts as fields of the record too, for a formatter that writes JSON.
"""

from __future__ import annotations

import logging
from dataclasses import dataclass

log = logging.getLogger("palqytun")
FAILED, LOST, PAUSED, ENDED, UNSERVED = "attempt failed", "attempt lost", "paused", "failed", "unserved"
_LEVELS = {FAILED: logging.WARNING, LOST: logging.WARNING, PAUSED: logging.ERROR, ENDED: logging.INFO, UNSERVED: logging.WARNING}


@dataclass(frozen=True)
class Note:
    """Something that happened to an invocation. `attempt` is the number of its attempt, from 1; 0 if none has begun. `where` is the line of
    the handler's code, `run` the run that failed, and `delay` after how many seconds the next attempt begins; none if nothing begins by itself."""

    event: str
    invocation: str
    handler: str
    attempt: int
    error: str
    where: str | None = None
    run: str | None = None
    delay: float | None = None
    trace_id: str | None = None

    def __str__(self) -> str:
        """The line.

        >>> print(Note(FAILED, "inv_1", "Shop/order", 2, "OSError: gone", "shop.py:95", "pay", 0.4))
        Shop/order inv_1 attempt 2 failed in the run 'pay', next in 0.40 s: OSError: gone (shop.py:95)
        >>> print(Note(ENDED, "inv_1", "Shop/order", 2, "404 no such address"))
        Shop/order inv_1 failed: 404 no such address
        >>> print(Note(UNSERVED, "inv_1", "Mail/send", 0, "404 there is no handler Mail/send"))
        Mail/send inv_1 waits for a worker that serves it: 404 there is no handler Mail/send
        """
        who = f"{self.handler} {self.invocation}"
        within = "" if self.run is None else f" in the run {self.run!r}"
        next = "" if self.delay is None else f", next in {self.delay:.2f} s" if self.delay else ", next at once"
        what = {
            FAILED: f"attempt {self.attempt} failed{within}{next}",
            LOST: f"attempt {self.attempt} was lost{next}",
            PAUSED: f"attempt {self.attempt} failed{within}, and it is paused until it is resumed" if self.attempt else "is paused until it is resumed",
            ENDED: "failed",
            UNSERVED: "waits for a worker that serves it",
        }
        where = "" if self.where is None else f" ({self.where})"
        return f"{who} {what[self.event]}: {self.error.partition(chr(10))[0]}{where}"

    def log(self) -> None:
        level = _LEVELS[self.event]
        if log.isEnabledFor(level):
            fields = {name: it for name, it in vars(self).items() if it is not None}
            log.log(level, "%s", self, extra=fields)
