"""What a transaction did, for the worker that made it: whom it touches, and when something is due."""

from __future__ import annotations

from dataclasses import dataclass, field
from typing import TYPE_CHECKING

from .journal import Result
from .meter import Ended
from .notes import Note

if TYPE_CHECKING:
    from .invocations import Claim


@dataclass(frozen=True)
class Taker:
    """A worker that takes the leases of what a transaction of its own makes, `room` of them at most. `code` is the version by which it begins them."""

    worker: str
    code: str
    room: int


@dataclass
class Outcome:
    taker: Taker | None = None  # the worker may begin at once what is made
    claims: list[Claim] = field(default_factory=list)  # of which it has taken the leases
    touched: set[str] = field(default_factory=set)  # whose inboxes got something
    ended: dict[str, Result | None] = field(default_factory=dict)  # with what they end; None if another goes on in its place
    stopped: set[str] = field(default_factory=set)  # whose attempts are to stop: they were killed or paused
    cancel: str | None = None  # what became of a cancellation that came for this attempt: it is taken, or it waits
    due: float | None = None  # something is due then, in seconds since the epoch
    status: str = "running"  # that of the invocation whose attempt it is
    feed: list[bytes] = field(default_factory=list)  # what that attempt is fed, after the commit
    has_more: bool = False  # more has come for that attempt than was taken
    lags: list[float] = field(default_factory=list)  # how late timers have fired, in seconds
    ends: list[Ended] = field(default_factory=list)  # what is measured of those that have ended
    notes: list[Note] = field(default_factory=list)  # what the log says, after the commit

    def is_due(self, at: float) -> None:
        self.due = at if self.due is None else min(self.due, at)
