"""An invocation as a timeline: its attempts, its commands with their completions, and the signals that came, each with its time."""

from __future__ import annotations

from collections.abc import Iterable
from dataclasses import dataclass, field
from typing import Any

from . import journal, operate
from .database import Database
from .journal import Described


@dataclass(frozen=True)
class Attempt:
    """`how` it stopped: suspended, failed, paused, ended or lost; none while it runs."""

    epoch: int
    worker: str | None
    begun: float | None
    stopped: float | None
    how: str | None
    error: str | None


@dataclass
class Step:
    """A command, or a signal that came. `ended` is when the last of its completions was stored; none while one is missing."""

    at: int
    entry: Described
    begun: float | None
    ended: float | None = None
    completions: list[Described] = field(default_factory=list)
    is_open: bool = False

    @property
    def has_failed(self) -> bool:
        return self.entry.is_failure or any(it.is_failure for it in self.completions)


@dataclass(frozen=True)
class Timeline:
    invocation: dict[str, Any]
    attempts: list[Attempt]
    steps: list[Step]


def _steps(rows: Iterable[Any]) -> list[Step]:
    """The entries of a journal, in order; a completion belongs to the command that has its id."""
    steps: list[Step] = []
    carriers: dict[int, Step] = {}
    missing: dict[int, int] = {}  # of each command, by its place
    for at, frame, stored in rows:
        entry = journal.described(bytes(frame))
        if entry.completes is not None and entry.completes in carriers:
            step = carriers.pop(entry.completes)
            step.completions.append(entry)
            missing[step.at] -= 1
            step.is_open = missing[step.at] > 0
            step.ended = None if step.is_open else stored
            continue
        step = Step(at, entry, stored, None if entry.carries else stored, is_open=bool(entry.carries))
        carriers.update(dict.fromkeys(entry.carries, step))
        missing[at] = len(entry.carries)
        steps.append(step)
    return steps


async def _attempts(db: Database, id: str) -> list[Attempt]:
    last = "SELECT epoch, worker, begun, stopped, how, CASE WHEN how IN ('failed', 'paused') THEN error END FROM invocations WHERE id=? AND epoch>0"
    earlier = "SELECT epoch, worker, begun, stopped, how, error FROM attempts WHERE invocation=? ORDER BY epoch"
    return [Attempt(*row) for sql in (earlier, last) for row in await db.rows(sql, (id,))]


async def timeline(db: Database, id: str) -> Timeline | None:
    """None if there is no such invocation."""
    invocation = await operate.invocation(db, id)
    if invocation is None:
        return None
    rows = await db.rows("SELECT at, frame, stored FROM journal WHERE invocation=? ORDER BY at", (id,))
    return Timeline(invocation, await _attempts(db, id), _steps(rows))


def as_json(it: Timeline) -> dict[str, Any]:
    """The timeline for programs."""
    steps = [
        {
            "at": step.at,
            "entry": str(step.entry),
            "begun": step.begun,
            "ended": step.ended,
            "is_open": step.is_open,
            "has_failed": step.has_failed,
            "completions": [str(completion) for completion in step.completions],
        }
        for step in it.steps
    ]
    return {"invocation": it.invocation, "attempts": [vars(attempt) for attempt in it.attempts], "steps": steps}
