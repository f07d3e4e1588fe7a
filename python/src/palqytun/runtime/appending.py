"""Stores that grow a journal and touch nothing else: those of steps, whose commands ask nothing of the runtime.

Most stores are such. Those of a group are made together: on a server by one statement, in one round trip, however many they are. Each has a
fence of its own: one whose lease is lost isn't stored, and those beside it are.
"""

from __future__ import annotations

from collections.abc import Iterable, Iterator, Sequence
from dataclasses import dataclass
from typing import Any

from .database import Asked, Database
from .lease import INSERTED, PROGRESS, Growth

AT_ONCE = 200  # stores that one statement makes, at most

_PROGRESS = ", ".join(f"{it}=CASE WHEN asked.has_progress THEN {'NULL' if value is None else value} ELSE it.{it} END" for it, value in PROGRESS.items())
# An UPDATE that keeps the fence, and an INSERT of the entries of those that it has changed. A column of all rows is one value, so the statement
# is the same for any number of them, and the server plans it once.
_TOGETHER = (
    "WITH asked AS (SELECT * FROM unnest(?::bigint[], ?::text[], ?::bigint[], ?::bigint[], ?::bigint[], ?::boolean[])"
    " AS asked(number, id, epoch, before, entries, has_progress)), grown AS ("
    f"UPDATE invocations AS it SET entries=asked.entries, {_PROGRESS} FROM asked"
    " WHERE it.id=asked.id AND it.epoch=asked.epoch AND it.entries=asked.before AND it.status='running' RETURNING asked.number), added AS ("
    "INSERT INTO journal(invocation, at, completes, frame, stored) SELECT invocation, at, completes, frame, ?"
    " FROM unnest(?::bigint[], ?::text[], ?::bigint[], ?::bigint[], ?::bytea[]) AS entry(number, invocation, at, completes, frame)"
    " WHERE number IN (SELECT number FROM grown)"
    ") SELECT number FROM grown"
)


@dataclass(frozen=True)
class Append:
    """What one attempt appends to its journal, as an operation of a group. Its result is whether it was stored."""

    growth: Growth

    def asked(self) -> tuple[object, ...]:
        """The fence, the new count of entries, and whether the attempt itself wrote something."""
        lease = self.growth.lease
        return (lease.invocation, lease.epoch, self.growth.before, lease.journal.entries, self.growth.has_progress)

    def entries(self) -> Iterator[tuple[object, ...]]:
        own = self.growth.lease.invocation
        return ((own, it.at, it.completes, it.frame) for it in self.growth.entries)


async def append(db: Database, appends: Sequence[Append]) -> list[bool]:
    """Makes these stores; returns of each whether it was stored. One that wasn't has lost its lease."""
    if not db.is_remote:
        return await _one_by_one(db, appends)
    return stored(appends, await db.several(asked(db, appends)))


def asked(db: Database, appends: Sequence[Append]) -> list[Asked]:
    """The statements that make these stores on a server."""
    return [_together(db, appends[first : first + AT_ONCE]) for first in range(0, len(appends), AT_ONCE)]


def stored(appends: Sequence[Append], found: Sequence[list[Any]]) -> list[bool]:
    """Of each store whether it was made, by what the statements have returned."""
    made = {first * AT_ONCE + number for first, rows in enumerate(found) for (number,) in rows}
    return [number in made for number in range(len(appends))]


async def _one_by_one(db: Database, appends: Sequence[Append]) -> list[bool]:
    made, rows, now = list[bool](), list[tuple[object, ...]](), db.now()
    for it in appends:
        made.append(await it.growth.grow(db))
        if made[-1]:
            rows += ((*row, now) for row in it.entries())
    db.many(INSERTED, rows)
    return made


def _columns(rows: Iterable[tuple[object, ...]], count: int) -> list[list[object]]:
    return [list(it) for it in zip(*rows)] or [[] for _ in range(count)]


def _together(db: Database, appends: Sequence[Append]) -> Asked:
    """Makes the stores, and reads the numbers of those that were made."""
    fences = _columns(((number, *it.asked()) for number, it in enumerate(appends)), 6)
    entries = _columns(((number, *row) for number, it in enumerate(appends) for row in it.entries()), 5)
    return _TOGETHER, [*fences, db.now(), *entries]
