"""The lease of an invocation: who may write its journal. It is taken by raising the invocation's epoch, and each write asks for that epoch.

Whoever lost a lease is fenced: the fence stands before any effect, so that nothing of a lost attempt is stored. `write` is a fence too.
"""

from __future__ import annotations

import functools
from dataclasses import dataclass, field
from typing import Any

from .database import Database, Each, Reading
from .journal import Entry, Journal, Result, Stored, completion

INSERTED = "INSERT INTO journal(invocation, at, completes, frame, stored) VALUES (?,?,?,?,?)"
# The order in which a transaction makes the changes of many rows that are alike. A fence is first: nothing of a lost lease is made after it.
FENCED, MADE, APPENDED, WAITING, COMES, LOOKED_AT, GONE, FREE, KEPT = range(9)
ENTRY = Each(
    APPENDED,
    "INSERT INTO journal(invocation, at, completes, frame, stored) SELECT ?,?,?,?,?{rows}",
    *("text", "bigint", "bigint", "bytea", "double precision"),
)
"""An entry of a journal."""
_FENCED = "WHERE id=? AND epoch=? AND entries=? AND status='running'"
_FENCES = ("text", "bigint", "bigint")
_TYPES = {"entries": "bigint", "due": "double precision", "stopped": "double precision", "ended": "double precision", "cancelled": "double precision"}
_TYPES |= {"failing_since": "double precision", "failed_since": "double precision", "suspension": "bytea", "result": "bytea"}
_TYPES |= {it: "bigint" for it in ("retries", "failures", "deaths", "shielded", "failed")}
# Once an attempt has stored something, those before it aren't counted any more.
PROGRESS: dict[str, object] = {"retries": 0, "failing_since": None, "failures": 0, "failed_since": None, "deaths": 0}
_PROGRESS = ", ".join(f"{name}={'NULL' if value is None else value}" for name, value in PROGRESS.items())


class Fenced(Exception):
    """The lease is another's by now: what this attempt still does is lost."""


@dataclass
class Lease:
    """The right to write the journal of an invocation, and that journal."""

    invocation: str
    epoch: int
    journal: Journal

    def lost(self, entries: int) -> Fenced:
        return Fenced(f"{self.invocation} is not this worker's at epoch {self.epoch} with {entries} entries")


@functools.cache
def _fence(lock: str) -> Reading:
    return Reading(f"SELECT 1 FROM invocations {_FENCED}{lock}", *_FENCES)


@functools.cache
def _written(names: tuple[str, ...]) -> Each:
    """A change of these columns, which is a fence too."""
    return Each(FENCED, f"UPDATE invocations SET {', '.join(f'{it}=?' for it in names)}{{rows}} {_FENCED}", *(_TYPES.get(it, "text") for it in names), *_FENCES)


def fence(db: Database, lease: Lease, entries: int) -> tuple[Reading, tuple[object, ...]]:
    """Finds and keeps the invocation's row, if the lease isn't lost and `entries` entries are stored."""
    return _fence(db.lock), (lease.invocation, lease.epoch, entries)


@dataclass
class Growth:
    """What one transaction appends to a journal, and what of it the attempt is fed."""

    lease: Lease
    entries: list[Entry] = field(default_factory=list)
    feed: list[bytes] = field(default_factory=list)
    has_progress: bool = False  # the attempt itself wrote something
    is_fenced: bool = False  # the transaction has taken the invocation's row, by this epoch, and keeps it
    before: int = 0

    def __post_init__(self) -> None:
        self.lease.journal.undo()  # an earlier try of this transaction failed
        self.before = self.lease.journal.entries

    async def fence(self, db: Database) -> None:
        """Keeps the invocation's row until the commit. It stands before any effect, so that a lost lease has none."""
        asked, values = fence(db, self.lease, self.before)
        db.must(asked.one, values, self.lease.lost(self.before))
        self.is_fenced = True

    def fenced(self, found: list[Any]) -> None:
        """`fence` was read before this transaction's operation, and this was found."""
        if not found:
            raise self.lease.lost(self.before)
        self.is_fenced = True

    def arrive(self, notification: bytes) -> None:
        entry = self.lease.journal.arrive(notification)
        self.entries.append(entry)
        self.feed.append(entry.frame)

    def complete(self, id: int, result: Result) -> None:
        self.arrive(completion(id, result))

    def store(self, output: bytes, at: int) -> Stored:
        stored = self.lease.journal.store(output, at)
        self.entries += stored.entries
        self.feed += stored.feed
        self.has_progress = bool(stored.entries)
        return stored

    async def write(self, db: Database, **changed: object) -> None:
        """Writes the entries, with further changes of the invocation's row. It is called once."""
        values = (self.lease.journal.entries, *changed.values(), self.lease.invocation, self.lease.epoch, self.before)
        db.each(_written(("entries", *changed)), values, None if self.is_fenced else self.lease.lost(self.before))
        now = db.now()
        for it in self.entries:
            db.each(ENTRY, (self.lease.invocation, it.at, it.completes, it.frame, now))

    async def grow(self, db: Database) -> bool:
        """Writes the new count of entries alone, if the lease isn't lost; returns whether it did."""
        sql = f"UPDATE invocations SET entries=?, {_PROGRESS} {_FENCED}" if self.has_progress else f"UPDATE invocations SET entries=? {_FENCED}"
        return await db.change(sql, (self.lease.journal.entries, self.lease.invocation, self.lease.epoch, self.before)) == 1
