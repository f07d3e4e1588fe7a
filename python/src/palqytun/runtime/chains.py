"""What is sent to an invocation of a chain, one of those that go on one after the other: it gets to the newest, also if that one goes on just then.

Whoever sends a signal or a cancellation keeps the chain until its commit. An invocation that goes on takes the chain: it waits for the commits of those
that keep it, and whoever comes later waits for its own. So what is sent is in the inbox that goes over, or is sent to the next invocation.

On PostgreSQL these are advisory locks, shared and exclusive, and not locks of rows. Locks of rows are given to further senders while somebody waits, so
a receiver to which many send would never go on. A transaction keeps or takes a chain in a statement before it reads which one is the newest, and before
it keeps that one's row.
"""

from __future__ import annotations

from collections.abc import Sequence
from dataclasses import dataclass
from typing import Any

from . import inbox
from .database import Asked, Database, Reading
from .invocations import NEWEST, goes_over, newest
from .outcome import Outcome

_CHAINS = 7_401_954  # the first number of the locks; the second one is a chain's
_MANY = 1024  # second numbers: so a transaction has no more locks than these, however many it sends to
_CHAIN = f"{_CHAINS}, hashtext(COALESCE((SELECT chain FROM invocations WHERE id=?), ?)) & {_MANY - 1}"
_KEPT = Reading(f"SELECT pg_advisory_xact_lock_shared({_CHAIN})", "text", "text")
_TAKEN = f"SELECT pg_advisory_xact_lock({_CHAIN})"
_OWN = Reading("SELECT id, status FROM invocations WHERE id=?", "text")
# A status by a subquery, and no join: for many at once a server would join them with all that are open.
_LAST = Reading(f"SELECT id, (SELECT status FROM invocations WHERE id=last.id) FROM ({NEWEST} AS id LIMIT 1) AS last", *("text",) * 4)


def keep(db: Database, id: str) -> None:
    """Until the commit no invocation goes on in the place of this one. A file has one writer, so there is nothing to keep."""
    if db.is_shared:
        db.put(_KEPT.one, (id, id))


def take(db: Database, id: str) -> None:
    """This invocation goes on as another one: until the commit nobody else sends to either, and all that was sent before is committed."""
    if db.is_shared:
        db.put(_TAKEN, (id, id))


async def send(db: Database, out: Outcome, id: str, notification: bytes) -> None:
    """Puts a signal or a cancellation into the inbox of this invocation, or of the one that goes on in its place."""
    keep(db, id)
    inbox.put(db, out, await newest(db, id), notification)


@dataclass(frozen=True)
class Delivery:
    """A notification from outside, as an operation that begins by some reads. A signal or a cancellation is for this invocation, or for the one that goes on
    in its place; another one is for this one alone."""

    out: Outcome
    id: str
    notification: bytes

    def reads(self, db: Database) -> list[Asked]:
        """Reads who gets it, once the chain is kept."""
        if not goes_over(self.notification):
            return [(_OWN, (self.id,))]
        kept: list[Asked] = [(_KEPT, (self.id, self.id))] if db.is_shared else []
        return [*kept, (_LAST, (self.id,) * 4)]

    async def then(self, db: Database, found: Sequence[list[Any]]) -> bool:
        """Puts it into the inbox; returns whether there is one."""
        those = [id for id, status in found[-1] if status not in (None, "done")]
        for id in those:
            inbox.put(db, self.out, id, self.notification)
        return bool(those)
