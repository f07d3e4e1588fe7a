"""Inboxes: what comes for an invocation, until the holder of its lease moves it to its journal.

An effect on another invocation is only a row of its inbox. So a journal has one writer, and a transaction seldom waits for two invocations.
"""

from __future__ import annotations

from collections.abc import Sequence
from typing import Any

from . import journal
from .database import Asked, Database, Each, Reading
from .journal import Result
from .lease import COMES, LOOKED_AT
from .outcome import Outcome


MOST = 1000  # that are moved to a journal by one transaction
ALL = 1 << 40
_PUT = Each(
    COMES,
    # A subquery, and no join: the rows are put in their order.
    "INSERT INTO inbox(invocation, frame) SELECT ?,?{rows} WHERE (SELECT status FROM invocations WHERE id=?)<>'done'",
    *("text", "bytea", "text"),
)
_OWN = " AND EXISTS (SELECT 1 FROM invocations WHERE id=invocation AND epoch=? AND status='running')"
_PEEK = "SELECT seq, frame FROM inbox WHERE invocation=?{} ORDER BY seq LIMIT ?"
_ALL_OF, _ALL_OF_OWN = Reading(_PEEK.format(""), "text", "bigint"), Reading(_PEEK.format(_OWN), "text", "bigint", "bigint")
_REMOVED = Each(LOOKED_AT, "DELETE FROM inbox{rows} WHERE invocation=? AND seq=?", "text", "bigint", by="USING")
_SEEN = Each(LOOKED_AT, "UPDATE inbox SET fresh=0{rows} WHERE invocation=? AND seq=?", "text", "bigint")


async def deliver(db: Database, out: Outcome, invocation: str, notification: bytes) -> bool:
    """Puts a notification into an invocation's inbox; returns whether it has one. One that has ended or doesn't exist gets nothing."""
    if not await db.change(_PUT.one, (invocation, notification, invocation)):
        return False
    _tell(db, out, invocation)
    return True


def put(db: Database, out: Outcome, invocation: str, notification: bytes) -> None:
    """Puts a notification into an invocation's inbox, if it has one."""
    db.each(_PUT, (invocation, notification, invocation))
    _tell(db, out, invocation)


def complete(db: Database, out: Outcome, invocation: str, completes: int, result: Result) -> None:
    put(db, out, invocation, journal.completion(completes, result))


def _tell(db: Database, out: Outcome, invocation: str) -> None:
    out.touched.add(invocation)
    db.notify_holder(invocation)


def peek(invocation: str, epoch: int | None = None, most: int = MOST) -> Asked:
    """Reads what waits, in the order of its arrival, each with its number. If an epoch is given and the lease is another's, nothing."""
    return (_ALL_OF, (invocation, most)) if epoch is None else (_ALL_OF_OWN, (invocation, epoch, most))


def remove(db: Database, invocation: str, rows: Sequence[tuple[Any, ...]]) -> None:
    for seq, _ in rows:
        db.each(_REMOVED, (invocation, seq))


def wakes(db: Database, invocation: str, rows: Sequence[tuple[Any, ...]], suspension: bytes, is_shielded: bool = False) -> bool:
    """Whether what waits, as `peek` read it, wakes a suspended invocation; a cancellation doesn't wake one that is shielded. What was looked at in vain
    isn't looked at again, until something else comes."""
    frames = [bytes(frame) for _, frame in rows]
    if journal.is_awake(suspension, [it for it in frames if not (is_shielded and it == journal.cancellation())]):
        return True
    seen(db, invocation, rows)
    return False


def seen(db: Database, invocation: str, rows: Sequence[tuple[Any, ...]]) -> None:
    """These were looked at, and stay until something else comes."""
    for seq, _ in rows:
        db.each(_SEEN, (invocation, seq))


async def is_cancelled(db: Database, invocation: str) -> bool:
    """Whether a cancellation waits for it."""
    return bool(await db.rows("SELECT 1 FROM inbox WHERE invocation=? AND frame=?", (invocation, journal.cancellation())))
