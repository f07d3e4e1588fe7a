"""Limits of time of invocations: one that hasn't ended by its `deadline`, or hasn't begun by the time at which it `expires`, ends with code 408.

Both times stand in its row since it was made. Any worker ends it, whichever app has the handler, and whatever it waits for: it is ended as by a kill.
"""

from __future__ import annotations

from typing import Any

from . import acts, journal, notes
from .database import Asked, Database
from .notes import Note
from .outcome import Outcome

MOST = 100  # that are ended by one transaction
_LATE = "deadline<=? AND status<>'done'"
_UNBEGUN = "expires<=? AND status='ready' AND epoch=0"


def late(db: Database, now: float) -> tuple[Asked, Asked]:
    """Reads those that didn't end in time, and those that didn't begin in time."""
    sql = "SELECT id, service, handler, epoch FROM invocations WHERE {} LIMIT ?{}"
    return (sql.format(_LATE, db.skip), (now, MOST)), (sql.format(_UNBEGUN, db.skip), (now, MOST))


NEXT = (
    " UNION ALL SELECT due FROM (SELECT deadline AS due FROM invocations WHERE deadline>? AND status<>'done' ORDER BY deadline LIMIT 1) AS late"
    " UNION ALL SELECT due FROM (SELECT expires AS due FROM invocations WHERE expires>? AND status='ready' AND epoch=0 ORDER BY expires LIMIT 1) AS unbegun"
)
"""Reads when the next ones are due, beside what else is due next. It is given the time twice."""


async def end(db: Database, out: Outcome, unended: list[Any], unbegun: list[Any]) -> None:
    """Ends them, with the calls whose results they wait for."""
    ended = dict.fromkeys(id for id, *_ in unended)
    for rows, why in ((unended, "it didn't end within its timeout"), (unbegun, "it didn't begin within its queue_timeout")):
        for id, service, handler, epoch in rows:
            if rows is unbegun and id in ended:
                continue
            text = f"timed out: {why}"
            await acts.end_with_calls(db, out, id, journal.failure(408, text), "overdue")
            out.notes.append(Note(notes.ENDED, id, f"{service}/{handler}", epoch, f"408 {text}"))
