"""Sends that nobody served when they were made (`refused`): they go on once a worker serves their handler."""

from __future__ import annotations

import time

from . import acts, announced, invocations, journal, notes
from .announced import Target
from .database import Asked, Database
from .invocations import New
from .notes import Note
from .outcome import Outcome
from .refused import REFUSED, UNSERVED
from .services import App, Service, TerminalError
from .traces import Trace

_AT_ONCE = 100  # of a service, that one transaction looks at
_WAITS = f"status='paused' AND how='{UNSERVED}'"  # in the words of the index


def _of(db: Database, service: Service) -> Asked:
    """Reads what waits for the handlers of a service. By the sign of `+seq` SQLite takes the index of what waits, and not that of a service, which has all
    that has ended."""
    columns, marks = "id, service, handler, key, idem, queue_key, due, trace", ",".join("?" * len(service.handlers))
    sql = f"SELECT {columns} FROM invocations WHERE {_WAITS} AND service=? AND handler IN ({marks}) ORDER BY +seq LIMIT {_AT_ONCE}{db.skip}"
    return sql, (service.name, *service.handlers)


async def serve(db: Database, app: App, out: Outcome) -> bool:
    """Some of what waits for a worker with this app's handlers go on, as if they were made now; what these don't take has failed. Returns whether there
    may be more."""
    found = await db.several([_of(db, it) for it in app.services.values() if it.handlers])
    rows = [row for some in found for row in some]
    for id, service, handler, key, idem, queue_key, due, trace in rows:
        target = announced.own(app, service, handler)
        assert target is not None
        new = New(service, handler, key, idempotency_key=idem, id=id)
        try:
            await _check(db, new, target)
        except TerminalError as error:
            await acts.end(db, out, id, journal.failure(error.code, error.message), REFUSED)
            out.notes.append(Note(notes.ENDED, id, target.path, 0, f"{error.code} {error.message}", trace_id=Trace.of(id, trace).trace_id))
            continue
        await _goes_on(db, new, target, max(due, db.now()), queue_key)
    if rows:
        out.is_due(time.time())
        db.notify("ready")
    return any(len(some) == _AT_ONCE for some in found)


async def _check(db: Database, new: New, target: Target) -> None:
    """`TerminalError` if the handler doesn't take this."""
    invocations.check(new, target)
    other = await invocations.named(db, new, "") if target.is_main else None
    if other is not None:
        raise TerminalError(f"{target.path} runs once a key, and {other} is that of this key", 409)


async def _goes_on(db: Database, new: New, target: Target, begins: float, queue_key: str) -> None:
    """Its row is as a new one's, which is due at `begins`."""
    deadline, expires = target.until(begins)
    queued = {"queue": target.queue, "queue_key": None if target.queue is None else queue_key}
    row = {"status": "ready", "how": None, "error": None, "exclusive": int(target.exclusive), "due": begins, "deadline": deadline, "expires": expires}
    row |= {"idem": "" if target.is_main else new.idempotency_key, **queued}
    await db.change(f"UPDATE invocations SET {', '.join(f'{name}=?' for name in row)} WHERE id=?", (*row.values(), new.id))
