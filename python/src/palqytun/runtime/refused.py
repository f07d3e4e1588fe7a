"""Sends that can't be made as they were asked for. The sender goes on, so nobody would hear of it; therefore each is an invocation that people see.

If no worker that is alive serves the handler, the invocation is paused, and goes on by itself once a worker serves it (`unserved`). What a handler never
takes, as a send without the key of its object, has failed.
"""

from __future__ import annotations

from . import invocations, journal, notes, queues
from .database import Database
from .invocations import VERSION, New
from .lease import ENTRY
from .meter import Ended
from .notes import Note
from .outcome import Outcome
from .services import TerminalError
from .texts import storable
from .traces import Trace

UNSERVED, REFUSED = "unserved", "refused"
"""The column `how` of one that waits for a worker, and of one that has failed."""


async def keep(db: Database, out: Outcome, new: New, error: TerminalError) -> None:
    """Stores a send, which has its id, by why it was refused: it waits for a worker if nobody serves it (404), and else it has failed. If there is
    one with its idempotency key, it is that one."""
    id, path, now, text = str(new.id), f"{new.service}/{new.handler}", db.now(), storable(f"{error.code} {error.message}")
    waits, due = error.code == 404, invocations.begins(db, new)
    row = {"id": id, "service": new.service, "handler": new.handler, "key": new.key, "exclusive": 0, "version": VERSION, "entries": 1}
    row |= {"seed": invocations.seed_of(id), "due": now if due is None else due, "created": now, "parent": new.parent, "trace": new.trace, "error": text}
    row |= _waiting(new) if waits else _failed(error, now)
    sql = f"INSERT INTO invocations({', '.join(row)}) VALUES ({','.join('?' * len(row))}) ON CONFLICT DO NOTHING"
    if not await db.change(sql, tuple(row.values())):
        return
    db.each(ENTRY, (id, 0, None, journal.input_command(new.argument, new.headers), now))
    out.notes.append(Note(notes.UNSERVED if waits else notes.ENDED, id, path, 0, text, trace_id=Trace.of(id, new.trace).trace_id))
    if not waits:
        out.ends.append(Ended(new.service, new.handler, "failed", 0.0))


def _waiting(new: New) -> dict[str, object]:
    """What is stored of one that waits; its queue is known once somebody serves it."""
    try:
        priority, queue_key = queues.asked(new.headers, new.key)
    except TerminalError:  # the one that serves it has to say so
        priority, queue_key = 0, new.key
    return {"status": "paused", "how": UNSERVED, "idem": new.idempotency_key or None, "priority": priority, "queue_key": queue_key}


def _failed(error: TerminalError, now: float) -> dict[str, object]:
    result = journal.failure(error.code, error.message)
    return {"status": "done", "how": REFUSED, "result": result, "failed": error.code, "ended": now, "stopped": now}
