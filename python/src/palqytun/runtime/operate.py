"""What an operator asks of the database."""

from __future__ import annotations

import json
from dataclasses import dataclass
from typing import Any

from . import announced, attributes, audit, heartbeats, journal
from .database import Database
from .filters import Filter

_COLUMNS = (
    *("id", "service", "handler", "key", "status", "created", "ended", "due", "entries", "epoch", "retries", "worker", "failed", "error"),
    *("cancelled", "parent", "origin", "trace", "seq", "deadline", "expires", "continued", "chain", "queue", "queue_key", "priority", "version"),
)
_SELECTED = f"{', '.join(_COLUMNS[:-1])}, code"  # the column `version` is the protocol's


_COUNTED = 100_000  # of those that have failed, at most


def _shown(row: Any) -> dict[str, Any]:
    it = dict(zip(_COLUMNS, row))
    if it["failed"] is not None:
        it["status"] = "failed"
    return it


async def invocations(db: Database, asked: Filter = Filter(), most: int = 100) -> list[dict[str, Any]]:
    """The newest invocations first, of those that are asked for."""
    where, values = asked.where(db.now())
    sql = f"SELECT {_SELECTED} FROM invocations WHERE {where} ORDER BY seq DESC LIMIT ?"
    found = [_shown(row) for row in await db.rows(sql, (*values, most))]
    said = await attributes.of(db, [it["id"] for it in found])
    return [{**it, "attributes": said.get(it["id"], {})} for it in found]


async def invocation(db: Database, id: str) -> dict[str, Any] | None:
    rows = await db.rows(f"SELECT {_SELECTED} FROM invocations WHERE id=?", (id,))
    if not rows:
        return None
    return {**_shown(rows[0]), "attributes": (await attributes.of(db, [id])).get(id, {}), "progress": await heartbeats.of(db, id)}


def error_of(row: dict[str, Any]) -> str:
    """The first line of what is wrong with an invocation: why it is paused, tried again, or has failed."""
    is_wrong = row["status"] in ("paused", "failed") or bool(row["retries"])
    return str(row["error"] or "").partition("\n")[0] if is_wrong else ""


async def journal_of(db: Database, id: str) -> list[str]:
    """The journal of an invocation, an entry a line."""
    return [journal.line_of(bytes(row[0])) for row in await db.rows("SELECT frame FROM journal WHERE invocation=? ORDER BY at", (id,))]


async def schedules(db: Database) -> list[dict[str, Any]]:
    """The schedules: each with when it is due next, which time of it made the last call, and that call; whether it is paused; what it does while that
    call is open, and which time's call waits for that."""
    names = ("name", "service", "handler", "key", "rule", "overlap", "due", "last", "called", "queued", "paused")
    found = [dict(zip(names, row)) for row in await db.rows(f"SELECT {', '.join(names)} FROM schedules ORDER BY name")]
    return [{**it, "paused": bool(it["paused"])} for it in found]


async def purge(db: Database, older: float, most: int = 200) -> int:
    """Deletes at most `most` invocations that ended more than `older` seconds ago, with their journals; returns how many. With a workflow's
    `main` go the state and the promises of its key, so that the key can run again. It is called until it returns 0, each time in a transaction of
    its own, so that no lock is kept for long."""
    sql = f"SELECT id, service, key, exclusive, idem FROM invocations WHERE status='done' AND ended<? ORDER BY ended LIMIT ?{db.skip}"
    rows = await db.rows(sql, (db.now() - older, most))
    ids = [row[0] for row in rows]
    if db.is_remote and ids:
        db.put(_BY_INDEX)
    for table, column in _OF_INVOCATIONS if ids else ():
        if db.is_remote:
            db.put(f"DELETE FROM {table} USING unnest(?::text[]) AS purged(v0) WHERE {column}=v0", (ids,))
        else:
            db.put(f"DELETE FROM {table} WHERE {column} IN ({','.join('?' * len(ids))})", ids)
    workflows = [(service, key) for _, service, key, exclusive, idem in rows if exclusive and idem == ""]
    for table in ("state", "promises"):
        db.many(f"DELETE FROM {table} WHERE service=? AND key=?", workflows)
    return len(rows)


# Each invocation is looked for in its own partition. The planner doesn't know that it needs no other one, and would rather read the whole table.
_BY_INDEX = "SELECT set_config(name, 'off', true) FROM (VALUES ('enable_hashjoin'), ('enable_mergejoin')) AS unwanted(name)"
_OF_INVOCATIONS = (
    *((table, "invocation") for table in ("journal", "attempts", "transactions", "attributes", "progress")),
    ("invocations", "id"),
)


@dataclass(frozen=True)
class Purged:
    """What an operator's purge has deleted so far, and its row in the audit."""

    count: int = 0
    row: int | None = None


async def purge_by(db: Database, older: float, who: str, before: Purged) -> Purged:
    """`purge` as an operator's act, which the audit has as one row. It is called until its count grows no more."""
    many = await purge(db, older)
    if not many:
        return before
    count = before.count + many
    return Purged(count, await audit.counted(db, before.row, who, "purge", f"{count} invocations that ended more than {older:g} s before"))


async def waiting(db: Database) -> list[tuple[str, str, int, float]]:
    """How many invocations of each handler are ready and due, and for how many seconds the first of them."""
    now = db.now()
    sql = "SELECT service, handler, COUNT(*), MIN(due) FROM invocations WHERE status='ready' AND due<=? GROUP BY service, handler"
    return [(service, handler, int(many), now - first) for service, handler, many, first in await db.rows(sql, (now,))]


async def queues(db: Database) -> list[dict[str, Any]]:
    """Each queue: how many of its invocations are ready and due (`length`), for how many seconds the first of them (`oldest`), how many become due
    later, how many have an attempt (`running`), of how many keys are those that are due (`keys`), and what the queue lets through (`limits`), as the
    worker that began last says it. Nothing of an invocation that is suspended or paused counts."""
    now = db.now()
    is_due = "CASE WHEN due<=? THEN"
    ready = (
        f"SELECT queue, SUM({is_due} 1 ELSE 0 END), MIN({is_due} due END), SUM({is_due} 0 ELSE 1 END), COUNT(DISTINCT {is_due} queue_key END)"
        " FROM invocations WHERE status='ready' AND queue IS NOT NULL GROUP BY queue"
    )
    running = "SELECT queue, COUNT(*) FROM invocations WHERE status='running' AND queue IS NOT NULL GROUP BY queue"
    rows, working, named = await db.several([(ready, (now,) * 4), (running, ()), ("SELECT name, limits FROM queues", ())])
    found, works, known = {row[0]: row[1:] for row in rows}, dict(working), {name: json.loads(limits or "{}") for name, limits in named}
    shown = []
    for name in sorted(found.keys() | works.keys() | known.keys()):
        length, first, later, keys = found.get(name, (0, None, 0, 0))
        oldest = 0.0 if first is None else max(0.0, now - first)
        counts = {"length": int(length), "oldest": oldest, "later": int(later), "running": int(works.get(name, 0)), "keys": int(keys)}
        shown.append({"name": name, **counts, "limits": known.get(name, {})})
    return shown


async def versions(db: Database) -> list[dict[str, Any]]:
    """Each version of code that a worker has which is alive, or that an open invocation stays with: how many such workers there are, how many such
    invocations, and for how many seconds the oldest of these has been open. What no worker has begun yet has no version."""
    now = db.now()
    opened = "SELECT code, COUNT(*), MIN(created) FROM invocations WHERE status<>'done' AND code IS NOT NULL GROUP BY code"
    found, workers = {row[0]: row[1:] for row in await db.rows(opened)}, await announced.versions(db)
    shown = []
    for name in sorted(found.keys() | workers.keys()):
        count, first = found.get(name, (0, now))
        shown.append({"version": name, "workers": workers.get(name, 0), "open": int(count), "oldest": max(0.0, now - first)})
    return shown


async def by_status(db: Database) -> dict[str, int]:
    """How many invocations have each status. Of those that are done it is an estimate, by the numbers of the oldest and the newest one: a count
    would take the longer, the more there are. Of those that have failed at most 100,000 are counted."""
    found = dict(await db.rows("SELECT status, COUNT(*) FROM invocations WHERE status<>'done' GROUP BY status"))
    [(found["failed"],)] = await db.rows(f"SELECT COUNT(*) FROM (SELECT 1 FROM invocations WHERE failed IS NOT NULL LIMIT {_COUNTED}) AS counted")
    [(first, last)] = await db.rows("SELECT (SELECT MIN(seq) FROM invocations), (SELECT MAX(seq) FROM invocations)")
    return {**found, "done": max(0, (last or 0) - (first or 1) + 1 - sum(found.values()))}
