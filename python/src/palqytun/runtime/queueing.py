"""Claims of queues: which invocations of a queue may have an attempt now."""

from __future__ import annotations

import json
from collections import Counter
from collections.abc import Sequence
from dataclasses import dataclass, field
from itertools import zip_longest
from typing import Any

from .announced import OF_SERVICE
from .database import Database
from .invocations import CLAIMED, Claim
from .queues import Queue
from .services import App

_KEYS = 100  # of which a claim looks at the first ones


@dataclass
class Found:
    """Rows that can be claimed. `has_more`: there may be more."""

    rows: list[Any] = field(default_factory=list)
    has_more: bool = False


@dataclass
class Room:
    """What a queue has room for: `free` attempts, of which `begins` may be first ones, and each key's. `later` is when its rate lets the next one
    begin, if it doesn't now."""

    queue: Queue
    free: int
    begins: int
    running: Counter[str]
    later: float | None = None

    def of(self, key: str) -> int:
        """How many attempts of a key."""
        return self.free if self.queue.per_key is None else min(self.free, self.queue.per_key - self.running[key])

    @property
    def others(self) -> tuple[str, list[str]]:
        """The condition of those of keys that have room. Else some of a key that is full would hide all others, as a claim reads so many."""
        full = [] if self.queue.per_key is None else [key for key, many in self.running.items() if many >= self.queue.per_key]
        return (f" AND queue_key NOT IN ({','.join('?' * len(full))})" if full else ""), full

    def takes(self, key: str, is_first: bool) -> bool:
        """Takes an attempt, if there is room for it."""
        if self.free <= 0 or self.of(key) <= 0 or (is_first and self.begins <= 0):
            return False
        self.free, self.begins, self.running[key] = self.free - 1, self.begins - is_first, self.running[key] + 1
        return True


async def enter(db: Database, app: App) -> None:
    """A worker begins: each open invocation of its handlers is in the queue that its code says, and what its queues let through is written down."""
    limits = [(name, json.dumps(it.limits)) for name, it in app.queues.items()]
    db.many("INSERT INTO queues(name, limits) VALUES (?,?) ON CONFLICT(name) DO UPDATE SET limits=excluded.limits", limits)
    for service, handler, was in await db.rows("SELECT DISTINCT service || '', handler, queue FROM invocations WHERE status<>'done'"):
        known = app.known(service, handler)
        name = None if known is None or known.queue is None else known.queue.name
        if known is not None and name != was:
            sql = f"UPDATE invocations SET queue=?, queue_key=COALESCE(queue_key, key) WHERE status<>'done' AND {OF_SERVICE} AND handler=?"
            await db.change(sql, (name, service, handler))


async def room(db: Database, queue: Queue, worker: str, most: int, now: float) -> Room:
    """What the queue has room for, on a worker that has room for `most`. Its row is kept until the commit, so two workers don't count at one time."""
    await db.rows(f"SELECT name FROM queues WHERE name=?{db.lock}", (queue.name,))
    sql = "SELECT queue_key, COUNT(*), SUM(CASE WHEN worker=? THEN 1 ELSE 0 END) FROM invocations WHERE status='running' AND queue=? GROUP BY queue_key"
    rows = await db.rows(sql, (worker, queue.name))
    running = Counter({key: int(many) for key, many, _ in rows})
    free = queue.free(running.total(), sum(int(own) for _, _, own in rows), most)
    if queue.rate is None:
        return Room(queue, free, free, running)
    count, seconds = queue.rate
    db.put("DELETE FROM starts WHERE queue=? AND at<=?", (queue.name, now - seconds))
    [(begun, since)] = await db.rows("SELECT COUNT(*), MIN(at) FROM starts WHERE queue=?", (queue.name,))
    return Room(queue, free, max(0, count - int(begun)), running, float(since) + seconds if begun >= count else None)


async def taken(db: Database, it: Room, rows: list[Any]) -> list[Any]:
    """Those of some rows of invocations that go on for which there is room."""
    if not rows:
        return []
    marks = ",".join("?" * len(rows))
    keys = dict(await db.rows(f"SELECT id, queue_key FROM invocations WHERE id IN ({marks})", [row[0] for row in rows]))
    return [row for row in rows if it.takes(keys[row[0]], False)]


async def again(db: Database, it: Room, where: str, values: Sequence[object], now: float) -> Found:
    """Ready invocations that have begun before, for which there is room. `where` is what the worker may go on with."""
    if it.free <= 0:
        return Found()
    (others, full), most = it.others, it.free
    sql = (
        f"SELECT {CLAIMED} FROM invocations AS it WHERE queue=? AND status='ready' AND epoch>0 AND due<=? AND {where}{others}"
        f" ORDER BY due, seq LIMIT ?{db.skip}"
    )
    found = await db.rows(sql, (it.queue.name, now, *values, *full, most))
    rows = await taken(db, it, found)
    return Found(rows, len(found) == most and bool(rows))


async def first(db: Database, it: Room, where: str, values: Sequence[object], now: float) -> Found:
    """Invocations that haven't begun, for which there is room: one of each key in turn."""
    most = min(it.free, it.begins)
    keys = await _keys(db, it.queue.name) if most > 0 else []
    if not keys:
        return Found()
    sql = (
        f"SELECT {CLAIMED}, queue_key FROM invocations AS it WHERE queue=? AND queue_key=? AND status='ready' AND epoch=0 AND due<=? AND {where}"
        f" ORDER BY priority DESC, due, seq LIMIT ?{db.skip}"
    )
    each = -(-most // len(keys))
    mosts = [max(0, min(each, it.of(key))) for key in keys]
    of_keys = await db.several([(sql, (it.queue.name, key, now, *values, many)) for key, many in zip(keys, mosts)])
    turns = [row for rows in zip_longest(*of_keys) for row in rows if row is not None]
    rows = [row for row in turns if it.takes(row[-1], True)]
    if len(keys) > 1:
        db.put("UPDATE queues SET last=? WHERE name=?", (rows[-1][-1] if rows else keys[-1], it.queue.name))
    has_more = len(keys) == _KEYS or any(len(found) == many > 0 for found, many in zip(of_keys, mosts))
    return Found([row[:-1] for row in rows], has_more and bool(rows) and it.free > 0)


async def _keys(db: Database, queue: str) -> list[str]:
    """Keys that have something ready, in turn from the one after the last on. A key costs a step of the index, however much is ready."""
    [(last,)] = await db.rows("SELECT last FROM queues WHERE name=?", (queue,)) or [(None,)]
    after = [] if last is None else await _from(db, queue, last)
    if len(after) < _KEYS:
        after += [it for it in await _from(db, queue, None) if it not in set(after)]
    return after[:_KEYS]


async def _from(db: Database, queue: str, after: str | None) -> list[str]:
    first = "SELECT MIN(queue_key) FROM invocations WHERE status='ready' AND queue=?"
    bound, values = ("", (queue,)) if after is None else (" AND queue_key>?", (queue, after))
    sql = (
        f"WITH RECURSIVE keys(name, many) AS (SELECT ({first}{bound}), 1 UNION ALL"
        f" SELECT ({first} AND queue_key>keys.name), many+1 FROM keys WHERE name IS NOT NULL AND many<?) SELECT name FROM keys WHERE name IS NOT NULL"
    )
    return [name for name, in await db.rows(sql, (*values, queue, _KEYS))]


def begun(db: Database, app: App, claims: Sequence[Claim]) -> None:
    """These have begun, which counts for the rates of their queues."""
    queues = [known.queue for it in claims if it.lease.epoch == 1 and (known := app.known(it.service, it.handler)) is not None]
    rows = [(it.name, db.now()) for it in queues if it is not None and it.rate is not None]
    db.many("INSERT INTO starts(queue, at) VALUES (?,?)", rows)
