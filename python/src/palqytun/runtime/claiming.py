"""The transactions of a worker beside its attempts: it lives, timers fire, and invocations that can go on are claimed."""

from __future__ import annotations

import functools
import heapq
import itertools
import operator
import time
from collections.abc import AsyncIterator, Collection, Iterator, Sequence
from dataclasses import dataclass, field, fields
from typing import Any

from . import acts, announced, deadlines, inbox, invocations, journal, queueing, schedules, unserved
from .database import Asked, Claiming, Database
from .invocations import CLAIMED, MOST_LOST, SUSPECT, Claim, Claimable
from .outcome import Outcome
from .queues import Queue
from .services import App
from .turns import Turn

_ALONE = 1.0  # seconds for which one that may end its worker is alone with it
_FOR_GOOD = 1e9  # seconds
_TIMERS = 1000  # that fire in one transaction, at most
_FRESH = 5000
_AT_ONCE = 500  # leases that one statement takes
_FEWEST = 20  # ready invocations that a claim may take, however many workers there are
_SHARE = f"SELECT CASE WHEN many<2 OR ?<={_FEWEST} THEN ? WHEN ?/many<{_FEWEST} THEN {_FEWEST} ELSE ?/many END FROM alive"

_ARE_SUSPECTS = f"deaths BETWEEN {SUSPECT - 1} AND {MOST_LOST - 2}"  # of those that have lost their worker once more
_DUE = [it.name for it in fields(Claimable)].index("due")

# If nobody has a key's lock, only its first call is free, so the calls of a key begin in their order, however many workers claim.
_IS_FREE = (
    "(exclusive=0 OR CASE (SELECT holder FROM locks WHERE locks.service=it.service AND locks.key=it.key) WHEN it.id THEN 1=1"
    " ELSE NOT EXISTS (SELECT 1 FROM locks WHERE locks.service=it.service AND locks.key=it.key) AND it.seq=("
    "SELECT seq FROM invocations AS first WHERE first.service=it.service AND first.key=it.key AND first.exclusive=1 AND first.status='ready'"
    " ORDER BY first.due, first.seq LIMIT 1) END)"
)


def _looked() -> Asked:
    """Reads for whom something came, each with whether a cancellation is among it."""
    sql = "SELECT invocation, MAX(CASE WHEN frame=? THEN 1 ELSE 0 END) FROM inbox WHERE fresh=1 GROUP BY invocation LIMIT ?"
    return sql, (journal.cancellation(), _FRESH)


def orphaned(db: Database) -> str:
    """The condition of those that run by a worker that isn't alive."""
    return f"status='running' AND worker NOT IN (SELECT id FROM workers WHERE lease>={db.clock})"


@dataclass
class Claims:
    """What a worker goes on with. `has_more`: this claim took all that it might, so there may be more. `next_due` is when something is due that
    the database knows of."""

    claims: list[Claim] = field(default_factory=list)
    out: Outcome = field(default_factory=Outcome)
    has_more: bool = False
    next_due: float | None = None
    later: float | None = None  # when the rate of a queue lets the next one begin, by the database's time


@dataclass(frozen=True)
class Condition:
    """A condition on rows of invocations."""

    where: str
    values: tuple[str, ...]


@dataclass(frozen=True)
class Share(Condition):
    """The invocations of some handlers, and how many more of their attempts may begin."""

    room: int


@dataclass(frozen=True)
class Claimer:
    """Claims for one worker of an app."""

    worker: str
    app: App
    lease: float  # how long it is thought alive after a beat, in seconds
    former: str = ""  # the worker that this process was before it lost its database
    version: str = ""  # of the app's code, if it isn't the app's own
    peers: list[str] = field(default_factory=list)  # as the last claim found them
    turns: Iterator[int] = field(default_factory=itertools.count)

    @property
    def has_peers(self) -> bool:
        """Whether other workers claim the same."""
        return bool(self.peers)

    @property
    def code(self) -> str:
        """The version by which this worker's invocations are begun."""
        return self.version or self.app.version

    @functools.cached_property
    def own(self) -> Condition:
        """The condition of an invocation with which this worker may go on: it has the handler, and began by this version or not yet."""
        served, names = announced.served(self.app)
        return Condition(f"{served} AND (code IS NULL OR code=?)", (*names, self.code))

    # ---- leases

    async def enter(self, db: Database) -> None:
        """The worker begins. `Database.beats` keeps its lease then; the only worker of a file needs no beats."""
        lease = self.lease
        if not db.is_shared:
            await db.change("DELETE FROM workers")
            lease = _FOR_GOOD
        await db.change("DELETE FROM workers WHERE id=?", (self.former,))
        await db.change(f"INSERT INTO workers(id, lease) VALUES (?,{db.clock}+?)", (self.worker, lease))
        await db.change(f"DELETE FROM workers WHERE lease < {db.clock}-3600")
        await announced.enter(db, self.app, self.worker, self.code)
        await schedules.enter(db, self.app, self.app.services)
        await queueing.enter(db, self.app)
        limited = [(it.path,) for it in self.app.limited()]
        db.many("INSERT INTO limits(path) VALUES (?) ON CONFLICT(path) DO NOTHING", limited)

    async def sweep(self, db: Database) -> None:
        """Removes what was delivered while its target ended elsewhere. The inbox is looked through, and no invocation that isn't in it."""
        await db.change("DELETE FROM inbox WHERE fresh=1 AND COALESCE((SELECT status FROM invocations WHERE id=inbox.invocation), 'done')='done'")

    async def serve(self, db: Database) -> Outcome:
        """Some of what waits for a worker that serves it go on by this one; `has_more` says whether there may be others."""
        out = Outcome()
        out.has_more = await unserved.serve(db, self.app, out)
        return out

    async def leave(self, db: Database) -> None:
        """The worker ends; others may go on with what it had at once."""
        await db.change("DELETE FROM workers WHERE id=?", (self.worker,))
        await announced.leave(db, self.worker)
        db.notify("ready")

    # ---- claims

    async def claim(self, db: Database, live: Collection[str], room: int) -> Claims:
        """Fires the timers that are due, and claims at most `room` invocations that can go on; `live` are those that have an attempt here."""
        found, now, asked = Claims(), db.now(), time.monotonic()
        first = [self._due(db, now), _looked(), self._next(db, now), *deadlines.late(db, now), announced.peers(db, self.app, self.code)]
        some = [self._orphaned(db, room), *self._of(db, self._unlimited, now, room)]
        due, fresh, [(next_due, clock)], *late, peers, orphaned, ready, awake = await db.several([*first, *some])
        db.told(float(clock), asked)
        self.peers[:] = self._next_peers([name for name, in peers])
        db.claims(Claiming(self.worker, list(self.peers), list(self.app.services), self.code))
        cancelled = [id for id, is_cancelled in fresh if is_cancelled]
        is_new = not (due or cancelled or any(late) or self.app.schedules)
        await deadlines.end(db, found.out, *late)
        await self._fire(db, found.out, due, now)
        await schedules.fire(db, self.app, found.out, now)
        await self._cancel(db, found.out, cancelled, now)
        found.out.touched |= {row[0] for row in fresh}
        orphaned, *read = (orphaned, ready, awake) if is_new else await db.several(some)  # else what was read may have changed
        lost = await self._lost(db, orphaned, live)
        rows = [Claimable(*row) for row in await self._rows(db, found, now, room, bool(fresh or due), (lost, *read))]
        free = await self._without_suspects(db, [it for it in rows if it.id not in live])
        for at in range(0, len(free), _AT_ONCE):
            found.claims += await invocations.claim(db, self.worker, free[at : at + _AT_ONCE], found.out, self.code)
        queueing.begun(db, self.app, found.claims)
        if found.has_more:
            db.pass_on()
        if len(free) < sum(it.id not in live for it in rows):
            found.has_more = False  # who is left out is looked for by and by
        has_more = len(due) == _TIMERS or any(len(it) == deadlines.MOST for it in late)
        times = (now if has_more else next_due, found.later, await schedules.next_due(db, self.app, now))
        found.next_due = min((float(it) - db.now() + time.time() for it in times if it is not None), default=None)
        return found

    def _next_peers(self, names: list[str]) -> list[str]:
        """The other workers that serve the same: those after this one, and then those before it. So what one passes on comes to each in turn."""
        return [it for it in names if it > self.worker] + [it for it in names if it < self.worker]

    async def _cancel(self, db: Database, out: Outcome, cancelled: list[str], now: float) -> None:
        """A cancellation reaches also those that wait for no inbox."""
        if cancelled:
            marks, waits = ",".join("?" * len(cancelled)), "(status='paused' OR (status='ready' AND (epoch=0 OR due>?)))"
            for (id,) in await db.rows(f"SELECT id FROM invocations WHERE id IN ({marks}) AND {waits}{db.skip}", (*cancelled, now)):
                await acts.reached(db, out, id)

    async def _lost(self, db: Database, rows: list[Any], live: Collection[str]) -> list[Any]:
        """Those that have lost their worker and may go on now, by their age. The others hide none of them, and nothing that is ready."""
        free = await self._without_suspects(db, [it for it in (Claimable(*row) for row in rows) if it.id not in live])
        ids = {it.id for it in free}
        return sorted((row for row in rows if row[0] in ids), key=operator.itemgetter(_DUE))

    async def _without_suspects(self, db: Database, rows: list[Claimable]) -> list[Claimable]:
        """Invocations whose attempts were lost again and again with their workers are claimed one at a time: that which was lost least often, and the
        next one after a moment. So the one that ends workers is found, and the others that they had go on."""
        suspects = [it for it in rows if SUSPECT <= it.lost < MOST_LOST]
        if not suspects:
            return rows
        sql = "SELECT COUNT(*) FROM invocations WHERE status='running' AND worker=? AND deaths>=? AND begun>?"
        [(has_one,)] = await db.rows(sql, (self.worker, SUSPECT, db.now() - _ALONE))
        chosen = None if has_one else min(suspects, key=lambda it: it.lost)
        return [it for it in rows if it is chosen or not SUSPECT <= it.lost < MOST_LOST]

    @staticmethod
    def _due(db: Database, now: float) -> Asked:
        """Reads the timers that are due."""
        return f"SELECT due, seq, invocation, completes FROM timers WHERE due<=? ORDER BY due LIMIT {_TIMERS}{db.skip}", (now,)

    async def _fire(self, db: Database, out: Outcome, due: list[Any], now: float) -> None:
        turn = Turn()
        out.lags += [now - float(it) for it, _, _, _ in due]
        for _, _, invocation, completes in due:
            inbox.complete(db, out, invocation, completes, journal.void())
            await turn.end()
        if due:
            db.many("DELETE FROM timers WHERE invocation=? AND seq=?", [(invocation, seq) for _, seq, invocation, _ in due])

    def _of(self, db: Database, share: Share, now: float, most: int) -> list[Asked]:
        """Reads invocations of a share that can go on: those that are ready, and those that may be woken."""
        return [self._ready(db, share, now, most), self._awake(db, share, most)]

    async def _rows(self, db: Database, claims: Claims, now: float, room: int, has_fresh: bool, read: Sequence[list[Any]]) -> list[Any]:
        """Invocations that can go on, each with its row kept until the commit. `read` are those that have lost their worker, and what was read of those
        without a limit. Those that have lost their worker come by their age, among the ready ones that no limit keeps waiting. Every second claim begins with
        what has a limit or a queue, so that neither keeps the other out."""
        (lost, *first), begins_limited = read, next(self.turns) % 2 == 1
        rows = await self._limited(db, claims, now, room, has_fresh) if begins_limited else []
        if len(rows) < room:
            rows += await self._shared(db, claims, room - len(rows), first, lost)
        if not begins_limited:
            rows += await self._limited(db, claims, now, room - len(rows), has_fresh)
        claims.has_more |= len(rows) == room
        return rows

    async def _limited(self, db: Database, claims: Claims, now: float, room: int, has_fresh: bool) -> list[Any]:
        """Those of handlers that have a limit or a queue."""
        rows: list[Any] = []
        if room <= 0:
            return rows
        async for share in self._shares(db):
            most = min(share.room, room - len(rows))
            if most > 0:
                rows += await self._shared(db, claims, most, await db.several(self._of(db, share, now, most)))
        for queue in self.app.queues.values():
            if len(rows) < room:
                rows += await self._queued(db, claims, queue, now, room - len(rows), has_fresh)
        return rows

    async def _shared(self, db: Database, claims: Claims, most: int, read: Sequence[list[Any]], lost: Sequence[Any] = ()) -> list[Any]:
        """Those of a share, of which `read` are ready, and such as may be woken."""
        ready, awake = read
        claims.has_more |= bool(ready) and len(ready) >= ready[0][-1]
        woken = await self._woken(db, awake) if awake else []
        claims.has_more |= len(awake) >= most and len(woken) < len(awake)  # those that stay as they are hide no others any more
        found = [*woken, *heapq.merge(lost, (row[:-1] for row in ready), key=operator.itemgetter(_DUE))]
        claims.has_more |= len(found) > most
        return found[:most]

    async def _queued(self, db: Database, claims: Claims, queue: Queue, now: float, most: int, has_fresh: bool) -> list[Any]:
        """Invocations of a queue that can go on."""
        it = await queueing.room(db, queue, self.worker, most, now)
        rows: list[Any] = []
        if has_fresh and it.free > 0:
            (others, full), many = it.others, it.free
            share = Share(f"queue=? AND {self.own.where}{others}", (queue.name, *self.own.values, *full), many)
            [awake] = await db.several([self._awake(db, share, many)])
            woken = await self._woken(db, awake)
            rows = await queueing.taken(db, it, woken)
            claims.has_more |= len(awake) == many and len(rows) + len(awake) > len(woken)  # else a claim at once would find the same
        where, values = f"{self.own.where} AND {_IS_FREE}", self.own.values
        again = await queueing.again(db, it, where, values, now)
        rows += again.rows
        found = await queueing.first(db, it, where, values, now)
        claims.has_more |= found.has_more or again.has_more
        if it.later is not None:
            claims.later = it.later if claims.later is None else min(claims.later, it.later)
        return rows + found.rows

    @functools.cached_property
    def _unlimited(self) -> Share:
        """The handlers without a limit."""
        limited, own = self.app.limited(), self.own
        is_free = "".join(" AND NOT (service=? AND handler=?)" for _ in limited)
        named = tuple(name for it in limited for name in (it.service.name, it.name))
        return Share(f"queue IS NULL AND {own.where}{is_free}", (*own.values, *named), 1_000_000)

    async def _shares(self, db: Database) -> AsyncIterator[Share]:
        """Each handler that has a limit. The rows of the limits are kept until the commit, so two workers don't count at one time."""
        for it in self.app.limited():
            await db.rows(f"SELECT path FROM limits WHERE path=?{db.lock}", (it.path,))
            names = (it.service.name, it.name)
            [(running,)] = await db.rows(f"SELECT COUNT(*) FROM invocations WHERE status='running' AND {announced.OF_SERVICE} AND handler=?", names)
            yield Share(f"{announced.OF_SERVICE} AND handler=? AND (code IS NULL OR code=?)", (*names, self.code), (it.limit or 0) - running)

    @staticmethod
    def _awake(db: Database, share: Share, most: int) -> Asked:
        """Reads suspended ones whose inbox may wake them, each with its suspension."""
        is_fresh = "id IN (SELECT invocation FROM inbox WHERE fresh=1)"
        sql = f"SELECT {CLAIMED}, suspension FROM invocations WHERE {share.where} AND status='suspended' AND {is_fresh} LIMIT ?{db.skip}"
        return sql, (*share.values, most)

    @staticmethod
    async def _woken(db: Database, rows: list[Any]) -> list[Any]:
        """Those of them that their inbox wakes."""
        inboxes, turn, found = await db.several([inbox.peek(row[0], most=inbox.ALL) for row in rows]), Turn(), list[Any]()
        for (*row, suspension), arrived in zip(rows, inboxes):
            if inbox.wakes(db, row[0], arrived, bytes(suspension), bool(Claimable(*row).shielded)):
                found.append(tuple(row))
            await turn.end()
        return found

    @staticmethod
    def _ready(db: Database, share: Share, now: float, most: int) -> Asked:
        """Reads ready ones, each with how many there may be: a claim takes a share by the number of workers, so that others get theirs."""
        sql = (
            f"WITH alive(many) AS (SELECT COUNT(*) FROM workers WHERE lease>={db.clock}), own(most) AS ({_SHARE})"
            f" SELECT {CLAIMED}, (SELECT most FROM own) FROM invocations AS it WHERE {share.where} AND status='ready' AND due<=? AND {_IS_FREE}"
            f" ORDER BY due, seq LIMIT (SELECT most FROM own){db.skip}"
        )
        return sql, (most, most, most, most, *share.values, now)

    def _orphaned(self, db: Database, most: int) -> Asked:
        """Reads running ones whose worker isn't alive, in the order in which they were due, and those that are claimed alone last. They are counted as
        running already, so no limit keeps them out."""
        sql = f"SELECT {CLAIMED} FROM invocations WHERE {self.own.where} AND {orphaned(db)} ORDER BY {_ARE_SUSPECTS}, due, seq LIMIT ?{db.skip}"
        return sql, (*self.own.values, most)

    @staticmethod
    def _next(db: Database, now: float) -> Asked:
        """Reads when something is due next, and the database's time. To plan a `MIN` over partitions takes a server many times as long as these."""
        sql = (
            f"SELECT MIN(due), {db.clock} FROM (SELECT due FROM (SELECT due FROM timers WHERE due>? ORDER BY due LIMIT 1) AS timer"
            f" UNION ALL SELECT due FROM (SELECT due FROM invocations WHERE status='ready' AND due>? ORDER BY due LIMIT 1) AS ready{deadlines.NEXT}) AS next"
        )
        return sql, (now, now, now, now)
