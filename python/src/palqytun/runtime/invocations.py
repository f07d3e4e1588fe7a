"""Invocations: how they are made, claimed, awaited and ended."""

from __future__ import annotations

import functools
import hashlib
import secrets
import time
from collections.abc import Iterable, Mapping, Sequence
from dataclasses import dataclass, field, fields
from typing import Any

from . import announced, inbox, journal, notes, places, queues, repeated
from .announced import Target
from .database import Asked, Database, Each, Listed, Reading, StatementFailed
from .journal import Begin, Journal, Result
from .lease import ENTRY, FREE, GONE, MADE, WAITING, Fenced, Growth, Lease
from .names import check_name
from .notes import Note
from .outcome import Outcome, Taker
from .services import App, Retry, TerminalError
from .texts import storable
from .traces import Trace
from .turns import Turn

LONGEST_DELAY = 1e10  # seconds, about three centuries
SUSPECT, MOST_LOST = 2, 5  # attempts in a row that are lost with their workers: then an invocation is claimed alone, or not any more
HANDED_OUT = 1 << 18  # bytes of a key's values that an attempt is handed; the core reads them as text
VERSION = 7  # of the core's protocol, for new invocations; one that is there keeps its own, for its journal was written by it


@dataclass(frozen=True)
class New:
    """An invocation to make. `due` is when it begins, in seconds since the epoch by this process's clock; 0 is at once."""

    service: str
    handler: str
    key: str = ""
    argument: bytes = b""
    headers: Iterable[tuple[str, str]] = field(default=())
    idempotency_key: str | None = None
    due: float = 0
    id: str | None = None
    parent: str | None = None
    trace: str | None = None  # the header `traceparent` of whoever makes it
    may_differ: bool = False  # from what its idempotency key has made before, as a schedule's argument by newer code


def new_id() -> str:
    """An id that no other invocation has."""
    return f"inv_{secrets.token_hex(12)}"


def seed_of(id: str | None) -> int:
    """The seed of an invocation's random numbers. It follows from an id that was given."""
    if id is None:
        return secrets.randbits(63)
    return int.from_bytes(hashlib.blake2b(id.encode(), digest_size=7).digest(), "big")


def check(new: New, target: Target) -> None:
    """`TerminalError` with code 400 if a key is missing, too long, or none that each database can store."""
    if bool(new.key) != target.keyed:
        raise TerminalError(f"{target.path} is called {'with' if target.keyed else 'without'} a key", 400)
    check_name("the key", new.key)
    check_name("the idempotency key", new.idempotency_key or "")


_COLUMNS = (
    *("id text", "service text", "handler text", "key text", "exclusive bigint", "version bigint", "idem text", "seed bigint", "due double precision"),
    *("created double precision", "parent text", "trace text", "deadline double precision", "expires double precision"),
    *("queue text", "queue_key text", "priority bigint"),
)


_LEASED = "worker text", "begun double precision", "code text"


@functools.cache
def _made(clock: str, is_leased: bool = False) -> Each:
    """The row of an invocation, which is ready, or leased as by a claim just after. What begins at once is due when the server makes this statement: so
    calls of a key are in their order, whichever worker stores them."""
    columns = (*_COLUMNS, *_LEASED) if is_leased else _COLUMNS
    names = [it.partition(" ")[0] for it in columns]
    values = [f"COALESCE(?,{clock})" if it == "due" else "?" for it in names]
    status, epoch = ("running", 1) if is_leased else ("ready", 0)
    sql = f"INSERT INTO invocations({', '.join(names)}, status, epoch, entries) SELECT {', '.join(values)}, '{status}', {epoch}, 1{{rows}}"
    return Each(MADE, sql, *(it.partition(" ")[2] for it in columns))


def _taken_by(app: App, out: Outcome, new: New) -> Taker | None:
    """The worker that takes the lease of a new invocation in the transaction that makes it, if nothing can keep its first attempt waiting: neither its
    key nor a queue or a limit. None if it waits for a claim."""
    known = app.known(new.service, new.handler)
    if out.taker is None or len(out.claims) >= out.taker.room or new.due or known is None:
        return None
    return None if known.exclusive or app.has_limit(new.service, new.handler) else out.taker


def begins(db: Database, new: New) -> float | None:
    """When an invocation is due by the database's time; none if that is when the server makes its row."""
    return db.now() + new.due - time.time() if new.due else None if db.is_shared else db.now()


async def named(db: Database, new: New, idem: str) -> str | None:
    """The invocation of the same handler and key that has this idempotency key; none if there isn't one."""
    sql = "SELECT id FROM invocations WHERE service=? AND handler=? AND key=? AND idem=?"
    found = await db.rows(sql, (new.service, new.handler, new.key, idem))
    return str(found[0][0]) if found else None


async def create(db: Database, app: App, out: Outcome, new: New) -> tuple[str, bool]:
    """Makes an invocation, of this app or of another one that a worker serves; returns its id and True. If there is one with this idempotency key, or
    a workflow with this key, its id and False. `TerminalError` with code 404 if nobody serves it, and `IdempotencyConflict` if the one that is there has
    another argument; then nothing is stored."""
    target = await announced.find(db, app, new.service, new.handler)
    check(new, target)
    idem = "" if target.is_main else new.idempotency_key or None  # a workflow's main runs once a key
    now, due = db.now(), begins(db, new)
    id = new.id or new_id()
    times, (priority, queue_key) = target.until(now if due is None else due), queues.asked(new.headers, new.key)
    queued = (target.queue, None if target.queue is None else queue_key, priority)
    seed, taker = seed_of(new.id), _taken_by(app, out, new)
    leased = () if taker is None else (taker.worker, now, taker.code)
    named_so = (id, new.service, new.handler, new.key, int(target.exclusive), VERSION, idem, seed, due, now, new.parent, new.trace)
    made, row = _made(db.clock, taker is not None), (*named_so, *times, *queued, *leased)
    if idem is None:  # no other has its name
        db.each(made, row)
    elif not await db.change(f"{made.one} WHERE true ON CONFLICT DO NOTHING", row):
        found = await named(db, new, idem) or id
        if idem and not new.may_differ:
            await repeated.check(db, app.codec, found, idem, new.argument)
        return found, False
    frame = journal.input_command(new.argument, new.headers)
    db.each(ENTRY, (id, 0, None, frame, now))
    if taker is not None:
        out.claims.append(await _claim_of_new(db, new, id, seed, idem, now, frame, taker))
        return id, True
    out.is_due(new.due or time.time())
    db.ready(is_own=announced.own(app, new.service, new.handler) is not None)
    return id, True


async def attach(db: Database, growth: Growth, invocation: str | None, id: int) -> None:
    """The completion id is completed by what the other invocation ends with."""
    found = await last_of(db, invocation or "")
    if not found:
        growth.complete(id, journal.failure(404, "there is no such invocation"))
    elif found[0][1] is not None:
        growth.complete(id, Result(bytes(found[0][1])))
    else:
        wait(db, growth, str(found[0][0]), id)


_LAST = "(SELECT id FROM invocations WHERE chain=COALESCE((SELECT chain FROM invocations WHERE id=?), ?) ORDER BY seq DESC LIMIT 1)"
NEWEST = f"SELECT COALESCE((SELECT id FROM invocations WHERE id=? AND continued IS NULL), {_LAST}, ?)"


async def newest(db: Database, id: str) -> str:
    """The invocation that goes on instead of this one, or else this one."""
    return str((await db.rows(NEWEST, (id, id, id, id)))[0][0])


def goes_over(frame: bytes) -> bool:
    """Whether a notification is also for the invocation that goes on instead of another one: a signal by its name, or a cancellation."""
    return frame == journal.cancellation() or journal.signal_name(frame) is not None


async def last_of(db: Database, id: str) -> list[Any]:
    """The id and the result of the invocation that goes on instead of this one, or else of this one; its row is kept until the commit. Nothing, if
    there is none."""
    while True:
        found = await db.rows(f"SELECT id, result, continued FROM invocations WHERE id=?{db.lock}", (await newest(db, id),))
        if not found or found[0][2] is None:  # else it has gone on before its row was kept
            return [row[:2] for row in found]


_WAITS = Each(WAITING, "INSERT INTO waiters(invocation, waiter, completes) SELECT ?,?,?{rows}", "text", "text", "bigint")
_WAITERS = Reading("SELECT waiter, completes FROM waiters WHERE invocation=?", "text")


def wait(db: Database, growth: Growth, invocation: str, id: int) -> None:
    """The completion id waits for the end of another invocation, which hasn't ended."""
    db.each(_WAITS, (invocation, growth.lease.invocation, id))


def waiters_of(invocation: str) -> Asked:
    """Reads who waits for an invocation."""
    return _WAITERS, (invocation,)


_GONE = [("waiters", "invocation"), ("timers", "invocation"), ("inbox", "invocation"), ("waiters", "waiter"), ("promise_waiters", "waiter")]
# Each has the list itself: by that, and not by a query for it, the server knows which partitions it needs.
_DELETED = (f"deleted{at} AS (DELETE FROM {table} WHERE {column}=ANY(?::text[]))" for at, (table, column) in enumerate(_GONE))
_ALL_GONE = Listed(GONE, f"WITH {', '.join(_DELETED)} SELECT 1")
_FREE = Each(FREE, "DELETE FROM locks{rows} WHERE service=? AND key=? AND holder=?", "text", "text", "text", by="USING")


def leave_nothing(db: Database, invocation: str) -> None:
    """An invocation ends: it waits for nothing any more, and nobody for it."""
    if db.is_remote:
        db.each(_ALL_GONE, (invocation,) * len(_GONE))
    else:
        for table, column in _GONE:
            db.put(f"DELETE FROM {table} WHERE {column}=?", (invocation,))


def ending(result: Result) -> tuple[int | None, str | None]:
    """The code and the text of the failure that an end is; none if it isn't one."""
    if not journal.is_failure(result):
        return None, None
    _, (code, message, _) = journal.answer(result)
    return code, storable(f"{code} {message}")


async def end(
    db: Database, out: Outcome, invocation: str, service: str, key: str, result: Result, waiters: list[Any] | None = None, *, is_own: bool = False
) -> None:
    """What an invocation's end does for others: it gives its result to those that wait, and its key to the next. `waiters` are those who wait, if they
    were read since the invocation's row is kept. It `is_own` if the handler is one of this worker's app."""
    waiting = (await db.several([waiters_of(invocation)]))[0] if waiters is None else waiters
    for waiter, completes in waiting:
        inbox.complete(db, out, waiter, completes, result)
    leave_nothing(db, invocation)
    if key:
        db.each(_FREE, (service, key, invocation))
        out.is_due(time.time())
        db.ready(is_own)
    out.ended[invocation] = result
    if not waiting:  # what a handler has called is seldom asked for elsewhere too, and then it is looked for (`Engine.result`)
        db.notify(f"ended {invocation}")


# ---- claims


@dataclass(frozen=True)
class Continues:
    """What a new invocation that goes on instead of another one takes over from its attempt. `asked` is how many signals of a name that one's handler
    has asked for: as many of those that came are its own."""

    headers: tuple[tuple[str, str], ...]
    asked: Mapping[str, int]


@dataclass
class Claim:
    """A lease, and what an attempt needs."""

    lease: Lease
    service: str
    handler: str
    key: str
    exclusive: bool
    content_type: str
    begun: float
    input: bytes
    created: float
    trace: Trace
    late: float | None = None  # if it was ready: how long it was due
    was_cancelled: bool = False  # its journal has a cancellation
    cancel_waits: bool = False  # its inbox has one, which the attempt takes when the handler may be cancelled
    is_shielded: bool = False  # the handler may not be cancelled now
    by_run: bool = False  # the attempt has failed by a run, which has its own policy
    run: str | None = None  # the name of that run
    retry: Retry | None = None  # how that run is tried again
    continues: Continues | None = None  # the handler goes on as a new invocation
    fault: BaseException | None = None  # what the handler or the run raised
    parted: str | None = None  # how the handler's call parts from the recorded one, if the core has refused it for that

    @property
    def invocation(self) -> str:
        return self.lease.invocation

    def note(self, event: str, error: str, delay: float | None = None) -> Note:
        """What the log says of this attempt."""
        path, at = f"{self.service}/{self.handler}", places.of_error(self.fault)
        return Note(event, self.invocation, path, self.lease.epoch, error, at, self.run, delay, self.trace.trace_id)

    @property
    def fields(self) -> dict[str, object]:
        """What a record of the log has of this attempt."""
        own = {"invocation": self.invocation, "handler": f"{self.service}/{self.handler}", "attempt": self.lease.epoch}
        return {**own, "trace_id": self.trace.trace_id, "span_id": self.trace.span_id}


async def _loaded(invocation: str, entries: int, rows: Iterable[Any], version: int, turn: Turn) -> Journal:
    """A journal of the rows that are stored of it."""
    loaded = Journal(version)
    for at, frame in rows:
        if at != loaded.entries:
            raise journal.BrokenRule("WHOLE", f"entry {loaded.entries} of {invocation} isn't there")
        loaded.entry(bytes(frame))
        await turn.end()
    if loaded.entries != entries:
        raise journal.BrokenRule("WHOLE", f"{invocation} has {loaded.entries} of {entries} entries")
    loaded.keep()
    return loaded


async def load(db: Database, invocation: str, entries: int, version: int = journal.DEFAULT_VERSION) -> Journal:
    """The stored journal, for attempts of this version."""
    rows = await db.rows("SELECT at, frame FROM journal WHERE invocation=? ORDER BY at", (invocation,))
    return await _loaded(invocation, entries, rows, version, Turn())


async def state_of(db: Database, service: str, key: str) -> dict[str, bytes]:
    """The keyed state. It is changed in the transaction that stores the command, so it is as the journals' commands leave it."""
    return {name: bytes(data) for name, data in await db.rows("SELECT name, value FROM state WHERE service=? AND key=? ORDER BY name", (service, key))}


_SMALL = Reading(
    "SELECT name, CASE WHEN total<=? THEN value END FROM (SELECT name, value, SUM(length(value)) OVER (ORDER BY length(value), name) AS total"
    " FROM state WHERE service=? AND key=?) AS sized ORDER BY name",
    *("bigint", "text", "text"),
)


def _small_state(service: str, key: str) -> Asked:
    """Reads what an attempt is handed of the keyed state: the smallest values, and NULL for the others, which are read when the handler asks for them."""
    return _SMALL, (HANDED_OUT, service, key)


@dataclass(frozen=True)
class Claimable:
    """The row of an invocation that can go on, as far as a claim reads it; it is kept until the commit."""

    id: str
    service: str
    handler: str
    key: str
    exclusive: int
    version: int
    seed: int
    idem: str | None
    epoch: int
    entries: int
    retries: int
    failing_since: float | None
    status: str
    worker: str | None
    deaths: int
    cancelled: float | None
    shielded: int
    trace: str | None
    created: float
    due: float
    code: str | None

    def note(self, event: str, error: str, delay: float | None = None) -> Note:
        """What the log says of its last attempt."""
        return Note(event, self.id, f"{self.service}/{self.handler}", self.epoch, error, delay=delay, trace_id=Trace.of(self.id, self.trace).trace_id)

    @property
    def lost(self) -> int:
        """How many attempts were lost with their workers since the last progress, with the one that this claim finds."""
        return self.deaths + (self.status == "running")


CLAIMED = ", ".join(it.name for it in fields(Claimable))


def _marks(count: int, mark: str = "?") -> str:
    return ",".join([mark] * count)


_TAKEN = Each(MADE, "INSERT INTO locks(service, key, holder) SELECT ?,?,?{rows} WHERE true ON CONFLICT(service, key) DO NOTHING", "text", "text", "text")
_HOLDER = Reading("SELECT holder FROM locks WHERE service=? AND key=?", "text", "text")


async def _with_keys(db: Database, rows: list[Claimable]) -> list[Claimable]:
    """Takes the keys that nobody has; returns those that have theirs, or need none."""
    keyed = [it for it in rows if it.exclusive]
    if not keyed:
        return rows
    for it in keyed:
        db.each(_TAKEN, (it.service, it.key, it.id))
    found = await db.several([(_HOLDER, (it.service, it.key)) for it in keyed])
    holders = {holder for rows_of_key in found for (holder,) in rows_of_key}
    return [it for it in rows if not it.exclusive or it.id in holders]


def _lease(db: Database, worker: str, version: str | None, rows: list[Claimable], now: float) -> None:
    """Takes the leases, and writes down the attempts before. An invocation that begins keeps the version of the code from here on. An attempt that
    didn't say how it stopped was lost, with its worker or its lease."""
    kept = (
        "INSERT INTO attempts(invocation, epoch, worker, begun, stopped, how, error)"
        " SELECT id, epoch, worker, begun, COALESCE(stopped, ?), COALESCE(how, 'lost'), CASE WHEN how IN ('failed', 'paused') THEN error END"
        " FROM invocations WHERE "
    )
    if before := [it.id for it in rows if it.epoch]:
        is_one, ids = _among(db, "id", before)
        db.put(f"{kept}{is_one}", (now, *ids))
    # On a server a list is one value, so the statement is the same for any number of rows.
    pairs = [part for it in rows for part in (it.id, it.epoch)]
    values: list[Any] = [[it.id for it in rows], [it.epoch for it in rows]] if db.is_remote else pairs
    listed = "unnest(?::text[], ?::bigint[]) AS taken(column1, column2)" if db.is_remote else f"(VALUES {_marks(len(rows), '(?,?)')}) AS taken"
    sql = (
        "UPDATE invocations SET status='running', epoch=epoch+1, worker=?, suspension=NULL, begun=?, stopped=NULL, how=NULL,"
        " deaths=deaths+CASE WHEN status='running' THEN 1 ELSE 0 END, code=COALESCE(code, ?)"
        f" FROM {listed} WHERE id=taken.column1 AND epoch=taken.column2"
    )
    db.must(sql, (worker, now, version, *values), Fenced(", ".join(it.id for it in rows[:3])), len(rows))


def _among(db: Database, column: str, ids: list[str]) -> tuple[str, list[Any]]:
    """A condition that a column has one of these values, and what it is given."""
    return (f"{column}=ANY(?::text[])", [ids]) if db.is_remote else (f"{column} IN ({_marks(len(ids))})", list(ids))


def _of(db: Database, columns: str, table: str, order: str, ids: list[str]) -> Asked:
    """Reads rows of a table by their invocations."""
    is_one, values = _among(db, "invocation", ids)
    return f"SELECT invocation, {columns} FROM {table} WHERE {is_one} ORDER BY {order}", values


def _by_invocation(rows: list[Any], ids: list[str]) -> dict[str, list[tuple[Any, ...]]]:
    found: dict[str, list[tuple[Any, ...]]] = {id: [] for id in ids}
    for id, *row in rows:
        found[id].append(tuple(row))
    return found


async def claim(db: Database, worker: str, rows: list[Claimable], out: Outcome | None = None, version: str | None = None) -> list[Claim]:
    """Takes the leases of invocations, for a worker of this version. One whose key another has is left out. One that can't be claimed is paused: its stored
    journal breaks a rule, the database refuses a statement on it, or too many attempts were lost with their workers."""
    out = Outcome() if out is None else out
    rows = [it for it in rows if not await _is_deadly(db, it, out)]
    if not rows:
        return []
    db.put("SAVEPOINT claim")
    try:
        return await _claims(db, worker, version, rows, out)
    except StatementFailed as error:
        await db.change("ROLLBACK TO claim")
        if len(rows) > 1:
            return [claimed for it in rows for claimed in await claim(db, worker, [it], out, version)]
        _pause(db, out, rows[0], f"it can't be claimed: {error}")
        return []


def _pause(db: Database, out: Outcome, it: Claimable, why: str) -> None:
    sql = "UPDATE invocations SET status='paused', stopped=?, how='paused', error=? WHERE id=?"
    db.put(sql, (db.now(), why, it.id))
    out.notes.append(it.note(notes.PAUSED, why))


async def _is_deadly(db: Database, it: Claimable, out: Outcome) -> bool:
    """Whether the attempts of an invocation were lost so often that the next one might end another worker. Then it is paused."""
    if it.lost < MOST_LOST:
        return False
    sql = f"SELECT worker FROM attempts WHERE invocation=? AND how='lost' ORDER BY epoch DESC LIMIT {MOST_LOST}"
    workers = [it.worker, *[name for name, in await db.rows(sql, (it.id,))]][:MOST_LOST]
    names = ", ".join(str(name) for name in dict.fromkeys(reversed(workers)) if name)
    error = f"{it.lost} attempts in a row were lost before they stored anything, with the workers {names}: see how these ended, and then resume it"
    sql = "UPDATE invocations SET status='paused', stopped=?, how='lost', deaths=?, error=? WHERE id=?"
    db.put(sql, (db.now(), it.lost, error, it.id))
    out.notes.append(it.note(notes.PAUSED, error))
    return True


async def _claims(db: Database, worker: str, version: str | None, rows: list[Claimable], out: Outcome) -> list[Claim]:
    rows = await _with_keys(db, rows)
    if not rows:
        return []
    now, ids = db.now(), [it.id for it in rows]
    _lease(db, worker, version, rows, now)
    exclusive = [it for it in rows if it.exclusive]
    asked = [_of(db, "at, frame", "journal", "invocation, at", ids), _of(db, "seq, frame", "inbox", "seq", ids)]
    found, came, *states = await db.several([*asked, *(_small_state(it.service, it.key) for it in exclusive)])
    entries, arrived, small = _by_invocation(found, ids), _by_invocation(came, ids), {it.id: state for it, state in zip(exclusive, states)}
    claims, turn = list[Claim](), Turn()
    for it in rows:
        try:
            claims.append(await _claim(db, it, now, entries[it.id], arrived[it.id], small.get(it.id), turn))
        except journal.BrokenRule as broken:
            _pause(db, out, it, f"the stored journal is broken: {broken}")
    db.put("RELEASE claim")
    out.notes += [it.note(notes.LOST, f"its worker {it.worker} isn't alive", 0) for it in rows if it.status == "running"]
    return claims


async def _claim(
    db: Database, it: Claimable, now: float, entries: list[tuple[Any, ...]], arrived: list[tuple[Any, ...]], state: list[Any] | None, turn: Turn
) -> Claim:
    """Moves what came for a leased invocation to its journal, and makes ready what its attempt is fed. `state` is the small part of its key's, if it
    may write that."""
    growth = Growth(Lease(it.id, it.epoch + 1, await _loaded(it.id, it.entries, entries, it.version, turn)), is_fenced=True)
    came = await arrive(db, growth, arrived, it.cancelled is not None, turn, takes_cancel=False)
    if growth.entries:
        await growth.write(db)
    growth.lease.journal.keep()  # if the commit fails, the claim is thrown away
    failing = max(0, int((now - it.failing_since) * 1000)) if it.retries and it.failing_since is not None else 0
    # A handler that may write is handed the state, as far as it is small; one that only reads is handed none, and reads by completions.
    small = tuple((name, bytes(value)) for name, value in state or () if value is not None)
    is_partial = bool(it.key) if state is None else len(small) < len(state)
    begin = Begin(it.id, it.key, it.seed, small, is_partial, it.retries, failing, it.idem or None)
    content_type = f"application/vnd.restate.invocation.v{it.version}"
    start = growth.lease.journal.start(begin)
    was_cancelled, cancel_waits = it.cancelled is not None, came == WAITS
    trace, late = Trace.of(it.id, it.trace), now - it.due if it.status == "ready" else None
    more = (it.created, trace, late, was_cancelled, cancel_waits)
    return Claim(growth.lease, it.service, it.handler, it.key, bool(it.exclusive), content_type, now, start, *more)


async def _claim_of_new(db: Database, new: New, id: str, seed: int, idem: str | None, now: float, frame: bytes, taker: Taker) -> Claim:
    """The claim of an invocation that was made with its lease. Nothing has come for it."""
    it = Claimable(
        *(id, new.service, new.handler, new.key), exclusive=0, version=VERSION, seed=seed, idem=idem, epoch=0, entries=1, retries=0, failing_since=None,
        status="ready", worker=None, deaths=0, cancelled=None, shielded=0, trace=new.trace, created=now, due=now, code=taker.code
    )  # fmt: skip
    return await _claim(db, it, now, [(0, frame)], [], None, Turn())


TAKEN, WAITS = "taken", "waits"


async def arrive(db: Database, growth: Growth, rows: Sequence[Sequence[Any]], was_cancelled: bool, turn: Turn, *, takes_cancel: bool) -> str | None:
    """Moves what came from the inbox to the journal; says whether a cancellation is `TAKEN` or `WAITS` in the inbox. A second one is dropped."""
    taken, left, cancel = list[tuple[Any, ...]](), list[tuple[Any, ...]](), None
    for seq, data in rows:
        frame = bytes(data)
        if frame != journal.cancellation():
            growth.arrive(frame)
        elif not was_cancelled and cancel is None:
            cancel = TAKEN if takes_cancel else WAITS
            if not takes_cancel:
                left.append((seq, frame))
                continue
            growth.arrive(frame)
        taken.append((seq, frame))
        await turn.end()
    inbox.remove(db, growth.lease.invocation, taken)
    inbox.seen(db, growth.lease.invocation, left)
    return cancel
