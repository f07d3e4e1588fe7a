"""The transactions of an attempt: what it wrote is stored with its effects, what came for it is put into its journal, and it ends."""

from __future__ import annotations

import time
from collections.abc import Awaitable, Callable, Sequence
from dataclasses import dataclass
from typing import Any

from palqytun.effects import Output
from palqytun.errors import Code, in_words

from . import chains, continuing, inbox, invocations, journal, notes
from .database import Asked, Database, Each
from .effects import Performer
from .invocations import Claim
from .journal import Failed, Result, Suspension
from .lease import GONE, PROGRESS, Growth, fence
from .meter import Ended
from .outcome import Outcome, Taker
from .services import App
from .texts import storable
from .turns import Turn


Reads = Callable[[Database], Sequence[Asked]]
"""What an operation reads before it begins. The reads of a group are made together, so no other operation of the group comes before them."""


Writes = Callable[[Database, Sequence[list[Any]]], Awaitable[Outcome]]
"""An operation on a claim's journal, which is given what was read before."""


def reads(claim: Claim, output: bytes) -> Reads | None:
    """What `store` needs to have read before, if this is all: an output that asks nothing of the runtime but to end or to suspend the attempt. First
    the invocation's row is kept: so all is there that others have stored for it, and they wait with more. One that goes on takes its chain before."""
    lease, entries = claim.lease, claim.lease.journal.entries
    if claim.continues is None and journal.only_ends(output):
        return lambda db: (fence(db, lease, entries), invocations.waiters_of(lease.invocation))
    if journal.only_suspends(output):
        return lambda db: (fence(db, lease, entries), inbox.peek(lease.invocation))
    return None


_NO_TIMER = Each(GONE, "DELETE FROM timers{rows} WHERE invocation=? AND completes=?", "text", "bigint", by="USING")


async def store(
    db: Database,
    app: App,
    claim: Claim,
    output: bytes,
    at: int,
    timers: Sequence[int] = (),
    found: Sequence[list[Any]] = (),
    taker: Taker | None = None,
) -> Outcome:
    """Stores what an attempt wrote, after its first `at` bytes. If it has ended, its invocation's status follows. `timers` are completion ids of
    sleeps that nobody awaits any more. `found` is what `reads` has found, if it asks for something. `taker` may begin what is called."""
    out, growth = Outcome(taker), Growth(claim.lease)
    stored = growth.store(output, at)
    if found:
        growth.fenced(found[0])
    elif claim.continues is not None:
        chains.take(db, claim.invocation)
    performer = Performer(db, app, out, growth, claim.service, claim.key, claim.trace)
    if not found and (isinstance(stored.end, Suspension) or any(map(performer.needs_fence, stored.effects))):
        await growth.fence(db)  # else the first statement that changes something is that of `write`, which fences
    await performer.perform(stored.effects)
    for id in timers:
        db.each(_NO_TIMER, (claim.invocation, id))
    if stored.end is None:
        await growth.write(db, **(PROGRESS if growth.has_progress else {}))
    elif isinstance(stored.end, Suspension):
        arrived = found[1] if found else (await db.several([inbox.peek(claim.invocation)]))[0]
        await _suspend(db, out, claim, growth, stored.end, arrived)
    elif isinstance(stored.end, Failed):
        await _fail(db, app, out, claim, growth, stored.end)
    else:
        results = [Result(it.result) for it in stored.effects if isinstance(it, Output)]
        result = results[0] if results else await _stored_output(db, claim.invocation)
        if claim.continues is not None:
            await continuing.go_on(db, app, out, claim, growth, result)
        else:
            await _end(db, out, claim, growth, result, found[1] if found else None)
    if stored.end is not None:
        _leave_room(db, app, out, claim)
    out.feed = growth.feed
    return out


def _leave_room(db: Database, app: App, out: Outcome, claim: Claim) -> None:
    """An attempt has stopped: if its handler has a limit, another may begin."""
    if app.has_limit(claim.service, claim.handler):
        out.is_due(time.time())
        db.ready(is_own=True)


async def _suspend(db: Database, out: Outcome, claim: Claim, growth: Growth, suspension: Suspension, arrived: list[Any]) -> None:
    """The invocation waits; or it doesn't, if what wakes it came just now."""
    now = db.now()
    is_awake = (
        journal.is_awake(suspension.frame, [it.frame for it in growth.entries])
        or inbox.wakes(db, claim.invocation, arrived, suspension.frame, claim.is_shielded)
        or len(arrived) == inbox.MOST
    )
    out.status = "ready" if is_awake else "suspended"
    progress = PROGRESS if growth.has_progress else {"deaths": 0}
    shielded = {"shielded": int(claim.is_shielded)}
    await growth.write(db, status=out.status, due=now, suspension=suspension.frame, stopped=now, how="suspended", **shielded, **progress)
    if is_awake:
        out.is_due(time.time())


async def _fail(db: Database, app: App, out: Outcome, claim: Claim, growth: Growth, error: Failed) -> None:
    """The attempt failed: it is tried again, or the invocation is paused, or the error is its result."""
    now = db.now()
    counted = await _counted(db, claim, growth, now)
    retry = app.retry_of(claim.service, claim.handler)
    is_over = not claim.by_run and retry.is_over(counted.failures, now - (counted.failed_since or now))
    if error.behaviour == "fail" or (is_over and not retry.pause and error.behaviour != "pause"):
        await _end(db, out, claim, growth, journal.failure(error.code, error.message))
        return
    out.status = "paused" if is_over or error.behaviour == "pause" else "ready"
    delay = retry.delay(counted.retries if claim.by_run else counted.failures) if error.delay is None else error.delay / 1000
    delay = (retry if claim.retry is None else claim.retry).jittered(delay)
    why = error.message if claim.parted is None else f"{error.message}: {claim.parted}"
    text = storable(f"{in_words(error.code, why, is_own=error.code != Code.INTERNAL)}\n{error.stacktrace}".rstrip())  # the handlers' own have this code
    how = "paused" if out.status == "paused" else "failed"
    await growth.write(db, status=out.status, due=now + delay, error=text, stopped=now, how=how, deaths=0, **vars(counted))
    out.is_due(time.time() + delay)
    said = text.removeprefix("500 ")  # an error of its own code has no other number
    out.notes.append(claim.note(notes.PAUSED, said) if out.status == "paused" else claim.note(notes.FAILED, said, delay))


@dataclass
class _Counted:
    """How often an invocation's attempts have failed since the last progress, and since when; `failures` are those of the handler itself, by which
    its retries are over. A run has its own."""

    retries: int
    failing_since: float | None
    failures: int
    failed_since: float | None


async def _counted(db: Database, claim: Claim, growth: Growth, now: float) -> _Counted:
    """With the failure of this attempt."""
    counted = _Counted(0, None, 0, None)
    if not growth.has_progress:  # else what was stored before has reset them
        sql = "SELECT retries, failing_since, failures, failed_since FROM invocations WHERE id=?"
        rows = await db.rows(sql, (claim.invocation,))
        counted = _Counted(*rows[0])
    counted.retries += 1
    counted.failing_since = claim.begun if counted.failing_since is None else counted.failing_since
    if not claim.by_run:
        counted.failures += 1
        counted.failed_since = claim.begun if counted.failed_since is None else counted.failed_since
    return counted


async def _stored_output(db: Database, invocation: str) -> Result:
    """The Output that an earlier attempt stored."""
    stream = b"".join(bytes(row[0]) for row in await db.rows("SELECT frame FROM journal WHERE invocation=? ORDER BY at", (invocation,)))
    return next(it.result for it, _ in journal.commands_in(stream) if isinstance(it, journal.Output))


async def _end(db: Database, out: Outcome, claim: Claim, growth: Growth, result: Result, waiters: list[Any] | None = None) -> None:
    out.status, now = "done", db.now()
    failed, error = invocations.ending(result)
    await growth.write(db, status="done", ended=now, stopped=now, how="ended", result=result, failed=failed, error=error)
    out.ends.append(Ended(claim.service, claim.handler, "done" if failed is None else "failed", now - claim.created))
    if error is not None:
        out.notes.append(claim.note(notes.ENDED, error))
    await invocations.end(db, out, claim.invocation, claim.service, claim.key if claim.exclusive else "", result, waiters, is_own=True)


def arrivals(claim: Claim) -> Reads:
    """What `pull` needs to have read before. What came for another's attempt would seem to break a rule to this one. So it is read only if
    the lease isn't lost."""
    return lambda db: (inbox.peek(claim.invocation, claim.lease.epoch),)


async def pull(db: Database, claim: Claim, found: Sequence[list[Any]]) -> Outcome:
    """Moves what came for a running invocation, and was found, to its journal."""
    out, growth, turn = Outcome(), Growth(claim.lease), Turn()
    [rows] = found
    if rows:
        out.cancel = await invocations.arrive(db, growth, rows, claim.was_cancelled, turn, takes_cancel=not claim.is_shielded)
        await growth.write(db, **({"cancelled": db.now()} if out.cancel == invocations.TAKEN else {}))
    out.feed = growth.feed
    out.has_more = len(rows) == inbox.MOST
    return out


async def pause(db: Database, app: App, claim: Claim, why: str) -> Outcome:
    """The attempt stopped without an end: its invocation is paused, if it is still this worker's. What it wrote last isn't stored."""
    sql = "UPDATE invocations SET status='paused', stopped=?, how='paused', error=? WHERE id=? AND epoch=? AND status='running'"
    await db.change(sql, (db.now(), storable(why), claim.invocation, claim.lease.epoch))
    out = Outcome(status="paused", notes=[claim.note(notes.PAUSED, why)])
    _leave_room(db, app, out, claim)
    return out


async def release(db: Database, app: App, claim: Claim) -> Outcome:
    """The attempt stops because its worker does: another worker goes on at once. What it wrote last isn't stored."""
    sql = "UPDATE invocations SET status='ready', due=?, stopped=?, how='released' WHERE id=? AND epoch=? AND status='running'"
    now = db.now()
    await db.change(sql, (now, now, claim.invocation, claim.lease.epoch))
    out = Outcome(status="ready")
    _leave_room(db, app, out, claim)
    db.notify("ready")
    return out


async def held(db: Database, worker: str) -> list[tuple[str, int]]:
    """The invocations that a worker has, each with its epoch."""
    return [(id, epoch) for id, epoch in await db.rows("SELECT id, epoch FROM invocations WHERE status='running' AND worker=?", (worker,))]


async def take_back(db: Database, invocation: str, epoch: int) -> None:
    """An invocation whose attempt is gone is tried again, after a second. It counts as an attempt that was lost."""
    sql = "UPDATE invocations SET status='ready', due=?, stopped=?, how='lost', deaths=deaths+1 WHERE id=? AND epoch=? AND status='running'"
    now = db.now()
    await db.change(sql, (now + 1, now, invocation, epoch))
