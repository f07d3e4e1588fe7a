"""What operators do to invocations, one or many: cancel, kill, pause, resume, restart. Each act is a transaction with a row in the audit.

An act returns in words what it did. If it can't be done it raises a `TerminalError`, and nothing is stored: 404 if there is no such invocation,
409 if its status isn't one for this.
"""

from __future__ import annotations

import time
from collections.abc import Awaitable, Callable
from dataclasses import dataclass, fields

from . import audit, chains, inbox, invocations, journal, restarting
from .database import Database
from .filters import Filter
from .journal import Result
from .lease import PROGRESS
from .meter import Ended
from .outcome import Outcome
from .refused import UNSERVED
from .services import App, TerminalError

AT_ONCE = 100  # invocations that one transaction acts on, at most


@dataclass(frozen=True)
class _Row:
    """What an act has to know of an invocation."""

    id: str
    service: str
    handler: str
    key: str
    exclusive: int
    status: str
    epoch: int
    entries: int
    due: float
    cancelled: float | None
    created: float
    how: str | None


_COLUMNS = ", ".join(it.name for it in fields(_Row))


async def _kept(db: Database, id: str) -> _Row:
    """The row of an invocation that hasn't ended, which is kept until the commit."""
    rows = await db.rows(f"SELECT {_COLUMNS} FROM invocations WHERE id=?{db.lock}", (id,))
    if not rows:
        raise TerminalError(f"there is no invocation {id[:200]}", 404)
    it = _Row(*rows[0])
    if it.status == "done":
        raise TerminalError(f"{id} has ended", 409)
    return it


# ---- cancel


async def cancel(db: Database, app: App | None, out: Outcome, id: str, who: str) -> str:
    """What the invocation awaits raises `Cancelled`, once. One that hasn't begun ends with code 409; one that is paused, or that waits for its next
    try, goes on with that."""
    it = await _kept(db, id)
    if it.cancelled is not None or await inbox.is_cancelled(db, id):
        return "was cancelled before"
    audit.record(db, who, "cancel", invocation=id)
    if await reached(db, out, it.id):
        return "cancelled, before it began"
    await inbox.deliver(db, out, id, journal.cancellation())
    return "cancelled"


async def reached(db: Database, out: Outcome, id: str) -> bool:
    """A cancellation reaches an invocation that has no attempt: what hasn't begun ends, which is what this returns. What is paused or waits
    for its next try is made due."""
    it = await _kept(db, id)
    if it.status not in ("ready", "paused"):
        return False
    if it.epoch == 0 and it.entries == 1:  # one that is restarted from a step has those of before, which its handler may undo
        await end(db, out, it.id, journal.failure(409, "cancelled"), "cancelled")
        return True
    fresh = PROGRESS if it.status == "paused" else {}
    names = "".join(f", {name}=?" for name in fresh)
    await db.change(f"UPDATE invocations SET status='ready', due=?{names} WHERE id=?", (min(it.due, db.now()), *fresh.values(), id))
    _goes_on(db, out)
    return False


def _goes_on(db: Database, out: Outcome) -> None:
    out.is_due(time.time())
    db.notify("ready")


async def end(db: Database, out: Outcome, id: str, result: Result, how: str) -> None:
    """Ends an invocation from outside. An attempt that it has is fenced from here on."""
    it = await _kept(db, id)
    now = db.now()
    failed, error = invocations.ending(result)
    sql = "UPDATE invocations SET status='done', ended=?, stopped=?, how=?, result=?, failed=?, error=? WHERE id=?"
    await db.change(sql, (now, now, how, result, failed, error, id))
    await invocations.end(db, out, id, it.service, it.key if it.exclusive else "", result)
    out.ends.append(Ended(it.service, it.handler, "done" if failed is None else "failed", now - it.created))
    if it.status == "running":
        _stops(db, out, id)
    _goes_on(db, out)


def _stops(db: Database, out: Outcome, id: str) -> None:
    """The attempt that runs isn't to go on."""
    out.stopped.add(id)
    db.notify(f"stopped {id}")


# ---- kill, pause, resume, restart


async def kill(db: Database, app: App | None, out: Outcome, id: str, who: str) -> str:
    """Ends the invocation now with code 409: nothing of its handler runs any more, its key is free, and those who wait for it get the failure. The
    calls whose results it waited for are cancelled."""
    await _kept(db, id)
    count = await end_with_calls(db, out, id, journal.failure(409, "killed"), "killed")
    detail = f"{count} calls are cancelled" if count else None
    audit.record(db, who, "kill", invocation=id, detail=detail)
    return "killed" if detail is None else f"killed; {detail}"


async def end_with_calls(db: Database, out: Outcome, id: str, result: Result, how: str) -> int:
    """Ends an invocation from outside, and cancels the calls whose results it waits for; returns how many."""
    sql = "SELECT waiters.invocation FROM waiters JOIN invocations ON invocations.id=waiters.invocation WHERE waiter=? AND parent=?"
    children = [child for child, in await db.rows(sql, (id, id))]
    for child in children:  # before its row of `waiters` goes, which it takes over if it goes on
        chains.keep(db, child)
    await end(db, out, id, result, how)
    for child in children:
        await chains.send(db, out, child, journal.cancellation())
    return len(children)


async def pause(db: Database, app: App | None, out: Outcome, id: str, who: str) -> str:
    """The invocation isn't tried any more until it is resumed. It keeps its key. A run that is executed may be executed again."""
    it = await _kept(db, id)
    if it.status == "paused":
        return "is paused"
    why = f"paused by {who}"
    await db.change("UPDATE invocations SET status='paused', stopped=?, how='paused', error=? WHERE id=?", (db.now(), why, id))
    if it.status == "running":
        _stops(db, out, id)
        _goes_on(db, out)  # a limit has room again
    audit.record(db, who, "pause", invocation=id)
    return "paused"


async def resume(db: Database, app: App | None, out: Outcome, id: str, who: str) -> str:
    """A paused invocation is tried again, as if it hadn't failed before. One that is to begin later still does."""
    it = await _kept(db, id)
    if it.status != "paused":
        raise TerminalError(f"{id} is {it.status}, and not paused", 409)
    if it.how == UNSERVED:
        raise TerminalError(f"{id} waits for a worker that serves {it.service}/{it.handler}, and goes on by itself once there is one", 409)
    fresh = ", ".join(f"{name}=?" for name in PROGRESS)
    due = it.due if it.epoch == 0 else min(it.due, db.now())
    await db.change(f"UPDATE invocations SET status='ready', error=NULL, due=?, {fresh} WHERE id=?", (due, *PROGRESS.values(), id))
    _goes_on(db, out)
    audit.record(db, who, "resume", invocation=id)
    return "resumed"


async def restart(db: Database, app: App | None, out: Outcome, id: str, who: str) -> str:
    """An invocation that has ended is made again from its start, as a new one."""
    return f"is made again as {await restarting.restart(db, app, out, id, who)}"


# ---- many


Act = Callable[[Database, App | None, Outcome, str, str], Awaitable[str]]


@dataclass(frozen=True)
class Known:
    """An act, and the condition on the rows to which it can be done."""

    act: Act
    where: str


ACTS = {
    "cancel": Known(cancel, "status<>'done'"),
    "kill": Known(kill, "status<>'done'"),
    "pause": Known(pause, "status NOT IN ('done', 'paused')"),
    "resume": Known(resume, "status='paused'"),
    "restart": Known(restart, "status='done' AND continued IS NULL"),
}


def known(name: str) -> Known:
    if name not in ACTS:
        raise TerminalError(f"there is no act {name[:40]}: it is {', '.join(ACTS)}", 404)
    return ACTS[name]


async def one(db: Database, app: App | None, out: Outcome, name: str, id: str, who: str) -> str:
    """Does an act to an invocation, or to the one that goes on in its place."""
    chains.keep(db, id)
    return await known(name).act(db, app, out, await invocations.newest(db, id), who)


async def found(db: Database, name: str, asked: Filter, most: int = AT_ONCE) -> list[tuple[int, str]]:
    """Invocations to which an act can be done, the newest first, each with its number and its id."""
    where, values = asked.where(db.now())
    sql = f"SELECT seq, id FROM invocations WHERE {where} AND {known(name).where} ORDER BY seq DESC LIMIT ?"
    return [(seq, id) for seq, id in await db.rows(sql, (*values, most))]


async def count(db: Database, name: str, asked: Filter) -> int:
    """To how many invocations an act can be done."""
    where, values = asked.where(db.now())
    [(many,)] = await db.rows(f"SELECT COUNT(*) FROM invocations WHERE {where} AND {known(name).where}", values)
    return int(many)


async def some(db: Database, app: App | None, out: Outcome, name: str, asked: Filter, who: str) -> tuple[dict[str, str], int | None]:
    """Does it to at most `AT_ONCE` of them, the newest first; returns what it did to each by its id, and the number before which the rest are."""
    rows, done = await found(db, name, asked), {}
    for _, id in rows:
        try:
            done[id] = await known(name).act(db, app, out, id, who)
        except TerminalError as error:  # it has another status by now
            done[id] = error.message
    return done, rows[-1][0] if len(rows) == AT_ONCE else None
