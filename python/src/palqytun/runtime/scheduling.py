"""What operators do with schedules: pause, resume, trigger, backfill. Each is a transaction with a row in the audit. It asks for no app: the row of
a schedule has what its calls need.

Each returns in words what it did, or raises a `TerminalError`, and then nothing is stored.
"""

from __future__ import annotations

import datetime
from collections.abc import Awaitable, Callable

from . import audit
from .cron import times_of
from .database import Database
from .invocations import create
from .outcome import Outcome
from .schedules import Stored, call, stored
from .services import App, TerminalError
from .shown import moment_of

MOST = 1000  # calls that one backfill may make


async def _kept(db: Database, name: str) -> Stored:
    """The row of a schedule, which is kept until the commit."""
    found = await stored(db, f"name=?{db.lock}", name)
    if not found:
        raise TerminalError(f"there is no schedule {name[:200]}", 404)
    return found[0]


async def pause(db: Database, app: App | None, out: Outcome, name: str, who: str) -> str:
    """The schedule makes no calls by itself until it is resumed. Calls that it has made go on."""
    if (await _kept(db, name)).paused:
        return "is paused"
    await db.change("UPDATE schedules SET paused=1, queued=NULL WHERE name=?", (name,))
    audit.record(db, who, "pause schedule", name=name)
    return "paused"


async def resume(db: Database, app: App | None, out: Outcome, name: str, who: str) -> str:
    """The schedule makes calls again, from its next time on. The times that have passed make none."""
    it = await _kept(db, name)
    if not it.paused:
        raise TerminalError(f"the schedule {name} isn't paused", 409)
    await db.change("UPDATE schedules SET paused=0, due=? WHERE name=?", (times_of(it.rule).after(db.now()), name))
    audit.record(db, who, "resume schedule", name=name)
    db.notify("ready")
    return "resumed"


async def trigger(db: Database, app: App | None, out: Outcome, name: str, who: str) -> str:
    """Makes a call now, whatever is open, also of a schedule that is paused. Its time is the present one."""
    it, now = await _kept(db, name), db.now()
    id, _ = await _made(db, app, out, it, now)
    await db.change("UPDATE schedules SET called=?, last=? WHERE name=?", (id, now, name))
    audit.record(db, who, "trigger schedule", name=name, invocation=id)
    return f"made {id}"


async def backfill(db: Database, app: App | None, out: Outcome, name: str, who: str, since: float, until: float | None = None) -> str:
    """Makes the calls of the times from `since` on, in seconds since the epoch, and before `until`, which is now without it. A time whose call is there
    makes none. They run side by side, whatever the schedule's overlap says."""
    it, now = await _kept(db, name), db.now()
    end, times = now if until is None else until, times_of(it.rule)
    if not since < end <= now:
        raise TerminalError("a backfill is of times that have passed: `since` is before `until`, and `until` isn't later than now", 400)
    asked, at = list[float](), times.after(since - 1e-6)
    while at < end:
        if len(asked) == MOST:
            raise TerminalError(f"there are more than {MOST} times between these, and one backfill makes {MOST} calls at most: take a part", 400)
        asked.append(at)
        at = times.after(at)
    made = sum([(await _made(db, app, out, it, at))[1] for at in asked])
    said = f"{made} calls are made" + (f", and {len(asked) - made} were there" if len(asked) > made else "")
    audit.record(db, who, "backfill schedule", name=name, detail=f"{said}, for {_shown(since)} to {_shown(end)}")
    return said


async def _made(db: Database, app: App | None, out: Outcome, it: Stored, at: float) -> tuple[str, bool]:
    """The call of a time, and whether it is new."""
    if it.argument is None:
        raise TerminalError(f"the argument of the schedule {it.name} isn't stored: a worker of this package has to begin before", 409)
    new = call(it.name, it.service, it.handler, it.key, bytes(it.argument), at)
    return await create(db, App() if app is None else app, out, new)


def _shown(at: float) -> str:
    return datetime.datetime.fromtimestamp(at, datetime.timezone.utc).isoformat(timespec="seconds")


Act = Callable[[Database, App | None, Outcome, str, str], Awaitable[str]]
ACTS: dict[str, Act] = {"pause": pause, "resume": resume, "trigger": trigger}


async def act(db: Database, app: App | None, out: Outcome, what: str, name: str, who: str, since: str = "", until: str = "") -> str:
    """Does an act by its name. `since` and `until` are those of a backfill, in the form of ISO 8601."""
    if what in ACTS:
        return await ACTS[what](db, app, out, name, who)
    if what != "backfill":
        raise TerminalError(f"there is no act {what[:40]} on schedules: it is {', '.join(ACTS)} or backfill", 404)
    if not since:
        raise TerminalError("a backfill needs `since`, its first time, as 2026-11-27T03:00", 400)
    return await backfill(db, app, out, name, who, moment_of("since", since), moment_of("until", until) if until else None)
