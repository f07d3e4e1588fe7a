"""Schedules: calls that are made by the clock. Each is a row, whose `due` one transaction moves on with the call that it makes.

So each time of a schedule makes one call at most, however many workers there are. The times that passed while no worker ran make one call together.
What comes of a time while the last call is open is the schedule's `overlap`. The clock is the database's. A row that is due later than its rule says,
since that clock was ahead, is put back. `scheduling` has what operators do with schedules.
"""

from __future__ import annotations

import datetime
import logging
from collections.abc import Collection
from dataclasses import dataclass, fields
from typing import Any, Literal, get_args

from . import audit, chains, journal
from .cron import Cron, Every
from .database import Database
from .invocations import New, create, newest
from .names import check_name
from .outcome import Outcome
from .services import App, Handler, TerminalError

log = logging.getLogger("palqytun")
_LATE = 60.0  # seconds after which a schedule that no other worker calls is taken over from another version of the app
_AGAIN = 1.0  # seconds until what is due, and another worker has or its last call keeps waiting, is looked at again
Overlap = Literal["allow", "skip", "queue", "cancel"]


class Schedule:
    """Calls a handler by the clock: each `every` seconds, or by a `cron` expression of five fields, in a time `zone` as `"Europe/Berlin"`. The
    name is one of its own in the database. The handler is called with `argument`, and with `key` if its service has keys. `ctx.scheduled` is the time
    for which the call is; `ctx.headers` has it as `scheduled-for`, in the form of ISO 8601, and the schedule's name as `schedule`.

    `overlap` says what comes of a time while the last call hasn't ended: `allow` makes its call beside that one; `skip` makes none; `queue` makes
    its call once that one has ended, and none for further times until then; `cancel` cancels that one, and makes its call."""

    def __init__(
        self,
        name: str,
        target: Handler[Any, Any],
        argument: Any = None,
        *,
        key: str = "",
        every: float | None = None,
        cron: str | None = None,
        zone: str = "UTC",
        overlap: Overlap = "allow",
    ):
        if (every is None) == (cron is None):
            raise ValueError(f"the schedule {name} has either `every` or `cron`")
        if every is not None and not 0 < every < 1e10:
            raise ValueError(f"the schedule {name} is due every {every} seconds, which is no time")
        if overlap not in get_args(Overlap):
            raise ValueError(f"the schedule {name} has the overlap {overlap!r}, and it is one of {', '.join(get_args(Overlap))}")
        if bool(key) != target.service.keyed:
            raise ValueError(f"{target.path} is called {'with' if target.service.keyed else 'without'} a key")
        if target.service.workflow and target.exclusive:
            raise ValueError(f"{target.path} runs once a key, so no schedule can call it again")
        for what, text in (("the name of the schedule", name), ("the key of the schedule", key)):
            try:
                check_name(what, text)
            except TerminalError as error:
                raise ValueError(error.message) from None
        self.name, self.target, self.argument, self.key, self.overlap = name, target, argument, key, overlap
        self.times: Cron | Every = Every(every) if every is not None else Cron.read(cron or "", zone)
        self.rule = f"every {every}" if every is not None else f"cron {cron}" if zone == "UTC" else f"cron {cron} {zone}"
        self._next = (0.0, 0.0)  # at each time from the first to the second, the second is the next

    @property
    def row(self) -> tuple[str, str, str]:
        """What is stored of it, by which its times go."""
        return self.target.service.name, self.target.name, self.rule

    def next(self, now: float) -> float:
        """The first time after `now`."""
        since, due = self._next
        if not since <= now < due:
            self._next = (now, self.times.after(now))
        return self._next[1]


@dataclass(frozen=True)
class Stored:
    """The row of a schedule. `last` is the time that made the last call, whose id is `called`; `queued` a time whose call waits for that one's end."""

    name: str
    service: str
    handler: str
    rule: str
    due: float
    last: float | None
    paused: int
    called: str | None
    overlap: str
    key: str
    argument: bytes | None
    queued: float | None

    @property
    def row(self) -> tuple[str, str, str]:
        return self.service, self.handler, self.rule


_COLUMNS = ", ".join(it.name for it in fields(Stored))


async def stored(db: Database, where: str = "1=1", *values: object) -> list[Stored]:
    """The rows of schedules."""
    return [Stored(*row) for row in await db.rows(f"SELECT {_COLUMNS} FROM schedules WHERE {where}", values)]


def call(name: str, service: str, handler: str, key: str, argument: bytes, at: float) -> New:
    """A schedule's call for a time. A second one for the same time is none."""
    time = datetime.datetime.fromtimestamp(at, datetime.timezone.utc).isoformat()
    return New(service, handler, key, argument, (("schedule", name), ("scheduled-for", time)), f"schedule {name} {at}", may_differ=True)


async def enter(db: Database, app: App, services: Collection[str]) -> None:
    """A worker begins: its app's schedules are those of these services."""
    now = db.now()
    found = {it.name: it for it in await stored(db)}
    for it in app.schedules.values():
        was, rest = found.get(it.name), (it.overlap, it.key, app.scheduled[it.name])
        if was is None or was.row != it.row:
            sql = (
                "INSERT INTO schedules(name, service, handler, rule, due, overlap, key, argument) VALUES (?,?,?,?,?,?,?,?) ON CONFLICT(name)"
                " DO UPDATE SET service=excluded.service, handler=excluded.handler, rule=excluded.rule, due=excluded.due,"
                " overlap=excluded.overlap, key=excluded.key, argument=excluded.argument"
            )
            await db.change(sql, (it.name, *it.row, it.next(now), *rest))
        elif (was.overlap, was.key, was.argument and bytes(was.argument)) != rest:
            await db.change("UPDATE schedules SET overlap=?, key=?, argument=? WHERE name=?", (*rest, it.name))
    for name, was in found.items():
        if was.service in services and name not in app.schedules:
            await db.change("DELETE FROM schedules WHERE name=?", (name,))


def _own(app: App, was: Stored, now: float) -> Schedule | None:
    """The app's schedule of this name, if it is this row's: of this version, or of another one whose workers don't call it any more."""
    it = app.schedules.get(was.name)
    return it if it is not None and (it.row == was.row or was.due <= now - _LATE) else None


async def fire(db: Database, app: App, out: Outcome, now: float) -> None:
    """Makes the calls that are due. `now` is the database's time."""
    if not app.schedules:
        return
    for was in await stored(db, f"(due<=? OR queued IS NOT NULL) AND paused=0{db.skip}", now):
        it = _own(app, was, now)
        if it is not None:  # else it is that of another app
            await _fire(db, app, out, it, was, now)


async def _fire(db: Database, app: App, out: Outcome, it: Schedule, was: Stored, now: float) -> None:
    """Makes the calls of a schedule that its overlap lets be made now."""
    times = [at for at in (was.queued, was.due if was.due <= now else None) if at is not None]
    opened = None if it.overlap == "allow" else await _open(db, was.called)
    waits = opened is not None and it.overlap != "cancel"
    made = [] if waits else times[:1] if it.overlap == "queue" else times
    left = times[len(made) :] if it.overlap == "queue" else []
    if opened is not None and made:
        await chains.send(db, out, opened, journal.cancellation())
        audit.record(db, f"the schedule {it.name}", "cancel", invocation=opened)
    last, called = was.last, was.called
    for at in made:
        try:
            called, _ = await create(db, app, out, call(it.name, *it.row[:2], it.key, app.scheduled[it.name], at))
            last = at
        except TerminalError as error:
            log.warning("the schedule %s can't call %s: %s", it.name, it.target.path, error)
    due, queued = it.next(now) if was.due <= now else was.due, left[0] if left else None
    if (due, queued) != (was.due, was.queued):
        sql = "UPDATE schedules SET service=?, handler=?, rule=?, due=?, last=?, called=?, queued=? WHERE name=?"
        await db.change(sql, (*it.row, due, last, called, queued, it.name))


async def _open(db: Database, called: str | None) -> str | None:
    """The last call, or the invocation that goes on in its place, if that hasn't ended."""
    id = None if called is None else await newest(db, called)
    return id if await db.rows("SELECT 1 FROM invocations WHERE id=? AND status<>'done'", (id,)) else None


async def next_due(db: Database, app: App, now: float) -> float | None:
    """When the next of the app's schedules is due, after `now`. What is due now isn't this worker's to call, so it is looked at again a little
    later."""
    if not app.schedules:
        return None
    found = []
    for was in await stored(db, "paused=0"):
        it = app.schedules.get(was.name)
        if it is None:
            continue
        if it.row != was.row:
            found.append(max(was.due + _LATE, now + _AGAIN))
            continue
        due = was.due
        if due > it.next(now):  # the clock was ahead when this was stored
            await db.change("UPDATE schedules SET due=? WHERE name=? AND due=?", (it.next(now), was.name, due))
            due = it.next(now)
        found.append(due if due > now and was.queued is None else now + _AGAIN)
    return min(found, default=None)
