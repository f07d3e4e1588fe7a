"""Restarts: a new invocation whose journal is the beginning of that of one which has ended.

From the start that is its Input alone. From a step it is all that stands before that step, and then what came later for the commands before it: so
what was done before the step isn't done again. Whatever these commands still wait for is asked for anew.
"""

from __future__ import annotations

import secrets
import time
from typing import Any

from palqytun.effects import Attach, Promise, Wait

from . import announced, attributes, audit, invocations, journal
from .database import Database
from .effects import Performer
from .invocations import Claimable
from .journal import Begin, Call, Change, Command, Journal, Notification
from .lease import INSERTED, Growth, Lease
from .outcome import Outcome
from .replay import Stored, replayed
from .services import App, TerminalError
from .traces import Trace

_COPIED = ("service", "handler", "key", "exclusive", "version", "seed", "idem", "trace", "queue", "queue_key", "priority")


async def restart(db: Database, app: App | None, out: Outcome, id: str, who: str, step: int = 0) -> str:
    """Makes an invocation again, from its start or from the command with the number `step` of its journal; returns the new one's id. It takes the
    idempotency key over, and the key of a workflow's `main`.

    Raises a `TerminalError`, and stores nothing: 404 if there is no such invocation, 400 if no command has this number, and 409 if it hasn't ended,
    if a command before the step has changed the state, or if the app's handler doesn't make the commands before it any more."""
    rows = await db.rows(f"SELECT status, continued, {', '.join(_COPIED)} FROM invocations WHERE id=?{db.lock}", (id,))
    if not rows:
        raise TerminalError(f"there is no invocation {id[:200]}", 404)
    if rows[0][0] != "done":
        raise TerminalError(f"{id} hasn't ended: kill it before", 409)
    if rows[0][1] is not None:
        raise TerminalError(f"{id} goes on as {rows[0][1]}: restart that one, or the last one", 409)
    own = dict(zip(_COPIED, rows[0][2:]))
    frames = [bytes(frame) for frame, in await db.rows("SELECT frame FROM journal WHERE invocation=? ORDER BY at", (id,))]
    it = _Restart(db, f"inv_{secrets.token_hex(12)}", own, frames)
    it.begin(step)
    if step and app is not None:
        it.check(app)
    if app is not None:
        await it.wait(app, out)
    elif it.open:
        raise TerminalError("what waits before this step is asked for anew by a worker: ask its ingress, or name the app", 409)
    if own["idem"] is not None:
        await db.change("UPDATE invocations SET idem=NULL WHERE id=?", (id,))
    await it.store(app, out, id)
    audit.record(db, who, "restart", invocation=id, detail=f"as {it.id}" + (f" from step {step}" if step else ""))
    return it.id


class _Restart:
    """A new invocation over a part of another one's journal."""

    def __init__(self, db: Database, id: str, own: dict[str, Any], frames: list[bytes]):
        self.db, self.id, self.own, self._all = db, id, own, frames
        self._journal = Journal(own["version"])
        self.entries: list[tuple[int | None, bytes]] = []  # of each, which completion id it completes
        self.open: dict[int, tuple[Command, bytes]] = {}  # by completion ids: commands whose completions are missing, with their frames
        self._called: dict[int, str] = {}  # by completion ids of calls: the invocation that was made

    def begin(self, step: int) -> None:
        """Takes what is before the step, and what came later for it."""
        commands = {at: it for at, frame in enumerate(self._all) for it, _ in journal.commands_in(frame)}
        if step and step not in commands:
            raise TerminalError(f"the journal has no command with the number {step}: they are {', '.join(map(str, commands))}", 400)
        for at, frame in enumerate(self._all):
            if at < max(1, step):
                self._take(frame, commands.get(at))
            else:
                [it] = journal.messages_in(frame)
                if isinstance(it, Notification) and it.id[0] == 0 and it.id[1] in self.open:
                    self._take(frame, None)
        self._journal.keep()

    def _take(self, frame: bytes, command: Command | None) -> None:
        if isinstance(command, Change):
            raise TerminalError("a command before this step has changed the state, which others have changed since: restart it from the start", 409)
        self._journal.entry(frame)
        if command is not None:
            self.entries.append((None, frame))
            self.open.update(dict.fromkeys(command.carried(), (command, frame)))
            return
        [it] = journal.messages_in(frame)
        completes = int(it.id[1]) if isinstance(it, Notification) and it.id[0] == 0 else None
        self.entries.append((completes, frame))
        if isinstance(it, Notification) and completes is not None:
            carrier, _ = self.open.pop(completes, (None, b""))
            kind, said = journal.answer(it.result)
            if isinstance(carrier, Call) and carrier.id is not None and kind == "invocation":
                self._called[carrier.id] = said

    def check(self, app: App) -> None:
        """Whether the app's handler still makes these commands."""
        row = Claimable(
            id=self.id, epoch=0, entries=len(self.entries), retries=0, failing_since=None, status="ready", worker=None, deaths=0, cancelled=None, shielded=0, created=0, due=0, code=None,
            **{name: it for name, it in self.own.items() if name in Claimable.__dataclass_fields__},
        )  # fmt: skip
        copy = Journal(self.own["version"])
        for _, frame in self.entries:
            copy.entry(frame)
        copy.keep()
        begin = Begin(self.id, self.own["key"], self.own["seed"], idempotency_key=self.own["idem"] or None)
        found = replayed(app, Stored(row, copy.start(begin)))
        if found.error is not None:
            raise TerminalError(f"the handler doesn't make the commands before this step any more ({found.error}): restart it from the start", 409)

    async def wait(self, app: App, out: Outcome) -> None:
        """Asks anew for what the commands before the step wait for. A run is executed by the attempt."""
        growth = Growth(Lease(self.id, 0, self._journal))
        performer = Performer(self.db, app, out, growth, self.own["service"], self.own["key"], Trace.of(self.id, self.own["trace"]))
        for id, (it, frame) in list(self.open.items()):
            if isinstance(it, Call) and id == it.id and id in self._called:
                await invocations.attach(self.db, growth, self._called[id], id)
                continue
            effect = journal.effect_of(frame)
            if isinstance(effect, (Wait, Promise, Attach)):
                await performer.perform([effect])
        self.entries += [(it.completes, it.frame) for it in growth.entries]
        self._journal.keep()

    async def store(self, app: App | None, out: Outcome, origin: str) -> None:
        """Writes the new invocation, which is ready. Its limits of time begin now."""
        now = self.db.now()
        deadline, expires = await announced.until(self.db, app, self.own["service"], self.own["handler"], now)
        times = {"due": now, "created": now, "deadline": deadline, "expires": expires}
        rest = {"id": self.id, "origin": origin, "status": "ready", "entries": len(self.entries), **times}
        row = {**self.own, **rest}
        sql = f"INSERT INTO invocations({', '.join(row)}) VALUES ({','.join('?' * len(row))})"
        await self.db.change(sql, tuple(row.values()))
        self.db.many(INSERTED, [(self.id, at, completes, frame, now) for at, (completes, frame) in enumerate(self.entries)])
        attributes.put(self.db, self.id, journal.attributes_in(frame for _, frame in self.entries))
        out.is_due(time.time())
        self.db.notify("ready")
