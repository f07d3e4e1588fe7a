"""Workers with a fault: one that dies at a commit, one whose clock jumps, and ones with a mistake that the crash tests have to find."""

from __future__ import annotations

import asyncio
import itertools
import os
import random
import re
import signal
import time
from collections.abc import Callable
from typing import Any

import crash_app
from palqytun import frames
from palqytun.effects import Change
from palqytun.runtime import App, appending, claiming, committer, effects, inbox, invocations, journal, lease, storing
from palqytun.runtime.database import Database
from palqytun.runtime.database.postgres import Postgres
from palqytun.runtime.database.sqlite import SQLite
from palqytun.runtime.engine import Engine, Unavailable
from palqytun.runtime.outcome import Outcome

DIED = 9  # the exit status of a worker that died as it was asked to
STUCK = 8  # and of one that has nothing to do any more, though invocations haven't ended
_PATIENCE = 2.0  # seconds of that
_SOON = 2000.0  # seconds in which a timer is due that is waited for; sleeps that only a signal ends are longer


class Dying(SQLite):
    """Dies in place of a commit."""

    dies = 0
    commits = 0

    async def commit(self) -> None:
        self.commits += 1
        if self.commits == self.dies:
            os._exit(DIED)
        await super().commit()


async def dying_on_a_server(url: str, dies: int) -> Database:
    """The same on PostgreSQL, by one connection. A group of steps, which is one statement, is a commit too."""
    db, commits = await Postgres.connected(url, worker=True), itertools.count(1)

    def before(call: Callable[..., Any]) -> Callable[..., Any]:
        async def counted(*arguments: object) -> Any:
            if next(commits) == dies:
                os._exit(DIED)
            return await call(*arguments)

        return counted

    async def another() -> None:
        return None

    together = before(appending.append)

    async def append(to: Database, appends: list[appending.Append]) -> list[bool]:
        return await (together if not db._queue else appending.append)(to, appends)  # within a transaction its commit counts

    db.commit, db.another = before(db.commit), another  # type: ignore[method-assign, assignment]
    if committer.append is appending.append:
        committer.append = append  # type: ignore[assignment]
    return db


def until_all_ended(
    path: str,
    file: str,
    *,
    dies: int = 0,
    dies_between: int = 0,
    seed: int = 0,
    idle: float = 0.0,
    is_grouped: bool = False,
    jumps: bool = False,
    is_checkpointed: bool = False,
    wrong: str = "",
    version: str = "",
    app: App = crash_app.app,
    serves_all: bool = False,
) -> None:
    """Runs a worker until each invocation has ended, or it dies at commit number `dies`; or when a wrong runtime has committed a first part,
    the `dies_between`th time. What waits for a worker that serves it is waited for if this one `serves_all`. It is the whole of a process."""
    global _left
    random.seed(seed)
    _left = dies_between
    crash_app.Outside.file, crash_app.Outside.delay = file, 0.002
    if jumps:
        time.time = jumping(seed)
    if wrong:
        WRONG[wrong]()

    async def connect(url: str) -> Database:
        if "://" in url:
            return await dying_on_a_server(url, dies)
        db = Dying(url, synchronous="FULL" if is_checkpointed else "OFF", worker=True)
        db.dies = dies
        if not is_checkpointed:
            await db.change("PRAGMA wal_autocheckpoint=0")
        return db

    async def run() -> None:
        lease = 1.5 if "://" in path else 10.0  # who died on a server is thought alive for so long
        engine = Engine(app, path, grouped=is_grouped, idle=idle, poll=0.1, lease=lease, connect=connect, version=version)
        task = asyncio.create_task(engine.run())
        await engine.is_open()
        last, looks = time.monotonic(), 0
        while not task.done() and await _count(engine, f"{_UNFINISHED} OR how='unserved'" if serves_all else _UNFINISHED):
            if any(it.claim.service != "Ticks" for it in engine.live.values()) or await _count(engine, _TO_DO, time.time() + _SOON):
                last, looks = time.monotonic(), 0
            elif (looks := looks + 1) > 40 and time.monotonic() - last > _PATIENCE:  # also if the host was busy with other things
                os._exit(STUCK)
            await asyncio.sleep(0.02)
        engine.stop()
        await task

    asyncio.run(run())


_UNFINISHED = "SELECT COUNT(*) FROM invocations WHERE status NOT IN ('done','paused') AND service<>'Ticks'"
_TO_DO = (
    "SELECT (SELECT COUNT(*) FROM timers WHERE due<?) + (SELECT COUNT(*) FROM inbox JOIN invocations ON id=invocation WHERE fresh=1 AND status<>'paused')"
    " + (SELECT COUNT(*) FROM invocations WHERE service<>'Ticks' AND (status='running' OR (status='ready' AND exclusive=0)"
    " OR (status='ready' AND NOT EXISTS (SELECT 1 FROM locks WHERE locks.service=invocations.service AND locks.key=invocations.key))))"
)


async def _count(engine: Engine, sql: str, *values: float) -> int:
    """What a query counts; 1 while the database is lost."""
    try:
        found: int = (await engine.transact(lambda db: db.rows(sql, values)))[0][0]
        return found
    except Unavailable:
        return 1


def jumping(seed: int) -> Callable[[], float]:
    """A clock that jumps by up to half an hour, forward and back, many times a second."""
    chance, real = random.Random(seed), time.time
    offset, until = 0.0, 0.0

    def now() -> float:
        nonlocal offset, until
        if time.monotonic() > until:
            offset = chance.choice([chance.uniform(-900, 900), 901.0])
            until = time.monotonic() + chance.uniform(0.01, 0.1)
        return real() + offset

    return now


# ---- wrong runtimes


_left = 0  # times until the worker dies between two parts


async def _between(db: Database) -> None:
    """What was done so far is committed, and the rest isn't yet."""
    global _left
    await db.commit()
    _left -= 1
    if _left == 0:
        os._exit(DIED)
    await db.begin()


def completions_first() -> None:
    """A completion is stored before the command that it completes."""
    write = lease.Growth.write

    async def wrong(self: lease.Growth, db: Database, **changed: object) -> None:
        places = [it.at for it in self.entries]
        swapped = sorted(self.entries, key=lambda it: it.completes is None)
        self.entries = [lease.Entry(at, it.completes, it.frame) for at, it in zip(places, swapped)]
        await write(self, db, **changed)

    def swapped_too(self: appending.Append, now: float) -> object:
        places, swapped = [it.at for it in self.growth.entries], sorted(self.growth.entries, key=lambda it: it.completes is None)
        return ((self.growth.lease.invocation, at, it.completes, it.frame, now) for at, it in zip(places, swapped))

    lease.Growth.write = wrong  # type: ignore[method-assign]
    appending.Append.entries = swapped_too  # type: ignore[method-assign, assignment]


def timers_first() -> None:
    """A timer is deleted in an earlier transaction than that of its delivery."""

    async def wrong(self: claiming.Claimer, db: Database, out: Outcome, due: list[tuple[int, str, int]]) -> None:
        if due:
            db.many("DELETE FROM timers WHERE seq=?", [(seq,) for seq, _, _ in due])
            await _between(db)
        for _, invocation, completes in due:
            inbox.complete(db, out, invocation, completes, journal.void())

    claiming.Claimer._fire = wrong  # type: ignore[method-assign]


def ends_first() -> None:
    """An invocation's end is committed before those that wait for it get its result."""
    end = invocations.end

    async def wrong(db: Database, *arguments: object) -> None:
        await _between(db)
        await end(db, *arguments)  # type: ignore[arg-type]

    invocations.end = wrong  # type: ignore[assignment]


def states_first() -> None:
    """A change of the state is committed before its command."""
    change = effects.Performer._change

    async def wrong(self: effects.Performer, it: Change) -> None:
        await change(self, it)
        await _between(self.db)

    effects._PERFORMED[Change] = wrong


def late(before: Callable[[], None] = lambda: None) -> None:
    """The worker stops itself before it stores the first result of a workflow, when it has no transaction. Once it goes on it calls `before`, makes
    this store, and dies. Without `before` the runtime is right."""
    commit, is_first = committer.Committer._commit, True

    async def stopping(self: committer.Committer, db: Database, group: list[committer._Queued]) -> None:
        nonlocal is_first
        if not (is_first and any(map(_is_result, group))):
            return await commit(self, db, group)
        is_first = False
        while len(self._working) > 1:  # transactions of other groups
            await asyncio.sleep(0.001)
        os.kill(os.getpid(), signal.SIGSTOP)
        before()
        await commit(self, db, group)
        os._exit(DIED)

    committer.Committer._commit = stopping  # type: ignore[method-assign]


def _is_result(queued: committer._Queued) -> bool:
    it = queued.operation
    return isinstance(it, appending.Append) and _is_of_a_workflow(it.growth)


def _is_of_a_workflow(growth: lease.Growth) -> bool:
    return re.fullmatch(r"inv_\d{6}", growth.lease.invocation) is not None


def unfenced() -> None:
    """A late store doesn't ask whether the lease is still this worker's."""
    late(_without_fences)


def _without_fences() -> None:
    """From now on no store of a workflow asks for its lease."""
    right, write_right = committer.append, lease.Growth.write

    async def write(self: lease.Growth, db: Database, **changed: object) -> None:
        if not _is_of_a_workflow(self):
            return await write_right(self, db, **changed)
        names = "".join(f", {name}=?" for name in changed)
        values = (self.lease.journal.entries, *changed.values(), self.lease.invocation)
        await db.change(f"UPDATE invocations SET entries=?{names} WHERE id=?", values)
        rows = [(self.lease.invocation, it.at, it.completes, it.frame) for it in self.entries]
        sql = "INSERT INTO journal(invocation, at, completes, frame) VALUES (?,?,?,?) ON CONFLICT DO NOTHING"
        db.many(sql, rows)

    async def append(db: Database, appends: list[appending.Append]) -> list[bool]:
        stored = list[bool]()
        for it in appends:
            if _is_of_a_workflow(it.growth):
                progress = {"retries": 0, "failing_since": None} if it.growth.has_progress else {}
                await write(it.growth, db, **progress)
                stored.append(True)
            else:
                stored += await right(db, [it])
        return stored

    lease.Growth.write = write  # type: ignore[method-assign]
    committer.append = append  # type: ignore[assignment]
    # A group that has other operations too makes its stores by `append` then, and not by the fenced statement that a server is sent with all else.
    committer.Committer._together = staticmethod(committer.Committer._in_turn)  # type: ignore[method-assign]


def calls_first() -> None:
    """What a call makes is committed before the command that has made it."""
    create = invocations.create

    async def wrong(db: Database, app: App, out: Outcome, new: invocations.New) -> tuple[str, bool]:
        made = await create(db, app, out, new)
        await _between(db)
        return made

    invocations.create = wrong


def early_timers() -> None:
    """Timers fire before they are due: also those of sleeps that only a signal ends, so that a host that is slow doesn't hide it."""
    due = claiming.Claimer._due
    claiming.Claimer._due = staticmethod(lambda db, now: due(db, now + 1e6))  # type: ignore[method-assign, assignment]


def keys_twice() -> None:
    """A key has several holders at once."""

    async def wrong(db: Database, rows: list[invocations.Claimable]) -> list[invocations.Claimable]:
        return rows

    ready = claiming.Claimer._ready

    def asked(db: Database, *words: Any) -> Any:
        sql, values = ready(db, *words)
        return sql.replace("(exclusive=0 OR", "(1=1 OR"), values

    invocations._with_keys = wrong
    claiming.Claimer._ready = staticmethod(asked)  # type: ignore[method-assign, assignment]


def lost_wake_ups() -> None:
    """Now and then what wakes an invocation is looked at, and forgotten."""
    wakes = inbox.wakes

    def wrong(db: Database, rows: list[tuple[int, bytes]], suspension: bytes) -> bool:
        return wakes(db, rows, suspension if random.random() < 0.8 else NEVER)

    inbox.wakes = wrong  # type: ignore[assignment]


NEVER = frames.frame_of("Suspension future=(kind=FirstCompleted completions=[4294967295])")
_KINDS = (completions_first, timers_first, ends_first, states_first, unfenced, calls_first, early_timers, keys_twice, lost_wake_ups)
WRONG = {it.__name__: it for it in _KINDS}
FAULTS = {**WRONG, "late": late}
assert storing.invocations is invocations  # `ends_first` reaches it by this name
