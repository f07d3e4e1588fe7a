"""The worker: it takes leases, makes attempts, and commits what they write. It goes on when its database is lost and comes back."""

from __future__ import annotations

import asyncio
import contextlib
import functools
import logging
import math
import random
import secrets
import time
from collections.abc import Awaitable, Callable, Iterator, Sequence
from typing import Any, TypeVar

from . import logs, operate, storing
from .adopting import Adopting
from .attempt import Attempt
from .claiming import Claimer, Claims
from .client import Client
from .committer import After, Committer, Stopped
from .database import Beats, Database, Lost, StatementFailed, connect
from .desk import Desk, Unavailable as Unavailable
from .executions import Executions
from .invocations import Claim
from .lease import Fenced, Growth
from .meter import Meter, NoMeter
from .outcome import Outcome, Taker
from .services import App
from .texts import said
from .watchdog import Watchdog

T = TypeVar("T")
log = logging.getLogger("palqytun")
_SHORTEST, _LONGEST = 0.1, 5.0  # seconds between connections
_CLAIMS = 200  # at most in one transaction, so that other workers get some too
_MOMENTS = 0.002, 0.05  # seconds, the shortest and the longest; others may make something ready many times in it
_LAST = 5.0  # seconds that each part of a shutdown may take, beside the grace


_LEAST = {"lease": 0.1, "effects": 1, "threads": 1}  # of an option of a worker; else 0


def _check(**options: float | None) -> None:
    """`ValueError` for an option of a worker that has no meaning."""
    for name, it in options.items():
        least = _LEAST.get(name, 0)
        if it is not None and (isinstance(it, bool) or not isinstance(it, (int, float)) or not least <= it < math.inf):
            raise ValueError(f"{name} is a number from {least} on, and not {it!r}")


class Engine(Desk):
    """A worker of an app.

    `limit`: attempts at once. These are times in seconds: `idle`, after which an attempt that waits is suspended; `lease`, after which a worker
    without a beat is thought dead; `poll`, after which the database is looked at again if nothing is known to be due; `keep`, after which an
    invocation that has ended is purged, never by default; `grace`, in which runs that are executed may end after `stop`; and `stuck`, after
    which the process ends if the loop doesn't reply, never by default. `effects`: runs of `async` functions that are executed at once, and
    `threads`: of plain ones. `version`: of the app's code; without it, a hash of the files that define its handlers. An invocation that this
    worker begins goes on by workers of this version.
    """

    def __init__(
        self,
        app: App,
        url: str,
        *,
        name: str = "worker",
        limit: int = 500,
        idle: float = 1.0,
        lease: float = 10.0,
        poll: float = 1.0,
        keep: float | None = None,
        effects: int = 1000,
        threads: int = 64,
        grace: float = 10.0,
        stuck: float | None = None,
        version: str = "",
        grouped: bool = True,
        connect: Callable[[str], Awaitable[Database]] = lambda url: connect(url, worker=True),
    ):
        super().__init__(app, url)
        _check(limit=limit, idle=idle, lease=lease, poll=poll, keep=keep, effects=effects, threads=threads, grace=grace, stuck=stuck)
        self.name, self.limit, self.idle, self.lease, self.poll, self.keep, self.grouped = name, limit, idle, lease, poll, keep, grouped
        self.grace, self.stuck, self.executions = grace, stuck, Executions(effects, threads)
        self._connect, self.version = connect, version or app.version
        self.live: dict[str, Attempt] = {}
        self.meter: Meter = NoMeter()
        self.counts = {"attempts": 0, "sessions": 0, "fenced": 0}
        self._poke = asyncio.Event()
        self._look_at = 0.0  # by the monotonic clock
        self._is_told, self._moment = False, 0.0  # others have told since the last look; and how long after that the next one is
        self._tasks: set[asyncio.Task[None]] = set()
        self._running: asyncio.Task[None] | None = None
        self._is_open = asyncio.Event()
        self._stop = asyncio.Event()
        self._has_more = False
        self._claimer: Claimer | None = None
        self._kept = 0  # attempts for which there is room, and which transactions may begin that are made now
        self._beats: Beats | None = None
        self.soon = _SHORTEST  # seconds until a lost database is connected to again
        self._former = ""

    # ---- transactions

    async def write(self, operation: storing.Writes, claim: Claim, reads: storing.Reads | None = None) -> Outcome:
        """Commits a transaction on a claim's journal, and notifies those whom it touches."""
        assert self._committer is not None
        if reads is None:
            waits = self._committer.db.is_shared and claim.continues is not None  # for those who send to it
            out = await self._committer.submit(lambda db: operation(db, ()), is_slow=waits, then=self._took)
        else:
            out = await self._committer.follow(After(reads, operation))
        claim.lease.journal.keep()
        self.tell(out)
        return out

    async def append(self, growth: Growth) -> None:
        """Commits what an attempt appends to its own journal, where nobody else is touched."""
        assert self._committer is not None
        if growth.entries and not await self._committer.append(growth):
            raise growth.lease.lost(growth.before)
        growth.lease.journal.keep()

    async def alone(self, operation: Callable[[Database], Awaitable[T]]) -> T:
        """Commits an operation in a transaction of its own, which others don't wait for."""
        assert self._committer is not None
        return await self._committer.submit(operation, is_slow=True)

    async def beside(self, operation: Callable[[Database], Awaitable[T]]) -> T:
        """Commits an operation that isn't part of an attempt's journal, with others."""
        if self._committer is None:
            raise Stopped("the database is lost")
        return await self._committer.submit(operation)

    def now(self) -> float:
        """The database's time, in seconds since the epoch."""
        return time.time() if self._committer is None else self._committer.db.now()

    def tell(self, out: Outcome) -> None:
        """Those whom a transaction touches are notified, and the log says what happened to its invocations."""
        for note in out.notes:
            note.log()
            self.meter.failed(note.handler, note.event)
        for end in out.ends:
            self.meter.ended(end)
        for late in out.lags:
            self.meter.fired(late)
        for invocation in out.touched:
            self._touch(invocation)
        if out.due is not None:
            self._wake(out.due - time.time())
        for invocation in out.stopped:
            self._stopped(invocation)
        for invocation, result in out.ended.items():
            self._ended(invocation, result)

    def _touch(self, invocation: str) -> None:
        attempt = self.live.get(invocation)
        if attempt is not None:
            attempt.bell.poke()
        else:
            self._wake(0)

    def look(self) -> None:
        """The database is looked at now."""
        self._wake(0)

    def _wake(self, delay: float) -> None:
        """The database is looked at after this delay, if not before. Delays are short and by the monotonic clock, as the other may jump."""
        at = time.monotonic() + delay
        if at < self._look_at:
            self._look_at = at
            self._poke.set()

    def _stopped(self, invocation: str) -> None:
        """It was killed or paused: its attempt ends here, with the runs that it executes."""
        attempt = self.live.get(invocation)
        if attempt is not None and attempt.task is not None:
            attempt.task.cancel()

    def _heard(self, word: str) -> None:
        """Another worker sends a word: `ready`, or `to`, `stopped` or `ended` with some invocations. Who made something ready looks for it too. So
        this worker looks at once only if it found something after the last such word, and else after a growing moment. One without room passes the word
        on, and looks once it has some."""
        what, *some = word.split(" ")
        if what == "ready":
            self._is_ready("".join(some))
            return
        tells: dict[str, Callable[[str], None]] = {"ended": self._ended, "stopped": self._stopped, "to": self._touch}
        for invocation in some:
            tells[what](invocation)

    def _is_ready(self, first: str) -> None:
        """Something can be claimed, as all were told, or this worker by one without room; the first of these is named."""
        if len(self.live) < self.limit:
            self._is_told = True
            self._wake(self._moment)
            return
        self._has_more = True
        self._make_room()
        if first and self._committer is not None:
            passed = self._committer.submit(functools.partial(_passed_on, first=first))
            passed.add_done_callback(lambda it: it.cancelled() or it.exception())  # a word may be lost

    @property
    def connections(self) -> int:
        """How many connections for transactions the worker has."""
        return 0 if self._committer is None else self._committer.connections

    @property
    def lease_age(self) -> float:
        """How many seconds ago the worker's lease was kept; 0 if no other worker could take it."""
        return 0.0 if self._beats is None else time.monotonic() - self._beats.last

    # ---- sessions

    async def run(self) -> None:
        """Until `stop`. A lost database is connected to again: at once after a session that could use it, else after a growing time."""
        delay, watchdog = _SHORTEST, Watchdog(asyncio.get_running_loop(), stuck=self.stuck)
        try:
            while not self.drains:
                sessions = self.counts["sessions"]
                try:
                    await self._session()
                except Lost as error:
                    log.warning("the database is lost: %s", error)
                    delay = self.soon if self.counts["sessions"] > sessions else min(_LONGEST, delay * 2)
                    await self._pause(delay)
        finally:
            watchdog.end()
            self.executions.end()

    async def _pause(self, seconds: float) -> None:
        with contextlib.suppress(asyncio.TimeoutError):
            await asyncio.wait_for(self._stop.wait(), seconds * (0.5 + random.random()))

    async def _connected(self) -> Database | None:
        """A connection; none if `stop` comes first."""
        connecting, stop = asyncio.ensure_future(self._connect(self.url)), asyncio.ensure_future(self._stop.wait())
        try:
            await asyncio.wait([connecting, stop], return_when=asyncio.FIRST_COMPLETED)
            return await connecting if connecting.done() else None
        finally:
            connecting.cancel()
            stop.cancel()

    async def _session(self) -> None:
        """As long as the database can be used. Each session is a worker of its own, so what an earlier one left is claimed like any other's."""
        db = await self._connected()
        if db is None:
            return
        committer = self._committer = Committer(db, grouped=self.grouped)
        committer.meter = self.meter
        claimer = Claimer(f"{self.name}-{secrets.token_hex(6)}", self.app, self.lease, self._former, self.version)
        self._former, self._claimer = claimer.worker, claimer
        unlisten: Callable[[], None] | None = None
        others = (self._purges(committer), self._sweeps(committer, claimer), self._adopts(committer, claimer))
        beside = [asyncio.create_task(it) for it in others]
        beats = self._beats = db.beats(claimer.worker, self.lease, lambda: True)
        try:
            await self._unless_late(committer.submit(claimer.enter))
            if beats is not None:
                beats.start()
            unlisten = await self._unless_late(db.listen(claimer.worker, self._heard))
            self.counts["sessions"] += 1
            self._is_open.set()
            await self._loop(committer, claimer)
            db.claims(None)
            await self._drain()
        except Stopped as error:
            raise Lost(str(error)) from error
        finally:
            self._is_open.clear()
            if unlisten is not None:
                unlisten()
            await self._end_attempts(committer)
            for task in beside:
                task.cancel()
            if beats is not None:
                beats.stop()
            if committer.lost is None:
                await _within("to leave", committer.submit(claimer.leave))
            self._committer = None
            await _within("to close the connection", committer.close())
            await asyncio.wait(beside, timeout=_LAST)

    async def _unless_late(self, awaited: Awaitable[T]) -> T | None:
        """What it gives; none if `stop` is asked, and it takes longer than a part of a shutdown may: the database may not reply."""
        made, late = asyncio.ensure_future(awaited), asyncio.ensure_future(self._late())
        try:
            await asyncio.wait([made, late], return_when=asyncio.FIRST_COMPLETED)
            return await made if made.done() else None
        finally:
            made.cancel()
            late.cancel()

    async def _late(self) -> None:
        await self._stop.wait()
        await asyncio.sleep(_LAST)

    async def _drain(self) -> None:
        """The worker stops: runs that are executed may end within the grace, and their results are stored. Nothing else begins, and what waits
        is suspended."""
        self.executions.close()
        for attempt in self.live.values():
            attempt.bell.ring()
        if self._tasks:
            await asyncio.wait(self._tasks, timeout=self.grace)

    async def _end_attempts(self, committer: Committer) -> None:
        """Ends what the grace wasn't enough for, or what lost its database. If that is there, others may go on at once."""
        self._claimer = None
        left = [it.claim for it in self.live.values()]
        tasks = list(self._tasks)
        for task in tasks:
            task.cancel()
        if tasks:
            await asyncio.wait(tasks, timeout=_LAST)
        if left and committer.lost is None:
            log.warning("%d attempts are given back before they ended, as %s", len(left), left[0].invocation)
            await _within("to give attempts back", committer.submit(lambda db: self._released(db, left)))
        self.live.clear()

    async def _released(self, db: Database, claims: list[Claim]) -> None:
        for it in claims:
            await storing.release(db, self.app, it)

    async def _loop(self, committer: Committer, claimer: Claimer) -> None:
        lost: asyncio.Future[Any] = asyncio.ensure_future(committer.is_lost.wait())
        try:
            while not self.drains:
                self._look_at = time.monotonic() + self.poll
                room, live = min(self.room, _CLAIMS), frozenset(self.live)
                is_told, self._is_told = self._is_told, False
                try:
                    found = await self._unless_late(committer.submit(lambda db: claimer.claim(db, live, room)))
                except StatementFailed as error:
                    log.warning("a claim wasn't made, and is made again: %s", error)
                    await self._pause(1.0)
                    continue
                if found is None:
                    return
                for claim in found.claims:
                    self._begin(claim)
                if found.has_more and not self.room:
                    self._make_room()
                if is_told:
                    self._moment = 0.0 if found.claims else min(_MOMENTS[1], max(_MOMENTS[0], 2 * self._moment))
                self._has_more = found.has_more
                self._look_for_more()
                if (found.out.touched & live) - self.live.keys():  # an attempt has ended meanwhile, for which this claim has left it
                    self._wake(0)
                found.out.touched &= self.live.keys()
                self.tell(found.out)
                if found.next_due is not None and room:
                    self._wake(found.next_due - time.time())
                await self._until_due(lost)
                if committer.lost is not None:
                    raise Lost(str(committer.lost))
        finally:
            lost.cancel()

    async def _until_due(self, lost: asyncio.Future[Any]) -> None:
        """Until something is due or touched, or the database is lost."""
        while not (self.drains or lost.done()):
            left = self._look_at - time.monotonic()
            if left <= 0:
                return
            self._poke.clear()
            poked: asyncio.Future[Any] = asyncio.ensure_future(self._poke.wait())
            try:
                await asyncio.wait([lost, poked], timeout=left, return_when=asyncio.FIRST_COMPLETED)
            finally:
                poked.cancel()

    async def _purges(self, committer: Committer) -> None:
        """Deletes what has been kept long enough: some at a time, and between these nothing for as long as they took, so that others go on."""
        if self.keep is None:
            return
        older = self.keep
        while True:
            begun = time.monotonic()
            try:
                count = await committer.submit(lambda db: operate.purge(db, older), is_slow=True)
            except Stopped:
                return
            except StatementFailed as error:
                log.warning("nothing was purged: %s", error)
                count = 0
            await asyncio.sleep(max(0.01, time.monotonic() - begun) if count else self.lease / 3)

    async def _sweeps(self, committer: Committer, claimer: Claimer) -> None:
        """Takes back what this worker has by the database, and no attempt here: none of it is lost, whatever has left it so. It is looked
        at twice, since a claim may be on its way to its attempt. What waits for a worker that serves it goes on, if this one does."""
        before = set[tuple[str, int]]()
        await self._is_open.wait()
        while True:
            try:
                has_more = True
                while has_more:
                    out = await committer.submit(claimer.serve, is_slow=True)
                    self.tell(out)
                    has_more = out.has_more
                await asyncio.sleep(self.lease / 3)
                await committer.submit(claimer.sweep, is_slow=True)
                held = await committer.submit(lambda db: storing.held(db, claimer.worker))
                alone = {it for it in held if it[0] not in self.live}
                for invocation, epoch in alone & before:
                    log.warning("%s has no attempt, and is tried again", invocation)
                    await committer.submit(lambda db: storing.take_back(db, invocation, epoch))
                    self._wake(1.0)
                before = alone
            except Stopped:
                return
            except StatementFailed as error:
                log.warning("what has no attempt wasn't looked for: %s", error)
                await asyncio.sleep(self.lease / 3)

    async def _adopts(self, committer: Committer, claimer: Claimer) -> None:
        """Goes on with invocations of other versions that have no worker, if this code makes their journals."""
        adopting = Adopting(claimer)
        await self._is_open.wait()
        while True:
            try:
                found = await committer.submit(adopting.sought, is_slow=True)
                for it in found:
                    apart = adopting.apart(it)
                    await committer.submit(functools.partial(adopting.judged, it=it, apart=apart))
                    self._wake(0)
                if not found:
                    await asyncio.sleep(self.poll)
            except Stopped:
                return
            except StatementFailed as error:
                log.warning("invocations of other versions weren't looked for: %s", error)
                await asyncio.sleep(self.poll)

    def stop(self) -> None:
        """`run` ends once the runs that are executed have ended, or the grace is over, and what they wrote is stored. What isn't finished is
        claimed by the next worker. Requests that wait for a result get `Unavailable`."""
        self._stop.set()
        self._poke.set()
        self.let_go()

    @property
    def drains(self) -> bool:
        """Whether `stop` was asked."""
        return self._stop.is_set()

    async def stops(self) -> None:
        """Waits until `stop` is asked."""
        await self._stop.wait()

    # ---- attempts

    @property
    def room(self) -> int:
        """How many more attempts may begin now."""
        return max(0, self.limit - len(self.live) - self._kept)

    @contextlib.contextmanager
    def taking(self, most: int) -> Iterator[Taker | None]:
        """Whether a transaction may begin at once what it makes, `most` of it, and by which worker. What waits for a claim goes first, and others get
        some of what a busy worker makes."""
        claimer = self._claimer
        if claimer is None or self._has_more or self.drains:
            room = 0
        else:
            room = min(most, self.room, max(0, self.limit // 2 - len(self.live)) if claimer.has_peers else self.limit)
        self._kept += room
        try:
            yield Taker(claimer.worker, claimer.code, room) if claimer is not None and room else None
        finally:
            self._kept -= room

    def _took(self, out: Outcome) -> None:
        self.takes(out.claims)

    def takes(self, claims: Sequence[Claim]) -> None:
        if self._claimer is not None:  # else the worker leaves, and others go on with them
            for claim in claims:
                self._begin(claim)

    @property
    def patience(self) -> float:
        """How long an attempt may wait now. It doesn't keep others out: it is suspended before, once these need its room."""
        return self.idle if self.room and not self.drains else 0.0

    def _make_room(self) -> None:
        """More can go on than there is room for: some attempts that wait are suspended."""
        waiting = [it for it in self.live.values() if it.only_waits]
        for it in waiting[: max(1, self.limit // 4)]:
            it.bell.ring()

    def _begin(self, claim: Claim) -> None:
        self.counts["attempts"] += 1
        if claim.late is not None:
            self.meter.claimed(claim.service, claim.handler, claim.late)
        attempt = Attempt(self, claim)
        self.live[claim.invocation] = attempt
        task = attempt.task = asyncio.create_task(self._attempt(attempt))
        self._tasks.add(task)
        task.add_done_callback(functools.partial(self._has_left, attempt))

    async def _attempt(self, attempt: Attempt) -> None:
        invocation = attempt.claim.invocation
        logs.within.set(attempt.claim.fields)
        begun = time.monotonic()
        try:
            await attempt.run()
        except Fenced as fenced:
            self.counts["fenced"] += 1
            log.warning("fenced: %s", fenced)
        except Stopped:
            pass  # the next worker goes on
        except BaseException as error:  # also `SystemExit`, which would end the loop
            task = asyncio.current_task()
            if isinstance(error, asyncio.CancelledError) and task is not None and task.cancelling() and not attempt.was_cancelled_within:
                raise  # the session ends, or others' code has cancelled it; what is left is taken back
            log.exception("an attempt of %s stopped; the invocation is paused", invocation)
            await self._give_up(attempt, error)
        finally:
            self.meter.attempt(attempt.claim.service, attempt.claim.handler, attempt.status, time.monotonic() - begun)
            self._traced(attempt)

    def _traced(self, attempt: Attempt) -> None:
        """An attempt has stopped: its spans end."""
        if attempt.spans is None:
            return
        attempt.spans.end(attempt.status, attempt.error)
        if attempt.ended is not None:
            created = attempt.claim.created
            attempt.spans.ended(created, created + attempt.ended.seconds, attempt.ended.outcome)

    def _has_left(self, attempt: Attempt, task: asyncio.Task[None]) -> None:
        """An attempt has ended, or was cancelled before it began."""
        self._tasks.discard(task)
        invocation = attempt.claim.invocation
        if self.live.get(invocation) is attempt:
            del self.live[invocation]
        if attempt.bell.poked:
            self._wake(0)
        self._look_for_more()

    def _look_for_more(self) -> None:
        """The last claim took all that it had room for. So there may be more: it is looked at once there is some room."""
        if self._has_more and self.limit - len(self.live) >= max(1, self.limit // 10):
            self._wake(0)

    async def _give_up(self, attempt: Attempt, error: BaseException) -> None:
        """Pauses the invocation. If that fails too, it is taken back later."""
        for why in (f"the runtime failed: {said(error)}", f"the runtime failed: {type(error).__name__}"):
            if self._committer is None:
                return
            try:
                self.tell(await self._committer.submit(lambda db: storing.pause(db, self.app, attempt.claim, why)))
                return
            except Exception as second:
                log.warning("%s wasn't paused: %s", attempt.claim.invocation, said(second))

    async def is_open(self) -> None:
        """Waits until the database can be used."""
        await self._is_open.wait()

    async def __aenter__(self) -> Engine:
        """Runs the worker until the end of an `async with`. Its database is open then; what is wrong with it is raised."""
        self._running = asyncio.create_task(self.run())
        is_open = asyncio.create_task(self.is_open())
        await asyncio.wait([self._running, is_open], return_when=asyncio.FIRST_COMPLETED)
        is_open.cancel()
        if self._running.done():
            self._running.result()
        return self

    async def __aexit__(self, *error: object) -> None:
        self.stop()
        if self._running is not None:
            await self._running

    @property
    def client(self) -> Client:
        """Calls handlers, and looks at invocations, by this worker's connection."""
        return Client(self)


async def _passed_on(db: Database, first: str) -> None:
    db.pass_on(first)


async def _within(what: str, awaited: Awaitable[object], seconds: float = _LAST) -> None:
    """A part of a shutdown, which has its limit."""
    try:
        await asyncio.wait_for(awaited, seconds)
    except asyncio.TimeoutError:
        log.warning("%s took longer than %s s, and is left", what, seconds)
    except Exception as error:
        log.warning("%s failed: %s", what, said(error))
