"""Transactions, committed in groups: all operations that are queued while one transaction is committed are the next one, and are made one after the
other.

On PostgreSQL there is more than one transaction at a time only if one is slow: one that is quick leaves the next group more to commit together, and
one that waits for a lock keeps nobody out.
"""

from __future__ import annotations

import asyncio
import logging
import random
import time
from collections.abc import Awaitable, Callable, Sequence
from dataclasses import dataclass
from typing import Any, TypeVar

from . import appending
from .appending import AT_ONCE, Append, append
from .database import Asked, Conflict, Database, Full, Lost, StatementFailed, Unsuitable
from .lease import Growth
from .meter import Meter, NoMeter

T = TypeVar("T")


@dataclass(frozen=True)
class After:
    """An operation that begins by some reads, and is given what they find. On a server the reads of a group are made in one round trip, before any other
    operation of the group."""

    reads: Callable[[Database], Sequence[Asked]]
    then: Callable[[Database, Sequence[list[Any]]], Awaitable[Any]]


Operation = Callable[[Database], Awaitable[Any]] | Append | After
log = logging.getLogger("palqytun")
_LASTS = 0.25  # seconds that a group is to take, so that beats and short transactions don't wait for long
_FEWEST = 20  # operations of a group, however slow they are
_SLOW = 0.05  # seconds of a group, after which the next one doesn't wait for it
_LANES = 4  # connections for groups, at most
_WITHOUT = 5.0  # seconds until another connection is tried for again, if there was none
_LONGEST = 1.0  # seconds between two tries of an operation that something is in the way of
_SAID = 10.0  # seconds between two warnings of a full disk
_CLOSING = 5.0  # seconds that what is queued may take at the end


class Stopped(Exception):
    """The worker has stopped, or has lost its database: the operation wasn't made, or it isn't known whether it was."""


@dataclass(eq=False)
class _Queued:
    """An operation, whoever waits for its result, and how often something was in its way. Then it is made alone, as one that may be slow is, so that
    nobody waits with it."""

    operation: Operation
    future: asyncio.Future[Any]
    is_slow: bool = False
    then: Callable[[Any], None] | None = None
    tries: int = 0

    @property
    def is_alone(self) -> bool:
        return self.is_slow or self.tries > 0

    def has(self, result: Any) -> None:
        if self.then is not None:
            self.then(result)
        if not self.future.done():
            self.future.set_result(result)

    def fails(self, error: BaseException) -> None:
        if not self.future.done():
            self.future.set_exception(error)


class Committer:
    """`submit` and `append` return futures, whose exceptions are `Stopped`, or what the operation itself raised. An operation that meets a
    `Conflict` is made again until it is stored, however long that lasts; who waits for it may cancel its future."""

    def __init__(self, db: Database, *, grouped: bool = True, most: int = 500):
        """`grouped`: operations that wait at one time are one transaction, of `most` operations at most."""
        self.db, self.grouped, self.most = db, grouped, most
        self._size = most if grouped else 1  # of the next group
        self.meter: Meter = NoMeter()
        self.counts = {"transactions": 0, "operations": 0, "conflicts": 0}
        self.lost: Exception | None = None
        self.is_lost = asyncio.Event()
        self._queue: list[_Queued] = []
        self._again: list[_Queued] = []  # that wait until they are tried again
        self._has_work = asyncio.Event()
        self._lanes, self._idle = [db], [db]  # all connections, and those without a transaction
        self._working: dict[asyncio.Task[None], float] = {}  # when each group began; one that may be slow counts as such at once
        self._none_until = 0.0
        self._full_said = -_SAID
        self._task = asyncio.create_task(self._run())

    def submit(
        self, operation: Callable[[Database], Awaitable[T]], is_slow: bool = False, then: Callable[[T], None] | None = None
    ) -> asyncio.Future[T]:
        """Queues an operation. Its future has what the operation returned, once that is committed. One that may be slow is a transaction by
        itself. `then` is called with the same before, also if nobody waits for the future any more."""
        return self._queued(operation, is_slow, then)

    def follow(self, operation: After) -> asyncio.Future[Any]:
        """Queues an operation that begins by some reads."""
        return self._queued(operation, False)

    def append(self, growth: Growth) -> asyncio.Future[bool]:
        """Queues a store that touches nothing but its own journal. Its future has whether it was stored, once the group is committed."""
        return self._queued(Append(growth), False)

    def _queued(self, operation: Operation, is_slow: bool, then: Callable[[Any], None] | None = None) -> asyncio.Future[Any]:
        future: asyncio.Future[Any] = asyncio.get_running_loop().create_future()
        if self.lost is not None:
            future.set_exception(Stopped(str(self.lost)))
        else:
            self._queue.append(_Queued(operation, future, is_slow, then))
            self._has_work.set()
        return future

    @property
    def connections(self) -> int:
        """How many connections it has."""
        return len(self._lanes)

    async def close(self) -> None:
        """Makes what is queued, if that takes no longer than some seconds, and closes the connections."""
        until = time.monotonic() + _CLOSING
        while (self._queue or self._working or self._again) and self.lost is None and time.monotonic() < until:
            await asyncio.sleep(0.001)
        self._task.cancel()
        await asyncio.gather(self._task, return_exceptions=True)
        self._abandon(Stopped("the worker has stopped"))
        for task in self._working:
            task.cancel()
        await asyncio.gather(*self._working, return_exceptions=True)
        for db in self._lanes:
            try:
                db.close()
            except Exception:  # it was lost before
                pass

    # ---- groups

    async def _run(self) -> None:
        """Begins groups. If that fails the worker's session ends, as nobody would make what is queued."""
        try:
            while self.lost is None:
                await self._has_work.wait()
                await self._next()
                await asyncio.sleep(0)  # the group is taken
        except Exception as error:
            log.exception("no group can begin any more")
            self._abandon(Stopped(repr(error)))

    async def _next(self) -> None:
        """Begins the next group, once there is a connection for it. Those that go on by the last results may queue more until the loop's next turn."""
        db = await self._free()
        if db is not None:
            self._working[asyncio.create_task(self._work(db))] = time.monotonic()

    async def _free(self) -> Database | None:
        """A connection for the next group: at once if none is in work, else once one is done, or the one that began last is slow. None if the
        database is lost."""
        while self._working:
            left = max(self._working.values()) + _SLOW - time.monotonic()
            if left <= 0:
                if (db := await self._another()) is not None:
                    return db
                left = self._none_until - time.monotonic()
            if self._working:  # while another connection was tried for, all may have ended
                await asyncio.wait(self._working, timeout=left if left > 0 else None, return_when=asyncio.FIRST_COMPLETED)
        return self._idle.pop() if self._idle and self.lost is None else None

    async def _another(self) -> Database | None:
        """A connection beside those in work, if there may be one more."""
        if self._idle:
            return self._idle.pop()
        if len(self._lanes) == _LANES or time.monotonic() < self._none_until:
            return None
        try:
            db = await self.db.another()
        except (Lost, Conflict, StatementFailed, Unsuitable) as error:
            log.warning("there is no further connection: %s", error)
            db = None
        if db is None:
            self._none_until = time.monotonic() + _WITHOUT
        else:
            self._lanes.append(db)
        return db

    def _taken(self) -> list[_Queued]:
        """The next group. What is slow or made again is one by itself. Who doesn't wait any more is left out."""
        queue = [it for it in self._queue if not it.future.done()]
        count = next((at for at, it in enumerate(queue) if it.is_alone), len(queue))
        count = max(1, min(count, self._size))
        group, self._queue = queue[:count], queue[count:]
        if not self._queue:
            self._has_work.clear()
        return group

    async def _work(self, db: Database) -> None:
        """Makes the next group."""
        begun, group, task = time.monotonic(), self._taken(), asyncio.current_task()
        assert task is not None
        self._working[task] = -_SLOW if group and group[0].is_alone else begun
        try:
            if group:
                await self._commit(db, group)
                self._adapt(len(group), time.monotonic() - begun)
                self.meter.committed(len(group), time.monotonic() - begun)
            self._idle.append(db)
        except Lost as error:
            self._abandon(error)
        except BaseException as error:
            self._abandon(Stopped(repr(error)))
            raise
        finally:
            for it in group:
                if self.lost is not None:
                    it.fails(Stopped(str(self.lost)))
            del self._working[task]

    def _adapt(self, count: int, took: float) -> None:
        """The next group is as large as lasts a moment, by how long this one took."""
        if self.grouped:
            self._size = max(_FEWEST, min(self.most, int(count * _LASTS / max(took, 1e-6))))

    def _abandon(self, error: Exception) -> None:
        if self.lost is None:
            self.lost = error
        waiting, self._queue, self._again = [*self._queue, *self._again], [], []
        for it in waiting:
            it.fails(Stopped(str(error)))
        self.is_lost.set()

    async def _commit(self, db: Database, group: list[_Queued]) -> None:
        """Makes a group in one transaction; if that fails, each operation that can be stored is, without those that can't."""
        try:
            results = await self._transaction(db, [it.operation for it in group], hurries=group[0].tries > 0)
        except Lost:
            raise
        except Exception as error:
            if len(group) == 1 or isinstance(error, Full):
                for it in group:
                    self._failed(it, error)
            else:
                await self._apart(db, group)
            return
        for it, result in zip(group, results):
            it.has(result)

    async def _apart(self, db: Database, group: list[_Queued]) -> None:
        """Makes a group in one transaction, each operation up to a savepoint of its own. So a bad one undoes nothing of the others."""
        self._counted(group)
        results: list[Any] = []
        await self._begin(db)
        try:
            db.hurry()
            for it in group:
                results.append(await self._member(db, it.operation))
            await db.commit()
        except Lost:
            raise
        except Exception as error:
            await self._rollback(db)
            log.warning("a group can't be committed, and its parts are: %s", error)
            for half in (group[: len(group) // 2], group[len(group) // 2 :]):
                await self._commit(db, half)
            return
        for it, result in zip(group, results):
            if isinstance(result, _Raised):
                self._failed(it, result.error)
            else:
                it.has(result)

    async def _member(self, db: Database, operation: Operation) -> Any:
        """What an operation returns, or what it raised; then nothing of it is in the transaction."""
        db.put("SAVEPOINT one")
        try:
            result = (await self._made(db, [operation]))[0]
            await db.change("RELEASE one")
        except Lost:
            raise
        except Exception as error:
            await db.change("ROLLBACK TO one")
            return _Raised(error)
        return result

    def _failed(self, it: _Queued, error: Exception) -> None:
        """An operation failed alone. If something was in its way it is made again, after a growing time; else it has its error."""
        if not isinstance(error, Conflict):
            it.fails(error)
            return
        self.counts["conflicts"] += 1
        it.tries += 1
        if isinstance(error, Full):
            self._say_full(error)
        elif it.tries in (20, 200, 2000):
            log.warning("something is in the way of an operation, which was tried %s times: %s", it.tries, error)
        self._again.append(it)
        asyncio.get_running_loop().call_later(random.random() * min(_LONGEST, 0.02 * it.tries), self._requeue, it)

    def _say_full(self, error: Full) -> None:
        if time.monotonic() >= self._full_said + _SAID:
            self._full_said = time.monotonic()
            log.warning("the database's disk is full; what is to be stored waits until there is room: %s", error)

    def _requeue(self, it: _Queued) -> None:
        if it in self._again:
            self._again.remove(it)
            self._queue.append(it)
            self._has_work.set()

    # ---- transactions

    def _counted(self, group: list[Any]) -> None:
        self.counts["transactions"] += 1
        self.counts["operations"] += len(group)

    async def _transaction(self, db: Database, operations: list[Operation], hurries: bool) -> list[Any]:
        """One that `hurries` has its connection only for a moment if something is still in its way, so that there is one for others."""
        self._counted(operations)
        appends = [it for it in operations if isinstance(it, Append)]
        if db.is_remote and not hurries and len(appends) == len(operations) <= AT_ONCE:
            return await append(db, appends)  # one statement, which is a transaction by itself
        await self._begin(db)
        try:
            if hurries:
                db.hurry()
            results = await self._made(db, operations)
            await db.commit()
        except asyncio.CancelledError:
            raise  # the connection is closed
        except BaseException:
            await self._rollback(db)
            raise
        return results

    async def _begin(self, db: Database) -> None:
        """Begins a transaction. If the whole database is locked, as by another program that writes to a SQLite file, it waits."""
        tries = 0
        while True:
            try:
                await db.begin()
                return
            except Full:
                raise
            except Conflict as error:
                self.counts["conflicts"] += 1
                tries += 1
                if tries in (100, 1000, 10000):
                    log.warning("the database is locked, and waited for: %s", error)
            await asyncio.sleep(min(0.1, 0.002 * tries))

    async def _made(self, db: Database, operations: list[Operation]) -> list[Any]:
        appends, after = [it for it in operations if isinstance(it, Append)], [it for it in operations if isinstance(it, After)]
        both = await (self._together if db.is_remote else self._in_turn)(db, appends, after)
        stored, following = iter(both[0]), iter(both[1])
        results: list[Any] = []
        for it in operations:
            if isinstance(it, Append):
                results.append(next(stored))
            else:
                results.append(next(following) if isinstance(it, After) else await it(db))
        return results

    @staticmethod
    async def _in_turn(db: Database, appends: list[Append], after: list[After]) -> tuple[list[bool], list[Any]]:
        """What stores return, and operations that begin by some reads."""
        stored = await append(db, appends) if appends else []
        return stored, [await it.then(db, await db.several(it.reads(db))) for it in after]

    @staticmethod
    async def _together(db: Database, appends: list[Append], after: list[After]) -> tuple[list[bool], list[Any]]:
        """The same by one round trip for the stores and all reads."""
        made, reads = appending.asked(db, appends), [it.reads(db) for it in after]
        found = iter(await db.several([*made, *(one for some in reads for one in some)]))
        stored = appending.stored(appends, [next(found) for _ in made])
        return stored, [await it.then(db, [next(found) for _ in some]) for it, some in zip(after, reads)]

    async def _rollback(self, db: Database) -> None:
        try:
            await db.rollback()
        except (Lost, Conflict, StatementFailed):
            pass  # the error that led here is the one to raise


@dataclass(frozen=True)
class _Raised:
    """What an operation raised."""

    error: Exception
