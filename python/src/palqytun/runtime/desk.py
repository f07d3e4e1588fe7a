"""What is asked of a database from outside of handlers: invocations are made, awaited, signalled and cancelled. A worker is such a desk by its own
connection, and `RemoteDesk` is one without a worker."""

from __future__ import annotations

import asyncio
import contextlib
import logging
import random
import secrets
import time
from collections.abc import AsyncIterator, Awaitable, Callable, Iterator, Sequence
from dataclasses import replace
from typing import TypeVar

from . import acts, announced, chains, invocations
from .announced import Target
from .committer import After, Committer, Stopped
from .database import Conflict, Database, Lost, checked_url, connect
from .filters import Filter
from .invocations import Claim, New
from .journal import Result
from .names import check_name
from .outcome import Outcome, Taker
from .services import App, TerminalError

T = TypeVar("T")
Told = asyncio.Future[Result | None]
log = logging.getLogger("palqytun")
_ANSWERED = 30.0  # seconds that a request waits for its transaction
_LOOKED = 5.0  # seconds at most between two looks at a result, of which no worker may tell; sooner at first
_SHORTEST, _LONGEST = 0.1, 5.0  # seconds between connections
_LAST = 15.0  # seconds that the end of a connection may take


class Unavailable(TerminalError):
    """The database can't be used now, or the worker stops. Whether the request was stored isn't known: ask again, with an idempotency key,
    after `retry_after` seconds."""

    retry_after = 1

    def __init__(self, why: str):
        super().__init__(why, 503)


def _tell(told: Told, result: Result | None = None) -> None:
    if not told.done():
        told.set_result(result)


async def _within(told: Told, seconds: float) -> Result | None:
    """What is told within so many seconds; nothing after them."""
    timer = asyncio.get_running_loop().call_later(seconds, _tell, told)
    try:
        return await told
    finally:
        timer.cancel()


def _check_id(invocation: str) -> None:
    """`BadName` if no invocation can have this id."""
    check_name("the invocation's id", invocation)


class Desk:
    """What both kinds have. A subclass sets `_committer` as long as it has a connection."""

    def __init__(self, app: App, url: str):
        if not isinstance(app, App):
            raise TypeError(f"an App comes first, and then the database: App(Service('Shop')), and not {app!r}")
        self.app, self.url = app, checked_url(url)
        self._committer: Committer | None = None
        self._results: dict[str, list[Told]] = {}
        self._looks = _LOOKED

    @property
    def drains(self) -> bool:
        """Whether it takes no more calls."""
        raise NotImplementedError

    def tell(self, out: Outcome) -> None:
        """A transaction is committed: those whom it touches are notified."""
        raise NotImplementedError

    async def transact(self, operation: Callable[[Database], Awaitable[T]] | After, is_slow: bool = False, then: Callable[[T], None] | None = None) -> T:
        """Commits an operation, in one transaction with others that are queued. Raises `Unavailable` if there is no database. `then` is as `submit`'s."""
        if self._committer is None:
            raise Unavailable("the database can't be used now: there is no connection")
        try:
            async with asyncio.timeout(_ANSWERED):  # `wait_for` drops a cancellation that comes with the result
                made: asyncio.Future[T]
                made = self._committer.follow(operation) if isinstance(operation, After) else self._committer.submit(operation, is_slow, then)
                return await made
        except asyncio.TimeoutError:
            raise Unavailable(f"something has been in the way in the database for {_ANSWERED:g} seconds") from None
        except Stopped as error:
            raise Unavailable(f"the database can't be used now: {error}") from error

    async def target(self, service: str, handler: str) -> Target:
        """A handler, of this app or of another one that a worker serves. `TerminalError` with code 404 if nobody serves it."""
        own = announced.own(self.app, service, handler)
        return own if own is not None else await self.transact(lambda db: announced.find(db, self.app, service, handler))

    async def is_keyed(self, service: str) -> bool:
        """Whether a service has keys. `TerminalError` with code 404 if nobody serves it."""
        known = self.app.services.get(service)
        return known.keyed if known is not None else await self.transact(lambda db: announced.is_keyed(db, service))

    async def submit(self, new: New) -> str:
        """Makes an invocation. It is stored once this returns its id. Raises a `TerminalError` if nobody serves it (404), if it isn't called so (400), or if
        its idempotency key is that of another call (409)."""
        if self.drains:
            raise Unavailable("the worker stops, and takes no new calls")
        check_name("the service's name", new.service)
        check_name("the handler's name", new.handler)
        invocations.check(new, await self.target(new.service, new.handler))  # what is refused isn't in a transaction with others
        with self.taking(1) as taker:

            async def made(db: Database) -> tuple[str | TerminalError, Outcome]:
                out = Outcome(taker)
                try:
                    return (await invocations.create(db, self.app, out, new))[0], out
                except TerminalError as refused:  # which has stored nothing; raised here it would undo what is in the same transaction
                    return refused, out

            def then(it: tuple[object, Outcome]) -> None:
                self.takes(it[1].claims)

            found, out = await self.transact(made, then=then)
        if isinstance(found, TerminalError):
            raise found
        self.tell(out)
        return found

    @contextlib.contextmanager
    def taking(self, most: int) -> Iterator[Taker | None]:
        """Whether a transaction may begin at once what it makes, `most` of it, and by which worker; room is kept for that. None: it waits for a claim."""
        yield None

    def takes(self, claims: Sequence[Claim]) -> None:
        """A transaction is committed that has taken these leases."""

    async def result(self, invocation: str, wait: float | None = None, told: Told | None = None) -> Result | None:
        """What an invocation ends with, or the last one that goes on in its place; none if there is no such invocation. `TimeoutError` if it hasn't ended after `wait` seconds, and
        `Unavailable` if the worker stops before. `told` is what `told_of` gave before the invocation was made: so it isn't looked for at once."""
        _check_id(invocation)
        begun, id = time.monotonic(), invocation
        until = None if wait is None else begun + wait
        while True:
            with self.told_of(id) as future:
                if told is None:
                    rows = await self.transact(lambda db: db.rows("SELECT result, continued FROM invocations WHERE id=?", (id,)))
                    if not rows or rows[0][1] is not None:  # it goes on as another one, or has done so long ago
                        before, id = id, await self.transact(lambda db: invocations.newest(db, id))
                        if id == before:
                            return None
                        continue
                    if rows[0][0] is not None:
                        return Result(bytes(rows[0][0]))
                elapsed = time.monotonic() - begun
                left = min(self._looks, max(_LOOKED / 50, elapsed), self._looks if until is None else until - time.monotonic())
                if left <= 0:
                    raise TimeoutError(f"{invocation} hasn't ended")
                if self.drains:
                    raise Unavailable(f"the worker stops; {invocation} goes on with another one")
                result = await _within(future if told is None else told, left)
                if result is not None:
                    return result
                told = None

    @contextlib.contextmanager
    def told_of(self, invocation: str) -> Iterator[Told]:
        """What is done once the end of an invocation is told, with its result if that is known then."""
        future: Told = asyncio.get_running_loop().create_future()
        self._results.setdefault(invocation, []).append(future)
        try:
            yield future
        finally:
            waiting = self._results.get(invocation, [])
            if future in waiting:
                waiting.remove(future)
                if not waiting:
                    del self._results[invocation]

    def _ended(self, invocation: str, result: Result | None = None) -> None:
        for told in self._results.pop(invocation, []):
            _tell(told, result)

    def let_go(self) -> None:
        """Those that wait for results look at once, and don't wait any more if this desk takes no more calls."""
        for some in self._results.values():
            for told in some:
                _tell(told)

    async def notify(self, invocation: str, notification: bytes) -> bool:
        """Sends a signal from outside; returns whether there is an invocation that gets it."""
        _check_id(invocation)
        it = chains.Delivery(Outcome(), invocation, notification)
        is_there = bool(await self.transact(After(it.reads, it.then)))
        self.tell(it.out)
        return is_there

    async def act(self, name: str, invocation: str, who: str) -> str:
        """Does an act of an operator (`acts.ACTS`) to an invocation; returns in words what it did. Raises a `TerminalError` if it can't be done."""
        acts.known(name)
        _check_id(invocation)
        return await self.done(lambda db, out: acts.one(db, self.app, out, name, invocation, who))

    async def cancel(self, invocation: str, who: str = "a program") -> bool:
        """Cancels an invocation; returns whether there is one that hasn't ended."""
        try:
            await self.act("cancel", invocation, who)
        except TerminalError as error:
            if error.code in (404, 409):
                return False
            raise
        return True

    async def act_on_all(self, name: str, asked: Filter, who: str, most: int = 100_000) -> AsyncIterator[dict[str, str]]:
        """Does an act to all invocations that are asked for and to which it can be done, some at a time; gives what it did to each by its id."""
        left = most
        while left > 0:
            done, before = await self.done(lambda db, out: acts.some(db, self.app, out, name, asked, who), is_slow=True)
            yield done
            left -= len(done)
            if before is None:
                return
            asked = replace(asked, before=before)

    async def done(self, operation: Callable[[Database, Outcome], Awaitable[T]], is_slow: bool = False) -> T:
        """Commits an operation that touches others, and notifies them."""

        async def made(db: Database) -> tuple[T, Outcome]:
            out = Outcome()
            return await operation(db, out), out

        result, out = await self.transact(made, is_slow)
        self.tell(out)
        return result


class RemoteDesk(Desk):
    """A desk with a connection of its own, and no worker. A lost connection is made again."""

    def __init__(self, app: App, url: str):
        super().__init__(app, url)
        self._stop, self._is_open = asyncio.Event(), asyncio.Event()
        self._running: asyncio.Task[None] | None = None

    @property
    def drains(self) -> bool:
        return self._stop.is_set()

    def tell(self, out: Outcome) -> None:
        for invocation in out.ended:
            self._ended(invocation)

    async def open(self) -> None:
        """Connects. What is wrong with the database is raised; one that can't be reached is tried until it can be."""
        self._running = asyncio.create_task(self._run())
        is_open = asyncio.create_task(self._is_open.wait())
        await asyncio.wait([self._running, is_open], return_when=asyncio.FIRST_COMPLETED)
        is_open.cancel()
        if self._running.done():
            self._running.result()

    async def close(self) -> None:
        self._stop.set()
        self.let_go()
        if self._running is not None:
            await asyncio.wait([self._running], timeout=_LAST)
            if not self._running.done():  # the database doesn't reply
                self._running.cancel()
                await asyncio.wait([self._running])
            elif not self._running.cancelled():
                self._running.result()

    async def _run(self) -> None:
        delay = _SHORTEST
        while not self.drains:
            self._is_open.clear()
            try:
                await self._connected(await connect(self.url))
            except (Lost, Conflict) as error:
                log.warning("the database can't be reached: %s", error)
            if self._is_open.is_set():
                delay = _SHORTEST
                continue
            with contextlib.suppress(asyncio.TimeoutError):
                await asyncio.wait_for(self._stop.wait(), delay * (0.5 + random.random()))
            delay = min(_LONGEST, delay * 2)

    async def _connected(self, db: Database) -> None:
        """As long as the connection lasts."""
        committer = self._committer = Committer(db)
        unlisten = None
        try:
            unlisten = await db.listen(f"client-{secrets.token_hex(6)}", self._heard)
            self._looks = _LOOKED if unlisten is not None else _SHORTEST
            self._is_open.set()
            self.let_go()
            waits = [asyncio.create_task(committer.is_lost.wait()), asyncio.create_task(self._stop.wait())]
            await asyncio.wait(waits, return_when=asyncio.FIRST_COMPLETED)
            for it in waits:
                it.cancel()
        except Lost as error:
            log.warning("the database is lost: %s", error)
        finally:
            if unlisten is not None:
                unlisten()
            self._committer = None
            await committer.close()

    def _heard(self, word: str) -> None:
        what, *some = word.split(" ")
        if what == "ended":
            for invocation in some:
                self._ended(invocation)
