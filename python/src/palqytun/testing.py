"""Tests of handlers: a worker in memory whose clock is the test's, effects that are fakes, and a death at each commit.

    async with Testing(app) as shop:
        sent = await shop.send(order, Order("ann", days=30))
        await shop.skip(86400)
        assert (await sent.result()).parcel

    with faked(pay, Fake("receipt")) as paid:
        await crash_everywhere(app, order, Order("ann"), fakes=[paid])

A test needs no server, no file and no waiting. The worker is that of `palqytun run`, over SQLite in memory.
"""

from __future__ import annotations

import asyncio
import contextlib
import copy
import dataclasses
import functools
import logging
import time
from collections.abc import Awaitable, Callable, Iterable, Iterator, Mapping
from dataclasses import dataclass, field
from typing import Any, TypeVar, cast

from .runtime.client import Client, Invocation
from .runtime.codec import decoded, encoded
from .runtime.context import running
from .runtime.database import Database, Lost
from .runtime.database.sqlite import SQLite
from .runtime.desk import Unavailable
from .runtime.engine import Engine
from .runtime.invocations import New
from .runtime.journal import Result
from .runtime.services import App, Handler, I, O
from .runtime.steps import Step

T = TypeVar("T")
_LOOKS = 0.01  # seconds until it is looked whether all waits for the clock
_SETTLES = 30.0  # seconds that what is due may take
_NEXT = (  # when something is due next, of what is later than a time
    "(SELECT MIN(due) FROM (SELECT MIN(due) AS due FROM timers UNION ALL SELECT MIN(due) FROM invocations WHERE status='ready' AND due>?"
    " UNION ALL SELECT MIN(deadline) FROM invocations WHERE status<>'done'"
    " UNION ALL SELECT MIN(expires) FROM invocations WHERE status='ready' AND epoch=0{}) AS due)"
)
_SCHEDULED = " UNION ALL SELECT MIN(due) FROM schedules WHERE paused=0"
_CALLS = (  # a schedule has a call to make
    "EXISTS (SELECT 1 FROM schedules WHERE paused=0 AND (due<=?"
    " OR (queued IS NOT NULL AND NOT EXISTS (SELECT 1 FROM invocations WHERE id=called AND status<>'done'))))"
)
_WAITS_FOR_KEY = (  # another invocation has its key
    "(exclusive=1 AND EXISTS (SELECT 1 FROM locks WHERE locks.service=invocations.service AND locks.key=invocations.key AND holder<>id))"
)

__all__ = ["Called", "Fake", "Testing", "crash_everywhere", "faked"]


class _Memory(SQLite):
    """A database in memory, whose clock can be moved on. It stays when a session with it ends. It may be lost at a commit: in its place, or after it."""

    def __init__(self) -> None:
        self.skipped = 0.0  # seconds
        self.commits = 0
        self.dies, self.is_stored = 0, False  # at the commit with this number; whether that is made
        super().__init__(":memory:")

    def move(self, seconds: float) -> None:
        """The clock moves on by `seconds`."""
        self.skipped += seconds
        self.clock = f"({SQLite.clock} + {self.skipped!r})"

    def now(self) -> float:
        return time.time() + self.skipped

    async def commit(self) -> None:
        self.commits += 1
        if self.commits != self.dies:
            await super().commit()
            return
        if self.is_stored:
            await super().commit()
        else:
            await self.rollback()
        raise Lost("the test lets the worker die here")

    def close(self) -> None:
        """The next session goes on with it."""

    def end(self) -> None:
        super().close()


# ---- effects


@dataclass(frozen=True)
class Called:
    """A call of a fake. `key` is that of its run (`ctx.run_key`), or none outside of one."""

    key: str | None
    arguments: tuple[Any, ...]
    named: dict[str, Any] = field(default_factory=dict)


class Fake:
    """A function instead of an effect, which remembers its calls.

    It returns `results` one after the other, and the last one again and again: a value; an error, which is raised; or a function, which is called.

    >>> pay = Fake(OSError("no bank"), "receipt")
    >>> try: pay("ann")
    ... except OSError as error: print(error)
    no bank
    >>> pay("ann"), [it.arguments for it in pay.calls]
    ('receipt', [('ann',), ('ann',)])
    """

    def __init__(self, *results: Any):
        self.results = results or (None,)
        self.calls: list[Called] = []

    def __call__(self, *arguments: Any, **named: Any) -> Any:
        run = running.get()
        self.calls.append(Called(None if run is None else run.key, arguments, named))
        result = self.results[min(len(self.calls), len(self.results)) - 1]
        if isinstance(result, BaseException):
            raise result
        return result(*arguments, **named) if callable(result) else result

    def by_key(self) -> dict[str | None, Called]:
        """The last call of each key: what other systems have seen, if they take each key once."""
        return {it.key: it for it in self.calls}


@contextlib.contextmanager
def faked(step: Step[Any, Any], fake: Fake) -> Iterator[Fake]:
    """The step's runs call the fake. What isn't a step is replaced by `unittest.mock.patch`."""
    function = step.function
    functools.update_wrapper(fake, function)  # its annotations say the type of the result
    object.__setattr__(step, "function", fake)
    try:
        yield fake
    finally:
        object.__setattr__(step, "function", function)


# ---- a worker in memory


class _Skipping(Invocation[T]):
    """An invocation for whose result the clock moves on."""

    async def result(self, wait: float | None = None) -> T:
        """What it ends with; its failure is raised as a `TerminalError`. While nothing is to be done, the clock moves on to the next timer, if the
        test says nothing else. `TimeoutError` if nothing is left that would end it, or after `wait` seconds."""
        testing = cast(_TestClient, self.client).testing
        until = None if wait is None else time.monotonic() + wait
        while True:
            try:
                return await super().result(_LOOKS)
            except TimeoutError:
                if until is not None and time.monotonic() > until:
                    raise
                is_settled, due = await testing.look()
                if is_settled and due is not None and testing.skips:
                    await testing.skip_to_next()
                elif is_settled and (due is None or not testing.skips) and wait is None:
                    raise TimeoutError(f"{self.id} waits for what doesn't come by itself: {await testing.why(self.id)}") from None


class _TestClient(Client):
    testing: Testing

    def __init__(self, testing: Testing):
        super().__init__(testing.engine)
        self.testing = testing


class Testing:
    """A worker of an app in memory. `skips`: while a result is awaited and nothing is to be done, the clock moves on by itself. `answers` stand in for
    other handlers, by their names: a value, an error, or a function of the argument. So one handler is tested by itself:

        async with Testing(app, answers={"Stock/take": 98}) as shop:
            assert await shop.call(order, Order("ann")) == Receipt(..)
    """

    __test__ = False  # pytest doesn't collect it

    def __init__(self, app: App, *, skips: bool = True, answers: Mapping[str, Any] | None = None):
        self.skips = skips
        self._memory = _Memory()
        self.engine = Engine(_answered(app, answers or {}), ":memory:", idle=0, poll=0.05, grace=1.0, version="test", connect=self._connect)
        self.engine.soon = 0.001
        self._client = _TestClient(self)

    async def _connect(self, url: str) -> Database:
        return self._memory

    async def __aenter__(self) -> Testing:
        await self.engine.__aenter__()
        return self

    async def __aexit__(self, *error: object) -> None:
        try:
            await self.engine.__aexit__(*error)
        finally:
            self._memory.end()

    # ---- calls

    async def send(self, target: Handler[I, O] | str, argument: I | Any = None, **named: Any) -> Invocation[O]:
        """Calls a handler, and doesn't wait for it. `named` are those of `Client.send`, as `key` and `delay`."""
        sent = await self._client.send(target, argument, **named)
        return _Skipping(self._client, sent.id, sent.gives)

    async def call(self, target: Handler[I, O] | str, argument: I | Any = None, **named: Any) -> O:
        """Calls a handler, and waits for its result."""
        sent: Invocation[O] = await self.send(target, argument, **named)
        return await sent.result()

    async def complete(self, awakeable: str, value: object = None) -> None:
        """Completes an awakeable, also by a `TerminalError`."""
        assert await self._client.resolve_awakeable(awakeable, value), f"nobody waits for {awakeable}"

    # ---- state

    async def state(self, service: str, key: str) -> dict[str, Any]:
        """The state of a key."""
        rows = await self.engine.transact(lambda db: db.rows("SELECT name, value FROM state WHERE service=? AND key=?", (service, key)))
        return {name: decoded(self.engine.app.codec, bytes(value), Any) for name, value in rows}

    async def set_state(self, service: str, key: str, **values: Any) -> None:
        """Gives the state of a key these values."""
        sql = "INSERT INTO state(service, key, name, value) VALUES (?,?,?,?) ON CONFLICT(service, key, name) DO UPDATE SET value=excluded.value"
        rows = [(service, key, name, encoded(self.engine.app.codec, value)) for name, value in values.items()]

        async def stored(db: Database) -> None:
            db.many(sql, rows)

        await self.engine.transact(stored)

    # ---- time

    @property
    def now(self) -> float:
        """The time by the test's clock, in seconds since the epoch."""
        return self._memory.now()

    async def skip(self, seconds: float) -> None:
        """The clock moves on by `seconds`, from timer to timer and from one time of a schedule to the next, and what is due is done before this
        returns."""
        until = self.now + seconds
        await self._settle()
        while (due := await self._next(_SCHEDULED)) is not None and due < until:
            await self._to(due)
        await self._to(until)

    async def skip_to_next(self) -> bool:
        """The clock moves on to the next timer, delayed call, retry or limit of time. Whether there is one."""
        due = await self._next()
        if due is not None:
            await self._to(due)
        return due is not None

    async def look(self) -> tuple[bool, float | None]:
        """Whether all that can be done is done, since no attempt runs and nothing is due; and when something is due next."""
        if self.engine.live:
            return False, None
        held = await self._held()
        is_held = f"(epoch=0 AND COALESCE(queue, '') IN ({','.join('?' * len(held))}))"
        sql = (
            "SELECT EXISTS (SELECT 1 FROM timers WHERE due<=?)"
            f" OR EXISTS (SELECT 1 FROM invocations WHERE status='running' OR (status='ready' AND due<=? AND NOT {is_held} AND NOT {_WAITS_FOR_KEY}))"
            " OR EXISTS (SELECT 1 FROM inbox JOIN invocations ON id=invocation WHERE fresh=1 AND status='suspended')"
            f" OR EXISTS (SELECT 1 FROM invocations WHERE deadline<=? AND status<>'done') OR {_CALLS}, {_NEXT.format('')}"
        )

        async def asked(db: Database) -> list[Any]:
            now = db.now()  # of this transaction: what one before it has made is due by then
            return await db.rows(sql, (now, now, *held, now, now, now))

        [(is_due, due)] = await self.engine.transact(asked)
        return not is_due and not self.engine.live, min([float(it) for it in (due, *held.values()) if it is not None], default=None)

    async def _held(self) -> dict[str, float]:
        """The queues whose rates are used up, while some wait to begin: when the next one may."""
        held = {}
        for name, count, seconds in [(it.name, *it.rate) for it in self.engine.app.queues.values() if it.rate is not None]:
            [(many, first)] = await self._asked("SELECT COUNT(*), MIN(at) FROM starts WHERE queue=? AND at>?", name, self.now - seconds)
            if many >= count and await self._asked("SELECT 1 FROM invocations WHERE queue=? AND status='ready' AND epoch=0 LIMIT 1", name):
                held[name] = float(first) + seconds
        return held

    async def is_settled(self) -> bool:
        """Whether all that can be done is done: no attempt runs, and nothing is due."""
        return (await self.look())[0]

    async def why(self, invocation: str) -> str:
        """Its status, and its error if it has one."""
        [(status, error)] = await self._asked("SELECT status, error FROM invocations WHERE id=?", invocation)
        return str(status) if error is None else f"{status}, {error.splitlines()[0]}"

    async def _asked(self, sql: str, *values: object) -> list[Any]:
        return await self.engine.transact(lambda db: db.rows(sql, values))

    async def _next(self, beside: str = "") -> float | None:
        [(due,)] = await self._asked(f"SELECT {_NEXT.format(beside)}", self.now)
        return min([float(it) for it in (due, *(await self._held()).values()) if it is not None], default=None)

    async def _to(self, at: float) -> None:
        self._memory.move(max(0.0, at - self.now))
        self.engine.look()
        await self._settle()

    async def _settle(self) -> None:
        until = time.monotonic() + _SETTLES
        while not await self.is_settled():
            if time.monotonic() > until:
                raise TimeoutError(f"what is due isn't done after {_SETTLES:g} s")
            await asyncio.sleep(_LOOKS)


def _answered(app: App, answers: Mapping[str, Any]) -> App:
    """The app, in which some handlers only give these answers."""
    if not answers:
        return app
    left, services = dict(answers), []
    for service in app.services.values():
        one = copy.copy(service)
        one.handlers = {}
        for name, handler in service.handlers.items():
            function = _answer(left.pop(handler.path)) if handler.path in left else handler.function
            one.handlers[name] = dataclasses.replace(handler, service=one, function=function)
        services.append(one)
    if left:
        raise ValueError(f"there is no handler {', '.join(left)}")
    made = {it.name: it for it in services}
    schedules = [copy.copy(it) for it in app.schedules.values()]
    for it in schedules:
        it.target = made[it.target.service.name].handlers[it.target.name]
    return App(*services, codec=app.codec, schedules=schedules)


def _answer(given: Any) -> Callable[[Any, Any], Awaitable[Any]]:
    async def answer(ctx: Any, argument: Any) -> Any:
        if isinstance(given, BaseException):
            raise given
        return given(argument) if callable(given) else given

    return answer


# ---- deaths


_STATES = "SELECT service, key, name, value FROM state ORDER BY service, key, name"
_ATTRIBUTES = "SELECT invocation, name, value FROM attributes ORDER BY invocation, name"


@dataclass(frozen=True)
class _Left:
    """What an invocation leaves: its result, the state of all keys, the attributes of each invocation, and the effects by their keys."""

    result: bytes
    state: list[Any]
    attributes: list[Any]
    effects: list[dict[str | None, Called]]


async def crash_everywhere(
    app: App, target: Handler[I, Any], argument: I | Any = None, *, key: str = "", fakes: Iterable[Fake] = (), most: int = 500
) -> int:
    """Runs an invocation without a failure, and then again and again with a death of its worker: at its first commit, its second, and so on, each
    once before the commit is stored and once after it. Returns the number of deaths; at most `most` commits are tried.

    `AssertionError` says what differs from the execution without a failure: the result, the state of the keys, the attributes, or an effect, by
    the key of its run. An effect may be executed more than once with its key. A death here is a lost database: the attempts are dropped where they stand,
    and a new worker claims what is stored. Sleeps take no time. The effects of the app have to be fakes, or harmless."""
    with _silent():
        return await _crashed(app, target, argument, key, list(fakes), most)


@contextlib.contextmanager
def _silent() -> Iterator[None]:
    """The log says nothing of deaths that are meant."""
    log = logging.getLogger("palqytun")
    before = log.level
    log.setLevel(logging.CRITICAL)
    try:
        yield
    finally:
        log.setLevel(before)


async def _crashed(app: App, target: Handler[Any, Any], argument: Any, key: str, watched: list[Fake], most: int) -> int:
    expected, _ = await _left(app, target, argument, key, watched, 0, False)
    deaths = 0
    for number in range(1, most + 1):
        for is_stored in (False, True):
            found, has_died = await _left(app, target, argument, key, watched, number, is_stored)
            if not has_died:
                return deaths
            deaths += 1
            where = f"with a death {'after' if is_stored else 'at'} commit {number}"
            assert found.result == expected.result, f"{where} the result is {found.result!r}, and without one {expected.result!r}"
            assert found.state == expected.state, f"{where} the state is {found.state}, and without one {expected.state}"
            assert found.attributes == expected.attributes, f"{where} the attributes are {found.attributes}, and without one {expected.attributes}"
            assert found.effects == expected.effects, f"{where} the effects are {found.effects}, and without one {expected.effects}"
    return deaths


async def _left(
    app: App, target: Handler[Any, Any], argument: Any, key: str, fakes: list[Fake], dies: int, is_stored: bool
) -> tuple[_Left, bool]:
    """What an invocation leaves, and whether its worker died."""
    for it in fakes:
        it.calls.clear()
    async with Testing(app) as testing:
        new = New(target.service.name, target.name, key, encoded(app.codec, argument), id="inv_test")
        id = await testing.engine.submit(new)
        memory = testing._memory
        memory.dies, memory.is_stored = (memory.commits + dies if dies else 0), is_stored
        result = await _until_ended(testing, id)
        has_died = bool(dies) and memory.commits >= memory.dies
        memory.dies = 0
        state, attributes = [await _stored(testing, sql) for sql in (_STATES, _ATTRIBUTES)]
    left = _Left(bytes(result), [(*row[:3], bytes(row[3])) for row in state], [tuple(row) for row in attributes], [it.by_key() for it in fakes])
    return left, has_died


async def _stored(testing: Testing, sql: str) -> list[Any]:
    """Rows of the database. A death that began while the invocation ended is over first."""
    async with asyncio.timeout(_SETTLES):
        while True:
            await testing.engine.is_open()
            with contextlib.suppress(Unavailable):
                return await testing._asked(sql)
            await asyncio.sleep(0.001)


async def _until_ended(testing: Testing, id: str) -> Result:
    """The result of an invocation, whatever happens to its worker meanwhile."""
    until = time.monotonic() + _SETTLES
    while time.monotonic() < until:
        try:
            result = await testing.engine.result(id, _LOOKS)
            assert result is not None
            return result
        except (TimeoutError, Unavailable):
            with contextlib.suppress(Unavailable):
                if await testing.is_settled():
                    await testing.skip_to_next()
            await asyncio.sleep(0.001)
    raise TimeoutError(f"{id} hasn't ended after {_SETTLES:g} s: {await testing.why(id)}")
