"""Heartbeats: a long effect says that it goes on, and how far it has come.

    @step(heartbeat=30)
    def imported(path: str) -> int:
        done = last_progress(int) or 0
        for number, line in enumerate(lines(path)[done:], done + 1):
            insert(line)
            heartbeat(number)

The function may be called in a thread. What it says is stored by the event loop, about once a second; the page and `palqytun invocations inspect` show it.
"""

from __future__ import annotations

import asyncio
import contextvars
import threading
import time
from collections.abc import Awaitable, Callable
from typing import Any, TypeVar, overload

from . import keyed
from .codec import Codec, decoded, encoded
from .database import Database
from .lease import Lease

T = TypeVar("T")
_EACH = 1.0  # seconds between two that are stored


class GivenUp(Exception):
    """Nobody waits for this run any more: it took too long, or its invocation was killed, cancelled, or goes on elsewhere. What it returns isn't taken."""


class Pulse:
    """The beats of one execution of a run."""

    def __init__(self, codec: Codec, limit: float | None, before: bytes | None, keep: Callable[[bytes], Awaitable[bool]]):
        """`limit`: seconds within which it has to beat, if there is one. `before`: what the execution before said last. `keep` stores what it says, and returns
        whether its invocation is still this worker's."""
        self.before, self.codec, self.limit, self._keep = before, codec, limit, keep
        self._loop = asyncio.get_running_loop()
        self._lock = threading.Lock()
        self._value: bytes | None = None
        self._last: float | None = None
        self._is_over = False
        self._keeping: _Keeping | None = None  # of one that beats

    def begin(self) -> None:
        """The function begins: it has to beat from now on."""
        self._last = time.monotonic()

    def beat(self, value: Any) -> None:
        """The function goes on. It is called in any thread."""
        said = encoded(self.codec, value)
        with self._lock:
            if self._is_over:
                raise GivenUp("this run isn't waited for any more, so it can end")
            self._last, is_first, self._value = time.monotonic(), self._value is None, said
        if is_first:
            self._loop.call_soon_threadsafe(self._tell)

    def _tell(self) -> None:
        """In the loop: there is something to store."""
        if self._keeping is None and not self._is_over:
            self._keeping = _Keeping(self._kept)
        if self._keeping is not None:
            self._keeping.said.set()

    async def _kept(self) -> None:
        """Stores what was said last."""
        with self._lock:
            value, self._value = self._value, None
        if value is not None and not await self._keep(value):
            self.end()

    @property
    def left(self) -> float | None:
        """In how many seconds it has to beat; none if there is no limit, or it hasn't begun."""
        return None if self.limit is None or self._last is None else self._last + self.limit - time.monotonic()

    def end(self) -> None:
        """Whoever beats from now on gets `GivenUp`."""
        with self._lock:
            self._is_over = True

    async def close(self) -> None:
        """The execution is over: what was said last is stored."""
        self.end()
        if self._keeping is not None or self._value is not None:
            await (self._keeping or _Keeping(self._kept)).close()


class _Keeping:
    """Stores what a run says: at once, and then nothing for a while."""

    def __init__(self, kept: Callable[[], Awaitable[None]]):
        self.said, self._kept, self._turn = asyncio.Event(), kept, asyncio.Lock()
        self._task = asyncio.create_task(self._run())

    async def _run(self) -> None:
        while await self.said.wait():
            self.said.clear()
            await asyncio.shield(self._once())  # what has begun is stored, also if the run ends
            await asyncio.sleep(_EACH)

    async def _once(self) -> None:
        async with self._turn:
            await self._kept()

    async def close(self) -> None:
        self._task.cancel()
        await self._once()


pulse: contextvars.ContextVar[Pulse | None] = contextvars.ContextVar("palqytun_pulse", default=None)
"""That of the run for which this code is executed; none outside of runs."""


def heartbeat(progress: Any = None) -> None:
    """Within a run: says that it goes on, and how far it has come, as a value that the codec can write.

    A run with a `heartbeat`, a number of seconds, that doesn't beat within them has failed, and is tried again. The page and `palqytun invocations inspect`
    show the progress that was said last, which is stored about once a second. Outside a run it does nothing, as in a test of the function
    by itself. Raises `GivenUp` if nobody waits for the run any more, so that a function in a thread ends too.

        for number, row in enumerate(rows, 1):
            insert(row)
            heartbeat({"rows": number})
    """
    it = pulse.get()
    if it is not None:
        it.beat(progress)


@overload
def last_progress(kind: type[T]) -> T | None: ...
@overload
def last_progress(kind: Any = Any) -> Any: ...
def last_progress(kind: Any = Any) -> Any:
    """Within a run that has a `heartbeat`: the progress that an execution before this one said last, from which this one may go on; none at the first
    execution. What was said in the last second before a crash may be missing."""
    it = pulse.get()
    return None if it is None or it.before is None else decoded(it.codec, it.before, kind)


# ---- rows


async def before(db: Database, lease: Lease, run: int) -> bytes | None:
    """What the run said last."""
    rows = await db.rows("SELECT value FROM progress WHERE invocation=? AND run=?", (lease.invocation, run))
    return bytes(rows[0][0]) if rows else None


async def keep(db: Database, lease: Lease, run: int, name: str, value: bytes) -> bool:
    """Stores what a run says; returns whether the lease is still held. If it isn't, nothing is stored."""
    sql = (
        "INSERT INTO progress(invocation, run, name, at, value) SELECT ?,?,?,?,?"
        " WHERE EXISTS (SELECT 1 FROM invocations WHERE id=? AND epoch=? AND status='running')"
        " ON CONFLICT(invocation, run) DO UPDATE SET at=excluded.at, value=excluded.value"
    )
    return bool(await db.change(sql, (lease.invocation, run, name, db.now(), value, lease.invocation, lease.epoch)))


async def of(db: Database, id: str) -> list[dict[str, Any]]:
    """What the runs of an invocation have said last, in the order of its journal."""
    rows = await db.rows("SELECT run, name, at, value FROM progress WHERE invocation=? ORDER BY run", (id,))
    return [{"run": int(run), "name": name, "at": at, "value": keyed.shown(bytes(value))} for run, name, at, value in rows]
