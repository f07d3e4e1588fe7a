"""Executes the effects of runs: `async` ones in the event loop, plain ones in threads, and a limited number of each at once.

Whatever an effect raises, `SystemExit` too, is a value here, so that it reaches neither the loop nor a future.
"""

from __future__ import annotations

import asyncio
import contextlib
import contextvars
import inspect
from collections import Counter, deque
from collections.abc import Callable
from concurrent.futures import Future, ThreadPoolExecutor
from dataclasses import dataclass
from typing import Any

from .heartbeats import Pulse


@dataclass(frozen=True)
class Done:
    """What an effect returned."""

    value: Any


@dataclass(frozen=True)
class Raised:
    """What an effect raised."""

    error: BaseException


class Closed(Exception):
    """No execution begins any more."""


class Slots:
    """So many executions at once. Those that wait get theirs in turn by their owners, and one owner has at most half of them: so one with
    thousands doesn't keep the others out."""

    def __init__(self, most: int):
        self._free, self._each = most, max(1, most // 2)
        self._held = Counter[object]()
        self._waiting: dict[object, deque[asyncio.Future[None]]] = {}
        self._is_closed = False

    async def take(self, owner: object) -> None:
        """Waits for a slot. Raises `Closed` if there is none before the end."""
        if self._is_closed:
            raise Closed()
        future: asyncio.Future[None] = asyncio.get_running_loop().create_future()
        self._waiting.setdefault(owner, deque()).append(future)
        self._grant()
        try:
            await future
        except asyncio.CancelledError:
            if future.done() and not future.cancelled() and future.exception() is None:
                self.give(owner)
            raise

    def give(self, owner: object) -> None:
        """A slot of this owner is free again."""
        self._free += 1
        self._held[owner] -= 1
        if not self._held[owner]:
            del self._held[owner]
        self._grant()

    def close(self) -> None:
        """Those that wait get none."""
        self._is_closed = True
        for future in [it for queue in self._waiting.values() for it in queue]:
            if not future.done():
                future.set_exception(Closed())
        self._waiting.clear()

    def _grant(self) -> None:
        """Gives what is free to those that wait, one owner after the other."""
        full = 0  # owners in a row that may have no more
        while self._free and full < len(self._waiting):
            owner = next(iter(self._waiting))
            queue = self._waiting.pop(owner)
            if self._held[owner] >= self._each:
                self._waiting[owner] = queue
                full += 1
                continue
            future = queue.popleft()
            if queue:
                self._waiting[owner] = queue
            if not future.done():
                full, self._free = 0, self._free - 1
                self._held[owner] += 1
                future.set_result(None)


def _called(within: contextvars.Context, function: Callable[..., Any], arguments: tuple[Any, ...]) -> Done | Raised:
    try:
        return Done(within.run(function, *arguments))
    except BaseException as error:  # the value of a future can't be each error: `StopIteration` would never arrive
        return Raised(error)


def _too_long(seconds: float | None) -> Raised:
    return Raised(TimeoutError(f"it took longer than {seconds:g} s"))


class Executions:
    """The executions of one worker: `effects` of `async` functions at once, and `threads` of plain ones."""

    def __init__(self, effects: int, threads: int):
        self._effects, self._plain = Slots(effects), Slots(threads)
        self._threads = ThreadPoolExecutor(threads, thread_name_prefix="palqytun-effect")

    async def execute(
        self, owner: object, function: Callable[..., Any], arguments: tuple[Any, ...], seconds: float | None = None, pulse: Pulse | None = None
    ) -> Done | Raised:
        """Executes an effect once there is a slot for it, for `seconds` at most, and as long as it beats. Raises `Closed` if it didn't begin."""
        if pulse is None:
            return await self._executed(owner, function, arguments, seconds, lambda: None)
        try:
            if pulse.limit is None:
                return await self._executed(owner, function, arguments, seconds, pulse.begin)
            return await self._beating(asyncio.create_task(self._executed(owner, function, arguments, seconds, pulse.begin)), pulse)
        finally:
            await pulse.close()

    @staticmethod
    async def _beating(executing: asyncio.Task[Done | Raised], pulse: Pulse) -> Done | Raised:
        """What an execution gives that has to beat."""
        try:
            while not executing.done():
                left = pulse.left
                if left is not None and left <= 0:
                    return Raised(TimeoutError(f"it hasn't beaten for {pulse.limit:g} s"))
                await asyncio.wait([executing], timeout=pulse.limit if left is None else left)
            return executing.result()
        finally:
            executing.cancel()

    async def _executed(
        self, owner: object, function: Callable[..., Any], arguments: tuple[Any, ...], seconds: float | None, begins: Callable[[], None]
    ) -> Done | Raised:
        try:
            if not inspect.iscoroutinefunction(function):
                came = await self._in_thread(owner, function, arguments, seconds, begins)
                if isinstance(came, Raised) or not inspect.isawaitable(came.value):
                    return came
                awaitable = came.value
                return await self._awaited(owner, lambda: awaitable, (), seconds, begins)
            return await self._awaited(owner, function, arguments, seconds, begins)
        except Closed:
            raise
        except asyncio.CancelledError:
            raise
        except BaseException as error:
            return Raised(error)

    async def _awaited(
        self, owner: object, function: Callable[..., Any], arguments: tuple[Any, ...], seconds: float | None, begins: Callable[[], None]
    ) -> Done | Raised:
        await self._effects.take(owner)
        begins()
        try:
            async with asyncio.timeout(seconds) as time:
                return Done(await function(*arguments))
        except BaseException as error:
            if time.expired() and isinstance(error, TimeoutError):
                return _too_long(seconds)
            task = asyncio.current_task()
            if isinstance(error, asyncio.CancelledError) and task is not None and task.cancelling():
                raise
            return Raised(error)
        finally:
            self._effects.give(owner)

    async def _in_thread(
        self, owner: object, function: Callable[..., Any], arguments: tuple[Any, ...], seconds: float | None, begins: Callable[[], None]
    ) -> Done | Raised:
        await self._plain.take(owner)
        begins()
        loop, within = asyncio.get_running_loop(), contextvars.copy_context()
        future: Future[Done | Raised] = self._threads.submit(_called, within, function, arguments)

        def has_ended(_: Future[Any]) -> None:  # the slot is the thread's, also if nobody waits for it any more
            with contextlib.suppress(RuntimeError):  # the loop is closed
                loop.call_soon_threadsafe(self._plain.give, owner)

        future.add_done_callback(has_ended)
        done, _ = await asyncio.wait([asyncio.wrap_future(future)], timeout=seconds)
        return done.pop().result() if done else _too_long(seconds)

    def close(self) -> None:
        """What executes goes on, and nothing else begins."""
        self._effects.close()
        self._plain.close()

    def end(self) -> None:
        """Lets the threads go. One whose function doesn't return stays."""
        self.close()
        self._threads.shutdown(wait=False, cancel_futures=True)
