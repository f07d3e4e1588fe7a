"""What programs call: handlers by their own types, from outside of handlers."""

from __future__ import annotations

import time
from dataclasses import dataclass
from typing import Any, Generic, TypeVar, overload

from . import journal, queues, sealing
from .codec import BadValue, decoded, encoded
from .desk import Desk, RemoteDesk
from .effects import awakeable_of
from .invocations import LONGEST_DELAY, New
from .services import App, Handler, I, O, TerminalError, named, to_text_headers

T_co = TypeVar("T_co", covariant=True)


@dataclass(frozen=True)
class Invocation(Generic[T_co]):
    """An invocation, by its `id`. `gives` is the type of its result."""

    client: Client
    id: str
    gives: Any = Any

    async def result(self, wait: float | None = None) -> T_co:
        """What it ends with. Its failure is raised as a `TerminalError`. `TimeoutError` if it hasn't ended after `wait` seconds; it goes on then."""
        return self.client._read(await self.client._desk.result(self.id, wait), self.gives, self.id)  # type: ignore[no-any-return]

    async def cancel(self) -> bool:
        """What it awaits raises `Cancelled`. Whether there is such an invocation that hasn't ended."""
        return await self.client._desk.cancel(self.id)

    async def signal(self, name: str, value: object = None) -> bool:
        """Sends it a signal, which `ctx.signal(name)` awaits. Whether there is such an invocation that hasn't ended."""
        return await self.client._desk.notify(self.id, journal.named_signal(name, self.client._result(value)))


class Client:
    """Calls the handlers of an app from a program that is no handler. By itself it has a connection, and no worker:

        async with Client(app, "postgresql://..") as client:
            receipt = await client.call(order, Order("ann"), idempotency_key="o-17")
            sent = await client.send(remind, "ann", delay=3600)
            await sent.cancel()

    `engine.client` is one by a worker's connection. Each call raises `Unavailable`, a `TerminalError` with code 503, as long as the database can't be used;
    whether it was stored isn't known then, so ask again with an idempotency key. `app` may be without services, if these are served by others:
    then handlers are named as "Service/handler", and values have no types.
    """

    def __init__(self, app: App | Desk, url: str = "palqytun.db"):
        self._desk: Desk = app if isinstance(app, Desk) else RemoteDesk(app, url)

    async def __aenter__(self) -> Client:
        if isinstance(self._desk, RemoteDesk):
            await self._desk.open()
        return self

    async def __aexit__(self, *error: object) -> None:
        if isinstance(self._desk, RemoteDesk):
            await self._desk.close()

    @overload
    async def call(
        self, target: Handler[I, O], argument: I = ..., *, key: str = "", idempotency_key: str | None = None,
        headers: dict[str, str] | None = None, priority: int = 0, queue_key: str | None = None, wait: float | None = None,
    ) -> O: ...  # fmt: skip
    @overload
    async def call(
        self, target: str, argument: object = None, *, key: str = "", idempotency_key: str | None = None,
        headers: dict[str, str] | None = None, priority: int = 0, queue_key: str | None = None, wait: float | None = None,
    ) -> Any: ...  # fmt: skip
    async def call(self, target: Handler[Any, Any] | str, argument: object = None, *, wait: float | None = None, **named: Any) -> Any:
        """Calls a handler, and waits for its result. `TimeoutError` if it hasn't ended after `wait` seconds; it goes on then."""
        sent: Invocation[Any] = await self.send(target, argument, **named)
        return await sent.result(wait)

    @overload
    async def send(
        self, target: Handler[I, O], argument: I = ..., *, key: str = "", delay: float = 0, idempotency_key: str | None = None,
        headers: dict[str, str] | None = None, priority: int = 0, queue_key: str | None = None,
    ) -> Invocation[O]: ...  # fmt: skip
    @overload
    async def send(
        self, target: str, argument: object = None, *, key: str = "", delay: float = 0, idempotency_key: str | None = None,
        headers: dict[str, str] | None = None, priority: int = 0, queue_key: str | None = None,
    ) -> Invocation[Any]: ...  # fmt: skip
    async def send(
        self,
        target: Handler[Any, Any] | str,
        argument: object = None,
        *,
        key: str = "",
        delay: float = 0,
        idempotency_key: str | None = None,
        headers: dict[str, str] | None = None,
        priority: int = 0,
        queue_key: str | None = None,
    ) -> Invocation[Any]:
        """Calls a handler, at once or after a delay in seconds, and doesn't wait for it. It is stored when this returns. With the same idempotency key
        the same call is made once. `priority` and `queue_key` are for the handler's `Queue`, if it has one. `TerminalError` with code 404 if nobody serves the
        handler, and 400 if the key, the argument or the delay isn't allowed."""
        app, gives = self._desk.app, Any
        service, name = named(target)
        handler = target if isinstance(target, Handler) else app.known(service, name)
        data = encoded(app.codec, argument)
        if handler is not None:
            gives = handler.gives
            try:
                decoded(app.codec, data, handler.takes)
            except BadValue as error:
                raise TerminalError(f"the argument of {handler.path}: {error}", 400) from error
        told = to_text_headers(queues.headers(headers, priority, queue_key))
        if not delay <= LONGEST_DELAY:  # NaN too
            raise TerminalError(f"the delay is {delay}, and {LONGEST_DELAY:.0f} seconds are allowed", 400)
        new = New(service, name, key, data, told, idempotency_key, time.time() + delay if delay else 0)
        return Invocation(self, await self._desk.submit(new), gives)

    def invocation(self, id: str, gives: Any = Any) -> Invocation[Any]:
        """One that was made before."""
        return Invocation(self, id, gives)

    async def resolve_awakeable(self, id: str, value: object = None) -> bool:
        """Completes an awakeable. Whether its invocation is there and hasn't ended. A value that isn't of its type is a failure at its await."""
        invocation, number = awakeable_of(id)
        return await self._desk.notify(invocation, journal.signal(number, self._result(value)))

    async def reject_awakeable(self, id: str, message: str, code: int = 500) -> bool:
        """Completes an awakeable by a failure."""
        return await self.resolve_awakeable(id, TerminalError(message, code))

    def _result(self, value: object) -> journal.Result:
        if isinstance(value, TerminalError):
            return journal.failure(value.code, sealing.text(self._desk.app.codec, value.message), value.metadata)
        return journal.value(encoded(self._desk.app.codec, value))

    def _read(self, result: journal.Result | None, gives: Any, id: str) -> Any:
        """The value of a result. Its failure is raised."""
        if result is None:
            raise TerminalError(f"there is no invocation {id}", 404)
        kind, it = journal.answer(result)
        if kind == "failure":
            raise TerminalError(sealing.clear(self._desk.app.codec, it[1]), it[0], it[2])
        return None if kind == "void" else decoded(self._desk.app.codec, it, gives)
