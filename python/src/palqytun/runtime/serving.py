"""The ingress with its worker: served by uvicorn, as the command does, or as a part of a user's own ASGI application."""

from __future__ import annotations

import asyncio
import contextlib
import signal
import threading
from collections.abc import AsyncIterator, Callable, Iterator
from types import FrameType

from starlette.types import Receive, Scope, Send

from .door import is_loopback
from .engine import Engine
from .ingress import Ingress, Settings
from .process import warn_of_unproved
from .server import CONNECTIONS, Config, Server, address_of, listening
from .tls import Certificate
from .tokens import SHORTEST


class Unguarded(ValueError):
    """Others could reach the ingress, and nothing, or a token that is guessed soon, would ask who they are."""


def _check_guarded(host: str, settings: Settings) -> None:
    if settings.token is None and settings.tokens is None:
        raise Unguarded(f"{host} is reached by other hosts, so the ingress needs a token: set PALQYTUN_TOKEN, or listen on 127.0.0.1")
    if settings.token is not None and len(settings.token) < SHORTEST:
        raise Unguarded(f"{host} is reached by other hosts, so a token needs at least {SHORTEST} characters, and PALQYTUN_TOKEN has {len(settings.token)}")


class Http:
    """The ingress of a worker on an address. It listens from the beginning, and serves requests from `start` to `stop`.

    With a `certificate` it speaks TLS alone. Raises `Taken` if nothing can listen there, and `Unguarded` if other hosts could call handlers without a
    token, or by one that is short."""

    def __init__(
        self,
        engine: Engine,
        settings: Settings,
        host: str,
        port: int,
        *,
        connections: int = CONNECTIONS,
        grace: float = 10.0,
        certificate: Certificate | None = None,
    ):
        if not is_loopback(host):
            _check_guarded(host, settings)
        self._ingress, self._grace = Ingress(engine, settings), grace
        self._socket, self._scheme = listening(host, port), "http" if certificate is None else "https"
        self._server = Server(Config(self._ingress.app, connections=connections, patience=settings.patience, certificate=certificate))
        self._serving: asyncio.Task[None] | None = None

    async def start(self) -> str:
        """Serves requests from now on; returns the address."""
        address = address_of(self._socket, self._scheme)
        self._serving = asyncio.create_task(self._server.serve(sockets=[self._socket]))
        is_up = asyncio.create_task(self._server.is_up.wait())
        await asyncio.wait([self._serving, is_up], return_when=asyncio.FIRST_COMPLETED)
        is_up.cancel()
        return address

    async def ended(self) -> None:
        """Until it serves no more."""
        if self._serving is not None:
            await asyncio.wait([self._serving])

    def stop(self) -> None:
        """Requests that wait for a result get 202 now. Those that are being served have some seconds, and no others come."""
        self._ingress.close()
        if self._serving is not None:
            self._server.stop(self._grace)

    async def close(self) -> None:
        """Stops, and raises what has ended the server if it wasn't that."""
        self.stop()
        if self._serving is None:
            self._socket.close()
        else:
            await self._serving  # it closes the socket


@contextlib.contextmanager
def _told_of_signals(stop: Callable[[], None]) -> Iterator[None]:
    """SIGTERM and SIGINT call `stop` in the loop, and then do what they did before: a server lets requests end first, and only then says by its
    lifespan that it stops. One that doesn't listen for a signal, or runs in another thread than the main one, isn't asked."""
    loop = asyncio.get_running_loop()
    if threading.current_thread() is not threading.main_thread():
        yield
        return
    before = {number: it for number in (signal.SIGTERM, signal.SIGINT) if callable(it := signal.getsignal(number))}

    def came(number: int, frame: FrameType | None) -> None:
        with contextlib.suppress(RuntimeError):  # the loop is closed
            loop.call_soon_threadsafe(stop)
        before[signal.Signals(number)](number, frame)

    for number in before:
        signal.signal(number, came)
    try:
        yield
    finally:
        for number, handler in before.items():
            if signal.getsignal(number) is came:
                signal.signal(number, handler)


class Mountable:
    """An ASGI application: the ingress of a worker that runs as long as `lifespan`.

        durable = app.asgi("postgresql://..")
        site = Starlette(routes=[Mount("/durable", durable)], lifespan=durable.lifespan)

    A server that serves it as it is runs the worker by ASGI's own lifespan. When the process is told to stop by SIGTERM or SIGINT, requests that wait
    get 202 at once; a server that stops for another reason calls `stop`."""

    def __init__(self, engine: Engine, settings: Settings):
        self.engine, self._ingress = engine, Ingress(engine, settings)
        self._ingress.app.router.lifespan_context = self.lifespan

    @contextlib.asynccontextmanager
    async def lifespan(self, app: object = None) -> AsyncIterator[None]:
        """Runs the worker. Its database is open when this begins; what is wrong with it is raised."""
        warn_of_unproved()
        running = asyncio.create_task(self.engine.run())
        is_open = asyncio.create_task(self.engine.is_open())
        await asyncio.wait([running, is_open], return_when=asyncio.FIRST_COMPLETED)
        is_open.cancel()
        try:
            if running.done():
                running.result()
            with _told_of_signals(self.stop):
                yield
        finally:
            self.stop()
            await running

    def stop(self) -> None:
        """The server begins to stop: requests that wait get 202 and the id of their invocation, others are refused with 503, and
        the worker ends as it does by SIGTERM. It is called in the event loop, and may be called again."""
        self._ingress.close()
        self.engine.stop()

    async def __call__(self, scope: Scope, receive: Receive, send: Send) -> None:
        await self._ingress.app(scope, receive, send)
