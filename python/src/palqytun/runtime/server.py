"""uvicorn, with limits on what clients may take: how many connections there are, how long a request's head may last, and how long a client may
leave its response unread. Signals are the command's.
"""

from __future__ import annotations

import asyncio
import contextlib
import errno
import resource
import socket
from collections.abc import Iterator
from typing import Any

import h11
import uvicorn  # type: ignore[import]
from starlette.responses import JSONResponse
from starlette.types import ASGIApp
from uvicorn.protocols.http.h11_impl import H11Protocol  # type: ignore[import]

from .tls import Certificate

CONNECTIONS = 1000
_SPARE = 64  # descriptors that the connections leave to the database, the log and the like
_HARD = 32  # connections above the limit that are still told why they are refused
_busy = JSONResponse({"code": 503, "message": "the server has all the connections that it may have; ask again"}, 503, {"retry-after": "1", "connection": "close"})


def connections_at_most(wanted: int) -> int:
    """How many connections there may be: those that are wanted, or as many as the process may open files for."""
    soft, _ = resource.getrlimit(resource.RLIMIT_NOFILE)
    return wanted if soft == resource.RLIM_INFINITY else max(1, min(wanted, soft - _SPARE - _HARD))


class Config(uvicorn.Config):  # type: ignore[misc]
    """What a server with limits needs. `patience`: the seconds that a client may take for a request's head, and to read its response. With a
    `certificate` it speaks TLS."""

    def __init__(self, app: ASGIApp, *, connections: int = CONNECTIONS, patience: float = 60.0, certificate: Certificate | None = None):
        self.connections, self.patience, self.certificate = connections_at_most(connections), patience, certificate
        options: dict[str, Any] = {"http": Protocol, "ws": "none", "lifespan": "off", "interface": "asgi3"}
        options |= {"log_config": None, "log_level": "error", "access_log": False, "proxy_headers": False, "server_header": False}
        super().__init__(app, **options, timeout_keep_alive=int(patience) + 1)

    def load(self) -> None:
        super().load()
        self.ssl = None if self.certificate is None else self.certificate.context


class Protocol(H11Protocol):  # type: ignore[misc]
    """A connection. A timer runs while it has no whole request, and while its client doesn't read."""

    config: Config
    _timer: asyncio.TimerHandle | None = None
    _unread: asyncio.TimerHandle | None = None

    def connection_made(self, transport: Any) -> None:
        super().connection_made(transport)
        if self.config.certificate is not None:
            self.config.certificate.renew()
        above = len(self.connections) - self.config.connections
        if above > _HARD:
            transport.abort()
        elif above > 0:
            self.app = _busy
        self._watch()

    def connection_lost(self, exc: Exception | None) -> None:
        self._unwatch()
        self._cancel_unread()
        super().connection_lost(exc)

    def handle_events(self) -> None:
        super().handle_events()
        if self.cycle is not None and not self.cycle.response_complete:
            self._unwatch()

    def on_response_complete(self) -> None:
        self._watch()
        super().on_response_complete()

    def pause_writing(self) -> None:
        super().pause_writing()
        self._unread = self._unread or self.loop.call_later(self.config.patience, self.transport.abort)

    def resume_writing(self) -> None:
        super().resume_writing()
        self._cancel_unread()

    def _watch(self) -> None:
        self._unwatch()
        self._timer = self.loop.call_later(self.config.patience, self._is_slow)

    def _unwatch(self) -> None:
        if self._timer is not None:
            self._timer.cancel()
            self._timer = None

    def _cancel_unread(self) -> None:
        if self._unread is not None:
            self._unread.cancel()
            self._unread = None

    def _is_slow(self) -> None:
        """No whole head of a request has come. A client that has begun one is told."""
        if self.conn.our_state is h11.IDLE and self.conn.trailing_data[0]:
            body = b'{"code": 408, "message": "the request hasn\'t come in time"}'
            headers = [(b"content-type", b"application/json"), (b"content-length", str(len(body)).encode()), (b"connection", b"close")]
            for event in (h11.Response(status_code=408, headers=headers), h11.Data(data=body), h11.EndOfMessage()):
                self.transport.write(self.conn.send(event))
        self.transport.close()


class Server(uvicorn.Server):  # type: ignore[misc]
    """Serves on a socket until `stop`."""

    def __init__(self, config: Config):
        super().__init__(config)
        self.is_up = asyncio.Event()

    def install_signal_handlers(self) -> None:
        """They are the command's. So uvicorn before 0.29 asks."""

    @contextlib.contextmanager
    def capture_signals(self) -> Iterator[None]:
        """They are the command's. So later versions ask."""
        yield

    async def startup(self, sockets: list[socket.socket] | None = None) -> None:
        await super().startup(sockets)
        self.is_up.set()

    def stop(self, grace: float) -> None:
        """Takes no connection any more. Requests that are being served may end within `grace` seconds."""
        self.should_exit = True
        asyncio.get_running_loop().call_later(grace, self._force)

    def _force(self) -> None:
        self.force_exit = True


class Taken(OSError):
    """Nothing can listen there, and why."""


def listening(host: str, port: int) -> socket.socket:
    """A socket at an address; at a free port if it is 0. Raises `Taken`."""
    try:
        family, *_, address = socket.getaddrinfo(host, port, type=socket.SOCK_STREAM, flags=socket.AI_PASSIVE)[0]
        made = socket.create_server(address[:2], family=family, backlog=1024)
        # Connections have this too. Else the second part of a response waits until the client has confirmed the first: 40 ms.
        made.setsockopt(socket.IPPROTO_TCP, socket.TCP_NODELAY, 1)
        return made
    except OSError as error:
        reason = "another process listens there; --port names another port" if error.errno == errno.EADDRINUSE else error.strerror or str(error)
        raise Taken(f"{host}:{port}: {reason}") from error
    except (OverflowError, UnicodeError) as error:
        raise Taken(f"{host[:100]}:{port}: {error}") from error


def address_of(sock: socket.socket, scheme: str = "http") -> str:
    host, port = sock.getsockname()[:2]
    return f"{scheme}://{f'[{host}]' if ':' in host else host}:{port}"
