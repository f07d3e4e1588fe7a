"""A worker with its ingress on a port of this host, and its clients: requests as values, and as the bytes on a socket."""

import asyncio
import contextlib
import http.client
import json
import socket
import time

import support
from palqytun.runtime.engine import Engine
from palqytun.runtime.serving import Http, Settings


async def _answered(reader):
    """All that comes, until the other side closes or resets the connection."""
    said = b""
    with contextlib.suppress(ConnectionError):
        while some := await reader.read(1 << 16):
            said += some
    return said


class Served:
    """`limit=0` as an option of the worker runs no handler. `ends`: seconds in which requests that have begun may end when it stops."""

    def __init__(self, app, url, settings=Settings(), *, connections=1000, ends=1.0, certificate=None, **worker):
        self.engine = Engine(app, url, **{"idle": support.IDLE, "poll": 0.2, "lease": support.LEASE, **worker})
        self.http = Http(self.engine, settings, "127.0.0.1", 0, connections=connections, grace=ends, certificate=certificate)

    async def __aenter__(self):
        self.running = asyncio.create_task(self.engine.run())
        await asyncio.wait_for(self.engine.is_open(), support.LONG)
        self.address = await self.http.start()
        self.port = int(self.address.rpartition(":")[2])
        return self

    async def __aexit__(self, *error):
        self.http.stop()
        self.engine.stop()
        await self.running
        await self.http.close()

    @property
    def connections(self):
        """How many connections the server has."""
        return len(self.http._server.server_state.connections)

    @property
    def requests(self):
        """How many requests are in work: those whose head has come."""
        return len(self.http._server.server_state.tasks)

    async def rows(self, sql, *values):
        return await self.engine.transact(lambda db: db.rows(sql, values))

    async def ask(self, path, body=None, method="POST", **headers):
        """The status, the value, and the headers of an answer."""
        return await asyncio.to_thread(self._asked, path, body, method, {name.replace("_", "-"): it for name, it in headers.items()})

    def _asked(self, path, body, method, headers):
        connection = http.client.HTTPConnection("127.0.0.1", self.port, timeout=support.LONG)
        try:
            connection.request(method, path, json.dumps(body).encode() if not isinstance(body, (bytes, type(None))) else body, headers)
            reply = connection.getresponse()
            data = reply.read()
            return reply.status, json.loads(data) if data[:1] in (b"{", b"[", b'"') or data.isdigit() else data.decode(), reply.headers
        finally:
            connection.close()

    async def client(self):
        return await asyncio.open_connection("127.0.0.1", self.port)

    async def raw(self, first=b"", *pieces):
        """All that is answered to these bytes, until the server closes the connection, which may be before it has the last of them. The first ones are there
        when it takes the connection."""
        client = socket.create_connection(("127.0.0.1", self.port), support.LONG)
        client.sendall(first)
        client.setblocking(False)
        reader, writer = await asyncio.open_connection(sock=client)
        said = asyncio.create_task(_answered(reader))
        with contextlib.suppress(ConnectionError):
            for it in pieces:
                await asyncio.sleep(0.02)
                writer.write(it)
                await writer.drain()
        try:
            return await asyncio.wait_for(said, support.LONG)
        finally:
            writer.close()

    async def until(self, found):
        """Waits until it is so."""
        until = time.monotonic() + support.LONG
        while not found():
            if time.monotonic() > until:
                raise AssertionError("it isn't so")
            await asyncio.sleep(0.02)
