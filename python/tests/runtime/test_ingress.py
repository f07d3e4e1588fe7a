"""The ingress on real sockets: what it refuses, and that nothing is stored of that; clients that are slow, go or are too many; its stop."""

import asyncio
import base64
import resource
import socket
import struct
import threading
import time
import unittest
from unittest import mock

import support  # isort: skip
import needs

if lacks := needs.lacks_server():
    raise unittest.SkipTest(lacks)
import runtime_app
from palqytun.runtime import App, Context, Service, effects
from palqytun.runtime.names import LONGEST
from palqytun.runtime.server import connections_at_most
from palqytun.runtime.serving import Http, Settings, Unguarded
from prometheus_client.parser import text_string_to_metric_families
from runtime_app import seen
from served import Served

LONG = "k" * (LONGEST + 1)
SMALL = Settings(payload=1000)


def with_ingress(settings=Settings(), **options):
    """A test with a worker and its ingress."""

    def made(test):
        def run(self):
            async def go():
                async with Served(runtime_app.app, self.url, settings, **options) as served:
                    await test(self, served)

            asyncio.run(go())

        run.__doc__ = test.__doc__
        return run

    return made


REFUSED = [
    ("/S/echo", b"x" * 1001, {}, 413, "1001 bytes, and may have 1000"),
    (f"/O/{LONG}/add", b"1", {}, 400, "the key has 1001 bytes in UTF-8, and 1000 are allowed"),
    ("/O/a%00b/add", b"1", {}, 400, "the path or the query has the character NUL"),
    ("/O//add", b"1", {}, 400, "O/add is called with a key"),
    ("/S/echo", b"1", {"idempotency_key": LONG}, 400, "the idempotency key has 1001 bytes in UTF-8, and 1000 are allowed"),
    (f"/{LONG}/echo", b"1", {}, 400, "the service's name has 1001 bytes"),
    (f"/S/{LONG}", b"1", {}, 400, "the handler's name has 1001 bytes"),
    ("/S/echo/send?delay=x", b"1", {}, 400, "delay=x is no number of seconds"),
    ("/S/echo/send?dealy=5", b"1", {}, 400, "the query has 'dealy', and may have wait, delay, priority, queue-key"),
    ("/-/acts/kill?service=S&staus=paused", b"", {}, 400, "the query has 'staus', and may have status, service, "),
    ("/-/acts/kill?service=S&dryrun=1", b"", {}, 400, "the query has 'dryrun', and may have status, service, "),
    ("/-/invocations/ID/kill?step=1", b"", {}, 400, "the query has 'step', and may have nothing"),
    ("/-/schedules/daily/backfill?from=2026-01-01", b"", {}, 400, "the query has 'from', and may have since, until"),
    ("/S/echo/send?delay=-1", b"1", {}, 400, "from 0 to 10000000000 seconds"),
    ("/S/echo/send?delay=nan", b"1", {}, 400, "delay=nan is out of bounds"),
    ("/S/echo?wait=3601", b"1", {}, 400, "from 0 to 3600 seconds"),
    ("/S/echo", b"{", {}, 400, "the argument of S/echo: "),
    ("/S/echo", b"\xff", {}, 400, "the argument of S/echo: "),
    ("/S/typed", b'{"items": 1}', {}, 400, "the argument of S/typed: 1 is no list"),
    ("/S/%ff", b"1", {}, 400, "the path is no UTF-8"),
    ("/S/none", b"1", {}, 404, "there is no handler S/none"),
    ("/None/echo", b"1", {}, 404, "there is no service None"),
    ("/S/echo/send/send", b"1", {}, 404, "the path is /S/HANDLER, or /S/HANDLER/send, which doesn't wait"),
    ("/O/k", b"1", {}, 404, "the path is /O/KEY/HANDLER, or /O/KEY/HANDLER/send, which doesn't wait"),
    ("/-/none", b"1", {}, 404, "there is no POST /-/none"),
    ("/S/echo", b"1", {"origin": "http://evil.example"}, 403, "the origin 'http://evil.example' isn't this address"),
    ("/S/echo", b"1", {"origin": "null"}, 403, "the origin 'null' isn't this address"),
    ("/S/echo", b"1", {"host": "evil.example"}, 403, "the host 'evil.example' isn't known here"),
    ("/-/invocations/inv_none/cancel", b"", {}, 404, "there is no invocation"),
    ("/-/invocations/inv_none/signals/go", b"1", {}, 404, "there is no invocation"),
    (f"/-/invocations/ID/signals/{LONG}", b"1", {}, 400, "the signal's name has 1001 bytes"),
    ("/-/invocations/ID/signals/a%00b", b"1", {}, 400, "the path or the query has the character NUL"),
    ("/-/invocations/a%00b/cancel", b"", {}, 400, "the path or the query has the character NUL"),
    ("/-/invocations/ID/signals/", b"1", {}, 400, "the signal has no name"),
    ("/-/invocations/ID/signals/go", b"{", {}, 400, "the body is no value"),
    ("/-/invocations/ID/signals/go", b"x" * 1001, {}, 413, "may have 1000"),
    ("/-/invocations/ID/resume", b"", {}, 409, "is ready, and not paused"),
    ("/-/invocations/ID/restart", b"", {}, 409, "hasn't ended: kill it before"),
    ("/-/invocations/inv_none/restart?step=1", b"", {}, 404, "there is no invocation"),
    ("/-/invocations/ID/restart?step=x", b"", {}, 400, "step=x is no whole number"),
    ("/-/acts/cancel", b"", {}, 400, "say which invocations"),
    ("/-/acts/cancel?status=lost", b"", {}, 400, "status=lost is none"),
    ("/-/acts/shoot?all=1", b"", {}, 404, "there is no act shoot"),
    ("/-/awakeables/none/resolve", b"1", {}, 400, "none is no awakeable"),
    ("/-/awakeables/sign_1YWJjAAAAEQ/resolve", b"1", {}, 404, "there is no such awakeable"),
]
TABLES = ("invocations", "journal", "inbox", "timers", "waiters", "state", "promises", "audit")


@support.on_each_database
class Refusals(support.OnADatabase):
    async def stored(self, served):
        return [await served.rows(f"SELECT * FROM {it}") for it in TABLES]

    @with_ingress(SMALL, limit=0)
    async def test_what_is_refused_says_why_and_is_not_stored(self, served):
        _, made, _ = await served.ask("/O/k/add/send", 1)
        before = await self.stored(served)
        for path, body, headers, code, text in REFUSED:
            with self.subTest(path=path[:60], body=body[:20]):
                status, said, _ = await served.ask(path.replace("ID", made["invocation"]), body, **headers)
                self.assertEqual((status, said["code"]), (code, code))
                self.assertIn(text, said["message"])
        self.assertEqual(await self.stored(served), before)

    @with_ingress(SMALL)
    async def test_what_is_just_allowed(self, served):
        key = "k" * LONGEST
        self.assertEqual((await served.ask(f"/O/{key}/add", 1, idempotency_key=key))[:2], (200, [1, ["n"]]))
        self.assertEqual((await served.ask("/S/echo", b'"' + b"x" * 998 + b'"'))[:2], (200, "x" * 998))
        self.assertEqual((await served.ask("/O/a%2Fb%20%C3%A9/add", 1))[:2], (200, [1, ["n"]]))
        self.assertEqual(await served.rows("SELECT key FROM invocations ORDER BY seq DESC LIMIT 1"), [("a/b é",)])

    @with_ingress(SMALL, limit=0)
    async def test_a_body_in_chunks_that_is_too_large(self, served):
        head = b"POST /S/echo HTTP/1.1\r\nhost: localhost\r\ntransfer-encoding: chunked\r\nconnection: close\r\n\r\n"
        said = await served.raw(head, *[b"190\r\n" + b"1" * 400 + b"\r\n"] * 3, b"0\r\n\r\n")
        self.assertTrue(said.startswith(b"HTTP/1.1 413 ") and b"may have 1000" in said, said)
        self.assertEqual(await served.rows("SELECT 1 FROM invocations"), [])

    @with_ingress(limit=0)
    async def test_other_methods(self, served):
        for method in ("GET", "PUT", "DELETE", "OPTIONS"):
            self.assertEqual((await served.ask("/S/echo", b"", method))[:2], (405, {"code": 405, "message": f"a handler is called by POST, and not by {method}"}))
        _, root, *_ = await served.ask("/", b"", "GET")  # the address that a worker prints
        self.assertEqual(root["message"], "a handler is called by POST, and not by GET; /-/page is the operator's page")
        self.assertEqual((await served.ask("/-/invocations?servise=S", method="GET"))[0], 400)
        self.assertEqual((await served.ask("/-/audit?id=inv_1", method="GET"))[0], 400)
        self.assertEqual((await served.ask("/-/invocations?most=0", method="GET"))[0], 400)
        self.assertEqual((await served.ask("/-/invocations?most=1e3", method="GET"))[0], 400)
        self.assertEqual((await served.ask("/-/invocations?most=10", method="GET"))[0], 200)
        for path in ("/-/invocations?service=a%00b", "/-/invocations/a%00b", "/-/invocations/a%00b/result", "/-/page/a%00b", "/-/page?status=a%00b"):
            self.assertEqual((await served.ask(path, method="GET"))[0], 400, path)
        for path in ("/-/invocations/none", "/-/invocations/none/journal", "/-/invocations/none/timeline", "/-/invocations/none/result", "/-/page/none"):
            self.assertEqual((await served.ask(path, method="GET"))[0], 404, path)


told = Service("Told")


@told.handler()
async def headers(ctx: Context, it: object) -> dict[str, str]:
    return ctx.headers


@told.handler()
async def nothing(ctx: Context, it: object) -> object:
    return it


@support.on_each_database
class Values(support.OnADatabase):
    def test_nothing_is_null(self):
        async def go():
            async with Served(App(told), self.url) as served:
                for body in (b"", b"null"):
                    status, said, headers = await served.ask("/Told/nothing", body)
                    self.assertEqual((status, said, headers["content-type"]), (200, "null", "application/json"))
                self.assertEqual((await served.ask("/Told/nothing", b'""'))[:2], (200, ""))

        asyncio.run(go())


@support.on_each_database
class Headers(support.OnADatabase):
    """Those of a request that a handler gets."""

    def test_those_that_the_app_names(self):
        async def go():
            async with Served(App(told, headers=["X-Tenant", "x-user"]), self.url) as served:
                sent = {"x_tenant": "acme", "x_other": "no", "authorization": "Bearer secret", "cookie": "secret"}
                self.assertEqual((await served.ask("/Told/headers?priority=3", 1, **sent))[:2], (200, {"palqytun-priority": "3", "x-tenant": "acme"}))
                self.assertEqual(await served.rows("SELECT COUNT(*) FROM invocations"), [(1,)])
                status, said, _ = await served.ask("/Told/headers", 1, x_user=LONG)
                self.assertEqual((status, said["message"]), (400, "the header x-user has 1001 bytes in UTF-8, and 1000 are allowed"))
                self.assertEqual(await served.rows("SELECT COUNT(*) FROM invocations"), [(1,)])

        asyncio.run(go())

    def test_names_that_are_refused(self):
        for names, why in (
            ("x-tenant", "a list of names"),
            (["a b"], "'a b' is no name of a header"),
            ([""], "'' is no name"),
            ([5], "5 is no name"),
            (["Authorization"], "can't get the header authorization"),
            (["palqytun-priority"], "can't get the header palqytun-priority"),
        ):
            with self.subTest(names), self.assertRaisesRegex(ValueError, why):
                App(told, headers=names)


class Understood(support.OnADatabase, unittest.TestCase):
    """Requests as bytes."""

    @with_ingress()
    async def test_no_part_of_a_response_waits_for_the_client(self, served):
        """Else each response takes 40 ms, since it has two parts."""
        reader, writer = await served.client()
        await served.until(lambda: served.connections)
        [connection] = served.http._server.server_state.connections
        self.assertTrue(connection.transport.get_extra_info("socket").getsockopt(socket.IPPROTO_TCP, socket.TCP_NODELAY))
        writer.close()

    @with_ingress(limit=0)
    async def test_what_is_not_understood(self, served):
        for request, status in [
            (b"nonsense\r\n\r\n", 400),
            (b"GET http://localhost/-/health HTTP/1.1\r\nhost: localhost\r\nconnection: close\r\n\r\n", 404),
            (b"GET /-/health HTTP/1.1\r\nhost: localhost\r\nno header\r\n\r\n", 400),
            (b"GET /-/health HTTP/1.1\r\nhost: localhost\r\nbad name: x\r\n\r\n", 400),
            (b"GET /-/health HTTP/1.1\r\n\r\n", 400),  # no host
            (b"POST /S/echo HTTP/1.1\r\nhost: localhost\r\ncontent-length: -1\r\n\r\n", 400),
            (b"POST /S/echo HTTP/1.1\r\nhost: localhost\r\ncontent-length: 1\r\ncontent-length: 2\r\n\r\nab", 400),
            (b"POST /S/echo HTTP/1.1\r\nhost: localhost\r\ntransfer-encoding: gzip\r\n\r\n", 400),
            (b"POST /S/echo HTTP/1.1\r\nhost: localhost\r\ncontent-length: 99999999999\r\nconnection: close\r\n\r\n", 413),
            (b"POST /S/echo HTTP/1.1\r\nhost: localhost\r\nx: a\nb\r\nconnection: close\r\n\r\n", 400),  # a line that ends in a value
        ]:
            with self.subTest(request=request[:70]):
                said = await served.raw(request)
                self.assertEqual(said.split(b" ")[1], str(status).encode(), said)
        self.assertEqual(await served.rows("SELECT 1 FROM invocations"), [])

    @with_ingress()
    async def test_in_pieces_and_on_one_connection(self, served):
        one = b'POST /S/echo HTTP/1.1\r\nhost: localhost\r\ncontent-length: 7\r\n\r\n"hello"'
        last = one.replace(b"host:", b"connection: close\r\nhost:")
        said = await served.raw(*[one[at : at + 9] for at in range(0, len(one), 9)], one, last)
        self.assertEqual(said.count(b'"hello"'), 3)

    @with_ingress()
    async def test_the_numbers(self, served):
        await served.ask("/S/echo", 1)
        _, said, headers = await served.ask("/-/metrics", method="GET")
        found = {(it.name, *it.labels.values()): it.value for family in text_string_to_metric_families(said) for it in family.samples}
        self.assertEqual(found["palqytun_invocations", "done"], 1)
        self.assertEqual(found["palqytun_attempts_total",], 1)
        self.assertTrue(headers["content-type"].startswith("text/plain"))


class Clients(support.OnADatabase, unittest.TestCase):
    CALL = b"POST /S/waits HTTP/1.1\r\nhost: localhost\r\ncontent-length: 0\r\n\r\n"

    @with_ingress()
    async def test_clients_that_go_leave_nothing(self, served):
        clients = [await served.client() for _ in range(40)]
        for _, writer in clients:
            writer.write(self.CALL)
        await served.until(lambda: len(served.engine._results) == 40)
        self.assertEqual(served.connections, 40)
        for _, writer in clients[:20]:
            writer.close()  # the other half says only that it sends no more
        for _, writer in clients[20:]:
            writer.write_eof()
        await served.until(lambda: served.connections == 0 and not served.engine._results)
        for _, writer in clients:
            writer.close()
        self.assertEqual(await served.rows("SELECT COUNT(*) FROM invocations"), [(40,)])

    @with_ingress(Settings(wait=0.3))
    async def test_a_call_that_takes_long_gets_its_id(self, served):
        begun = time.monotonic()
        status, said, _ = await served.ask("/S/waits")
        self.assertEqual((status, said["status"]), (202, "pending"))
        self.assertGreaterEqual(time.monotonic() - begun, 0.3)
        self.assertEqual((await served.ask(f"/-/invocations/{said['invocation']}/result", method="GET"))[:2], (202, said))
        self.assertEqual((await served.ask(f"/-/invocations/{said['invocation']}/result?wait=0", method="GET"))[:2], (202, said))

    @with_ingress(connections=2, limit=0)
    async def test_more_clients_than_may_be(self, served):
        idle = [await served.client() for _ in range(2)]
        await served.until(lambda: served.connections == 2)
        status, said, headers = await served.ask("/-/health", method="GET")
        self.assertEqual((status, headers["retry-after"]), (503, "1"))
        self.assertIn("all the connections that it may have", said["message"])
        many = [await served.client() for _ in range(60)]
        await served.until(lambda: served.connections <= 2 + 32)  # the others are closed at once
        for _, writer in idle + many:
            writer.close()
        await served.until(lambda: served.connections == 0)
        self.assertEqual((await served.ask("/-/health", method="GET"))[0], 200)

    def test_some_descriptors_are_left_to_the_worker(self):
        for soft, most in ((256, 160), (64, 1), (100_000, 1000), (resource.RLIM_INFINITY, 1000)):
            with mock.patch("resource.getrlimit", return_value=(soft, soft)):
                self.assertEqual(connections_at_most(1000), most)

    @with_ingress(Settings(patience=1.0), limit=0)
    async def test_clients_that_are_slow(self, served):
        self.assertEqual(await served.raw(), b"")
        for pieces, text in [
            ((b"POST /S/ec",), b"the request hasn't come in time"),
            ((b"POST /S/echo HTTP/1.1\r\nhost: localhost\r\nx: y\r\n",), b"the request hasn't come in time"),
            ((b"POST /S/echo HTTP/1.1\r\nhost: localhost\r\ncontent-length: 5\r\n\r\n123",), b"the body hasn't come within"),
        ]:
            said = await served.raw(*pieces)
            self.assertTrue(said.startswith(b"HTTP/1.1 408 ") and text in said, said)
        self.assertEqual(await served.rows("SELECT 1 FROM invocations"), [])

    @with_ingress(Settings(patience=0.5))
    async def test_a_client_that_does_not_read(self, served):
        reader, writer = await served.client()
        writer.transport.pause_reading()
        writer.write(b'POST /S/echo HTTP/1.1\r\nhost: localhost\r\ncontent-length: 4000002\r\n\r\n"' + b"x" * 4_000_000 + b'"')
        await served.until(lambda: served.connections == 1)
        await served.until(lambda: served.connections == 0)
        writer.close()


@support.on_each_database
class Stops(support.OnADatabase):
    @with_ingress(ends=support.LONG)
    async def test_what_waits_is_told(self, served):
        waiting = [asyncio.create_task(served.ask("/S/waits")) for _ in range(5)]
        await served.until(lambda: len(served.engine._results) == 5)
        reader, writer = await served.client()
        writer.write(b"POST /S/echo HTTP/1.1\r\nhost: localhost\r\ncontent-length: 1\r\n\r\n")
        await served.until(lambda: served.requests == 6)
        served.http.stop()
        answers = await asyncio.gather(*waiting)
        stored = {row[0] for row in await served.rows("SELECT id FROM invocations")}
        self.assertEqual({said["invocation"] for _, said, _ in answers}, stored)
        self.assertEqual({(status, said["status"]) for status, said, _ in answers}, {(202, "pending")})
        writer.write(b"1")  # a request that has begun, and comes to its end while the worker stops
        said = await asyncio.wait_for(reader.read(), support.LONG)
        self.assertTrue(said.startswith(b"HTTP/1.1 503 ") and b"retry-after: 1" in said, said)
        self.assertEqual(await served.rows("SELECT COUNT(*) FROM invocations"), [(5,)])


class Guards(support.OnADatabase, unittest.TestCase):
    @with_ingress(Settings(token="secret"), limit=0)
    async def test_a_token(self, served):
        for headers, status in [({}, 401), ({"authorization": "Bearer wrong"}, 401), ({"authorization": "Bearer secret", "host": "any.example"}, 200)]:
            self.assertEqual((await served.ask("/-/schedules", method="GET", **headers))[0], status)
        foreign = {"authorization": "Bearer secret", "origin": "http://evil.example"}
        self.assertEqual((await served.ask("/-/schedules", method="GET", **foreign))[0], 403)
        self.assertEqual((await served.ask("/-/health", method="GET"))[0], 200)

    @with_ingress(Settings(origins=("https://ops.example",)), limit=0)
    async def test_an_origin_before_which_a_proxy_stands(self, served):
        for headers, status in [
            ({"host": "ops.example", "origin": "https://ops.example"}, 202),
            ({"host": "127.0.0.1:8080", "origin": "https://ops.example"}, 202),  # the proxy says another host
            ({"host": "other.example"}, 403),
            ({"host": "ops.example", "origin": "https://other.example"}, 403),
            ({"host": "localhost:80", "origin": "http://localhost:80"}, 202),
        ]:
            self.assertEqual((await served.ask("/S/echo/send", 1, **headers))[0], status, headers)

    def test_it_listens_to_other_hosts_only_with_a_token(self):
        for host in ("0.0.0.0", "::", "10.0.0.1"):
            with self.assertRaisesRegex(Unguarded, "set PALQYTUN_TOKEN, or listen on 127.0.0.1"):
                Http(None, Settings(), host, 0)
            with self.assertRaisesRegex(Unguarded, "a token needs at least 16 characters, and PALQYTUN_TOKEN has 15"):
                Http(None, Settings(token="0123456789abcde"), host, 0)
        with self.assertRaisesRegex(ValueError, "is no origin"):
            Http(None, Settings(origins=("ops.example",)), "127.0.0.1", 0)


def id_of(invocation, number):
    return "sign_1" + base64.urlsafe_b64encode(invocation.encode() + struct.pack(">I", number)).decode().rstrip("=")


approvals = Service("A")
begun: list = []
in_replay, gate, replays = threading.Event(), threading.Event(), []


@approvals.handler()
async def asks(ctx: Context, name: str) -> list[bool | str | int]:
    (first, is_good), (second, how_many) = ctx.awakeable(bool), ctx.awakeable(int)
    await ctx.run("tell", lambda: begun.append((name, first, second)))
    return [name, await is_good, await how_many]


@approvals.handler()
async def changes(ctx: Context, _: None) -> bool:
    """It isn't as its journal any more."""
    begun.append(ctx.awakeable(bool)[0])
    await (ctx.sleep(3600) if len(begun) == 1 else ctx.run("other", lambda: None))
    return await ctx.awakeable(bool)[1]


@approvals.handler()
async def slowly(ctx: Context, seconds: float) -> bool:
    """Its own code takes some time in a replay: until it may go on."""
    id, is_good = ctx.awakeable(bool)
    await ctx.run("tell", lambda: begun.append(id))
    if in_replay.is_set():
        replays.append(gate.wait(seconds))
    return await is_good


@approvals.handler()
async def grows(ctx: Context, count: int) -> bool:
    id, is_good = ctx.awakeable(bool)
    begun.append(id)
    for _ in range(count):
        await ctx.run("step", lambda: None)
    return await is_good


@support.on_each_database
class Awakeables(support.OnADatabase):
    def with_ids(self, test, **options):
        """Runs a test with an invocation that waits, and the ids of its awakeables."""
        begun.clear()

        async def go():
            async with Served(App(approvals), self.url, SMALL, **options) as served:
                _, made, _ = await served.ask("/A/asks/send", "ann")
                await served.until(lambda: begun)
                await test(served, made["invocation"], *begun[0][1:])

        asyncio.run(go())

    async def resolved(self, served, id, value, what="resolve"):
        status, said, _ = await served.ask(f"/-/awakeables/{id}/{what}", value)
        return status, said.get("message", "")

    def test_each_is_completed_once_with_its_type(self):
        async def test(served, invocation, first, second):
            wrong = await self.resolved(served, first, "yes")
            self.assertEqual(wrong, (400, 'the value of the awakeable: "yes" is no bool'))
            self.assertEqual((await self.resolved(served, second, True))[0], 400)
            self.assertEqual(await served.rows("SELECT 1 FROM inbox"), [])
            self.assertEqual((await self.resolved(served, first, True))[0], 200)
            self.assertEqual(await self.resolved(served, first, False), (409, "the awakeable was completed before"))
            self.assertEqual((await self.resolved(served, first, "no", "reject"))[0], 409)
            self.assertEqual((await self.resolved(served, second, 3))[0], 200)
            self.assertEqual((await served.ask(f"/-/invocations/{invocation}/result", method="GET"))[:2], (200, ["ann", True, 3]))
            self.assertEqual(await self.resolved(served, second, 4), (409, "the invocation of this awakeable has ended"))

        for idle in (0, 60):  # suspended, and with an attempt that waits
            self.with_ids(test, idle=idle)

    def test_one_that_nobody_made(self):
        async def test(served, invocation, first, second):
            number = effects.awakeable_of(second)[1]
            for other in (id_of(invocation, number + 1), id_of("inv_none", number), id_of(f"{invocation}0", number)):
                self.assertEqual((await self.resolved(served, other, True))[0], 404, other)
            self.assertEqual(await served.rows("SELECT 1 FROM inbox"), [])

        self.with_ids(test)

    def test_a_check_does_not_hold_the_loop(self):
        """Of a suspended invocation the stored journal is replayed beside the loop."""
        for it in (begun, replays, in_replay, gate):
            it.clear()

        async def go():
            async with Served(App(approvals), self.url) as served:
                await served.ask("/A/slowly/send", support.LONG)
                while await served.rows("SELECT status FROM invocations") != [("suspended",)]:
                    await asyncio.sleep(0.02)
                in_replay.set()
                asked = asyncio.create_task(self.resolved(served, begun[0], "yes"))
                await served.ask("/-/health", method="GET")
                gate.set()  # by the loop, which a replay in it would hold
                self.assertEqual((await asked)[0], 400)
                self.assertEqual(replays, [True])
                in_replay.clear()

        asyncio.run(go())

    def test_two_at_once(self):
        async def test(served, invocation, first, second):
            answers = await asyncio.gather(*[self.resolved(served, first, True) for _ in range(8)])
            self.assertEqual(sorted(status for status, _ in answers), [200] + [409] * 7)

        self.with_ids(test)

    def test_a_rejection_has_a_text(self):
        async def test(served, invocation, first, second):
            self.assertEqual((await self.resolved(served, first, "x" * 2000, "reject"))[0], 413)
            self.assertEqual((await self.resolved(served, first, b"no, by ann", "reject"))[0], 200)
            status, said, _ = await served.ask(f"/-/invocations/{invocation}/result", method="GET")
            self.assertEqual((status, said), (500, {"code": 500, "message": "no, by ann"}))

        self.with_ids(test)

    def test_of_a_handler_that_has_changed(self):
        """What its awakeables are isn't known any more. So what comes is kept."""
        begun.clear()

        async def go():
            async with Served(App(approvals), self.url) as served:
                await served.ask("/A/changes/send")
                while await served.rows("SELECT status FROM invocations") != [("suspended",)]:
                    await asyncio.sleep(0.02)
                await served.engine.transact(lambda db: db.change("UPDATE timers SET due=0"))
                served.engine.look()
                while await served.rows("SELECT status FROM invocations") != [("paused",)]:
                    await asyncio.sleep(0.02)
                self.assertEqual((await self.resolved(served, begun[0], "yes"))[0], 200)

        asyncio.run(go())


class OfAnotherWorker(support.OnADatabase, unittest.TestCase):
    kind = "postgres"

    def test_an_awakeable_whose_journal_grows(self):
        """Another worker executes it, so this one reads what is stored, again and again while more is."""
        begun.clear()

        async def go():
            async with Served(App(approvals), self.url, limit=0) as served, support.Runtime(App(approvals), self.url) as other:
                id = await other.send("A/grows", 40)
                await served.until(lambda: begun)
                path = f"/-/awakeables/{begun[0]}/resolve"
                said = {(await served.ask(path, "yes"))[0]}
                while (await other.rows("SELECT COUNT(*) FROM journal WHERE invocation=?", id))[0][0] < 81:
                    said.add((await served.ask(path, "yes"))[0])
                self.assertEqual(said, {400})
                self.assertEqual((await served.ask(path, True))[0], 200)
                self.assertEqual(await other.result(id), True)

        asyncio.run(go())


if __name__ == "__main__":
    unittest.main()
