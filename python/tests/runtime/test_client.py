"""Programs that are no handlers: a worker within one, clients with a connection of their own, and services of several apps on one database."""

import asyncio
import contextlib
import dataclasses
import math
import time
import unittest
from unittest import mock

import support  # isort: skip

from palqytun.runtime import App, BadName, Client, Context, Engine, Service, TerminalError, Unavailable, VirtualObject, Workflow
from palqytun.runtime.database import Conflict, connect
from palqytun.runtime.database.postgres import Postgres
from palqytun.runtime.database.sqlite import InUse

shop, stock, visa = Service("Shop"), VirtualObject("Stock"), Workflow("Visa")
made = []


@dataclasses.dataclass
class Order:
    item: str
    count: int = 1


@shop.handler()
async def order(ctx: Context, it: Order) -> Order:
    left = await ctx.call("Stock/take", it.count, key=it.item)
    return Order(it.item, left)


@shop.handler()
async def waits(ctx: Context, it: str) -> list:
    id, paid = ctx.awakeable(int)
    made.append(id)
    return [await paid, await ctx.signal("go", str)]


@shop.handler()
async def refuses(ctx: Context, it: str) -> None:
    raise TerminalError(it, 418, {"why": "tea"})


@shop.handler()
async def asks(ctx: Context, it: str) -> str:
    try:
        return await ctx.call(it, "x")
    except TerminalError as error:
        return f"{error.code} {error.message}"


@stock.handler()
async def take(ctx: Context, count: int) -> int:
    left = (await ctx.get("left", int) or 10) - count
    ctx.set("left", left)
    return left


@stock.shared()
async def left(ctx: Context, _: None) -> int:
    return await ctx.get("left", int) or 10


@visa.main()
async def main(ctx: Context, name: str) -> str:
    return name


app = App(shop, stock, visa)


@support.on_each_database
class Clients(support.OnADatabase):
    def setUp(self):
        super().setUp()
        made.clear()

    def with_client(self, test):
        """The test with the client of a worker, and with one of its own."""

        async def go():
            async with Engine(app, self.url, idle=0, poll=0.1, lease=support.LEASE) as engine:
                await test(engine.client, "by its worker")
                async with Client(app, self.url) as client:
                    await test(client, "by itself")

        asyncio.run(asyncio.wait_for(go(), support.LONG))

    def test_calls(self):
        async def go(client, way):
            self.assertEqual(await client.call(order, Order(way, 3)), Order(way, 7))
            self.assertEqual(await client.call("Shop/order", {"item": way}), Order(way, 6))
            self.assertEqual(await client.call(left, key=way), 6)
            sent = [await client.send(take, 1, key=way, idempotency_key="once") for _ in range(2)]
            self.assertEqual([await it.result() for it in sent], [5, 5])
            self.assertEqual(await client.invocation(sent[0].id, int).result(), 5)
            self.assertEqual(await client.call(main, "ann", key=way), await client.call(main, "other", key=way))
            later = await client.send(take, 1, key=way, delay=36_000)
            with self.assertRaises(TimeoutError):
                await later.result(wait=0.1)

        self.with_client(go)

    def test_signals_awakeables_and_cancellation(self):
        async def go(client, way):
            sent = await client.send(waits, way)
            while not made:
                await asyncio.sleep(0.01)
            self.assertTrue(await client.resolve_awakeable(made[0], 5) and await sent.signal("go", "gone"))
            self.assertEqual(await sent.result(), [5, "gone"])
            self.assertFalse(await sent.signal("go", "gone"))
            made.clear()
            sent = await client.send(waits, way)
            while not made:
                await asyncio.sleep(0.01)
            self.assertTrue(await client.reject_awakeable(made[0], "no", 402))
            with self.assertRaises(TerminalError) as raised:
                await sent.result()
            self.assertEqual((raised.exception.code, raised.exception.message), (402, "no"))
            made.clear()
            sent = await client.send(waits, way)
            self.assertTrue(await sent.cancel())
            with self.assertRaises(TerminalError) as raised:
                await sent.result()
            self.assertEqual(raised.exception.code, 409)
            self.assertFalse(await sent.cancel())
            made.clear()

        self.with_client(go)

    def test_refusals(self):
        async def go(client, way):
            cases = [
                (("Shop/none",), {}, 404, "there is no handler Shop/none, of this app or of a worker that is alive"),
                (("None/order",), {}, 404, "there is no handler None/order, of this app or of a worker that is alive"),
                ((take, 1), {}, 400, "Stock/take is called with a key"),
                ((order, Order("x")), {"key": "k"}, 400, "Shop/order is called without a key"),
                ((order, "x"), {}, 400, "the argument of Shop/order: "),
                ((take, 1), {"key": "k" * 1001}, 400, "the key has "),
                ((refuses, "no tea"), {}, 418, "no tea"),
            ]
            for delay in (math.nan, math.inf, 1e11):
                with self.subTest(delay=delay, way=way), self.assertRaises(TerminalError) as raised:
                    await client.send(refuses, "x", delay=delay)
                self.assertEqual((raised.exception.code, raised.exception.message), (400, f"the delay is {delay}, and 10000000000 seconds are allowed"))
            for given, named, code, text in cases:
                with self.subTest(text, way=way), self.assertRaises(TerminalError) as raised:
                    await client.call(*given, **named)
                self.assertEqual((raised.exception.code, raised.exception.message[: len(text)]), (code, text))
            self.assertEqual(raised.exception.metadata, (("why", "tea"),))
            with self.assertRaises(TerminalError) as raised:
                await client.invocation("inv_none").result()
            self.assertEqual(raised.exception.code, 404)

        self.with_client(go)

    def test_names_that_no_database_has(self):
        """They are refused before anything is asked of the database, with what is allowed."""

        async def go(client, way):
            there = await client.call(order, Order(way))
            for name, why in (
                ("a\0b", "has the character NUL: a name has at most 1000 bytes in UTF-8, and no NUL"),
                ("n" * 1001, "has 1001 bytes in UTF-8, and 1000 are allowed"),
                ("\ud800", "has half of a surrogate pair, and so no UTF-8"),
            ):
                sent = client.invocation(name)
                for what, call in {
                    "the invocation's id": [sent.result, sent.cancel, lambda: sent.signal("go"), lambda: client._desk.act("kill", name, "me")],
                    "the service's name": [lambda: client.send(f"{name}/order", 1)],
                    "the handler's name": [lambda: client.send(f"Shop/{name}", 1)],
                    "the key": [lambda: client.send(take, 1, key=name)],
                    "the idempotency key": [lambda: client.send(order, Order(way), idempotency_key=name)],
                    "the queue key": [lambda: client.send(order, Order(way), queue_key=name)],
                }.items():
                    for one in call:
                        with self.subTest(what, name=name[:5], way=way), mock.patch.object(client._desk, "transact", None):
                            with self.assertRaises(BadName) as raised:
                                await one()
                            self.assertEqual((raised.exception.code, raised.exception.message), (400, f"{what} {why}"))
            self.assertEqual(await client.call(order, Order(way)), Order(way, there.count - 1))  # the connection is as before

        self.with_client(go)

    def test_a_client_that_is_not_open(self):
        with self.assertRaises(Unavailable):
            asyncio.run(Client(app, self.url).call(order, Order("x")))

    def test_a_worker_whose_database_can_not_be_used(self):
        async def go():
            async with Engine(app, self.url, idle=0, poll=0.1), Engine(app, self.url):
                pass

        if self.kind == "sqlite":
            with self.assertRaises(InUse):
                asyncio.run(asyncio.wait_for(go(), support.LONG))


class Several(support.OnADatabase, unittest.TestCase):
    kind = "postgres"

    def test_services_of_several_apps(self):
        """A call of a service that another app serves is an invocation like any other; it is refused if nobody serves it."""

        async def go():
            async with Engine(App(shop), self.url, idle=0, poll=0.1, lease=support.LEASE) as one:
                self.assertEqual(await one.client.call(asks, "Stock/left"), "404 there is no handler Stock/left, of this app or of a worker that is alive")
                async with Engine(App(stock, visa), self.url, idle=0, poll=0.1, lease=support.LEASE) as other:
                    self.assertEqual(await one.client.call(order, Order("pen", 4)), Order("pen", 6))
                    self.assertEqual(await other.client.call("Shop/order", Order("pen", 1)), {"item": "pen", "count": 5})
                    self.assertEqual(await one.client.call("Stock/left", key="pen"), 5)
                    self.assertEqual(await one.client.call(asks, "Stock/take"), "400 Stock/take is called with a key")
                    async with Client(App(), self.url) as client:
                        self.assertEqual(await client.call("Shop/order", {"item": "ink"}), {"item": "ink", "count": 9})
                        self.assertEqual(await client.call("Visa/main", "ann", key="v"), "ann")
                self.assertIn("404 there is no handler Stock/take", await one.client.call(asks, "Stock/take"))

        asyncio.run(asyncio.wait_for(go(), support.LONG))

    def test_a_client_whose_connection_is_lost(self):
        async def go():
            async with Engine(app, self.url, idle=0, poll=0.1, lease=support.LEASE), Client(app, self.url) as client:
                sent = await client.send(waits, "x")
                result = asyncio.create_task(sent.result())
                other = await connect(self.url)
                await other.rows("SELECT pg_terminate_backend(pid) FROM pg_stat_activity WHERE datname=current_database() AND pid<>pg_backend_pid()")
                other.close()
                with contextlib.suppress(Unavailable):
                    await result
                while True:
                    with contextlib.suppress(Unavailable):
                        await sent.cancel()
                        break
                    await asyncio.sleep(0.05)
                with self.assertRaises(TerminalError) as raised:
                    await sent.result()
                self.assertEqual(raised.exception.code, 409)

        asyncio.run(asyncio.wait_for(go(), support.LONG))

    def test_a_client_and_a_worker_that_come_to_a_standby(self):
        """Nobody listens to a standby. They try again, by and by, until it is a server that they can use."""
        tries, listening = [], Postgres._listening

        async def refused(db, worker):
            tries.append(time.monotonic())
            if tries[-1] < tries[0] + 1:
                raise Conflict("cannot execute LISTEN during recovery")
            return await listening(db, worker)

        async def go():
            async with Engine(app, self.url, idle=0, poll=0.1, lease=support.LEASE), Client(app, self.url) as client:
                with mock.patch.object(Postgres, "_listening", refused):
                    other = await connect(self.url)
                    await other.rows("SELECT pg_terminate_backend(pid) FROM pg_stat_activity WHERE datname=current_database() AND pid<>pg_backend_pid()")
                    other.close()
                    while not tries or tries[-1] < tries[0] + 1:
                        await asyncio.sleep(0.05)
                    while True:
                        with contextlib.suppress(Unavailable):
                            await client.send(waits, "x")
                            break
                        await asyncio.sleep(0.05)
                while len(made) < 1:
                    await asyncio.sleep(0.05)

        asyncio.run(asyncio.wait_for(go(), support.LONG))
        self.assertLess(len(tries), 30)


if __name__ == "__main__":
    unittest.main()
