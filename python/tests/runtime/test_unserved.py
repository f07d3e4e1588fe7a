"""Sends to handlers that no worker serves, and sends that their handler never takes: none is dropped without a word."""

import asyncio
import logging
import unittest
from unittest import mock

import support  # isort: skip
from palqytun.runtime import App, Context, ObjectContext, Queue, Service, TerminalError, VirtualObject, Workflow, WorkflowContext, operate, unserved

shop, mail, stock, visa = Service("Shop"), Service("Mail"), VirtualObject("Stock"), Workflow("Visa")
LETTERS = Queue("letters", concurrency=2)
done: list[str] = []


@shop.handler()
async def sends(ctx: Context, it: list) -> str:
    """Sends [path, argument, options]."""
    path, argument, options = it
    return await ctx.send(path, argument, **options)


@mail.handler(queue=LETTERS, timeout=3600)
async def letter(ctx: Context, to: str) -> str:
    done.append(f"letter {to}")
    return f"sent to {to}"


@stock.handler()
async def take(ctx: ObjectContext, count: int) -> int:
    done.append(f"{ctx.key} {count}")
    ctx.set("taken", left := (await ctx.get("taken", int) or 0) + count)
    return left


@visa.main()
async def main(ctx: WorkflowContext, name: str) -> str:
    return name


@support.on_each_database
class Unserved(support.OnADatabase):
    def setUp(self):
        super().setUp()
        done.clear()

    def within(self, test, *services):
        async def go():
            async with support.Runtime(App(shop, *services), self.url, idle=0.0) as runtime:
                return await test(runtime)

        return asyncio.run(asyncio.wait_for(go(), support.LONG))

    def sent(self, path, argument=None, **options):
        """The id of what a handler has sent while nobody served it."""

        async def go(runtime):
            return await runtime.call("Shop/sends", [path, argument, options])

        return self.within(go)

    def row(self, id):
        return self.within(lambda runtime: runtime.engine.transact(lambda db: operate.invocation(db, id)))

    def stored(self, id, columns):
        [found] = self.within(lambda runtime: runtime.rows(f"SELECT {columns} FROM invocations WHERE id=?", id))
        return tuple(found)

    def results(self, *ids):
        async def go(runtime):
            return [await runtime.result(id) for id in ids]

        return self.within(go, mail, stock, visa)

    def test_it_waits_for_a_worker_and_is_seen(self):
        with self.assertLogs("palqytun", logging.WARNING) as logged:
            id = self.sent("Mail/letter", "ann", queue_key="example.org", priority=5)
        said = "404 there is no handler Mail/letter, of this app or of a worker that is alive"
        self.assertIn(f"Mail/letter {id} waits for a worker that serves it: {said}", [it.getMessage() for it in logged.records])
        row = self.row(id)
        self.assertEqual((row["status"], row["error"], row["entries"], row["epoch"]), ("paused", said, 1, 0))
        self.assertEqual(self.results(id), ["sent to ann"])
        self.assertEqual(self.stored(id, "status, error, how"), ("done", None, "ended"))
        *queued, left = self.stored(id, "queue, queue_key, priority, exclusive, deadline-due")
        self.assertEqual((*queued, round(left)), ("letters", "example.org", 5, 0, 3600))
        self.assertEqual(done, ["letter ann"])

    def test_calls_of_a_key_keep_their_order_and_its_lock(self):
        ids = [self.sent("Stock/take", count, key="pen") for count in (1, 2, 3)]
        self.assertEqual(self.results(*ids), [1, 3, 6])
        self.assertEqual(done, ["pen 1", "pen 2", "pen 3"])

    def test_one_that_is_to_begin_later(self):
        id = self.sent("Mail/letter", "ann", delay=3600)

        async def go(runtime):
            await runtime.until(id, "ready")
            [(left,)] = await runtime.rows("SELECT due-created FROM invocations WHERE id=?", id)
            return left

        self.assertGreater(self.within(go, mail), 3500)
        self.assertEqual(done, [])

    def test_an_idempotency_key(self):
        ids = [self.sent("Mail/letter", "ann", idempotency_key="one") for _ in range(2)]
        self.assertEqual(self.results(ids[0]), ["sent to ann"])
        self.assertEqual(done, ["letter ann"])

    def test_a_workflow_runs_once_a_key(self):
        ids = [self.sent("Visa/main", name, key="ann") for name in ("first", "second")]
        first, second = self.results(*ids)
        self.assertEqual((first, second[:2]), ("first", (409, f"Visa/main runs once a key, and {ids[0]} is that of this key")))

    def test_what_the_handler_never_takes_has_failed(self):
        """Also once it is known how it is called."""
        id, served = self.sent("Stock/take", 1), "400 Stock/take is called with a key"
        self.assertEqual(self.row(id)["status"], "paused")
        self.assertEqual(self.results(id)[0][:2], (400, served[4:]))

        async def go(runtime):
            return await runtime.call("Shop/sends", ["Stock/take", 1, {}])

        with self.assertLogs("palqytun", logging.INFO) as logged:
            id = self.within(go, stock)
        self.assertIn(f"Stock/take {id} failed: {served}", [it.getMessage() for it in logged.records])
        self.assertEqual((self.row(id)["status"], *self.stored(id, "failed, error, how")), ("failed", 400, served, "refused"))
        self.assertEqual(done, [])

    def test_acts(self):
        """It can be cancelled, killed and made again, and isn't resumed: nobody could go on with it."""
        ids = [self.sent("Mail/letter", name) for name in ("ann", "bob")]

        async def go(runtime):
            with self.assertRaises(TerminalError) as raised:
                await runtime.engine.act("resume", ids[0], "me")
            self.assertEqual(raised.exception.message, f"{ids[0]} waits for a worker that serves Mail/letter, and goes on by itself once there is one")
            self.assertEqual(await runtime.engine.act("pause", ids[0], "me"), "is paused")
            return [await runtime.engine.act(name, id, "me") for name, id in zip(("cancel", "kill"), ids)]

        self.assertEqual(self.within(go), ["cancelled, before it began", "killed"])
        self.assertEqual([it[0] for it in self.results(*ids)], [409, 409])
        self.assertEqual(done, [])

    def test_names_that_no_database_stores(self):
        async def go(runtime):
            return [await runtime.call("Shop/sends", [path, 1, {}]) for path in ("S" * 1001 + "/take", "Stock/" + "t" * 1001)]

        for found, what in zip(self.within(go), ("service", "handler")):
            self.assertEqual(found[:2], (400, f"the {what}'s name has 1001 bytes in UTF-8, and 1000 are allowed"))

    def test_a_call_is_refused(self):
        """Its caller hears of it."""
        calls = Service("Calls")

        @calls.handler()
        async def go(ctx: Context, _: None) -> str:
            try:
                return await ctx.call("Mail/letter", "ann")
            except TerminalError as error:
                return f"{error.code}"

        self.assertEqual(self.within(lambda runtime: runtime.call("Calls/go"), calls), "404")


class Alive(support.OnADatabase, unittest.TestCase):
    """Several workers."""

    kind = "postgres"

    def test_workers_that_come_while_it_is_made(self):
        """One that began before the send was stored finds it by its next look."""

        async def go():
            async with support.Runtime(App(shop), self.url, idle=0.0) as one:
                id = await one.call("Shop/sends", ["Mail/letter", "ann", {}])
                async with support.Runtime(App(mail), self.url, idle=0.0, lease=1.0) as other:
                    self.assertEqual(await one.result(id), "sent to ann")
                    sql = "UPDATE invocations SET status='paused', how='unserved', error='404 ..', epoch=0, queue=NULL, queue_key=key, result=NULL WHERE id=?"
                    second = await one.call("Shop/sends", ["Mail/letter", "bob", {"delay": 3600}])
                    await one.engine.transact(lambda db: db.change(f"{sql} AND status='ready'", (second,)))
                    await other.until(second, "ready")

        asyncio.run(asyncio.wait_for(go(), support.LONG))

    def test_many(self):
        """More than one transaction looks at."""

        async def go():
            async with support.Runtime(App(shop), self.url, idle=0.0) as one:
                ids = [await one.call("Shop/sends", ["Stock/take", 1, {"key": f"k{number}"}]) for number in range(7)]
                async with support.Runtime(App(stock), self.url, idle=0.0):
                    self.assertEqual([await one.result(id) for id in ids], [1] * 7)

        with mock.patch.object(unserved, "_AT_ONCE", 3):
            asyncio.run(asyncio.wait_for(go(), support.LONG))


if __name__ == "__main__":
    unittest.main()
