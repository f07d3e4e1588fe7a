"""What is sent to an invocation while it goes on as a new one, by transactions of two connections to a PostgreSQL server that are committed in each order;
and what was sent to one that isn't there any more."""

import asyncio
import contextlib
import unittest
from types import SimpleNamespace
from unittest import mock

import support  # isort: skip
from support import Runtime

from palqytun.effects import Send
from palqytun.runtime import App, Cancelled, Context, Service, acts, chains, continuing, effects, journal
from palqytun.runtime.claiming import Claimer
from palqytun.runtime.committer import After, Committer
from palqytun.runtime.database import connect
from palqytun.runtime.outcome import Outcome

loops = Service("Loops")
SIGNAL, CANCELLATION = journal.named_signal("go", journal.value(b'"went"')), journal.cancellation()
MANY = 12  # of each kind, in the test of many


class Gates:
    """Those at which an invocation that goes on waits, and who sends to it."""

    def __init__(self):
        self.run_begins, self.run_ends = asyncio.Event(), asyncio.Event()
        self.has_read, self.goes_on = asyncio.Event(), asyncio.Event()
        self.has_sent, self.commits = asyncio.Event(), asyncio.Event()


gates: Gates


@loops.handler()
async def waits(ctx: Context, it: str) -> str:
    """Goes on as a new one once it is let, and that one waits for a signal."""
    if it == "first":
        with ctx.shield():
            await ctx.run("gate", pauses)
            ctx.continue_as_new("second")
    try:
        return await ctx.signal("go", str)
    except Cancelled:
        return "cancelled"


async def pauses() -> None:
    gates.run_begins.set()
    await gates.run_ends.wait()


@loops.handler()
async def calls(ctx: Context, it: object) -> str:
    return await ctx.call(waits, "first")


@loops.handler()
async def gathers(ctx: Context, it: dict) -> list:
    """Goes on again and again, each time after some signals, until all have come."""
    it["came"] += [await ctx.signal("go", str) for _ in range(2)]
    if len(it["came"]) < 2 * MANY:
        ctx.continue_as_new(it)
    return it["came"]


app = App(loops)


async def signals(db, out, id):
    """As the client's and the page's."""
    it = chains.Delivery(out, id, SIGNAL)
    assert await it.then(db, await db.several(it.reads(db)))


async def sends(db, out, id):
    """As a handler's."""
    growth = SimpleNamespace(lease=SimpleNamespace(invocation="inv_other"))
    await effects.Performer(db, app, out, growth, "Loops", "", None).perform([Send(id.encode(), SIGNAL, False)])


async def cancels(db, out, id):
    """As a handler's."""
    growth = SimpleNamespace(lease=SimpleNamespace(invocation="inv_other"))
    await effects.Performer(db, app, out, growth, "Loops", "", None).perform([Send(id.encode(), CANCELLATION, False)])


async def is_cancelled(db, out, id):
    """By an operator."""
    assert await acts.one(db, app, out, "cancel", id, "ann") in ("cancelled", "cancelled, before it began")


async def loses_its_caller(db, out, id):
    [(caller,)] = await db.rows("SELECT parent FROM invocations WHERE id=?", (id,))
    assert await acts.one(db, app, out, "kill", caller, "ann") == "killed; 1 calls are cancelled"


UNBEGUN = (409, "cancelled", ())  # the result of one that is cancelled before its first attempt
SENT = {signals: (SIGNAL, ["went"]), sends: (SIGNAL, ["went"])}
SENT |= {it: (CANCELLATION, ["cancelled", UNBEGUN]) for it in (cancels, is_cancelled, loses_its_caller)}
HAS_COME = (
    "SELECT status='done' OR EXISTS (SELECT 1 FROM inbox WHERE invocation=id AND frame=?) OR EXISTS (SELECT 1 FROM journal WHERE invocation=id AND frame=?)"
    " FROM invocations WHERE id=(SELECT continued FROM invocations WHERE id=?)"
)


class Orders(support.OnADatabase, unittest.TestCase):
    kind = "postgres"

    def each(self, order):
        """Each way to send, in an order of transactions: it gets what is sent."""

        async def go():
            async with contextlib.AsyncExitStack() as stack:
                runtime = await stack.enter_async_context(Runtime(app, self.url))
                self.other = Committer(await connect(self.url))
                stack.push_async_callback(self.other.close)
                for sent, (frame, results) in SENT.items():
                    with self.subTest(sent.__name__):
                        await asyncio.wait_for(self.one(runtime, order, sent, frame, results), support.LONG)

        asyncio.run(go())

    async def one(self, runtime, order, sent, frame, results):
        global gates
        gates = Gates()
        caller = await runtime.send("Loops/calls")
        await gates.run_begins.wait()
        [(first,)] = await runtime.rows("SELECT id FROM invocations WHERE parent=?", caller)
        await order(runtime, first, sent)
        self.assertEqual(await runtime.rows(HAS_COME, frame, frame, first), [(True,)])
        self.assertIn(await runtime.result(first), results)

    async def goes_on(self, runtime, first):
        gates.run_ends.set()
        while not await self.has_gone_on(runtime, first):
            await asyncio.sleep(0.01)

    async def has_gone_on(self, runtime, first):
        return (await runtime.rows("SELECT continued FROM invocations WHERE id=?", first))[0][0] is not None

    async def sends(self, sent, first, is_held=False):
        """One transaction, which is held before its commit."""

        async def operation(db):
            await sent(db, Outcome(), first)
            await db.rows("SELECT 1")  # what is queued is made
            gates.has_sent.set()
            if is_held:
                await gates.commits.wait()

        await self.other.submit(operation, is_slow=True)

    async def waits_for_a_lock(self, runtime):
        return bool(await runtime.rows("SELECT 1 FROM pg_locks WHERE NOT granted LIMIT 1"))

    def test_before(self):
        async def order(runtime, first, sent):
            await self.sends(sent, first)
            await self.goes_on(runtime, first)

        self.each(order)

    def test_after(self):
        async def order(runtime, first, sent):
            await self.goes_on(runtime, first)
            await self.sends(sent, first)

        self.each(order)

    def test_after_it_has_read_its_inbox(self):
        """The sender waits for the commit of the one that goes on."""
        arrived = continuing._arrived

        async def paused(db, id):
            found = await arrived(db, id)
            gates.has_read.set()
            await gates.goes_on.wait()
            return found

        async def order(runtime, first, sent):
            with mock.patch.object(continuing, "_arrived", paused):
                gates.run_ends.set()
                await gates.has_read.wait()
                sending = asyncio.create_task(self.sends(sent, first))
                while not (sending.done() or await self.waits_for_a_lock(runtime)):
                    await asyncio.sleep(0.01)
                gates.goes_on.set()
                await self.goes_on(runtime, first)
            await sending

        self.each(order)

    def test_a_sender_that_commits_late(self):
        """The one that goes on waits for the commit of a sender that came before."""

        async def order(runtime, first, sent):
            sending = asyncio.create_task(self.sends(sent, first, is_held=True))
            await gates.has_sent.wait()
            gates.run_ends.set()
            while not (await self.waits_for_a_lock(runtime) or await self.has_gone_on(runtime, first)):
                await asyncio.sleep(0.01)
            gates.commits.set()
            await sending
            await self.goes_on(runtime, first)

        self.each(order)


class Many(support.OnADatabase, unittest.TestCase):
    kind = "postgres"

    def test_none_is_lost(self):
        """Two senders, each of which has its own order, and a receiver that goes on all the time."""

        async def go():
            async with Runtime(app, self.url) as runtime:
                others = [Committer(await connect(self.url)) for _ in range(2)]
                first = await runtime.send("Loops/gathers", {"came": []})

                async def sent(to, name):
                    for at in range(MANY):
                        it = chains.Delivery(Outcome(), first, journal.named_signal("go", journal.value(f'"{name} {at:02d}"'.encode())))
                        self.assertTrue(await to.follow(After(it.reads, it.then)))

                await asyncio.gather(*(sent(to, name) for to, name in zip(others, "ab")))
                came = await runtime.result(first)
                for it in others:
                    await it.close()
                return came

        came = asyncio.run(asyncio.wait_for(go(), support.LONG))
        for name in "ab":
            self.assertEqual([it for it in came if it[0] == name], [f"{name} {at:02d}" for at in range(MANY)])


@support.on_each_database
class Left(support.OnADatabase):
    def test_what_came_for_one_that_is_not_there_any_more(self):
        """It is removed by and by: of one that has ended, and of one that is purged. What is for others stays."""

        async def go():
            async with Runtime(app, self.url) as runtime:
                ids = [await runtime.send("Loops/waits", "second", due=4e9) for _ in range(3)]
                for id in ids:
                    self.assertTrue(await runtime.engine.notify(id, SIGNAL))
                await runtime.engine.transact(lambda db: db.change("UPDATE invocations SET status='done' WHERE id=?", (ids[0],)))
                await runtime.engine.transact(lambda db: db.change("DELETE FROM invocations WHERE id=?", (ids[1],)))
                await runtime.engine.transact(Claimer("another", app, support.LEASE).sweep)
                self.assertEqual(await runtime.rows("SELECT invocation FROM inbox"), [(ids[2],)])

        asyncio.run(go())


if __name__ == "__main__":
    unittest.main()
